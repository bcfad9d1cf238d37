"""Who may do what at a server with access lists: commands by name and by category, keys by pattern, channels of notes; and the categories that the module
asks for at a later Redis, which is played by functions of this file."""
import ctypes
import unittest

from servers import MODULE, Server, asked

# commands that edit, and that ask, each at keys with some beginning
EDITS = ["LV.PUSH {0}list 1", "LV.SET {0}list 0 1", "LV.POP {0}list", "LV.SWAP {0}list 0 1", "LV.TRUNCATE {0}list 2", "LV.EXPIRE {0}list INDEX 0", "LV.ADD {0}times 9 1", "LV.RETAIN {0}times 0"]
EDITS += ["LV.WATCH {0}list w sum", "LV.UNWATCH {0}list w", "LV.MADD {0}times 9 1 {0}times 9 1", "LV.RESTORE {0}new x", "TS.ADD {0}times 9 1", "TS.MADD {0}times 9 1 {0}times 9 1"]
ASKS = ["LV.VALUE {0}list sum", "LV.MVALUE sum ALL {0}list {0}times", "LV.FIND {0}list FIRST ATLEAST 1", "LV.REACH {0}list 1", "LV.WHERE {0}list min", "LV.RANGE {0}list", "LV.SCAN {0}list sum"]
ASKS += ["LV.INFO {0}list", "LV.WATCHES {0}list", "LV.SUMMARY {0}list", "TS.GET {0}times", "TS.RANGE {0}times - +"]
# several keys, of which the last one is another's
MIXED = ["LV.MVALUE sum ALL a:list a:times b:list", "LV.MVALUE sum LAST 2 b:list a:list", "LV.MADD a:times 9 1 b:times 9 1", "TS.MADD b:times 9 1 a:times 9 1", "COPY a:list b:new", "RENAME a:list b:new"]


class Access(unittest.TestCase):
    @classmethod
    def setUpClass(cls):
        cls.server = Server().start()
        cls.client = cls.server.client()

    @classmethod
    def tearDownClass(cls):
        cls.server.close()

    def setUp(self):
        self.client.flushall()
        for key in "ab":
            self.client.execute_command("LV.PUSH", f"{key}:list", 1, 2, 3)
            self.client.execute_command("LV.ADD", f"{key}:times", 1, 5)

    def user(self, *rules):
        self.client.execute_command("ACL", "SETUSER", "user", "reset", "on", "nopass", *rules)
        user = self.server.client(username="user", password="any")
        user.response_callbacks.clear()
        return user

    def may(self, user, lines, *keys):
        for line in lines:
            self.assertNotIn("permission", str(asked(user, *line.format(*keys).split())), line)

    def may_not(self, user, lines, *keys):
        before = self.client.execute_command("DEBUG", "DIGEST")
        for line in lines:
            self.assertIn("permission", str(asked(user, *line.format(*keys).split())), line)
        self.assertEqual(self.client.execute_command("DEBUG", "DIGEST"), before)

    def named(self, category):
        """The commands of the module that a server has in a category."""
        return {it.decode() for it in self.client.execute_command("ACL", "CAT", category) if it.startswith((b"lv.", b"ts."))}

    def test_a_user_who_may_read(self):
        """By categories where Redis has them of a module's commands, as 7.0 hasn't; there commands are granted by name."""
        reads, writes = self.named("read"), self.named("write")
        self.assertTrue("lv.value" in reads and "lv.push" in writes and not reads & writes or not reads | writes)
        user = self.user("~*", "+@read", "-@write")
        if not reads:
            self.may_not(user, ASKS + EDITS, "a:")
            user = self.user("~*", "+@read", "-@write", *("+" + line.split()[0].lower() for line in ASKS))
        self.may(user, ASKS, "a:")
        self.may_not(user, EDITS, "a:")

    def test_keys_that_may_be_read(self):
        """A pattern for reading keeps edits off, whatever commands are granted."""
        user = self.user("%R~a:*", "+@all")
        self.may(user, ASKS, "a:")
        self.may_not(user, EDITS, "a:")
        self.may_not(user, ASKS, "b:")

    def test_keys_that_may_be_written(self):
        """A pattern for writing lets in what adds elements, and retentions."""
        user = self.user("%W~a:*", "+@all")
        self.may(user, ["LV.PUSH {0}list 1", "LV.ADD {0}times 9 1", "LV.MADD {0}times 9 1", "TS.ADD {0}times 9 1", "LV.RETAIN {0}times 0"], "a:")
        self.may_not(user, ["LV.SET {0}list 0 1", "LV.POP {0}list", "LV.TRUNCATE {0}list 1", "LV.EXPIRE {0}list INDEX 1", "LV.WATCH {0}list w sum", *ASKS], "a:")

    def test_keys_of_a_pattern(self):
        user = self.user("~a:*", "+@all")
        self.may_not(user, ASKS + EDITS, "b:")
        self.may_not(user, MIXED)
        summary = user.execute_command("LV.SUMMARY", "a:list")
        self.assertEqual(user.execute_command("LV.COMBINE", summary, summary)[1], 12)
        self.may(user, ASKS + EDITS, "a:")

    def test_channels_of_notes(self):
        user = self.user("~a:*", "+@all", "resetchannels", "&livevec:a:*")
        self.may(user, ["SUBSCRIBE livevec:a:list"])
        self.may_not(self.user("~a:*", "+@all", "resetchannels", "&livevec:a:*"), ["SUBSCRIBE livevec:b:list"])


class Categories(unittest.TestCase):
    """What the module tells a Redis that has categories of a module's commands, and categories of its own or not."""

    def told(self, has_own):
        """The categories of each command, told to functions that are all said to be there."""
        told, kept = {}, []
        number, text, pointer = ctypes.c_int, ctypes.c_char_p, ctypes.c_void_p
        made = {
            "IsModuleNameBusy": ctypes.CFUNCTYPE(number, text)(lambda name: 0),
            "CreateDataType": ctypes.CFUNCTYPE(pointer, pointer, text, number, pointer)(lambda *_: 1),
            "GetCommand": ctypes.CFUNCTYPE(pointer, pointer, text)(lambda _, name: kept.append(ctypes.create_string_buffer(name)) or ctypes.addressof(kept[-1])),
            "SetCommandACLCategories": ctypes.CFUNCTYPE(number, text, text)(lambda name, categories: told.update({name.decode(): categories.decode().split()}) or 0),
            "AddACLCategory": ctypes.CFUNCTYPE(number, pointer, text)(lambda _, name: int(name != b"livevec" or not has_own)),
        }
        other = ctypes.CFUNCTYPE(number)(lambda: 0)

        def get(name, place):
            ctypes.cast(place, ctypes.POINTER(pointer))[0] = ctypes.cast(made.get(name.decode()[len("RedisModule_") :], other), pointer).value
            return 0

        getter = ctypes.CFUNCTYPE(number, text, pointer)(get)
        context = (pointer * 1)(ctypes.cast(getter, pointer).value)
        self.assertEqual(ctypes.CDLL(MODULE).RedisModule_OnLoad(context, None, 0), 0)
        return told

    def test_categories(self):
        for has_own in (True, False):
            told = self.told(has_own)
            commands = {line.split()[0].lower(): "write" for line in EDITS} | {line.split()[0].lower(): "read" for line in ASKS} | {"lv.combine": "read"}
            slow = {"lv.range", "lv.scan", "lv.summary", "lv.watch", "lv.unwatch", "lv.restore", "ts.range"}
            self.assertEqual(told, {name: [access, "slow" if name in slow else "fast"] + ["livevec"] * has_own for name, access in commands.items()})


if __name__ == "__main__":
    unittest.main()
