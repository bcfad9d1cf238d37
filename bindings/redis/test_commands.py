"""Each command of the module for Redis compared with a plain list, through redis-py and redis-cli; and how words and keys that it can't take are refused."""
import math
import os
import random
import subprocess
import unittest

from plain_list import PlainList
from servers import Server, asked

SESSIONS = int(os.environ.get("REDIS_SESSIONS", "300"))
KINDS = ("sum", "min", "max", "best", "affine", "automaton")
ASKED = KINDS + ("count", "mean", "exactsum")
NUMBERS = (0, 1, -1, 5, 255, 256, -257, 1000, 2**62, -(2**62), 2**63 - 1, -(2**63))


class Session:
    """One key, and the same list in plain Python, through a number of random commands."""

    def __init__(self, test, client, seed):
        self.test, self.client, self.seed = test, client, seed
        self.random, self.key = random.Random(seed), f"key{seed}"
        self.list = PlainList(self.random.random() < 0.5)
        self.commands = [self.grow] * 5 + [self.edit] * 3 + [self.value] * 4 + [self.entries, self.scan, self.search]

    def number(self):
        return self.random.choice((self.random.choice(NUMBERS), self.random.randrange(-300, 300)))

    def index(self):
        return max(0, self.list.first - 1 + self.random.randrange(len(self.list.values) + 3))

    def time(self):
        return (self.list.times or [0])[-1] + self.random.randrange(-3, 12)

    def window(self):
        form = self.random.choice(("", "ALL", "INDEX", "LAST", "TIME", "WITHIN"))
        if form in ("", "ALL"):
            return [form] if form else []
        if form in ("LAST", "WITHIN"):
            return [form, self.random.randrange(40)]
        take = self.index if form == "INDEX" else lambda: self.time() - self.random.randrange(40)
        ends = sorted((take(), take()), reverse=self.random.random() < 0.05)
        if form == "TIME" and self.random.random() < 0.2:
            ends[self.random.randrange(2)] = None
            ends = [ends[0] if ends[0] is not None else "-", ends[1] if ends[1] is not None else "+"]
        return [form, *ends]

    def bounds(self):
        return self.random.choice(([], sorted((self.index(), self.index()))))

    def check(self, wanted, *words):
        reply = asked(self.client, words[0], self.key, *words[1:])
        if "mean" in words:
            reply, wanted = self.means(reply), self.means(wanted)
        self.test.assertEqual(reply, wanted, f"seed {self.seed}: {words}")

    def means(self, reply):
        """A mean may be a neighbour of the nearest double."""
        return [self.means(it) for it in reply] if isinstance(reply, list) else float(f"{float(reply):.13g}") if isinstance(reply, (str, float)) and not str(reply).startswith("!") else reply

    def grow(self):
        if self.list.has_times:
            time, x = self.time(), self.number()
            self.check(self.list.add(time, x), "LV.ADD", time, x)
        else:
            values = [self.number() for _ in range(self.random.choice((1, 1, 3, 70)))]
            self.check(self.list.push(*values), "LV.PUSH", *values)

    def edit(self):
        if not self.list.edits:
            return
        i, j, x, time = self.index(), self.index(), self.number(), self.time() - 20
        edits = [(self.list.set, "LV.SET", i, x), (self.list.pop, "LV.POP"), (self.list.swap, "LV.SWAP", i, j), (self.list.expire, "LV.EXPIRE", "INDEX", min(i, self.list.first + 5))]
        edits += [(self.list.truncate, "LV.TRUNCATE", max(i, self.list.size - 5)), (self.list.expire, "LV.EXPIRE", "BEFORE", time)]
        if self.list.has_times:
            edits.append((self.list.retain, "LV.RETAIN", self.random.choice((0, 30, 100))))
        call, *words = self.random.choice(edits)
        self.check(call(*words[1:]), *words)

    def asks(self, wanted, *words):
        """The reply about a missing key is null."""
        self.check(wanted if self.list.edits else None, *words)

    def value(self):
        kind, window = self.random.choice(ASKED), self.window()
        self.asks(self.list.value(kind, *window), "LV.VALUE", kind, *window)

    def entries(self):
        window, span, kind = self.window(), self.random.randrange(1, 30), self.random.choice(ASKED)
        self.asks(self.list.entries(*window), "LV.RANGE", *window)
        some = self.list.entries(*window)
        self.asks(some if isinstance(some, str) else some[:3], "LV.RANGE", *window, "COUNT", 3)
        self.asks(self.list.buckets(span, kind, *window), "LV.RANGE", *window, "BUCKET", span, kind)

    def scan(self):
        kind, window, exclusive = self.random.choice(KINDS), self.window(), self.random.random() < 0.5
        self.asks(self.list.scan(kind, exclusive, *window), "LV.SCAN", kind, *["EXCLUSIVE"] * exclusive, *window)

    def search(self):
        bounds, x, kind = self.bounds(), self.number(), self.random.choice(("min", "max", "best"))
        which, form = self.random.choice(("FIRST", "LAST")), self.random.choice(("ATLEAST", "ATMOST"))
        self.asks(self.list.find(which, form, x, *bounds), "LV.FIND", which, form, x, *bounds)
        self.asks(self.list.reach(x, *bounds), "LV.REACH", x, *bounds)
        if len(self.list.values) < 60:
            self.asks(self.list.where(kind, *bounds), "LV.WHERE", kind, *bounds)

    def run(self):
        for _ in range(self.random.randrange(10, 60)):
            self.random.choice(self.commands)()
        if self.list.edits:
            info = asked(self.client, "LV.INFO", self.key)
            info = dict(zip(info[::2], info[1::2]))
            wanted = {"form": "samples" if self.list.has_times else "series", "first": self.list.first, "size": self.list.size, "edits": self.list.edits, "retention": self.list.retention}
            self.test.assertEqual({name: info[name] for name in wanted}, wanted)


class Commands(unittest.TestCase):
    @classmethod
    def setUpClass(cls):
        cls.server = Server().start()
        cls.client, cls.plain = cls.server.client(), cls.server.client()
        cls.plain.response_callbacks.clear()

    @classmethod
    def tearDownClass(cls):
        cls.server.close()

    def setUp(self):
        self.client.flushall()

    def ask(self, line):
        return asked(self.plain, *line.split())

    def test_random_sessions(self):
        for seed in range(SESSIONS):
            Session(self, self.client, seed).run()

    def test_redis_cli_says_the_same(self):
        lines = [("LV.PUSH prices 300 120 500 80", "4"), ("LV.SET prices 0 180", "5\n300"), ("LV.VALUE prices sum", "5\n880"), ("lv.value prices min INDEX 0 2", "5\n120")]
        lines += [("LV.WHERE prices best", "5\n0\n4"), ("LV.FIND prices FIRST ATLEAST 400", "5\n2"), ("LV.POP prices", "6\n80"), ("LV.RANGE prices LAST 2", "120\n500")]
        for line, wanted in lines:
            said = subprocess.run(["redis-cli", "-s", self.server.path, *line.split()], capture_output=True, text=True, timeout=60, check=True).stdout
            self.assertEqual(said.strip(), wanted, line)
        # by the third version of the protocol, which has maps and doubles
        for line, wanted in (("LV.VALUE prices mean LAST 2", "1) (integer) 6\n2) (double) 310"), ("LV.INFO prices", '1# "form" => "series"')):
            said = subprocess.run(["redis-cli", "-3", "--no-raw", "-s", self.server.path, *line.split()], capture_output=True, text=True, timeout=60, check=True).stdout
            self.assertTrue(said.startswith(wanted), said)

    def test_keys_that_are_not_there(self):
        for line in ("LV.VALUE k sum", "LV.RANGE k", "LV.SCAN k sum", "LV.INFO k", "LV.WATCHES k", "LV.SUMMARY k", "LV.FIND k FIRST ATLEAST 0", "LV.REACH k 1", "LV.WHERE k min"):
            self.assertIsNone(self.ask(line), line)
        for line in ("LV.SET k 0 1", "LV.POP k", "LV.SWAP k 0 0", "LV.TRUNCATE k 0", "LV.EXPIRE k INDEX 0", "LV.WATCH k w sum", "LV.UNWATCH k w"):
            self.assertEqual(self.ask(line), "!no such key", line)
        self.assertEqual(self.client.keys(), [])

    def test_keys_of_another_type(self):
        self.client.set("text", "1")
        self.ask("LV.PUSH series 1")
        self.ask("LV.ADD samples 1 1")
        for line in ("LV.PUSH text 1", "LV.ADD text 1 1", "LV.VALUE text sum", "LV.PUSH samples 1", "LV.ADD series 1 1", "LV.RETAIN series 5", "LV.SWAP samples 0 0"):
            self.assertEqual(self.ask(line), "!WRONGTYPE", line)
        for line in ("LV.VALUE series sum TIME 0 1", "LV.RANGE series WITHIN 5", "LV.RANGE series BUCKET 5 sum", "LV.WATCH series w sum WITHIN 5", "LV.EXPIRE series BEFORE 3", "TS.GET series"):
            self.assertEqual(self.ask(line), "!WRONGTYPE", line)
        self.assertEqual(self.ask("LV.MADD samples 2 2 text 1 1 series 1 1 samples 1 9"), [2, "!WRONGTYPE", "!WRONGTYPE", "!LV21"])

    def test_words_that_are_refused(self):
        self.ask("LV.ADD k 1 1")
        refused = ["LV.ADD k 1", "LV.ADD k x 1", "LV.ADD k 1 1.5", "LV.ADD k 2 2 FIRST", "LV.ADD k 2 2 FIRST -1", "LV.ADD k 2 2 FIRST 9", "LV.ADD k 2 2 3", "LV.MADD k 1", "LV.MADD k 1 1 k", "LV.PUSH k", "LV.PUSH s 1 x", "LV.PUSH s 9223372036854775808"]
        refused += ["LV.SET k -1 1", "LV.SET k 5 1", "LV.EXPIRE k INDEX 9", "LV.EXPIRE k AFTER 3", "LV.RETAIN k -1", "LV.VALUE k median", "LV.VALUE k sum INDEX 0", "LV.VALUE k sum LAST -1", "LV.VALUE k sum ALL 1"]
        refused += ["LV.RANGE k COUNT", "LV.RANGE k BUCKET 0 sum", "LV.RANGE k BUCKET 5", "LV.SCAN k count", "LV.FIND k MIDDLE ATLEAST 1", "LV.FIND k FIRST ABOVE 1", "LV.FIND k FIRST ATLEAST 1 0", "LV.REACH k 1 0 1 2", "LV.WHERE k sum", "LV.WHERE k affine"]
        refused += ["LV.WATCH k w sum TIME 0 5", "LV.WATCH k W sum", "LV.WATCH k a_name_of_17_bytes sum", "LV.WATCH k w mean", "LV.WATCH k w sum ALL ATLEAST", "LV.UNWATCH k w", "LV.MVALUE sum LAST x k", "LV.COMBINE x", "LV.RESTORE k x", "LV.RESTORE n x"]
        refused += ["TS.ADD k 5 1.5", "TS.ADD k 5 1 LABELS a b", "TS.ADD k 0 1", "TS.RANGE k 0", "TS.RANGE k 0 5 AGGREGATION twa 5", "TS.RANGE k 0 5 AGGREGATION sum 0", "TS.GET n"]
        before = self.client.debug_object("k"), self.client.execute_command("DEBUG", "DIGEST")
        for line in refused:
            self.assertTrue(str(self.ask(line)).startswith("!"), line)
        self.assertEqual(self.client.keys(), [b"k"])
        self.assertEqual(self.client.execute_command("DEBUG", "DIGEST"), before[1])

    def test_many_keys_at_once(self):
        self.ask("LV.PUSH a 1 2 3")
        self.client.set("c", 1)
        self.assertEqual(self.ask("LV.MVALUE sum LAST 2 a b c a"), [[3, 5], None, "!WRONGTYPE", [3, 5]])
        self.assertEqual(self.ask("LV.MVALUE max ALL a"), [[3, 3]])
        self.assertEqual(self.ask("COMMAND GETKEYS LV.MVALUE sum INDEX 0 1 a b"), ["a", "b"])
        self.assertEqual(self.ask("COMMAND GETKEYS LV.MADD a 1 1 b 2 2"), ["a", "b"])

    def test_replies_have_a_limit(self):
        pipe = self.client.pipeline(transaction=False)
        for begin in range(0, 100001, 10000):
            pipe.execute_command("LV.PUSH", "long", *[1] * min(10000, 100001 - begin))
        pipe.execute()
        for line in ("LV.RANGE long", "LV.SCAN long sum", "LV.RANGE long COUNT 100001"):
            self.assertIn("more than 100000", self.ask(line), line)
        self.assertEqual(len(self.ask("LV.RANGE long COUNT 100000")), 100000)
        self.assertEqual(self.ask("LV.SCAN long sum LAST 100000")[-1], 100000)

    def test_the_forms_of_redis_time_series(self):
        series = self.client.ts()
        self.assertEqual([series.add("t", time, x) for time, x in ((5, 2), (15, 4), (16, 6), (31, -1))], [5, 15, 16, 31])
        self.assertEqual(series.madd([("t", 40, 7), ("t", 40, 8), ("u", 1, 1)]), [40, 40, 1])
        self.assertEqual(series.get("t"), (40, 8.0))
        self.assertEqual(series.range("t", 5, 31), [(5, 2.0), (15, 4.0), (16, 6.0), (31, -1.0)])
        self.assertEqual(series.range("t", "-", "+", count=1), [(5, 2.0)])
        self.assertEqual(series.range("t", "-", "+", aggregation_type="avg", bucket_size_msec=10), [(0, 2.0), (10, 5.0), (30, -1.0), (40, 7.5)])
        self.assertEqual(series.range("t", "-", "+", aggregation_type="count", bucket_size_msec=20, count=1), [(0, 3.0)])
        series.add("kept", 0, 1, retention_msecs=10)
        series.add("kept", 10, 1)
        self.assertEqual(series.range("kept", "-", "+"), [(10, 1.0)])

    def test_times_at_the_ends(self):
        self.client.execute_command("LV.MADD", "t", -(2**63), 1, "t", 2**63 - 1, 2)
        self.assertEqual(self.ask(f"LV.RANGE t BUCKET {2**63 - 1} count"), [[-(2**63), 1], [2**63 - 1, 1]])
        self.assertEqual(self.ask("LV.VALUE t sum TIME - +"), [2, 3])
        self.assertEqual(self.ask(f"LV.VALUE t sum TIME - {2**63 - 1}"), [2, 1])
        self.assertEqual(self.ask("TS.RANGE t - +"), [[-(2**63), "1"], [2**63 - 1, "2"]])

    def test_star_is_the_time_now(self):
        before = int(self.client.time()[0])
        self.ask("LV.ADD t * 5")
        time = self.ask("LV.RANGE t")[0][0]
        self.assertTrue(before <= time // 1000 <= before + 60)

    def test_transactions_and_scripts(self):
        pipe = self.client.pipeline()
        pipe.execute_command("LV.PUSH", "k", 1, 2)
        pipe.execute_command("LV.VALUE", "k", "sum")
        self.assertEqual(pipe.execute(), [2, [2, 3]])
        self.assertEqual(asked(self.client, "EVAL", "return redis.call('LV.VALUE', KEYS[1], 'max')[2]", 1, "k"), 2)
        with self.client.pipeline() as watching:
            watching.watch("k")
            self.ask("LV.SET k 9 9")
            watching.multi()
            watching.ping()
            self.assertEqual(watching.execute(), [True])

    def test_key_events_and_docs(self):
        self.client.config_set("notify-keyspace-events", "KEA")
        listener = self.client.pubsub()
        listener.subscribe("__keyevent@0__:lv.push", "__keyevent@0__:lv.pop")
        for line in ("LV.PUSH k 1", "LV.POP k", "LV.POP k"):
            self.ask(line)
        heard = [listener.get_message(timeout=5) for _ in range(4)][2:]
        self.assertEqual([(it["channel"], it["data"]) for it in heard], [(b"__keyevent@0__:lv.push", b"k"), (b"__keyevent@0__:lv.pop", b"k")])
        listener.close()
        self.assertIn("summary", self.ask("COMMAND DOCS lv.value")[1])


if __name__ == "__main__":
    unittest.main()
