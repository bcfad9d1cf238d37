"""Random words to each command: every one is answered, and the server lives. `bindings/check` has it tried by a module under the sanitizer of addresses."""
import os
import random
import unittest

import redis
from servers import Server

COMMANDS = int(os.environ.get("REDIS_COMMANDS", "20000"))
KEYS = ("a", "b", "c", "t", "u", "text", "none", b"\0\xff", "")
NAMES = ("PUSH", "ADD", "MADD", "SET", "POP", "SWAP", "TRUNCATE", "EXPIRE", "RETAIN", "VALUE", "MVALUE", "FIND", "REACH", "WHERE", "RANGE", "SCAN", "INFO", "WATCH", "UNWATCH", "WATCHES", "SUMMARY", "COMBINE", "RESTORE")
WORDS = ("INDEX", "TIME", "LAST", "WITHIN", "ALL", "FIRST", "ATLEAST", "ATMOST", "COUNT", "BUCKET", "EXCLUSIVE", "BEFORE", "AGGREGATION", "RETENTION", "sum", "min", "max", "best", "affine", "automaton", "count", "mean", "exactsum", "avg")
NUMBERS = (0, 1, 2, 3, 5, 8, 100, -1, 2**31, 2**32, 2**62, 2**63 - 1, -(2**63), 2**63, 2**64, "-", "+", "*", "1.5", "007", " 1", "x", "")
# commands as they should be, of which some words are then changed
FORMS = ("ADD {t} {n} {n}", "ADD {t} {n} {n} FIRST {n}", "PUSH {s} {n} {n} {n}", "SET {s} {n} {n}", "VALUE {s} {k} INDEX {n} {n}", "VALUE {t} {k} TIME {n} {n}", "VALUE {t} {k} WITHIN {n}", "RANGE {t} TIME {n} {n} COUNT {n} BUCKET {n} {k}", "SCAN {s} {k} EXCLUSIVE INDEX {n} {n}",
         "WATCH {s} w{n} {k} LAST {n} ATLEAST {n}", "WATCH {t} w{n} {k} WITHIN {n}", "FIND {s} LAST ATMOST {n} {n} {n}", "WHERE {s} best {n} {n}", "EXPIRE {s} INDEX {n}", "EXPIRE {t} BEFORE {n}", "MVALUE {k} LAST {n} {s} {t} {s}", "SUMMARY {t} WITHIN {n}", "RETAIN {t} {n}")


class Arguments(unittest.TestCase):
    def setUp(self):
        self.random = random.Random(int(os.environ.get("REDIS_SEED", "1")))

    def word(self):
        kind = self.random.randrange(8)
        if kind < 3:
            return self.random.choice(NUMBERS)
        if kind < 6:
            return self.random.choice(WORDS)
        return self.random.choice(KEYS) if kind == 6 else self.random.randbytes(self.random.choice((1, 8, 16, 17, 184, 500)))

    def formed(self):
        text = self.random.choice(FORMS)
        words = [it.format(s=self.random.choice("abc"), t=self.random.choice("tu"), n=self.random.choice(NUMBERS[:13]), k=self.random.choice(WORDS[14:23])) for it in text.split()]
        if self.random.random() < 0.3:
            words[self.random.randrange(1, len(words))] = self.word()
        return words

    def command(self):
        if self.random.random() < 0.6:
            name, *words = self.formed()
        else:
            name, words = self.random.choice(NAMES), [self.random.choice(KEYS), *(self.word() for _ in range(self.random.randrange(6)))]
        if name in ("ADD", "MADD", "RANGE") and self.random.random() < 0.3:
            return [f"TS.{name}", *words]
        return [f"LV.{name}", *words]

    def test_random_words(self):
        module = os.environ.get("LIVEVEC_REDIS_SANITIZED")
        # of a damaged length no memory is had, which is no error of the sanitizer's then
        options = {"module": module, "LD_PRELOAD": os.environ["LIVEVEC_REDIS_PRELOAD"], "ASAN_OPTIONS": "detect_leaks=0:abort_on_error=1:allocator_may_return_null=1"} if module else {}
        server = Server("--crash-log-enabled", "no", **options)
        with server:
            client = server.client()
            client.set("text", "x")
            dump = None
            for _ in range(0, COMMANDS, 200):
                pipe = client.pipeline(transaction=False)
                for _ in range(200):
                    pipe.execute_command(*self.command())
                    if dump and self.random.random() < 0.05:
                        at = self.random.randrange(len(dump))
                        pipe.execute_command("LV.RESTORE", "none", dump[:at] + self.random.randbytes(1) + dump[at + self.random.randrange(2) :])
                        pipe.delete("none")
                try:
                    pipe.execute(raise_on_error=False)
                except redis.ConnectionError:
                    self.fail(f"the server has ended:\n{server.said()[-8000:]}")
                dump = (client.dump(self.random.choice("abctu")) or b"")[10:-11]
                if self.random.random() < 0.3:
                    client.execute_command("DEBUG", "RELOAD")
                if self.random.random() < 0.05:
                    client.delete("a", "t")
            self.assertTrue(client.ping())
        self.assertNotIn("ERROR: AddressSanitizer", server.said_last)
        self.assertNotIn("runtime error", server.said_last)


if __name__ == "__main__":
    unittest.main()
