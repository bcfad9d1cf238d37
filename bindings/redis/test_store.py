"""What a store owes: keys survive snapshots, the append-only file, kills and copies, replicas have the same, memory is counted, and damage is refused."""
import os
import random
import signal
import threading
import unittest

import redis
from servers import Server, asked, free_port, waited_for

KILLS = int(os.environ.get("REDIS_KILLS", "8"))
# before the elements' bytes a dump has these: a type and the module's name; behind them an end, a version and a checksum
HEAD, TAIL = 10, 11


def filled(client, seed=1):
    """Makes keys of each form, with expiries, a retention and watches."""
    rand = random.Random(seed)
    pipe = client.pipeline(transaction=False)
    pipe.execute_command("LV.PUSH", "series", *[rand.randrange(-(2**63), 2**63) for _ in range(3000)])
    pipe.execute_command("LV.EXPIRE", "series", "INDEX", 100)
    pipe.execute_command("LV.SET", "series", 200, -5)
    pipe.execute_command("LV.SWAP", "series", 150, 201)
    pipe.execute_command("LV.RETAIN", "samples", 500)
    for time in range(0, 2000, 7):
        pipe.execute_command("LV.ADD", "samples", time, rand.randrange(100))
    pipe.execute_command("LV.WATCH", "samples", "high", "max", "WITHIN", 100, "ATLEAST", 90)
    pipe.execute_command("LV.WATCH", "samples", "all", "sum")
    pipe.execute_command("LV.ADD", "samples", "*", 7)
    pipe.execute_command("LV.PUSH", "emptied", 1)
    pipe.execute_command("LV.POP", "emptied")
    pipe.execute_command("LV.RETAIN", "empty", 5)
    for _ in range(20):
        pipe.execute_command("LV.SET", "series", 0, 0)
        pipe.execute_command("LV.VALUE", "series", "best")
    pipe.execute(raise_on_error=False)


def state(client):
    """All keys with their bytes."""
    return {name: client.dump(name) for name in client.keys()}


class Stored(unittest.TestCase):
    def kept_over(self, *options, change=lambda client: None):
        """A server with keys, which has the same ones after a restart."""
        with Server(*options) as server:
            client = server.client()
            filled(client)
            change(client)
            before = state(client)
            self.assertEqual(len(before), 4)
            client = server.restart().client()
            self.assertEqual(state(client), before)
            self.assertEqual(asked(client, "LV.WATCHES", "samples"), [["high", "max", "WITHIN", 100, "ATLEAST", 90], ["all", "sum", "ALL"]])
            self.assertEqual(asked(client, "LV.ADD", "samples", 2**62, 1), asked(client, "LV.INFO", "samples")[7] - 1)

    def test_a_snapshot(self):
        self.kept_over(change=lambda client: client.save())

    def test_the_append_only_file(self):
        self.kept_over("--appendonly", "yes")

    def rewritten(self, client):
        client.bgrewriteaof()
        waited_for(lambda: client.info("persistence")["aof_rewrite_in_progress"] == 0 and client.info("persistence")["aof_rewrite_scheduled"] == 0, "the end of the rewrite")
        client.execute_command("LV.PUSH", "series", 77)

    def test_the_append_only_file_is_rewritten(self):
        for preamble in ("yes", "no"):
            self.kept_over("--appendonly", "yes", "--aof-use-rdb-preamble", preamble, change=self.rewritten)

    def test_kills(self):
        """Each edit that was replied to is there after a kill, and at most one more."""
        with Server("--appendonly", "yes", "--appendfsync", "always") as server:
            replied = 0
            for kill in range(KILLS):
                client = server.client()
                threading.Timer(random.Random(kill).uniform(0.01, 0.25), server.process.send_signal, (signal.SIGKILL,)).start()
                try:
                    while True:
                        replied = client.execute_command("LV.ADD", "k", replied, replied)
                except redis.ConnectionError:
                    server.process.wait()
                client = server.start().client()
                size = (asked(client, "LV.VALUE", "k", "count") or [0, 0])[1]
                self.assertIn(size - replied, (0, 1))
                self.assertEqual(asked(client, "LV.VALUE", "k", "exactsum") or [0, 0], [size, size * (size - 1) // 2])
                replied = size

    def test_a_replica(self):
        with Server(port=free_port()) as master:
            with Server("--replicaof", "127.0.0.1", str(master.port)) as replica:
                first, second = master.client(), replica.client()
                waited_for(lambda: second.info("replication")["master_link_status"] == "up", "the replica")
                filled(first)
                first.execute_command("TS.ADD", "other", "*", 1, "RETENTION", 50)
                first.execute_command("LV.MADD", "other", "*", 2, "series", 1, 1, "samples", "*", 3)
                self.assertEqual(first.execute_command("WAIT", 1, 60000), 1)
                self.assertEqual(state(second), state(first))
                self.assertEqual(len(state(second)), 5)
                self.assertIn("read only", asked(second, "LV.PUSH", "series", 1))

    def test_reload_copies_and_names(self):
        with Server() as server:
            client = server.client()
            filled(client)
            before, digest = state(client), client.execute_command("DEBUG", "DIGEST")
            client.execute_command("DEBUG", "RELOAD")
            self.assertEqual((state(client), client.execute_command("DEBUG", "DIGEST")), (before, digest))
            for name in (b"series", b"samples", b"empty"):
                client.copy(name, "copied")
                client.restore("restored", 0, before[name])
                client.rename("restored", "renamed")
                self.assertEqual([client.dump(it) for it in ("copied", "renamed", name)], [before[name]] * 3)
                client.execute_command("LV.ADD" if name != b"series" else "LV.PUSH", "copied", *[2**62] * (1 + (name != b"series")))
                self.assertEqual(client.dump(name), before[name])
                client.unlink("copied", "renamed")
            self.assertEqual(sorted(client.scan_iter(_type="livevec-s")), sorted(before))
            client.pexpire("series", 1)
            waited_for(lambda: not client.exists("series"), "the end of a key")

    def test_damaged_dumps(self):
        with Server("--rdbcompression", "no") as server:
            client = server.client()
            client.execute_command("LV.MADD", *[it for i in range(5) for it in ("k", i, i * i)])
            client.execute_command("LV.WATCH", "k", "w", "sum", "LAST", 3)
            payload = client.dump("k")[HEAD:-TAIL]
            self.assertEqual(asked(client, "LV.RESTORE", "same", payload), "OK")
            self.assertEqual(client.dump("same"), client.dump("k"))
            elements = len(payload) - 88 - 5 * 16
            for at in range(len(payload)):
                for damaged in (payload[:at], payload[:at] + bytes([payload[at] ^ 1 << at % 8]) + payload[at + 1 :]):
                    reply = asked(client, "LV.RESTORE", f"d{at}", damaged)
                    # a retention or a watch may become another one; elements never
                    self.assertIn(reply, ("!LV22",) if at >= elements or len(damaged) < len(payload) else ("!LV22", "OK"), at)
                    client.delete(f"d{at}")

    def test_a_damaged_snapshot(self):
        with Server("--rdbchecksum", "no", "--rdbcompression", "no") as server:
            client = server.client()
            client.execute_command("LV.PUSH", "k", *range(1000, 1100))
            client.save()
            server.end()
            snapshot = server.room / "dump.rdb"
            whole = snapshot.read_bytes()
            at = whole.index((1050).to_bytes(8, "little"))
            snapshot.write_bytes(whole[:at] + b"\1" + whole[at + 1 :])
            # no signal: it ends with the status of Redis' own check, which knows no module's bytes
            self.assertIn(server.begin().process.wait(60), (0, 1))
            self.assertIn("livevec: a key is not loaded: bytes that are no saved vector", server.said())
            snapshot.write_bytes(whole)
            self.assertEqual(asked(server.start().client(), "LV.VALUE", "k", "count"), [100, 100])

    def test_memory_is_counted(self):
        with Server() as server:
            client = server.client()
            client.execute_command("LV.PUSH", "small", 1)
            used = lambda: client.info("memory")["used_memory"]
            before = used()
            pipe = client.pipeline(transaction=False)
            for begin in range(0, 2**18, 2**12):
                pipe.execute_command("LV.PUSH", "k", *range(begin, begin + 2**12))
            pipe.execute()
            for kind in ("sum", "max", "best"):
                client.execute_command("LV.VALUE", "k", kind)
            counted, grown = client.memory_usage("k"), used() - before
            self.assertLess(abs(counted - grown), 0.05 * grown + 2**17)
            self.assertGreater(counted, 8 * 2**18)
            client.unlink("k")
            waited_for(lambda: used() - before < 2**18, "memory that was given back")

    def test_no_memory_is_an_error(self):
        with Server() as server:
            client = server.client()
            filled(client)
            before = state(client)
            client.config_set("maxmemory", client.info("memory")["used_memory"])
            for words in (("LV.PUSH", "series", 1), ("LV.ADD", "samples", 2**62, 1), ("LV.PUSH", "new", 1)):
                self.assertIn("OOM", asked(client, *words))
            self.assertEqual(state(client), before)
            client.config_set("maxmemory", 0)
            self.assertEqual(asked(client, "LV.PUSH", "new", 1), 1)


if __name__ == "__main__":
    unittest.main()
