"""shards_dask from outside: uneven shards and empty ones by one to five workers print what shards_plain prints, and a lost shard is told."""
import contextlib
import io
import os
import signal
import time
import unittest
from unittest import mock

from distributed import Client, LocalCluster

import livevec
import shards_dask
import shards_plain
from livevec import Summary
from shards import play
from shards_dask import NoAnswer, Shards


def played(shards, sizes):
    said = io.StringIO()
    with contextlib.redirect_stdout(said):
        play(shards, sizes)
    return said.getvalue()


class Dask(unittest.TestCase):
    @classmethod
    def setUpClass(cls):
        cluster = LocalCluster(n_workers=5, threads_per_worker=1, dashboard_address=None)
        cls.addClassCleanup(cluster.close)
        cls.client = Client(cluster)
        cls.addClassCleanup(cls.client.close)

    def workers(self, count):
        return sorted(self.client.scheduler_info()["workers"])[:count]

    def test_it_prints_what_the_plain_one_prints(self):
        layouts = {1: (300,), 2: (40, 60), 3: (100, 0, 50, 250), 4: (0, 7, 0, 0, 13), 5: (99, 1, 200, 0, 30, 70, 150)}
        for count, sizes in layouts.items():
            self.assertEqual(played(Shards(self.client, sizes, self.workers(count)), sizes), played(shards_plain.Shards(sizes), sizes))

    def test_what_a_shard_refuses_is_its_refusal(self):
        shards = Shards(self.client, (5,))
        shards.sizes = (6,)
        with self.assertRaises(livevec.OutOfRange):
            shards.ask(0, 6)
        with self.assertRaises(livevec.OutOfRange):
            shards.write(5, 1)

    def test_a_lost_worker_ends_in_an_error(self):
        workers = self.workers(2)
        shards = Shards(self.client, (100, 50, 100), workers)
        shards.write(120, 7)
        others = shards.ask(0, 100)
        os.kill(self.client.run(os.getpid)[workers[1]], signal.SIGKILL)
        with mock.patch.object(shards_dask, "PATIENCE", 5), self.assertRaisesRegex(NoAnswer, "no answer: "):
            shards.ask(0, 250)
        until = time.monotonic() + 30
        while workers[1] in self.client.scheduler_info()["workers"] and time.monotonic() < until:
            time.sleep(0.1)
        for call in (lambda: shards.ask(0, 250), lambda: shards.ask(110, 111), lambda: shards.write(120, 8)):
            with self.assertRaisesRegex(NoAnswer, "shard 1 is lost with its worker"):
                call()
        self.assertEqual((shards.ask(0, 100), shards.ask(150, 250).edits), (others, {2: 100}))

    def test_an_older_or_another_answer_is_none(self):
        shards = Shards(self.client, (10, 10))
        shards.edits[1] += 1
        with self.assertRaisesRegex(NoAnswer, "shard 1 is at edit 10, and was at 11: it is another one"):
            shards.ask(0, 20)
        shards._parts = lambda met: [(Summary([1]), {0: 10})]
        with self.assertRaisesRegex(NoAnswer, "not of this range"):
            shards.ask(0, 5)


if __name__ == "__main__":
    unittest.main()
