"""Samples and windows of time from outside, beside plain lists of times and values.

usage: python3 -m unittest test_samples
"""
import pickle
import random
import unittest
from array import array
from bisect import bisect_left
from typing import Any

import livevec
from livevec import BadRange, Earlier, Kind, NotKept, Sample, Samples, Window
from plain import value_of

try:
    import numpy
except ImportError:
    numpy = None

MOST, LEAST = 2**63 - 1, -(2**63)


class Twin(unittest.TestCase):
    """Samples, and `all` with the time and the value under index i at all[i], from `first` on."""

    def setUp(self) -> None:
        self.random, self.load, self.times, self.all, self.first, self.edits = random.Random(11), Samples(), [], [], 0, 0
        self.addCleanup(self.load.close)

    def since(self, time: Any) -> Any:
        return bisect_left(self.times, time, self.first)

    def kept(self) -> Any:
        return self.times[self.first:]

    def push(self, time: Any, value: Any) -> None:
        if self.kept() and time < self.times[-1]:
            with self.assertRaises(Earlier) as caught:
                self.load.push(time, value)
            self.assertEqual((caught.exception.newest, caught.exception.number), (self.times[-1], 21))
            return
        self.assertEqual(self.load.push(time, value), len(self.all))
        self.times.append(time)
        self.all.append(value)
        self.edits += 1

    def drop_before(self, index: Any, dropped: Any) -> None:
        self.assertEqual(dropped, index - self.first)
        self.first, self.edits = index, self.edits + 1

    def look(self) -> None:
        load, near = self.load, self.kept() or [0]
        since, until = sorted(self.random.choice((self.random.choice(near) + self.random.randint(-3, 3), LEAST, MOST)) for _ in range(2))
        lo, hi, kind = self.since(since), self.since(until), self.random.choice(list(Kind))
        self.assertEqual(load.between(since, until), Window(lo, hi))
        self.assertEqual(load.value_between(kind, since, until), value_of(kind, self.all[lo:hi]))
        self.assertEqual(load.between(since, since), (lo, lo))
        if since < until:
            self.assertRaises(BadRange, load.between, until, since)
            self.assertRaises(BadRange, load.value_between, "sum", until, since)
        for span in (0, 1, 2, self.random.randint(0, 40), 2**63, 2**64 - 1):
            lo = self.since(self.times[-1] - span + 1) if self.kept() else len(self.all)
            self.assertEqual(load.last(span), (lo, len(self.all)))
            self.assertEqual(load.value_of_last(kind.name.lower(), span), value_of(kind, self.all[lo:]))
        self.assertEqual((load.first, load.size, load.edits, len(load)), (self.first, len(self.all), self.edits, len(self.kept())))


class Windows(Twin):
    def one_edit(self) -> None:
        load, choice = self.load, self.random.randrange(12 if self.kept() else 1)
        if choice == 11:
            time = self.times[self.first] + self.random.randint(0, 3)
            self.drop_before(self.since(time), load.expire_before(time))
        elif choice == 10:
            self.drop_before(self.first + 1, load.expire(self.first + 1))
        elif choice == 9:
            self.times.pop()
            self.assertEqual(load.pop(), self.all.pop())
            self.edits += 1
        elif choice == 8:
            at = self.random.randrange(self.first, len(self.all))
            self.assertEqual(load.write(at, 12), self.all[at])
            self.all[at], self.edits = 12, self.edits + 1
        else:
            near = self.times[-1] if self.kept() else -50
            self.push(near + self.random.choice((0, 0, 0, 1, 2, 5, -1)), self.random.choice((MOST, LEAST, *(self.random.randint(-1000, 1000) for _ in range(9)))))

    def test_they_are_those_of_plain_lists(self) -> None:
        self.look()
        for turn in range(1500):
            self.one_edit()
            self.look()
            if turn % 100 == 0:
                self.assertEqual((self.load.times().tolist(), self.load.to_array().tolist()), (self.kept(), self.all[self.first:]))
                self.assertEqual(list(self.load), self.all[self.first:])
                self.assertEqual(self.load.sample(len(self.all) - 1) if self.kept() else None, (self.times[-1], self.all[-1]) if self.kept() else None)

    def test_times_at_both_ends(self) -> None:
        load = Samples([LEAST, LEAST, -1, MOST], [1, 2, 3, 4])
        self.assertEqual((load.between(LEAST, MOST), load.between(LEAST + 1, -1), load.between(-1, 0)), ((0, 3), (2, 2), (2, 3)))
        self.assertEqual((load.last(0), load.last(1), load.last(2**64 - 1)), ((4, 4), (3, 4), (2, 4)))
        self.assertEqual((load.expire_before(MOST), load.pop(), load.push(LEAST, 7), load.sample(3)), (3, 4, 3, Sample(LEAST, 7)))
        for call in (lambda: load.push(2**63, 1), lambda: load.push(1, 2**63), lambda: load.last(-1), lambda: load.last(2**64), lambda: load.between(LEAST - 1, 0),
                     lambda: load.between(0, 2**63), lambda: load.expire_before(2**63), lambda: load.value_of_last("sum", -1)):
            self.assertRaises(OverflowError, call)

    def test_pushes_end_with_the_first_that_is_refused(self) -> None:
        load = Samples()
        load.push_many(array("q", [0, 90]), [7, 4])
        for times, pushed, newest in (([91, 91, 90, 99], 2, 91), ([90], 0, 91)):
            with self.assertRaises(Earlier) as caught:
                load.push_many(times, [1] * len(times))
            refused = caught.exception
            self.assertEqual((refused.pushed, refused.place, refused.newest), (pushed, pushed, newest))
            again = pickle.loads(pickle.dumps(refused))
            self.assertEqual((str(again), again.newest, again.pushed, again.place), (f"times[{pushed}] = 90: earlier than the last sample, whose time is 91", 91, pushed, pushed))
        self.assertIsInstance(refused, ValueError)
        self.assertRaises(ValueError, load.push_many, [1, 2], [1])
        self.assertRaises(ValueError, Samples, [1])
        load.push_many([], [])
        self.assertEqual((load.times().tolist(), list(load), load.edits), ([0, 90, 91, 91], [7, 4, 1, 1], 4))

    def test_they_are_gone_through_and_end(self) -> None:
        load = Samples([1, 2, 2], [5, 6, 7])
        with self.assertRaises(RuntimeError):
            for _ in load:
                load.push_many([2, 2], [8, 9])
        self.assertEqual((list(reversed(load)), load[1], load.truncate(4), repr(load)), ([9, 8, 7, 6, 5], 6, 1, "<livevec.Samples of 0 to 4 at edit 6>"))
        # C has no such edits of samples
        for wrong in ("push_many", "swap", "extend", "append", "write_many"):
            self.assertEqual(hasattr(load, wrong), wrong == "push_many")
        self.assertEqual((load.clear(), len(load), load.push(2, 1), load.edits), (4, 0, 0, 8))
        with load:
            pass
        for call in (lambda: load.push(9, 9), lambda: load.push_many([], []), lambda: load.last(1), lambda: load.between(0, 1), lambda: load.times(0, 0),
                     lambda: load.sample(0), lambda: load.value_of_last("sum", 1), lambda: load.expire_before(1), load.save):
            self.assertRaises(livevec.Closed, call)
        self.assertEqual(repr(load), "<livevec.Samples, closed>")

    def test_reads_of_times(self) -> None:
        load = Samples(range(100), range(0, 1000, 10))
        load.expire_before(10)
        room, read = array("q", bytes(8 * 7)), []
        while len(read) < 90:
            many = load.times_into(room, 10 + len(read))
            read += room[:many]
        self.assertEqual((read, load.times(20, 22).tolist()), (list(range(10, 100)), [20, 21]))
        for call, *ends in ((load.times, 9, 20), (load.times, 10, 101), (load.times, -1, 3), (load.times_into, room, 9), (load.sample, 9), (load.sample, -1)):
            with self.assertRaises(NotKept) as caught:
                call(*ends)
            self.assertEqual((caught.exception.first, caught.exception.size), (10, 100))
        self.assertRaises(BadRange, load.times, 12, 11)
        self.assertRaises(TypeError, load.times_into, bytes(8))

    @unittest.skipIf(numpy is None, "there is no numpy")
    def test_numpy(self) -> None:
        times, values = numpy.arange(2000, dtype="int64")[::2], numpy.arange(1000, dtype="int32")
        load = Samples(times, values)
        self.assertEqual((numpy.asarray(load.times()).tolist(), numpy.asarray(load.to_array()).tolist()), (times.tolist(), values.tolist()))
        room = numpy.zeros(30, dtype="int64")
        self.assertEqual((load.times_into(room, 10), room[29], load.sum(*load.between(10, 20))), (30, 78, sum(range(5, 10))))


if __name__ == "__main__":
    unittest.main()
