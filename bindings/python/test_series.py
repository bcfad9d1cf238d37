"""The series from outside, beside a plain list whose start moves.

usage: python3 -m unittest test_series
"""
import itertools
import pickle
import random
import unittest
from array import array
from typing import Any

import livevec
from livevec import BadRange, Empty, NotKept, Series

try:
    import numpy
except ImportError:
    numpy = None

SHARD = 32_760


def plain_best(elements: Any) -> Any:
    best = ending = None
    for x in elements:
        ending = x if ending is None or ending < 0 else ending + x
        best = ending if best is None or ending > best else best
    return best


def wrapped(total: Any) -> Any:
    return (total + (1 << 63)) % (1 << 64) - (1 << 63)


class Twin(unittest.TestCase):
    """A series, and `all` with the element under index i at all[i], from `first` on."""

    def setUp(self) -> None:
        self.random, self.series, self.all, self.first, self.edits = random.Random(5), Series(), [], 0, 0
        self.addCleanup(self.series.close)

    def element(self) -> Any:
        return self.random.choice((2**63 - 1, -2**63, *(self.random.randint(-1000, 1000) for _ in range(10))))

    def alike(self, values: Any, elements: Any) -> None:
        self.assertEqual(values.sum, wrapped(sum(elements)))
        self.assertEqual((values.least, values.greatest), (min(elements, default=None), max(elements, default=None)))
        self.assertEqual(values.best, plain_best(elements))

    def not_kept(self, call: Any, *arguments: Any) -> None:
        with self.assertRaises(NotKept) as caught:
            call(*arguments)
        self.assertEqual((caught.exception.first, caught.exception.size, caught.exception.number), (self.first, len(self.all), 3))

    def push_some(self, elements: Any) -> None:
        self.series.extend(elements)
        self.all += elements
        self.edits += len(elements)

    def look(self) -> None:
        series, size = self.series, len(self.all)
        self.assertEqual((series.first, series.size, series.edits, len(series)), (self.first, size, self.edits, size - self.first))
        lo = self.random.randint(self.first, size)
        hi = self.random.randint(lo, min(size, lo + 300))
        reduced = series.reduce(lo, hi)
        self.assertEqual(reduced.edit, self.edits)
        self.assertEqual(series.ask(lo, hi), reduced)
        self.alike(reduced.values, self.all[lo:hi])
        self.assertEqual(series.to_array(lo, hi).tolist(), self.all[lo:hi])


class Edits(Twin):
    def one_edit(self) -> Any:
        series, size, x = self.series, len(self.all), self.element()
        i, j = self.random.randint(self.first, size + 2), self.random.randint(0, size + 1)
        kept = [self.first <= at < size for at in (i, j)]
        choice = self.random.randrange(7 if size - self.first > 90 else 4)
        if choice <= 1:
            self.assertEqual(series.push(x), size)
            self.all.append(x)
        elif choice == 2:
            if not kept[0]:
                return self.not_kept(series.write, i, x)
            self.assertEqual(series.write(i, x), self.all[i])
            self.all[i] = x
        elif choice == 3:
            if not all(kept):
                return self.not_kept(series.swap, i, j)
            self.all[i], self.all[j] = self.all[j], self.all[i]
            self.assertEqual(series.swap(i, j), self.all[i])
        elif choice == 4:
            self.assertEqual(series.pop(), self.all.pop())
        elif choice == 5:
            dropped = self.random.randint(0, 3)
            del self.all[size - dropped:]
            self.assertEqual(series.truncate(size - dropped), dropped)
        else:
            dropped = self.random.randint(0, 4)
            self.first += dropped
            self.assertEqual(series.expire(self.first), dropped)
        self.edits += 1

    def test_random_edits(self) -> None:
        with self.assertRaises(Empty):
            self.series.pop()
        for turn in range(2000):
            self.one_edit()
            if turn % 10 == 0:
                self.look()
        self.assertEqual((list(self.series), list(reversed(self.series))), (self.all[self.first:], self.all[self.first:][::-1]))
        for i in range(self.first, len(self.all)):
            self.assertEqual(self.series[i], self.all[i])

    def test_a_window_slides_over_shards(self) -> None:
        while len(self.all) < 5 * SHARD:
            self.push_some([self.element() for _ in range(8190)])
            if len(self.all) > 2 * SHARD:
                to = len(self.all) - 2 * SHARD
                self.assertEqual(self.series.expire(to), to - self.first)
                self.first, self.edits = to, self.edits + 1
                for call, *arguments in ((self.series.__getitem__, to - 1), (self.series.write, to - 1, 1), (self.series.expire, to - 1),
                                         (self.series.sum, to - 1), (self.series.truncate, len(self.all) + 1), (self.series.__getitem__, -1),
                                         (self.series.reduce, -1, to), (self.series.expire, 1 << 70)):
                    self.not_kept(call, *arguments)
            self.look()
        self.alike(self.series.ask().values, self.all[self.first:])
        self.assertEqual(self.series.best(self.first, self.first + 50), plain_best(self.all[self.first:self.first + 50]))

    def test_it_is_gone_through_from_either_end_after_expiry(self) -> None:
        series = Series([10, 20, 30, 40])
        series.expire(1)
        self.assertEqual((list(series), list(reversed(series)), 10 in series), ([20, 30, 40], [40, 30, 20], False))
        series.expire(4)
        self.assertEqual((list(series), list(reversed(series))), ([], []))
        # over blocks that are read at once, and their ends
        for count in (1023, 1024, 1025, 5000):
            series = Series(range(count + 700))
            series.expire(700)
            self.assertEqual((list(series), list(reversed(series))), (list(range(700, count + 700)), list(range(count + 699, 699, -1))))
        for way in (iter, reversed):
            seen = []
            with self.assertRaises(RuntimeError):
                for value in way(series):
                    seen.append(value)
                    series.expire(701)
            self.assertEqual(len(seen), 1)

    def test_ends(self) -> None:
        series = Series([4, -6])
        series += array("q", [9])
        series.append(1)
        series[0] = 5
        self.assertEqual((list(series), series.sum(), series.least(), series.greatest(1, 2)), ([5, -6, 9, 1], 9, -6, -6))
        self.assertEqual((series.least(2, 2), series.best(2, 2), series.sum(2, 2)), (None, None, 0))
        with self.assertRaises(RuntimeError):
            for _ in series:
                series.push(1)
        with self.assertRaises(TypeError):
            series[0:1] = [7]
        with self.assertRaises(OverflowError):
            series.push(2**63)
        with self.assertRaises(BadRange):
            series.reduce(3, 2)
        refusal = pickle.loads(pickle.dumps(NotKept(3, 8)))
        self.assertEqual((str(refusal), refusal.first, refusal.size), ("out of range: kept are the indices from 3 up to 8", 3, 8))
        self.assertIsInstance(refusal, IndexError)
        self.assertEqual(repr(series), "<livevec.Series of 0 to 5 at edit 6>")
        with series:
            pass
        self.assertEqual(repr(series), "<livevec.Series, closed>")
        with self.assertRaises(livevec.Closed):
            series.push(1)
        series.close()


class Pieces(Twin):
    def setUp(self) -> None:
        super().setUp()
        self.push_some([self.element() for _ in range(SHARD + 2000)])
        self.series.expire(700)
        self.first, self.lo, self.hi = 700, SHARD - 900, SHARD + 1000

    def read_by(self, piece: Any) -> None:
        read, lo = [], self.lo
        while lo < self.hi:
            many = self.series.read_into(piece, lo, self.hi)
            read += list(piece[:many])
            lo += many
        self.assertEqual(read, self.all[self.lo:self.hi])

    def test_reads(self) -> None:
        self.read_by(array("q", bytes(8 * 300)))
        room = array("q", [-5] * 302)
        self.assertEqual(self.series.read_into(memoryview(room)[1:301], self.lo, self.hi), 300)
        self.assertEqual((room[0], room[301], room[1]), (-5, -5, self.all[self.lo]))
        self.assertEqual(self.series.read_into(array("q")), 0)
        self.not_kept(self.series.read_into, room, 699)
        self.assertEqual(room[1], self.all[self.lo])
        for wrong in (array("i", [0]), array("d", [0.0]), bytes(8), memoryview(room)[::2]):
            with self.assertRaises(TypeError):
                self.series.read_into(wrong)

    @unittest.skipIf(numpy is None, "there is no numpy")
    def test_numpy(self) -> None:
        self.read_by(numpy.zeros(333, dtype="int64"))
        more = numpy.arange(2000, dtype="int64")[::2]
        self.push_some(more.tolist())
        self.series.truncate(len(self.all) - 1000)
        self.series.extend(more)
        self.assertEqual(numpy.asarray(self.series.to_array(len(self.all) - 1000)).tolist(), more.tolist())

    def test_scans(self) -> None:
        elements = self.all[self.lo:self.hi]
        sums = [wrapped(total) for total in itertools.accumulate(elements)]
        whole = self.series.scan_inclusive(self.lo, self.hi)
        self.assertEqual((whole.sums(), whole.edit, len(whole)), (sums, self.series.edits, self.hi - self.lo))
        self.assertEqual(self.series.scan_exclusive(self.lo, self.hi).sums(), [0] + sums[:-1])
        at, pieces = self.lo, []
        while at < self.hi:
            piece = self.series.scan_inclusive(self.lo, self.hi, at=at, most=299)
            self.assertEqual(piece[-1], whole[at + len(piece) - 1 - self.lo])
            self.assertEqual(self.series.scan_exclusive(self.lo, self.hi, at=at, most=1)[0].sum, (pieces or [0])[-1])
            pieces += piece.sums()
            at += len(piece)
        self.assertEqual(pieces, sums)
        for k in range(0, len(whole), 311):
            self.alike(whole[k], elements[:k + 1])
            self.assertEqual(whole[k], self.series.reduce(self.lo, self.lo + k + 1).values)
        self.assertEqual(len(self.series.scan_inclusive(self.lo, self.hi, at=self.hi)), 0)
        self.not_kept(self.series.scan_inclusive, 699, 800)
        for wrong in (self.lo - 1, self.hi + 1):
            with self.assertRaises(BadRange):
                self.series.scan_inclusive(self.lo, self.hi, at=wrong)


if __name__ == "__main__":
    unittest.main()
