"""A series by one kind from outside: one range, many, and columns in pieces, beside a plain list.

usage: python3 -m unittest test_series_kinds
"""
import os
import pickle
import random
import struct
import subprocess
import sys
import unittest
from array import array
from typing import Any

import livevec
from livevec import BadRange, Column, Kind, NotKept, Series
from plain import value_of

try:
    import numpy
except ImportError:
    numpy = None

SHARD, GONE = 32_760, 300
SIZE = SHARD + 900


class Kinds(unittest.TestCase):
    """A series whose first elements have expired, and `all` with the element under index i at all[i]."""

    def setUp(self) -> None:
        drawn = random.Random(7)
        self.all = [drawn.choice((2**63 - 1, -2**63, *(drawn.randint(-1000, 1000) for _ in range(10)))) for _ in range(SIZE)]
        self.series = Series(self.all)
        self.addCleanup(self.series.close)
        self.series.expire(GONE)

    def not_kept(self, place: Any, call: Any, *arguments: Any, **named: Any) -> None:
        with self.assertRaises(NotKept) as caught:
            call(*arguments, **named)
        self.assertEqual((caught.exception.first, caught.exception.size, caught.exception.place), (GONE, SIZE, place))
        self.assertEqual(pickle.loads(pickle.dumps(caught.exception)).place, place)

    def test_values(self) -> None:
        ranges = [(GONE, SIZE), (GONE, GONE), (GONE + 7, GONE + 8), (SHARD - 50, SHARD + 60), (SHARD, SIZE)]
        for kind in Kind:
            wanted = [value_of(kind, self.all[lo:hi]) for lo, hi in ranges]
            self.assertEqual([self.series.value(kind, lo, hi) for lo, hi in ranges], wanted)
            self.assertEqual(self.series.value(kind.name.lower()), wanted[0])
            self.assertEqual(self.series.value_many(kind, ranges), wanted)
            self.assertEqual(self.series.value_many(kind, [(None, None), (SHARD, None), (None, GONE)]), [wanted[0], wanted[4], wanted[1]])
            self.assertEqual(self.series.value_many(kind, []), [])
        self.series[SHARD] = 12
        self.assertEqual(self.series.value("sum", SHARD, SHARD + 2), value_of(Kind.SUM, [12, self.all[SHARD + 1]]))

    def test_what_is_refused(self) -> None:
        self.not_kept(0, self.series.value, "sum", GONE - 1)
        self.not_kept(0, self.series.value, "least", -1, SIZE)
        self.not_kept(0, self.series.scan_inclusive_by, "sum", GONE, SIZE + 1)
        self.not_kept(0, self.series.scan_exclusive_into, "sum", array("q", [7]), GONE - 1)
        self.not_kept(1, self.series.value_many, "sum", [(GONE, SIZE), (GONE - 1, SIZE), (9, 8)])
        self.not_kept(2, self.series.value_many, "sum", [(GONE, SIZE), (SHARD, None), (-1, SIZE)])
        self.not_kept(1, self.series.value_many, "sum", [(GONE, SIZE), (GONE, 1 << 70)])
        for refused in ([(9, 8)], [(None, -1)], [(1 << 70, GONE)]):
            with self.assertRaises(BadRange) as caught:
                self.series.value_many("sum", [(GONE, SIZE), *refused])
            self.assertEqual(caught.exception.place, 1)
        for call in (lambda: self.series.value("sum", SIZE, GONE), lambda: self.series.scan_inclusive_by("sum", GONE, SIZE, at=GONE - 1)):
            self.assertRaises(BadRange, call)
        for call in (lambda: self.series.value("median"), lambda: self.series.value_many("median", []), lambda: self.series.scan_inclusive_by(7),
                     lambda: self.series.value_many("sum", [(1, 2, 3)])):
            self.assertRaises(ValueError, call)
        self.series.close()
        for call in (lambda: self.series.value("sum", 0, 0), lambda: self.series.value_many("sum", [(0, 0)])):
            self.assertRaises(livevec.Closed, call)

    def wanted(self, kind: Any, elements: Any) -> Any:
        """The cells of a column's beginnings, as flat numbers."""
        cells = []
        for k in range(len(elements) + 1):
            value = value_of(kind, elements[:k])
            if kind is Kind.BEST:
                low = (value or 0) % 2**64
                cells.append([low - 2**64 if low >> 63 else low, (value or 0) >> 64])
            else:
                cells.append(list(value) if isinstance(value, tuple) else value or 0)
        return cells

    def test_columns(self) -> None:
        lo, hi = SHARD - 60, SHARD + 70
        for kind in Kind:
            cells = self.wanted(kind, self.all[lo:hi])
            whole, before = self.series.scan_inclusive_by(kind, lo, hi), self.series.scan_exclusive_by(kind, lo, hi)
            self.assertIsInstance(whole, Column)
            self.assertEqual((whole.cells.tolist(), before.cells.tolist()), (cells[1:], cells[:-1]))
            self.assertEqual((whole.edit, before.edit), (self.series.edits,) * 2)
            for scan, of in ((self.series.scan_inclusive_by, cells[1:]), (self.series.scan_exclusive_by, cells[:-1])):
                pieces, at = [], lo
                while at < hi:
                    piece = scan(kind, lo, hi, at=at, most=37).cells.tolist()
                    pieces += piece
                    at += len(piece)
                self.assertEqual(pieces, of)
            self.assertEqual(self.series.scan_inclusive_by(kind, lo, hi, at=hi).cells.tolist(), [])

    def test_columns_into_buffers(self) -> None:
        lo, hi = SHARD - 60, SHARD + 70
        sums = self.wanted(Kind.SUM, self.all[lo:hi])
        room, at, pieces = array("q", [5] * 52), lo, []
        while at < hi:
            many = self.series.scan_inclusive_into("sum", memoryview(room)[1:51], lo, hi, at=at)
            pieces += room[1:1 + many]
            at += many
        self.assertEqual((pieces, room[0], room[51]), (sums[1:], 5, 5))
        self.assertEqual(self.series.scan_exclusive_into("sum", room, lo, hi), 52)
        self.assertEqual(list(room), sums[:52])
        states = bytearray(16)
        self.assertEqual(self.series.scan_exclusive_into("automaton", states, lo, hi, at=lo + 1), 2)
        self.assertEqual(list(states), [state for k in (1, 2) for state in value_of(Kind.AUTOMATON, self.all[lo:lo + k])])
        self.assertEqual(self.series.scan_inclusive_into("sum", array("q"), lo, hi), 0)
        for wrong in (array("i", [0]), array("d", [0.0]), bytes(8), memoryview(room)[::2]):
            with self.assertRaises(TypeError):
                self.series.scan_inclusive_into("sum", wrong, lo, hi)

    @unittest.skipIf(numpy is None, "there is no numpy")
    def test_numpy(self) -> None:
        lo, hi = SHARD - 60, SHARD + 70
        held = numpy.asarray(self.series.scan_inclusive_by("least", lo, hi).cells)
        self.assertEqual((held.dtype, held.tolist(), held.flags.owndata), (numpy.int64, self.wanted(Kind.LEAST, self.all[lo:hi])[1:], False))
        maps = numpy.zeros((100, 2), dtype=numpy.uint32)
        self.assertEqual(self.series.scan_exclusive_into("affine", maps, lo, hi, at=lo + 9), 100)
        self.assertEqual(maps.tolist(), self.wanted(Kind.AFFINE, self.all[lo:hi])[9:109])
        ranges = numpy.array([[lo, hi], [GONE, GONE + 3]], dtype=numpy.int64)
        self.assertEqual(self.series.value_many("greatest", ranges), [max(self.all[lo:hi]), max(self.all[GONE:GONE + 3])])
        for wrong in (numpy.zeros(3), numpy.zeros(3, dtype=">i8"), numpy.zeros(6, dtype=numpy.int64)[::2], numpy.ma.zeros(3, dtype=numpy.int64)):
            with self.assertRaises(TypeError):
                self.series.scan_inclusive_into("sum", wrong, lo, hi)


class AllOrNone(unittest.TestCase):
    def test_pushes(self) -> None:
        series = Series([5, 7])
        self.addCleanup(series.close)
        self.assertEqual((series.edits, list(series)), (2, [5, 7]))
        series.extend([])
        series += struct.unpack("3b", b"abc")
        self.assertEqual((series.edits, list(series)), (5, [5, 7, 97, 98, 99]))
        self.assertRaises(OverflowError, series.extend, [1, 2**63])
        self.assertEqual((series.edits, list(series)), (5, [5, 7, 97, 98, 99]))

    def test_writes(self) -> None:
        series = Series([9, 20, 22, 19, 25])
        self.addCleanup(series.close)
        series.prepare("sum")
        series.prepare(Kind.BEST)
        self.assertRaises(ValueError, series.prepare, "median")
        series.expire(1)
        series.write_many([4, 1, 4], [24, 21, 23])
        series.write_many([], [])
        self.assertEqual((series.edits, list(series), series.sum(), series.best()), (9, [21, 22, 19, 23], 85, 85))
        for indices, place in (([1, 0], 1), ([1, 2, 5], 2), ([-1, 1], 0)):
            with self.assertRaises(livevec.NotKept) as caught:
                series.write_many(indices, [7] * len(indices))
            self.assertEqual((caught.exception.first, caught.exception.size, caught.exception.place), (1, 5, place))
        self.assertRaises(ValueError, series.write_many, [1], [])
        self.assertRaises(TypeError, series.write_many, [0.5], [1])
        self.assertEqual((series.edits, list(series), series.sum()), (9, [21, 22, 19, 23], 85))

    @unittest.skipUnless(os.path.exists("/proc/self/statm"), "this system doesn't tell how much memory a process has")
    def test_want_of_memory_changes_nothing(self) -> None:
        program = """
import resource, livevec
from array import array
series, more = livevec.Series([5, 7]), array("q", range(4_000_000))
with open("/proc/self/statm") as file:
    held = int(file.read().split()[0]) * resource.getpagesize()
_, most = resource.getrlimit(resource.RLIMIT_AS)
resource.setrlimit(resource.RLIMIT_AS, (held + (16 << 20), most))
try:
    series.extend(more)
except livevec.NoMemory as refusal:
    print(refusal.number, refusal.pushed, len(series), series.edits, series.sum())
resource.setrlimit(resource.RLIMIT_AS, (most, most))
series.extend(more)
print(len(series), series.edits, series.sum())
"""
        said = subprocess.run([sys.executable, "-c", program], cwd=os.path.dirname(os.path.abspath(__file__)), capture_output=True, text=True)
        self.assertEqual((said.stdout, said.stderr), (f"6 0 2 2 12\n4000002 4000002 {12 + sum(range(4_000_000))}\n", ""))


if __name__ == "__main__":
    unittest.main()
