"""Columns in and out: of numpy, pandas and the standard library; rolling windows; copies, slices and exact totals; what is said of a caller's mistake.

Expected values are worked out by hand from the rules, or by plain Python over the same numbers.

usage: python3 -m unittest test_columns
"""
import copy
import pickle
import random
import unittest
from array import array
from typing import Any

import livevec
from livevec import BadRange, Kind, NotKept, OutOfRange, Samples, Series, ShortBuffer, Summary, Vector
from plain import value_of

try:
    import numpy
except ImportError:
    numpy = None
try:
    import pandas
except ImportError:
    pandas = None

GONE = 7
CELLS = {Kind.SUM: ("q", 1), Kind.LEAST: ("q", 1), Kind.GREATEST: ("q", 1), Kind.BEST: ("q", 2), Kind.AFFINE: ("I", 2), Kind.AUTOMATON: ("B", 8)}


def cell(kind: Any, elements: Any) -> Any:
    """A cell of a column, as a list of its numbers."""
    value = value_of(kind, elements)
    if kind is Kind.BEST:
        low = (value or 0) % 2**64
        return [low - 2**64 if low >> 63 else low, (value or 0) >> 64]
    return list(value) if isinstance(value, tuple) else [value or 0]


def drawn(seed: Any, count: Any) -> Any:
    chance = random.Random(seed)
    return [chance.choice((2**63 - 1, -2**63, *(chance.randint(-1000, 1000) for _ in range(10)))) for _ in range(count)]


class Many(unittest.TestCase):
    """Values of many ranges, into a column, of a vector and of a series whose first elements expired."""

    def setUp(self) -> None:
        self.all = drawn(11, 300)
        self.vector, self.series = Vector(self.all), Series(self.all)
        self.series.expire(GONE)
        chance = random.Random(3)
        self.ranges = [sorted(chance.randint(GONE, 300) for _ in range(2)) for _ in range(50)] + [[9, 9], [GONE, 300]]

    def test_into_a_column(self) -> None:
        for kind, (of, count) in CELLS.items():
            wanted = [number for lo, hi in self.ranges for number in cell(kind, self.all[lo:hi])]
            flat = [end for pair in self.ranges for end in pair]
            for holder in (self.vector, self.series):
                for ranges in (self.ranges, *(memoryview(array(code, flat)).cast("B").cast(code, [52, 2]) for code in "iIqQhl")):
                    room = array(of, [7] * (len(wanted) + count))
                    self.assertEqual(holder.value_many(kind, ranges, into=room), 52)
                    self.assertEqual(room.tolist(), wanted + [7] * count)
                    self.assertEqual(holder.value_many(kind, ranges), [value_of(kind, self.all[lo:hi]) for lo, hi in self.ranges])
                read = memoryview(array("q", flat)).toreadonly().cast("B").cast("q", [52, 2])
                self.assertEqual(holder.value_many(kind, read), [value_of(kind, self.all[lo:hi]) for lo, hi in self.ranges])
                self.assertEqual(holder.value_many(kind, [], into=array(of)), 0)

    def test_what_is_refused_leaves_the_column(self) -> None:
        for holder, refusal in ((self.vector, OutOfRange), (self.series, NotKept)):
            for code in "qIi":
                room = array("q", [7] * 3)
                table = memoryview(array(code, [9, 10, 8, 301, 5, 4])).cast("B").cast(code, [3, 2])
                with self.assertRaises(refusal) as caught:
                    holder.value_many("sum", table, into=room)
                self.assertEqual((caught.exception.place, caught.exception.given), (1, "ranges[1] = (8, 301)"))
                with self.assertRaises(BadRange) as caught:
                    holder.value_many("sum", table[2:], into=room)
                self.assertEqual(caught.exception.place, 0)
                with self.assertRaises(ShortBuffer) as caught:
                    holder.value_many("sum", [(9, 10)] * 4, into=room)
                self.assertEqual((caught.exception.detail, room.tolist()), (4, [7, 7, 7]))
            for wrong in (array("d", [0.0]), array("i", [0]), bytes(8), [0], memoryview(array("q", [1, 2, 3, 4]))[::2]):
                self.assertRaises(TypeError, holder.value_many, "sum", [(9, 10)], into=wrong)
        # of a vector a number below 0 counts from the end, of a series it is no index
        ends = memoryview(array("q", [-3, 300, 9, -1])).cast("B").cast("q", [2, 2])
        self.assertEqual(self.vector.value_many("sum", ends), [value_of(Kind.SUM, self.all[-3:]), value_of(Kind.SUM, self.all[9:-1])])
        self.assertEqual(self.vector.value_many("sum", memoryview(array("i", [-3, 300])).cast("B").cast("i", [1, 2])), [value_of(Kind.SUM, self.all[-3:])])
        with self.assertRaises(NotKept) as caught:
            self.series.value_many("sum", ends)
        self.assertEqual(caught.exception.place, 0)

    def test_exact_totals(self) -> None:
        self.assertEqual(self.vector.total(), sum(self.all))
        self.assertEqual(self.series.total(), sum(self.all[GONE:]))
        for lo, hi in self.ranges:
            self.assertEqual((self.vector.total(lo, hi), self.series.total(lo, hi)), (sum(self.all[lo:hi]),) * 2)
        high = [2**62 + k for k in range(1000)]
        self.assertEqual((Series(high).total(), Vector(high, kind="sum").total(), Vector([-it for it in high]).total()), (sum(high), sum(high), -sum(high)))
        self.assertNotEqual(Series(high).sum(), sum(high))
        # told in pieces: of 16,384 elements, of 128, of 64, and of one
        for far in (2**50, 2**57, 2**58, 2**60, 2**63):
            apart = [-5 if k % 7 else far - 5 for k in range(20000)]
            for holder in (Vector(apart), Series(apart), Vector(apart, kind="best")):
                self.assertEqual((holder.total(), holder.total(3, 19999), holder.total(9, 9)), (sum(apart), sum(apart[3:19999]), 0))
                self.assertRaises((OutOfRange, NotKept), holder.total, 0, 20001)
                self.assertRaises(BadRange, holder.total, 3, 2)
        for elements in (high, [-it for it in high], self.all, [5], []):
            self.assertEqual((Summary(elements).total, Summary(elements[:3]).join(Vector(elements[3:]).summary()).total), (sum(elements),) * 2)
        self.assertRaises(BadRange, self.series.total, 9, 8)
        self.assertRaises(NotKept, self.series.total, 0, 9)
        self.assertRaises(OutOfRange, self.vector.total, 0, 301)


class Rolling(unittest.TestCase):
    def setUp(self) -> None:
        self.all = drawn(5, 200)
        self.vector, self.series = Vector(self.all), Series(self.all)
        self.series.expire(GONE)

    def wanted(self, kind: Any, window: Any, lo: Any, hi: Any, first: Any) -> Any:
        return [number for i in range(lo, hi) for number in cell(kind, self.all[max(first, i + 1 - window):i + 1])]

    def test_windows_of_elements(self) -> None:
        for kind in CELLS:
            for holder, first in ((self.vector, 0), (self.series, GONE)):
                for window in (1, 2, 8, 199, 200, 10**30):
                    for lo, hi in ((first, 200), (50, 60), (150, 200), (first, first + 1), (60, 60), (200, 200)):
                        told = holder.rolling(kind, window, lo, hi)
                        self.assertEqual(told.edit, holder.edits)
                        flat = told.cells.cast("B").cast(CELLS[kind][0]).tolist() if hi > lo else told.cells.tolist()
                        self.assertEqual(flat, self.wanted(kind, window, lo, hi, first))
                room = array(CELLS[kind][0], [7] * (200 * CELLS[kind][1]))
                self.assertEqual(holder.rolling(kind, 8, -9 if holder is self.vector else 191, into=room), 9)
                self.assertEqual(room.tolist()[:10 * CELLS[kind][1]], self.wanted(kind, 8, 191, 200, first) + [7] * CELLS[kind][1])
        self.assertRaises(ShortBuffer, self.series.rolling, "sum", 3, into=array("q", [0] * 192))
        for window in (0, -1):
            self.assertRaises(ValueError, self.series.rolling, "sum", window)
        self.assertRaises(TypeError, self.series.rolling, "sum", 1.5)
        self.assertRaises(BadRange, self.vector.rolling, "sum", 3, 9, 8)
        for lo, hi in ((GONE - 1, 20), (20, 201), (201, 201), (0, 1 << 60), (0, 0)):
            self.assertRaises(NotKept, self.series.rolling, "sum", 3, lo, hi)
        for lo, hi in ((20, 201), (201, 201), (0, 2**32 - 1)):
            self.assertRaises(OutOfRange, self.vector.rolling, "sum", 3, lo, hi)

    def test_many_windows(self) -> None:
        # more than a call of C asks for, with and without a last part
        for count in (4096, 4097, 8192, 9000):
            load = [k * 7919 % 1000 - 500 for k in range(count)]
            for holder in (Vector(load), Series(load)):
                for lo in (0, 3, 4000):
                    for window in (1, 30, 5000):
                        sums = [0]
                        for value in load:
                            sums.append(sums[-1] + value)
                        wanted = [sums[i + 1] - sums[max(0, i + 1 - window)] for i in range(lo, count)]
                        self.assertEqual(holder.rolling("sum", window, lo).cells.tolist(), wanted)
                room = array("q", [7] * (count + 2))
                self.assertEqual((holder.rolling("sum", 1, into=room), room.tolist()), (count, load + [7, 7]))

    def test_an_edit_between_two_calls(self) -> None:
        class Edited(Series):
            edits_left: list[Any] = []

            def _asked_many(self, *told: Any) -> Any:
                did = super()._asked_many(*told)
                if self.edits_left:
                    self.edits_left.pop()()
                return did

        # all windows are those after the edit
        load = Edited([1] * 9000)
        load.edits_left = [lambda: load.write(0, 50)]
        told = load.rolling("greatest", 9000)
        self.assertEqual((told.edit, told.cells.tolist(), load.edits_left), (load.edits, [50] * 9000, []))
        # and where that refuses a window the column is as it was
        load.edits_left = [lambda: load.expire(5)]
        room = array("q", [7] * 9000)
        self.assertRaises(NotKept, load.rolling, "greatest", 3, 0, 9000, into=room)
        self.assertEqual(room, array("q", [7] * 9000))

    def test_windows_of_time(self) -> None:
        chance, times = random.Random(2), []
        for _ in self.all:
            times.append((times[-1] if times else -50) + chance.choice((0, 0, 1, 2, 30)))
        load = Samples(times, self.all)
        load.expire(GONE)
        for kind in CELLS:
            for span in (1, 3, 60, 2**64 - 1):
                for lo, hi in ((GONE, 200), (80, 130), (9, 9)):
                    wanted = [number for i in range(lo, hi) for number in cell(kind, [self.all[j] for j in range(GONE, i + 1) if times[j] > times[i] - span])]
                    told = load.rolling_span(kind, span, lo, hi)
                    self.assertEqual(told.cells.cast("B").cast(CELLS[kind][0]).tolist() if hi > lo else told.cells.tolist(), wanted)
        self.assertEqual(load.rolling("sum", 2, 50, 51).cells.tolist(), [value_of(Kind.SUM, self.all[49:51])])
        self.assertRaises(ValueError, load.rolling_span, "sum", 0)
        self.assertRaises(OverflowError, load.rolling_span, "sum", -1)
        self.assertRaises(NotKept, load.rolling_span, "sum", 5, 0, 9)
        # the last one's window is that of `last`
        self.assertEqual(load.rolling_span("sum", 60)[1][-1], load.value_of_last("sum", 60))

    def test_a_column_by_hand(self) -> None:
        self.assertEqual(Series([3, 1, 4, 1, 5]).rolling("least", 2).cells.tolist(), [3, 1, 1, 1, 1])
        load = Samples([0, 9, 10], [5, 6, 7])
        self.assertEqual([load.rolling_span(kind, 10).cells.tolist() for kind in ("sum", Kind.LEAST)], [[5, 11, 13], [5, 5, 6]])
        self.assertEqual(Series().rolling("sum", 3).cells.tolist(), [])
        self.assertRaises(ValueError, load.rolling, "median", 3)


class Alike(unittest.TestCase):
    """What a series and samples have as a list, or a vector, has it."""

    def test_slices(self) -> None:
        elements = list(range(100, 130))
        for gone in (0, 1, 7, 30):
            series = Series(elements)
            series.expire(gone)
            kept = elements[gone:]
            for start in (None, *range(0, 33, 3)):
                for stop in (None, *range(0, 33, 4)):
                    for step in (None, 1, 2, 5, -1, -2, -7):
                        # as a list, whose index 0 is the series' first: what lies before it is cut
                        back = (step or 1) < 0
                        begin = None if start is None else start - gone
                        end = None if stop is None else stop - gone
                        if begin is not None and begin < 0:
                            begin = -len(kept) - 1 if back else 0
                        if end is not None and end < 0:
                            end = -len(kept) - 1 if back else 0
                        self.assertEqual(series[start:stop:step], kept[begin:end:step], (gone, start, stop, step))
            self.assertRaises(NotKept, lambda: series[-3:])
            self.assertRaises(NotKept, lambda: series[:-1])
            self.assertRaises(ValueError, lambda: series[::0])
            self.assertRaises(TypeError, lambda: series["a":])

    def test_copies_and_equals(self) -> None:
        series = Series([20, 22, 19, 25])
        series.expire(2)
        for other in (series.copy(), copy.copy(series), copy.deepcopy(series), pickle.loads(pickle.dumps(series))):
            self.assertIs(type(other), Series)
            self.assertEqual((other == series, other != series, other.first, other.size, other.edits), (True, False, 2, 4, 5))
            self.assertEqual((other.push(7), other.edits, series.size), (4, 6, 4))
            self.assertFalse(other == series)
        self.assertEqual(series, Series([19, 25]))
        self.assertNotEqual(series, Series([19, 24]))
        self.assertRaises(TypeError, hash, series)

        class Own(Series):
            pass

        self.assertIs(type(copy.copy(Own([1]))), Own)

    def test_copies_of_samples(self) -> None:
        load = Samples([0, 90, 91], [7, 4, 9])
        load.expire(1)
        for other in (load.copy(), copy.copy(load), copy.deepcopy(load), pickle.loads(pickle.dumps(load))):
            self.assertIs(type(other), Samples)
            self.assertEqual((other == load, other.first, other.edits, other.times().tolist(), list(other)), (True, 1, 4, [90, 91], [4, 9]))
            other[1] = 5
            self.assertNotEqual(other, load)
        self.assertEqual(load, Samples([90, 91], [4, 9]))
        self.assertNotEqual(load, Samples([90, 92], [4, 9]))
        self.assertNotEqual(load, Series([4, 9]))
        self.assertEqual((load[1:3], load[::-1]), ([4, 9], [9, 4]))


class Said(unittest.TestCase):
    """A caller's mistake is named: which argument, what was given, what there is."""

    def said(self, wanted: Any, kind: Any, call: Any, *arguments: Any, **named: Any) -> None:
        with self.assertRaises(kind) as caught:
            call(*arguments, **named)
        self.assertEqual(str(caught.exception), wanted)
        if isinstance(caught.exception, livevec.Refusal):
            self.assertEqual(str(pickle.loads(pickle.dumps(caught.exception))), wanted)

    def test_of_a_vector(self) -> None:
        v = Vector([1, 2, 3, 4])
        self.said("index 7: out of range: the size is 4", IndexError, lambda: v[7])
        self.said("index -9: out of range: the size is 4", IndexError, lambda: v[-9])
        self.said("index 4: out of range: the size is 4", OutOfRange, v.write, 4, 0)
        self.said("index 6: out of range: the size is 4", OutOfRange, v.swap, 0, 6)
        self.said("the range 2 to 9: out of range: the size is 4", OutOfRange, v.sum, 2, 9)
        self.said("the range 3 to 1: a range whose start is past its end", BadRange, v.ask, 3, 1)
        self.said("ranges[1] = (-1, 5): out of range: the size is 4", OutOfRange, v.value_many, "sum", [(0, None), (-1, 5), (0, 9)])
        self.said("indices[2] = 4: out of range: the size is 4", OutOfRange, v.write_many, [0, 1, 4], [0, 0, 0])
        self.said("the element is a whole number, not 1.5, which is a float", TypeError, v.push, 1.5)
        self.said("the index is a whole number, not '0', which is a str", TypeError, v.write, "0", 1)
        self.said("the end of the range is a whole number, not 'x', which is a str", TypeError, v.sum, 0, "x")
        self.said("elements[1] is a whole number, not 'b', which is a str", TypeError, v.extend, [1, "b"])
        self.said("values[0] 9223372036854775808 does not fit 64 bits: it is from -2**63 to 2**63 - 1", OverflowError, v.write_many, [0], [2**63])
        self.said("ranges[1] is a pair of a start and an end, not 7", TypeError, v.value_many, "sum", [(0, 1), 7])
        self.said("the column is to have whole numbers of 64 bits, and its format is 'd'", TypeError, v.value_many, "sum", [(0, 1)], into=array("d", [0]))
        self.said("'mean' is not a kind: a kind is a livevec.Kind, or one of these names: sum, least, greatest, best, affine, automaton", ValueError, v.value, "mean")

    def test_of_a_series(self) -> None:
        s = Series([1, 2, 3, 4])
        s.expire(2)
        self.said("index 1: out of range: kept are the indices from 2 up to 4", IndexError, lambda: s[1])
        self.said("the range 1 to 3: out of range: kept are the indices from 2 up to 4", NotKept, s.sum, 1, 3)
        self.said("the range 4 to 3: a range whose start is past its end", BadRange, s.least, 4, 3)
        self.said("ranges[0] = (1, 3): out of range: kept are the indices from 2 up to 4", NotKept, s.value_many, "sum", [(1, 3)])
        self.said("index -1: out of range: kept are the indices from 2 up to 4", NotKept, lambda: s[-1:])
        self.said("the span -5 is outside 0 to 18446744073709551615", OverflowError, Samples().last, -5)
        self.said("the times 9 to 3: a range whose start is past its end", BadRange, Samples([1], [2]).between, 9, 3)
        self.said("the range 9 to 3: a range whose start is past its end", BadRange, Samples([1], [2]).value_between, "sum", 9, 3)
        self.said("until is a whole number, not None, which is a NoneType", TypeError, Samples().between, 9, None)

    def test_the_first_wrong_one_of_many(self) -> None:
        vector, series = Vector([1, 2]), Series([1, 2, 3])
        series.expire(1)
        load = Samples([0, 60], [7, 7])
        shared = livevec.SharedVector(Vector([1, 2])), livevec.SharedSeries(series.copy()), livevec.SharedSamples(load.copy())
        before = [holder.edits for holder in (vector, series, load, *shared)]
        text = "elements[5000] is a whole number, not 'x', which is a str"
        for holder in (vector, series, *shared[:2]):
            self.said(text, TypeError, holder.extend, ("x" if place >= 5000 else place for place in range(9000)))
            self.said("elements[1] 9223372036854775808 does not fit 64 bits: it is from -2**63 to 2**63 - 1", OverflowError, holder.extend, array("Q", [0, 2**63]))
            self.said("values[1] is a whole number, not None, which is a NoneType", TypeError, holder.write_many, [0, 0], iter([1, None]))
            self.said("ranges[1]: the end of the range is a whole number, not 2.5, which is a float", TypeError, holder.value_many, "sum", iter([(1, 2), (1, 2.5)]))
        self.said(text, TypeError, vector.summary().extended, ("x" if place >= 5000 else place for place in range(9000)))
        for many in (vector, shared[0]):
            self.said("indices[1] = -3: out of range: the size is 2", OutOfRange, many.write_many, iter([0, -3, 9]), [5, 5, 5])
        for kept in (series, shared[1]):
            self.said("indices[1] = -3: out of range: kept are the indices from 1 up to 3", NotKept, kept.write_many, iter([1, -3, 9]), [5, 5, 5])
            self.said("ranges[1] = (2, 1): a range whose start is past its end", BadRange, kept.value_many, "sum", [(1, 2), (2, 1)])
        for times in (load, shared[2]):
            self.said("times[0] = 59: earlier than the last sample, whose time is 60", livevec.Earlier, times.push_many, [59, 70], [1, 1])
            self.said("time 59: earlier than the last sample, whose time is 60", livevec.Earlier, times.push, 59, 1)
        self.said("times[1] = 4: earlier than the last sample, whose time is 5", livevec.Earlier, Samples, iter([5, 4]), [1, 1])
        self.assertEqual([holder.edits for holder in (vector, series, load, *shared)], before)
        self.said("table[1][2] = 8: an automaton's table with an entry above 7", livevec.BadTable, Vector, table=[[0] * 4, [0, 0, 8, 9], *[[0] * 4] * 6])
        self.said("table[1][2] is a whole number, not 'x', which is a str", TypeError, Vector, table=[[0] * 4, [0, 0, "x", 0], *[[0] * 4] * 6])

    def test_what_a_generator_raises_is_its_own(self) -> None:
        def failing() -> Any:
            yield 1
            raise TypeError("mine")

        self.said("mine", TypeError, Vector, failing())

    def test_of_a_shared_vector(self) -> None:
        with livevec.SharedVector(Vector([1, 2])) as shared:
            self.said("index -3: out of range: the size is 2", OutOfRange, shared.write, -3, 7)
            self.said("the range 1 to 3: out of range: the size is 2", OutOfRange, shared.sum, 1, 3)
            self.said("the index is a whole number, not 'x', which is a str", TypeError, shared.write, "x", 7)


@unittest.skipIf(numpy is None, "there is no numpy")
class Numpy(unittest.TestCase):
    def test_out(self) -> None:
        series, vector = Series([1, 2, 3]), Vector([4, 5])
        series.expire(1)
        for holder, wanted in ((series, [2, 3]), (vector, [4, 5]), (Samples([7], [8]), [8]), (Vector(), [])):
            made = numpy.asarray(holder)
            self.assertEqual((made.dtype, made.tolist()), (numpy.int64, wanted))
            self.assertEqual(numpy.array(holder, dtype="float64").tolist(), [float(it) for it in wanted])
        made = numpy.asarray(vector)
        made[0] = 9
        self.assertEqual(vector[0], 4)
        self.assertRaises(ValueError, vector.__array__, copy=False)

    def test_reductions(self) -> None:
        rows = Vector([3, -1, 2]), Series([9, 3, -1, 2]), Samples([0, 1, 1], [3, -1, 2])
        rows[1].expire(1)
        shared = livevec.SharedVector(rows[0].copy()), livevec.SharedSeries(rows[1].copy()), livevec.SharedSamples(rows[2].copy())
        for holder in (*rows, *shared):
            self.assertEqual((numpy.sum(holder), numpy.sum(holder, 0), numpy.min(holder), numpy.max(holder), numpy.mean(holder)), (4, 4, -1, 3, 4 / 3))
            for given in ({"axis": 1}, {"axis": -1}, {"axis": ()}, {"dtype": "int32"}, {"out": numpy.zeros((), dtype="int64")}):
                with self.assertRaisesRegex(TypeError, "axis is None or 0" if "axis" in given else f"a sum takes no {next(iter(given))}"):
                    numpy.sum(holder, **given)
        far = Vector([2**63 - 1, 1])
        with numpy.errstate(all="raise"):
            self.assertEqual((numpy.sum(far), numpy.sum(numpy.asarray(far)), sum(far)), (-(2**63), -(2**63), 2**63))
        self.assertEqual(numpy.sum(Vector()), 0)
        for reduction in (numpy.min, numpy.max):
            self.assertRaises(ValueError, reduction, Vector())

    def test_columns_without_a_copy(self) -> None:
        sums = numpy.asarray(Series(range(10)).rolling("sum", 3).cells)
        self.assertEqual((sums.dtype, sums.tolist()), (numpy.int64, [sum(range(max(0, i - 2), i + 1)) for i in range(10)]))
        ends = numpy.arange(1, 11)
        room = numpy.zeros(12, dtype=numpy.int64)
        ranges = numpy.stack([numpy.maximum(ends - 3, 0), ends], axis=1)
        for given in (ranges, numpy.asfortranarray(ranges), ranges.astype("uint32"), ranges.astype("int16")):
            for holder in (Series(range(10)), Vector(range(10))):
                room[:] = -1
                self.assertEqual(holder.value_many("sum", given, into=room), 10)
                self.assertEqual(room.tolist(), [*sums.tolist(), -1, -1])
        maps = numpy.zeros((10, 2), dtype=numpy.uint32)
        Series(range(10)).value_many("affine", ranges, into=maps)
        self.assertEqual(maps.tolist(), [list(value_of(Kind.AFFINE, range(*pair))) for pair in ranges.tolist()])

    def test_what_is_no_column(self) -> None:
        for wrong, said in ((numpy.zeros(3), "format is 'd'"), (numpy.zeros(3, dtype="datetime64[s]"), "astype"), (numpy.zeros((2, 2), dtype="int64"), "2 dimensions")):
            with self.assertRaisesRegex(TypeError, said):
                Vector(wrong)


@unittest.skipIf(pandas is None, "there is no pandas")
class Pandas(unittest.TestCase):
    def test_in(self) -> None:
        column = pandas.Series([3, 1, 4], name="load")
        times = pandas.to_datetime(["2024-01-01", "2024-01-02", "2024-01-03"]).to_series()
        for made in (Vector(column), Series(column), Vector(column.astype("Int64")), Vector(column.astype("int32")), Samples(times.astype("int64"), column)):
            self.assertEqual(list(made), [3, 1, 4])
        with self.assertRaisesRegex(TypeError, "astype"):
            Samples(times, column)
        self.assertRaises(TypeError, Vector, pandas.Series([1, None], dtype="Int64"))
        self.assertRaises(TypeError, Vector, column.astype("float64"))
        frame = pandas.DataFrame({"lo": [0, 1], "hi": [2, 3]})
        self.assertEqual(Vector(column).value_many("sum", frame), [4, 5])
        self.assertEqual(Series(column).value_many("sum", frame[["lo", "hi"]]), [4, 5])

    def test_out(self) -> None:
        for made in (pandas.Series(Vector([3, 1])), pandas.Series(Series([3, 1])), pandas.DataFrame({"it": Series([3, 1])})["it"]):
            self.assertEqual((str(made.dtype), made.tolist()), ("int64", [3, 1]))

    def test_rolling_as_pandas_does(self) -> None:
        chance = random.Random(1)
        frame = pandas.DataFrame({"load": [chance.randint(-50, 50) for _ in range(500)]})
        series, windows = Series(frame["load"]), frame["load"].rolling(24, min_periods=1)
        told = frame.assign(**{kind: series.rolling(kind, 24).cells for kind in ("sum", "least", "greatest")})
        for name, wanted in (("sum", windows.sum()), ("least", windows.min()), ("greatest", windows.max())):
            self.assertEqual(told[name].tolist(), wanted.astype("int64").tolist())
        seconds = pandas.Series([chance.choice((0, 1, 5, 90)) for _ in range(500)]).cumsum()
        frame.index = pandas.to_datetime(seconds, unit="s")
        told = Samples(seconds, frame["load"]).rolling_span("sum", 60)
        self.assertEqual(told.cells.tolist(), frame["load"].rolling("60s").sum().astype("int64").tolist())


if __name__ == "__main__":
    unittest.main()
