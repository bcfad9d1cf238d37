"""Elements of a series that are lent, beside a plain list.

usage: python3 -m unittest test_lent
"""
import gc
import unittest
from typing import Any

from livevec import BadRange, Busy, NotKept, Samples, Series

try:
    import numpy
except ImportError:
    numpy = None


class Lent(unittest.TestCase):
    def setUp(self) -> None:
        self.all = [i * i - 12_345 * i for i in range(70_000)]
        self.series = Series(self.all)
        self.series.expire(40_003)

    def test_a_range_is_lent_as_it_stands(self) -> None:
        with self.series.lend(50_000) as view:
            self.assertEqual((view.format, view.itemsize, view.readonly, view.contiguous), ("q", 8, True, True))
            self.assertEqual(view.tolist(), self.all[50_000:])
            with self.assertRaises(TypeError):
                view[0] = 1
        with self.series.lend() as view:
            self.assertEqual(len(view), 29_997)
        with self.series.lend(50_000, 50_000) as view:
            self.assertEqual(view.tolist(), [])
        self.assertEqual(self.series.write(50_000, 7), self.all[50_000])
        with self.series.lend(50_000, 50_002) as view:
            self.assertEqual(view.tolist(), [7, self.all[50_001]])

    def test_no_other_call_goes_through_meanwhile(self) -> None:
        with self.series.lend(50_000, 60_000):
            for call in (lambda: self.series.push(1), lambda: self.series.size, lambda: self.series.lend(50_000, 50_001).__enter__(), self.series.close):
                self.assertRaises(Busy, call)
            self.assertEqual(repr(self.series), "<livevec.Series, busy>")
        self.assertEqual(self.series.push(1), 70_000)

    def test_refusals(self) -> None:
        self.assertRaises(BadRange, self.series.lend, 5, 4)
        with self.assertRaises(NotKept) as caught, self.series.lend(40_002, 50_000):
            pass
        self.assertEqual((caught.exception.first, caught.exception.size), (40_003, 70_000))
        self.assertEqual(self.series.push(1), 70_000)

    def test_a_view_ends_with_its_block(self) -> None:
        loan = self.series.lend(50_000, 60_000)
        with loan as view:
            pass
        self.assertRaises(ValueError, view.tolist)
        self.assertRaises(ValueError, loan.__enter__)

    def test_what_is_kept_of_it_keeps_it_lent(self) -> None:
        with self.assertRaises(BufferError):
            with self.series.lend(50_000, 60_000) as view:
                some = view[1:3]
        self.assertEqual(some.tolist(), self.all[50_001:50_003])
        self.assertRaises(Busy, self.series.pop)
        some.release()
        del some
        self.assertEqual(self.series.pop(), self.all[-1])

    def test_what_is_kept_of_it_keeps_the_series(self) -> None:
        def kept() -> Any:
            series = Series([1, 2, 3])
            try:
                with series.lend() as view:
                    return view[1:]
            except BufferError:
                return None

        self.assertIsNone(kept())
        gc.collect()

    def test_an_error_passes(self) -> None:
        with self.assertRaises(ZeroDivisionError):
            with self.series.lend() as view:
                view[0] // 0
        self.assertEqual(self.series.push(1), 70_000)

    def test_samples_lend_their_values(self) -> None:
        load = Samples([1, 3, 3], [50, 70, 60])
        with load.lend(1) as view:
            self.assertEqual(view.tolist(), [70, 60])
            self.assertRaises(Busy, load.push, 4, 80)
        self.assertEqual(load.push(4, 80), 3)

    @unittest.skipUnless(numpy, "numpy is not there")
    def test_an_array_of_numpy_has_no_copy(self) -> None:
        with self.assertRaises(BufferError):
            with self.series.lend(50_000) as view:
                row = numpy.asarray(view)
                self.assertEqual((row.dtype, row.flags.owndata, row.flags.writeable), (numpy.int64, False, False))
                self.assertEqual(int(row.max()), max(self.all[50_000:]))
        self.assertEqual(row.tolist(), self.all[50_000:])
        self.assertRaises(Busy, self.series.pop)
        del row
        self.assertEqual(self.series.pop(), self.all[-1])
        with self.series.lend(50_000) as view:
            self.assertEqual(int(numpy.asarray(view).min()), min(self.all[50_000:-1]))
        self.assertEqual(self.series.pop(), self.all[-2])


if __name__ == "__main__":
    unittest.main()
