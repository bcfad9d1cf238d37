"""Where something stands in a range of a vector, of a series and of samples, beside plain loops over the same numbers.

usage: python3 -m unittest test_places
"""
import random
import unittest
from typing import Any

import livevec
from livevec import Samples, Series, Vector

MOST, LEAST = 2**63 - 1, -(2**63)


class Places(unittest.TestCase):
    def look(self, asked: Any, xs: Any, lo: Any, hi: Any, wanted: Any, bound: Any) -> None:
        """All searches of a range, by some numbers."""
        inside = range(lo, hi)
        runs = [(sum(xs[start:end]), -end, start) for start in inside for end in range(start + 1, hi + 1)]
        total, end, start = max(runs, default=(0, 0, 0))
        self.assertEqual(asked.where_least(lo, hi), min(((i, xs[i]) for i in inside), key=lambda it: it[1], default=None))
        self.assertEqual(asked.where_greatest(lo, hi), max(((i, xs[i]) for i in inside), key=lambda it: it[1], default=None))
        self.assertEqual(asked.where_best(lo, hi), (start, -end, total) if runs else None)
        self.assertEqual(asked.where_reaches(wanted, lo, hi), next((end for end in range(lo, hi + 1) if sum(xs[lo:end]) >= wanted), None))
        self.assertEqual(asked.where_reaches_back(wanted, lo, hi), next((start for start in range(hi, lo - 1, -1) if sum(xs[start:hi]) >= wanted), None))
        at_least, at_most = [i for i in inside if xs[i] >= bound], [i for i in inside if xs[i] <= bound]
        self.assertEqual((asked.where_first_at_least(bound, lo, hi), asked.where_last_at_least(bound, lo, hi)), ends(at_least))
        self.assertEqual((asked.where_first_at_most(bound, lo, hi), asked.where_last_at_most(bound, lo, hi)), ends(at_most))

    def test_they_are_as_plain_loops_find_them(self) -> None:
        draw, vector, series, samples, xs = random.Random(5), Vector(), Series(), Samples(), []
        for at in range(150):
            xs.append(draw.choice((MOST, LEAST, *range(-4, 5), *range(-4, 5))))
            vector.push(xs[-1])
            series.push(xs[-1])
            samples.push(at // 3, xs[-1])
            first = len(xs) // 5
            changed = draw.randrange(first, len(xs))
            xs[changed] = draw.randrange(-4, 5)
            for asked in (vector, series, samples):
                asked[changed] = xs[changed]
            series.expire(first)
            samples.expire(first)
            for asked in (vector, series, samples):
                for _ in range(2):
                    lo, hi = sorted((draw.randrange(first, at + 2), draw.randrange(first, at + 2)))
                    self.look(asked, xs, lo, hi, draw.choice((draw.randrange(-3, 30), MOST, LEAST)), draw.choice((draw.randrange(-5, 6), MOST, LEAST)))

    def test_sums_are_exact_past_64_bits(self) -> None:
        for asked in (Vector([MOST, MOST, LEAST]), Series([MOST, MOST, LEAST]), Samples([1, 1, 2], [MOST, MOST, LEAST])):
            self.assertEqual((asked.where_best(), asked.where_reaches(MOST), asked.where_reaches(LEAST, 2), asked.where_reaches(1, 2)), ((0, 2, 2 * MOST), 1, 2, None))
            self.assertEqual((asked.where_reaches_back(MOST - 1), asked.where_reaches_back(0, 1), asked.where_reaches_back(1, 1)), (0, 3, None))

    def test_what_is_refused(self) -> None:
        series = Series([4, 7, 1])
        series.expire(1)
        for asked, refused, past in ((Vector([1, 2, 3]), livevec.OutOfRange, (0, 4)), (series, livevec.NotKept, (1, 4)), (series, livevec.NotKept, (0, 3)),
                                     (series, livevec.NotKept, (-1, 3)), (series, livevec.NotKept, (1, 2**64))):
            by_number = [asked.where_reaches, asked.where_reaches_back, asked.where_first_at_least, asked.where_first_at_most, asked.where_last_at_least,
                         asked.where_last_at_most]
            for call in by_number:
                self.assertRaises(refused, call, 0, *past)
                self.assertRaises(livevec.BadRange, call, 0, 2, 1)
                self.assertRaises(OverflowError, call, 2**63)
                self.assertRaises(OverflowError, call, LEAST - 1)
                self.assertRaises(TypeError, call, "7")
            for call in (asked.where_least, asked.where_greatest, asked.where_best):
                self.assertRaises(refused, call, *past)
                self.assertRaises(livevec.BadRange, call, 2, 1)
        series.close()
        for call in (series.where_best, lambda: series.where_reaches(1), lambda: series.where_last_at_most(1)):
            self.assertRaises(livevec.Closed, call)


def ends(found: Any) -> Any:
    """The first and the last of some indices, or none twice."""
    return (found[0], found[-1]) if found else (None, None)


if __name__ == "__main__":
    unittest.main()
