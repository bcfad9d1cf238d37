"""Questions by one kind, and many writes at once. Expected values are worked out by hand from the rules, or by plain Python over the same numbers."""
import contextlib
import pickle
import random
import threading
import unittest
from array import array

import livevec
from livevec import Kind, Vector
from plain import value_of


class ByKind(unittest.TestCase):
    def test_values_and_many_writes_beside_a_list(self) -> None:
        chance, plain, v, edits = random.Random(5), [], Vector(), 0
        for _ in range(150):
            more = [chance.choice([chance.randrange(-9, 9), chance.randrange(-(2**63), 2**63)]) for _ in range(chance.randrange(9))]
            plain += more
            v.extend(more)
            if plain and chance.random() < 0.3:
                del plain[-chance.randrange(1, 9):]
                v.truncate(len(plain))
                edits += 1
            places = [chance.randrange(len(plain)) for _ in range(chance.randrange(9))] if plain else []
            values = [chance.randrange(-(2**63), 2**63) for _ in places]
            for place, value in zip(places, values):
                plain[place] = value
            v.write_many([place - len(plain) * chance.randrange(2) for place in places], values)
            edits += len(more) + len(places)
            self.assertEqual(v.edits, edits)
            if chance.random() < 0.2:
                v.refresh(9)
            for kind in Kind:
                pairs = [sorted(chance.randrange(len(plain) + 1) for _ in range(2)) for _ in range(chance.randrange(7))]
                wanted = [value_of(kind, plain[lo:hi]) for lo, hi in pairs]
                self.assertEqual(v.value_many(kind, pairs), wanted)
                self.assertEqual([v.value(kind.name.lower(), lo, hi) for lo, hi in pairs], wanted)
        self.assertEqual(list(v), plain)

    def test_ranges_are_taken_as_one_is(self) -> None:
        v = Vector([1, 20, 300])
        self.assertEqual(v.value_many("sum", [(0, 3), (-2, None), (0, -1), (None, 1), (-9, 2), (3, 3)]), [321, 320, 21, 1, 21, 0])
        self.assertEqual(v.value_many("least", ((lo, lo + 1) for lo in range(3))), [1, 20, 300])
        self.assertEqual(v.value_many("best", []), [])
        self.assertEqual(v.value_many("greatest", memoryview(array("I", [0, 2, 1, 1])).cast("B").cast("I", [2, 2])), [20, None])
        self.assertEqual(v.value_many("sum", memoryview(array("q", [-1, 3, 0, -1])).cast("B").cast("q", [2, 2])), [300, 21])
        self.assertEqual((v.value("affine"), v.value("sum", -1), v.edits), (v.ask().values.affine, 300, 3))

    def test_many_from_numpy(self) -> None:
        try:
            import numpy
        except ImportError:
            self.skipTest("there is no numpy")
        v = Vector(range(10))
        starts = numpy.arange(8)
        self.assertEqual(v.value_many("sum", numpy.stack([starts, starts + 3], axis=1)), [3 * start + 3 for start in range(8)])
        self.assertEqual(v.value_many("least", numpy.array([[0, 2], [5, 9]], dtype=numpy.uint32)), [0, 5])
        self.assertEqual(v.value_many("least", numpy.zeros((0, 2), dtype=numpy.int64)), [])
        self.assertRaises(ValueError, v.value_many, "sum", numpy.zeros((3, 3), dtype=numpy.int64))
        self.assertRaises(ValueError, v.value_many, "sum", numpy.zeros((3, 2)))
        v.write_many(numpy.arange(0, 10, 2), numpy.full(5, -1))
        self.assertEqual(list(v), [-1, 1, -1, 3, -1, 5, -1, 7, -1, 9])

    def test_what_is_refused_tells_where(self) -> None:
        v = Vector([3, 1, 2], most_buckets=1, most_edits=6)
        for refused, place, detail, pairs in [
                (livevec.OutOfRange, 1, 3, [(0, 3), (1, 4), (2, 1)]), (livevec.BadRange, 2, 0, [(0, 3), (1, 3), (2, 1), (0, 9)]),
                (livevec.OutOfRange, 1, 3, [(0, 1), (0, 2**40)]), (livevec.BadRange, 0, 0, [(2**40, 1), (0, 9)]), (livevec.BadRange, 1, 0, [(0, 1), (0, -9)])]:
            with self.assertRaises(refused) as caught:
                v.value_many("least", pairs)
            self.assertEqual((caught.exception.place, caught.exception.detail), (place, detail))
        for call in (lambda: v.value("median"), lambda: v.value_many("median", []), lambda: v.value_many("sum", [(1, 2, 3)]), lambda: v.value_many("sum", b"ab"),
                     lambda: v.write_many([0, 1], [5])):
            with self.assertRaises(ValueError):
                call()
        for call in (lambda: v.value(6), lambda: v.value_many("sum", [(0.5, 1)]), lambda: v.value_many("sum", [1]), lambda: v.write_many([0.5], [1])):
            with self.assertRaises((TypeError, ValueError)):
                call()
        for refused, places in [(livevec.OutOfRange, [0, 3]), (livevec.OutOfRange, [2, -4]), (livevec.OutOfRange, [1, 2**40])]:
            with self.assertRaises(refused) as caught:
                v.write_many(places, [7, 7])
            self.assertEqual((caught.exception.place, caught.exception.detail, caught.exception.pushed), (1, 3, 0))
        with self.assertRaises(livevec.OutOfRange) as caught:
            v.write_many([0, 1, 3, 2], [7, 7, 7, 7])
        self.assertEqual((caught.exception.place, caught.exception.pushed, list(v), v.edits), (2, 0, [3, 1, 2], 3))
        v.write_many([], [])
        v.write_many([-1, -1], [5, 6])
        with self.assertRaises(livevec.Worn) as caught:
            v.write_many([0, 1], [7, 7])
        self.assertEqual((caught.exception.place, list(v), v.edits), (1, [3, 1, 6], 5))
        again = pickle.loads(pickle.dumps(caught.exception))
        self.assertEqual((type(again), again.place), (livevec.Worn, 1))

    def test_a_closed_vector(self) -> None:
        v = Vector([1])
        v.close()
        for call in (lambda: v.value("sum", 0, 1), lambda: v.value_many("sum", []), lambda: v.write_many([], []), lambda: v.extend([])):
            self.assertRaises(livevec.Closed, call)

    def test_a_vector_that_another_call_is_at(self) -> None:
        v = Vector([1, 2])
        v._slot.busy_ = 1
        for call in (lambda: v.value("sum"), lambda: v.value_many("sum", []), lambda: v.write_many([], []), v.why_not_pop, v.close, lambda: v.extend([])):
            self.assertRaises(livevec.Busy, call)
        self.assertEqual(repr(v), "<livevec.Vector, busy>")
        v._slot.busy_ = 0
        self.assertEqual(v.sum(), 3)

    def test_other_threads_run_meanwhile(self) -> None:
        v = Vector(range(3000))
        pairs = [(lo, 3000) for lo in range(3000)] * 10
        told = []

        def ask() -> None:
            while not told:
                with contextlib.suppress(livevec.Busy):
                    told.append(v.value_many("best", pairs))

        asking = threading.Thread(target=ask)
        asking.start()
        while asking.is_alive():
            with contextlib.suppress(livevec.Busy):
                v.write(0, 0)
        asking.join()
        self.assertEqual((told[0][:2], told[0] == told[0][:3000] * 10), ([4498500, 4498500], True))


if __name__ == "__main__":
    unittest.main()
