"""What a vector tells of its elements and of ranges.

Expected values are worked out by hand from the rules, or by plain Python over the same numbers."""
import ctypes
import itertools
import random
import unittest
from array import array

import livevec
from livevec import Vector
from plain import plain_values


class Reads(unittest.TestCase):
    def test_it_reads_like_a_list(self) -> None:
        numbers = list(range(3000))
        v = Vector(numbers)
        self.assertEqual(list(v), numbers)
        for ends in itertools.product((None, 0, 2, 1500, 2999, 3000, 9999, -1, -3, -3000, -9999), repeat=2):
            for step in (None, 1, 2, 7, 5000, -1, -7, -5000):
                part = slice(*ends, step)
                self.assertEqual(v[part], numbers[part])
        self.assertRaises(ValueError, lambda: v[::0])
        self.assertRaises(TypeError, lambda: v[1.0:])
        self.assertEqual((Vector()[:], Vector()[::-1]), ([], []))
        self.assertEqual((v[-1], 17 in v, -1 in v, v.index(40), v.count(3)), (2999, True, False, 40, 1))
        self.assertEqual(v.to_array(1, 3), array("q", [1, 2]))
        self.assertEqual(v.to_array(3, 3), array("q"))

    def test_it_is_searched_and_gone_through_backwards_like_a_list(self) -> None:
        numbers = [x % 7 for x in range(3000)]
        v = Vector(numbers)
        self.assertEqual(list(reversed(v)), numbers[::-1])
        for start, stop in ((0, None), (5, 9), (-9, None), (2990, 9999), (4, -2990)):
            self.assertEqual(v.index(6, start, stop), numbers.index(6, start, len(numbers) if stop is None else stop))
        self.assertRaisesRegex(ValueError, "9 is not in the vector", v.index, 9)
        self.assertRaises(ValueError, v.index, 6, 7, 2)
        self.assertEqual((v.count(6), v.count("6"), list(reversed(Vector())), bool(v), bool(Vector())), (numbers.count(6), 0, [], True, False))

    def test_going_through_while_it_is_edited_is_told(self) -> None:
        for through in (iter, reversed):
            v = Vector([1, 2, 3])
            with self.assertRaises(RuntimeError):
                for x in through(v):
                    v.push(x)
            self.assertEqual(len(v), 4)

    def test_elements_are_read_into_a_buffer(self) -> None:
        v = Vector(range(10))
        room = array("q", [-1] * 5)
        self.assertEqual((v.read_into(room, 7), room.tolist()), (3, [7, 8, 9, -1, -1]))
        self.assertEqual((v.read_into(memoryview(room)[3:], 0, 2), room.tolist()), (2, [7, 8, 9, 0, 1]))
        self.assertEqual((v.read_into(array("q"), 4, 4), v.read_into((ctypes.c_int64 * 10)())), (0, 10))
        with self.assertRaises(livevec.ShortBuffer) as caught:
            v.read_into(room, 1)
        self.assertEqual((caught.exception.detail, str(caught.exception)), (9, "the buffer is shorter than the 9 elements"))
        self.assertRaises(livevec.OutOfRange, v.read_into, room, 0, 11)
        for wrong in (bytes(80), bytearray(80), array("Q", range(10)), memoryview(room)[::2], memoryview(room).toreadonly(), [0] * 10):
            self.assertRaises(TypeError, v.read_into, wrong)
        self.assertEqual(room.tolist(), [7, 8, 9, 0, 1])

    def test_six_values(self) -> None:
        v = Vector([5, -3, 4, -10, 2])
        told = v.reduce()
        self.assertEqual((told.edit, told.values.sum), (5, -2))
        self.assertEqual((told.values.least, told.values.greatest, told.values.best), (-10, 5, 6))
        # each element's map, composed: 2 is y -> 0 * y + 2, and it is the last; the states from 0: 1, 3, 6, 6, 6
        self.assertEqual((told.values.affine, told.values.automaton[0]), ((0, 2), 6))
        self.assertEqual((v.sum(), v.sum(1), v.least(0, 2), v.greatest(3), v.best(3)), (-2, -7, -3, 2, 2))
        self.assertEqual((v.sum(2, 2), v.least(2, 2), v.best(5), v.ask(1, 1).values.automaton), (0, None, None, tuple(range(8))))

    def test_best_is_exact_past_64_bits(self) -> None:
        most, least = 2**63 - 1, -(2**63)
        self.assertEqual((Vector([most, most, least]).best(), Vector([least, least]).best()), (2 * most, least))

    def test_sums_are_exact_within_64_bits_and_wrap_past_them(self) -> None:
        most, least = 2**63 - 1, -(2**63)
        for elements, wanted in [([most, 1], least), ([least, -1], most), ([most, most], -2), ([most, 1, -1], most), ([least, least], 0)]:
            v = Vector(elements)
            self.assertEqual((v.sum(), v.ask().values.sum, v.scan_inclusive().sums()[-1], v.scan_inclusive()[-1].sum), (wanted,) * 4)

    def test_ranges_that_are_refused(self) -> None:
        v = Vector([1, 2, 3])
        for call in (v.ask, v.reduce, v.sum, v.scan_inclusive, v.scan_exclusive, v.to_array):
            self.assertRaises(livevec.BadRange, call, 2, 1)
            self.assertRaises(livevec.BadRange, call, 9, 8)
            self.assertRaises(livevec.BadRange, call, 2**40, 1)
            self.assertRaises(livevec.OutOfRange, call, 0, 4)
            self.assertRaises(livevec.OutOfRange, call, 0, 2**40)
            self.assertRaises(livevec.OutOfRange, call, -4, 4)
            self.assertRaises(livevec.BadRange, call, 1, -3)
            self.assertRaises(livevec.BadRange, call, 0, -4)
            self.assertRaises(TypeError, call, 1.0)
            self.assertRaises(TypeError, call, slice(0, 1))

    def test_negative_ends_count_from_the_end(self) -> None:
        v = Vector([1, 20, 300])
        self.assertEqual((v.sum(-1), v.sum(-3), v.sum(0, -1), v.sum(-2, -1), v.sum(3)), (300, 321, 21, 20, 0))
        self.assertEqual((v.to_array(-2).tolist(), v.scan_inclusive(-2).sums(), v.ask(-1).values.least), ([20, 300], [20, 320], 300))

    def test_a_negative_start_before_the_first_element_is_that_ones(self) -> None:
        plain = [1, 20, 300]
        v = Vector(plain)
        for lo, hi in [(-4, None), (-1000, None), (-(2**70), 2), (-4, -1), (-9, 0), (-3, -3)]:
            self.assertEqual((v.to_array(lo, hi).tolist(), v.sum(lo, hi)), (plain[lo:hi], sum(plain[lo:hi])))
        room = array("q", [0] * 3)
        self.assertEqual((v.read_into(room, -1000), room.tolist(), Vector().sum(-5)), (3, plain, 0))

    def test_a_table_of_ones_own(self) -> None:
        # state 1 says: a remainder of 3 was seen
        v = Vector([4, 7, 8], table=[[0, 0, 0, 1], [1, 1, 1, 1], *[[0, 0, 0, 0]] * 6])
        self.assertEqual((v.ask().values.automaton[0], v.ask(2).values.automaton[0]), (1, 0))
        self.assertRaises(livevec.BadTable, Vector, table=[[8, 0, 0, 0]] * 8)
        self.assertRaises(ValueError, Vector, table=[[0, 0, 0, 0]] * 7)

    def test_edits_and_answers_beside_a_list(self) -> None:
        chance, plain, v = random.Random(7), [], Vector()
        for edit in range(1, 2001):
            what = chance.random()
            x = chance.choice([chance.randrange(-9, 9), chance.randrange(-(2**63), 2**63)])
            if what < 0.6 or not plain:
                plain.append(x)
                v.push(x)
            elif what < 0.75:
                self.assertEqual(v.pop(), plain.pop())
            else:
                i = chance.randrange(len(plain))
                self.assertEqual(v.write(i, x), plain[i])
                plain[i] = x
            if edit % 20 == 0:
                self.assertEqual((v.edits, v.refresh(3) <= 3), (edit, True))
                lo = chance.randrange(len(plain) + 1)
                hi = chance.randrange(lo, len(plain) + 1)
                self.assertEqual(v.ask(lo, hi).values[:5], plain_values(plain[lo:hi]))
        self.assertEqual(list(v), plain)


if __name__ == "__main__":
    unittest.main()
