"""How a vector is edited, and what is refused. Expected values are worked out by hand from the rules, or by plain Python over the same numbers."""
import ctypes
import pickle
import unittest
from array import array

import livevec
from livevec import Vector


class Edits(unittest.TestCase):
    def test_each_edit_answers(self) -> None:
        v = Vector()
        self.assertEqual((len(v), v.capacity, v.edits), (0, 0, 0))
        self.assertEqual((v.push(4), v.push(-(2**63)), v.append(7)), (0, 1, None))
        self.assertEqual((v.write(0, -6), v.reserve(9), v.pop()), (4, 24, 7))
        v[-1] = 2**63 - 1
        self.assertEqual((list(v), v.capacity, v.edits), ([-6, 2**63 - 1], 24, 7))

    def test_two_elements_change_places_and_the_end_is_cut(self) -> None:
        v = Vector([4, 6, 9])
        self.assertEqual((v.swap(0, -1), v.swap(1, 1), list(v)), (9, 6, [9, 6, 4]))
        with self.assertRaises(livevec.OutOfRange):
            v.swap(0, 3)
        self.assertEqual((v.truncate(1), list(v), v.edits, v.capacity), (2, [9], 6, 8))
        with self.assertRaises(livevec.OutOfRange):
            v.truncate(2)

    def test_what_is_refused_changes_nothing(self) -> None:
        v = Vector(most_buckets=1, most_edits=10)
        for refused, call in [(livevec.Empty, v.pop), (livevec.OutOfRange, lambda: v.write(0, 1)), (livevec.TooLarge, lambda: v.reserve(9))]:
            with self.assertRaises(refused):
                call()
        v.extend([1] * 8)
        with self.assertRaises(livevec.Full):
            v.push(1)
        self.assertEqual((v.edits, v.pop(), v.pop(), v.edits), (8, 1, 1, 10))
        with self.assertRaises(livevec.Worn):
            v[0] = 5
        self.assertEqual(list(v), [1] * 6)

    def test_verdicts_are_what_the_edits_answer(self) -> None:
        v = Vector(most_buckets=1, most_edits=14)
        asked = [(v.why_not_push, v.push, 7), (v.why_not_pop, v.pop), (v.why_not_write, v.write, 2, 5), (v.why_not_write, v.write, -1, 5),
                 (v.why_not_reserve, v.reserve, 9), (v.why_not_swap, v.swap, 0, -4), (v.why_not_truncate, v.truncate, 6)]
        for size in range(9):
            before = v.edits
            told = [call(*arguments) for call, _, *arguments in asked]
            self.assertEqual((len(v), v.edits), (size, before))
            short = (livevec.OutOfRange, size)
            wanted = [(livevec.Full, 0) if size == 8 else None, (livevec.Empty, 0) if size == 0 else None, short if size < 3 else None,
                      short if size < 1 else None, (livevec.TooLarge, 8), short if size < 4 else None, short if size < 6 else None]
            self.assertEqual([why and (type(why), why.detail) for why in told], wanted)
            for why, (_, call, *arguments) in zip(told, asked):
                if why is not None:
                    self.assertRaises(type(why), call, *arguments)
            if size < 8:
                v.push(1)
        for _ in range(6):
            v[0] = 2
        self.assertEqual({type(call(*arguments)) for call, _, *arguments in asked}, {livevec.Worn})
        v.close()
        self.assertRaises(livevec.Closed, v.why_not_pop)

    def test_refusals_are_the_exceptions_that_python_knows(self) -> None:
        v = Vector([5])
        with self.assertRaises(IndexError) as caught:
            v[1]
        self.assertEqual((type(caught.exception), caught.exception.number, caught.exception.detail), (livevec.OutOfRange, 3, 1))
        self.assertEqual(str(caught.exception), "index 1: out of range: the size is 1")
        with self.assertRaises(ValueError):
            v.sum(2, 1)
        with self.assertRaises(livevec.BadLimits):
            Vector(most_buckets=18)
        self.assertTrue(issubclass(livevec.NoMemory, MemoryError) and issubclass(livevec.Full, OverflowError))
        again = pickle.loads(pickle.dumps(caught.exception))
        self.assertEqual((type(again), again.detail), (livevec.OutOfRange, 1))

    def test_what_is_no_element_is_never_cut(self) -> None:
        v = Vector()
        for call in (lambda: v.push(2**63), lambda: v.extend([1, -(2**63) - 1]), lambda: v.reserve(2**32), lambda: v.refresh(-1)):
            with self.assertRaises(OverflowError):
                call()
        for call in (lambda: v.push(1.5), lambda: v.extend([1, "2"]), lambda: v.extend(array("d", [1.0])), lambda: v.push(None)):
            with self.assertRaises(TypeError):
                call()
        for index in (2**32, -1, -(2**40)):
            with self.assertRaises(IndexError):
                v[index]
        self.assertEqual((len(v), v.edits), (0, 0))

    def test_extend_from_what_holds_numbers(self) -> None:
        numbers = array("q", range(-5, 5))
        for values in (numbers, list(numbers), tuple(numbers), (x for x in numbers), array("i", numbers), Vector(numbers), dict.fromkeys(numbers)):
            self.assertEqual(list(Vector(values)), list(range(-5, 5)))
        v = Vector()
        v.extend([])
        v.extend(array("q"))
        v += [7]
        self.assertEqual((list(v), v.edits), ([7], 1))
        numbers.append(5)  # nothing holds the array any longer

    def test_extend_from_buffers_of_64_bits(self) -> None:
        numbers = array("q", range(-5, 5))
        unwritable = memoryview(numbers.tobytes()).cast("q")
        for values in (memoryview(numbers), memoryview(numbers).toreadonly(), unwritable, (ctypes.c_int64 * 10)(*numbers), memoryview(bytearray(numbers)).cast("l")):
            self.assertEqual(list(Vector(values)), list(range(-5, 5)))
        for part in (slice(None, None, 2), slice(None, None, -2), slice(7, 2, -3), slice(3, 3)):
            for values in (memoryview(numbers), unwritable):
                self.assertEqual(list(Vector(values[part])), numbers[part].tolist())

    def test_extend_from_buffers_of_other_whole_numbers(self) -> None:
        self.assertEqual(list(Vector(b"\x01\xff")), [1, 255])
        self.assertEqual(list(Vector(memoryview(array("i", range(10)))[::-3])), [9, 6, 3, 0])
        self.assertEqual(list(Vector((ctypes.c_int16 * 3)(-1, 2, -3))), [-1, 2, -3])
        self.assertEqual(list(Vector((ctypes.c_int64.__ctype_be__ * 2)(1, -2))), [1, -2])
        self.assertEqual(list(Vector((ctypes.c_uint32.__ctype_le__ * 1)(2**32 - 1))), [2**32 - 1])
        self.assertEqual(list(Vector(memoryview(b"\x00\x01").cast("?"))), [0, 1])
        with self.assertRaises(OverflowError):
            Vector(array("Q", [1, 2**63]))

    def test_buffers_that_are_refused(self) -> None:
        v = Vector()
        for values in (array("d", [1.0]), memoryview(bytes(8)).cast("d"), memoryview(b"ab").cast("c"), array("f"), "12", memoryview(bytes(8)).cast("P")):
            with self.assertRaises(TypeError):
                v.extend(values)
        with self.assertRaisesRegex(TypeError, "2 dimensions"):
            v.extend(memoryview(bytes(48)).cast("q", [2, 3]))
        with self.assertRaisesRegex(TypeError, "format is 'd'"):
            v.extend(array("d", [1.0]))
        self.assertEqual(v.edits, 0)

    def test_extend_from_numpy(self) -> None:
        try:
            import numpy
        except ImportError:
            self.skipTest("there is no numpy")
        self.assertEqual(list(Vector(numpy.arange(5))), [0, 1, 2, 3, 4])
        self.assertEqual(list(Vector(numpy.arange(10)[::3])), [0, 3, 6, 9])
        self.assertEqual(list(Vector(numpy.arange(6, dtype=">i2"))), [0, 1, 2, 3, 4, 5])
        for values in (numpy.arange(3.0), numpy.zeros((2, 2), dtype=numpy.int64), numpy.int64(3)):
            self.assertRaises(TypeError, Vector, values)
        days = numpy.array(["2026-01-01"], dtype="datetime64[D]")
        for values in (days, days - days, numpy.ma.masked_array([1, 2], mask=[False, True])):
            with self.assertRaises(TypeError):
                Vector(values)
        self.assertEqual(list(Vector(numpy.ma.masked_array([1, 2], mask=[False, True]).compressed())), [1])
        masked = numpy.ma.masked_array([[0, 1]], mask=[[False, True]])
        for call in (lambda: Vector([1]).value_many("sum", masked), lambda: Vector([1]).read_into(numpy.ma.zeros(1, dtype=numpy.int64)),
                     lambda: Vector([1]).write_many(masked[0], [7, 7])):
            self.assertRaises(TypeError, call)
        held = numpy.asarray(Vector([1, 2]).to_array())
        self.assertEqual((held.dtype, held.tolist()), (numpy.int64, [1, 2]))
        room = numpy.zeros(5, dtype=numpy.int64)
        self.assertEqual((Vector([1, 2]).read_into(room[2:]), room.tolist()), (2, [0, 0, 1, 2, 0]))

    def test_an_extend_that_is_refused_takes_nothing(self) -> None:
        v = Vector(most_buckets=1)
        v.extend([1, 2, 3])
        with self.assertRaises(livevec.Full) as caught:
            v.extend(range(10))
        self.assertEqual((caught.exception.pushed, list(v), v.edits), (0, [1, 2, 3], 3))
        v.extend(range(5))
        self.assertEqual(list(v), [1, 2, 3, 0, 1, 2, 3, 4])
        worn = Vector([1, 2], most_edits=4)
        with self.assertRaises(livevec.Worn) as caught:
            worn += [3, 4, 5]
        self.assertEqual((caught.exception.pushed, list(worn), worn.edits), (0, [1, 2], 2))


if __name__ == "__main__":
    unittest.main()
