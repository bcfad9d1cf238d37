"""Summaries that travel. Expected values are worked out by hand from the rules, or by plain Python over the same numbers."""
import copy
import pickle
import unittest
from typing import Any

import livevec
from livevec import Summary, Vector
from plain import plain_values


def forged(summary: Any, place: Any, word: Any) -> Any:
    """The bytes of a summary with another word in the place of one, and the checksum, FNV-1a, that belongs to them."""
    changed = bytearray(bytes(summary))
    changed[8 * place:8 * place + 8] = word.to_bytes(8, "little")
    check = 0xCBF29CE484222325
    for byte in changed[:-8]:
        check = (check ^ byte) * 0x100000001B3 % 2**64
    return bytes(changed[:-8]) + check.to_bytes(8, "little")


class Summaries(unittest.TestCase):
    def test_a_join_is_the_summary_of_the_lists_end_to_end(self) -> None:
        numbers = [5, -3, 4, -10, 2, 1 << 40, -7, -(2**63), 2**63 - 1, 300]
        for cut in range(len(numbers) + 1):
            joined = Vector(numbers[:cut]).summary().join(Vector(numbers[cut:]).summary())
            self.assertEqual((joined.count, joined.edit, joined.values[:5]), (10, None, plain_values(numbers)))
            self.assertEqual((joined, joined.values), (Summary(numbers), Vector(numbers).reduce().values))
        one, two, three = Summary(numbers[:2]), Summary(numbers[2:7]), Summary(numbers[7:])
        self.assertEqual((one.join(two).join(three), one.extended(numbers[2:7]).join(three)), (one.join(two.join(three)), Summary(numbers)))

    def test_a_summary_of_a_range_names_its_edit(self) -> None:
        v = Vector([4, 6, 9])
        v[1] = -6
        part = v.summary(1)
        self.assertEqual((part.count, part.edit, part.values.sum, repr(part)), (2, 4, 3, "<livevec.Summary of 2 at edit 4>"))
        v.pop()
        self.assertEqual((part.values.sum, v.summary(-1).edit, repr(Summary([1]))), (3, 5, "<livevec.Summary of 1>"))
        with self.assertRaises(livevec.OutOfRange) as caught:
            v.summary(0, 3)
        self.assertEqual(caught.exception.detail, 2)
        self.assertRaises(livevec.BadRange, v.summary, 2, 1)
        v.close()
        self.assertRaises(livevec.Closed, v.summary)

    def test_the_empty_one_changes_nothing(self) -> None:
        nothing, some = Summary(), Summary([7, -7])
        self.assertEqual((nothing.count, nothing.edit, nothing.values), (0, None, (0, None, None, None, (1, 0), tuple(range(8)))))
        self.assertEqual((nothing.join(some), some.join(nothing), nothing.extended([])), (some, some, nothing))

    def test_tables_must_agree(self) -> None:
        table = [[1, 0, 0, 0]] * 8
        own = Vector([4, 5], table=table).summary()
        self.assertEqual((own.table, own.values.automaton), (((1, 0, 0, 0),) * 8, (0,) * 8))
        self.assertRaises(livevec.OtherTable, own.join, Summary())
        self.assertEqual(Summary(table=table).join(own), Summary([4, 5], table=table))
        self.assertRaises(livevec.BadTable, Summary, table=[[8] * 4] * 8)
        self.assertRaises(TypeError, own.join, bytes(own))

    def test_it_goes_by_its_bytes(self) -> None:
        part = Vector(range(9)).summary(2)
        self.assertEqual(len(bytes(part)), livevec.SUMMARY_BYTES)
        self.assertEqual([int.from_bytes(bytes(part)[at:at + 8], "little") for at in range(0, 40, 8)], [1, 7, 1, 9, 35])
        for again in (Summary.from_bytes(bytearray(bytes(part))), pickle.loads(pickle.dumps(part)), copy.copy(part), copy.deepcopy(part)):
            self.assertEqual((again, hash(again), again.edit), (part, hash(part), 9))
        self.assertNotEqual(part, Summary(range(2, 9)))

    def test_damaged_bytes_are_refused(self) -> None:
        summary = Summary([4, 6, -3])
        for place in range(livevec.SUMMARY_BYTES):
            changed = bytearray(bytes(summary))
            changed[place] ^= 0x10
            self.assertRaises(livevec.OtherVersion if place < 8 else livevec.Damaged, Summary.from_bytes, changed)
        for sent in (b"", bytes(livevec.SUMMARY_BYTES), bytes(summary)[1:], bytes(summary) + b"0"):
            self.assertRaises(livevec.OtherVersion, Summary.from_bytes, sent)
        # a count past the laws, an edit without a vector, an automaton's state above 7, an entry of its table above 7
        for place, word in [(1, 2**62 + 1), (3, 5), (17, 8), (18, 9)]:
            self.assertRaises(livevec.Damaged, Summary.from_bytes, forged(summary, place, word))
        self.assertEqual(Summary.from_bytes(forged(summary, 3, 0)), summary)
        for wrong in (5, "x", None):
            self.assertRaises(TypeError, Summary.from_bytes, wrong)

    def test_more_elements_than_2_to_the_62_are_refused(self) -> None:
        most = Summary([0])
        for _ in range(62):
            most = most.join(most)
        self.assertEqual(most.count, 2**62)
        self.assertRaises(livevec.TooLong, most.join, most)
        self.assertRaises(livevec.TooLong, most.extended, [1])


if __name__ == "__main__":
    unittest.main()
