"""Scans, and columns of one kind. Expected values are worked out by hand from the rules, or by plain Python over the same numbers."""
import ctypes
import itertools
import random
import threading
import unittest
from array import array

import livevec
from livevec import Kind, Vector


class Scans(unittest.TestCase):
    def test_scans(self) -> None:
        v = Vector([3, -5, 4])
        inclusive, exclusive = v.scan_inclusive(), v.scan_exclusive()
        self.assertEqual((inclusive.sums(), exclusive.sums(), inclusive.edit), ([3, -2, 2], [0, 3, -2], 3))
        self.assertEqual([x.least for x in inclusive], [3, -5, -5])
        self.assertEqual([x.least for x in exclusive], [None, 3, -5])
        self.assertEqual((inclusive[-1].best, len(inclusive[1:]), len(v.scan_inclusive(1, 1)), v.scan_inclusive(1, 1).sums()), (4, 2, 0, []))

    def test_scans_by_one_kind_are_columns(self) -> None:
        v = Vector([3, -5, 4])
        sums, before = v.scan_inclusive_by("sum"), v.scan_exclusive_by(Kind.SUM, -2)
        self.assertEqual((sums.edit, sums.cells.tolist(), sums.cells.format, before.cells.tolist()), (3, [3, -2, 2], "q", [0, -5]))
        self.assertEqual([v.scan_inclusive_by(k).cells.tolist() for k in ("least", "greatest")], [[3, -5, -5], [3, 3, 4]])
        self.assertEqual(v.scan_exclusive_by("greatest").cells.tolist(), [0, 3, 3])
        self.assertEqual(v.scan_inclusive_by("best").cells.tolist(), [[3, 0], [3, 0], [4, 0]])
        # -5 is -1 * 256 + 251, and -1 * 3 + 251 is 248
        self.assertEqual(v.scan_inclusive_by("affine").cells.tolist(), [[0, 3], [0, 248], [0, 4]])
        self.assertEqual(v.scan_exclusive_by("automaton", 0, 2).cells.tolist(), [[0, 1, 2, 3, 4, 5, 6, 7], [3, 5, 7, 1, 3, 5, 7, 1]])
        self.assertEqual([len(v.scan_inclusive_by(k, 1, 1).cells) for k in Kind], [0] * 6)
        most = Vector([2**63 - 1, 2**63 - 1])
        self.assertEqual((most.scan_inclusive_by("sum").cells.tolist(), most.scan_inclusive_by("best").cells.tolist()),
                         ([2**63 - 1, -2], [[2**63 - 1, 0], [-2, 0]]))
        for refused, call in [(livevec.BadRange, lambda: v.scan_inclusive_by("sum", 2, 1)), (livevec.OutOfRange, lambda: v.scan_exclusive_by("best", 0, 4)),
                              (ValueError, lambda: v.scan_inclusive_by("median"))]:
            self.assertRaises(refused, call)

    def test_scans_by_one_kind_go_into_buffers(self) -> None:
        v = Vector([3, -5, 4])
        for room in (array("q", [7] * 4), array("Q", [7] * 4), (ctypes.c_int64 * 4)(7, 7, 7, 7)):
            self.assertEqual((v.scan_inclusive_into("sum", room), memoryview(room).cast("B").cast("q").tolist()), (3, [3, -2, 2, 7]))
        pairs = array("I", [9] * 6)
        self.assertEqual((v.scan_exclusive_into("affine", pairs, 0, 2), pairs.tolist()), (2, [1, 0, 0, 3, 9, 9]))
        rows = memoryview(bytearray(24)).cast("B", [3, 8])
        self.assertEqual((v.scan_inclusive_into("automaton", rows, 2), rows.tolist()[:2]), (1, [[0, 2, 4, 6, 0, 2, 4, 6], [0] * 8]))
        room = array("q", [7] * 2)
        with self.assertRaises(livevec.ShortBuffer) as short:
            v.scan_inclusive_into("least", room)
        self.assertEqual((short.exception.detail, room.tolist(), v.scan_inclusive_into("least", array("q"), 1, 1)), (3, [7, 7], 0))
        for kind, wrong in [("sum", bytes(24)), ("sum", array("d", [0] * 3)), ("sum", memoryview(array("q", [0] * 6))[::2]), ("affine", array("q", [0] * 3)),
                            ("affine", array("I", [0] * 5)), ("best", memoryview(bytearray(48)).cast("q", [2, 3])), ("automaton", array("b", [0] * 24))]:
            self.assertRaises(TypeError, v.scan_inclusive_into, kind, wrong)

    def test_columns_beside_plain_loops(self) -> None:
        chance, plain = random.Random(5), [random.Random(6).randrange(-(2**63), 2**63) for _ in range(600)]
        v = Vector(plain)
        for _ in range(20):
            at = chance.randrange(600)
            plain[at] = v[at] = chance.randrange(-(2**63), 2**63)
            lo, hi = sorted(chance.sample(range(601), 2))
            part = plain[lo:hi]
            self.assertEqual(v.scan_inclusive_by("least", lo, hi).cells.tolist(), list(itertools.accumulate(part, min)))
            self.assertEqual([x % 2**64 for x in v.scan_inclusive_by("sum", lo, hi).cells], [x % 2**64 for x in itertools.accumulate(part)])
            self.assertEqual(v.scan_exclusive_by("greatest", lo, hi).cells.tolist(), [0, *itertools.accumulate(part, max)][: hi - lo])

    def test_columns_for_numpy(self) -> None:
        try:
            import numpy
        except ImportError:
            self.skipTest("there is no numpy")
        v = Vector([3, -5, 4])
        held = numpy.asarray(v.scan_inclusive_by("sum").cells)
        self.assertEqual((held.dtype, held.tolist(), held.flags.owndata), (numpy.int64, [3, -2, 2], False))
        maps = numpy.zeros((4, 2), dtype=numpy.uint32)
        self.assertEqual((v.scan_exclusive_into("affine", maps[1:]), maps[:, 0].tolist()), (3, [0, 1, 0, 0]))
        for wrong in (numpy.zeros(3), numpy.zeros(3, dtype=">i8"), numpy.zeros(6, dtype=numpy.int64)[::2], numpy.ma.zeros(3, dtype=numpy.int64)):
            self.assertRaises(TypeError, v.scan_inclusive_into, "sum", wrong)

    def test_other_threads_run_during_a_scan(self) -> None:
        v = Vector(range(300_000))
        told = []

        def scan() -> None:
            for _ in range(20):
                told.append(v.scan_inclusive_by("best").edit)

        threads = [threading.Thread(target=scan)]
        for thread in threads:
            thread.start()
        busy = 0
        while threads[0].is_alive():
            try:
                self.assertEqual(v.edits, 300_000)
            except livevec.Busy:
                busy += 1
        threads[0].join()
        self.assertGreater(busy + len(told), 0)
        self.assertLessEqual(set(told), {300_000})


if __name__ == "__main__":
    unittest.main()
