"""Jobs and outcomes, copies, ends, and threads at one vector.

Expected values are worked out by hand from the rules, or by plain Python over the same numbers."""
import copy
import os
import pickle
import subprocess
import sys
import threading
import unittest
from array import array

import livevec
from livevec import Became, Board, Delivered, Kind, Node, Reduced, Samples, Series, Vector


class Refresh(unittest.TestCase):
    def test_an_outcome_is_installed_held_stale_or_a_strangers(self) -> None:
        ours, theirs = Vector([1] * 8), Vector([2] * 8)
        job = ours.claim()
        self.assertEqual((job.node, job.version, ours.claim()), (Node(1, 0), 8, None))
        outcome = job.run()
        self.assertRaises(livevec.Closed, job.run)
        self.assertEqual((ours.vouches_for(outcome), theirs.vouches_for(outcome)), (True, False))
        self.assertRaises(livevec.Stranger, theirs.deliver, outcome)
        self.assertEqual(ours.deliver(outcome), Delivered(Became.INSTALLED, 0))
        self.assertEqual(ours.reduce()[:3], (8, 0, 1))
        self.assertEqual(ours.deliver(outcome), Delivered(Became.HELD, 0))
        ours[0] = 5
        self.assertEqual(ours.deliver(outcome), Delivered(Became.STALE, 9))
        self.assertEqual(ours.sum(), 12)
        self.assertRaises(TypeError, ours.deliver, job)

    def test_claims_are_forgotten_and_refreshed_in_place(self) -> None:
        v = Vector([1] * 64)
        first = v.claim()
        v.forget_claims()
        self.assertEqual((v.refresh(), v.refresh()), (9, 0))
        self.assertEqual(v.deliver(first.run()).became, Became.HELD)
        self.assertEqual(v.reduce(), Reduced(64, 0, 1, v.ask().values))


class Owning(unittest.TestCase):
    def test_a_closed_vector_says_so(self) -> None:
        with Vector([1]) as v:
            pass
        for call in (v.pop, lambda: v.push(1), lambda: len(v), v.sum, v.claim, lambda: v[0], lambda: list(v), lambda: v.extend([]), v.to_array):
            self.assertRaises(livevec.Closed, call)
        v.close()
        self.assertEqual(repr(v), "<livevec.Vector, closed>")

    @unittest.skipUnless(os.path.exists("/proc/self/statm"), "this system doesn't tell how much memory a process has")
    def test_want_of_memory_changes_nothing(self) -> None:
        program = """
import resource, livevec
vector = livevec.Vector([5])
with open("/proc/self/statm") as file:
    held = int(file.read().split()[0]) * resource.getpagesize()
_, most = resource.getrlimit(resource.RLIMIT_AS)
resource.setrlimit(resource.RLIMIT_AS, (held + (1 << 20), most))
try:
    vector.reserve(1_000_000)
except livevec.NoMemory as refusal:
    print(refusal.number, len(vector), vector.edits, vector.sum())
resource.setrlimit(resource.RLIMIT_AS, (most, most))
vector.reserve(1_000_000)
print(vector.edits)
"""
        said = subprocess.run([sys.executable, "-c", program], cwd=os.path.dirname(os.path.abspath(__file__)), capture_output=True, text=True)
        self.assertEqual((said.stdout, said.stderr), ("6 1 1 5\n2\n", ""))

    def test_a_copy_has_elements_limits_and_table(self) -> None:
        # state 1 says: a remainder of 3 was seen
        v = Vector([3, 0], most_buckets=1, most_edits=9, table=[[0, 0, 0, 1], *[[0] * 4] * 7])
        v[1] = 7
        for copied in (v.copy(), copy.copy(v), copy.deepcopy(v), pickle.loads(pickle.dumps(v))):
            self.assertEqual((copied, list(copied), copied.edits, copied.ask(0, 1).values.automaton[0]), (v, [3, 7], 2, 1))
            copied.push(1)
            self.assertEqual((len(copied), len(v), copied == v), (3, 2, False))
            self.assertRaises(livevec.TooLarge, copied.reserve, 9)
            copied.clear()
            self.assertEqual((list(copied), copied.edits), ([], 4))
            copied.extend(range(5))
            self.assertRaises(livevec.Worn, copied.clear)

    def test_a_vector_of_one_kind(self) -> None:
        v = Vector([4, -6, 9], most_buckets=2, kind="least")
        self.assertEqual((v.kind, v.least(), v.where_least(), v.value("least", 1, 1)), (Kind.LEAST, -6, (1, -6), None))
        self.assertEqual((v.value_many("least", [(0, 1), (2, 3)]), v.scan_inclusive_by("least").cells.tolist()), ([4, 9], [4, -6, -6]))
        v[1] = 20
        self.assertEqual((v.pop(), list(v), v.least(), v.refresh(1), v.edits), (9, [4, 20], 4, 0, 5))
        for call in (v.sum, v.greatest, v.best, v.ask, v.reduce, v.summary, v.scan_inclusive, v.scan_exclusive, v.where_best, v.where_greatest,
                     lambda: v.where_reaches(1), lambda: v.value("affine"), lambda: v.value_many("sum", []), lambda: v.scan_exclusive_by("sum")):
            with self.assertRaisesRegex(livevec.BadKind, "a kind that the vector is not of") as told:
                call()
            self.assertEqual((told.exception.number, told.exception.detail), (113, 0))
        for copied in (v.copy(), copy.deepcopy(v), pickle.loads(pickle.dumps(v))):
            self.assertEqual((copied.kind, list(copied)), (Kind.LEAST, [4, 20]))
            self.assertRaises(livevec.BadKind, copied.sum)
            self.assertRaises(livevec.TooLarge, copied.reserve, 25)
        self.assertEqual((Vector().kind, [Vector(kind=kind).kind for kind in Kind]), (None, list(Kind)))
        self.assertRaises(livevec.BadLimits, Vector, kind=Kind.SUM, most_buckets=18)
        self.assertRaises(ValueError, Vector, kind="median")
        self.assertRaises(ValueError, Vector, kind="automaton", table=[[0] * 4] * 8)

    def test_equal_by_elements(self) -> None:
        self.assertTrue(Vector() == Vector() and Vector([1, 2]) == Vector([1, 2], most_edits=5) and not Vector([1]) != Vector([1]))
        for other in (Vector([1]), Vector([1, 3]), Vector([1, 2, 3]), None):
            self.assertTrue(Vector([1, 2]) != other and not Vector([1, 2]) == other)
        self.assertRaises(TypeError, hash, Vector())
        closed = Vector()
        closed.close()
        for call in (lambda: closed == Vector(), lambda: Vector() == closed, lambda: closed == [], closed.copy, lambda: pickle.dumps(closed), closed.clear):
            self.assertRaises(livevec.Closed, call)

    def test_equal_to_rows_and_to_each_other(self) -> None:
        gone = Series([7, 1, 2])
        gone.expire(1)
        ours = Vector([1, 2]), gone, livevec.SharedVector(Vector([1, 2])), livevec.SharedSeries(Series([1, 2]))
        for one in ours:
            for other in (*ours, [1, 2], (1, 2), range(1, 3), array("q", [1, 2]), array("b", [1, 2]), [True, 2.0]):
                self.assertTrue(one == other and other == one and not one != other, (one, other))
            for other in ([1], [1, 2, 3], [1, 3], [2, 1], (), range(2), range(1, 10**30), array("q", [1]), array("d", [1, 2.5]), [1, "2"], [1, 2**70],
                          "12", b"\1\2", {1: 2}, {1, 2}, iter([1, 2]), 1, Samples([1, 2], [1, 2])):
                self.assertTrue(one != other and other != one and not one == other, (one, other))
            self.assertRaises(TypeError, hash, one)

    def test_what_an_element_does_when_it_is_compared(self) -> None:
        class Odd:
            def __init__(self, says: BaseException) -> None:
                self.says = says

            def __eq__(self, other: object) -> bool:
                raise self.says

        shared = livevec.SharedVector(Vector([1, 2]))
        for one in (Vector([1, 2]), shared):
            self.assertFalse(one == [1, Odd(TypeError())])
            self.assertRaises(KeyError, lambda: one == [1, Odd(KeyError())])
            self.assertEqual((one, one.push(3) and len(one)), ([1, 2, 3], 3))

    def test_what_is_of_one_process_is_never_copied(self) -> None:
        v, board = Vector([1] * 8), Board(seats=1)
        job, seat = v.claim(), board.sit()
        for it in (job, board, seat, job.run()):
            for call in (copy.copy, copy.deepcopy, pickle.dumps):
                with self.assertRaisesRegex(TypeError, f"a.? {type(it).__name__} can't be copied"):
                    call(it)

    def test_a_subclass_stays_one(self) -> None:
        class Prices(Vector):
            __slots__ = ()

        self.assertEqual((type(Prices([1]).copy()), type(Prices([1]).__enter__())), (Prices, Prices))

    def test_a_job_of_nothing_is_shown_and_not_run(self) -> None:
        job = livevec.Job()
        self.assertEqual(repr(job), "<livevec.Job of nothing>")
        with self.assertRaises(livevec.Closed):
            job.run()

    def test_jobs_outlive_their_vector(self) -> None:
        v = Vector([1] * 8)
        job = v.claim()
        v.close()
        job.run()

    def test_arguments_that_are_wrong_leave_nothing_behind(self) -> None:
        self.assertRaises(TypeError, Vector, [1], 2)
        self.assertRaises(TypeError, Vector, most_buckets="3")

    def test_threads_share_a_vector(self) -> None:
        v, before = Vector(), sys.getswitchinterval()
        sys.setswitchinterval(1e-5)
        try:
            def pushes() -> None:
                for x in range(2000):
                    v.push(x)
                    v.sum()

            threads = [threading.Thread(target=pushes) for _ in range(4)]
            for thread in threads:
                thread.start()
            for thread in threads:
                thread.join()
        finally:
            sys.setswitchinterval(before)
        self.assertEqual((len(v), v.edits, v.sum()), (8000, 8000, 4 * 1999 * 1000))

    def test_workers_run_jobs(self) -> None:
        v, done = Vector(range(512)), []

        def work() -> None:
            while (job := v.claim()) is not None:
                done.append(v.deliver(job.run()).became)

        threads = [threading.Thread(target=work) for _ in range(3)]
        for thread in threads:
            thread.start()
        for thread in threads:
            thread.join()
        v.refresh()
        self.assertEqual((set(done), v.reduce()[:3]), ({Became.INSTALLED}, (512, 0, 1)))


if __name__ == "__main__":
    unittest.main()
