"""livevec_mpi from outside, by all ranks of a run: `mpirun -np N python3 -m mpi4py test_livevec_mpi.py`. Expected values are worked out by plain
Python over the elements of all ranks. `.. test_livevec_mpi.py killed` ends its last rank by a signal before it hands anything in."""
import itertools
import os
import pickle
import signal
import sys
import unittest
from typing import Any

from mpi4py import MPI

import livevec
import livevec_mpi
from livevec import Summary, Vector
from plain import plain_values

COMM = MPI.COMM_WORLD
# rank 1 has no vector, and the others have three of unlike sizes
SHARDS = [[] if rank == 1 else [[(rank * 97 + part * 31 + i * i) % 199 - 99 for i in range((rank * 7 + part * 5) % 11)] for part in range(3)] for rank in range(COMM.size)]
FLAT = [list(itertools.chain(*shard)) for shard in SHARDS]
ALL = list(itertools.chain(*FLAT))
BEFORE = list(itertools.chain(*FLAT[:COMM.rank]))


def of_plain(summary: Any) -> Any:
    return summary.count, summary.values[:5]


def plain(numbers: Any) -> Any:
    return len(numbers), plain_values(numbers)


class Ranks(unittest.TestCase):
    def setUp(self) -> None:
        self.vectors = [Vector(part) for part in SHARDS[COMM.rank]]

    def own(self) -> Any:
        return livevec_mpi.over(self.vectors, 0, len(FLAT[COMM.rank]))

    def no_answer(self, kind: Any, rank: Any, call: Any, *arguments: Any) -> Any:
        with self.assertRaises(livevec_mpi.NoAnswer) as caught:
            call(COMM, *arguments)
        self.assertEqual((type(caught.exception.refusal), caught.exception.number, caught.exception.rank), (kind, kind.number, rank))
        return caught.exception

    def test_all_ranks_are_joined_in_their_order(self) -> None:
        for root in range(COMM.size):
            told = livevec_mpi.reduce(COMM, self.own, root)
            self.assertEqual(told and of_plain(told), plain(ALL) if COMM.rank == root else None)
        self.assertEqual(of_plain(livevec_mpi.allreduce(COMM, self.own())), plain(ALL))
        self.assertEqual(of_plain(livevec_mpi.exscan(COMM, self.own)), plain(BEFORE))

    def test_each_range_is_told_to_all(self) -> None:
        for lo, hi in itertools.combinations(range(0, len(ALL) + 1, 3), 2):
            self.assertEqual(of_plain(livevec_mpi.ranged(COMM, self.vectors, lo, hi)), plain(ALL[lo:hi]))
        self.assertEqual(livevec_mpi.ranged(COMM, self.vectors, 0, 0).count, 0)
        self.assertRaises(livevec.OutOfRange, livevec_mpi.ranged, COMM, self.vectors, 0, len(ALL) + 1)
        for ends in [(2, 1), (-1, 1)]:
            self.assertRaises(livevec.BadRange, livevec_mpi.ranged, COMM, self.vectors, *ends)

    def test_running_values_go_on_from_rank_to_rank(self) -> None:
        before, seen = livevec_mpi.exscan(COMM, self.own), list(BEFORE)
        for element, values in zip(FLAT[COMM.rank], livevec_mpi.running(before, FLAT[COMM.rank])):
            seen.append(element)
            self.assertEqual(values[:5], plain_values(seen))
        self.assertEqual(len(seen), len(BEFORE) + len(FLAT[COMM.rank]))

    def test_a_refusal_travels(self) -> None:
        for wrong in range(COMM.size):
            own = Vector([1, 2])
            mine = (lambda: own.summary(0, 5)) if COMM.rank == wrong else self.own
            refused = self.no_answer(livevec.OutOfRange, wrong, livevec_mpi.allreduce, mine)
            self.assertEqual((refused.detail, str(refused)), (2, f"rank {wrong}: out of range: the size is 2"))
            self.assertEqual(str(pickle.loads(pickle.dumps(refused))), str(refused))
            if COMM.rank in (0, wrong):
                self.no_answer(livevec.OutOfRange, wrong, livevec_mpi.reduce, mine)
            else:
                self.assertIsNone(livevec_mpi.reduce(COMM, mine))
            if COMM.rank >= wrong:
                self.no_answer(livevec.OutOfRange, wrong, livevec_mpi.exscan, mine)
            else:
                self.assertEqual(of_plain(livevec_mpi.exscan(COMM, mine)), plain(BEFORE))
        gone = Vector()
        if COMM.rank == COMM.size - 1:
            gone.close()
        self.no_answer(livevec.Closed, COMM.size - 1, livevec_mpi.ranged, [*self.vectors, gone], 0, 0)

    def test_damage_and_tables_are_refused(self) -> None:
        class Damaged(Summary):
            """A summary whose bytes are changed on their way."""

            def __bytes__(self) -> Any:
                return bytes(bytearray(super().__bytes__()[:-1])) + b"x"

        for wrong in range(COMM.size):
            mine = Damaged([1]) if COMM.rank == wrong else self.own()
            self.assertEqual(str(self.no_answer(livevec.Damaged, None, livevec_mpi.allreduce, mine)), "a join: a damaged summary")
            if COMM.size > 1:
                mine = Summary(table=[[0] * 4] * 8) if COMM.rank == wrong else self.own()
                self.no_answer(livevec.OtherTable, None, livevec_mpi.allreduce, mine)
        self.assertEqual(livevec_mpi.exscan(COMM, Summary(table=[[1] * 4] * 8)).table, ((1,) * 4,) * 8)
        self.assertRaises(TypeError, livevec_mpi.allreduce, COMM, b"")

    def test_errors_of_mpi_are_told_apart(self) -> None:
        with self.assertRaises(MPI.Exception):
            livevec_mpi.reduce(COMM, self.own, COMM.size)


if __name__ == "__main__":
    if "killed" in sys.argv:
        if COMM.rank == COMM.size - 1:
            os.kill(os.getpid(), signal.SIGKILL)
        print(livevec_mpi.allreduce(COMM, Summary([COMM.rank])).values.sum)
    else:
        unittest.main(argv=sys.argv[:1], verbosity=0)
