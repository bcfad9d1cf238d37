"""Samples in all ranks of MPI, as samples_mpi.c has them: sums, extremes, best runs and running values of ranges that go over several ranks, also
after an edit. samples_plain.py prints the same.

usage: mpirun -np RANKS python3 -m mpi4py samples_mpi.py [SAMPLES [IN_A_VECTOR [WEIGHT..]]]
As many samples go to each rank as its weight among all asks for, one weight for each rank; without weights, as many to each.
"""
import itertools
import sys
from array import array

from mpi4py import MPI

import livevec_mpi
from livevec import Vector
from samples import WRITTEN, Running, ranges, sample, shown

COMM = MPI.COMM_WORLD


def say(line):
    if COMM.rank == 0:
        print(line)


def filled(first, end, in_a_vector):
    """This rank's share, in vectors whose summaries are computed, so that a question reads few of them."""
    vectors = [Vector(map(sample, range(start, min(start + in_a_vector, end)))) for start in range(first, max(end, first + 1), in_a_vector)]
    for vector in vectors:
        vector.refresh()
    return vectors


def ask_all(vectors, samples):
    for lo, hi in ranges(samples):
        say(shown(lo, hi, livevec_mpi.ranged(COMM, vectors, lo, hi).values))


def summed(code, numbers):
    """At rank 0 the sums of what each rank has. Each place of the running values is one rank's, and zero at the others."""
    mine, kind = array(code, numbers), {"q": MPI.INT64_T, "Q": MPI.UINT64_T}[code]
    came = array(code, bytes(8 * len(numbers)))
    COMM.Reduce([mine, kind], [came, kind], op=MPI.SUM)
    return list(came)


def run_all(vectors, samples, first, end):
    """All ranks' running values, each rank's from what stands before it."""
    before = livevec_mpi.exscan(COMM, lambda: livevec_mpi.over(vectors, 0, end - first))
    mine = Running(samples)
    for index, values in enumerate(livevec_mpi.running(before, itertools.chain(*vectors)), start=first):
        mine.take(index, values.sum, values.best)
    mine.sums, mine.bests, (mine.all,) = summed("q", mine.sums), summed("q", mine.bests), summed("Q", [mine.all])
    if COMM.rank == 0:
        mine.show()


def main(samples=1_000_000, in_a_vector=1_048_568, *weights):
    weights = weights or (1,) * COMM.size
    if len(weights) != COMM.size or not any(weights):
        sys.exit("there is one weight for each rank, and not all are 0")
    first, end = (samples * sum(weights[:rank]) // sum(weights) for rank in (COMM.rank, COMM.rank + 1))
    vectors = filled(first, end, in_a_vector)
    say(f"{samples} samples")
    ask_all(vectors, samples)
    written = samples // 2
    if samples:
        if first <= written < end:
            vectors[(written - first) // in_a_vector][(written - first) % in_a_vector] = WRITTEN
        say(f"sample {written} overwritten")
    ask_all(vectors, samples)
    run_all(vectors, samples, first, end)


if __name__ == "__main__":
    main(*map(int, sys.argv[1:]))
