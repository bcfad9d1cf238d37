"""The twin of samples_mpi.py: one process, and a plain loop for each question.

usage: samples_plain.py [SAMPLES]
"""
import sys
from collections import namedtuple

from samples import WRITTEN, Running, ranges, sample, shown

Answer = namedtuple("Answer", "sum least greatest best affine")


def running(elements):
    """The answer for each beginning."""
    total, least, greatest, best, run, a, b = 0, None, None, None, 0, 1, 0
    for x in elements:
        total, run = total + x, max(run, 0) + x
        least = x if least is None else min(least, x)
        greatest = x if greatest is None else max(greatest, x)
        best = run if best is None else max(best, run)
        a, b = a * (x // 256) % 2**32, (x // 256 * b + x % 256) % 2**32
        yield Answer(total, least, greatest, best, (a, b))


def ask(elements, lo, hi):
    answer = None
    for answer in running(elements[lo:hi]):
        pass
    print(shown(lo, hi, answer))


def main(samples=1_000_000):
    elements = list(map(sample, range(samples)))
    print(f"{samples} samples")
    for lo, hi in ranges(samples):
        ask(elements, lo, hi)
    if samples:
        elements[samples // 2] = WRITTEN
        print(f"sample {samples // 2} overwritten")
    for lo, hi in ranges(samples):
        ask(elements, lo, hi)
    seen = Running(samples)
    for index, answer in enumerate(running(elements)):
        seen.take(index, answer.sum, answer.best)
    seen.show()


if __name__ == "__main__":
    main(*map(int, sys.argv[1:]))
