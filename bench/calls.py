"""Rolling windows from Python beside what a user has else: a fold of a deque, a Fenwick tree, numpy and pandas. Prints lines of a label,
nanoseconds and how often the work was done in them; what the peers answer is compared. Without numpy or pandas their lines are left out.

A step is a new element, then the sum and the greatest of the last 10,000; or also a late correction of one among them. A batch is 100 new
elements, each with its window's sum and greatest. Whole is a column of 1,000,000 that never changes, windows of 1,000. A correction is of one of
1,000,000 elements, then the greatest of all."""
import collections
import random
import sys
import time
from array import array

from livevec import Series, Vector

try:
    import numpy
except ImportError:
    numpy = None
try:
    import pandas
except ImportError:
    pandas = None

WINDOW, STEPS, BATCHES, BATCH, WHOLE, SHORT, CORRECTIONS = 10_000, 2_000, 100, 100, 1_000_000, 1_000, 100


def timed(label, turns, work):
    start = time.perf_counter_ns()
    made = work()
    print(f"{label}: {time.perf_counter_ns() - start} {turns}")
    return made


def same(*answers):
    if any(it != answers[0] for it in answers[1:]):
        sys.exit("the peers don't give the same")


class Fenwick:
    """The sums of a ring of the last elements; it has no greatest that takes a correction."""

    def __init__(self, elements):
        self.at, self.held, self.tree, self.all = 0, list(elements), [0] * (WINDOW + 1), sum(elements)
        for index, value in enumerate(self.held):
            self.add(index, value)

    def add(self, index, by):
        tree, index = self.tree, index + 1
        while index <= WINDOW:
            tree[index] += by
            index += index & -index

    def write(self, index, value):
        index = (self.at + index) % WINDOW
        by, self.held[index] = value - self.held[index], value
        self.all += by
        self.add(index, by)

    def push(self, value):
        self.write(0, value)
        self.at = (self.at + 1) % WINDOW

    def total(self):
        total, index = 0, WINDOW
        while index:
            total += self.tree[index]
            index &= index - 1
        return total


def by_livevec(start, steps, late):
    series = Series(start)
    series.prepare("sum")
    series.prepare("greatest")
    told = []

    def work():
        for value, (place, other) in steps:
            end = series.push(value) + 1
            if late:
                series.write(end - WINDOW + place, other)
            told.append((series.sum(end - WINDOW, end), series.greatest(end - WINDOW, end)))
            if end % 100 == 0:
                series.expire(end - WINDOW)
        return told
    return work


def by_deque(start, steps, late):
    held = collections.deque(start, WINDOW)

    def work():
        told = []
        for value, (place, other) in steps:
            held.append(value)
            if late:
                held[place] = other
            told.append((sum(held), max(held)))
        return told
    return work


def by_fenwick(start, steps, late):
    held = Fenwick(start)

    def work():
        told = []
        for value, (place, other) in steps:
            held.push(value)
            if late:
                held.write(place, other)
            told.append(held.total())
        return told
    return work


def by_numpy(start, steps, late):
    held = numpy.zeros(WINDOW + len(steps), dtype="int64")
    held[:WINDOW] = start

    def work():
        told = []
        for number, (value, (place, other)) in enumerate(steps):
            held[WINDOW + number] = value
            window = held[number + 1:WINDOW + number + 1]
            if late:
                window[place] = other
            told.append((int(window.sum()), int(window.max())))
        return told
    return work


def steps_of(chance):
    start = [chance.randint(-1000, 1000) for _ in range(WINDOW)]
    steps = [(chance.randint(-1000, 1000), (chance.randrange(WINDOW), chance.randint(-1000, 1000))) for _ in range(STEPS)]
    for late, what in ((False, "step"), (True, "corrected step")):
        told = timed(f"livevec {what}", STEPS, by_livevec(start, steps, late))
        sums = timed(f"fenwick {what}", STEPS, by_fenwick(start, steps, late))
        same(told, timed(f"deque {what}", STEPS, by_deque(start, steps, late)))
        same([total for total, _ in told], sums)
        if numpy is not None:
            same(told, timed(f"numpy {what}", STEPS, by_numpy(start, steps, late)))


def batches_of(chance):
    start = array("q", (chance.randint(-1000, 1000) for _ in range(WINDOW)))
    batches = [array("q", (chance.randint(-1000, 1000) for _ in range(BATCH))) for _ in range(BATCHES)]
    series = Series(start)

    def ours():
        told = []
        for batch in batches:
            lo = series.size
            series.extend(batch)
            told.append([series.rolling(kind, WINDOW, lo).cells.tolist() for kind in ("sum", "greatest")])
        return told
    series.prepare("sum")
    series.prepare("greatest")
    told = timed("livevec batch", BATCHES, ours)
    if pandas is not None:
        def theirs():
            held, told = pandas.Series(start), []
            for batch in batches:
                held = pandas.concat([held, pandas.Series(batch)], ignore_index=True).tail(WINDOW + BATCH - 1)
                windows = held.rolling(WINDOW)
                told.append([it.tail(BATCH).astype("int64").tolist() for it in (windows.sum(), windows.max())])
            return told
        same(told, timed("pandas batch", BATCHES, theirs))


def whole_of(chance):
    column = array("q", (chance.randint(-1000, 1000) for _ in range(WHOLE)))

    def ours():
        with Series(column) as series:
            return {kind: series.rolling(kind, SHORT).cells for kind in ("sum", "greatest")}
    told = timed("livevec whole", 1, ours)
    if numpy is not None:
        into = {kind: numpy.empty(WHOLE, dtype="int64") for kind in ("sum", "greatest")}

        def written():
            with Series(column) as series:
                for kind, room in into.items():
                    series.rolling(kind, SHORT, into=room)
        timed("livevec whole, into numpy", 1, written)
        for kind, made in into.items():
            same(made.tolist(), told[kind].tolist())
    if numpy is not None:
        def theirs():
            sums = numpy.cumsum(numpy.asarray(column))
            return numpy.concatenate((sums[:SHORT], sums[SHORT:] - sums[:-SHORT]))
        if (timed("numpy whole, the sums alone", 1, theirs) != numpy.asarray(told["sum"])).any():
            sys.exit("the peers don't give the same")
    if pandas is not None:
        windows = pandas.Series(column).rolling(SHORT, min_periods=1)
        sums, highs = timed("pandas whole", 1, lambda: (windows.sum(), windows.max()))
        same(sums.astype("int64").tolist(), told["sum"].tolist())
        same(highs.astype("int64").tolist(), told["greatest"].tolist())
    plain = timed("deque whole, by a queue of candidates", 1, lambda: candidates(column))
    same(plain, told["greatest"].tolist())


def corrections_of(chance):
    column = array("q", (chance.randint(-1000, 1000) for _ in range(WHOLE)))
    late = [(chance.randrange(WHOLE), chance.randint(-2000, 2000)) for _ in range(CORRECTIONS)]
    for holder in (Vector, Series):
        held = holder(column)
        held.greatest()

        def ours():
            told = []
            for place, value in late:
                held[place] = value
                told.append(held.greatest())
            return told
        told = timed(f"livevec correction of a {holder.__name__}", CORRECTIONS, ours)
    if numpy is not None:
        plain = numpy.array(column)

        def theirs():
            told = []
            for place, value in late:
                plain[place] = value
                told.append(int(plain.max()))
            return told
        same(told, timed("numpy correction", CORRECTIONS, theirs))


def candidates(column):
    """The greatest of each window by the usual queue of candidates, which takes no correction; and the sums by a running total."""
    held, highs, total = collections.deque(), [], 0
    for at, value in enumerate(column):
        total += value - (column[at - SHORT] if at >= SHORT else 0)
        while held and column[held[-1]] <= value:
            held.pop()
        held.append(at)
        if held[0] <= at - SHORT:
            held.popleft()
        highs.append(column[held[0]])
    return highs


if __name__ == "__main__":
    chance = random.Random(9)
    for part in (steps_of, batches_of, whole_of, corrections_of):
        part(chance)
