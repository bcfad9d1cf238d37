"""A list in shards that Dask's workers hold: each shard is a livevec vector in one worker. An edit goes to the shard that has its index. A range
over several shards is answered by a tree of joins, which are Dask's tasks, of the shards' summaries in their order; with the summary come the
edits of the shards at which it holds. shards_plain.py prints the same.

A join that is lost with its worker Dask does again elsewhere, for it needs nothing but its summaries. A shard that is lost is lost: Dask makes no
actor anew, and this program takes no answer that lacks an edit it was told. So a question that needs a lost shard ends in NoAnswer, which names it.

usage: shards_dask.py [WORKERS [SIZE..]]
"""
import sys

from distributed import Client, Future, LocalCluster

import livevec
from livevec import Summary, Vector
from samples import sample
from shards import SIZES, Told, Written, owner, parts, play

# After so many seconds without an answer there is none.
PATIENCE = 60


class NoAnswer(Exception):
    """Why there is no answer, or why it isn't known whether an edit was done."""


class Shard:
    """An actor: a vector in one worker, to which all its calls go."""

    def __init__(self, first, size):
        self.vector = Vector(map(sample, range(first, first + size)))
        self.vector.refresh()

    def write(self, index, value):
        """The element before, and the edit."""
        return self.vector.write(index, value), self.vector.edits

    def summary(self, lo, hi):
        return self.vector.summary(lo, hi)


def joined(left, right):
    """A task: two neighbouring parts as one, with the edits of both."""
    return left[0].join(right[0]), {**left[1], **right[1]}


class Shards:
    """A list in shards, one after the other. Each is held by one of the workers, which are all of the client's where none are named."""

    def __init__(self, client, sizes, workers=()):
        self.client, self.sizes = client, sizes
        workers = workers or sorted(client.scheduler_info()["workers"])
        self.held_by = [workers[number % len(workers)] for number in range(len(sizes))]
        starts = [sum(sizes[:number]) for number in range(len(sizes))]
        made = [client.submit(Shard, start, size, actor=True, pure=False, workers=[worker]) for start, size, worker in zip(starts, sizes, self.held_by)]
        self.shards = [self._come(future.result, [number], PATIENCE) for number, future in enumerate(made)]
        # the last edit that each shard was told to have: no answer may be older
        self.edits = list(sizes)

    def write(self, index, value):
        number, place = owner(self.sizes, index)
        before, edit = self._come(lambda: self.shards[number].write(place, value).result(PATIENCE), [number])
        self._see({number: edit})
        return Written(before, number, edit)

    def ask(self, lo, hi):
        met = list(parts(self.sizes, lo, hi))
        numbers = [number for number, _, _ in met]
        summary, edits = self._whole(self._parts(met), numbers) if met else (Summary(), {})
        if summary.count != hi - lo or sorted(edits) != numbers:
            raise NoAnswer(f"{lo} to {hi}: what came is not of this range")
        self._see(edits)
        return Told(summary.values, edits)

    def _parts(self, met):
        """Each shard's summary of its part of a range, with its edit: all are asked before the first is awaited."""
        asked = [(number, self._come(lambda: self.shards[number].summary(first, last), [number])) for number, first, last in met]
        summaries = [(number, self._come(future.result, [number], PATIENCE)) for number, future in asked]
        return [(summary, {number: summary.edit}) for number, summary in summaries]

    def _whole(self, level, numbers):
        """The tree of joins: each level joins neighbours."""
        while len(level) > 1:
            pairs = [self.client.submit(joined, *level[at:at + 2], pure=False) for at in range(0, len(level) - 1, 2)]
            level = pairs + level[2 * len(pairs):]
        return self._come(level[0].result, numbers, PATIENCE) if isinstance(level[0], Future) else level[0]

    def _come(self, call, numbers, *arguments):
        """What a call that needs some shards answers. Where it answers nothing, NoAnswer says which of them are lost."""
        try:
            return call(*arguments)
        except livevec.Refusal:
            raise
        except Exception as failed:
            alive = self.client.scheduler_info()["workers"]
            lost = [number for number in numbers if self.held_by[number] not in alive]
            which = ", ".join(f"shard {number} is lost with its worker" for number in lost)
            raise NoAnswer(f"no answer: {which or 'a worker does not answer'} ({type(failed).__name__}: {failed})") from failed

    def _see(self, edits):
        for number, edit in edits.items():
            if edit < self.edits[number]:
                raise NoAnswer(f"shard {number} is at edit {edit}, and was at {self.edits[number]}: it is another one")
            self.edits[number] = edit


def main(workers=4, *sizes):
    sizes = sizes or SIZES
    with LocalCluster(n_workers=workers, threads_per_worker=1, dashboard_address=None) as cluster, Client(cluster) as client:
        try:
            play(Shards(client, sizes), sizes)
        except NoAnswer as why:
            sys.exit(f"shards_dask.py: {why}")


if __name__ == "__main__":
    main(*map(int, sys.argv[1:]))
