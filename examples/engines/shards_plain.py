"""The twin of shards_dask.py: a list for each shard, and a plain loop over all of them for each question.

usage: shards_plain.py [SIZE..]
"""
import itertools
import sys

from samples import sample
from samples_plain import running
from shards import SIZES, Told, Written, owner, parts, play


class Shards:
    def __init__(self, sizes):
        self.sizes, elements = sizes, map(sample, range(sum(sizes)))
        self.lists = [list(itertools.islice(elements, size)) for size in sizes]
        self.edits = list(sizes)

    def write(self, index, value):
        shard, place = owner(self.sizes, index)
        before, self.lists[shard][place] = self.lists[shard][place], value
        self.edits[shard] += 1
        return Written(before, shard, self.edits[shard])

    def ask(self, lo, hi):
        values, met = None, list(parts(self.sizes, lo, hi))
        for values in running(itertools.chain(*(self.lists[shard][first:last] for shard, first, last in met))):
            pass
        return Told(values, {shard: self.edits[shard] for shard, _, _ in met})


if __name__ == "__main__":
    sizes = tuple(map(int, sys.argv[1:])) or SIZES
    play(Shards(sizes), sizes)
