"""A list in shards that the nodes of a Redis cluster hold: each shard is a key of livevec's module, on the node that has the key's slot. An edit goes to
the key that has its index. A range over several shards is answered by the node that was named, which combines the shards' summaries in their order; with
each summary comes the edit of its key, from one transaction. shards_plain.py prints the same.

usage: shards_redis.py PORT [SIZE..]      PORT is that of any node, on 127.0.0.1; keys shard0, shard1 .. are made anew
"""
import sys
from typing import NamedTuple

from redis import RedisCluster

from samples import sample
from shards import SIZES, Told, Written, owner, parts, play

# So many elements go with one command.
PIECE = 10_000


class Values(NamedTuple):
    """The values of a range that are printed."""

    sum: int
    least: int
    greatest: int
    best: int
    affine: tuple


class Shards:
    def __init__(self, cluster, sizes):
        self.cluster, self.sizes, start = cluster, sizes, 0
        for number, size in enumerate(sizes):
            cluster.delete(self.key(number))
            for first in range(start, start + size, PIECE):
                cluster.execute_command("LV.PUSH", self.key(number), *map(sample, range(first, min(first + PIECE, start + size))))
            start += size

    def key(self, number):
        return f"shard{number}"

    def write(self, index, value):
        number, place = owner(self.sizes, index)
        edit, before = self.cluster.execute_command("LV.SET", self.key(number), place, value)
        return Written(before, number, edit)

    def summary(self, number, first, last):
        """The summary of a part of a shard, and the shard's edit at which it holds."""
        node = self.cluster.get_redis_connection(self.cluster.get_node_from_key(self.key(number)))
        with node.pipeline(transaction=True) as pipe:
            pipe.execute_command("LV.SUMMARY", self.key(number), "INDEX", first, last)
            pipe.execute_command("LV.VALUE", self.key(number), "count", "INDEX", first, last)
            summary, counted = pipe.execute()
        if counted is None:
            sys.exit(f"shards_redis.py: {self.key(number)} is lost")
        return summary, counted[0]

    def ask(self, lo, hi):
        told = {number: self.summary(number, first, last) for number, first, last in parts(self.sizes, lo, hi)}
        if not told:
            return Told(None, {})
        node = self.cluster.get_redis_connection(self.cluster.get_default_node())
        combined = node.execute_command("LV.COMBINE", *(summary for summary, _ in told.values()))
        by = dict(zip(combined[::2], combined[1::2]))
        values = Values(by[b"sum"], by[b"min"], by[b"max"], int(by[b"best"]), tuple(by[b"affine"]))
        return Told(values, {number: edit for number, (_, edit) in told.items()})


def main(port, *sizes):
    sizes = sizes or SIZES
    with RedisCluster(host="127.0.0.1", port=port) as cluster:
        play(Shards(cluster, sizes), sizes)


if __name__ == "__main__":
    main(*map(int, sys.argv[1:]))
