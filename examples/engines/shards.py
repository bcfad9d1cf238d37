"""What shards_dask.py and shards_plain.py share: edits and questions to a list that lies in shards, and how they are printed."""
from typing import NamedTuple, Optional

from samples import shown

SIZES = (125_000,) * 8


class Told(NamedTuple):
    """An answer: the values of a range, and the edits of the shards at which they hold, by the shard's number."""

    values: Optional[tuple]
    edits: dict


class Written(NamedTuple):
    """A receipt: the element before, the shard that has it, and the shard's edit."""

    before: int
    shard: int
    edit: int


def parts(sizes, lo, hi):
    """Of each shard that a range meets: its number, and the range within it."""
    start = 0
    for number, size in enumerate(sizes):
        first, last = max(lo - start, 0), min(hi - start, size)
        if first < last:
            yield number, first, last
        start += size


def owner(sizes, index):
    """The shard that has an element, and where."""
    return next((number, first) for number, first, _ in parts(sizes, index, index + 1))


def ask(shards, lo, hi):
    told = shards.ask(lo, hi)
    held = ", ".join(f"shard {number} at edit {edit}" for number, edit in sorted(told.edits.items()))
    print(f"{shown(lo, hi, told.values)}{'; ' if held else ''}{held}")


def write(shards, index, value):
    did = shards.write(index, value)
    print(f"{index} overwritten, was {did.before}: shard {did.shard} at edit {did.edit}")


def play(shards, sizes):
    """The same edits and questions to whatever has the shards."""
    size = sum(sizes)
    middle, end = size // 2, size
    ask(shards, 0, end)
    ask(shards, middle, middle + size // 20)
    write(shards, middle, 5_000_000)
    ask(shards, 0, end)
    for turn in range(3):
        write(shards, turn * (size // 3), -turn * 1_000_000)
    write(shards, middle, -5_000_000)
    ask(shards, size // 10, end - size // 10)
    ask(shards, middle, middle)
    ask(shards, end - size // 50, end)
    ask(shards, 0, end)
