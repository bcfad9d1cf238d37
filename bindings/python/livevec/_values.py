"""What questions answer: values, and where something stands."""
from __future__ import annotations

import ctypes
from typing import Any, NamedTuple, Optional

from ._kinds import Kind, _Value
from ._structures import _Values


class Values(NamedTuple):
    """The values of a list of elements, by each of the six kinds."""

    sum: int
    """The sum; where that does not fit 64 bits, the number from -2**63 to 2**63 - 1 that is the sum modulo 2**64."""
    least: Optional[int]
    """The least element; None of nothing."""
    greatest: Optional[int]
    """The greatest element; None of nothing."""
    best: Optional[int]
    """The greatest total of one or more neighbours; None of nothing."""
    affine: tuple[int, int]
    """The map `y -> a * y + b` modulo 2**32 that the maps `y -> (x // 256) * y + x % 256` make in order."""
    automaton: tuple[int, ...]
    """The state that the elements lead to from each of the states 0 to 7."""


class Reduced(NamedTuple):
    """The answer of a reduction: the values of the range after the edit, and how many reads they took."""

    edit: int
    cells: int
    summaries: int
    values: Values


class Placed(NamedTuple("Placed", [("index", int), ("value", int)])):
    """An element, and the index at which it stands."""

    # its base is named by a call, since a tuple has an `index` of its own, which a class body would declare anew
    __slots__ = ()


class BestRun(NamedTuple):
    """One or more neighbours that add up to the most: from index `lo` up to `hi`, and their sum, which is exact."""

    lo: int
    hi: int
    sum: int


def _signed(total: int) -> int:
    return total - (1 << 64) if total >> 63 else total


def _values_of(raw: _Values) -> Values:
    least = greatest = best = None
    if raw.any:
        least, greatest, best = raw.least, raw.greatest, (raw.best_high << 64) + raw.best_low
    return Values(_signed(raw.sum), least, greatest, best, (raw.affine_a, raw.affine_b), tuple(raw.automaton))


def _value_of(kind: Kind, raw: _Values) -> _Value:
    """The value of a kind among those of all, as `Values` has it."""
    if kind is Kind.SUM:
        return _signed(raw.sum)
    if kind is Kind.AFFINE:
        return raw.affine_a, raw.affine_b
    if kind is Kind.AUTOMATON:
        return tuple(raw.automaton)
    if not raw.any:
        return None
    return (raw.best_high << 64) + raw.best_low if kind is Kind.BEST else raw.least if kind is Kind.LEAST else raw.greatest


def _cells_in(room: bytearray, kind: Kind) -> list[Any]:
    """The cells of a kind in the `_Values` that lie in a buffer side by side, as columns of words of 64 bits."""
    # no step of a view of a format that is told by name has a type of its own
    words: Any = memoryview(room).cast("q")
    return [words[_WORDS[name] :: ctypes.sizeof(_Values) // 8] for name in _CELL_WORDS[kind]]


def _values_in(room: bytearray, kind: Kind) -> list[_Value]:
    """The value of a kind in each of the `_Values` that lie in a buffer side by side."""
    if kind in (Kind.AFFINE, Kind.AUTOMATON):
        size = ctypes.sizeof(_Values)
        return [_value_of(kind, _Values.from_buffer(room, at)) for at in range(0, len(room), size)]
    # words of 64 bits, so that a row of them is read at once; the sum is read as one with a sign
    step = ctypes.sizeof(_Values) // 8

    def words(name: str, of: str = "q") -> list[int]:
        # no step of a view of a format that is told by name has a type of its own
        view: Any = memoryview(room)
        column: list[int] = view.cast(of)[_WORDS[name] :: step].tolist()
        return column

    if kind is Kind.SUM:
        return [*words("sum")]
    some = room[getattr(_Values, "any").offset :: 8 * step]
    if kind is Kind.BEST:
        return [(high << 64) + low if any else None for low, high, any in zip(words("best_low", "Q"), words("best_high"), some)]
    return [value if any else None for value, any in zip(words(kind.name.lower()), some)]


# ctypes doesn't tell that its fields have offsets
_WORDS: dict[str, int] = {
    name: getattr(_Values, name).offset // 8 for name in ("sum", "least", "greatest", "best_low", "best_high", "affine_a", "automaton")}
# where a cell of a column lies: the two numbers of affine are one word, and the eight states
_CELL_WORDS = {Kind.SUM: ("sum",), Kind.LEAST: ("least",), Kind.GREATEST: ("greatest",), Kind.BEST: ("best_low", "best_high"),
               Kind.AFFINE: ("affine_a",), Kind.AUTOMATON: ("automaton",)}
