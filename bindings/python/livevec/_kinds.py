"""The six kinds by which a range is reduced."""
from __future__ import annotations

import enum
from typing import Literal, Union


class Kind(enum.Enum):
    """What a board reduces by, and what a vector may be asked by alone. The kinds are those of `Values`."""

    SUM = 0
    LEAST = 1
    GREATEST = 2
    BEST = 3
    AFFINE = 4
    AUTOMATON = 5


# kinds as a type checker tells them apart, by what their values are: a number, a number or None, a map, states
_Summed = Literal["sum", Kind.SUM]
_Chosen = Literal["least", "greatest", "best", Kind.LEAST, Kind.GREATEST, Kind.BEST]
_Mapped = Literal["affine", Kind.AFFINE]
_Stated = Literal["automaton", Kind.AUTOMATON]
_Value = Union[int, None, tuple[int, ...]]

_KINDS = {it.name.lower(): it for it in Kind}

# C's number in place of a kind's, where a scan is by all six
_ALL_SIX = 6
# the numbers by which C knows searches, by what follows `where_` in their names
_SEARCHES = {"least": 0, "greatest": 1, "best": 2, "reaches": 3, "reaches_back": 4, "first_at_least": 5, "first_at_most": 6, "last_at_least": 7, "last_at_most": 8}


def _kind_of(kind: Union[Kind, str]) -> Kind:
    found = kind if isinstance(kind, Kind) else _KINDS.get(kind) if isinstance(kind, str) else None
    if found is None:
        raise ValueError(f"{kind!r} is not a kind: a kind is a livevec.Kind, or one of these names: {', '.join(_KINDS)}")
    return found
