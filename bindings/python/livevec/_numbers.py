"""Numbers as C takes them."""
from __future__ import annotations

import operator

from ._limits import _LEAST_I64, _MOST_I64, _MOST_U32, _MOST_U64


def _whole(number: int, what: str) -> int:
    """A whole number; else a TypeError that says which argument isn't one."""
    try:
        return operator.index(number)
    except TypeError:
        raise TypeError(f"{what} is a whole number, not {number!r}, which is a {type(number).__name__}") from None


def _as_u32(number: int, what: str) -> int:
    """A number that C can be given as a uint32_t: ctypes would cut it in silence."""
    number = _whole(number, what)
    if not 0 <= number <= _MOST_U32:
        raise OverflowError(f"{what} {number} is outside 0 to {_MOST_U32}")
    return number


def _as_i64(value: int, what: str = "the element") -> int:
    """An element, or what it is, that C can be given as an int64_t."""
    value = _whole(value, what)
    if not _LEAST_I64 <= value <= _MOST_I64:
        raise OverflowError(f"{what} {value} does not fit 64 bits: it is from -2**63 to 2**63 - 1")
    return value


def _as_u64(number: int, what: str) -> int:
    """A number that C can be given as a uint64_t."""
    number = _whole(number, what)
    if not 0 <= number <= _MOST_U64:
        raise OverflowError(f"{what} {number} is outside 0 to {_MOST_U64}")
    return number


def _as_short(value: int) -> int:
    """An element as C wants it. What C can't be given it is given as one that it refuses."""
    return max(_LEAST_I64, min(_whole(value, "the element"), _MOST_I64))
