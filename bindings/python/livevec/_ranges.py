"""Indices and ranges as C takes them, one or many."""
from __future__ import annotations

import sys
from array import array
from typing import Any, Optional, Sized

from ._buffers import _view_of
from ._limits import _MOST_U32
from ._numbers import _whole
from ._refusals import BadRange, OutOfRange, _refuse, _words_of


def _place(index: int, holder: Sized) -> int:
    """An index as C wants it, where a negative one counts from the end. What C can't be given it is given as one that it refuses."""
    if index < 0:
        index += len(holder)
    return index if 0 <= index < _MOST_U32 else _MOST_U32


def _ends(lo: int, hi: Optional[int], holder: Sized) -> tuple[int, int]:
    """A range as C wants it, where a negative end counts from the end, and a start before the first index is that one."""
    if hi is not None and 0 <= lo <= _MOST_U32 and 0 <= hi <= _MOST_U32:
        return lo, hi
    size = len(holder)
    hi = size if hi is None else hi
    lo, hi = max(lo + size, 0) if lo < 0 else lo, hi + size * (hi < 0)
    # C can't be given what is before the start or above its numbers; which of the two is greater is kept
    if min(lo, hi) < 0 or max(lo, hi) > _MOST_U32:
        number = BadRange.number if lo > hi else OutOfRange.number
        raise _refuse(number, 0 if lo > hi else size, given=_words_of(number, (lo, hi)))
    return lo, hi


def _as_places(indices: memoryview, holder: Sized) -> array[int]:
    """Indices as C wants them, side by side, where a negative one counts from the end. What C can't be given it is given as one that it refuses."""
    quick = _low_words(indices)
    return array("I", (_place(index, holder) for index in indices.tolist())) if quick is None else quick


def _as_pairs(rows: list[Any], holder: Sized) -> array[int]:
    """The ends of ranges as C wants them, a start and then its end, as `_ends` has them. What C can't be given it is given as one that it refuses."""
    try:
        return array("I", [end for lo, hi in rows for end in (lo, hi)])
    except (OverflowError, TypeError):
        return array("I", [end for lo, hi in rows for end in _given(lo, hi, holder)])


def _as_table(ranges: Any) -> Optional[memoryview]:
    """Ranges as a buffer of two columns, where they come in one."""
    view = _view_of(ranges, "ranges")
    if view is not None and (view.ndim != 2 or view.shape is None or view.shape[1] != 2 or view.format.lstrip("@") not in tuple("bBhHiIlLqQ")):
        raise ValueError(f"ranges are pairs of whole numbers: a buffer of them has two columns, in this machine's order, and this one's shape is "
                         f"{view.shape}, its format {view.format!r}")
    return view


def _as_rows(ranges: Any) -> list[Any]:
    """Pairs, of a buffer of two columns or of anything else that can be gone through."""
    if isinstance(ranges, memoryview):
        return list(ranges.tolist())
    return [_as_row(row, place) for place, row in enumerate(ranges)]


def _as_row(row: Any, place: int) -> tuple[Any, ...]:
    try:
        pair = tuple(row)
    except TypeError:
        raise TypeError(f"ranges[{place}] is a pair of a start and an end, not {row!r}") from None
    if len(pair) != 2:
        raise ValueError(f"ranges[{place}] is a pair of a start and an end, not {row!r}")
    return pair


def _low_words(view: memoryview) -> Optional[array[int]]:
    """Numbers of 64 or 32 bits as C wants the indices of a vector, unless one of 64 is below 0 or above 2**32; no Python number is made of any."""
    if view.itemsize not in (4, 8) or not view.nbytes or sys.byteorder != "little":
        return None
    words: Any = memoryview(view.tobytes()).cast("I")
    if view.itemsize == 8:
        if any(words[1::2].tobytes()):
            return None
        words = words[0::2]
    return array("I", words.tobytes())


def _given(lo: Optional[int], hi: Optional[int], holder: Sized) -> tuple[int, int]:
    """A range as C wants it. One that C can't be given is given as one that it refuses alike."""
    if lo is None:
        lo = 0
    try:
        return _ends(_whole(lo, "the start of the range"), None if hi is None else _whole(hi, "the end of the range"), holder)
    except BadRange:
        return 1, 0
    except OutOfRange:
        return 0, _MOST_U32
