"""Which indices of a series are kept, and its ranges as C takes them, one or many."""
from __future__ import annotations

from array import array
from typing import Any, Optional

from ._handle import _Closable
from ._limits import _MOST_U64
from ._numbers import _whole
from ._refusals import BadRange, NotKept, _words_of
from ._series_calls import _count_size, _counted, _first


class _SeriesRanges(_Closable):
    """The part of `Series` and `Samples` that tells which indices are kept."""

    __slots__ = ()

    @property
    def first(self) -> int:
        """The index of the first element that is kept; where none is, that of the next that is pushed. O(1)."""
        return _counted(_first(self._at))

    @property
    def size(self) -> int:
        """The index behind the last element. O(1)."""
        return _counted(_count_size(self._at))

    # Within.

    def _index(self, index: int) -> int:
        """An index as C is given it: what no index is, as a negative one, is given as one that is never kept."""
        index = _whole(index, "the index")
        return index if 0 <= index <= _MOST_U64 else _MOST_U64

    def _range(self, lo: Optional[int], hi: Optional[int]) -> tuple[int, int]:
        start = self.first if lo is None else _whole(lo, "the start of the range")
        end = self.size if hi is None else _whole(hi, "the end of the range")
        if end < start:
            raise BadRange(given=_words_of(BadRange.number, (start, end)))
        if start < 0 or end > _MOST_U64:
            raise NotKept(self.first, self.size, given=_words_of(NotKept.number, (start, end)))
        return start, end

    def _room(self, lo: int, hi: int) -> int:
        """How long a buffer C is given: none where the range is refused."""
        return hi - lo if self.first <= lo and hi <= self.size else 0

    def _piece(self, lo: Optional[int], hi: Optional[int], at: Optional[int], most: Optional[int]) -> tuple[int, int, int, int]:
        """A piece of a scan as C wants it: its range's start, where it goes on, the range's end; and how many values it has."""
        lo, hi = self._range(lo, hi)
        at = lo if at is None else _whole(at, "at")
        if not lo <= at <= hi:
            raise BadRange(given=f"at {at} of the range {lo} to {hi}")
        length = self._room(lo, hi) and hi - at
        return lo, at, hi, length if most is None else min(length, max(_whole(most, "most"), 0))

    def _pairs(self, rows: list[Any]) -> array[int]:
        """The ends of ranges as C wants them, a start and then its end. What C can't be given it is given as one that it refuses."""
        try:
            return array("Q", [end for lo, hi in rows for end in (lo, hi)])
        except (OverflowError, TypeError):
            return array("Q", [end for lo, hi in rows for end in self._given(lo, hi)])

    def _given(self, lo: Optional[int], hi: Optional[int]) -> tuple[int, int]:
        """A range as C wants it. One that C can't be given is given as one that it refuses alike."""
        try:
            return self._range(lo, hi)
        except BadRange:
            return 1, 0
        except NotKept:
            return _MOST_U64, _MOST_U64
