"""Where in a range of a series something stands, or among the values of samples."""
from __future__ import annotations

from typing import TYPE_CHECKING, Optional

from ._kinds import _SEARCHES
from ._library import _call, _i64, _u32
from ._records import _Kept, _laid_out
from ._series_calls import _kept, _slot, _u64
from ._series_kinds import _SeriesKinds

if TYPE_CHECKING:
    from ._records import flag, i64, u64


@_laid_out
class _SeriesFound(_Kept):
    edit: u64
    lo: u64
    hi: u64
    value: i64
    sum_low: u64
    sum_high: i64
    found: flag


_find = _call("livevec_series_find", _SeriesFound, _slot, _u32, _u64, _u64, _i64)


class _SeriesPlaces(_SeriesKinds):
    """The part of `Series` and `Samples` that tells where something is, by the tree of a kind."""

    __slots__ = ()

    def _located(self, what: str, lo: Optional[int], hi: Optional[int], number: int = 0) -> Optional[_SeriesFound]:
        start, end = self._range(lo, hi)
        told = _kept(_find(self._at, _SEARCHES[what], start, end, number), start, end)
        return told if told.found else None
