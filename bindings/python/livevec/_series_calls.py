"""The calls of include/livevec.h at series, with what they take and answer."""
from __future__ import annotations

import ctypes
from typing import TYPE_CHECKING, Protocol, TypeVar

from ._library import _call, _flag, _i64, _pointer, _released, _size, _u32
from ._records import _Kept, _laid_out
from ._refusals import NotKept, _refuse, _words_of
from ._structures import _Slot, _Values

if TYPE_CHECKING:
    from ._records import i64, u32, u64

_u64 = ctypes.c_uint64


class _SeriesSlot(_Slot):
    sort = 6


@_laid_out
class _SeriesEdited(_Kept):
    edit: u64
    place: u64
    value: i64


@_laid_out
class _SeriesPushed(ctypes.Structure):
    refusal: u32
    edit: u64
    pushed: u64


@_laid_out
class _SeriesElement(_Kept):
    value: i64


@_laid_out
class _SeriesCount(ctypes.Structure):
    refusal: u32
    value: u64


@_laid_out
class _SeriesReduced(_Kept):
    edit: u64
    values: _Values


@_laid_out
class _SeriesScanned(_Kept):
    edit: u64
    length: u64


_slot = ctypes.POINTER(_SeriesSlot)
_new = _call("livevec_series_new", _u32, _slot)
_make_edit = _call("livevec_series_make_edit", _SeriesEdited, _slot, _u32, _u64, _u64, _i64)
_push_many = _call("livevec_series_push_many", _SeriesPushed, _slot, _pointer, _size)
_get = _call("livevec_series_get", _SeriesElement, _slot, _u64)
_first = _call("livevec_series_first", _SeriesCount, _slot)
_count_size = _call("livevec_series_size", _SeriesCount, _slot)
_edits = _call("livevec_series_edits", _SeriesCount, _slot)
_reduce = _call("livevec_series_reduce", _SeriesReduced, _slot, _u64, _u64)
_ask = _call("livevec_series_ask", _SeriesReduced, _slot, _u64, _u64)
_read = _call("livevec_series_read", _SeriesScanned, _slot, _u64, _u64, _pointer, _size)
_scan = _call("livevec_series_scan", _SeriesScanned, _slot, _u32, _flag, _u64, _u64, _u64, _pointer, _size, by=_released)


class _Answer(Protocol):
    """What tells whether it was refused, and what is kept."""

    refusal: int
    first: int
    size: int


_Told = TypeVar("_Told", bound=_Answer)


def _kept(told: _Told, *given: int) -> _Told:
    """An answer that was not refused; else raises, and names the index or the range that was given."""
    if told.refusal == NotKept.number:
        raise NotKept(told.first, told.size, given=_words_of(NotKept.number, given))
    if told.refusal:
        raise _refuse(told.refusal, given=_words_of(told.refusal, given))
    return told


def _counted(told: _SeriesCount) -> int:
    if told.refusal:
        raise _refuse(told.refusal)
    return told.value
