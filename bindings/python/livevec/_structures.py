"""What the calls of include/livevec.h take and answer, as ctypes lays it out."""
from __future__ import annotations

import ctypes
from typing import TYPE_CHECKING, ClassVar

from ._limits import SUMMARY_BYTES
from ._records import _laid_out, _Refused

if TYPE_CHECKING:
    from ._records import flag, i64, size, u32, u64


class _Slot(ctypes.Structure):
    # A slot is never copied: it lies in the object that owns it, and is passed by its address alone.
    full_: bool
    # what it holds, by the number by which C frees that
    sort: ClassVar[int]
    _fields_ = [("full_", ctypes.c_bool), ("at_", ctypes.c_void_p), ("busy_", ctypes.c_ubyte)]


# Slots of several types, so that ctypes refuses one in the place of another.
class _VectorSlot(_Slot):
    sort = 0


class _JobSlot(_Slot):
    sort = 1


class _OutcomeSlot(_Slot):
    sort = 2


class _BoardSlot(_Slot):
    sort = 4


class _SeatSlot(_Slot):
    sort = 5


class _Table(ctypes.Structure):
    next: ctypes.Array[ctypes.c_uint8]
    _fields_ = [("next", ctypes.c_uint8 * 32)]


@_laid_out
class _Edited(_Refused):
    edit: u32
    place: u32
    value: i64


@_laid_out
class _Pushed(_Refused):
    edit: u32
    pushed: u32


@_laid_out
class _Many(_Refused):
    edit: u32
    done: size
    place: size


@_laid_out
class _Count(ctypes.Structure):
    refusal: u32
    value: u32


@_laid_out
class _Element(_Refused):
    value: i64


class _Values(ctypes.Structure):
    sum: int
    least: int
    greatest: int
    best_low: int
    best_high: int
    affine_a: int
    affine_b: int
    automaton: ctypes.Array[ctypes.c_uint8]
    any: bool
    _fields_ = [("sum", ctypes.c_uint64), ("least", ctypes.c_int64), ("greatest", ctypes.c_int64), ("best_low", ctypes.c_uint64),
                ("best_high", ctypes.c_int64), ("affine_a", ctypes.c_uint32), ("affine_b", ctypes.c_uint32),
                ("automaton", ctypes.c_uint8 * 8), ("any", ctypes.c_bool)]


@_laid_out
class _Reduced(_Refused):
    edit: u32
    cells: u32
    summaries: u32
    values: _Values


@_laid_out
class _Found(_Refused):
    edit: u32
    lo: u32
    hi: u32
    value: i64
    sum_low: u64
    sum_high: i64
    found: flag


@_laid_out
class _Total(ctypes.Structure):
    low: u64
    high: i64

    def exact(self) -> int:
        """The number of 128 bits."""
        return (self.high << 64) + self.low


@_laid_out
class _Summed(_Refused):
    edit: u32
    sum: _Total


@_laid_out
class _Scanned(_Refused):
    edit: u32
    length: u32


class _Summarised(ctypes.Structure):
    refusal: int
    detail: int
    summary: ctypes.Array[ctypes.c_uint8]
    _fields_ = [("refusal", ctypes.c_uint32), ("detail", ctypes.c_uint32), ("summary", ctypes.c_uint8 * SUMMARY_BYTES)]


@_laid_out
class _Opened(ctypes.Structure):
    refusal: u32
    edit: u32
    count: u64
    values: _Values
    table: _Table
    at_edit: flag


@_laid_out
class _Claimed(ctypes.Structure):
    refusal: u32
    found: flag
    level: u32
    number: u32
    version: u32


@_laid_out
class _Vetted(ctypes.Structure):
    refusal: u32
    yes: flag


@_laid_out
class _Accepted(ctypes.Structure):
    refusal: u32
    became: u32
    now: u32


@_laid_out
class _Renewed(_Refused):
    edit: u32
    version: u32


class _Verdict(_Refused):
    pass
