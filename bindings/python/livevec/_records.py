"""How the answers of include/livevec.h are laid out: a structure has the fields that its annotations name."""
from __future__ import annotations

import ctypes
import sys
from typing import TYPE_CHECKING, TypeVar

if TYPE_CHECKING:
    # what Python makes of a field of each type
    u32 = int
    u64 = int
    i64 = int
    size = int
    address = int
    flag = bool

_TYPES = {"u32": ctypes.c_uint32, "u64": ctypes.c_uint64, "i64": ctypes.c_int64, "size": ctypes.c_size_t, "flag": ctypes.c_bool, "address": ctypes.c_void_p}

_Record = TypeVar("_Record", bound=type[ctypes.Structure])


def _laid_out(record: _Record) -> _Record:
    """Gives a structure its fields, in order, behind those of what it is made of: numbers of C, or structures that its module knows."""
    known = {**vars(sys.modules[record.__module__]), **_TYPES}
    record._fields_ = [(name, known[of]) for name, of in record.__annotations__.items()]
    return record


@_laid_out
class _Refused(ctypes.Structure):
    """What an answer of a vector begins with, and most others."""

    refusal: u32
    detail: u32


@_laid_out
class _Kept(ctypes.Structure):
    """What an answer of a series begins with: with a refusal of an index, from where up to where elements are kept."""

    refusal: u32
    first: u64
    size: u64
