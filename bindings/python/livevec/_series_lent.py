"""Elements of a series where they lie. The package's `Lent` stands here."""
from __future__ import annotations

import ctypes
import weakref
from array import array
from typing import TYPE_CHECKING, Any, Optional, Union

from ._library import _call, _i64, _u32
from ._records import _Kept, _laid_out
from ._series_calls import _kept, _slot, _u64

if TYPE_CHECKING:
    from ._by_index import _ByIndex
    from ._records import address, u64


@_laid_out
class _SeriesView(_Kept):
    edit: u64
    elements: address
    length: u64


_lend = _call("livevec_series_lend", _SeriesView, _slot, _u64, _u64)
_give_back = _call("livevec_series_give_back", _u32, _slot)


def _ended(series: _ByIndex) -> None:
    """Gives the elements back, once nothing refers to them; till then it is what keeps the series."""
    _give_back(series._at)


class Lent:
    """Elements of a range of a series, or of the values of samples, to be lent without a copy: `with series.lend(lo, hi) as view` gives a `memoryview` of
    64-bit numbers, to be read alone. `numpy.asarray(view)` has no copy either.

    The elements are lent from the start of the `with` to its end. Meanwhile each other call at the series raises Busy. At the end the view is released;
    where something else still refers to the elements, as an array of numpy's or a slice of the view, BufferError is raised, and they stay lent until
    that is gone.
    """

    __slots__ = ("_series", "_range", "_base", "_view", "__weakref__")

    _base: Optional[Any]
    _view: Optional[memoryview]

    def __init__(self, series: _ByIndex, lo: int, hi: int) -> None:
        self._series, self._range = series, (lo, hi)
        self._base = self._view = None

    def __enter__(self) -> memoryview:
        if self._view is not None:
            raise ValueError("these elements were lent already: a loan is for one `with`")
        told = _kept(_lend(self._series._at, *self._range))
        # Each view of the elements, and each array over one, refers to this, with which they are given back.
        base: Union[array[int], ctypes.Array[ctypes.c_int64]]
        base = (_i64 * told.length).from_address(told.elements) if told.length else array("q")
        weakref.finalize(base, _ended, self._series).atexit = False
        view = memoryview(base)
        self._base = base
        self._view = (view.cast("B").cast("q") if told.length else view).toreadonly()
        return self._view

    def __exit__(self, *_: object) -> None:
        assert self._view is not None and self._base is not None
        self._view.release()
        left = weakref.ref(self._base)
        self._base = None
        if left() is not None:
            raise BufferError("something still refers to the elements, which stay lent until it is gone")
