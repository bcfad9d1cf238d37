"""What a series is asked by one kind, by the calls of C at series, and running values in columns."""
from __future__ import annotations

import ctypes
import struct
from typing import TYPE_CHECKING, Any, Callable, Optional, Union

from ._buffers import _address, _as_column
from ._by_kind import _addressed, _ManyByKind
from ._kinds import Kind, _kind_of
from ._library import _call, _pointer, _released, _size, _u32
from ._records import _Kept, _laid_out
from ._refusals import _PLACED, NotKept, _refuse
from ._scans import _CELLS, Column
from ._series_calls import _kept, _scan, _SeriesReduced, _slot, _u64
from ._series_ranges import _SeriesRanges
from ._structures import _Total, _Values

if TYPE_CHECKING:
    from _typeshed import WriteableBuffer

    from ._buffers import _NumpyArray
    from ._records import size, u64


@_laid_out
class _SeriesMany(_Kept):
    edit: u64
    done: size
    place: size


@_laid_out
class _SeriesSummed(_Kept):
    edit: u64
    sum: _Total


_prepare = _call("livevec_series_prepare", _u32, _slot, _u32)
_write_many = _call("livevec_series_write_many", _SeriesMany, _slot, _pointer, _pointer, _size, by=_released)
_value = _call("livevec_series_value", _SeriesReduced, _slot, _u32, _u64, _u64)
_exact_sum = _call("livevec_series_exact_sum", _SeriesSummed, _slot, _u64, _u64)
_value_many = _call("livevec_series_value_many", _SeriesMany, _slot, _u32, _pointer, _pointer, _size, by=_released)


def _all_kept(told: _SeriesMany, named: Callable[[int], str]) -> None:
    """That none of many writes or questions was refused, each of which has a name by its place."""
    given = named(told.place) if told.refusal in _PLACED else ""
    if told.refusal == NotKept.number:
        raise NotKept(told.first, told.size, told.place, given)
    if told.refusal:
        raise _refuse(told.refusal, 0, 0, told.place, given)


class _SeriesKinds(_SeriesRanges, _ManyByKind):
    """The part of `Series` and `Samples` that answers by one kind, by that kind's tree."""

    __slots__ = ()
    _index_code = "Q"

    def prepare(self, kind: Union[Kind, str]) -> None:
        """Makes the tree of a kind, a `Kind` or its name, where there is none, in O(n): from then on a value by that kind takes O(log n) joins, and
        each edit renews the tree. Raises NoMemory; ValueError of what is no kind."""
        refusal = _prepare(self._at, _kind_of(kind).value)
        if refusal:
            raise _refuse(refusal)

    def scan_inclusive_by(
        self, kind: Union[Kind, str], lo: Optional[int] = None, hi: Optional[int] = None, *, at: Optional[int] = None, most: Optional[int] = None,
    ) -> Column:
        """The running values of a range by one kind, the element itself included, as one column, or a piece of it: `at` and `most` are as
        `scan_inclusive` has them, and so is what a piece costs. Other threads run meanwhile. Raises BadRange, NotKept, MemoryError; ValueError
        of what is no kind."""
        return self._column(True, _kind_of(kind), lo, hi, at, most)

    def scan_exclusive_by(
        self, kind: Union[Kind, str], lo: Optional[int] = None, hi: Optional[int] = None, *, at: Optional[int] = None, most: Optional[int] = None,
    ) -> Column:
        """The same, the element itself excluded. Raises as `scan_inclusive_by` does."""
        return self._column(False, _kind_of(kind), lo, hi, at, most)

    def scan_inclusive_into(
        self, kind: Union[Kind, str], buffer: Union[WriteableBuffer, _NumpyArray], lo: Optional[int] = None, hi: Optional[int] = None, *,
        at: Optional[int] = None,
    ) -> int:
        """Writes such a piece into the front of a buffer, as many cells as that takes, and gives how many they are: the next piece goes on at `at`
        and as many. The buffer is as `Vector.scan_inclusive_into` wants it, and what it has behind stays. Raises what `scan_inclusive_by`
        raises but MemoryError; the buffer is then as it was."""
        return self._fill(True, _kind_of(kind), buffer, lo, hi, at)

    def scan_exclusive_into(
        self, kind: Union[Kind, str], buffer: Union[WriteableBuffer, _NumpyArray], lo: Optional[int] = None, hi: Optional[int] = None, *,
        at: Optional[int] = None,
    ) -> int:
        """The same, the element itself excluded. Raises as `scan_inclusive_into` does."""
        return self._fill(False, _kind_of(kind), buffer, lo, hi, at)

    # Within.

    def _start(self) -> int:
        return self.first

    def _valued(self, kind: Kind, lo: Optional[int], hi: Optional[int], by: Callable[..., _SeriesReduced] = _value) -> _Values:
        start, end = self._range(lo, hi)
        return _kept(by(self._at, kind.value, start, end), start, end).values

    def _total(self, lo: Optional[int], hi: Optional[int]) -> int:
        start, end = self._range(lo, hi)
        return _kept(_exact_sum(self._at, start, end), start, end).sum.exact()

    def _quick(self, view: memoryview) -> Optional[bytearray]:
        # a copy, for C looks at them twice while other threads run, which may write to what the caller has
        return bytearray(view.tobytes()) if view.itemsize == 8 and view.nbytes else None

    def _asked_many(
        self, kind: Kind, pairs: WriteableBuffer, answers: bytearray, length: int, named: Optional[Callable[[int], str]],
    ) -> Optional[int]:
        did = _value_many(self._at, kind.value, _addressed(pairs, length), ctypes.byref(_address(answers)), length)
        if named is None and did.refusal in _PLACED:
            return None
        _all_kept(did, named or str)
        return did.edit

    def _column(self, inclusive: bool, kind: Kind, lo: Optional[int], hi: Optional[int], at: Optional[int], most: Optional[int]) -> Column:
        lo, at, hi, length = self._piece(lo, hi, at, most)
        of, count = _CELLS[kind]
        width = count * struct.calcsize(of)
        room = bytearray(max(length, 1) * width)
        did = _kept(_scan(self._at, kind.value, inclusive, lo, at, hi, ctypes.byref(_address(room)), length), lo, hi)
        cells = memoryview(room)[: did.length * width]
        # no view of several dimensions has none of its rows
        return Column(did.edit, cells.cast(of) if count == 1 or not cells else cells.cast(of, [did.length, count]))

    def _fill(self, inclusive: bool, kind: Kind, buffer: Any, lo: Optional[int], hi: Optional[int], at: Optional[int]) -> int:
        of, count = _CELLS[kind]
        view = _as_column(buffer, of, count)
        lo, at, hi, _ = self._piece(lo, hi, at, None)
        length = view.nbytes // (count * struct.calcsize(of))
        # an address is needed also where there is nothing to write
        room: WriteableBuffer = view if length else bytearray(16)
        return _kept(_scan(self._at, kind.value, inclusive, lo, at, hi, ctypes.byref(_address(room)), length), lo, hi).length
