"""Scans: the values of each beginning of a range, as rows of all six or as a column of one kind."""
from __future__ import annotations

import collections.abc
import ctypes
import struct
from typing import TYPE_CHECKING, Any, NamedTuple, Optional, Union, overload

from ._buffers import _address, _as_column
from ._calls import _scan, _scan_by
from ._elements import _Elements
from ._kinds import _ALL_SIX, Kind, _kind_of
from ._refusals import _accepted
from ._structures import _Values
from ._values import Values, _values_of

if TYPE_CHECKING:
    from _typeshed import WriteableBuffer

    from ._buffers import _NumpyArray

# what a cell of a column is, by the kind: the format of a number, and how many there are
_CELLS = {Kind.SUM: ("q", 1), Kind.LEAST: ("q", 1), Kind.GREATEST: ("q", 1), Kind.BEST: ("q", 2), Kind.AFFINE: ("I", 2), Kind.AUTOMATON: ("B", 8)}


class Scan(collections.abc.Sequence[Values]):
    """The values of each beginning of a range, in order."""

    __slots__ = ("edit", "_room", "_length")

    def __init__(self, edit: int, room: bytearray, length: int) -> None:
        self.edit = edit
        """The edit after which the range was read."""
        self._room, self._length = room, length

    def __len__(self) -> int:
        return self._length

    @overload
    def __getitem__(self, index: int) -> Values: ...
    @overload
    def __getitem__(self, index: slice) -> list[Values]: ...
    def __getitem__(self, index: Union[int, slice]) -> Union[Values, list[Values]]:
        if isinstance(index, slice):
            return [self[i] for i in range(*index.indices(self._length))]
        return _values_of(_Values.from_buffer(self._room, range(self._length)[index] * ctypes.sizeof(_Values)))

    def _replace(self, edit: int) -> Scan:
        """The same with another number of the edit."""
        return Scan(edit, self._room, self._length)

    def sums(self) -> list[int]:
        """The sums alone, at once."""
        return memoryview(self._room).cast("q")[:: ctypes.sizeof(_Values) // 8].tolist()[: self._length]

    def __repr__(self) -> str:
        return f"<livevec.Scan of {self._length} at edit {self.edit}>"


class Column(NamedTuple):
    """The running values of a range by one kind, and the edit after which they are so.

    `cells` is a view of numbers side by side, which numpy views without a copy: `numpy.asarray(column.cells)`. Of the sum, the least and the
    greatest it has one number of 64 bits with a sign an element; of the best, two: the total modulo 2**64, which is the total wherever that
    fits, and its high 64 bits; of affine, two of 32 bits, a and b; of the automaton, eight states of 8 bits. Of no elements the least, the
    greatest and the best are 0."""

    edit: int
    cells: memoryview


class _Scans(_Elements):
    """The part of `Vector` that scans."""

    __slots__ = ()

    def scan_inclusive(self, lo: Optional[int] = None, hi: Optional[int] = None) -> Scan:
        """The values of each beginning of a range, the element itself included. Linear. Raises BadRange, OutOfRange, MemoryError."""
        return self._scan(True, lo, hi)

    def scan_exclusive(self, lo: Optional[int] = None, hi: Optional[int] = None) -> Scan:
        """The values of each beginning of a range, the element itself excluded. Linear. Raises BadRange, OutOfRange, MemoryError."""
        return self._scan(False, lo, hi)

    def scan_inclusive_by(self, kind: Union[Kind, str], lo: Optional[int] = None, hi: Optional[int] = None) -> Column:
        """The running values of a range by one kind, the element itself included, as one column.

        One call of C goes over the elements once, so it is linear, and keeps nothing. Other threads run meanwhile; of it and an edit of theirs at this
        vector, the second raises Busy. Raises BadRange, OutOfRange, MemoryError; ValueError of what is no kind."""
        return self._column(True, _kind_of(kind), lo, hi)

    def scan_exclusive_by(self, kind: Union[Kind, str], lo: Optional[int] = None, hi: Optional[int] = None) -> Column:
        """The same, the element itself excluded. Raises as `scan_inclusive_by` does."""
        return self._column(False, _kind_of(kind), lo, hi)

    def scan_inclusive_into(self, kind: Union[Kind, str], buffer: Union[WriteableBuffer, _NumpyArray], lo: Optional[int] = None, hi: Optional[int] = None) -> int:
        """Writes such a column into the front of a buffer, where that lies, and gives how many cells it has.

        The buffer has numbers of the cells' width side by side, as many an element as a cell has, and may be written to: a numpy array of
        int64 for the sum, of n times 2 uint32 for affine. The sum goes into uint64 too. Any other raises TypeError. What the buffer has
        behind stays. Raises ShortBuffer, and what `scan_inclusive_by` raises but MemoryError; the buffer is then as it was."""
        return self._fill(True, _kind_of(kind), buffer, lo, hi)

    def scan_exclusive_into(self, kind: Union[Kind, str], buffer: Union[WriteableBuffer, _NumpyArray], lo: Optional[int] = None, hi: Optional[int] = None) -> int:
        """The same, the element itself excluded. Raises as `scan_inclusive_into` does."""
        return self._fill(False, _kind_of(kind), buffer, lo, hi)

    # Within.

    def _scan(self, inclusive: bool, lo: Optional[int], hi: Optional[int]) -> Scan:
        lo, hi = self._range(lo, hi)
        length = self._room(lo, hi)
        room = bytearray(max(length, 1) * ctypes.sizeof(_Values))
        did = _accepted(_scan(self._at, _ALL_SIX, inclusive, lo, hi, ctypes.byref(_address(room)), length), lo, hi)
        return Scan(did.edit, room, did.length)

    def _column(self, inclusive: bool, kind: Kind, lo: Optional[int], hi: Optional[int]) -> Column:
        lo, hi = self._range(lo, hi)
        length = self._room(lo, hi)
        of, count = _CELLS[kind]
        width = count * struct.calcsize(of)
        room = bytearray(max(length, 1) * width)
        did = _accepted(_scan_by(self._at, kind.value, inclusive, lo, hi, ctypes.byref(_address(room)), length), lo, hi)
        cells = memoryview(room)[: did.length * width]
        # no view of several dimensions has none of its rows
        return Column(did.edit, cells.cast(of) if count == 1 or not cells else cells.cast(of, [did.length, count]))

    def _fill(self, inclusive: bool, kind: Kind, buffer: Any, lo: Optional[int], hi: Optional[int]) -> int:
        of, count = _CELLS[kind]
        view = _as_column(buffer, of, count)
        lo, hi = self._range(lo, hi)
        length = view.nbytes // (count * struct.calcsize(of))
        # an address is needed also where there is nothing to write
        room: WriteableBuffer = view if length else bytearray(16)
        return _accepted(_scan_by(self._at, kind.value, inclusive, lo, hi, ctypes.byref(_address(room)), length), lo, hi).length
