"""How a vector is read: its counts, its elements and those of a range."""
from __future__ import annotations

import collections.abc
import ctypes
from array import array
from typing import TYPE_CHECKING, Any, Callable, Iterable, Iterator, Optional, Union, overload

from ._buffers import _address, _as_numpy, _as_room
from ._calls import _count_capacity, _count_edits, _count_size, _get, _read
from ._handle import _Closable
from ._numbers import _whole
from ._ranges import _ends, _place
from ._refusals import _accepted, _refuse
from ._structures import _Count, _VectorSlot

if TYPE_CHECKING:
    from _typeshed import WriteableBuffer

    from ._buffers import _NumpyArray

# so many elements are read at once where they are gone through
_AT_ONCE = 1024


class _Elements(_Closable, collections.abc.Sequence[int]):
    """The part of `Vector` that reads."""

    __slots__ = ("_changes",)
    _made_of = _VectorSlot
    _changes: int

    def __len__(self) -> int:
        return _counted(_count_size(self._at))

    @property
    def edits(self) -> int:
        """The number of the last edit, which is how many were accepted. O(1)."""
        return _counted(_count_edits(self._at))

    @property
    def capacity(self) -> int:
        """How many elements have room without another bucket."""
        return _counted(_count_capacity(self._at))

    @overload
    def __getitem__(self, index: int) -> int: ...
    @overload
    def __getitem__(self, index: slice) -> list[int]: ...
    def __getitem__(self, index: Union[int, slice]) -> Union[int, list[int]]:
        if isinstance(index, slice):
            wanted = range(len(self))[index]
            if not wanted:
                return []
            first, last = sorted((wanted[0], wanted[-1]))
            return self.to_array(first, last + 1)[:: wanted.step].tolist()
        return _accepted(_get(self._at, self._index(index)), index).value

    def __array__(self, dtype: Any = None, copy: Optional[bool] = None) -> Any:
        """The elements as an array of numpy's, for `numpy.asarray(v)` and `pandas.Series(v)`: one copy, for they lie in buckets here. Linear."""
        return _as_numpy(self, self.to_array, dtype, copy)

    def to_array(self, lo: Optional[int] = None, hi: Optional[int] = None) -> array[int]:
        """The elements of a range as an `array.array('q')`, read by one call: a copy, linear in the range. Raises BadRange, OutOfRange."""
        lo, hi = self._range(lo, hi)
        read = array("q", bytes(8 * self._room(lo, hi)))
        # an address is needed also where there is nothing to write
        room = read or array("q", [0])
        _accepted(_read(self._at, lo, hi, ctypes.byref(_address(room)), len(read)), lo, hi)
        return read

    def read_into(self, buffer: Union[WriteableBuffer, _NumpyArray], lo: Optional[int] = None, hi: Optional[int] = None) -> int:
        """Fills the front of a buffer with the elements of a range, by one call, and gives how many they are. Linear in the range.

        The buffer has 64-bit numbers with a sign side by side, and may be written to: an `array.array('q')`, a numpy array of int64, a memoryview
        of either. Any other raises TypeError. Raises BadRange, OutOfRange, ShortBuffer.
        """
        view = _as_room(buffer)
        lo, hi = self._range(lo, hi)
        # an address is needed also where there is nothing to write
        room: WriteableBuffer = view if len(view) else array("q", [0])
        return _accepted(_read(self._at, lo, hi, ctypes.byref(_address(room)), len(view)), lo, hi).length

    def __iter__(self) -> Iterator[int]:
        """The elements in order. Raises RuntimeError where the vector is edited meanwhile."""
        size = len(self)
        return self._through(self._changes, ((lo, min(lo + _AT_ONCE, size)) for lo in range(0, size, _AT_ONCE)), iter)

    def __reversed__(self) -> Iterator[int]:
        """The elements from the last on. Raises RuntimeError where the vector is edited meanwhile."""
        size = len(self)
        return self._through(self._changes, ((max(hi - _AT_ONCE, 0), hi) for hi in range(size, 0, -_AT_ONCE)), reversed)

    def _through(self, changes: int, parts: Iterable[tuple[int, int]], order: Callable[[array[int]], Iterator[int]]) -> Iterator[int]:
        for lo, hi in parts:
            if self._changes != changes:
                break
            for value in order(self.to_array(lo, hi)):
                if self._changes != changes:
                    break
                yield value
        if self._changes != changes:
            raise RuntimeError("the vector was edited while its elements were gone through")

    def index(self, value: int, start: int = 0, stop: Optional[int] = None) -> int:
        """The index of the first element of this value; between `start` and `stop`, as a list takes them. Raises ValueError where there is none."""
        lo, hi, _ = slice(start, stop).indices(len(self))
        try:
            return lo + self.to_array(lo, max(lo, hi)).index(value)
        except ValueError:
            raise ValueError(f"{value!r} is not in the vector") from None

    def count(self, value: int) -> int:
        """How many elements have this value."""
        return self.to_array().count(value)

    # Within.

    def _index(self, index: int) -> int:
        return _place(_whole(index, "the index"), self)

    def _range(self, lo: Optional[int], hi: Optional[int]) -> tuple[int, int]:
        return _ends(0 if lo is None else _whole(lo, "the start of the range"), None if hi is None else _whole(hi, "the end of the range"), self)

    def _room(self, lo: int, hi: int) -> int:
        """How long a buffer C is given: none where the range is refused, which C does before it looks at the length."""
        return hi - lo if lo <= hi <= len(self) else 0


def _counted(told: _Count) -> int:
    if told.refusal:
        raise _refuse(told.refusal)
    return told.value
