"""What is done and asked by index: of a series, and of the values of samples. The package's `LongReduced` stands here."""
from __future__ import annotations

import ctypes
from array import array
from typing import TYPE_CHECKING, Any, Callable, Iterable, Iterator, NamedTuple, Optional, TypeVar, Union, overload

from ._buffers import _address, _as_numpy, _as_room
from ._elements import _AT_ONCE
from ._kinds import _ALL_SIX
from ._library import _EXPIRE, _NO_LONG_INDEX, _NO_VALUE, _POP, _TRUNCATE, _WRITE
from ._numbers import _as_i64, _whole
from ._refusals import Busy, Closed, NotKept
from ._scans import Scan
from ._series_calls import (
    _ask, _counted, _edits, _get, _kept, _make_edit, _read, _reduce, _scan, _SeriesEdited, _SeriesReduced, _SeriesScanned,
)
from ._series_lent import Lent
from ._series_saved import _SeriesSaved
from ._structures import _Values
from ._values import Values, _values_of

if TYPE_CHECKING:
    from _typeshed import WriteableBuffer

    from ._buffers import _NumpyArray

_Some = TypeVar("_Some", bound="_ByIndex")


class LongReduced(NamedTuple):
    """The answer of a reduction of a series: the values of the range after the edit."""

    edit: int
    values: Values


class _ByIndex(_SeriesSaved):
    """The part of `Series` and `Samples` that goes by index."""

    __slots__ = ()
    _name: str

    # Edits.

    def pop(self) -> int:
        """Drops the last element, and gives it. O(log n). Raises Worn, Empty."""
        return self._edited(_make_edit(self._at, _POP, _NO_LONG_INDEX, _NO_LONG_INDEX, _NO_VALUE)).value

    def write(self, index: int, value: int) -> int:
        """Overwrites an element, and gives the one before. O(log n). Raises Worn, NotKept."""
        return self._edited(_make_edit(self._at, _WRITE, self._index(index), _NO_LONG_INDEX, _as_i64(value)), index).value

    def __setitem__(self, index: int, value: int) -> None:
        if isinstance(index, slice):
            raise TypeError("elements are overwritten one by one, or by write_many: a slice can't be assigned to")
        self.write(index, value)

    def truncate(self, size: int) -> int:
        """Drops the elements from an index on, which is `size` then, and gives how many they were. O(log n). Raises Worn, NotKept."""
        return self._edited(_make_edit(self._at, _TRUNCATE, self._index(size), _NO_LONG_INDEX, _NO_VALUE), size).place

    def expire(self, index: int) -> int:
        """Drops the elements before an index, which is `first` then, and gives how many they were. The others keep their indices. O(1) amortised.
        It gives memory back, and never raises NoMemory. Raises Worn, NotKept."""
        return self._edited(_make_edit(self._at, _EXPIRE, self._index(index), _NO_LONG_INDEX, _NO_VALUE), index).place

    def clear(self) -> int:
        """Drops all that is kept, by one edit, and gives how many elements that was. What is pushed next has the index that `first` was. O(log n). Raises
        Worn."""
        return self.truncate(self.first)

    # Elements and counts.

    @property
    def edits(self) -> int:
        """The number of the last edit, which is how many were accepted. O(1)."""
        return _counted(_edits(self._at))

    def __len__(self) -> int:
        """How many elements are kept. O(1)."""
        return self.size - self.first

    @overload
    def __getitem__(self, index: int) -> int: ...
    @overload
    def __getitem__(self, index: slice) -> list[int]: ...
    def __getitem__(self, index: Union[int, slice]) -> Union[int, list[int]]:
        """The element under an index, O(1); or those of a slice, in a list: what of it is kept, as a list's slice has what of it exists. An end that
        is left out is `first` or `size`. As no index counts from the end, a negative end raises NotKept."""
        if not isinstance(index, slice):
            return _kept(_get(self._at, self._index(index)), index).value
        wanted = self._kept_of(index)
        if not wanted:
            return []
        lo, hi = min(wanted[0], wanted[-1]), max(wanted[0], wanted[-1])
        return self.to_array(lo, hi + 1)[:: wanted.step].tolist()

    def __array__(self, dtype: Any = None, copy: Optional[bool] = None) -> Any:
        """The elements that are kept as an array of numpy's, for `numpy.asarray(s)` and `pandas.Series(s)`: a copy. Without one `lend` has them."""
        return _as_numpy(self, self.to_array, dtype, copy)

    def to_array(self, lo: Optional[int] = None, hi: Optional[int] = None) -> array[int]:
        """The elements of a range as an `array.array('q')`: a copy, linear in the range. Raises BadRange, NotKept."""
        lo, hi = self._range(lo, hi)
        read = array("q", bytes(8 * self._room(lo, hi)))
        self.read_into(read, lo, hi)
        return read

    def read_into(self, buffer: Union[WriteableBuffer, _NumpyArray], lo: Optional[int] = None, hi: Optional[int] = None) -> int:
        """Fills a buffer with the elements of a range, from its start on, as many as it takes, and gives how many they are: the next piece starts
        behind them. The buffer is as `Vector.read_into` wants it. Linear in the piece. Raises BadRange, NotKept."""
        return self._read_by(_read, buffer, lo, hi)

    def lend(self, lo: Optional[int] = None, hi: Optional[int] = None) -> Lent:
        """The elements of a range without a copy, for `with s.lend(lo, hi) as view`: see `Lent`. The `with` raises BadRange, NotKept. O(1)."""
        return Lent(self, *self._range(lo, hi))

    def __iter__(self) -> Iterator[int]:
        """The elements in order. Raises RuntimeError if the series is edited meanwhile."""
        first, size = self.first, self.size
        return self._through(self._changes, ((lo, min(lo + _AT_ONCE, size)) for lo in range(first, size, _AT_ONCE)), iter)

    def __reversed__(self) -> Iterator[int]:
        """The elements from the last one on. Raises RuntimeError if the series is edited meanwhile."""
        first, size = self.first, self.size
        return self._through(self._changes, ((max(hi - _AT_ONCE, first), hi) for hi in range(size, first, -_AT_ONCE)), reversed)

    def _through(self, changes: int, parts: Iterable[tuple[int, int]], order: Callable[[array[int]], Iterator[int]]) -> Iterator[int]:
        for lo, hi in parts:
            if self._changes != changes:
                break
            for value in order(self.to_array(lo, hi)):
                if self._changes != changes:
                    break
                yield value
        if self._changes != changes:
            raise RuntimeError("the series was edited while its elements were gone through")

    def __repr__(self) -> str:
        try:
            return f"<livevec.{self._name} of {self.first} to {self.size} at edit {self.edits}>"
        except (Closed, Busy) as refusal:
            return f"<livevec.{self._name}, {type(refusal).__name__.lower()}>"

    # Copies.

    def copy(self: _Some) -> _Some:
        """One of its own with the same elements under the same indices: its next edit has the number that this one's next has. Linear. Trees are made
        anew by the first question. Raises NoMemory."""
        return self.load(self.save())

    def __copy__(self: _Some) -> _Some:
        return self.copy()

    def __reduce__(self) -> tuple[Any, ...]:
        return type(self).load, (self.save(),)

    # Reductions and scans.

    def reduce(self, lo: Optional[int] = None, hi: Optional[int] = None) -> LongReduced:
        """All six values of a range, by the trees that there are: linear in the range by each kind that has none, and each time. It makes no tree,
        so it is for a reader that is to leave everything as it is; else `value` and `ask` are the calls. Raises BadRange, NotKept."""
        return self._reduced(_reduce, lo, hi)

    def ask(self, lo: Optional[int] = None, hi: Optional[int] = None) -> LongReduced:
        """The same, making the tree of each kind first, where there is none, in O(n): then it is O(log n), and each edit renews six trees. Where one
        value is wanted, `value` makes one tree. Raises BadRange, NotKept, NoMemory."""
        return self._reduced(_ask, lo, hi)

    def scan_inclusive(self, lo: Optional[int] = None, hi: Optional[int] = None, *, at: Optional[int] = None, most: Optional[int] = None) -> Scan:
        """The values of the elements from the range's start up to each of them, that one included.

        In pieces: `at` is where the piece starts, `most` how many values it has at most. So `s.scan_inclusive(lo, hi, at=lo, most=1000)` is the
        first piece, and the next one starts at `lo + len(piece)`. A piece costs a reduction of what lies before it, and one step for each
        value: if there are many pieces, `ask` first, so that each kind has a tree. Raises BadRange, NotKept.
        """
        return self._scan(True, lo, hi, at, most)

    def scan_exclusive(self, lo: Optional[int] = None, hi: Optional[int] = None, *, at: Optional[int] = None, most: Optional[int] = None) -> Scan:
        """The same, that one excluded."""
        return self._scan(False, lo, hi, at, most)

    # Within.

    def _read_by(
        self, call: Callable[..., _SeriesScanned], buffer: Union[WriteableBuffer, _NumpyArray], lo: Optional[int], hi: Optional[int],
    ) -> int:
        view = _as_room(buffer)
        lo, hi = self._range(lo, hi)
        return _kept(call(self._at, lo, hi, ctypes.byref(_address(view)) if len(view) else None, len(view)), lo, hi).length

    def _kept_of(self, wanted: slice) -> range:
        """The indices of a slice that are kept, where what is past either end is cut off, as a list does."""
        kept = range(self.first, self.size)
        ends: list[Optional[int]] = []
        for end, what in ((wanted.start, "start"), (wanted.stop, "stop")):
            if end is not None and _whole(end, f"the {what} of a slice") < 0:
                raise NotKept(kept.start, kept.stop, given=f"index {end}")
            ends.append(None if end is None else end - kept.start)
        start, stop = ends
        if wanted.step is None or wanted.step > 0:
            return kept[None if start is None else max(start, 0) : None if stop is None else max(stop, 0) : wanted.step]
        # backwards: from before the first one there is none, and down to before it there are all
        return kept[:0] if start is not None and start < 0 else kept[start : None if stop is not None and stop < 0 else stop : wanted.step]

    def _edited(self, told: _SeriesEdited, *given: int) -> _SeriesEdited:
        _kept(told, *given)
        self._changes += 1
        return told

    def _reduced(self, call: Callable[..., _SeriesReduced], lo: Optional[int], hi: Optional[int]) -> LongReduced:
        start, end = self._range(lo, hi)
        did = _kept(call(self._at, start, end), start, end)
        return LongReduced(did.edit, _values_of(did.values))

    def _scan(self, inclusive: bool, lo: Optional[int], hi: Optional[int], at: Optional[int], most: Optional[int]) -> Scan:
        lo, at, hi, length = self._piece(lo, hi, at, most)
        room = bytearray(max(length, 1) * ctypes.sizeof(_Values))
        did = _kept(_scan(self._at, _ALL_SIX, inclusive, lo, at, hi, ctypes.byref(_address(room)), length), lo, hi)
        return Scan(did.edit, room, did.length)
