"""The series: a vector that goes on. The package's `Series` stands here."""
from __future__ import annotations

import ctypes
from typing import TYPE_CHECKING, Callable, Iterable, TypeVar

from ._buffers import _address, _as_buffer
from ._by_index import _ByIndex
from ._library import _NO_LONG_INDEX, _NO_VALUE, _PUSH, _SWAP, _call, _u32
from ._numbers import _as_i64
from ._refusals import _refuse
from ._series_calls import _make_edit, _new, _push_many, _SeriesPushed, _SeriesSlot, _slot
from ._series_kinds import _all_kept, _write_many

if TYPE_CHECKING:
    from _typeshed import WriteableBuffer

_begin = _call("livevec_series_begin_load", _u32, _slot)
_end = _call("livevec_series_end_load", _u32, _slot)

_SomeSeries = TypeVar("_SomeSeries", bound="Series")


class Series(_ByIndex):
    """A vector that goes on: its elements and edits are bounded by memory alone, and elements at its front may expire.

    Indices count from the first element that was ever pushed, and an element keeps its index for as long as it is kept: kept are those from `first`
    up to `size`. After an expiry there is memory for at most twice the elements that are kept, and 64. Of what isn't kept NotKept is raised, which
    tells `first` and `size`. For each kind that was asked for there is a tree, which each edit renews: so a value takes O(log n) joins.

    Edits are `push` (or `append`), `pop`, `write` (or `s[i] = x`), `swap`, `truncate`, `expire`, `extend` (or `+=`) and `write_many`; each has a
    number, 1, 2, 3 and so on, and `edits` is the last one. `len(s)` is how many elements are kept, and `for x in s` goes through them. Ranges are `lo` up to `hi`,
    without `hi`; where no `lo` is given they start at `first`, and where no `hi` is given they go up to `size`. No index counts from the end. An answer
    equals the plain left fold of the range after the last edit, by all six kinds.

    `s == t` compares elements as `Vector` does, whatever their indices and edits; so a series has no hash. A copy, also one by `copy` or by
    `pickle`, has the same elements under the same indices, and goes on at the same edit.

    `elements` are pushed at the start; `save` gives it as bytes, of which `Series.load` makes one again. Raises NoMemory. The memory is given back by
    `close`, at the end of a `with`, or with the object. Threads are as with a `Vector`; scans, `save` and `load` release the interpreter's lock.
    """

    __slots__ = ()
    _made_of, _name = _SeriesSlot, "Series"
    _begin_load, _end_load = _begin, _end

    def __init__(self, elements: Iterable[int] = ()) -> None:
        self._changes = 0
        refusal = _new(self._at)
        if refusal:
            raise _refuse(refusal)
        self.extend(elements)

    # Edits.

    def push(self, value: int) -> int:
        """Puts an element at the end, and gives its index. O(1) amortised, and as much again for each tree. Raises Worn, Full, NoMemory; OverflowError
        where it does not fit 64 bits."""
        return self._edited(_make_edit(self._at, _PUSH, _NO_LONG_INDEX, _NO_LONG_INDEX, _as_i64(value))).place

    def append(self, value: int) -> None:
        """As `push`, and gives nothing."""
        self.push(value)

    def extend(self, values: Iterable[int]) -> None:
        """Pushes each element in order, all of them or none, by one call of C. What is given, and how it is read, is as `Vector.extend` says.
        Linear in how many they are.

        Raises Worn or Full as the first push that would be refused, then NoMemory: nothing has changed then, so that its `pushed` is 0.
        """
        self._extended(_as_buffer(values))

    def _extended(self, buffer: memoryview, by: Callable[..., _SeriesPushed] = _push_many) -> None:
        length = len(buffer)
        did = by(self._at, ctypes.byref(_address(buffer)) if length else None, length)
        self._changes += did.pushed
        if did.refusal:
            raise _refuse(did.refusal, 0, did.pushed)

    def __iadd__(self: _SomeSeries, values: Iterable[int]) -> _SomeSeries:
        self.extend(values)
        return self

    def write_many(self, indices: Iterable[int], values: Iterable[int]) -> None:
        """Writes each value under the index of the same place, in order, by one call of C. Each is an edit of its own, and costs what `write` does. An
        index may come twice: the later value stays. Values are taken as `extend` takes elements.

        All writes are made, or none. Raises Worn or NotKept where one is refused: its `place` says which. Raises ValueError unless there are as
        many values as indices.
        """
        # of an index below 0 C makes one that is never kept; a copy, for C looks at them twice while other threads run
        given, elements = _as_buffer(indices, "indices"), _as_buffer(values, "values")
        places, length = bytearray(given), len(given)
        if length != len(elements):
            raise ValueError(f"there are {length} indices and {len(elements)} values")
        rows: tuple[WriteableBuffer, WriteableBuffer] = places, elements
        did = _write_many(self._at, *(ctypes.byref(_address(row)) if length else None for row in rows), length)
        self._changes += did.done
        _all_kept(did, lambda place: f"indices[{place}] = {given[place]}")

    def swap(self, first: int, second: int) -> int:
        """Exchanges the elements under two indices, and gives the one under the first now. O(log n). Raises Worn, NotKept."""
        return self._edited(_make_edit(self._at, _SWAP, self._index(first), self._index(second), _NO_VALUE)).value
