"""The edits of a vector, and why they would be refused."""
from __future__ import annotations

import ctypes
from typing import TYPE_CHECKING, Callable, Iterable, Optional, TypeVar

from ._buffers import _address, _as_buffer
from ._calls import _judge_edit, _make_edit, _push_many, _push_saved, _write_many
from ._elements import _Elements
from ._library import _NO_INDEX, _NO_VALUE, _POP, _PUSH, _RESERVE, _SWAP, _TRUNCATE, _WRITE
from ._numbers import _as_i64, _as_u32
from ._ranges import _as_places
from ._refusals import _PLACED, Closed, Refusal, _accepted, _refuse
from ._saved import _bytes_of
from ._structures import _Edited, _Pushed

if TYPE_CHECKING:
    from _typeshed import ReadableBuffer, WriteableBuffer

_SomeVector = TypeVar("_SomeVector", bound="_Edits")


class _Edits(_Elements):
    """The part of `Vector` that edits."""

    __slots__ = ()

    def push(self, value: int) -> int:
        """Puts an element at the end, and gives its index. O(log n) amortised. Raises Worn, Full, NoMemory; OverflowError where it does not fit 64 bits."""
        return self._edited(_make_edit(self._at, _PUSH, _NO_INDEX, _NO_INDEX, _as_i64(value))).place

    def append(self, value: int) -> None:
        """Puts an element at the end, as a list does. Raises as `push` does."""
        self.push(value)

    def pop(self) -> int:
        """Drops the last element, and gives it. O(log n). Raises Worn, Empty, NoMemory."""
        return self._edited(_make_edit(self._at, _POP, _NO_INDEX, _NO_INDEX, _NO_VALUE)).value

    def write(self, index: int, value: int) -> int:
        """Overwrites an element, and gives the one before. O(log n) amortised. Raises Worn, OutOfRange, NoMemory; OverflowError where it does not fit 64 bits."""
        return self._edited(_make_edit(self._at, _WRITE, self._index(index), _NO_INDEX, _as_i64(value)), index).value

    def __setitem__(self, index: int, value: int) -> None:
        if isinstance(index, slice):
            raise TypeError("elements are overwritten one by one")
        self.write(index, value)

    def reserve(self, elements: int) -> int:
        """Makes room for so many elements in all, and gives the capacity. Linear in the room. Raises Worn, TooLarge, NoMemory. It is an edit like any other."""
        return self._edited(_make_edit(self._at, _RESERVE, _as_u32(elements, "elements"), _NO_INDEX, _NO_VALUE)).place

    def swap(self, first: int, second: int) -> int:
        """Exchanges two elements, whose indices may be one, and gives the one at the first now. O(log n) amortised. Raises Worn, OutOfRange, NoMemory."""
        return self._edited(_make_edit(self._at, _SWAP, self._index(first), self._index(second), _NO_VALUE), *([max(first, second)] if min(first, second) >= 0 else [])).value

    def truncate(self, elements: int) -> int:
        """Keeps so many elements, the first ones, and gives how many were dropped. O(log n) amortised. Raises Worn, OutOfRange, NoMemory. It gives no memory back."""
        return self._edited(_make_edit(self._at, _TRUNCATE, _as_u32(elements, "elements"), _NO_INDEX, _NO_VALUE)).place

    def _edited(self, told: _Edited, *given: int) -> _Edited:
        _accepted(told, *given)
        self._changes += 1
        return told

    # Verdicts: the refusal that an edit would meet, want of memory apart, or None where it would be accepted. Nothing is changed.

    def why_not_push(self, value: int) -> Optional[Refusal]:
        """Why `push` would be refused, or None. Like the five below it gives the refusal and doesn't raise it; want of memory isn't told."""
        return self._why(_PUSH, value=_as_i64(value))

    def why_not_pop(self) -> Optional[Refusal]:
        """Why `pop` would be refused, or None."""
        return self._why(_POP)

    def why_not_write(self, index: int, value: int) -> Optional[Refusal]:
        """Why `write` would be refused, or None."""
        return self._why(_WRITE, self._index(index), value=_as_i64(value))

    def why_not_reserve(self, elements: int) -> Optional[Refusal]:
        """Why `reserve` would be refused, or None."""
        return self._why(_RESERVE, _as_u32(elements, "elements"))

    def why_not_swap(self, first: int, second: int) -> Optional[Refusal]:
        """Why `swap` would be refused, or None."""
        return self._why(_SWAP, self._index(first), self._index(second))

    def why_not_truncate(self, elements: int) -> Optional[Refusal]:
        """Why `truncate` would be refused, or None."""
        return self._why(_TRUNCATE, _as_u32(elements, "elements"))

    def _why(self, edit: ctypes.c_uint32, index: int = 0, second: int = 0, value: int = 0) -> Optional[Refusal]:
        told = _judge_edit(self._at, edit, index, second, value)
        if told.refusal >= Closed.number:
            raise _refuse(told.refusal)
        return _refuse(told.refusal, told.detail) if told.refusal else None

    def extend(self, values: Iterable[int]) -> None:
        """Pushes each element in order, by one call of C. Linear in how many they are.

        An `array.array('q')`, a numpy array of int64 or any other buffer of 64-bit numbers with a sign is read where it lies. Where such a buffer
        has gaps or can't be written to, it is copied once, as one block. A buffer of other whole numbers, and anything else that can be gone
        through, is put into such an array first.

        All elements are pushed, or none. Raises Worn, Full and NoMemory where one would be refused: nothing has changed then, and its `pushed` is
        0. Raises TypeError and OverflowError of a buffer of several dimensions, of floats or of what else is no whole number of 64 bits:
        of elements that come one by one, the text names the first wrong one and its place, as in `elements[1] is a whole number, not 'x'`.
        """
        self._extended(_as_buffer(values))

    def _extended(self, buffer: memoryview, by: Callable[..., _Pushed] = _push_many) -> None:
        length = len(buffer)
        self._pushed(by(self._at, ctypes.byref(_address(buffer)) if length else None, length))

    def _pushed(self, did: _Pushed) -> None:
        self._changes += did.pushed
        if did.refusal:
            raise _refuse(did.refusal, did.detail, did.pushed)

    def push_saved(self, saved: ReadableBuffer) -> None:
        """Pushes the elements of the bytes that `save` gave, of a vector or of a series, by one call of C: all, or none. So they come into a vector of
        limits, a table or a kind of its own. Linear. Other threads run meanwhile; beside a call of theirs at this vector, the second of the two raises
        Busy.

        Raises NotSaved where these are not exactly the bytes of one, then Worn, Full and NoMemory as `extend` does: nothing has changed then."""
        given = _bytes_of(saved)
        self._pushed(_push_saved(self._at, given, len(given)))

    def __iadd__(self: _SomeVector, values: Iterable[int]) -> _SomeVector:
        self.extend(values)
        return self

    def write_many(self, indices: Iterable[int], values: Iterable[int]) -> None:
        """Writes each value at the index of the same place, in order, by one call of C. Each is an edit of its own, and costs what `write` does.

        Both are taken as `extend` takes elements, so numpy arrays and lists alike. A negative index counts from the end, and an index may come
        twice: the later value stays. Other threads run meanwhile; beside a call of theirs at this vector, the second of the two raises Busy.

        All writes are made, or none. Raises Worn or OutOfRange where one is refused: its `place` says which. Raises NoMemory too. Raises
        ValueError unless there are as many values as indices, and what `extend` raises of such as are no numbers.
        """
        given, elements = _as_buffer(indices, "indices"), _as_buffer(values, "values")
        places, length = _as_places(given, self), len(given)
        if length != len(elements):
            raise ValueError(f"there are {length} indices and {len(elements)} values")
        rows: tuple[WriteableBuffer, WriteableBuffer] = places, elements
        did = _write_many(self._at, *(ctypes.byref(_address(row)) if length else None for row in rows), length)
        self._changes += did.done
        if did.refusal:
            raise _refuse(did.refusal, did.detail, did.done, did.place, f"indices[{did.place}] = {given[did.place]}" if did.refusal in _PLACED else "")

    def clear(self) -> None:
        """Drops all elements, by one edit. O(log n) amortised. Raises Worn, NoMemory. It gives no memory back."""
        self.truncate(0)
