"""A vector, a series or samples as bytes: what is alike of the three."""
from __future__ import annotations

import ctypes
from typing import TYPE_CHECKING, Any, Iterable, Optional, TypeVar

from ._buffers import _address
from ._numbers import _as_u64

if TYPE_CHECKING:
    from _typeshed import ReadableBuffer, WriteableBuffer

_Whole = TypeVar("_Whole", bound="_Saved")


class _Saved:
    """The part of `Vector`, `Series` and `Samples` that is saved and loaded."""

    __slots__ = ()

    @property
    def saved_length(self) -> int:
        """How many bytes it is saved as: 88, and 8 for each element, 16 for each sample. O(1)."""
        return self._length_saved()

    def save(self) -> bytes:
        """It as bytes, which `load` takes. Linear. Of a vector they are those of a series of its elements: its limits, table, kind and edits aren't
        saved. Trees aren't, either. The layout is told in docs/formats.md of livevec's repository. Other threads run meanwhile. Raises MemoryError."""
        while True:
            saved = bytearray(self.saved_length + 8)
            length = self.save_into(saved)
            # a buffer that is full may not have all, where another thread pushed after the length was told
            if length < len(saved):
                return bytes(memoryview(saved)[:length])

    def save_into(self, buffer: WriteableBuffer, at: int = 0) -> int:
        """Fills a buffer of bytes with those from the place `at` on, as many as it takes in whole numbers of 8, and gives how many they are, 0 at
        the end: the next piece starts behind them. An edit between two pieces makes them pieces of two states. Of a vector each piece is linear in
        the elements. Raises BadRange where `at` is no multiple of 8; TypeError of a buffer that may not be written to, or whose bytes don't lie side
        by side; of a vector NoMemory."""
        view = memoryview(buffer)
        if view.readonly or not view.c_contiguous:
            raise TypeError("bytes are saved into a buffer that may be written to, side by side")
        room, place = view.cast("B"), _as_u64(at, "the place")
        return self._save(place, ctypes.byref(_address(room)) if len(room) else None, len(room))

    @classmethod
    def load(cls: type[_Whole], saved: ReadableBuffer) -> _Whole:
        """What has these bytes: the same elements under the same indices, and the next edit has the next number. A vector is one of the greatest limits,
        its elements are under the indices from 0 on, its edits are their pushes, and the bytes may be a series', too. Linear. Raises NotSaved where
        they are not exactly those that `save` gives, and NoMemory; of a vector Full."""
        return cls.load_pieces((saved,))

    @classmethod
    def load_pieces(cls: type[_Whole], pieces: Iterable[ReadableBuffer]) -> _Whole:
        """The same of bytes that come in pieces, of any length, as those of a file by `iter(lambda: file.read(65536), b"")`. What came is in
        memory until the last one. Raises as `load`."""
        raise NotImplementedError

    # By calls of its own, these two.

    def _length_saved(self) -> int:
        raise NotImplementedError

    def _save(self, place: int, room: Optional[Any], length: int) -> int:
        raise NotImplementedError


def _bytes_of(piece: ReadableBuffer) -> bytes:
    return piece if isinstance(piece, bytes) else memoryview(piece).tobytes()
