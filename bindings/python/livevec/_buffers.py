"""Buffers: those that elements are read from, and those that elements and columns are written into."""
from __future__ import annotations

import collections.abc
import ctypes
import itertools
import struct
import sys
from array import array
from typing import TYPE_CHECKING, Any, Callable, Iterable, Optional

from ._numbers import _as_i64

if TYPE_CHECKING:
    from typing import Protocol

    from _typeshed import WriteableBuffer

    class _NumpyArray(Protocol):
        # numpy doesn't tell each checker that its arrays are buffers
        @property
        def __array_interface__(self) -> Any: ...


# what may stand before the format of a buffer whose bytes are in this machine's order
_NATIVE = ("", "@", "=", "<") if sys.byteorder == "little" else ("", "@", "=", ">", "!")


def _is_plain(view: memoryview) -> bool:
    """Whether a buffer has 64-bit numbers with a sign in one row, in this machine's order."""
    return view.ndim == 1 and view.itemsize == 8 and view.format[-1:] in ("q", "l") and view.format[:-1] in _NATIVE


def _is_masked(values: object) -> bool:
    """Whether it is one of numpy's masked arrays, whose buffer doesn't tell what is masked."""
    masked = sys.modules.get("numpy.ma")
    return masked is not None and isinstance(values, masked.MaskedArray)


def _address(buffer: WriteableBuffer) -> ctypes.c_char:
    """What stands first in a buffer that may be written to. While it lives the buffer can't be resized."""
    return ctypes.c_char.from_buffer(buffer)


def _view_of(values: Any, what: str) -> Optional[memoryview]:
    """The buffer of what has one, itself or by numpy, as a column of pandas; None of what is only gone through."""
    if _is_masked(values):
        raise TypeError(f"{what}: a masked array may lack elements: hand in its compressed() or filled()")
    try:
        return memoryview(values)
    except TypeError:
        pass
    except (ValueError, BufferError) as no_buffer:
        # so numpy says that its dates and durations have no buffer
        raise TypeError(f"{what} are whole numbers: {no_buffer}; a column of times is handed in as its astype('int64')") from None
    own = getattr(values, "to_array", None)
    if own is not None and type(values).__module__.split(".")[0] == "livevec":
        return memoryview(own())
    made = getattr(values, "__array__", None)
    if made is None:
        return None
    given = made()
    # a column of Python's own numbers, as pandas' that may lack some, is gone through
    return None if given.dtype.kind == "O" else _view_of(given, what)


# so many elements that are gone through are held at once, so that the first wrong one can be named
_IN_HAND = 4096


def _array_of(values: Any, what: str) -> array[int]:
    """Elements that are gone through once, as an array; where one is no such number, which."""
    if isinstance(values, str) or not isinstance(values, collections.abc.Iterable) and not hasattr(values, "__getitem__"):
        raise TypeError(f"{what} are whole numbers one by one, in a list, a buffer or what else can be gone through, not {values!r}")
    made, rest = array("q"), iter(values)
    while some := list(itertools.islice(rest, _IN_HAND)):
        try:
            made.fromlist(some)
        except (TypeError, OverflowError):
            # the array is as it was, so its length is the place of the first of these
            for place, value in enumerate(some, len(made)):
                _as_i64(value, f"{what}[{place}]")
            raise
    return made


def _as_buffer(values: Iterable[int], what: str = "elements") -> memoryview:
    """The elements as 64-bit numbers with a sign, side by side, where they may be written to. While the view lives they can't be resized."""
    view = _view_of(values, what)
    if view is None:
        return memoryview(_array_of(values, what))
    if _is_plain(view):
        return view if view.c_contiguous and not view.readonly else memoryview(array("q", view.tobytes()))
    if view.ndim != 1:
        raise TypeError(f"{what} are one row of numbers, and this buffer has {view.ndim} dimensions")
    order, kind = view.format[:-1], view.format[-1:]
    if kind not in "bBhHiIlLqQnN?" or order not in ("", "@", "=", "<", ">", "!"):
        raise TypeError(f"{what} are whole numbers, and this buffer's format is {view.format!r}")
    return memoryview(_array_of(struct.unpack(f"{order}{len(view)}{kind}", view.tobytes()), what))


def _writable(buffer: Any, what: str) -> memoryview:
    """A buffer that may be written to, its numbers side by side; else a TypeError that says what of it is wrong."""
    try:
        view = memoryview(buffer)
    except TypeError:
        raise TypeError(f"{what} is a buffer, as an array.array or an array of numpy's, not a {type(buffer).__name__}") from None
    if view.readonly:
        raise TypeError(f"{what} may not be written to")
    if not view.c_contiguous:
        raise TypeError(f"{what} has gaps: its numbers are to be side by side")
    return view


def _as_room(buffer: Any) -> memoryview:
    """A buffer that elements are read into."""
    view = _writable(buffer, "the buffer")
    if _is_masked(buffer) or not _is_plain(view):
        raise TypeError(f"the buffer is to have 64-bit numbers with a sign in one row, as int64 does, and its format is {view.format!r}")
    return view


# which letters stand for numbers of a width
_ALIKE = {"q": "qlQL", "I": "IL", "B": "B"}


def _as_column(buffer: Any, of: str, count: int) -> memoryview:
    """A buffer whose numbers are those of cells, side by side, and that may be written to."""
    if _is_masked(buffer):
        raise TypeError("a column has no mask: hand in the array's data")
    view = _writable(buffer, "the column")
    letter, order = view.format[-1:], view.format[:-1]
    if letter not in _ALIKE[of] or order not in _NATIVE or view.itemsize != struct.calcsize(of):
        raise TypeError(f"the column is to have whole numbers of {8 * struct.calcsize(of)} bits, and its format is {view.format!r}")
    # as rows of cells, or as one row of their numbers
    if not (view.ndim == 1 and (not view.shape or view.shape[0] % count == 0) or view.ndim == 2 and view.shape is not None and view.shape[1] == count):
        raise TypeError(f"the column is to have {count} numbers for each element, and its shape is {view.shape}")
    return view


def _as_numpy(holder: object, read: Callable[[], array[int]], dtype: Any, copy: Optional[bool]) -> Any:
    """The elements as an array of numpy's, which asks for them: so numpy is there."""
    import numpy

    if copy is False:
        raise ValueError(f"the elements of a {type(holder).__name__} are handed out as a copy")
    return numpy.asarray(read(), dtype=dtype)
