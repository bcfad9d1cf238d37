"""What owns a slot of the library."""
from __future__ import annotations

import ctypes
from typing import Any, Callable, TypeVar, Union

from ._library import _call, _pointer, _u32
from ._refusals import Busy, _refuse
from ._structures import _Slot

_free_slot = _call("livevec_free_slot", _u32, _pointer, _u32)

_Made = TypeVar("_Made", bound="_Handle")
_Closed = TypeVar("_Closed", bound="_Closable")


class _Handle:
    """What owns a slot. The slot can be neither copied nor pickled."""

    __slots__ = ("_slot", "_at", "__weakref__")

    _made_of: type[_Slot]
    _slot: _Slot
    _at: Any

    # The slot is there before anything can fail, for the object's end looks at it.
    def __new__(cls: type[_Made], *_: object, **__: object) -> _Made:
        made = super().__new__(cls)
        made._slot = cls._made_of()
        made._at = ctypes.byref(made._slot)
        return made

    def __del__(self) -> None:
        self._free()

    def _free(self, _free: Callable[..., int] = _free_slot) -> int:
        """Frees what the slot holds, and gives C's answer."""
        return _free(self._at, self._slot.sort)

    def __reduce__(self) -> Union[str, tuple[Any, ...]]:
        raise TypeError(f"a {type(self).__name__} can't be copied or pickled, for it lies with the library in this process")

    def __copy__(self: _Made) -> _Made:
        raise TypeError(f"a {type(self).__name__} can't be copied: it stands for one thing in the library")

    def __deepcopy__(self: _Made, _memo: object) -> _Made:
        return self.__copy__()


class _Closable(_Handle):
    """What is freed by `close`, at the end of a `with`, or with the object."""

    __slots__ = ()

    def close(self) -> None:
        """Gives the memory back. Every later call raises Closed; to close again does nothing. Raises Busy beside a call of another thread."""
        if self._free() == Busy.number:
            raise _refuse(Busy.number)

    def __enter__(self: _Closed) -> _Closed:
        return self

    def __exit__(self, *_: object) -> None:
        self.close()
