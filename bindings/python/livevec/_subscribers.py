"""Those who are told which answers by what threads share have changed."""
from __future__ import annotations

import ctypes
import threading
from typing import TYPE_CHECKING, Any, Callable, Iterable

from ._library import _call, _released, _size, _u32
from ._limits import _MOST_U64, MOST_QUERIES
from ._queries import Note, _Note, _note_of
from ._records import _laid_out, _Refused
from ._refusals import _refuse

if TYPE_CHECKING:
    from ._records import flag, u32, u64


class _Place(ctypes.Structure):
    """A slot of livevec_shared.h."""

    _fields_ = [("at_", ctypes.c_void_p)]


@_laid_out
class _Told(_Refused):
    edit: u64
    count: u32
    is_over: flag


# All calls at what is shared release the interpreter's lock: who has the lock of what is shared may want that one.
_place: Any = ctypes.POINTER(_Place)
_next = _call("livevec_subscriber_next", _Told, _place, ctypes.POINTER(_Note), _size, ctypes.c_uint64, by=_released)
_look = _call("livevec_subscriber_look", _Told, _place, ctypes.POINTER(_Note), _size, by=_released)
_set_pause = _call("livevec_subscriber_set_pause", _u32, _place, ctypes.c_uint64, by=_released)
_free = _call("livevec_free_subscriber", _u32, _place, by=_released)

# A signal is looked at by the main thread alone, between two calls: so it sleeps for so many nanoseconds at once, and others without an end.
_A_WHILE = 100_000_000


class Subscriber:
    """One who is told which answers by what threads share have changed; made by `SharedVector.subscribe` and those of its like.

    As an iterator it sleeps until an edit changes an answer, and gives the notes of those that differ from what it was told last, in the order in
    which they were named. All notes of one list are at one edit, and these rise. What comes and goes between two looks is not told. Once what is
    shared is closed it gives the notes at the last edit, if there are any, and then ends.

    It pauses `pause` seconds between two looks, at first a millisecond, and twice as long as the last look took where that is longer, so that
    edits are not held up. By 0 it doesn't pause: each edit may be looked at then, and waits for the look. It is one thread's at a time, and may
    be let go at any time. Raises BadKind where the vector is of one kind and another is among the queries: nothing counts as told then.
    """

    __slots__ = ("_slot", "_at", "_pause", "_names", "_asked")

    def __init__(self, names: Iterable[str], asked: object, sits: Callable[[Any], int]) -> None:
        # what is asked stays while C asks it
        self._slot, self._names, self._asked, self._pause = _Place(), names, asked, 0.001
        self._at = ctypes.byref(self._slot)
        refusal = sits(self._at)
        if refusal:
            raise _refuse(refusal)

    @property
    def pause(self) -> float:
        """For how many seconds it pauses after a look, at least."""
        return self._pause

    @pause.setter
    def pause(self, seconds: float) -> None:
        self._pause = seconds
        _set_pause(self._at, min(max(int(seconds * 1e9), 0), _MOST_U64))

    def look(self) -> list[Note]:
        """The notes that there are now; none where nothing has changed. It neither sleeps nor pauses. Costs what `Queries.notes`
        does, under the lock."""
        return self._told(_look)[1]

    def __iter__(self) -> Subscriber:
        return self

    def __next__(self) -> list[Note]:
        rest = _A_WHILE if threading.current_thread() is threading.main_thread() else _MOST_U64
        while True:
            is_over, notes = self._told(_next, rest)
            if is_over:
                raise StopIteration
            if notes:
                return notes

    def _told(self, call: Callable[..., _Told], *rest: int) -> tuple[bool, list[Note]]:
        room = (_Note * MOST_QUERIES)()
        did = call(self._at, room, MOST_QUERIES, *rest)
        if did.refusal:
            raise _refuse(did.refusal, did.detail)
        return did.is_over, [_note_of(room[at], did.edit) for at in range(did.count)]

    def __del__(self, _free: Callable[..., int] = _free) -> None:
        _free(self._at)

    def __repr__(self) -> str:
        return f"<livevec.Subscriber to {', '.join(self._names)}>"
