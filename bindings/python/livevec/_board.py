"""The board, and its seats."""
from __future__ import annotations

import ctypes
import operator
import threading
from array import array
from typing import Any, Callable, NamedTuple, Optional, TypeVar, Union

from ._buffers import _address
from ._calls import (
    _board_close, _board_new, _board_sit, _board_take_back, _closed_read, _seat_get, _seat_pop, _seat_push, _seat_reduce,
    _seat_refresh, _seat_size, _seat_write,
)
from ._handle import _Closable, _Handle
from ._kinds import Kind, _kind_of
from ._library import _Answer, _u32
from ._limits import MOST_BOARD_BUCKETS, MOST_EDITS, MOST_SEATS
from ._numbers import _as_short, _as_u32, _whole
from ._ranges import _ends, _place
from ._refusals import _refuse
from ._structures import _BoardSlot, _SeatSlot
from ._values import _value_of

# A call of a seat's own asks for no more tries than this, which take some milliseconds at most.
_TRIES = 1000
_MOST_BOARD = 8 * (2**MOST_BOARD_BUCKETS - 1)

_Result = TypeVar("_Result")


class Told(NamedTuple):
    """The answer of a reduction at a seat: the value of the range by the board's kind after the edit, and how many reads it took."""

    edit: int
    cells: int
    summaries: int
    value: Union[int, None, tuple[int, ...]]


class Refreshed(NamedTuple):
    """The answer of a refresh at a seat: after which edit the block was read, and the edit that touched it last."""

    edit: int
    version: int


class Finished(NamedTuple):
    """What a board came to: how many edits were accepted at all seats together, and the elements."""

    edits: int
    elements: array[int]


class Board(_Closable):
    """A growable vector of elements of 16 bits that up to eight threads edit and reduce at once, without a lock.

    Each thread sits down at a `Seat`. All seats' accepted edits are one list, numbered 1, 2, 3 and so on. When the seats are closed, `finish`
    gives the elements.

        >>> from livevec import Board
        >>> with Board("sum", seats=2) as board:
        ...     with board.sit() as one, board.sit() as two:
        ...         one.push(30), two.push(12), one.reduce().value
        ...     board.finish()
        (0, 1, 42)
        Finished(edits=2, elements=array('q', [30, 12]))

    `kind` is a `Kind`, or its name: 'sum', 'least', 'greatest', 'best', 'affine', 'automaton'. There are limits of buckets, of which k have room
    for 8 * (2**k - 1) elements, and of edits.

    Raises ValueError where there is no such kind, then BadLimits and NoMemory. All memory is taken at once. It is given back by `close`, at the
    end of a `with`, or with the object.
    """

    __slots__ = ("kind",)
    _made_of = _BoardSlot

    def __init__(self, kind: Union[Kind, str] = Kind.SUM, *, seats: int = MOST_SEATS, most_buckets: int = MOST_BOARD_BUCKETS,
                 most_edits: int = MOST_EDITS) -> None:
        self.kind = _kind_of(kind)
        """What it reduces by."""
        refusal = _board_new(self._at, self.kind.value, _as_u32(most_buckets, "most_buckets"), _as_u32(most_edits, "most_edits"), _as_u32(seats, "seats"))
        if refusal:
            raise _refuse(refusal)

    def sit(self) -> Seat:
        """A seat of the board: one that nobody has yet, or one that was closed. O(1). Raises NoMemory, NoSeat."""
        seat = Seat(self)
        refusal = _board_sit(self._at, seat._at)
        if refusal:
            raise _refuse(refusal)
        return seat

    def finish(self) -> Finished:
        """Ends a board whose seats are all closed, and gives what it came to. Then it is closed itself. Linear.

        Raises NoMemory, SeatsOut; the board is then as it was."""
        # the memory that Python needs is there before anything is changed
        elements = array("q", bytes(8 * _MOST_BOARD))
        told = _board_close(self._at)
        if told.refusal:
            raise _refuse(told.refusal)
        count = _u32()
        refusal = _closed_read(self._at, ctypes.byref(_address(elements)), len(elements), ctypes.byref(count))
        self.close()
        if refusal:
            raise _refuse(refusal, count.value)
        del elements[count.value:]
        return Finished(told.value, elements)

    def close(self) -> None:
        """Gives the memory back; its seats stay good until they are closed. Every later call raises Closed; to close again does nothing."""
        super().close()

    def __repr__(self) -> str:
        return f"<livevec.Board of kind {self.kind.name.lower()}{'' if self._slot.full_ else ', closed'}>"


class Seat(_Handle):
    """A thread's place at a `Board`, made by `Board.sit`. It stays good where the board is closed first.

    Its calls release the interpreter's lock while they are in C, and wait for no other thread. A seat serves one thread at a time: a call beside
    another at the same seat raises RuntimeError.

    An edit is tried at most `tries` times, and once at least; the other calls make one try. What raises Contended or Overtaken (both are Outrun)
    has not happened: call again, now or after other work.
    """

    __slots__ = ("kind", "_board", "_one")
    _made_of = _SeatSlot

    def __init__(self, board: Board) -> None:
        self.kind = board.kind
        self._board = board
        self._one = threading.Lock()

    def push(self, value: int, *, tries: int = _TRIES) -> int:
        """Puts an element at the end, and gives its index. O(1) a try. Raises TooWide, Worn, Full, Contended."""
        return self._told(_seat_push, _as_short(value), _as_u32(tries, "tries")).place

    def pop(self, *, tries: int = _TRIES) -> int:
        """Drops the last element, and gives it. O(1) a try. Raises Worn, Empty, Contended, Overtaken."""
        return self._told(_seat_pop, _as_u32(tries, "tries")).value

    def write(self, index: int, value: int, *, tries: int = _TRIES) -> int:
        """Overwrites an element, and gives the one before. O(1) a try. Raises TooWide, Worn, OutOfRange, Contended, Overtaken."""
        return self._told(_seat_write, _place(_whole(index, "the index"), self), _as_short(value), _as_u32(tries, "tries")).value

    def __setitem__(self, index: int, value: int) -> None:
        self.write(index, value)

    def __getitem__(self, index: int) -> int:
        """The element at an index; a negative one counts from the end, as that was just before. O(1). Raises OutOfRange, Overtaken."""
        return self._told(_seat_get, _place(_whole(index, "the index"), self)).value

    def __len__(self) -> int:
        return self._told(_seat_size).value

    def reduce(self, lo: int = 0, hi: Optional[int] = None) -> Told:
        """The value of a range by the board's kind, of the elements as they were after one edit. Linear: it reads each element, or one summary for each
        block of eight that `refresh` has computed.

        Without `hi` the range goes up to the size just before. Raises BadRange, OutOfRange, Overtaken."""
        did = self._told(_seat_reduce, *_ends(operator.index(lo), None if hi is None else operator.index(hi), self))
        return Told(did.edit, did.cells, did.summaries, _value_of(self.kind, did.values))

    def refresh(self, block: int) -> Refreshed:
        """Computes the summary of a block, the eight elements from index 8 * block on, so that reductions read less. No answer changes.
        O(1).

        Raises OutOfRange where not all eight are there, and Overtaken."""
        did = self._told(_seat_refresh, _as_u32(block, "block"))
        return Refreshed(did.edit, did.version)

    def close(self) -> None:
        """Gives the seat back to its board. Every later call raises Closed; to close again does nothing."""
        self._alone(self._go)

    def __enter__(self) -> Seat:
        return self

    def __exit__(self, *_: object) -> None:
        self.close()

    def __del__(self) -> None:
        self._go(self._at)

    def __repr__(self) -> str:
        return f"<livevec.Seat of kind {self.kind.name.lower()}{'' if self._slot.full_ else ', closed'}>"

    # Within.

    # Calls at a board keep the interpreter's lock, so that its slot serves one at a time. A board that is closed takes no seat back.
    def _go(self, at: Any, _take_back: Callable[..., int] = _board_take_back) -> None:
        board = getattr(self, "_board", None)
        if board is None or _take_back(board._at, at):
            self._free()

    def _alone(self, call: Callable[..., _Result], *arguments: int) -> _Result:
        """A call while no other is at the slot."""
        if not self._one.acquire(False):
            raise RuntimeError("a seat serves one thread at a time")
        try:
            return call(self._at, *arguments)
        finally:
            self._one.release()

    def _told(self, call: Callable[..., _Answer], *arguments: int) -> _Answer:
        did = self._alone(call, *arguments)
        if did.refusal:
            raise _refuse(did.refusal, getattr(did, "detail", 0))
        return did
