"""Why the library refuses calls: an exception for each of its numbers."""
from __future__ import annotations

from typing import TYPE_CHECKING, Any, Protocol, TypeVar

if TYPE_CHECKING:
    from ._transcripts import Verdict


class Refusal(Exception):
    """Why the library refused a call. What is refused changes no element, no edit number and no later answer.

    `number` is the number that the library's rules give it. `detail` is the size of an OutOfRange, the limit of a TooLarge, the wanted length
    of a ShortBuffer and the other edit of an Outrun, else 0.
    `pushed` is how many elements were taken by the `extend`, or written by the `write_many`, that was refused: none; or how many samples by the
    `push_many`. `place` is which of many writes, pushes or questions was refused, counted from 0. `given` names what of the call was wrong, as
    "index 7", "the range 5 to 3", "indices[2] = 7", "ranges[0] = (5, 3)" or "times[1] = 60", where that is known.
    """

    number: int = 0
    says: str = "refused"

    def __init__(self, detail: int = 0, pushed: int = 0, place: int = 0, given: str = "") -> None:
        self.detail = detail
        self.pushed = pushed
        self.place = place
        self.given = given
        super().__init__(self._said(self.says.format(detail=detail)))

    def _said(self, says: str) -> str:
        return f"{self.given}: {says}" if self.given else says

    def __reduce__(self) -> tuple[Any, ...]:
        return type(self), (self.detail, self.pushed, self.place, self.given)


class Worn(Refusal, OverflowError):
    """The limit of edits is reached."""

    number, says = 1, "the limit of edits is reached"


class Empty(Refusal, IndexError):
    """A pop of nothing."""

    number, says = 2, "there is nothing to pop"


class OutOfRange(Refusal, IndexError):
    """An index, or the end of a range, is past the end. `detail` is the size."""

    number, says = 3, "out of range: the size is {detail}"


class TooLarge(Refusal, OverflowError):
    """More was to be reserved than the limits allow. `detail` is the limit in elements."""

    number, says = 4, "too large: the limit is {detail} elements"


class Full(Refusal, OverflowError):
    """There are as many elements as the limits allow."""

    number, says = 5, "full: there are as many elements as the limits allow"


class NoMemory(Refusal, MemoryError):
    """Memory was wanted, and there was none."""

    number, says = 6, "memory was wanted, and there was none"


class BadRange(Refusal, ValueError):
    """A range whose start is past its end."""

    number, says = 7, "a range whose start is past its end"


class BadLimits(Refusal, ValueError):
    """Limits outside 1 to 17 buckets, of a board 1 to 9, and 1 to 16,777,215 edits; seats outside 1 to 8."""

    number, says = 8, "limits are 1 to 17 buckets, of a board 1 to 9, 1 to 16,777,215 edits and 1 to 8 seats"


class BadTable(Refusal, ValueError):
    """An automaton's table with an entry above 7."""

    number, says = 9, "an automaton's table with an entry above 7"


class Stranger(Refusal, ValueError):
    """An outcome that isn't of a job of this vector."""

    number, says = 15, "an outcome that is not of a job of this vector"


class TooWide(Refusal, OverflowError):
    """An element of a board outside -32768 to 32767."""

    number, says = 16, "an element of a board is from -32768 to 32767"


class Outrun(Refusal, RuntimeError):
    """Another seat's edit was faster, and nothing has happened: the same call may go through if it is made again. `detail` is that edit."""


class Contended(Outrun):
    """Another seat's edit came first, in each of the tries. `detail` is the last one's number."""

    number, says = 17, "contended: edit {detail} came first"


class Overtaken(Outrun):
    """A later edit wrote where the call read. `detail` is its number."""

    number, says = 18, "overtaken: edit {detail} wrote there"


class NotSaved(Refusal, ValueError):
    """Bytes that no saved vector, series or samples have: they were changed, or are too few or too many."""

    number, says = 22, "bytes that are no saved vector, series or samples"


class Closed(Refusal, ValueError):
    """The vector, board or seat was closed, or the job was run."""

    number, says = 101, "it was closed, or it was run"


class ShortBuffer(Refusal, ValueError):
    """A buffer shorter than what it should take. `detail` is the wanted length."""

    number, says = 103, "the buffer is shorter than the {detail} elements"


class NoSeat(Refusal, RuntimeError):
    """Somebody has each of the board's seats."""

    number, says = 105, "no seat is left"


class SeatsOut(Refusal, RuntimeError):
    """A seat of the board is not closed yet."""

    number, says = 106, "seats are out"


class Busy(Refusal, RuntimeError):
    """Another call is under way at the same object."""

    number, says = 108, "another call is under way"


class OtherVersion(Refusal, ValueError):
    """Bytes of a summary of another version of the layout, or of no summary at all."""

    number, says = 109, "a summary of another version, or none"


class Damaged(Refusal, ValueError):
    """Bytes of a summary that were changed, or that no elements have."""

    number, says = 110, "a damaged summary"


class OtherTable(Refusal, ValueError):
    """Two summaries by automata of two tables."""

    number, says = 111, "summaries by two tables"


class TooLong(Refusal, OverflowError):
    """Summaries of more than 2**62 elements together, or a text of more than 2**30 bytes."""

    number, says = 112, "more elements than summaries may have, or more bytes than a text may have"


class BadKind(Refusal, ValueError):
    """A vector of one kind was asked by another, or by all six; or what has no times was asked a query of the last so much time."""

    number, says = 113, "a kind that the vector is not of"


class NameTaken(Refusal, ValueError):
    """A standing query of that name is there already."""

    number, says = 10, "a name that another query has"


class NoSuchName(Refusal, KeyError):
    """No standing query has that name."""

    number, says = 11, "a name that no query has"

    __str__ = Refusal.__str__


class TooMany(Refusal, OverflowError):
    """As many standing queries as a set may have."""

    number, says = 12, "as many queries as a set may have"


class BadName(Refusal, ValueError):
    """What is no name of a standing query: 1 to 16 letters of a-z, 0-9 and _."""

    number, says = 114, "a name is 1 to 16 letters of a-z, 0-9 and _"


class NotInOrder(Refusal, ValueError):
    """Recorded answers that don't rise by their edits."""

    number, says = 115, "recorded answers that don't rise by their edits"


class NoFront(Refusal, ValueError):
    """A text that is no front of a transcript. `verdict` names the line of the first fault."""

    number, says = 116, "a text that is no front of a transcript"
    verdict: Verdict


class NotKept(Refusal, IndexError):
    """An index of a series, or an end of a range, isn't kept: those from `first` up to `size` are. Its number is that of OutOfRange."""

    number, says = 3, "out of range"

    def __init__(self, first: int = 0, size: int = 0, place: int = 0, given: str = "") -> None:
        super().__init__(place=place, given=given)
        self.args = (self._said(f"out of range: kept are the indices from {first} up to {size}"),)
        self.first = first
        self.size = size

    def __reduce__(self) -> tuple[Any, ...]:
        return type(self), (self.first, self.size, self.place, self.given)


class Earlier(Refusal, ValueError):
    """A sample's time is before that of the last sample, which is `newest`."""

    number, says = 21, "earlier than the last sample"

    def __init__(self, newest: int = 0, pushed: int = 0, place: int = 0, given: str = "") -> None:
        super().__init__(0, pushed, place, given)
        self.args = (self._said(f"earlier than the last sample, whose time is {newest}"),)
        self.newest = newest

    def __reduce__(self) -> tuple[Any, ...]:
        return type(self), (self.newest, self.pushed, self.place, self.given)


_REFUSALS = {it.number: it for it in (Worn, Empty, OutOfRange, TooLarge, Full, NoMemory, BadRange, BadLimits, BadTable, Stranger, TooWide, Contended,
                                      Overtaken, Closed, ShortBuffer, NoSeat, SeatsOut, Busy, OtherVersion, Damaged, OtherTable, TooLong, BadKind,
                                      NameTaken, NoSuchName, TooMany, BadName, NotInOrder, NoFront, NotSaved)}


def _refuse(number: int, detail: int = 0, pushed: int = 0, place: int = 0, given: str = "") -> Refusal:
    made = _REFUSALS.get(number, Refusal)(detail, pushed, place, given)
    made.number = number
    return made


# which refusals are of an index or a range that was given
_PLACED = (3, 7)


def _words_of(number: int, given: tuple[int, ...]) -> str:
    """What of a call was wrong, in words: an index, or the two ends of a range."""
    if number not in _PLACED or not given:
        return ""
    return f"index {given[0]}" if len(given) == 1 else f"the range {given[0]} to {given[1]}"


class _Answer(Protocol):
    """What tells whether a call was refused, and a size or a limit."""

    refusal: int
    detail: int


_Told = TypeVar("_Told", bound=_Answer)


def _accepted(told: _Told, *given: int) -> _Told:
    """An answer that was not refused; else raises, and names the index or the range that was given."""
    if told.refusal:
        raise _refuse(told.refusal, told.detail, given=_words_of(told.refusal, given))
    return told
