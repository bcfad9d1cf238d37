"""livevec over MPI, by mpi4py: what the elements of all ranks come to, joined in the order of the ranks.

    # mpirun -np 4 python3 -m mpi4py prices.py
    from mpi4py import MPI
    import livevec, livevec_mpi
    prices = livevec.Vector(prices_of(MPI.COMM_WORLD.rank))
    print(livevec_mpi.allreduce(MPI.COMM_WORLD, prices.summary).values.best)

Each rank has a list of its own; all ranks' lists end to end, rank 0's first, are the whole list. What travels is a `livevec.Summary` of each, and
MPI joins them by `Summary.join`, left and right kept. That join is proved; this module is tested.

A rank hands in a Summary, or what is called for one, as `prices.summary`. Where that call raises a Refusal the others aren't left waiting: the
refusal travels in the summary's place, and each rank that is told the answer raises `NoAnswer`. It is never a wrong number. What else one rank
raises, and doesn't catch, ends all ranks where the program is run by `python3 -m mpi4py`. MPI's own errors are mpi4py's `MPI.Exception`. A rank
that dies ends the others by mpirun.

Every rank of the communicator makes the same calls, with the same root and the same range. Ranks in C with `livevec_mpi.h` may be among them.
"""
from __future__ import annotations

import operator
import struct
from array import array
from typing import Any, Callable, Iterable, Iterator, Optional, Sequence, Union

from mpi4py import MPI

import livevec
from livevec import SUMMARY_BYTES, Summary, Values, Vector
from livevec._refusals import _refuse

__all__ = ["NoAnswer", "reduce", "allreduce", "exscan", "ranged", "over", "running"]

HandedIn = Union[Summary, Callable[[], Summary]]


class NoAnswer(livevec.Refusal):
    """Why the ranks have no answer: `refusal` is what the library refused, and `rank` is whose own summary it was, None where it was a join of two."""

    def __init__(self, refusal: livevec.Refusal, rank: Optional[int]) -> None:
        super().__init__(refusal.detail)
        self.number, self.refusal, self.rank = refusal.number, refusal, rank
        self.args = (f"{'a join' if rank is None else f'rank {rank}'}: {refusal}",)

    def __reduce__(self) -> tuple[Any, ...]:
        return NoAnswer, (self.refusal, self.rank)


# --- How a refusal travels: in the bytes of a summary of version 0, which is none; as in livevec_mpi.h ---

_REFUSED = struct.Struct(f"<QIIi{SUMMARY_BYTES - 20}x")


def _sealed(refusal: livevec.Refusal, rank: Optional[int]) -> bytes:
    return _REFUSED.pack(0, refusal.number, refusal.detail, -1 if rank is None else rank)


def _is_sealed(sent: bytes) -> bool:
    version, number, _, _ = _REFUSED.unpack(sent)
    return bool(version == 0 and number != 0)


def _opened(sent: bytes) -> Summary:
    """The summary that came. Its bytes are looked at, for with one rank no join has done so."""
    if _is_sealed(sent):
        _, number, detail, rank = _REFUSED.unpack(sent)
        raise NoAnswer(_refuse(number, detail), None if rank < 0 else rank)
    try:
        return Summary.from_bytes(sent)
    except livevec.Refusal as refusal:
        raise NoAnswer(refusal, None) from None


def _joined(left: bytes, right: bytes) -> bytes:
    if _is_sealed(left) or _is_sealed(right):
        return left if _is_sealed(left) else right
    try:
        return bytes(Summary.from_bytes(left).join(Summary.from_bytes(right)))
    except livevec.Refusal as refusal:
        return _sealed(refusal, None)


def _join(left, right, _datatype) -> None:  # type: ignore[no-untyped-def]
    """The operation: each place of `right` becomes the join of that of `left` with it."""
    lefts, rights = memoryview(left).cast("B"), memoryview(right).cast("B")
    for at in range(0, len(rights), SUMMARY_BYTES):
        place = slice(at, at + SUMMARY_BYTES)
        rights[place] = _joined(bytes(lefts[place]), bytes(rights[place]))


_TYPE = MPI.BYTE.Create_contiguous(SUMMARY_BYTES).Commit()
_JOIN = MPI.Op.Create(_join, commute=False)


def _handed_in(mine: HandedIn, rank: int) -> bytes:
    try:
        return bytes(mine() if callable(mine) else mine)
    except livevec.Refusal as refusal:
        return _sealed(refusal, rank)


def _checked(mine: HandedIn) -> HandedIn:
    if not isinstance(mine, Summary) and not callable(mine):
        raise TypeError(f"a Summary is wanted, or what is called for one, not a {type(mine).__name__}")
    return mine


# --- Over the ranks ---


def reduce(comm: MPI.Intracomm, mine: HandedIn, root: int = 0) -> Optional[Summary]:
    """The summary of all ranks' elements in the order of the ranks, at the rank `root`; None at the others. Raises NoAnswer."""
    sent = _handed_in(_checked(mine), comm.rank)
    came = bytearray(SUMMARY_BYTES)
    comm.Reduce([sent, 1, _TYPE], [came, 1, _TYPE], op=_JOIN, root=root)
    if comm.rank == root:
        return _opened(bytes(came))
    if _is_sealed(sent):
        _opened(sent)
    return None


def allreduce(comm: MPI.Intracomm, mine: HandedIn) -> Summary:
    """The same, at each rank. Raises NoAnswer."""
    came = bytearray(SUMMARY_BYTES)
    comm.Allreduce([_handed_in(_checked(mine), comm.rank), 1, _TYPE], [came, 1, _TYPE], op=_JOIN)
    return _opened(bytes(came))


def exscan(comm: MPI.Intracomm, mine: HandedIn) -> Summary:
    """The summary of the elements of all ranks before this one: at rank 0 that of no elements, by the automaton of its own.

    With it `running` gives the running values of this rank's own elements. Raises NoAnswer for what was refused at this rank or before it."""
    sent = _handed_in(_checked(mine), comm.rank)
    came = bytearray(SUMMARY_BYTES)
    comm.Exscan([sent, 1, _TYPE], [came, 1, _TYPE], op=_JOIN)
    if comm.rank == 0:
        return Summary(table=_opened(sent).table)
    if _is_sealed(sent) and not _is_sealed(bytes(came)):
        _opened(sent)
    return _opened(bytes(came))


def ranged(comm: MPI.Intracomm, vectors: Sequence[Vector], lo: int, hi: int) -> Summary:
    """The summary of a range of the whole list, at each rank. A rank's own elements are those of its vectors, end to end.

    Raises BadRange; NoAnswer; OutOfRange where the ranks have fewer elements than `hi`."""
    _check(lo, hi)
    sizes, refused = array("Q", [0]), None
    try:
        sizes[0] = sum(map(len, vectors))
    except livevec.Refusal as refusal:
        refused = refusal

    def mine() -> Summary:
        if refused:
            raise refused
        return over(vectors, _within(lo, start, sizes[0]), _within(hi, start, sizes[0]))

    start = _before(comm, sizes)
    told = allreduce(comm, mine)
    if told.count != hi - lo:
        raise livevec.OutOfRange()
    return told


def _before(comm: MPI.Intracomm, sizes: array[int]) -> int:
    """How many elements the ranks before this one have."""
    came = array("Q", [0])
    comm.Exscan([sizes, MPI.UINT64_T], [came, MPI.UINT64_T], op=MPI.SUM)
    # at rank 0 MPI says nothing of what came
    return came[0] if comm.rank else 0


def _check(lo: int, hi: int) -> None:
    if not 0 <= operator.index(lo) <= operator.index(hi):
        raise livevec.BadRange()


def _within(place: int, start: int, size: int) -> int:
    """Where a place of the whole list stands among so many elements that begin at `start`."""
    return min(max(place - start, 0), size)


# --- At one rank alone ---


def over(vectors: Sequence[Vector], lo: int, hi: int) -> Summary:
    """The summary of a range of the elements of some vectors, end to end.

    Of no vectors that is `Summary()`: where automata have tables of their own, each rank needs a vector with that table, if an empty one.
    Raises BadRange, OutOfRange, and what `Vector.summary` and `Summary.join` raise."""
    _check(lo, hi)
    whole: Optional[Summary] = None
    start = 0
    for vector in vectors:
        size = len(vector)
        first, last = _within(lo, start, size), _within(hi, start, size)
        if whole is None or first < last:
            part = vector.summary(first, last)
            whole = part if whole is None else whole.join(part)
        start += size
    if hi > start:
        raise livevec.OutOfRange(start)
    return Summary() if whole is None else whole


def running(before: Summary, elements: Iterable[int]) -> Iterator[Values]:
    """The running values of elements that stand behind others, whose summary is `before`: for each those up to it, that one included."""
    for element in elements:
        before = before.extended((element,))
        yield before.values
