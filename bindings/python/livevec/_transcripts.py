"""The journal of a vector, and transcripts: texts that are written, audited and made vectors of."""
from __future__ import annotations

import ctypes
from typing import TYPE_CHECKING, Iterable, NamedTuple, Optional, Union

from ._calls import _slot
from ._kinds import Kind, _kind_of
from ._library import _call, _size, _u32
from ._limits import MOST_BUCKETS, MOST_EDITS
from ._numbers import _as_u32
from ._records import _laid_out, _Refused
from ._refusals import NoFront, ShortBuffer, _refuse
from ._structures import _Values
from ._vector import Vector

if TYPE_CHECKING:
    from ._records import i64, size, u32

_MOST_U64 = (1 << 64) - 1


class JournalEdit(NamedTuple):
    """An edit as it was accepted. What it doesn't have is 0."""

    what: str
    """`push`, `pop`, `write`, `reserve`, `swap` or `truncate`."""
    first: int = 0
    """Of a write its index, of a swap the first one; of a reserve and of a truncate how many elements."""
    second: int = 0
    """Of a swap the second index."""
    value: int = 0
    """Of a push and of a write the element."""


class Recorded(NamedTuple):
    """An answer to be written into a transcript: what `value`, `sum`, `least` and so on answered."""

    edit: int
    """The edit after which it was so."""
    kind: Union[Kind, str]
    """By which kind, a `Kind` or its name."""
    lo: int
    """Of the elements from this index on,"""
    hi: int
    """up to this one, without it."""
    value: Union[int, None, tuple[int, ...]]
    """The answer, as `Vector.value` gives it."""


class Verdict(NamedTuple):
    """What an audit says of a text. It is true where it says yes."""

    says: str
    """`yes`: it is sound; `no`: a line has the right form, and is false; `bad`: one is not of the form that may stand there, or is missing."""
    line: int = 0
    """The number of that line, counted from 1; 0 of yes."""
    edits: int = 0
    """How many edits a front has."""
    answers: int = 0
    """How many answers a front has."""

    def __bool__(self) -> bool:
        return self.says == "yes"


@_laid_out
class _Edit(ctypes.Structure):
    what: u32
    index: u32
    second: u32
    value: i64


@_laid_out
class _JournalRead(ctypes.Structure):
    refusal: u32
    edit: u32
    length: size


@_laid_out
class _Recorded(ctypes.Structure):
    edit: u32
    kind: u32
    lo: u32
    hi: u32
    values: _Values


@_laid_out
class _TextPut(ctypes.Structure):
    refusal: u32
    length: size


@_laid_out
class _Audited(_Refused):
    verdict: u32
    line: u32
    edits: u32
    answers: u32


_bytes = ctypes.c_char_p
_journal = _call("livevec_journal", _JournalRead, _slot, _u32, ctypes.POINTER(_Edit), _size)
_transcript = _call("livevec_transcript", _TextPut, _slot, ctypes.POINTER(_Recorded), _size, ctypes.c_void_p, _size)
_audit = _call("livevec_audit", _Audited, _bytes, _size)
_audit_front = _call("livevec_audit_front", _Audited, _bytes, _size)
_restore = _call("livevec_restore", _Audited, _slot, _u32, _u32, _bytes, _size)
_restore_of = _call("livevec_restore_of", _Audited, _slot, _u32, _u32, _u32, _bytes, _size)

_EDITS = ("", "push", "pop", "write", "reserve", "swap", "truncate")
_PIECE = 4096


def journal(vector: Vector, start: int = 0) -> list[JournalEdit]:
    """The accepted edits of a vector behind the first `start`, in order: all of them from 0 on. Linear."""
    at, found = _as_u32(start, "start"), []
    piece = (_Edit * _PIECE)()
    while True:
        told = _journal(vector._at, at, piece, _PIECE)
        if told.refusal:
            raise _refuse(told.refusal)
        found += [JournalEdit(_EDITS[it.what], it.index, it.second, it.value) for it in piece[:told.length]]
        at += told.length
        if told.length < _PIECE:
            return found


def transcript(vector: Vector, answers: Iterable[Recorded] = ()) -> str:
    """The transcript of all edits of a vector and of answers, which rise by their edits. Linear in both.

    It is sound where each answer is true, which is for `audit` to say. Raises NotInOrder and NoMemory; ValueError of what is no kind."""
    rows = [_recorded(*it) for it in answers]
    flat = (_Recorded * len(rows))(*rows)
    told = _transcript(vector._at, flat, len(rows), None, 0)
    if told.refusal not in (0, ShortBuffer.number):
        raise _refuse(told.refusal)
    text = bytearray(told.length)
    place = (ctypes.c_char * told.length).from_buffer(text)
    told = _transcript(vector._at, flat, len(rows), place, len(text))
    if told.refusal:
        raise _refuse(told.refusal)
    return bytes(text).decode("ascii")


def _recorded(edit: int, kind: Union[Kind, str], lo: int, hi: int, value: Union[int, None, tuple[int, ...]]) -> _Recorded:
    of, values = _kind_of(kind), _Values()
    values.any = value is not None
    if of is Kind.AFFINE:
        values.affine_a, values.affine_b = value  # type: ignore[misc]
    elif of is Kind.AUTOMATON:
        values.automaton[:] = value  # type: ignore[call-overload]
    elif value is not None:
        number = int(value)  # type: ignore[arg-type]
        if of is Kind.SUM:
            values.sum = number & _MOST_U64
        elif of is Kind.BEST:
            values.best_low, values.best_high = number & _MOST_U64, number >> 64
        else:
            setattr(values, of.name.lower(), number)
    return _Recorded(_as_u32(edit, "edit"), of.value, _as_u32(lo, "lo"), _as_u32(hi, "hi"), values)


def _as_bytes(text: Union[str, bytes, bytearray, memoryview]) -> bytes:
    return text.encode() if isinstance(text, str) else bytes(text)


def _verdict(told: _Audited) -> Verdict:
    return Verdict(("", "yes", "no", "bad")[told.verdict], told.line, told.edits, told.answers)


def audit(text: Union[str, bytes, bytearray, memoryview]) -> Verdict:
    """What an audit says of a transcript: each edit is made anew, and each answer computed plainly, by the automaton of a new vector.
    Linear in the text, and each answer in its range.

    Raises TooLong of more than 2**30 bytes, and NoMemory."""
    whole = _as_bytes(text)
    told = _audit(whole, len(whole))
    if told.refusal:
        raise _refuse(told.refusal)
    return _verdict(told)


def audit_front(text: Union[str, bytes, bytearray, memoryview]) -> Verdict:
    """What an audit says of a front: as much of a transcript as was written, edits and answers in the order of time. What stands behind the last
    line end doesn't count. Raises as `audit`."""
    whole = _as_bytes(text)
    told = _audit_front(whole, len(whole))
    if told.refusal:
        raise _refuse(told.refusal)
    return _verdict(told)


def restore(text: Union[str, bytes, bytearray, memoryview], *, most_buckets: int = MOST_BUCKETS, most_edits: int = MOST_EDITS,
            kind: Union[Kind, str, None] = None) -> Vector:
    """A vector with the edits of a front, made anew within limits; with `kind` of that kind alone. What follows has the numbers behind them. The
    front's answers are audited, and not kept.

    Raises BadLimits, TooLong and NoFront, whose `verdict` names the first fault; what an edit is refused with by these limits, whose `pushed`
    is how many edits come before it; NoMemory."""
    whole, buckets, edits = _as_bytes(text), _as_u32(most_buckets, "most_buckets"), _as_u32(most_edits, "most_edits")
    only: Optional[Kind] = None if kind is None else _kind_of(kind)
    made = Vector.__new__(Vector)
    made._changes = 0
    made._limits = buckets, edits, None, only
    if only is None:
        told = _restore(made._at, buckets, edits, whole, len(whole))
    else:
        told = _restore_of(made._at, only.value, buckets, edits, whole, len(whole))
    if told.refusal:
        why = _refuse(told.refusal, told.detail, told.edits)
        if isinstance(why, NoFront):
            why.verdict = _verdict(told)
        raise why
    return made
