"""Standing queries: names for questions by one kind, and notes of those whose answer has changed. The package brings all of it."""
from __future__ import annotations

import ctypes
import operator
from typing import TYPE_CHECKING, NamedTuple, Optional, Union

from ._calls import _slot
from ._handle import _Closable
from ._kinds import Kind, _kind_of
from ._library import _call, _size, _u32
from ._limits import _MOST_U64, MOST_QUERIES
from ._numbers import _as_i64
from ._records import _laid_out, _Refused
from ._refusals import _refuse
from ._samples import Samples
from ._series import Series
from ._series_calls import _SeriesReduced, _slot as _series_slot
from ._structures import _Reduced, _Slot, _Values
from ._values import _value_of
from ._vector import Vector

if TYPE_CHECKING:
    from ._records import i64, u32, u64

_NAME_BYTES = 16


class _QueriesSlot(_Slot):
    sort = 7


class _Note(ctypes.Structure):
    name: bytes
    kind: int
    edit: int
    values: _Values
    _fields_ = [("name", ctypes.c_char * (_NAME_BYTES + 1)), ("kind", ctypes.c_uint32), ("edit", ctypes.c_uint32), ("values", _Values)]


@_laid_out
class _Noted(_Refused):
    edit: u32
    count: u32


@_laid_out
class _SeriesNoted(_Refused):
    edit: u64
    count: u32


@_laid_out
class _Query(ctypes.Structure):
    kind: u32
    span: u32
    bound: u32
    lo: u64
    hi: u64
    x: i64


_queries, _bytes = ctypes.POINTER(_QueriesSlot), ctypes.c_char_p
_new = _call("livevec_queries_new", _u32, _queries)
_watch = _call("livevec_watch_query", _u32, _queries, _bytes, _size, ctypes.POINTER(_Query))
_unwatch = _call("livevec_unwatch", _u32, _queries, _bytes, _size)
_answer = _call("livevec_answer", _Reduced, _queries, _slot, _bytes, _size)
_notes = _call("livevec_notes", _Noted, _queries, _slot, ctypes.POINTER(_Note), _size)
_series_answer = _call("livevec_series_answer", _SeriesReduced, _queries, _series_slot, _bytes, _size)
_series_notes = _call("livevec_series_notes", _SeriesNoted, _queries, _series_slot, ctypes.POINTER(_Note), _size)


class Note(NamedTuple):
    """That the answer of a standing query is another than it was told last, or has crossed its bound: after which edit it is so, and what it is, as
    `Values` has it."""

    name: str
    kind: Kind
    edit: int
    value: Union[int, None, tuple[int, ...]]


class Answered(NamedTuple):
    """The answer of a standing query, and after which edit it is so."""

    edit: int
    value: Union[int, None, tuple[int, ...]]


class Queries(_Closable):
    """A set of at most 64 standing queries, which may be asked of any `Vector`, `Series` and `Samples`.

        >>> from livevec import Queries, Vector
        >>> feed, queries = Vector(), Queries()
        >>> queries.watch("total", "sum")
        >>> queries.watch("dip", "least", 0, 2)
        >>> feed.extend([30, 12])
        >>> [(note.name, note.value) for note in queries.notes(feed)]
        [('total', 42), ('dip', 12)]
        >>> feed.append(-42)
        >>> queries.notes(feed)
        [Note(name='total', kind=<Kind.SUM: 0>, edit=3, value=0)]
        >>> queries.notes(feed)
        []

    `notes` tells which answers are others than were told last, or have crossed their bound, in the order in which the queries were named: called after
    each edit, it tells the notes of that edit. Before its first note a query counts as told its answer of no elements. A name is 1 to 16 letters of a-z, 0-9 and _.

    Its calls keep the interpreter's lock, as a vector's do. Raises NoMemory. The memory is given back by `close`, at the end of a `with`, or with
    the object.
    """

    __slots__ = ("_kinds",)
    _made_of = _QueriesSlot

    def __init__(self) -> None:
        # in the order in which they were named; what C answers doesn't tell the kind
        self._kinds: dict[str, Kind] = {}
        refusal = _new(self._at)
        if refusal:
            raise _refuse(refusal)

    @property
    def names(self) -> tuple[str, ...]:
        """The names of the queries, in order."""
        return tuple(self._kinds)

    def watch(self, name: str, kind: Union[Kind, str], lo: int = 0, hi: Optional[int] = None, *, last: Optional[int] = None, within: Optional[int] = None,
              at_least: Optional[int] = None, at_most: Optional[int] = None) -> None:
        """Registers a query: what a kind, a `Kind` or its name, says of the elements from `lo` up to `hi`, or up to the end however far it is; of the
        `last` so many elements, or of all where there are fewer; or of samples `within` the last so much time, as `Samples.last` has them.

        The range may reach past the end: what of it exists is asked. With `at_least` or `at_most` it is told of only as its answer begins or ends to be
        at least, or at most, so much; no elements, a map and states never are.

            >>> from livevec import Queries, Samples
            >>> load, queries = Samples([0, 30, 60], [40, 95, 99]), Queries()
            >>> queries.watch("hot", "greatest", within=60, at_least=90)
            >>> [note.value for note in queries.notes(load)]
            [99]

        O(q) of q queries. Raises BadName, BadRange, NameTaken, TooMany, NoMemory; ValueError of what is no kind, of an end below 0, since a query has no
        end to count from, and of two spans or two bounds."""
        of = _kind_of(kind)
        if (lo, hi) != (0, None) and (last, within) != (None, None) or None not in (last, within) or None not in (at_least, at_most):
            raise ValueError("a query has one span, and one bound at most")
        query = _Query(of.value, 0, 0, _reach(lo), _MOST_U64 if hi is None else _reach(hi), 0)
        for span, count in enumerate((last, within), 1):
            if count is not None:
                query.span, query.lo = span, _reach(count)
        for bound, x in enumerate((at_least, at_most), 1):
            if x is not None:
                query.bound, query.x = bound, _as_i64(x)
        refusal = _watch(self._at, *_named(name), query)
        if refusal:
            raise _refuse(refusal)
        self._kinds[name] = of

    def unwatch(self, name: str) -> None:
        """Forgets a query; the others keep their order, and what they were told. O(q). Raises BadName, NoSuchName."""
        refusal = _unwatch(self._at, *_named(name))
        if refusal:
            raise _refuse(refusal)
        del self._kinds[name]

    def answer(self, of: Union[Vector, Series, Samples], name: str) -> Answered:
        """The answer of a query now. Nothing counts as told by it. Costs what `value` does.

        Raises BadName, NoSuchName, and BadKind where it may not be asked: of a vector of another kind, or of the last so much time at what has no times."""
        did = (_answer if isinstance(_askable(of), Vector) else _series_answer)(self._at, of._at, *_named(name))
        if did.refusal:
            raise _refuse(did.refusal)
        return Answered(did.edit, _value_of(self._kinds[name], did.values))

    def notes(self, of: Union[Vector, Series, Samples]) -> list[Note]:
        """A note of each query, in order, whose answer is another than it was told last, or has crossed its bound. Each then counts as told its answer.
        Costs what `value` does, for each query.

        Raises BadKind where one of the queries may not be asked: nothing is told then, and its `detail` is which query it is, counted from 0."""
        room = (_Note * MOST_QUERIES)()
        did = (_notes if isinstance(_askable(of), Vector) else _series_notes)(self._at, of._at, room, MOST_QUERIES)
        if did.refusal:
            raise _refuse(did.refusal, did.detail)
        return [_note_of(room[at], did.edit) for at in range(did.count)]

    def __repr__(self) -> str:
        return f"<livevec.Queries {', '.join(self._kinds)}>" if self._slot.full_ else "<livevec.Queries, closed>"


def _named(name: str) -> tuple[bytes, int]:
    """A name as C takes it; what is no text of UTF-8 is none there either."""
    if not isinstance(name, str):
        raise TypeError(f"a name is a str, not a {type(name).__name__}")
    spelled = name.encode("utf-8", "replace")
    return spelled, len(spelled)


def _reach(index: int) -> int:
    """An end of a range that none has, where it is greater than C's numbers, is as good as the greatest of them."""
    index = operator.index(index)
    if index < 0:
        raise ValueError(f"{index} of a query's span is below 0")
    return min(index, _MOST_U64)


def _askable(of: Union[Vector, Series, Samples]) -> Union[Vector, Series, Samples]:
    if not isinstance(of, (Vector, Series, Samples)):
        raise TypeError(f"a Vector, a Series or Samples are wanted, not a {type(of).__name__}")
    return of


def _note_of(raw: _Note, edit: int) -> Note:
    kind = Kind(raw.kind)
    return Note(raw.name.decode(), kind, edit, _value_of(kind, raw.values))
