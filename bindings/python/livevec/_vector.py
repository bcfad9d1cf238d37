"""The vector: how it is made, copied, compared and closed. What else it does stands in the modules of its parts."""
from __future__ import annotations

import ctypes
from array import array
from typing import TYPE_CHECKING, Any, Iterable, Optional, Sequence, TypeVar, Union

from ._automaton import _table_of
from ._calls import _new, _new_of, _new_with_table, _save, _saved_length
from ._claims import _Claims
from ._edits import _Edits
from ._elements import _counted
from ._kinds import Kind, _kind_of
from ._limits import MOST_BUCKETS, MOST_EDITS
from ._numbers import _as_u32
from ._questions import _Questions
from ._refusals import Busy, Closed, _accepted, _refuse
from ._saved import _bytes_of, _Saved
from ._scans import _Scans

if TYPE_CHECKING:
    from _typeshed import ReadableBuffer

_SomeVector = TypeVar("_SomeVector", bound="Vector")


class Vector(_Edits, _Questions, _Scans, _Claims, _Saved):
    """A growable vector of 64-bit numbers that answers reductions and scans of any range.

    It is read like a list: `len(v)`, `v[i]`, `v[-1]`, `v[2:5]`, `for x in v`, `x in v`. Edits are `push` (or `append`), `pop`, `v[i] = x`, `swap`,
    `truncate`, `reserve` and `extend` (or `+=`); each has a number, 1, 2, 3 and so on, and `edits` is the last one. Ranges are `lo` up to `hi`,
    without `hi`; where no `hi` is given they go up to the end. As in a slice, a negative end counts from the vector's end, and a negative start
    before the first element is that element's; other than a slice, a range that goes past the vector's end is refused. An answer equals the plain
    left fold of the range after the last edit.

    `v == w` compares elements, with another vector or series, a list, a tuple, a range or an `array.array`; so a vector has no hash. A copy, also one by `copy` or by `pickle`, has elements, limits,
    table and kind; its edits are the pushes of its elements. `save` gives the elements as bytes, and `load` makes a vector of them.

    `elements` are pushed at the start. There are limits of buckets, of which k have room for 8 * (2**k - 1) elements, and of edits. `table` is that of the
    automaton, eight rows of four states from 0 to 7: from state q, an element x leads to table[q][x % 4]; without it, to (2 * q + x % 4) % 8. `kind`, a
    `Kind` or its name, makes a vector of that kind alone, without a table of its own: it answers `value`, `value_many`, the one value and the
    scans of that kind, and the searches that go by it, and raises BadKind of other questions, and of those by all six kinds.

    Raises BadLimits, BadTable and NoMemory. The memory is given back by `close`, at the end of a `with`, or with the object.
    """

    __slots__ = ("_limits",)

    def __init__(self, elements: Iterable[int] = (), *, most_buckets: int = MOST_BUCKETS, most_edits: int = MOST_EDITS,
                 table: Optional[Sequence[Sequence[int]]] = None, kind: Union[Kind, str, None] = None) -> None:
        self._changes = 0
        buckets, edits = _as_u32(most_buckets, "most_buckets"), _as_u32(most_edits, "most_edits")
        table = None if table is None else tuple(tuple(row) for row in table)
        only = None if kind is None else _kind_of(kind)
        if only is not None and table is not None:
            raise ValueError("a vector of one kind has no table of its own")
        # what a copy is made by
        self._limits = buckets, edits, table, only
        if only is not None:
            refusal = _new_of(self._at, only.value, buckets, edits)
        elif table is None:
            refusal = _new(self._at, buckets, edits)
        else:
            refusal = _new_with_table(self._at, buckets, edits, ctypes.byref(_table_of(table)))
        if refusal:
            raise _refuse(refusal)
        self.extend(elements)

    @property
    def kind(self) -> Optional[Kind]:
        """The kind that it is of, if it is of one."""
        return self._limits[3]

    # Copies.

    def copy(self: _SomeVector) -> _SomeVector:
        """A vector of its own with the same elements, limits, table and kind. Linear. Raises NoMemory.

        Its edits are the pushes of its elements, so that their numbers begin anew: a vector that is worn goes on as its copy."""
        return _remade(type(self), self.to_array(), *self._limits)

    def __copy__(self: _SomeVector) -> _SomeVector:
        return self.copy()

    def __reduce__(self) -> tuple[Any, ...]:
        return _remade, (type(self), self.to_array(), *self._limits)

    def __repr__(self) -> str:
        try:
            return f"<livevec.Vector of {len(self)} at edit {self.edits}>"
        except (Closed, Busy) as refusal:
            return f"<livevec.Vector, {type(refusal).__name__.lower()}>"

    # As bytes.

    @classmethod
    def load_pieces(cls: type[_SomeVector], pieces: Iterable[ReadableBuffer]) -> _SomeVector:
        made = cls()
        made.push_saved(b"".join(_bytes_of(piece) for piece in pieces))
        return made

    def _length_saved(self) -> int:
        return _counted(_saved_length(self._at))

    def _save(self, place: int, room: Optional[Any], length: int) -> int:
        return _accepted(_save(self._at, place, room, length)).length



def _remade(of: type[_SomeVector], elements: array[int], buckets: int, edits: int, table: Optional[Sequence[Sequence[int]]],
            kind: Optional[Kind] = None) -> _SomeVector:
    """A copy, of a vector here or of one that was pickled, also before there were vectors of one kind."""
    if kind is None:
        return of(elements, most_buckets=buckets, most_edits=edits, table=table)
    return of(elements, most_buckets=buckets, most_edits=edits, kind=kind)
