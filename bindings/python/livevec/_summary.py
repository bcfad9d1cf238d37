"""Summaries that travel."""
from __future__ import annotations

import ctypes
from array import array
from typing import Any, Iterable, Optional, Sequence, Union

from ._automaton import _table_of
from ._buffers import _address, _as_buffer
from ._calls import _summary_empty, _summary_empty_with_table, _summary_extend, _summary_join, _summary_values
from ._limits import SUMMARY_BYTES
from ._refusals import OtherVersion, _refuse
from ._structures import _Opened, _Summarised
from ._values import Values, _values_of


# where the total lies among a summary's bytes, as docs/engines.md has their layout
_TOTAL = slice(56, 72)


class Summary:
    """What a list of elements comes to by each of the six kinds, as plain bytes that travel: between threads, processes and machines.

        >>> from livevec import Summary, Vector
        >>> here, there = Vector([5, -3]), Vector([4, -10, 2])
        >>> sent = bytes(there.summary())
        >>> both = here.summary().join(Summary.from_bytes(sent))
        >>> both.count, both.values.sum, both.values.best
        (5, -2, 6)

    The summary of a list is joined of those of its parts, left and right kept, in any grouping. There is no `+`, for a join may be refused, and
    left is not right. A summary is never changed, holds nothing of a vector, and may be copied and pickled: it goes by its bytes, which are
    looked at where they come in. Two are equal where their bytes are: of one count, one table, one edit and the same values.

    `Summary(elements)` is that of elements that lie in no vector, by the automaton of a table as `Vector` takes it; without any it is that of no
    elements. Joined with another on either side that one changes nothing of it but that its edit is no longer told.

    Raises BadTable, and what `Vector.extend` raises of elements that are none.
    """

    __slots__ = ("_bytes",)
    _bytes: bytes

    def __init__(self, elements: Iterable[int] = (), *, table: Optional[Sequence[Sequence[int]]] = None) -> None:
        nothing = _summary_empty() if table is None else _summary_empty_with_table(ctypes.byref(_table_of(table)))
        self._bytes = _extended(_bytes_of(nothing), elements)

    @classmethod
    def from_bytes(cls, sent: Union[bytes, bytearray, memoryview]) -> Summary:
        """The summary of such bytes, from wherever they come. O(1). Raises OtherVersion, also where they are not SUMMARY_BYTES many, then Damaged."""
        made = cls.__new__(cls)
        made._bytes = memoryview(sent).tobytes()
        if len(made._bytes) != SUMMARY_BYTES:
            raise _refuse(OtherVersion.number)
        made._opened()
        return made

    @classmethod
    def _of(cls, did: _Summarised) -> Summary:
        made = cls.__new__(cls)
        made._bytes = _bytes_of(did)
        return made

    def join(self, right: Summary) -> Summary:
        """The summary of these elements, and then those of `right`. Its edit is not told. O(1). Raises OtherTable, then TooLong."""
        if not isinstance(right, Summary):
            raise TypeError(f"a Summary is wanted, not a {type(right).__name__}")
        return Summary._of(_summary_join(self._bytes, right._bytes))

    def extended(self, elements: Iterable[int]) -> Summary:
        """The summary of these elements, and then others, which `Vector.extend` would take. Its edit is not told. Linear in the others. Raises
        TooLong."""
        made = Summary.__new__(Summary)
        made._bytes = _extended(self._bytes, elements)
        return made

    @property
    def values(self) -> Values:
        """The values of the elements. O(1)."""
        return _values_of(self._opened().values)

    @property
    def total(self) -> int:
        """The sum of the elements, exact however large it is: it never wraps, as `values.sum` may. O(1)."""
        return int.from_bytes(self._bytes[_TOTAL], "little", signed=True)

    @property
    def count(self) -> int:
        """How many elements it is of."""
        return self._opened().count

    @property
    def edit(self) -> Optional[int]:
        """After which edit its vector had these elements; None where it doesn't come from one vector alone."""
        told = self._opened()
        return told.edit if told.at_edit else None

    @property
    def table(self) -> tuple[tuple[int, ...], ...]:
        """The table of its automaton, eight rows of four states."""
        states = tuple(self._opened().table.next)
        return tuple(states[at:at + 4] for at in range(0, 32, 4))

    def __bytes__(self) -> bytes:
        """Its bytes, which are the same on every machine."""
        return self._bytes

    def __eq__(self, other: object) -> bool:
        if not isinstance(other, Summary):
            return NotImplemented
        return self._bytes == other._bytes

    def __hash__(self) -> int:
        return hash(self._bytes)

    def __reduce__(self) -> tuple[Any, ...]:
        return Summary.from_bytes, (self._bytes,)

    def __repr__(self) -> str:
        edit = self.edit
        return f"<livevec.Summary of {self.count}{'' if edit is None else f' at edit {edit}'}>"

    def _opened(self) -> _Opened:
        told = _summary_values(self._bytes)
        if told.refusal:
            raise _refuse(told.refusal)
        return told


def _bytes_of(did: _Summarised) -> bytes:
    if did.refusal:
        raise _refuse(did.refusal, did.detail)
    return bytes(did.summary)


def _extended(summary: bytes, elements: Iterable[int]) -> bytes:
    buffer = _as_buffer(elements)
    # an address is needed also where there is nothing to read
    first = ctypes.byref(_address(buffer if len(buffer) else array("q", [0])))
    return _bytes_of(_summary_extend(summary, first, len(buffer)))
