"""What a vector is asked: reductions of a range, and its summary. What is asked by one kind is in `_by_kind.py`."""
from __future__ import annotations

import ctypes
from array import array
from typing import TYPE_CHECKING, Any, Callable, Optional

from ._buffers import _address
from ._by_kind import _addressed, _ManyByKind
from ._calls import _ask, _exact_sum, _find, _reduce, _summary_of, _value, _value_many
from ._elements import _Elements
from ._kinds import _SEARCHES, Kind
from ._ranges import _as_pairs, _low_words
from ._refusals import _PLACED, _accepted, _refuse
from ._structures import _Found, _Reduced, _Values
from ._summary import Summary
from ._values import Reduced, _values_of

if TYPE_CHECKING:
    from _typeshed import WriteableBuffer


class _Questions(_Elements, _ManyByKind):
    """The part of `Vector` that answers questions."""

    __slots__ = ()
    _index_code = "I"

    def ask(self, lo: Optional[int] = None, hi: Optional[int] = None) -> Reduced:
        """All six values of a range. What is computed is kept: O(log n), and at most as much again for each edit since the last question, so O(n) at
        first. Where one value is wanted, `value` does a sixth of that.

        Raises BadRange, then OutOfRange; BadKind of a vector of one kind."""
        return self._reduced(_ask, lo, hi)

    def reduce(self, lo: Optional[int] = None, hi: Optional[int] = None) -> Reduced:
        """All six values of a range, as `ask` gives them, but nothing is kept: linear in the range each time, but for what `ask`, `value`, `refresh`
        or a delivered outcome kept before. It is for a reader that is to leave everything as it is; else `ask` is the call."""
        return self._reduced(_reduce, lo, hi)

    def summary(self, lo: Optional[int] = None, hi: Optional[int] = None) -> Summary:
        """What the elements of a range come to after the last edit, as bytes that travel. Costs what `reduce` does. Raises BadRange, then OutOfRange."""
        return Summary._of(_summary_of(self._at, *self._range(lo, hi)))

    # Within.

    def _start(self) -> int:
        return 0

    def _valued(self, kind: Kind, lo: Optional[int], hi: Optional[int], by: Callable[..., _Reduced] = _value) -> _Values:
        start, end = self._range(lo, hi)
        return _accepted(by(self._at, kind.value, start, end), start, end).values

    def _total(self, lo: Optional[int], hi: Optional[int]) -> int:
        start, end = self._range(lo, hi)
        return _accepted(_exact_sum(self._at, start, end), start, end).sum.exact()

    def _pairs(self, rows: list[Any]) -> array[int]:
        return _as_pairs(rows, self)

    def _quick(self, view: memoryview) -> Optional[array[int]]:
        return _low_words(view)

    def _asked_many(
        self, kind: Kind, pairs: WriteableBuffer, answers: bytearray, length: int, named: Optional[Callable[[int], str]],
    ) -> Optional[int]:
        did = _value_many(self._at, kind.value, _addressed(pairs, length), ctypes.byref(_address(answers)), length)
        if not did.refusal:
            return did.edit
        if did.refusal not in _PLACED:
            raise _refuse(did.refusal, did.detail, 0, did.place)
        if named is None:
            return None
        raise _refuse(did.refusal, did.detail, 0, did.place, named(did.place))

    def _located(self, what: str, lo: Optional[int], hi: Optional[int], number: int = 0) -> Optional[_Found]:
        start, end = self._range(lo, hi)
        did = _accepted(_find(self._at, _SEARCHES[what], start, end, number), start, end)
        return did if did.found else None

    def _reduced(self, call: Callable[..., _Reduced], lo: Optional[int], hi: Optional[int]) -> Reduced:
        start, end = self._range(lo, hi)
        did = _accepted(call(self._at, start, end), start, end)
        return Reduced(did.edit, did.cells, did.summaries, _values_of(did.values))
