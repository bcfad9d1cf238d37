"""What is asked by one kind: the value of a range, of many ranges, of a window that rolls over them, and where in a range something is. It is alike of
a vector, a series, samples, and what threads share of these."""
from __future__ import annotations

import ctypes
import struct
import sys
from array import array
from typing import TYPE_CHECKING, Any, Callable, Iterable, Optional, Sequence, Union, overload

from ._buffers import _address, _as_column
from ._compared import _Compared
from ._kinds import _Chosen, _kind_of, _Mapped, _Stated, _Summed, _Value, Kind
from ._numbers import _as_i64, _whole
from ._ranges import _as_rows, _as_table
from ._refusals import ShortBuffer
from ._scans import _CELLS, Column
from ._structures import _Values
from ._values import BestRun, Placed, _cells_in, _signed, _value_of, _values_in

if TYPE_CHECKING:
    from _typeshed import WriteableBuffer

    from ._buffers import _NumpyArray

    # pairs one by one, or a buffer of two columns
    _Ranges = Union[Iterable[Sequence[Optional[int]]], memoryview, _NumpyArray]


class _ByKind(_Compared):
    """The part of `Vector`, `Series`, `Samples` and what threads share of these that answers by one kind.

    What a question costs: of a series, O(log n) by the kind's tree, which the first question by that kind makes in O(n). Of a vector, O(log n), and
    at most as much again for each edit since the last question by that kind: O(n) at first. Shared, it is one call under the lock."""

    __slots__ = ()

    @overload
    def value(self, kind: _Summed, lo: Optional[int] = None, hi: Optional[int] = None) -> int: ...
    @overload
    def value(self, kind: _Chosen, lo: Optional[int] = None, hi: Optional[int] = None) -> Optional[int]: ...
    @overload
    def value(self, kind: _Mapped, lo: Optional[int] = None, hi: Optional[int] = None) -> tuple[int, int]: ...
    @overload
    def value(self, kind: _Stated, lo: Optional[int] = None, hi: Optional[int] = None) -> tuple[int, ...]: ...
    @overload
    def value(self, kind: Union[Kind, str], lo: Optional[int] = None, hi: Optional[int] = None) -> _Value: ...
    def value(self, kind: Union[Kind, str], lo: Optional[int] = None, hi: Optional[int] = None) -> _Value:
        """The value of a range by one kind, a `Kind` or its name, as `Values` has it: a number of the sum; a number, or None of an empty range, of
        the least, the greatest and the best; a pair of affine; eight states of the automaton.

        Only that kind is computed. Of a series it costs O(log n) by the kind's tree, which the first question by a kind makes in O(n). A vector
        keeps what it computes: O(log n), and at most as much again for each edit since the last question by that kind, so O(n) at first.

        Raises BadRange, then OutOfRange (NotKept of a series, then NoMemory); ValueError of what is no kind."""
        of = _kind_of(kind)
        return _value_of(of, self._valued(of, lo, hi))

    def sum(self, lo: Optional[int] = None, hi: Optional[int] = None, *, axis: Optional[int] = None, dtype: None = None, out: None = None) -> int:
        """The sum, wherever it fits 64 bits; else modulo 2**64, as `Values.sum` has it. Costs what `value` does, and raises as it does.

        `numpy.sum(v)` calls it with the last three parameters, so that it costs no copy; it is a Python number, and wraps as numpy's sums of int64 do.
        Raises TypeError of an `axis` but None and 0, and of any `dtype` or `out`."""
        if axis is not None or dtype is not None or out is not None:
            _as_one_row(axis, dtype, out)
        return _signed(self._valued(Kind.SUM, lo, hi).sum)

    def least(self, lo: Optional[int] = None, hi: Optional[int] = None) -> Optional[int]:
        """The least element; None of an empty range. Costs what `value` does, and raises as it does."""
        values = self._valued(Kind.LEAST, lo, hi)
        return values.least if values.any else None

    def greatest(self, lo: Optional[int] = None, hi: Optional[int] = None) -> Optional[int]:
        """The greatest element; None of an empty range. Costs what `value` does, and raises as it does."""
        values = self._valued(Kind.GREATEST, lo, hi)
        return values.greatest if values.any else None

    def best(self, lo: Optional[int] = None, hi: Optional[int] = None) -> Optional[int]:
        """The greatest total of one or more neighbours, which is exact; None of an empty range. Costs what `value` does, and raises as it does."""
        values = self._valued(Kind.BEST, lo, hi)
        return (values.best_high << 64) + values.best_low if values.any else None

    @overload
    def value_many(  # type: ignore[misc]
        self, kind: _Summed, ranges: _Ranges, *, into: None = None) -> list[int]: ...
    @overload
    def value_many(  # type: ignore[misc]
        self, kind: _Chosen, ranges: _Ranges, *, into: None = None) -> list[Optional[int]]: ...
    @overload
    def value_many(  # type: ignore[misc]
        self, kind: _Mapped, ranges: _Ranges, *, into: None = None) -> list[tuple[int, int]]: ...
    @overload
    def value_many(  # type: ignore[misc]
        self, kind: _Stated, ranges: _Ranges, *, into: None = None) -> list[tuple[int, ...]]: ...
    @overload
    def value_many(self, kind: Union[Kind, str], ranges: _Ranges, *, into: None = None) -> list[_Value]: ...
    @overload
    def value_many(self, kind: Union[Kind, str], ranges: _Ranges, *, into: Union[WriteableBuffer, _NumpyArray]) -> int: ...
    def value_many(self, kind: Union[Kind, str], ranges: _Ranges, *, into: Any = None) -> Any:
        """The value of each range by one kind, by one call of C, all after the last edit.

        A range is a pair `lo, hi`, whose ends are taken as `value` takes them, None too. They come in a list or anything else that can be gone
        through, or in a buffer of two columns, as a numpy array of n times 2 whole numbers, or a pandas frame of two such columns. An array of
        int64 isn't gone through number by number. Other threads run meanwhile; of it and an edit of theirs at this object, the second raises
        Busy.

        `into` is a column that takes the values, and their number is what is given then: without it they are a list. The column is as
        `scan_inclusive_into` wants it, and what it has behind stays; of an empty range the least, the greatest and the best are 0 there. No
        Python number is made of a value.

        Each range costs what `value` does, without the way into C and back. Raises BadRange, or OutOfRange (NotKept of a series), where a range is
        refused: its `place` says which is the first. Raises ShortBuffer of a column with less room, and NoMemory; ValueError of what is no kind
        or no pair; TypeError of what is no such column. What is raised leaves the column as it was."""
        return self._many(_kind_of(kind), ranges, into)

    @overload
    def rolling(
        self, kind: Union[Kind, str], window: int, lo: Optional[int] = None, hi: Optional[int] = None, *, into: None = None) -> Column: ...
    @overload
    def rolling(
        self, kind: Union[Kind, str], window: int, lo: Optional[int] = None, hi: Optional[int] = None, *, into: Union[WriteableBuffer, _NumpyArray],
    ) -> int: ...
    def rolling(self, kind: Union[Kind, str], window: int, lo: Optional[int] = None, hi: Optional[int] = None, *, into: Any = None) -> Union[Column, int]:
        """The value by one kind of the last `window` elements up to each element of a range, that one included, as one column.

            >>> from livevec import Series
            >>> Series([3, 1, 4, 1, 5]).rolling("greatest", 3).cells.tolist()
            [3, 3, 4, 4, 5]

        A window reaches back behind `lo`, as far as there are elements: so of what was pushed since the last call the new windows alone are asked
        for. Near the first element a window has fewer. The column is as that of `scan_inclusive_by`, which numpy views without a copy; `into` is
        one of yours, as `value_many` takes it, and how many cells were written is given then.

        A call of C for each 4,096 windows, all after the last edit: where another thread's comes between, all are asked anew by one call. It costs
        what `value_many` does: O(log n) for each element, whatever the window. Where numpy is loaded it makes the ranges. Raises ValueError of a
        window below 1, and what `value_many` raises."""
        if _whole(window, "the window") < 1:
            raise ValueError(f"a window is of 1 element or more, not of {window}")
        return self._rolling(_kind_of(kind), window, lo, hi, into)

    def total(self, lo: Optional[int] = None, hi: Optional[int] = None) -> int:
        """The sum of a range, exact however large it is: it never wraps.

        It is told by the sum modulo 2**64, the least and the greatest, so it costs three times what `value` does, and of a series makes those three
        trees. Only where elements are so far apart that these leave it open (of n elements by more than 2**64 / n), the range is added up in pieces
        for which they don't: that is a sum more for each piece, and linear at most. Of a vector of one kind it is linear. One call of C. Raises
        BadRange, then OutOfRange (NotKept of a series, then NoMemory)."""
        return self._total(lo, hi)

    # Where something is. It is found in steps of the kind's tree, so each of these costs what `value` does. Each raises what `value` does, too, and
    # OverflowError of a number that doesn't fit 64 bits.

    def where_least(self, lo: Optional[int] = None, hi: Optional[int] = None) -> Optional[Placed]:
        """The first of the least elements, and where it is; None of an empty range. O(log n), as `value`."""
        return self._placed("least", lo, hi)

    def where_greatest(self, lo: Optional[int] = None, hi: Optional[int] = None) -> Optional[Placed]:
        """The first of the greatest elements, and where it is; None of an empty range. O(log n), as `value`."""
        return self._placed("greatest", lo, hi)

    def where_best(self, lo: Optional[int] = None, hi: Optional[int] = None) -> Optional[BestRun]:
        """Where the best run is: of several the one that ends first, and of those the shortest; None of an empty range. O(log n), as `value`."""
        found = self._located("best", lo, hi)
        return BestRun(found.lo, found.hi, (found.sum_high << 64) + found.sum_low) if found else None

    def where_reaches(self, sum: int, lo: Optional[int] = None, hi: Optional[int] = None) -> Optional[int]:
        """The least end, from `lo` to `hi`, up to which the elements from `lo` on add up to `sum` or more; None if they do at no end. Elements may be
        negative, and no sum wraps. O(log n), by the kind of best runs."""
        found = self._located("reaches", lo, hi, _as_i64(sum, "the sum"))
        return None if found is None else int(found.hi)

    def where_reaches_back(self, sum: int, lo: Optional[int] = None, hi: Optional[int] = None) -> Optional[int]:
        """The greatest start, from `hi` down to `lo`, from which on the elements up to `hi` do; None if they do from no start. Else as
        `where_reaches`."""
        return self._index_of("reaches_back", lo, hi, _as_i64(sum, "the sum"))

    def where_first_at_least(self, bound: int, lo: Optional[int] = None, hi: Optional[int] = None) -> Optional[int]:
        """The index of the first element of a range that is at least `bound`; None if no element is. O(log n), by the kind of the greatest."""
        return self._index_of("first_at_least", lo, hi, _as_i64(bound, "the bound"))

    def where_first_at_most(self, bound: int, lo: Optional[int] = None, hi: Optional[int] = None) -> Optional[int]:
        """The same of the first element that is at most `bound`, by the kind of the least."""
        return self._index_of("first_at_most", lo, hi, _as_i64(bound, "the bound"))

    def where_last_at_least(self, bound: int, lo: Optional[int] = None, hi: Optional[int] = None) -> Optional[int]:
        """The same of the last element that is at least `bound`, by the kind of the greatest."""
        return self._index_of("last_at_least", lo, hi, _as_i64(bound, "the bound"))

    def where_last_at_most(self, bound: int, lo: Optional[int] = None, hi: Optional[int] = None) -> Optional[int]:
        """The same of the last element that is at most `bound`, by the kind of the least."""
        return self._index_of("last_at_most", lo, hi, _as_i64(bound, "the bound"))

    # Within.

    def _placed(self, what: str, lo: Optional[int], hi: Optional[int]) -> Optional[Placed]:
        found = self._located(what, lo, hi)
        return Placed(found.lo, found.value) if found else None

    def _index_of(self, what: str, lo: Optional[int], hi: Optional[int], number: int) -> Optional[int]:
        found = self._located(what, lo, hi, number)
        return None if found is None else int(found.lo)

    # By calls of its own, the next five.

    def _valued(self, kind: Kind, lo: Optional[int], hi: Optional[int]) -> _Values:
        raise NotImplementedError

    def _many(self, kind: Kind, ranges: Any, into: Any) -> Any:
        raise NotImplementedError

    def _rolling(self, kind: Kind, window: int, lo: Optional[int], hi: Optional[int], into: Any) -> Union[Column, int]:
        raise NotImplementedError

    def _total(self, lo: Optional[int], hi: Optional[int]) -> int:
        raise NotImplementedError

    def _located(self, what: str, lo: Optional[int], hi: Optional[int], number: int = 0) -> Any:
        """What C has found by the search of a name; None if there is nothing."""
        raise NotImplementedError


class _ManyByKind(_ByKind):
    """The same of `Vector`, `Series` and `Samples`, which C is asked about."""

    __slots__ = ()
    # the numbers of an index, as `array` names them
    _index_code: str

    def _many(self, kind: Kind, ranges: Any, into: Any) -> Any:
        room = None if into is None else _as_column(into, *_CELLS[kind])
        _, answers, length = self._answers(kind, ranges, room)
        return _values_in(answers, kind)[:length] if room is None else _put(answers, kind, length, room)

    def _rolling(self, kind: Kind, window: int, lo: Optional[int], hi: Optional[int], into: Any) -> Union[Column, int]:
        start, lo, hi = self._start(), *self._range(lo, hi)
        if lo == hi or self._room(lo, hi) != hi - lo:
            # raises where that is no range of what there is
            self._valued(kind, lo, hi)

        def starts(lo: int, hi: int) -> array[int]:
            cut = min(max(start + window - lo, 0), hi - lo)
            return array(self._index_code, [start]) * cut + _numbers(self._index_code, lo + cut + 1 - window, hi + 1 - window)

        return self._rolled(kind, starts, lo, hi, into)

    # By what its parts have, the next six.

    def _start(self) -> int:
        raise NotImplementedError

    def _room(self, lo: int, hi: int) -> int:
        raise NotImplementedError

    def _range(self, lo: Optional[int], hi: Optional[int]) -> tuple[int, int]:
        raise NotImplementedError

    def _pairs(self, rows: list[Any]) -> array[int]:
        raise NotImplementedError

    def _quick(self, view: memoryview) -> Optional[WriteableBuffer]:
        """Ranges that needn't be gone through, as C wants them, where a buffer has such."""
        raise NotImplementedError

    def _asked_many(
        self, kind: Kind, pairs: WriteableBuffer, answers: bytearray, length: int, named: Optional[Callable[[int], str]],
    ) -> Optional[int]:
        """Asks C, and gives the last edit. `named` says which range stands at a place, for the text of a refusal; without it, None where a range was
        refused, for that is not the last word."""
        raise NotImplementedError

    def _answers(self, kind: Kind, ranges: Any, room: Optional[memoryview]) -> tuple[int, bytearray, int]:
        """The last edit, the `_Values` of ranges side by side, and how many they are."""
        table = _as_table(ranges)
        quick = None if table is None else self._quick(table)
        length = 0 if table is None else len(table)
        if quick is not None:
            answers = _answers_for(kind, length, room)
            edit = self._asked_many(kind, quick, answers, length, None)
            if edit is not None:
                return edit, answers, length
        rows = _as_rows(ranges if table is None else table)
        pairs, length = self._whole_pairs(rows), len(rows)
        answers = _answers_for(kind, length, room)
        edit = self._asked_many(kind, pairs, answers, length, lambda place: f"ranges[{place}] = {tuple(rows[place])}")
        assert edit is not None
        return edit, answers, length

    def _whole_pairs(self, rows: list[Any]) -> array[int]:
        """As `_pairs`; a TypeError says which range has an end that is no whole number."""
        try:
            return self._pairs(rows)
        except TypeError:
            for place, row in enumerate(rows):
                try:
                    self._pairs([row])
                except TypeError as error:
                    raise TypeError(f"ranges[{place}]: {error}") from None
            raise

    def _rolled(self, kind: Kind, starts: Callable[[int, int], array[int]], lo: int, hi: int, into: Any) -> Union[Column, int]:
        """The values of ranges up to each element, it included, as a column; `starts` gives where those of the elements of a range start."""
        of, count = _CELLS[kind]
        room, width, length = None if into is None else _as_column(into, of, count), count * struct.calcsize(of), hi - lo
        if room is not None and room.nbytes < length * width:
            raise ShortBuffer(length)
        cells = memoryview(bytearray(length * width))
        edit = self._in_pieces(kind, starts, lo, length, cells, _PIECE)
        if edit is None:
            edit = self._in_pieces(kind, starts, lo, length, cells, length)
        assert edit is not None
        if room is not None:
            room.cast("B")[: cells.nbytes] = cells
            return length
        # no view of several dimensions has none of its rows
        return Column(edit, cells.cast(of) if count == 1 or not cells else cells.cast(of, [length, count]))

    def _in_pieces(
        self, kind: Kind, starts: Callable[[int, int], array[int]], lo: int, length: int, cells: memoryview, most: int,
    ) -> Optional[int]:
        """Asks for the values of such ranges by a call of C for so many at most, so that what C answers stays in the processor's cache, and puts them
        into cells. Gives the last edit; None where another thread's edit came between two calls."""
        code, size, last = self._index_code, min(most, length), None
        pairs, answers, width = array(code, [0]) * (2 * size), _answers_for(kind, size, None), len(cells) // (length or 1)
        for first in range(lo, lo + (length or 1), most or 1):
            if lo + length < first + size:
                size = lo + length - first
                pairs, answers = pairs[: 2 * size], answers[: size * ctypes.sizeof(_Values)]
            pairs[0::2], pairs[1::2] = starts(first, first + size), _numbers(code, first + 1, first + size + 1)
            named = (lambda place: f"the range {pairs[2 * place]} to {pairs[2 * place + 1]}") if size == length else None
            edit = self._asked_many(kind, pairs, answers, size, named)
            if edit is None or last not in (None, edit):
                return None
            last = edit
            _put(answers, kind, size, cells[(first - lo) * width :])
        return last


def _as_one_row(axis: Any, dtype: Any, out: Any) -> None:
    """That numpy asks for no more than the sum of one row."""
    if axis is not None and axis != 0:
        raise TypeError(f"axis is None or 0, since the elements are one row, not {axis!r}")
    for name, given in (("dtype", dtype), ("out", out)):
        if given is not None:
            raise TypeError(f"a sum takes no {name}, for it is a Python number: numpy.asarray makes an array, whose sum takes one")


# how many windows a call of C is asked for; its answers take 256 KiB
_PIECE = 4096


def _numbers(code: str, lo: int, hi: int) -> array[int]:
    """The numbers from `lo` up to `hi`. By numpy, where the program has loaded it, they take a tenth of the time."""
    arange: Any = getattr(sys.modules.get("numpy"), "arange", None)
    return array(code, range(lo, hi)) if arange is None or hi <= lo else array(code, arange(lo, hi, dtype=code).tobytes())


def _answers_for(kind: Kind, length: int, room: Optional[memoryview]) -> bytearray:
    """Room for so many answers, which are then to go into a column, if there is one. Raises ShortBuffer where that has less."""
    of, count = _CELLS[kind]
    if room is not None and room.nbytes < length * count * struct.calcsize(of):
        raise ShortBuffer(length)
    return bytearray(max(length, 1) * ctypes.sizeof(_Values))


def _put(answers: bytearray, kind: Kind, length: int, room: memoryview) -> int:
    """Puts the values of a kind into the front of a column."""
    if length:
        words = room.cast("B").cast("q")
        columns = _cells_in(answers, kind)
        for at, column in enumerate(columns):
            words[at : length * len(columns) : len(columns)] = column[:length]
    return length


def _addressed(pairs: WriteableBuffer, length: int) -> Any:
    return ctypes.byref(_address(pairs)) if length else None
