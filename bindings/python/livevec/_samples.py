"""Samples: values with times, and windows of time. The package's `Samples`, `Sample` and `Window` stand here."""
from __future__ import annotations

import bisect
import ctypes
import itertools
import operator
from array import array
from typing import TYPE_CHECKING, Any, Iterable, NamedTuple, Optional, Union, overload

from ._buffers import _address, _as_buffer
from ._by_index import _ByIndex
from ._kinds import _Chosen, _kind_of, _Mapped, _Stated, _Summed, _Value, Kind
from ._library import _call, _i64, _pointer, _size, _u32
from ._limits import _LEAST_I64
from ._numbers import _as_i64, _as_u64
from ._records import _Kept, _laid_out
from ._refusals import BadRange, Earlier, _refuse
from ._scans import Column
from ._series_calls import _kept, _SeriesEdited, _SeriesReduced, _SeriesScanned, _SeriesSlot, _u64
from ._series_kinds import _SeriesMany
from ._values import _value_of

if TYPE_CHECKING:
    from _typeshed import WriteableBuffer

    from ._buffers import _NumpyArray
    from ._records import i64, u32, u64


class _SamplesSlot(_SeriesSlot):
    # C's struct has the slot of the values and nothing else, so that the calls at a series take it
    pass


@_laid_out
class _Sample(_Kept):
    time: i64
    value: i64


@_laid_out
class _Window(ctypes.Structure):
    refusal: u32
    edit: u64
    lo: u64
    hi: u64


_slot = ctypes.POINTER(_SamplesSlot)
_new = _call("livevec_samples_new", _u32, _slot)
_push = _call("livevec_samples_push", _SeriesEdited, _slot, _i64, _i64)
_push_many = _call("livevec_samples_push_many", _SeriesMany, _slot, _pointer, _pointer, _size)
_expire_before = _call("livevec_samples_expire_before", _SeriesEdited, _slot, _i64)
_get = _call("livevec_samples_get", _Sample, _slot, _u64)
_times = _call("livevec_samples_times", _SeriesScanned, _slot, _u64, _u64, _pointer, _size)
_between = _call("livevec_samples_between", _Window, _slot, _i64, _i64)
_last = _call("livevec_samples_last", _Window, _slot, _u64)
_value = _call("livevec_samples_value", _SeriesReduced, _slot, _u32, _i64, _i64)
_value_of_last = _call("livevec_samples_value_of_last", _SeriesReduced, _slot, _u32, _u64)
_begin = _call("livevec_samples_begin_load", _u32, _slot)
_end = _call("livevec_samples_end_load", _u32, _slot)


class Sample(NamedTuple):
    """A value, and when it was taken."""

    time: int
    value: int


class Window(NamedTuple):
    """Which samples are in a window of time: those under the indices from `lo` up to `hi`, as `samples.sum(*window)` takes them."""

    lo: int
    hi: int


class Samples(_ByIndex):
    """Values with times that do not fall, in a unit of the caller's, for windows of time.

    Each sample has an index, as an element of a `Series` has, and one count of edits is of both. What is asked by index is asked of the values, as of a
    series: `s[i]`, `s.sum(lo, hi)`, `s.where_least(lo, hi)`, `for x in s` and so on. So are edits: `pop`, `write` (or `s[i] = x`), `truncate` and
    `expire`. A window of time is a range of indices, which `between` and `last` tell; `value_between` and `value_of_last` give its value at once.

    `s == t` is true of samples whose times and values are the same, whatever their indices and edits, and of nothing else. A copy, also one by `copy` or by `pickle`, has the same
    samples under the same indices, and goes on at the same edit.

    `times` and `values` are pushed at the start, as by `push_many`. `save` gives them as bytes, and `Samples.load` makes some of them. Raises
    NoMemory. The end, and threads, are as with a `Series`.
    """

    __slots__ = ()
    _made_of, _name = _SamplesSlot, "Samples"
    _begin_load, _end_load = _begin, _end
    _has_times = True

    def __init__(self, times: Iterable[int] = (), values: Iterable[int] = ()) -> None:
        self._changes = 0
        refusal = _new(self._at)
        if refusal:
            raise _refuse(refusal)
        self.push_many(times, values)

    def push(self, time: int, value: int) -> int:
        """Puts a sample at the end, and gives its index. O(1) amortised, and as much again for each tree. Raises Worn, Full, Earlier, NoMemory;
        OverflowError where a number does not fit 64 bits."""
        did = _push(self._at, _as_i64(time, "the time"), _as_i64(value, "the value"))
        if did.refusal == Earlier.number:
            raise Earlier(did.value, given=f"time {time}")
        return self._edited(did).place

    def push_many(self, times: Iterable[int], values: Iterable[int]) -> None:
        """Pushes each value with the time at the same place, in order, by one call of C, up to the first that is refused. Both are taken as
        `Vector.extend` takes elements, numpy's arrays and columns of pandas too. Linear in how many they are.

        Raises as the first push that is refused: its `pushed` is how many were pushed before it, and its `place` which it is. Raises ValueError
        unless there are as many values as times.
        """
        rows = _as_buffer(times, "times"), _as_buffer(values, "values")
        length = len(rows[0])
        if length != len(rows[1]):
            raise ValueError(f"there are {length} times and {len(rows[1])} values")
        did = _push_many(self._at, *(ctypes.byref(_address(row)) if length else None for row in rows), length)
        self._changes += did.done
        if did.refusal == Earlier.number:
            raise Earlier(self.sample(self.size - 1).time, did.done, did.place, f"times[{did.place}] = {rows[0][did.place]}")
        if did.refusal:
            raise _refuse(did.refusal, 0, did.done, did.place)

    def expire_before(self, time: int) -> int:
        """Drops the samples that were taken before a time, and gives how many they were. O(log n). It takes no memory, and gives memory
        back. Raises Worn."""
        return self._edited(_expire_before(self._at, _as_i64(time, "the time"))).place

    def sample(self, index: int) -> Sample:
        """The sample under an index. O(1). Raises NotKept."""
        told = _kept(_get(self._at, self._index(index)), index)
        return Sample(told.time, told.value)

    def times(self, lo: Optional[int] = None, hi: Optional[int] = None) -> array[int]:
        """The times of a range of indices as an `array.array('q')`: a copy, linear in the range. Raises BadRange, NotKept."""
        lo, hi = self._range(lo, hi)
        read = array("q", bytes(8 * self._room(lo, hi)))
        self.times_into(read, lo, hi)
        return read

    def times_into(self, buffer: Union[WriteableBuffer, _NumpyArray], lo: Optional[int] = None, hi: Optional[int] = None) -> int:
        """Fills a buffer with the times of a range of indices, as `read_into` does with the values. Raises BadRange, NotKept."""
        return self._read_by(_times, buffer, lo, hi)

    # Windows of time.

    def between(self, since: int, until: int) -> Window:
        """The samples from time `since` up to `until`: one at `since` is among them, one at `until` isn't. O(log n). Raises BadRange;
        OverflowError of a time that does not fit 64 bits."""
        return self._window(_between(self._at, _as_i64(since, "since"), _as_i64(until, "until")), f"the times {since} to {until}")

    def last(self, span: int) -> Window:
        """The samples of the last `span` of time: those whose times are above that of the last sample less `span`. Of a span of 0 there is none,
        and of 1 those with the last one's time. O(log n). Raises OverflowError of a span outside 0 to 2**64 - 1."""
        return self._window(_last(self._at, _as_u64(span, "the span")), f"the span {span}")

    @overload
    def value_between(self, kind: _Summed, since: int, until: int) -> int: ...
    @overload
    def value_between(self, kind: _Chosen, since: int, until: int) -> Optional[int]: ...
    @overload
    def value_between(self, kind: _Mapped, since: int, until: int) -> tuple[int, int]: ...
    @overload
    def value_between(self, kind: _Stated, since: int, until: int) -> tuple[int, ...]: ...
    @overload
    def value_between(self, kind: Union[Kind, str], since: int, until: int) -> _Value: ...
    def value_between(self, kind: Union[Kind, str], since: int, until: int) -> _Value:
        """The value by one kind, a `Kind` or its name, of the samples of `between`. O(log n): the kind's tree is made first, in O(n), where there is
        none. Raises BadRange, NoMemory; ValueError of what is no kind."""
        of = _kind_of(kind)
        return _value_of(of, _kept(_value(self._at, of.value, _as_i64(since, "since"), _as_i64(until, "until")), since, until).values)

    @overload
    def value_of_last(self, kind: _Summed, span: int) -> int: ...
    @overload
    def value_of_last(self, kind: _Chosen, span: int) -> Optional[int]: ...
    @overload
    def value_of_last(self, kind: _Mapped, span: int) -> tuple[int, int]: ...
    @overload
    def value_of_last(self, kind: _Stated, span: int) -> tuple[int, ...]: ...
    @overload
    def value_of_last(self, kind: Union[Kind, str], span: int) -> _Value: ...
    def value_of_last(self, kind: Union[Kind, str], span: int) -> _Value:
        """The same of the samples of `last`. It costs the same. Raises NoMemory; ValueError of what is no kind."""
        of = _kind_of(kind)
        return _value_of(of, _kept(_value_of_last(self._at, of.value, _as_u64(span, "the span"))).values)

    @overload
    def rolling_span(
        self, kind: Union[Kind, str], span: int, lo: Optional[int] = None, hi: Optional[int] = None, *, into: None = None) -> Column: ...
    @overload
    def rolling_span(
        self, kind: Union[Kind, str], span: int, lo: Optional[int] = None, hi: Optional[int] = None, *, into: Union[WriteableBuffer, _NumpyArray],
    ) -> int: ...
    def rolling_span(self, kind: Union[Kind, str], span: int, lo: Optional[int] = None, hi: Optional[int] = None, *, into: Any = None) -> Union[Column, int]:
        """The value by one kind of the last `span` of time up to each sample of a range of indices, that one included, as one column: what
        `value_of_last` gave when the sample was the last one.

            >>> from livevec import Samples
            >>> Samples([0, 12, 61, 75], [20, 22, 30, 26]).rolling_span("sum", 60).cells.tolist()
            [20, 42, 52, 56]

        A window reaches back behind `lo`, as far as there are samples. The column, `into` and what is raised are as `rolling` has them. O(log n) for each
        sample: its window's start is searched among a copy of the times since the first window's, then values are asked by calls of C, as `rolling` does."""
        of, span = _kind_of(kind), _as_u64(span, "the span")
        if not span:
            raise ValueError("a window is of 1 unit of time or more, not of 0")
        lo, hi = self._range(lo, hi)
        if lo == hi or self._room(lo, hi) != hi - lo:
            self._valued(of, lo, hi)
            return self._rolled(of, lambda lo, hi: array("Q"), lo, lo, into)
        # the first window's start is that of all
        newest = self.sample(lo).time
        begin = self.between(max(newest - span + 1, _LEAST_I64), newest).lo
        times = self.times(begin, hi)
        # one search for each sample, which goes through no line of Python
        befores = map(operator.sub, times[lo - begin :], itertools.repeat(span))
        starts = array("Q", map(begin.__add__, map(bisect.bisect_right, itertools.repeat(times), befores)))
        origin = lo
        return self._rolled(of, lambda first, last: starts[first - origin : last - origin], lo, hi, into)

    # Within.

    def _columns(self) -> tuple[array[int], ...]:
        return self.to_array(), self.times()

    def _window(self, told: _Window, given: str) -> Window:
        if told.refusal:
            raise _refuse(told.refusal, given=given if told.refusal == BadRange.number else "")
        return Window(told.lo, told.hi)
