"""A series and samples that threads share."""
from __future__ import annotations

from array import array
from typing import TYPE_CHECKING, Any, Iterable, Mapping, Optional, TypeVar, Union, overload

from ._buffers import _as_buffer
from ._by_index import LongReduced
from ._kinds import _Chosen, _Summed, _Value, Kind
from ._library import _call, _pointer, _released, _size, _u32
from ._numbers import _as_i64, _whole
from ._queries import Queries
from ._samples import Sample, Samples, Window
from ._scans import Column
from ._series import Series
from ._series_calls import _SeriesPushed, _SeriesReduced, _slot, _u64
from ._shared import _Shared, _SharedPushes, Receipt
from ._structures import _Values
from ._subscribers import Subscriber, _place

if TYPE_CHECKING:
    from _typeshed import WriteableBuffer

    from ._buffers import _NumpyArray

# All these release the interpreter's lock: who has the lock of what is shared may want that one, and the last three take long.
_new = _call("livevec_shared_new_series", _u32, _place, _slot, by=_released)
_reduce = _call("livevec_series_reduce", _SeriesReduced, _slot, _u64, _u64, by=_released)
_value = _call("livevec_series_value", _SeriesReduced, _slot, _u32, _u64, _u64, by=_released)
_push_many = _call("livevec_series_push_many", _SeriesPushed, _slot, _pointer, _size, by=_released)

# a kind of all that is kept, or of what is kept of a range
_Asked = Union[Kind, str, tuple[Union[Kind, str], int, Optional[int]]]


_Indexed = TypeVar("_Indexed", bound=Union[Series, Samples])


class _SharedByIndex(_Shared[_Indexed]):
    """What a series and samples that are shared have in common."""

    __slots__ = ()
    _put_round = _new

    def clear(self) -> Receipt:
        """Drops all that is kept, by one edit; the receipt has how many elements were dropped."""
        return self._edited(lambda of: of.clear())

    def expire(self, index: int) -> Receipt:
        """As `Series.expire`; the receipt has how many elements were dropped."""
        place = _whole(index, "the index")
        return self._edited(lambda of: of.expire(place))

    @property
    def first(self) -> int:
        """The index of the first element that is kept."""
        return self._read(lambda of: of.first)

    @property
    def size(self) -> int:
        """The index behind the last element."""
        return self._read(lambda of: of.size)

    def prepare(self, kind: Union[Kind, str]) -> None:
        """As `Series.prepare`: makes the tree of a kind, where there is none. O(n) then."""
        self._read(lambda of: of.prepare(kind))

    def ask(self, lo: Optional[int] = None, hi: Optional[int] = None) -> LongReduced:
        """As `Series.ask`, which tells after which edit the values are so."""
        return self._numbered(lambda of: of.ask(lo, hi))

    def reduce(self, lo: Optional[int] = None, hi: Optional[int] = None) -> LongReduced:
        """As `Series.reduce`, which tells after which edit the values are so."""
        return self._numbered(lambda of: of._reduced(_reduce, lo, hi))

    def subscribe(self, asked: Union[Queries, Mapping[str, _Asked]]) -> Subscriber:
        """As `SharedVector.subscribe`, or by names: what a kind says of all elements that are kept, or of those that are from `lo` up to `hi`, or without
        an end: `{"total": "sum", "low": ("least", 5, 9), "late": ("best", 70, None)}`.

        Raises what `Queries.watch` does, and Closed."""
        if isinstance(asked, Queries):
            return super().subscribe(asked)
        queries = Queries()
        for name, what in asked.items():
            kind, lo, hi = what if isinstance(what, tuple) else (what, 0, None)
            queries.watch(name, kind, lo, hi)
        return super().subscribe(queries)

    def _valued(self, kind: Kind, lo: Optional[int], hi: Optional[int]) -> _Values:
        return self._read(lambda of: of._valued(kind, lo, hi, _value))


class SharedSeries(_SharedByIndex[Series], _SharedPushes[Series]):
    """A `Series` that threads share, by a lock.

        >>> from livevec import Series, SharedSeries
        >>> with SharedSeries(Series([30, 12])) as shared:
        ...     alerts = shared.subscribe({"total": "sum"})
        ...     next(alerts)[0].value
        ...     shared.push(-2)
        ...     next(alerts)[0].value
        42
        Receipt(edit=3, told=2)
        40

    Calls, the lock, subscribers and the end are as with a `SharedVector`. It has no workers, since each edit renews the trees, and is never worn.
    """

    __slots__ = ()
    _pushes_many = _push_many

    def __init__(self, series: Optional[Series] = None) -> None:
        super().__init__(Series() if series is None else _of(series, Series))


class SharedSamples(_SharedByIndex[Samples]):
    """`Samples` that threads share, by a lock.

        >>> from livevec import Samples, SharedSamples
        >>> with SharedSamples(Samples([0, 12], [20, 22])) as load:
        ...     load.push(61, 30)
        ...     load.value_of_last("sum", 60)
        Receipt(edit=3, told=2)
        52

    Calls, the lock, subscribers and the end are as with a `SharedVector`, without workers.
    """

    __slots__ = ()
    _has_times = True

    def __init__(self, samples: Optional[Samples] = None) -> None:
        super().__init__(Samples() if samples is None else _of(samples, Samples))

    def push(self, time: int, value: int) -> Receipt:
        """As `Samples.push`; the receipt has the index."""
        when, element = _as_i64(time, "the time"), _as_i64(value, "the value")
        return self._edited(lambda samples: samples.push(when, element))

    def push_many(self, times: Iterable[int], values: Iterable[int]) -> int:
        """As `Samples.push_many`, with no other edit between; gives the number of the last edit."""
        rows, elements = _as_buffer(times, "times"), _as_buffer(values, "values")
        return self._entered(lambda samples: samples.push_many(rows, elements))[1]

    def expire_before(self, time: int) -> Receipt:
        """As `Samples.expire_before`; the receipt has how many samples were dropped."""
        when = _as_i64(time, "the time")
        return self._edited(lambda samples: samples.expire_before(when))

    def sample(self, index: int) -> Sample:
        """As `Samples.sample`."""
        place = _whole(index, "the index")
        return self._read(lambda samples: samples.sample(place))

    def times(self, lo: Optional[int] = None, hi: Optional[int] = None) -> array[int]:
        """As `Samples.times`: a copy."""
        return self._read(lambda samples: samples.times(lo, hi))

    def _columns(self) -> tuple[array[int], ...]:
        return self._read(lambda samples: samples._columns())

    def times_into(self, buffer: Union[WriteableBuffer, _NumpyArray], lo: Optional[int] = None, hi: Optional[int] = None) -> int:
        """As `Samples.times_into`, all after one edit."""
        return self._read(lambda samples: samples.times_into(buffer, lo, hi))

    def between(self, since: int, until: int) -> Window:
        """As `Samples.between`. Before the next call another thread may edit: within `locked` it doesn't."""
        return self._read(lambda samples: samples.between(since, until))

    def last(self, span: int) -> Window:
        """As `Samples.last`. Before the next call another thread may edit: within `locked` it doesn't."""
        return self._read(lambda samples: samples.last(span))

    @overload
    def value_between(self, kind: _Summed, since: int, until: int) -> int: ...
    @overload
    def value_between(self, kind: _Chosen, since: int, until: int) -> Optional[int]: ...
    @overload
    def value_between(self, kind: Union[Kind, str], since: int, until: int) -> _Value: ...
    def value_between(self, kind: Union[Kind, str], since: int, until: int) -> _Value:
        """As `Samples.value_between`."""
        return self._read(lambda samples: samples.value_between(kind, since, until))

    @overload
    def value_of_last(self, kind: _Summed, span: int) -> int: ...
    @overload
    def value_of_last(self, kind: _Chosen, span: int) -> Optional[int]: ...
    @overload
    def value_of_last(self, kind: Union[Kind, str], span: int) -> _Value: ...
    def value_of_last(self, kind: Union[Kind, str], span: int) -> _Value:
        """As `Samples.value_of_last`."""
        return self._read(lambda samples: samples.value_of_last(kind, span))

    def rolling_span(self, kind: Union[Kind, str], span: int, lo: Optional[int] = None, hi: Optional[int] = None) -> Column:
        """As `Samples.rolling_span`, in a column of its own."""
        return self._numbered(lambda samples: samples.rolling_span(kind, span, lo, hi))


def _of(given: Any, wanted: type) -> Any:
    if not isinstance(given, wanted):
        raise TypeError(f"a {wanted.__name__} is wanted, not a {type(given).__name__}")
    return given
