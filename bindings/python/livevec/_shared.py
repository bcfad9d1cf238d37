"""What threads share, by a lock: a vector, a series or samples, with subscribers who are told of changes, and for a vector with workers."""
from __future__ import annotations

import contextlib
import ctypes
import operator
import threading
import weakref
from array import array
from typing import TYPE_CHECKING, Any, Callable, Generic, Iterable, Iterator, NamedTuple, Optional, TypeVar, Union, cast, overload

from ._buffers import _as_buffer, _as_numpy
from ._by_index import LongReduced
from ._by_kind import _ByKind
from ._calls import _slot
from ._kinds import Kind
from ._library import _call, _pointer, _released, _size, _u32
from ._numbers import _as_i64, _whole
from ._queries import Queries, _QueriesSlot
from ._ranges import _as_rows, _as_table
from ._records import _laid_out
from ._refusals import Busy, Closed, NoMemory, _refuse
from ._samples import Samples
from ._scans import Column, Scan
from ._series import Series
from ._structures import _Pushed, _Reduced, _Values
from ._summary import Summary
from ._subscribers import Subscriber, _place, _Place
from ._values import Reduced
from ._vector import Vector, _remade

if TYPE_CHECKING:
    from _typeshed import WriteableBuffer

    from ._buffers import _NumpyArray
    from ._records import flag, u32, u64


@_laid_out
class _Left(ctypes.Structure):
    refusal: u32
    is_edited: flag
    edit: u64


# All these release the interpreter's lock: who has the lock of what is shared may want that one.
_new = _call("livevec_shared_new", _u32, _place, _slot, by=_released)
_enter = _call("livevec_shared_enter", _u32, _place, by=_released)
_leave = _call("livevec_shared_leave", _Left, _place, by=_released)
_renew = _call("livevec_shared_renew", _u32, _place, _slot, by=_released)
_close = _call("livevec_shared_close", _u32, _place, by=_released)
_free = _call("livevec_free_shared", _u32, _place, by=_released)
_subscribe = _call("livevec_shared_subscribe", _u32, _place, _place, ctypes.POINTER(_QueriesSlot), by=_released)
_hire = _call("livevec_shared_hire", _u32, _place, _place, by=_released)
_work = _call("livevec_worker_work", _u32, _place, by=_released)
_dismiss = _call("livevec_worker_dismiss", _u32, _place, by=_released)
_free_worker = _call("livevec_free_worker", _u32, _place, by=_released)
# and these take long
_reduce = _call("livevec_reduce", _Reduced, _slot, _u32, _u32, by=_released)
_value = _call("livevec_value", _Reduced, _slot, _u32, _u32, _u32, by=_released)
_push_many = _call("livevec_push_many", _Pushed, _slot, _pointer, _size, by=_released)

_Of = TypeVar("_Of", bound=Union[Vector, Series, Samples])
_Pushable = TypeVar("_Pushable", bound=Union[Vector, Series])
_Some = TypeVar("_Some", bound="_Shared[Any]")
_Result = TypeVar("_Result")
_Numbered = TypeVar("_Numbered", Scan, Column, Reduced, LongReduced)


class Receipt(NamedTuple):
    """What an edit of what is shared answers: its number, and what the edit of that name of a `Vector`, a `Series` or `Samples` gives."""

    edit: int
    told: int


class _Worker:
    """What a thread computes by, until it is dismissed. It is freed once nobody has it, nor its thread."""

    def __init__(self, at: Any) -> None:
        self._slot = _Place()
        self._at = ctypes.byref(self._slot)
        _check(_hire(at, self._at))
        self.thread = threading.Thread(target=self._compute, name="livevec worker", daemon=True)

    def _compute(self) -> None:
        _work(self._at)

    def __del__(self, _free: Callable[..., int] = _free_worker) -> None:
        _free(self._at)


def _check(refusal: int) -> None:
    if refusal:
        raise _refuse(refusal)


class _Shared(_ByKind, Generic[_Of]):
    """The part that all have who are shared. Edits and questions are those of what is shared, each under the lock for one call: they cost what those
    do, with the wait for the lock. An edit gives a `Receipt`, whose number goes on rising where another vector took the place of one.

    Each call of a thread that is within a `locked` of its own raises Busy, where it would wait for itself. Where a thread leaves `locked` by an
    exception, what it did there stays, each a whole edit; the lock is let go, subscribers are told, and the exception goes on in that thread
    alone. Nothing else of a caller's runs under the lock. Calls into C that take long release the interpreter's lock.

    What is handed in belongs to it from then on, until `close` gives it back; then each call raises Closed. The end of a `with` closes it. Where it
    is let go without that, or the program ends, workers and subscribers end too."""

    __slots__ = ("_of", "_slot", "_at", "_is_closed", "_workers", "_turn", "_holder", "__weakref__")
    # how C puts a lock round it, and what it is asked by
    _put_round: Callable[..., int]

    def __init__(self, of: _Of) -> None:
        self._of, self._slot, self._is_closed = of, _Place(), False
        self._at = ctypes.byref(self._slot)
        self._workers: list[_Worker] = []
        # Threads of Python wait here and not within C, where no signal would end the wait.
        self._turn, self._holder = threading.Lock(), 0
        _check(type(self)._put_round(self._at, of._at))
        weakref.finalize(self, _free, self._at)

    # Edits.

    def pop(self) -> Receipt:
        """Drops the last element; the receipt has it."""
        return self._edited(lambda of: of.pop())

    def write(self, index: int, value: int) -> Receipt:
        """Overwrites an element; the receipt has the one before."""
        place, element = _whole(index, "the index"), _as_i64(value)
        return self._edited(lambda of: of.write(place, element))

    def __setitem__(self, index: int, value: int) -> None:
        self.write(index, value)

    def truncate(self, elements: int) -> Receipt:
        """As that of what is shared: drops the elements from an index on; the receipt has how many they were."""
        size = operator.index(elements)
        return self._edited(lambda of: of.truncate(size))

    # Questions.

    def __len__(self) -> int:
        return self._read(len)

    @property
    def edits(self) -> int:
        """The number of the last edit."""
        return self._entered(len)[1]

    @overload
    def __getitem__(self, index: int) -> int: ...
    @overload
    def __getitem__(self, index: slice) -> list[int]: ...
    def __getitem__(self, index: Union[int, slice]) -> Union[int, list[int]]:
        """The element at an index, or those of a slice, in a list; of a vector a negative one counts from the end. Raises OutOfRange, NotKept."""
        if isinstance(index, slice):
            part = index
            return self._read(lambda of: of[part])
        place = _whole(index, "the index")
        return self._read(lambda of: of[place])

    def __iter__(self) -> Iterator[int]:
        """The elements in order, all after one edit: they are copied once, under the lock."""
        return iter(self.to_array())

    def __reversed__(self) -> Iterator[int]:
        """The elements from the last one on, all after one edit: they are copied once, under the lock."""
        return reversed(self.to_array())

    def __array__(self, dtype: Any = None, copy: Optional[bool] = None) -> Any:
        """The elements as an array of numpy's, all after one edit: a copy."""
        return _as_numpy(self, self.to_array, dtype, copy)

    def to_array(self, lo: Optional[int] = None, hi: Optional[int] = None) -> array[int]:
        """The elements of a range as an `array.array('q')`, all after one edit: a copy, linear in the range."""
        return self._read(lambda of: of.to_array(lo, hi))

    def read_into(self, buffer: Union[WriteableBuffer, _NumpyArray], lo: Optional[int] = None, hi: Optional[int] = None) -> int:
        """Fills the front of a buffer with the elements of a range, all after one edit, as that of what is shared. Linear in the range."""
        return self._read(lambda of: of.read_into(buffer, lo, hi))

    def save(self) -> bytes:
        """All of it as bytes, after one edit, as its own `save` gives them. Linear."""
        return self._read(lambda of: of.save())

    def copy(self) -> _Of:
        """A copy of what is shared, which no other thread has: as its own `copy` makes one. Linear."""
        return cast(_Of, self._read(lambda of: of.copy()))

    def scan_inclusive(self, lo: Optional[int] = None, hi: Optional[int] = None) -> Scan:
        """The values of each beginning of a range, the element itself included, all after one edit. Linear."""
        return self._numbered(lambda of: of.scan_inclusive(lo, hi))

    def scan_exclusive(self, lo: Optional[int] = None, hi: Optional[int] = None) -> Scan:
        """The same, the element itself excluded."""
        return self._numbered(lambda of: of.scan_exclusive(lo, hi))

    def scan_inclusive_by(self, kind: Union[Kind, str], lo: Optional[int] = None, hi: Optional[int] = None) -> Column:
        """The running values of a range by one kind, the element itself included, as a column. Linear."""
        return self._numbered(lambda of: of.scan_inclusive_by(kind, lo, hi))

    def scan_exclusive_by(self, kind: Union[Kind, str], lo: Optional[int] = None, hi: Optional[int] = None) -> Column:
        """The same, the element itself excluded."""
        return self._numbered(lambda of: of.scan_exclusive_by(kind, lo, hi))

    def scan_inclusive_into(
        self, kind: Union[Kind, str], buffer: Union[WriteableBuffer, _NumpyArray], lo: Optional[int] = None, hi: Optional[int] = None, **at: Optional[int],
    ) -> int:
        """Writes such a column into the front of a buffer, as that of what is shared, and gives how many cells it has; of a series and samples `at` is
        where it goes on."""
        return self._read(lambda of: int(cast(Any, of).scan_inclusive_into(kind, buffer, lo, hi, **at)))

    def scan_exclusive_into(
        self, kind: Union[Kind, str], buffer: Union[WriteableBuffer, _NumpyArray], lo: Optional[int] = None, hi: Optional[int] = None, **at: Optional[int],
    ) -> int:
        """The same, the element itself excluded."""
        return self._read(lambda of: int(cast(Any, of).scan_exclusive_into(kind, buffer, lo, hi, **at)))

    # More than one call, and the end.

    @contextlib.contextmanager
    def locked(self) -> Iterator[_Of]:
        """What is shared itself for the time of a `with`, for several calls with no other thread's between them. It is not to be used later."""
        with self._in_turn():
            try:
                self._holder = threading.get_ident()
                _check(_enter(self._at))
                yield self._of
            finally:
                self._left()

    def close(self) -> _Of:
        """Ends edits, workers and subscribers, and waits for the workers; gives what is shared back. To close again gives it again.

        Each subscriber has its last notes then, at the last edit."""
        with self._in_turn():
            self._holder = 0
            refusal = _close(self._at)
        if refusal != Closed.number:
            _check(refusal)
        self._is_closed = True
        for worker in self._workers:
            worker.thread.join()
        return self._of

    def __enter__(self: _Some) -> _Some:
        return self

    def __exit__(self, *_: object) -> None:
        self.close()

    def __reduce__(self) -> Union[str, tuple[Any, ...]]:
        raise TypeError(f"a {type(self).__name__} can't be copied or pickled, for threads share it in this process")

    def __repr__(self) -> str:
        return f"<livevec.{type(self).__name__}{', closed' if self._is_closed else ''}>"

    # Within.

    def _entered(self, call: Callable[[_Of], _Result]) -> tuple[_Result, int]:
        """What a call under the lock gives, and the number of the last edit."""
        with self._in_turn():
            try:
                self._holder = threading.get_ident()
                _check(_enter(self._at))
                told = call(self._of)
            finally:
                edit = self._left()
        return told, edit

    def _in_turn(self) -> threading.Lock:
        """What this thread waits for before it enters; where it has entered already it would wait for itself."""
        if self._holder == threading.get_ident():
            raise _refuse(Busy.number)
        return self._turn

    def _left(self) -> int:
        """Leaves, and gives the number of the last edit. If a signal came before this thread had entered, C does nothing."""
        self._holder = 0
        return int(_leave(self._at).edit)

    def _read(self, call: Callable[[_Of], _Result]) -> _Result:
        return self._entered(call)[0]

    def _numbered(self, call: Callable[[_Of], _Numbered]) -> _Numbered:
        """What a call gives that tells a number of an edit, with the number of the last edit here."""
        told, edit = self._entered(call)
        return told._replace(edit=edit)

    def _edited(self, call: Callable[[_Of], int]) -> Receipt:
        told, edit = self._entered(call)
        return Receipt(edit, told)

    def _many(self, kind: Kind, ranges: Any, into: Any) -> Any:
        # nothing of the caller's is gone through under the lock
        rows = ranges if _as_table(ranges) is not None else _as_rows(ranges)
        def asked(of: _Of) -> Any:
            return of._many(kind, rows, into)

        return self._read(asked)

    def _rolling(self, kind: Kind, window: int, lo: Optional[int], hi: Optional[int], into: Any) -> Union[Column, int]:
        if into is None:
            return self._numbered(lambda of: cast(Column, of._rolling(kind, window, lo, hi, None)))
        return self._read(lambda of: of._rolling(kind, window, lo, hi, into))

    def _total(self, lo: Optional[int], hi: Optional[int]) -> int:
        return self._read(lambda of: of._total(lo, hi))

    def _located(self, what: str, lo: Optional[int], hi: Optional[int], number: int = 0) -> Any:
        return self._read(lambda of: of._located(what, lo, hi, number))

    def subscribe(self, queries: Queries) -> Subscriber:
        """One more that is told which answers of these queries change. Before its first look each counts as told what `Queries` says.

        The queries are the subscriber's from now on: a call at them beside its look raises Busy there or here. Raises Closed."""
        if not isinstance(queries, Queries):
            raise TypeError(f"Queries are wanted, not a {type(queries).__name__}")
        return Subscriber(queries.names, queries, lambda seat: _subscribe(self._at, seat, queries._at))


class _SharedPushes(_Shared[_Pushable]):
    """What a vector and a series that are shared have in common, and samples don't."""

    __slots__ = ()
    # C's call that pushes many, which releases the interpreter's lock
    _pushes_many: Callable[..., Any]

    def push(self, value: int) -> Receipt:
        """As `push` of what is shared; the receipt has the index."""
        element = _as_i64(value)
        return self._edited(lambda of: of.push(element))

    def append(self, value: int) -> None:
        """As `push`, and gives nothing."""
        self.push(value)

    def swap(self, first: int, second: int) -> Receipt:
        """As `swap` of what is shared; the receipt has the element that stands at the first index now."""
        places = _whole(first, "the index"), _whole(second, "the index")
        return self._edited(lambda of: of.swap(*places))

    def extend(self, values: Iterable[int]) -> int:
        """As `extend` of what is shared, with no other edit between; gives the number of the last edit."""
        buffer = _as_buffer(values)
        return self._entered(lambda of: of._extended(buffer, type(self)._pushes_many))[1]

    def write_many(self, indices: Iterable[int], values: Iterable[int]) -> int:
        """As `write_many` of what is shared, with no other edit between; gives the number of the last edit."""
        rows, elements = _as_buffer(indices, "indices"), _as_buffer(values, "values")
        return self._entered(lambda of: of.write_many(rows, elements))[1]


class SharedVector(_SharedPushes[Vector]):
    """A `Vector` that threads share, by a lock.

        >>> from livevec import Queries, SharedVector, Vector
        >>> with SharedVector(Vector([30, 12])) as shared:
        ...     shared.start_workers(2)
        ...     queries = Queries()
        ...     queries.watch("total", "sum")
        ...     alerts = shared.subscribe(queries)
        ...     next(alerts)[0].value
        ...     shared.push(-2)
        ...     next(alerts)[0].value
        42
        Receipt(edit=3, told=2)
        40

    Edits and questions are those of a `Vector`, each under the lock for one call: they cost what those do, with the wait for the lock. An edit gives a
    `Receipt`. `locked` takes the lock for several. `start_workers` starts threads that compute summaries beside them, without the lock, and a
    `Subscriber` sleeps until an edit changes what it asks. `renew` goes on as a copy, where the vector is nearly worn.

    Each call of a thread that is within a `locked` of its own raises Busy. An exception in `locked` stops nobody else, and undoes nothing. The vector
    that is handed in belongs to it until `close`, or the end of a `with`, gives it back; then each call raises Closed.
    """

    __slots__ = ()
    _put_round, _pushes_many = _new, _push_many

    def __init__(self, vector: Optional[Vector] = None) -> None:
        super().__init__(Vector() if vector is None else _vector(vector))

    def clear(self) -> Receipt:
        """As `Vector.clear`; the receipt has how many elements were dropped."""
        return self.truncate(0)

    @property
    def capacity(self) -> int:
        """How many elements have room without another bucket."""
        return self._read(lambda vector: vector.capacity)

    def reserve(self, elements: int) -> Receipt:
        """As `Vector.reserve`; the receipt has the capacity."""
        room = operator.index(elements)
        return self._edited(lambda vector: vector.reserve(room))

    def ask(self, lo: Optional[int] = None, hi: Optional[int] = None) -> Reduced:
        """As `Vector.ask`, which tells after which edit the values are so."""
        return self._numbered(lambda vector: vector.ask(lo, hi))

    def summary(self, lo: Optional[int] = None, hi: Optional[int] = None) -> Summary:
        """As `Vector.summary`."""
        return self._read(lambda vector: vector.summary(lo, hi))

    def reduce(self, lo: Optional[int] = None, hi: Optional[int] = None) -> Reduced:
        """As `Vector.reduce`, which tells after which edit the values are so. Linear in what no worker or question computed before."""
        return self._numbered(lambda vector: vector._reduced(_reduce, lo, hi))

    def renew(self) -> None:
        """Goes on as a copy of the vector, where that is nearly worn: with the same elements, limits, table and kind, and no edits but the pushes of its
        elements. Numbers of edits go on as if nothing were, and subscribers are told nothing. The vector that was handed in is that copy from then
        on. Linear. Raises NoMemory, and Worn where it has more elements than its limit of edits: nothing has changed then."""

        def goes_on(vector: Vector) -> None:
            fresh = _remade(type(vector), array("q"), *vector._limits)
            _check(_renew(self._at, fresh._at))
            for name in ("_slot", "_at"):
                worn = getattr(vector, name)
                setattr(vector, name, getattr(fresh, name))
                setattr(fresh, name, worn)

        self._read(goes_on)

    def start_workers(self, count: int = 1) -> None:
        """Starts so many more threads that compute summaries, or none. Each sleeps while there is nothing to compute; edits wake it.

        It takes jobs under the lock, computes them without it, and hands in what the vector vouches for. Where many blocks near together want one it
        takes a subtree of 4,096 elements, or where there is none at most 1,024 blocks. A subtree that was written to meanwhile it goes over again by
        its blocks. Summaries above those it computes under the lock, by the 256. All of that is done in C, beside the threads of Python. No answer
        changes by it. Raises Closed, and NoMemory where no thread is to be had."""
        made: list[_Worker] = []
        try:
            self._read(len)
            for _ in range(operator.index(count)):
                worker = _Worker(self._at)
                worker.thread.start()
                made.append(worker)
            self._read(lambda _: self._workers.extend(made))
        except (RuntimeError, MemoryError):
            _ended(made)
            raise _refuse(NoMemory.number) from None
        except BaseException:
            _ended(made)
            raise

    def stop_workers(self) -> None:
        """Ends all workers, and waits for them. More may be started later."""
        ended: list[_Worker] = []
        with contextlib.suppress(Closed), self.locked():
            ended, self._workers = self._workers, []
        _ended(ended)

    def _valued(self, kind: Kind, lo: Optional[int], hi: Optional[int]) -> _Values:
        return self._read(lambda vector: vector._valued(kind, lo, hi, _value))


def _vector(vector: Vector) -> Vector:
    if not isinstance(vector, Vector):
        raise TypeError(f"a Vector is wanted, not a {type(vector).__name__}")
    return vector


def _ended(workers: list[_Worker]) -> None:
    """Ends workers, and waits for them."""
    for worker in workers:
        _dismiss(worker._at)
    for worker in workers:
        worker.thread.join()
