"""A series as bytes, or samples, and back."""
from __future__ import annotations

from typing import TYPE_CHECKING, Any, Callable, Iterable, Optional, TypeVar

from ._library import _call, _pointer, _released, _size, _u32
from ._refusals import _refuse
from ._saved import _bytes_of, _Saved
from ._series_calls import _counted, _kept, _SeriesCount, _SeriesScanned, _slot, _u64
from ._series_places import _SeriesPlaces

if TYPE_CHECKING:
    from _typeshed import ReadableBuffer

_saved_length = _call("livevec_series_saved_length", _SeriesCount, _slot)
_save = _call("livevec_series_save", _SeriesScanned, _slot, _u64, _pointer, _size, by=_released)
_load = _call("livevec_series_load", _u32, _slot, _pointer, _size, by=_released)

_Whole = TypeVar("_Whole", bound="_SeriesSaved")


def _granted(refusal: int) -> None:
    if refusal:
        raise _refuse(refusal)


class _SeriesSaved(_SeriesPlaces, _Saved):
    """The part of `Series` and `Samples` that is saved and loaded."""

    __slots__ = ("_changes",)
    _changes: int
    _begin_load: Callable[..., int]
    _end_load: Callable[..., int]

    @classmethod
    def load_pieces(cls: type[_Whole], pieces: Iterable[ReadableBuffer]) -> _Whole:
        made = cls.__new__(cls)
        made._changes = 0
        _granted(made._begin_load(made._at))
        for piece in pieces:
            given = _bytes_of(piece)
            _granted(_load(made._at, given, len(given)))
        _granted(made._end_load(made._at))
        return made

    def _length_saved(self) -> int:
        return _counted(_saved_length(self._at))

    def _save(self, place: int, room: Optional[Any], length: int) -> int:
        return _kept(_save(self._at, place, room, length)).length
