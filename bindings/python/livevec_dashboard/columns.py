"""The columns of a chart: how wide they are, which of them have changed, and what they show.

Columns stand at whole multiples of their width, a power of two. So a column that was sent stays good: its samples never change, and only the columns at
the two ends of a range that moves are asked again.
"""
from __future__ import annotations

import threading
from typing import Any, Callable, NamedTuple, Optional

from .store import Column, Copied, Series
from .views import MOST_SAMPLE, Chart

_FEW, _NARROW = 8, 8
"""More columns than a few, of so many samples at most, are computed from a copy of the samples, without a lock. Of wider ones the vector's stored
aggregates answer sooner."""
_PIECE = 256
"""So many columns are answered at once. Then the lock is free for a moment, and the feed may take it."""


class Shown(NamedTuple):
    """What is sent of a chart: columns of a width, for the samples from `lo` up to `hi`."""

    chart: Chart
    width: int
    lo: int
    hi: int

    def ranges(self, numbers: list[int]) -> list[tuple[int, int]]:
        """The samples of some columns, which are in order."""
        width = self.width
        found = [(number * width, number * width + width) for number in numbers]
        if found:
            # all others lie within the chart
            found[0] = max(found[0][0], self.lo), found[0][1]
            found[-1] = found[-1][0], min(found[-1][1], self.hi)
        return found


def width_of(length: int, columns: int) -> int:
    """The least power of two such that a range of this length, wherever it starts, lies in so many columns of this width; two at least."""
    width = 1
    while (length + width - 2) // width + 1 > columns:
        width *= 2
    return width


def changed_columns(before: Optional[Shown], now: Shown) -> tuple[bool, list[int]]:
    """Whether a chart is to be drawn anew, and which of its columns hold other samples than when it was sent."""
    if now.lo == now.hi:
        return True, []
    first, last = now.lo // now.width, (now.hi - 1) // now.width
    if before is None or before.chart != now.chart or before.width != now.width or before.lo > now.lo or before.hi <= now.lo:
        return True, list(range(first, last + 1))
    changed = range(max(first, before.hi // now.width), last + 1) if now.hi != before.hi else range(0)
    return False, ([first] if now.lo != before.lo and first not in changed else []) + list(changed)


class Asked:
    """Columns that are to be sent. They are asked with the store's lock held, which is a matter of a moment: `rows` does the rest without it."""

    def __init__(self, series: Series, shown: Shown, numbers: list[int]) -> None:
        self._series, self._shown, self._numbers, self._is_timed = series, shown, numbers, series.has_times
        self._found: list[tuple[int, int, Column, Optional[int]]] = []
        self._copied: Optional[Copied] = None
        if len(numbers) > _FEW and shown.width <= _NARROW:
            self._copied = series.copied(max(numbers[0] * shown.width, shown.lo), min((numbers[-1] + 1) * shown.width, shown.hi))
        else:
            self._answer(numbers[:_PIECE])

    def _answer(self, numbers: list[int]) -> None:
        """Asks the series, with the lock held. It may have been renewed since the others were asked. Columns of samples that it no longer holds are
        left out, as they will be of the next frame."""
        held = [(number, it) for number, it in zip(numbers, self._shown.ranges(numbers)) if it[0] >= self._series.first]
        columns = self._series.columns([it for _, it in held])
        times = [self._series.time(lo) for _, (lo, _) in held] if self._is_timed else [None] * len(held)
        self._found += [(number, hi - lo, column, time) for (number, (lo, hi)), column, time in zip(held, columns, times)]

    def _compute(self, copied: Copied) -> None:
        for number, (lo, hi) in zip(self._numbers, self._shown.ranges(self._numbers)):
            self._found.append((number, hi - lo, copied.column(lo, hi), copied.time(lo)))

    def rows(self, changing: threading.Condition, rest: Callable[[], None]) -> list[list[Any]]:
        """The columns as the page takes them: the number, the least, the greatest and the mean, which is None where the sum is not known. Where the
        stream has times, that of the first sample follows, or None.

        The lock is taken for a piece of them at a time, and before each piece comes a rest without it."""
        if self._copied:
            self._compute(self._copied)
        else:
            for at in range(_PIECE, len(self._numbers), _PIECE):
                rest()
                with changing:
                    self._answer(self._numbers[at:at + _PIECE])
        rows = [[number, _exact(column.least), _exact(column.greatest), None if column.total is None else column.total / count]
                for number, count, column, _ in self._found]
        if self._is_timed:
            for row, (_, _, _, time) in zip(rows, self._found):
                row.append(time)
        return rows


def _exact(value: int) -> Any:
    """A number as JavaScript reads it without loss: as text where its own numbers would round it."""
    return value if -MOST_SAMPLE <= value <= MOST_SAMPLE else str(value)
