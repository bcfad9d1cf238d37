"""The vectors: one a name, each renewed from its last samples before it is full.

Samples are counted from 0 for each name, for as long as the program runs. Edits are counted too: the n-th sample of a name is its edit n.
A vector that was renewed begins at a later sample. What its own count of edits lacks is how many samples were left out, so it is added to it.
"""
from __future__ import annotations

import threading
from array import array
from typing import NamedTuple, Optional, Sequence

from livevec import Vector

from .lines import Told
from .pace import Pace
from .times import NO_TIME

MOST_ELEMENTS = 1_048_568
"""A vector has room for so many. They are pushed and never popped, so its edits (16,777,215 at most) don't run out before its room."""

_SPLITS = 64
_SPLITS_OF_COLUMN = 2
_MANY = 40
"""One call for many ranges lets other threads run, and then waits until it may go on, with the store's lock. For fewer ranges there is a call each."""


class Answer(NamedTuple):
    """What a vector answers for the samples from `lo` up to `hi`, after the edit. `total` is None where it may not be the sum, but only the sum
    modulo 2**64. `least`, `greatest` and `best` are None of no samples."""

    edit: int
    lo: int
    hi: int
    total: Optional[int]
    least: Optional[int]
    greatest: Optional[int]
    best: Optional[int]


class Column(NamedTuple):
    """What a chart shows of the samples in one column of it; `total` as in Answer."""

    least: int
    greatest: int
    total: Optional[int]


class Copied(NamedTuple):
    """A copy of samples from `lo` on, and of their times; those that lack at the end came without one."""

    lo: int
    samples: array[int]
    times: array[int]

    def column(self, lo: int, hi: int) -> Column:
        """What a chart shows of some of them, of at least one."""
        part = self.samples[lo - self.lo:hi - self.lo]
        return Column(min(part), max(part), sum(part))

    def time(self, sample: int) -> Optional[int]:
        return _time_at(self.times, sample - self.lo)


class Series:
    """The samples of one name, of which the last ones are held."""

    def __init__(self) -> None:
        self._vector = Vector()
        # of the samples that are held, from the first on; those that lack at its end came without a time
        self._times = array("q")
        self.first = 0
        """The first sample that is held."""
        self.held = 0
        """How many are held."""

    @property
    def end(self) -> int:
        """How many samples there were; also the number of the last edit."""
        return self.first + self.held

    @property
    def has_times(self) -> bool:
        """Whether any of the samples that are held came with a time."""
        return len(self._times) > 0

    def take(self, values: array[int], keep: int, room: int, times: Sequence[int] = ()) -> None:
        """Pushes samples. Where that would make more than `room`, the vector is renewed from the last `keep` of them first."""
        at = 0
        while at < len(values):
            free = room - self.held
            if free <= 0:
                self.renew(keep)
                free = room - self.held
            part, before = values[at:at + free], self.held
            self._vector.extend(part)
            self.held += len(part)
            if len(times) > at:
                self._times.extend(array("q", [NO_TIME]) * (before - len(self._times)))
                self._times.extend(times[at:at + free])
            at += free

    def renew(self, keep: int) -> None:
        """A new vector of the last `keep` samples takes the place of the old one."""
        dropped = max(self.held - keep, 0)
        renewed = Vector(self._vector.to_array(dropped))
        self._vector.close()
        self._vector = renewed
        del self._times[:dropped]
        self.first += dropped
        self.held -= dropped

    def last(self) -> Optional[int]:
        return self._vector[-1] if self.held else None

    def time(self, sample: int) -> Optional[int]:
        """When a sample that is held was taken, where the stream said it."""
        return _time_at(self._times, sample - self.first)

    def copied(self, lo: int, hi: int) -> Copied:
        """Samples that are held, as a copy."""
        start, stop = lo - self.first, hi - self.first
        return Copied(lo, self._vector.to_array(start, stop), self._times[start:stop])

    def answer(self, lo: int, hi: int) -> Answer:
        """The values of a range of samples, both ends of which are held."""
        start, stop = lo - self.first, hi - self.first
        vector, edit = self._vector, self.first + self._vector.edits
        if lo == hi:
            return Answer(edit, lo, hi, 0, None, None, None)
        (column,) = self._columns([(start, stop)], _SPLITS)
        return Answer(edit, lo, hi, column.total, column.least, column.greatest, vector.best(start, stop))

    def columns(self, ranges: list[tuple[int, int]]) -> list[Column]:
        """The same of the columns of a chart, none of which is empty."""
        return self._columns([(lo - self.first, hi - self.first) for lo, hi in ranges], _SPLITS_OF_COLUMN)

    def _columns(self, ranges: list[tuple[int, int]], splits: int) -> list[Column]:
        """What the vector answers for ranges. Its sums are modulo 2**64. Where that may not be the sum, the range is asked in halves, and these again,
        until the sums of all parts fit; where so many splits of the range aren't enough its sum is None."""
        found = self._values(ranges)
        totals: list[Optional[int]] = [0] * len(ranges)
        left = [splits] * len(ranges)
        parts = [(at, lo, hi, values) for at, ((lo, hi), values) in enumerate(zip(ranges, found))]
        while parts:
            unsure: list[tuple[int, int, int]] = []
            for at, lo, hi, (total, least, greatest) in parts:
                known = totals[at]
                if known is None:
                    continue
                if (hi - lo) * max(-least, greatest) < 1 << 63:
                    totals[at] = known + total
                elif hi - lo == 1:
                    totals[at] = known + least
                elif left[at] == 0:
                    totals[at] = None
                else:
                    left[at] -= 1
                    unsure += [(at, lo, (lo + hi) // 2), (at, (lo + hi) // 2, hi)]
            halves = self._values([(lo, hi) for _, lo, hi in unsure])
            parts = [(*half, values) for half, values in zip(unsure, halves)]
        return [Column(least, greatest, total) for (_, least, greatest), total in zip(found, totals)]

    def _values(self, ranges: list[tuple[int, int]]) -> list[tuple[int, int, int]]:
        """The sum modulo 2**64, the least and the greatest of each range, none of which is empty."""
        vector = self._vector
        if len(ranges) < _MANY:
            return [(vector.sum(*it), vector.least(*it), vector.greatest(*it)) for it in ranges]  # type: ignore[misc]
        return list(zip(*(vector.value_many(kind, ranges) for kind in ("sum", "least", "greatest"))))  # type: ignore[arg-type]


def _time_at(times: array[int], at: int) -> Optional[int]:
    when = times[at] if at < len(times) else NO_TIME
    return None if when == NO_TIME else when


class Status(NamedTuple):
    """How the stream does: lines, bad ones by reason, and the start of the last bad one."""

    state: str
    lines: int
    samples: int
    bad: int
    reasons: dict[str, int]
    last_bad: str


class Store:
    """All names. `keep` samples of each are held at least, as long as there are not more than `most_samples` in all; then each name has an equal share.

    The lock `changing` is held by whoever reads or edits a series; it wakes those who wait for a change. `pace` leaves the feed most of the time.
    """

    def __init__(self, *, keep: int = 1_000_000, most_names: int = 1_000, most_samples: int = 10_000_000) -> None:
        self._keep, self._most_names, self._most_samples = keep, most_names, most_samples
        self.changing = threading.Condition()
        self.pace = Pace()
        self.names: list[str] = []
        """In order of their first samples."""
        self.series: dict[str, Series] = {}
        self.version = 0
        """Grows by each change."""
        self._held = 0
        self._state, self._lines, self._samples, self._last_bad = "starting", 0, 0, ""
        self._reasons: dict[str, int] = {}

    def admit(self, name: str) -> bool:
        """Makes room for a name, if there is any."""
        with self.changing:
            if len(self.names) >= self._most_names:
                return False
            try:
                self.series[name] = Series()
            except MemoryError:
                return False
            self.names.append(name)
            return True

    def take(self, told: Told) -> None:
        """The samples of some lines, each name's at once."""
        with self.changing:
            keep, room = self._share()
            for name, values in told.samples.items():
                self._push(self.series[name], array("q", values), keep, room, told.times.get(name, ()))
                self._samples += len(values)
            self._lines += told.lines
            for why, count in told.bad.items():
                self._reasons[why] = self._reasons.get(why, 0) + count
            self._last_bad = told.last_bad
            self._wake()

    def says(self, state: str) -> None:
        """What the stream is up to, for those who look at the page."""
        with self.changing:
            if state != self._state:
                self._state = state
                self._wake()

    def status(self) -> Status:
        return Status(self._state, self._lines, self._samples, sum(self._reasons.values()), dict(self._reasons), self._last_bad)

    def _wake(self) -> None:
        self.version += 1
        self.changing.notify_all()

    def _share(self) -> tuple[int, int]:
        """How many samples of a name are kept when its vector is renewed, and how many it may hold before."""
        share = self._most_samples // max(len(self.names), 1)
        keep = max(min(self._keep, share * 4 // 5), 1)
        return keep, max(min(keep + keep // 4 + 1, share, MOST_ELEMENTS), keep + 1)

    def _push(self, series: Series, values: array[int], keep: int, room: int, times: Sequence[int]) -> None:
        """Samples of a name, and room for them: there may be too many of all names only where some hold more than the share that they have now."""
        before = series.held
        try:
            series.take(values, keep, room, times)
        finally:
            self._held += series.held - before
        if self._held > max(self._most_samples, 2 * len(self.names)):
            self._cut()

    def _cut(self) -> None:
        """Cuts the series that hold more than their share, which new names have made less. It is all of them to look at, and at least a fifth of such
        a share is free afterwards, so this happens seldom."""
        keep, room = self._share()
        for series in self.series.values():
            if series.held > room:
                before = series.held
                try:
                    series.renew(keep)
                except MemoryError:
                    # it goes on with more than its share
                    return
                self._held += series.held - before
