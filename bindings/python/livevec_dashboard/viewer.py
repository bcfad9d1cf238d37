"""A viewer, and what of the things that it looks at has changed since it was told last."""
from __future__ import annotations

import threading
from typing import Any, Iterator, Optional

from .columns import Asked, Shown, changed_columns, width_of
from .numbers import spelt
from .pace import Work
from .store import Answer, Series, Status, Store
from .views import KINDS, Chart, View, Watch

_TICKS = 4


class Viewer:
    """A page that is open. `frames` is called by the one thread that sends to it, `look` by those that hear from it."""

    def __init__(self, store: Store, digits: int) -> None:
        self._store, self._digits = store, digits
        self._view = View((), ())
        self._names = 0
        self._status: Optional[Status] = None
        self._shown: dict[str, Shown] = {}
        self._told: dict[Watch, Any] = {}
        self._work = Work(store.pace)
        self.looked = threading.Event()
        """Set where the view is another one since the last frame."""

    def look(self, view: View) -> None:
        """From now on this is what is looked at."""
        with self._store.changing:
            self._view = view
            self.looked.set()
            self._store.changing.notify_all()

    def frames(self) -> Iterator[dict[str, Any]]:
        """What has changed since the last ones: how the stream does, then a frame a chart, then the standing queries, each as it is when it is made.

        Nothing that came between is kept for a viewer that is slow. One thread makes them and sends them, and sleeps in between for the feed's sake."""
        self.looked.clear()
        self._work.begin()
        view = self._view
        self._shown = {name: shown for name, shown in self._shown.items() if any(chart.name == name for chart in view.charts)}
        self._told = {watch: told for watch, told in self._told.items() if watch in view.watches}
        stream = self._stream()
        if stream:
            yield stream
        for chart in view.charts:
            shown = self._chart(chart)
            if shown:
                yield {"charts": [shown]}
            self._work.pause()
        watches = []
        for watch in view.watches:
            watches += [it for it in (self._watch(watch),) if it]
            self._work.pause()
        if watches:
            yield {"watches": watches}
        self._work.pause()

    def frame(self) -> dict[str, Any]:
        """The same as one."""
        made: dict[str, Any] = {}
        for frame in self.frames():
            made.update({**frame, **({"charts": made.get("charts", []) + frame["charts"]} if "charts" in frame else {})})
        return made

    def _stream(self) -> dict[str, Any]:
        made: dict[str, Any] = {}
        with self._store.changing:
            status = self._store.status()
            names = self._store.names[self._names:]
        if status != self._status:
            self._status = status
            made["stream"] = status._asdict()
        if names:
            self._names += len(names)
            made["names"] = names
        return made

    def _chart(self, chart: Chart) -> Optional[dict[str, Any]]:
        with self._store.changing:
            series = self._store.series.get(chart.name)
            if series is None:
                return None
            lo, hi = chart.span.within(series)
            start, length = chart.span.lo if chart.span.last is None else max(lo, hi - chart.span.last), chart.span.length(series)
            before, now = self._shown.get(chart.name), Shown(chart, width_of(length, chart.columns), lo, hi)
            if before == now:
                return None
            self._shown[chart.name] = now
            anew, numbers = changed_columns(before, now)
            made = {"name": chart.name, "lo": lo, "hi": hi, "start": start, "length": length, "first": series.first, "end": series.end,
                    "width": now.width, "anew": anew, **_times(series, now, start, length)}
            asked, answer, last = Asked(series, now, numbers), series.answer(lo, hi), series.last()
        return {**made, "columns": asked.rows(self._store.changing, self._work.pause), "edit": answer.edit, "now": spelt(last, self._digits),
                "numbers": {kind: self._value(answer, kind) for kind in KINDS}}

    def _watch(self, watch: Watch) -> Optional[dict[str, Any]]:
        with self._store.changing:
            series = self._store.series.get(watch.name)
            if series is None:
                return None
            lo, hi = watch.span.within(series)
            told = self._told.get(watch)
            if told and told[0] == (lo, hi):
                return None
            answer, lost = series.answer(lo, hi), watch.span.lost(series)
        value = None if lost else self._value(answer, watch.kind)
        self._told[watch] = (lo, hi), value, lost
        if told and told[1:] == (value, lost):
            return None
        return {"id": watch.id, "edit": answer.edit, "lo": lo, "hi": hi, "value": value, "lost": lost}

    def _value(self, answer: Answer, kind: str) -> Optional[str]:
        """A number of an answer, spelt out in full; None where there is none."""
        count = answer.hi - answer.lo
        if kind == "mean":
            return None if answer.total is None or not count else spelt(_nearest(answer.total * 1000, count), self._digits + 3)
        return spelt({"sum": answer.total, "least": answer.least, "greatest": answer.greatest, "best": answer.best}[kind], self._digits)


def _times(series: Series, shown: Shown, start: int, length: int) -> dict[str, Any]:
    """The times of a chart's first and last sample, and of those at its quarters, where the stream has times; None where a sample has none."""
    if not series.has_times or shown.lo == shown.hi:
        return {}
    ticks = [*(start + length * part // _TICKS for part in range(_TICKS)), start + length - 1]
    return {"times": {"from": series.time(shown.lo), "to": series.time(shown.hi - 1),
                      "ticks": [series.time(at) if shown.lo <= at < shown.hi else None for at in ticks]}}


def _nearest(total: int, count: int) -> int:
    return (2 * total + count) // (2 * count)
