"""What a viewer looks at, as a page asks for it."""
from __future__ import annotations

from typing import Any, NamedTuple, Optional

from .store import MOST_ELEMENTS, Series

MOST_CHARTS, MOST_COLUMNS, MOST_WATCHES = 24, 2_000, 32
KINDS = ("sum", "mean", "least", "greatest", "best")
MOST_SAMPLE = 1 << 53
"""A number that JavaScript has without loss, as are all nearer to 0."""


class BadView(ValueError):
    """What is wrong with a view that a viewer asked for."""


class Span(NamedTuple):
    """A range of samples: the last so many, or those from `lo` up to `hi`, or on for ever where there is no `hi`."""

    last: Optional[int]
    lo: int
    hi: Optional[int]

    def within(self, series: Series) -> tuple[int, int]:
        """What is held of it now: never past an end, and empty where nothing is."""
        lo = self.lo if self.last is None else series.end - self.last
        hi = series.end if self.hi is None else min(self.hi, series.end)
        lo = max(lo, series.first)
        return min(lo, series.end), max(hi, min(lo, series.end))

    def lost(self, series: Series) -> bool:
        """Whether samples of it were held once and are no longer."""
        return self.last is None and self.lo < series.first

    def length(self, series: Series) -> int:
        """How many samples a chart of it has room for."""
        if self.last is not None:
            return self.last
        return max((series.end if self.hi is None else self.hi) - self.lo, 1)


class Chart(NamedTuple):
    """A chart that a viewer looks at, with at most so many columns."""

    name: str
    span: Span
    columns: int


class Watch(NamedTuple):
    """A standing query: it is told again whenever its answer changes."""

    id: int
    name: str
    kind: str
    span: Span


class View(NamedTuple):
    charts: tuple[Chart, ...]
    watches: tuple[Watch, ...]


def view_of(asked: Any) -> View:
    """The view that a JSON value asks for. Raises BadView, also where it asks for more than one viewer may have."""
    charts, watches = _list(asked, "charts", MOST_CHARTS), _list(asked, "watches", MOST_WATCHES)
    view = View(tuple(Chart(_name(it), _span(it), _number(it, "columns", 2, MOST_COLUMNS)) for it in charts),
                tuple(Watch(_number(it, "id", 0, MOST_SAMPLE), _name(it), _kind(it), _span(it)) for it in watches))
    if len({chart.name for chart in view.charts}) < len(charts) or len({watch.id for watch in view.watches}) < len(watches):
        raise BadView("two charts of one name, or two queries of one id")
    return view


def _list(asked: Any, what: str, most: int) -> list[Any]:
    found = asked.get(what) if isinstance(asked, dict) else None
    if not isinstance(found, list) or not all(isinstance(it, dict) for it in found):
        raise BadView(f"{what}: a list of objects is wanted")
    if len(found) > most:
        raise BadView(f"{what}: at most {most}")
    return found


def _name(asked: dict[str, Any]) -> str:
    name = asked.get("name")
    if not isinstance(name, str):
        raise BadView("name: text is wanted")
    return name


def _kind(asked: dict[str, Any]) -> str:
    kind = asked.get("kind")
    if not isinstance(kind, str) or kind not in KINDS:
        raise BadView(f"kind: one of {', '.join(KINDS)} is wanted")
    return kind


def _number(asked: dict[str, Any], what: str, least: int, most: int) -> int:
    number = asked.get(what)
    if type(number) is not int or not least <= number <= most:
        raise BadView(f"{what}: a whole number from {least} to {most} is wanted")
    return number


def _span(asked: dict[str, Any]) -> Span:
    if "last" in asked:
        return Span(_number(asked, "last", 1, MOST_ELEMENTS), 0, None)
    lo = _number(asked, "lo", 0, MOST_SAMPLE - 1)
    return Span(None, lo, None if asked.get("hi") is None else _number(asked, "hi", lo + 1, MOST_SAMPLE))
