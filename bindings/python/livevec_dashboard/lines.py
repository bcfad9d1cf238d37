"""Lines of a stream into samples: a name, and a whole number of 64 bits.

A line is `name value`, a JSON object, or a row of CSV under a header. Which of them a stream has is seen by its first line, unless it is said.
Lines that are none of these are counted by their reason, and never stop the stream.
"""
from __future__ import annotations

import csv
import json
from typing import Any, Callable, Iterable, NamedTuple, Optional, Union

from .numbers import Bad, Decimal, is_number, of_json, whole, within
from .texts import shown
from .times import FIELDS, NO_TIME, time_of

MOST_LINE = 4096
"""A longer line, in bytes, is bad; no more of it than this is ever held."""
MOST_NAME = 200
"""A longer name, in characters, is bad."""
SHAPES = ("plain", "json", "csv")


class Told(NamedTuple):
    """What some bytes of a stream held: the samples of each name in order, how many lines, and the bad ones among them.

    `times` has those of the samples, in the same order, for each name that came with any; those that lack at the end came without."""

    samples: dict[str, list[int]]
    lines: int
    bad: dict[str, int]
    last_bad: str
    times: dict[str, list[int]] = {}


class Lines:
    """Takes a stream's bytes as they come, cut anywhere.

    `admit` is asked once whether a name may be taken. `scale` multiplies each value. Of CSV columns and of the fields of JSON objects only those
    in `columns` are looked at, if any are given, and the one of `times` that says when a line's samples were taken.
    """

    def __init__(self, admit: Callable[[str], bool], *, shape: Optional[str] = None, scale: Optional[int] = None, columns: Iterable[str] = (),
                 times: Iterable[str] = FIELDS) -> None:
        self._admit, self._said, self._scale, self._columns = admit, shape, scale, frozenset(columns)
        self._clocks = tuple(name for name in times if name not in self._columns)
        self._names: dict[bytes, str] = {}
        # of the bytes that are being read, and only the names that they have
        self._pending: dict[bytes, list[int]] = {}
        self._times: dict[bytes, list[int]] = {}
        self._bad: dict[str, int] = {}
        self._last_bad = ""
        self.restart()

    def restart(self) -> None:
        """The next bytes are the start of another file: what was left of the last line is dropped, and a header is read anew."""
        self._shape, self._first = self._said, True
        self._header: Optional[list[str]] = None
        self._rest, self._skipped, self._skipping = b"", b"", False

    def take(self, block: bytes) -> Told:
        """What these bytes complete. A line without its end waits for more."""
        lines = (self._rest + block).split(b"\n")
        self._rest = lines.pop()
        if self._skipping and lines:
            # the end of a line that was too long: its start stands for it
            lines[0] = self._skipped
            self._skipping = False
        if self._skipping:
            self._rest = b""
        elif len(self._rest) > MOST_LINE:
            self._skipped, self._rest, self._skipping = self._rest[:MOST_LINE + 1], b"", True
        return self._all(lines)

    def end(self) -> Told:
        """What is left is a line, though its end never came."""
        rest = self._skipped if self._skipping else self._rest
        self._rest, self._skipping = b"", False
        lines = [rest] if rest else []
        return self._all(lines)

    def _all(self, lines: list[bytes]) -> Told:
        at = 0
        while at < len(lines) and (self._first or not self._shape):
            self._one(lines[at])
            at += 1
        if self._shape == "plain":
            self._plain(lines[at:])
        else:
            for line in lines[at:]:
                self._one(line)
        samples = {self._names[raw]: values for raw, values in self._pending.items() if values}
        told = Told(samples, len(lines), self._bad, self._last_bad, {self._names[raw]: times for raw, times in self._times.items()})
        self._pending.clear()
        self._times, self._bad = {}, {}
        return told

    def _plain(self, lines: list[bytes]) -> None:
        """Lines `name value`. This loop is most of what a line costs, so the usual one goes through as few calls as can be."""
        pending, scale = self._pending, self._scale or 1
        most = 18 - len(str(scale))
        for line in lines:
            try:
                raw, text = line.rsplit(None, 1)
                pending[raw].append(int(text) * scale if len(text) < most and len(line) <= MOST_LINE and text.isdigit() else self._number(line, text))
            except (KeyError, ValueError):
                self._one(line)

    def _number(self, line: bytes, text: bytes) -> int:
        if len(line) > MOST_LINE:
            raise Bad("too long")
        return whole(text, self._scale)

    def _one(self, line: bytes) -> None:
        """A line of any shape, with all its checks."""
        if self._first:
            # some writers begin a file with the mark of UTF-8
            line, self._first = line.removeprefix(b"\xef\xbb\xbf"), False
        try:
            if len(line) > MOST_LINE:
                raise Bad("too long")
            line = line.strip()
            if line:
                self._shape = self._shape or self._seen(line)
                {"plain": self._one_plain, "json": self._one_json, "csv": self._one_csv}[self._shape](line)
        except Bad as bad:
            self._count(bad, line)

    def _seen(self, line: bytes) -> str:
        """The shape of a stream by its first line."""
        if line.startswith(b"{"):
            return "json"
        last = line.rsplit(None, 1)[-1]
        if last != line and is_number(last):
            return "plain"
        if b"," in line:
            return "csv"
        raise Bad("no value")

    def _one_plain(self, line: bytes) -> None:
        parts = line.rsplit(None, 1)
        if len(parts) < 2:
            raise Bad("no value")
        self._sample(parts[0], whole(parts[1], self._scale))

    def _one_json(self, line: bytes) -> None:
        try:
            read = _JSON.decode(line.decode())
        except (ValueError, RecursionError):
            raise Bad("not JSON") from None
        if not isinstance(read, dict):
            raise Bad("not a JSON object")
        when = self._when(read)
        if "name" in read and "value" in read:
            if not isinstance(read["name"], str):
                raise Bad("a name that is not text")
            read = {read["name"]: read["value"]}
        elif self._columns:
            read = {name: value for name, value in read.items() if name in self._columns}
        self._several([(name.encode("utf-8", "surrogatepass"), of_json(value)) for name, value in read.items()], when)

    def _one_csv(self, line: bytes) -> None:
        try:
            cells = [cell.strip() for cell in (next(csv.reader([line.decode()])) if b'"' in line else line.decode().split(","))]
        except (ValueError, csv.Error):
            raise Bad("not CSV") from None
        if self._header is None:
            self._header = cells
        elif len(cells) != len(self._header):
            raise Bad("another number of fields than the header")
        elif cells != self._header:
            self._row(dict(zip(self._header, cells)))

    def _row(self, row: dict[str, str]) -> None:
        """A row of CSV by its columns. An empty cell is no sample."""
        when = self._when(row)
        if "name" in row and "value" in row:
            row = {row["name"]: row["value"]}
        elif self._columns:
            row = {name: cell for name, cell in row.items() if name in self._columns}
        self._several([(name.encode(), cell.encode()) for name, cell in row.items() if cell], when)

    def _when(self, fields: dict[str, Any]) -> Optional[int]:
        """The time that a line's fields say, which is taken from among them. What says none is a field as others are."""
        for name in self._clocks:
            if name in fields:
                when = time_of(fields[name])
                if when is not None:
                    del fields[name]
                    return when
        return None

    def _several(self, fields: list[tuple[bytes, Union[int, bytes]]], when: Optional[int]) -> None:
        """The samples of one line. Those that are good are taken, also where others are bad."""
        why: Optional[Bad] = None
        for raw, value in fields:
            try:
                self._sample(raw, within(value * (self._scale or 1)) if isinstance(value, int) else whole(value, self._scale), when)
            except Bad as bad:
                why = bad
        if why is not None:
            raise why

    def _sample(self, raw: bytes, value: int, when: Optional[int] = None) -> None:
        if raw not in self._names:
            self._names[raw] = self._named(raw)
        values = self._pending.setdefault(raw, [])
        values.append(value)
        if when is not None:
            times = self._times.setdefault(raw, [])
            times.extend([NO_TIME] * (len(values) - 1 - len(times)))
            times.append(when)

    def _named(self, raw: bytes) -> str:
        """A name that was not seen before, as text. What is refused is not remembered, so strangers cost no memory."""
        try:
            name = raw.decode()
        except UnicodeDecodeError:
            raise Bad("a name that is not UTF-8") from None
        if len(name) > MOST_NAME:
            raise Bad("a name that is too long")
        if not name or not name.isprintable():
            raise Bad("a name that cannot be shown")
        if not self._admit(name):
            raise Bad("more names than there is room for")
        return name

    def _count(self, bad: Bad, line: bytes) -> None:
        why = str(bad)
        self._bad[why] = self._bad.get(why, 0) + 1
        self._last_bad = shown(line[:80].decode("utf-8", "replace"))


def _no_number(text: str) -> None:
    raise ValueError(text)


_JSON = json.JSONDecoder(parse_float=Decimal, parse_constant=_no_number)
