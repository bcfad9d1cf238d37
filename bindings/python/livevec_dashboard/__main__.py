"""The command `livevec-dashboard`."""
from __future__ import annotations

import argparse
import os
import sys
import webbrowser
from typing import NoReturn, Optional, Sequence

from .texts import shown

try:
    from .connections import MOST_OF_ONE, Bounds, bounds_of
    from .lines import SHAPES, Lines
    from .server import Server
    from .store import Store
    from .stream import Feed
    from .times import FIELDS
except ImportError as error:
    # most of all where there is no liblivevec.so, and it says what to do
    sys.exit(shown(f"livevec-dashboard: {error}"))

PORT = 8765

_ABOUT = """Live charts of a stream of numbers, in a browser.

The stream's lines are `name value`, JSON objects ({"name": "cpu", "value": 3} or {"cpu": 3, "disk": 9}), or CSV under a header
(with columns `name` and `value`, or one column a name). Values are whole numbers of 64 bits; --scale takes decimals. Charts show the time that a
field or column `time` or `timestamp` says: ISO 8601, or a number of seconds to nanoseconds since 1970."""


def main(arguments: Optional[Sequence[str]] = None) -> int:
    said = _parser().parse_args(arguments)
    store = Store(keep=said.keep, most_names=said.names, most_samples=said.samples)
    lines = Lines(store.admit, shape=said.format, scale=said.scale, columns=said.columns.split(",") if said.columns else (),
                  times=(said.time,) if said.time else FIELDS)
    title = shown(said.title or ("standard input" if said.feed == "-" else os.path.basename(said.feed)))
    digits = len(str(said.scale)) - 1 if said.scale else 0
    try:
        server = _serving(said.host, said.port, store, title, digits, bounds_of(said.connections, said.deadline))
    except (OSError, TypeError, ValueError) as error:
        # Python raises a TypeError of what can be no host's name
        print(shown(f"livevec-dashboard: {said.host}: {error}"), file=sys.stderr)
        return 1
    feed = Feed(said.feed, lines, store)
    feed.start()
    print(f"livevec-dashboard: {title} at {server.url}", file=sys.stderr, flush=True)
    if said.open:
        webbrowser.open(server.url)
    try:
        server.serve_forever()
    except KeyboardInterrupt:
        pass
    feed.stop()
    return 0


def _serving(host: str, port: Optional[int], store: Store, title: str, digits: int, bounds: Bounds) -> Server:
    """A server at the port that was said; where none was, at the usual one, or at any that is free."""
    try:
        return Server(host, PORT if port is None else port, store, title=title, digits=digits, bounds=bounds)
    except OSError:
        if port is not None:
            raise
        return Server(host, 0, store, title=title, digits=digits, bounds=bounds)


class _Parser(argparse.ArgumentParser):
    """A parser whose complaints are fit for a terminal, for an argument may be the name of any file."""

    def error(self, message: str) -> NoReturn:
        super().error(shown(message))


def _parser() -> argparse.ArgumentParser:
    parser = _Parser("livevec-dashboard", description=_ABOUT, formatter_class=argparse.RawDescriptionHelpFormatter)
    add = parser.add_argument
    add("feed", metavar="FILE|-", help="a file, which is followed like `tail -F`, or - for standard input")
    add("--format", choices=SHAPES, help="the lines' form; else the first line tells")
    add("--scale", type=_scale, metavar="N", help="multiply each value by N, a power of ten to 1000000000, and round it; the page divides again")
    add("--columns", metavar="A,B", help="of CSV columns and JSON fields take only these")
    add("--time", metavar="NAME", help="the CSV column or JSON field that has a line's time (time or timestamp)")
    add("--keep", type=_from_to(1, 1_000_000), default=1_000_000, metavar="N", help="samples of a name that are held at least (1000000)")
    add("--samples", type=_from_to(1_000, 1_000_000_000), default=10_000_000, metavar="N",
        help="samples that all names hold together, 50 bytes each (10000000); where they are short each name has an equal share, two at least")
    add("--names", type=_from_to(1, 100_000), default=1_000, metavar="N", help="names that are taken; lines of others are bad (1000)")
    add("--title", metavar="TEXT", help="what the page calls the stream (the file's name)")
    add("--host", default="127.0.0.1", help="the address to serve at (127.0.0.1, which only this machine reaches)")
    add("--port", type=_from_to(0, 65_535), help=f"the port ({PORT}, or any where that is taken; 0 is any)")
    add("--connections", type=_from_to(2, MOST_OF_ONE), metavar="N",
        help=f"connections that one address may have at once ({Bounds().of_another}; all of this machine's own together {Bounds().of_this_machine})")
    add("--deadline", type=_from_to(1, 3_600), default=Bounds().request, metavar="SECONDS", help=f"in so many a whole request has to come ({Bounds().request:.0f})")
    add("--open", action="store_true", help="open a browser")
    return parser


def _from_to(least: int, most: int):  # type: ignore[no-untyped-def]
    def number(text: str) -> int:
        if not text.isdigit() or not least <= int(text) <= most:
            raise argparse.ArgumentTypeError(f"{text!r} is no number from {least} to {most}")
        return int(text)
    return number


def _scale(text: str) -> int:
    if text not in {str(10**digits) for digits in range(10)}:
        raise argparse.ArgumentTypeError(f"{text!r} is no power of ten from 1 to 1000000000")
    return int(text)


if __name__ == "__main__":
    sys.exit(main())
