"""Where the bytes come from: standard input, or a file that is followed over rotation and truncation."""
from __future__ import annotations

import os
import select
import stat
import threading
from typing import Callable, Iterator, Optional

from .lines import Lines, Told
from .store import Store

BLOCK = 1 << 16
POLL = 0.1
"""So many seconds a followed file is left alone after its end was met."""


class Feed(threading.Thread):
    """Reads a stream into a store, until the stream or the program ends. `path` is a file's, or `-` for standard input."""

    def __init__(self, path: str, lines: Lines, store: Store) -> None:
        super().__init__(name="feed", daemon=True)
        self.path, self.lines, self.store = path, lines, store
        self._ended = threading.Event()
        self._short = False

    def stop(self) -> None:
        self._ended.set()

    def run(self) -> None:
        try:
            self._read()
        except OSError as error:
            self.store.says(f"ended: {error.strerror}")
        else:
            self.store.says("ended")
        finally:
            self._waits()

    def _waits(self) -> None:
        """There is nothing to read at the moment."""
        self.store.pace.feed_has_more = False

    def _read(self) -> None:
        self.store.says("reading")
        blocks: Iterator[Optional[bytes]] = _rest(0, self._waits) if self.path == "-" else followed(self.path, self._ended, self.store.says, self._waits)
        for block in blocks:
            self.store.pace.feed_has_more = True
            if block is None:
                self._keep(self.lines.end())
                self.lines.restart()
            else:
                self._keep(self.lines.take(block))
        self._keep(self.lines.end())

    def _keep(self, told: Told) -> None:
        """Hands the samples on. Where memory is short they are lost, and the stream goes on."""
        try:
            self.store.take(told)
            if self._short:
                self.store.says("reading")
            self._short = False
        except MemoryError:
            self.store.says("short of memory: samples are left out")
            self._short = True


def followed(path: str, ended: threading.Event, says: Callable[[str], None], waits: Callable[[], None] = lambda: None) -> Iterator[Optional[bytes]]:
    """The bytes of a file from its start on, for ever. None comes where another file begins under the name, or the same one anew.

    `says` is called with a word or two for what the file is up to, and `waits` before a time without bytes."""
    file: Optional[int] = None
    at = 0
    while not ended.is_set():
        if file is None:
            file, at = _opened(path, says), 0
            if file is None:
                waits()
                ended.wait(POLL)
                continue
        block = _block(file, waits)
        if block:
            at += len(block)
            yield block
        elif _replaced(file, path):
            # the writer may have gone on between our last read and the renaming
            yield from _rest(file, waits)
            os.close(file)
            file = None
            yield None
        elif _cut(file, at):
            at = os.lseek(file, 0, os.SEEK_SET)
            yield None
        else:
            waits()
            ended.wait(POLL)
    if file is not None:
        os.close(file)


def _rest(file: int, waits: Callable[[], None]) -> Iterator[bytes]:
    """What is read of a file up to its end; standard input is file 0."""
    while True:
        block = _block(file, waits)
        if not block:
            return
        yield block


def _block(file: int, waits: Callable[[], None]) -> bytes:
    """The next bytes of a file, none at its end."""
    if not select.select([file], [], [], 0)[0]:
        waits()
    return os.read(file, BLOCK)


def _opened(path: str, says: Callable[[str], None]) -> Optional[int]:
    try:
        file = os.open(path, os.O_RDONLY)
    except OSError as error:
        says(f"waiting: {error.strerror}")
        return None
    if stat.S_ISDIR(os.fstat(file).st_mode):
        os.close(file)
        says("waiting: Is a directory")
        return None
    says("reading")
    return file


def _replaced(file: int, path: str) -> bool:
    """Whether another file stands under the name. Where none does, the old one is read on until there is."""
    try:
        now = os.stat(path)
    except OSError:
        return False
    return not os.path.samestat(now, os.fstat(file))


def _cut(file: int, at: int) -> bool:
    """Whether a file is shorter than what was read of it."""
    now = os.fstat(file)
    return stat.S_ISREG(now.st_mode) and now.st_size < at
