"""How much the viewers may compute while the feed has more to read.

One thread of a Python program runs at a time, so a viewer whose charts take long would take that time from the feed.
"""
from __future__ import annotations

import threading
import time

REST = 9
"""After each piece of work a viewer's thread sleeps so many times as long as the work took, while the feed has more to read."""
PIECE = 0.004
"""So many seconds of work are a piece. Less is added up, since each sleep costs the feed a change of threads."""


class Pace:
    """Leaves the feed most of the time: all viewers together work for a ninth of it at most. While the feed waits for bytes nobody sleeps."""

    def __init__(self) -> None:
        self.feed_has_more = False
        self._lock = threading.Lock()
        self._free = 0.0

    def rest(self, worked: float) -> None:
        """Sleeps for work of so many seconds. Who comes while others sleep sleeps after them. No lock may be held meanwhile."""
        if not self.feed_has_more:
            return
        with self._lock:
            now = time.monotonic()
            self._free = max(self._free, now) + worked * REST
            wait = self._free - now
        time.sleep(wait)


class Work:
    """The work of a viewer's thread, as far as it has not rested for it."""

    def __init__(self, pace: Pace) -> None:
        self._pace, self._owed, self._since = pace, 0.0, time.thread_time()

    def begin(self) -> None:
        """From here on this thread works."""
        self._since = time.thread_time()

    def pause(self) -> None:
        """Sleeps where there was enough work for that."""
        now = time.thread_time()
        self._owed += now - self._since
        if self._owed >= PIECE:
            self._pace.rest(self._owed)
            self._owed = 0.0
        self._since = now
