"""Who is connected: how many at once, of all and of one address, and until when a request has to be there."""
from __future__ import annotations

import contextlib
import io
import ipaddress
import socket
import threading
import time
from typing import TYPE_CHECKING, NamedTuple, Optional

if TYPE_CHECKING:
    from _typeshed import WriteableBuffer

MOST_BODY = 1 << 16
MOST_REQUEST = MOST_BODY + (1 << 15)
"""A request of more bytes, with its header, is cut off."""
MOST_OF_ONE = 500
"""No address may have more connections than this, whatever is said: a system gives a program some thousand files, and `select` takes no more."""
_HERE = "this machine"


class Bounds(NamedTuple):
    """How much a server takes: viewers, connections at once, and how many of these may be this machine's or those of another address; the seconds in
    which a whole request is to come, and those in which a reply or a frame is to be taken."""

    viewers: int = 32
    connections: int = 96
    of_this_machine: int = 64
    of_another: int = 16
    request: float = 10.0
    patience: float = 20.0


def bounds_of(of_one: Optional[int], request: float) -> Bounds:
    """The usual bounds, but so many connections of each address, if that is said, and so many seconds for a request."""
    usual = Bounds(request=request)
    return usual if of_one is None else usual._replace(of_this_machine=of_one, of_another=of_one, connections=max(usual.connections, of_one))


class _Open:
    """A connection that is open: whose it is, and whether its request has not come as a whole."""

    def __init__(self, holder: str) -> None:
        self.holder, self.is_awaited = holder, True


class Connections:
    """The connections that are open, in the order in which they came.

    Where there is no room for one more, it takes the place of the one whose request is awaited longest. So whoever sends slowly, or nothing, shuts out
    nobody whose request comes at once."""

    def __init__(self, bounds: Bounds) -> None:
        self._bounds, self._changing = bounds, threading.Lock()
        self._open: dict[socket.socket, _Open] = {}

    def __len__(self) -> int:
        return len(self._open)

    def admit(self, connection: socket.socket, address: str) -> bool:
        """Takes one in, if there is room or some can be made."""
        holder = holder_of(address)
        most = self._bounds.of_this_machine if holder == _HERE else self._bounds.of_another
        with self._changing:
            alike = [it for it, whose in self._open.items() if whose.holder == holder]
            if len(alike) >= most:
                admitted = self._make_room(alike)
            elif len(self._open) >= self._bounds.connections:
                admitted = self._make_room(list(self._open))
            else:
                admitted = True
            if admitted:
                self._open[connection] = _Open(holder)
            return admitted

    def heard(self, connection: socket.socket) -> None:
        """The request of one has come, so it keeps its place until it ends."""
        with self._changing:
            if connection in self._open:
                self._open[connection].is_awaited = False

    def ended(self, connection: socket.socket) -> None:
        with self._changing:
            self._open.pop(connection, None)

    def _make_room(self, among: list[socket.socket]) -> bool:
        """Ends the first of some whose request is awaited. Its thread, which reads, finds that nothing more comes."""
        for it in among:
            if self._open[it].is_awaited:
                del self._open[it]
                with contextlib.suppress(OSError):
                    it.shutdown(socket.SHUT_RDWR)
                return True
        return False


def holder_of(address: str) -> str:
    """Whose connections are counted together: all of this machine's own addresses, an address of version 4, or a network of 64 bits of version 6."""
    found = ipaddress.ip_address(address.partition("%")[0])
    if isinstance(found, ipaddress.IPv6Address):
        if found.ipv4_mapped is None:
            return _HERE if found.is_loopback else str(ipaddress.IPv6Network((int(found), 64), strict=False))
        found = found.ipv4_mapped
    return _HERE if found.is_loopback else str(found)


def is_of_this_machine(address: str) -> bool:
    """Whether it is of the loopback, also where an address of version 4 is written as one of version 6."""
    return holder_of(address) == _HERE


class Incoming(io.RawIOBase):
    """The bytes of a request as they come, for so many seconds in all and no more than a request may have."""

    def __init__(self, connection: socket.socket, seconds: float) -> None:
        super().__init__()
        self._connection, self._end, self._left = connection, time.monotonic() + seconds, MOST_REQUEST

    def readable(self) -> bool:
        return True

    def readinto(self, buffer: WriteableBuffer) -> int:
        seconds = self._end - time.monotonic()
        if seconds <= 0 or self._left <= 0:
            raise socket.timeout("the request takes too long")
        before = self._connection.gettimeout()
        self._connection.settimeout(seconds)
        try:
            count = self._connection.recv_into(buffer)
        finally:
            self._connection.settimeout(before)
        self._left -= count
        return count
