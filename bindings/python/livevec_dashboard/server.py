"""The page, its events, and the bounds of requests.

It is Python's own HTTP server, with a thread a connection: it needs nothing installed, and a viewer that is slow blocks its own thread alone.

| Request | Answer |
|---|---|
| GET / | the page |
| GET /events | server-sent events: `hello` with the viewer's key, then one message a frame, which has what changed |
| HEAD of these | the status and the headers of GET, and no body; no viewer is made |
| POST /view?KEY | takes what that viewer looks at, as JSON |
"""
from __future__ import annotations

import base64
import hashlib
import http.server
import io
import ipaddress
import json
import os
import re
import secrets
import socket
import socketserver
import sys
import threading
import time
import traceback
from typing import Any, Optional

from .connections import MOST_BODY, Bounds, Connections, Incoming, is_of_this_machine
from .store import Store
from .texts import shown
from .viewer import Viewer
from .views import BadView, view_of

FRAME = 0.1
"""So many seconds lie between two frames of a viewer at least, unless it looks elsewhere."""
BEAT = 5.0
"""After so many seconds without a frame a viewer is told that the server is there."""
MOST_LOOKS = 20
"""A viewer may change its view so often in a second; as many at once."""
_BACKLOG = 1 << 16
"""So many bytes the system holds for a viewer that does not read. What it has not taken is not followed by older states, but by the latest."""
_LOCAL = "localhost", "127.0.0.1", "::1"


class _Guest:
    """A viewer as the server knows it."""

    def __init__(self, viewer: Viewer) -> None:
        self.viewer = viewer
        self._looks, self._since = float(MOST_LOOKS), time.monotonic()

    def may_look(self) -> bool:
        """Whether it changes its view no more often than it may."""
        now = time.monotonic()
        self._looks = min(self._looks + (now - self._since) * MOST_LOOKS, MOST_LOOKS)
        self._since = now
        if self._looks < 1:
            return False
        self._looks -= 1
        return True


class Server(http.server.ThreadingHTTPServer):
    """Serves one store. `title` names the stream, and values are shown divided by 10**digits."""

    daemon_threads = True
    request_queue_size = 64

    def __init__(self, host: str, port: int, store: Store, *, title: str = "", digits: int = 0, bounds: Bounds = Bounds()) -> None:
        self.address_family = socket.AF_INET6 if ":" in host else socket.AF_INET
        self.store, self.title, self.digits, self.bounds = store, title, digits, bounds
        self.page, self.policy = _page()
        self.guests: dict[str, _Guest] = {}
        self.seating = threading.Lock()
        self.connections = Connections(bounds)
        super().__init__((host, port), Handler)
        bound = str(self.server_address[0])
        self.hosts = set(map(_host_of, (*_LOCAL, host, bound))) if is_of_this_machine(bound) else None
        """What a request may name as its host; any name where other machines reach this server."""

    @property
    def url(self) -> str:
        host, port = map(str, self.server_address[:2])
        return f"http://{_in_url(host)}:{port}/"

    def server_bind(self) -> None:
        # the server above would ask for this machine's name too, which may take seconds
        socketserver.TCPServer.server_bind(self)
        self.server_name, self.server_port = map(str, self.server_address[:2])  # type: ignore[assignment]

    def process_request(self, request: Any, client_address: Any) -> None:
        """Gives a connection its thread, or closes it where there are too many."""
        if self.connections.admit(request, client_address[0]):
            super().process_request(request, client_address)
        else:
            super().shutdown_request(request)

    def shutdown_request(self, request: Any) -> None:
        self.connections.ended(request)
        super().shutdown_request(request)

    def handle_error(self, request: Any, client_address: Any) -> None:
        """A viewer that goes away in the middle is nothing to speak of; all else is told."""
        if not isinstance(sys.exc_info()[1], OSError):
            print(*map(shown, traceback.format_exc().splitlines()), sep="\n", file=sys.stderr)

    def has_room(self) -> bool:
        """Whether there is room for one more viewer."""
        return len(self.guests) < self.bounds.viewers

    def seated(self) -> Optional[str]:
        """The key of a new viewer, if there is room for one."""
        with self.seating:
            if not self.has_room():
                return None
            key = secrets.token_urlsafe(12)
            self.guests[key] = _Guest(Viewer(self.store, self.digits))
            return key

    def left(self, key: str) -> None:
        with self.seating:
            del self.guests[key]


class Handler(http.server.BaseHTTPRequestHandler):
    """One connection, which serves one request."""

    server: Server

    def setup(self) -> None:
        super().setup()
        self.connection.settimeout(self.server.bounds.patience)
        self.rfile.close()
        self.rfile = io.BufferedReader(Incoming(self.connection, self.server.bounds.request))

    def version_string(self) -> str:
        return "livevec-dashboard"

    def log_message(self, *_: Any) -> None:
        """Requests are not told."""

    def do_GET(self) -> None:
        if not self._from_here():
            self._text(403, "this host name is not served")
        elif self.path == "/":
            self._reply(200, self.server.page, "text/html; charset=utf-8", {"Content-Security-Policy": self.server.policy})
        elif self.path != "/events":
            self._text(404, "there is only the page, at /")
        elif not self._from_page():
            self._text(403, "a page of this server is wanted")
        elif self.command == "HEAD" and self.server.has_room():
            self._events_head()
        elif self.command == "HEAD":
            self._full()
        else:
            self._events()

    def do_HEAD(self) -> None:
        """Answers as GET does, but sends no body."""
        self.do_GET()

    def do_POST(self) -> None:
        path, _, key = self.path.partition("?")
        with self.server.seating:
            guest = self.server.guests.get(key)
        length = self.headers.get("Content-Length", "")
        if not self._from_here() or not self._from_page() or self.headers.get_content_type() != "application/json":
            self._text(403, "a page of this server is wanted")
        elif path != "/view" or guest is None:
            self._text(404, "there is no such viewer")
        elif not re.fullmatch("[0-9]{1,6}", length) or int(length) > MOST_BODY:
            self._text(413, f"a view takes at most {MOST_BODY} bytes")
        elif not guest.may_look():
            self._text(429, f"a view may change {MOST_LOOKS} times a second")
        else:
            self._look(guest, self.rfile.read(int(length)))

    def _look(self, guest: _Guest, body: bytes) -> None:
        wrong = ""
        try:
            guest.viewer.look(view_of(json.loads(body)))
        except (BadView, ValueError, RecursionError) as error:
            wrong = str(error) if isinstance(error, BadView) else "JSON is wanted"
        # this thread has done nothing else
        self.server.store.pace.rest(time.thread_time())
        if wrong:
            self._text(400, wrong)
        else:
            self._reply(204, b"", "text/plain")

    def _from_here(self) -> bool:
        """Whether a request names this server, and was made by no script from elsewhere."""
        host = self.headers.get("Host", "").lower()
        is_named = self.server.hosts is None or _host_of(re.sub(r":[0-9]+\Z", "", host)) in self.server.hosts
        return is_named and self.headers.get("Origin") in (None, f"http://{host}")

    def _from_page(self) -> bool:
        """Whether a request was made by the page of this server, by somebody who typed its address, or by what is no browser.

        A page from elsewhere may have a browser ask for what it calls a picture, without an origin. Browsers say then that it comes from elsewhere."""
        return self.headers.get("Sec-Fetch-Site", "none") in ("same-origin", "none")

    def _events(self) -> None:
        """Sends frames until the viewer is gone, or takes nothing for too long."""
        key = self.server.seated()
        if key is None:
            self._full()
            return
        try:
            self.connection.setsockopt(socket.SOL_SOCKET, socket.SO_SNDBUF, _BACKLOG)
            self._events_head()
            self._send("hello", {"viewer": key, "title": self.server.title, "digits": self.server.digits})
            self._frames(self.server.guests[key].viewer)
        except OSError:
            pass
        finally:
            self.server.left(key)

    def _frames(self, viewer: Viewer) -> None:
        changing, seen = self.server.store.changing, -1
        while True:
            began = time.monotonic()
            with changing:
                changing.wait_for(lambda: self.server.store.version != seen or viewer.looked.is_set(), BEAT)
                seen = self.server.store.version
            sent = 0
            for sent, frame in enumerate(viewer.frames(), start=1):
                self._send("message", frame)
            if not sent and time.monotonic() - began >= BEAT:
                self._send("beat", {})
            viewer.looked.wait(FRAME)

    def _events_head(self) -> None:
        self._head(200, "text/event-stream; charset=utf-8", {})

    def _full(self) -> None:
        self._text(503, "there are as many viewers as there may be")

    def _send(self, event: str, data: dict[str, Any]) -> None:
        self.wfile.write(f"event: {event}\ndata: {json.dumps(data, separators=(',', ':'))}\n\n".encode())

    def _text(self, status: int, text: str) -> None:
        self._reply(status, f"{text}\n".encode(), "text/plain; charset=utf-8")

    def _reply(self, status: int, body: bytes, kind: str, headers: Optional[dict[str, str]] = None) -> None:
        self._head(status, kind, {"Content-Length": str(len(body)), **(headers or {})})
        if self.command != "HEAD":
            self.wfile.write(body)

    def _head(self, status: int, kind: str, headers: dict[str, str]) -> None:
        self.server.connections.heard(self.request)
        self.send_response(status)
        for name, value in {"Content-Type": kind, "Cache-Control": "no-store", "X-Content-Type-Options": "nosniff", **headers}.items():
            self.send_header(name, value)
        self.end_headers()


def _in_url(host: str) -> str:
    """An address as it is written in a URL."""
    return f"[{host}]" if ":" in host else host


def _host_of(text: str) -> str:
    """A host as it is compared: an address by its value, which may be written in several ways, and a name in small letters."""
    bare = text.removeprefix("[").removesuffix("]").lower()
    try:
        return str(ipaddress.ip_address(bare))
    except ValueError:
        return bare


# what stands in the page's style and script, in the order in which a browser reads it
_PARTS = {"script": ("page_state.js", "page_charts.js", "page_choices.js"), "style": ("page.css",)}


def _beside(name: str) -> str:
    """The text of a file of this package."""
    with open(os.path.join(os.path.dirname(os.path.abspath(__file__)), name), encoding="utf-8") as file:
        return file.read()


def _page() -> tuple[bytes, str]:
    """The page with its parts, and the policy under which a browser runs its own script and style and no others."""
    page = _beside("page.html")
    hashes = {}
    for tag, names in _PARTS.items():
        inside = "\n" + "".join(map(_beside, names))
        assert page.count(f"<{tag}></{tag}>") == 1
        page = page.replace(f"<{tag}></{tag}>", f"<{tag}>{inside}</{tag}>")
        hashes[tag] = base64.b64encode(hashlib.sha256(inside.encode()).digest()).decode()
    policy = (f"default-src 'none'; script-src 'sha256-{hashes['script']}'; style-src 'sha256-{hashes['style']}'; connect-src 'self'; img-src data:; "
              "base-uri 'none'; form-action 'none'; frame-ancestors 'none'")
    return page.encode(), policy
