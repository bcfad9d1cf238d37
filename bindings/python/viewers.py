"""A viewer of the dashboard without a browser, and the command that serves it: for tests, and for the bench."""
from __future__ import annotations

import contextlib
import http.client
import json
import os
import socket
import subprocess
import sys
import time
from urllib.parse import urlsplit
from typing import Any

HERE = os.path.dirname(os.path.abspath(__file__))
SECONDS = 30


class Page:
    """What the page makes of frames, in few words: columns and numbers of each chart, and the standing queries' answers."""

    def __init__(self) -> None:
        self.names, self.columns, self.charts, self.watches, self.stream, self.sent = [], {}, {}, {}, {}, 0

    def take(self, frame: Any) -> None:
        self.names += frame.get("names", [])
        self.stream = frame.get("stream", self.stream)
        for chart in frame.get("charts", []):
            columns = {} if chart["anew"] else self.columns[chart["name"]]
            columns.update((number, rest) for number, *rest in chart["columns"])
            self.columns[chart["name"]] = {number: rest for number, rest in columns.items() if number >= chart["lo"] // chart["width"]}
            self.charts[chart["name"]] = chart
            self.sent += len(chart["columns"])
        for watch in frame.get("watches", []):
            self.watches.setdefault(watch["id"], []).append(watch)


class Client:
    """A viewer without a browser."""

    def __init__(self, url: Any, receive: Any = None) -> None:
        self.host = urlsplit(url).netloc
        name, port = self.host.split(":")
        self.socket = socket.socket()
        if receive:
            self.socket.setsockopt(socket.SOL_SOCKET, socket.SO_RCVBUF, receive)
        self.socket.settimeout(SECONDS)
        self.socket.connect((name, int(port)))
        self.socket.sendall(f"GET /events HTTP/1.1\r\nHost: {self.host}\r\n\r\n".encode())
        self.file, self.page = self.socket.makefile("rb"), Page()
        self.status = int(self.file.readline().split()[1])
        while self.file.readline().strip():
            pass

    def next(self) -> Any:
        """The next event's kind and data."""
        lines = []
        while True:
            line = self.file.readline()
            if not line:
                raise EOFError
            if line == b"\n":
                return lines[0].split(b": ", 1)[1].decode().strip(), json.loads(lines[1].split(b": ", 1)[1])
            lines.append(line)

    def hello(self) -> Any:
        kind, data = self.next()
        assert kind == "hello"
        self.key = data["viewer"]
        return self

    def look(self, view: Any, **how: Any) -> Any:
        return ask(self.host, "POST", f"/view?{self.key}", json.dumps(view), **how)

    def until(self, done: Any) -> Any:
        """Takes frames until something is so."""
        end = time.monotonic() + SECONDS
        while not done(self.page):
            kind, data = self.next()
            if kind == "message":
                self.page.take(data)
            if time.monotonic() > end:
                raise TimeoutError
        return self.page

    def close(self) -> None:
        self.file.close()
        self.socket.close()


def ask(host: Any, method: Any, path: Any, body: Any = None, **headers: Any) -> Any:
    """The status of a request."""
    asked = http.client.HTTPConnection(host, timeout=SECONDS)
    given = {"Content-Type": "application/json"} if method == "POST" else {}
    try:
        asked.request(method, path, body, {**given, **{name.replace("_", "-"): value for name, value in headers.items()}})
        return asked.getresponse().status
    finally:
        asked.close()


@contextlib.contextmanager
def dashboard(*arguments: Any) -> Any:
    """The command, which reads from a pipe; gives the pipe and where it serves."""
    process = subprocess.Popen([sys.executable, "-m", "livevec_dashboard", "-", "--port", "0", *arguments], cwd=HERE, stdin=subprocess.PIPE, stderr=subprocess.PIPE)
    try:
        url = process.stderr.readline().decode().split()[-1]
        yield process.stdin, url
        assert process.poll() is None, "the dashboard has ended"
    finally:
        process.terminate()
        with contextlib.suppress(BrokenPipeError):
            process.stdin.close()
        process.stderr.close()
        process.wait(SECONDS)
