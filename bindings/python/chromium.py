"""Drives a Chromium without a window by its DevTools protocol over two pipes, for the tests of the dashboard's page. Nothing but Python is needed."""
from __future__ import annotations

import base64
import fcntl
import json
import os
import select
import shutil
import subprocess
import tempfile
import time
from typing import Any, Optional

PATIENCE = 60.0
"""After so many seconds without the answer that is waited for, the browser is taken for dead."""


def found() -> Optional[str]:
    """The path of a Chromium: that of CHROMIUM, or the first that is installed."""
    named = os.environ.get("CHROMIUM")
    return named or next(filter(None, map(shutil.which, ("chromium", "chromium-browser", "google-chrome"))), None)


class Chromium:
    """A browser, whose profile is gone with it."""

    def __init__(self, program: str) -> None:
        self._folder = tempfile.mkdtemp()
        there_in, self._to = _pipe()
        self._from, there_out = _pipe()
        arguments = [program, "--headless=new", "--remote-debugging-pipe", "--no-first-run", "--disable-gpu", "--disable-dev-shm-usage", "--hide-scrollbars",
                     "--disable-background-networking", "--disable-component-update", f"--user-data-dir={self._folder}"]
        if os.geteuid() == 0:
            arguments.append("--no-sandbox")
        # the protocol's pipes are 3 and 4 by its rules
        self._process = subprocess.Popen(["bash", "-c", f'exec "$@" 3<&{there_in} 4>&{there_out}', "chromium", *arguments],
                                         pass_fds=(there_in, there_out), env={**os.environ, "TMPDIR": self._folder}, stdin=subprocess.DEVNULL, stdout=subprocess.DEVNULL, stderr=subprocess.DEVNULL)
        os.close(there_in)
        os.close(there_out)
        self._number, self._rest = 0, b""
        self.events: list[dict[str, Any]] = []
        """What the browser told unasked."""

    def call(self, method: str, session: Optional[str] = None, **parameters: Any) -> dict[str, Any]:
        """Calls a method of the protocol, and gives its result."""
        self._number += 1
        sent = {"id": self._number, "method": method, "params": parameters, **({"sessionId": session} if session else {})}
        os.write(self._to, json.dumps(sent).encode() + b"\0")
        while True:
            told = self._next()
            if told.get("id") == self._number:
                if "error" in told:
                    raise RuntimeError(f"{method}: {told['error']['message']}")
                return told["result"]
            self.events.append(told)

    def _next(self) -> dict[str, Any]:
        while b"\0" not in self._rest:
            if not select.select([self._from], [], [], PATIENCE)[0]:
                raise TimeoutError("the browser does not answer")
            block = os.read(self._from, 1 << 20)
            if not block:
                raise RuntimeError("the browser has ended")
            self._rest += block
        told, _, self._rest = self._rest.partition(b"\0")
        return json.loads(told)

    def open(self, url: str, width: int = 1280, height: int = 900, *, dark: bool = False, ratio: float = 1, touch: bool = False) -> Tab:
        """A page of its own, as large as it is said."""
        target = self.call("Target.createTarget", url="about:blank")["targetId"]
        tab = Tab(self, self.call("Target.attachToTarget", targetId=target, flatten=True)["sessionId"])
        tab.call("Emulation.setDeviceMetricsOverride", width=width, height=height, deviceScaleFactor=ratio, mobile=touch)
        tab.scheme(dark)
        tab.call("Runtime.enable")
        tab.call("Log.enable")
        tab.call("Page.enable")
        tab.call("Page.navigate", url=url)
        tab.until("document.readyState === 'complete' && location.href !== 'about:blank'")
        return tab

    def close(self) -> None:
        self._process.terminate()
        try:
            self._process.wait(10)
        except subprocess.TimeoutExpired:
            self._process.kill()
            self._process.wait()
        os.close(self._to)
        os.close(self._from)
        shutil.rmtree(self._folder, ignore_errors=True)


class Tab:
    """A page of a browser."""

    def __init__(self, browser: Chromium, session: str) -> None:
        self.browser, self.session = browser, session

    def call(self, method: str, **parameters: Any) -> dict[str, Any]:
        return self.browser.call(method, self.session, **parameters)

    def run(self, script: str) -> Any:
        """What an expression of JavaScript comes to in the page, as JSON has it."""
        told = self.call("Runtime.evaluate", expression=script, awaitPromise=True, returnByValue=True)
        if "exceptionDetails" in told:
            raise RuntimeError(told["exceptionDetails"].get("exception", {}).get("description", told["exceptionDetails"]["text"]))
        return told["result"].get("value")

    def until(self, script: str, seconds: float = PATIENCE) -> Any:
        """Waits until an expression is true in the page, and gives what it came to."""
        end = time.monotonic() + seconds
        while True:
            value = self.run(script)
            if value:
                return value
            if time.monotonic() > end:
                raise TimeoutError(f"after {seconds} seconds it is still {value!r}: {script}")
            time.sleep(0.05)

    def scheme(self, dark: bool) -> None:
        """Whether the page's reader likes it dark."""
        self.call("Emulation.setEmulatedMedia", features=[{"name": "prefers-color-scheme", "value": "dark" if dark else "light"}])

    def key(self, name: str, code: int, *, text: str = "", shift: bool = False) -> None:
        """Presses a key. `code` is its number in the protocol."""
        for kind in ("keyDown", "keyUp"):
            self.call("Input.dispatchKeyEvent", type=kind, key=name, windowsVirtualKeyCode=code, modifiers=8 * shift, **({"text": text} if text and kind == "keyDown" else {}))

    def drag(self, x: float, y: float, to: float) -> None:
        """Drags the mouse from one place to another beside it."""
        for kind, at, held in (("mousePressed", x, 1), ("mouseMoved", (x + to) / 2, 1), ("mouseMoved", to, 1), ("mouseReleased", to, 0)):
            self.call("Input.dispatchMouseEvent", type=kind, x=at, y=y, button="left", buttons=held, clickCount=1)

    def picture(self, path: str, *, whole: bool = False) -> None:
        """Writes what is seen, or the whole page, as a PNG picture."""
        shown = self.call("Page.captureScreenshot", format="png", captureBeyondViewport=whole)
        with open(path, "wb") as file:
            file.write(base64.b64decode(shown["data"]))

    def complaints(self) -> list[str]:
        """What went wrong in the page's script, or was refused to it, since it was asked last."""
        found = []
        for event in self.browser.events:
            parameters = event.get("params", {})
            if event.get("sessionId") != self.session:
                continue
            if event["method"] == "Runtime.exceptionThrown":
                found.append(parameters["exceptionDetails"].get("exception", {}).get("description", parameters["exceptionDetails"]["text"]))
            elif event["method"] == "Log.entryAdded" and parameters["entry"]["level"] == "error":
                found.append(parameters["entry"]["text"])
        self.browser.events.clear()
        return found

    def close(self) -> None:
        self.call("Page.close")


def _pipe() -> tuple[int, int]:
    """A pipe, neither end of which is one of the numbers that the protocol has for its own."""
    ends = []
    for end in os.pipe():
        ends.append(fcntl.fcntl(end, fcntl.F_DUPFD_CLOEXEC, 10))
        os.close(end)
    return ends[0], ends[1]
