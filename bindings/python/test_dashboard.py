"""The dashboard from outside, without a browser: what viewers are told of a stream, and the bounds of requests."""
from __future__ import annotations

import concurrent.futures
import contextlib
import http.client
import os
import random
import socket
import subprocess
import sys
import tempfile
import threading
import time
import unittest
from typing import Any

from livevec_dashboard.connections import Connections, holder_of
from livevec_dashboard.lines import Lines
from livevec_dashboard.server import MOST_BODY, Bounds, Server
from livevec_dashboard.store import Store
from viewers import HERE, SECONDS, Client, ask, dashboard

# a title for the terminal's window, then what changes the direction of text, a colour and a new line
EVIL = "a\x1b]0;owned\x07\u202e\u2066\u200f\x9b31m\nb"
LAST = {"charts": [{"name": "a", "last": 1000, "columns": 500}], "watches": []}


class Serving(unittest.TestCase):
    def client(self, url: Any, **how: Any) -> Any:
        made = Client(url, **how)
        self.addCleanup(made.close)
        return made.hello()

    def write(self, pipe: Any, text: Any) -> None:
        pipe.write(text)
        pipe.flush()

    def test_two_viewers_a_stop_and_the_end_of_the_stream(self) -> None:
        with dashboard() as (pipe, url):
            one, two = self.client(url), self.client(url)
            self.write(pipe, b"".join(b"a %d\n" % number for number in range(5_000)))
            self.assertEqual((one.look(LAST), two.look({"charts": [{"name": "a", "lo": 10, "hi": 20, "columns": 500}], "watches": []})), (204, 204))
            chart = one.until(lambda page: page.charts.get("a", {}).get("edit") == 5_000).charts["a"]
            self.assertEqual((chart["numbers"]["sum"], chart["lo"], chart["hi"]), (str(sum(range(4_000, 5_000))), 4_000, 5_000))
            self.assertEqual(two.until(lambda page: "a" in page.charts).charts["a"]["numbers"]["sum"], str(sum(range(10, 20))))
            time.sleep(1.5)
            self.write(pipe, b"a 70\n")
            self.assertEqual(one.until(lambda page: page.charts["a"]["edit"] == 5_001).charts["a"]["now"], "70")
            pipe.close()
            one.until(lambda page: page.stream["state"] == "ended")
            self.assertEqual(two.until(lambda page: page.stream["state"] == "ended").stream["lines"], 5_001)
            self.assertEqual(ask(one.host, "GET", "/"), 200)

    def test_a_thousand_names_and_no_more(self) -> None:
        with dashboard() as (pipe, url):
            viewer = self.client(url)
            self.write(pipe, b"".join(b"name%d %d\n" % (number % 1_200, number) for number in range(12_000)))
            page = viewer.until(lambda page: page.stream.get("lines") == 12_000 and len(page.names) >= 1_000)
            self.assertEqual((page.names, page.stream["reasons"]), ([f"name{number}" for number in range(1_000)], {"more names than there is room for": 2_000}))
            viewer.look({"charts": [{"name": f"name{number}", "last": 100, "columns": 100} for number in range(976, 1_000)], "watches": []})
            page = viewer.until(lambda page: len(page.charts) == 24)
            self.assertEqual(page.charts["name999"]["numbers"]["sum"], str(sum(range(999, 12_000, 1_200))))

    def test_damaged_and_hostile_streams_leave_it_serving(self) -> None:
        chance = random.Random(3)
        hostile = [bytes(chance.randrange(256) for _ in range(50_000)), b"x" * 3_000_000 + b"\n", b"\0" * 100_000 + b"\n", b"<script>alert(1)</script> 5\n",
                   b"a 99999999999999999999999999\n", b"a 1e99999\n", b"\n" * 10_000, b"a " * 100_000 + b"\n", b"{" * 100_000 + b"\n", b"\xef\xbb\xbf,,,\n", b'"\n"\n']
        for shape in ("plain", "json", "csv"):
            with dashboard("--format", shape, "--names", "50") as (pipe, url):
                viewer = self.client(url)
                good = {"plain": b"zz 7\n", "json": b'{"zz": 7}\n', "csv": b"name,value\nzz,7\n"}[shape]
                for some in [good, *hostile, b"\n", good]:
                    self.write(pipe, some)
                viewer.look({"charts": [{"name": "zz", "last": 10, "columns": 50}], "watches": []})
                page = viewer.until(lambda page: page.charts.get("zz", {}).get("edit") == 2)
                self.assertEqual(page.charts["zz"]["numbers"]["sum"], "14")
                self.assertGreater(page.stream["bad"], 5)

    def test_requests_have_bounds(self) -> None:
        with dashboard() as (pipe, url):
            viewer = self.client(url)
            self.write(pipe, b"a 1\n")
            host = viewer.host
            self.assertEqual([ask(host, "GET", path) for path in ("/", "/else", "/../etc/passwd")], [200, 404, 404])
            self.assertEqual([ask(host, "GET", "/", Host="evil.example"), ask(host, "GET", "/events", Origin="http://evil.example")], [403, 403])
            self.assertEqual([viewer.look(LAST, Origin="http://evil.example"), viewer.look(LAST, Content_Type="text/plain")], [403, 403])
            self.assertEqual(ask(host, "POST", "/view?nobody", "{}"), 404)
            self.assertEqual([ask(host, "POST", f"/view?{viewer.key}", body) for body in ("{", "[" * 30_000, '{"charts": [], "watches": [{}]}', "x" * (MOST_BODY + 1))], [400, 400, 400, 413])
            with concurrent.futures.ThreadPoolExecutor(16) as several:
                self.assertEqual(set(several.map(lambda _: viewer.look(LAST), range(200))), {204, 429})
            others = [Client(url) for _ in range(33)]
            self.assertEqual(sorted(other.status for other in others), [200] * 31 + [503] * 2)
            for other in others:
                other.close()
            self.assertEqual(viewer.until(lambda page: "a" in page.charts).charts["a"]["now"], "1")

    def answered(self, host: Any, method: Any, path: Any, headers: Any) -> Any:
        """The status of an answer, its headers but for the time, and what reads its body."""
        lines = [f"{method} {path} HTTP/1.1", *(f"{name}: {value}" for name, value in {"Host": host, **headers}.items())]
        told = self.slow(host, "".join(f"{line}\r\n" for line in [*lines, ""]).encode()).makefile("rb")
        self.addCleanup(told.close)
        status = int(told.readline().split()[1])
        return status, {name: value for name, value in http.client.parse_headers(told).items() if name != "Date"}, told

    def test_head_is_answered_as_get_without_a_body(self) -> None:
        server, _ = self.serving(60, viewers=1)
        host = server.url.split("/")[2]
        for path, headers, wanted in (("/", {}, 200), ("/else", {}, 404), ("/view?nobody", {}, 404), ("/", {"Host": "evil.example"}, 403), ("/events", {"Sec-Fetch-Site": "cross-site"}, 403)):
            got, head = (self.answered(host, method, path, headers) for method in ("GET", "HEAD"))
            self.assertEqual((head[:2], head[0]), (got[:2], wanted), path)
            self.assertEqual((head[1]["Content-Length"], head[2].read()), (str(len(got[2].read())), b""), path)
        # of the stream there is no length, and HEAD takes the place of no viewer
        for _ in range(2):
            status, streamed, told = self.answered(host, "HEAD", "/events", {})
            self.assertEqual((status, streamed["Content-Type"], "Content-Length" in streamed, told.read(), len(server.guests)), (200, "text/event-stream; charset=utf-8", False, b"", 0))
        status, headers, _ = self.answered(host, "GET", "/events", {})
        self.assertEqual((status, headers), (200, streamed))
        got, head = (self.answered(host, method, "/events", {}) for method in ("GET", "HEAD"))
        self.assertEqual((head[:2], head[0], head[2].read()), (got[:2], 503, b""))

    def test_pages_from_elsewhere_take_no_seats(self) -> None:
        with dashboard() as (pipe, url):
            viewer = self.client(url)
            for site in ("cross-site", "same-site"):
                # as a browser asks for a picture: without an origin
                self.assertEqual({ask(viewer.host, "GET", "/events", Sec_Fetch_Site=site, Sec_Fetch_Mode="no-cors", Sec_Fetch_Dest="image") for _ in range(40)}, {403})
                self.assertEqual(viewer.look(LAST, Sec_Fetch_Site=site), 403)
                # a link to the page may stand anywhere
                self.assertEqual(ask(viewer.host, "GET", "/", Sec_Fetch_Site=site, Sec_Fetch_Mode="navigate"), 200)
            self.assertEqual([ask(viewer.host, "GET", "/events", Sec_Fetch_Site=site) for site in ("same-origin", "none")], [200, 200])
            self.assertEqual([ask(viewer.host, "GET", "/events", Origin=origin) for origin in ("null", "http://evil.example", f"https://{viewer.host}")], [403] * 3)
            self.assertEqual(ask(viewer.host, "GET", "/events", Origin=f"http://{viewer.host}", Sec_Fetch_Site="same-origin"), 200)
            self.assertEqual(viewer.look(LAST, Sec_Fetch_Site="same-origin"), 204)

    def test_it_serves_the_address_that_it_was_told_and_no_name_of_others(self) -> None:
        for host in ("127.0.0.1", "127.0.0.2", "localhost", "LOCALHOST"):
            with dashboard("--host", host) as (_, url):
                viewer = self.client(url)
                port = viewer.host.split(":")[1]
                self.assertEqual(url.split(":")[1], "//" + ("127.0.0.1" if host.lower() == "localhost" else host))
                for name, status in ((viewer.host, 200), (f"{host}:{port}", 200), (host, 200), (f"localhost:{port}", 200), (f"evil.example:{port}", 403), (f"{host}.evil.example", 403)):
                    self.assertEqual(ask(viewer.host, "GET", "/", Host=name), status, name)

    def test_an_address_of_version_6_is_served_however_it_is_written(self) -> None:
        for host, others in (("::1", ("[0:0:0:0:0:0:0:1]",)), ("::ffff:127.0.0.1", ("[::ffff:7f00:1]", "[::FFFF:127.0.0.1]"))):
            try:
                server = self.serving(60, host=host)[0]
            except OSError as error:
                self.skipTest(f"there is no {host}: {error}")
            served = server.url.split("/")[2]
            for name, status in ((served, 200), *((f"{other}:{server.server_address[1]}", 200) for other in others), ("[::2]", 403), ("evil.example", 403)):
                self.assertEqual(ask(served, "GET", "/", Host=name), status, name)

    def slow(self, server_host: Any, text: Any = b"GET /events HTTP/1.1\r\nHost: ") -> Any:
        """A connection whose request has begun, and is not at its end."""
        name, port = server_host.split(":")
        made = socket.create_connection((name, int(port)), SECONDS)
        self.addCleanup(made.close)
        made.sendall(text)
        return made

    def test_who_sends_slowly_shuts_nobody_out(self) -> None:
        with dashboard() as (pipe, url):
            viewer = self.client(url)
            self.write(pipe, b"a 1\n")
            slow = [self.slow(viewer.host) for _ in range(150)]
            for _ in range(3):
                for it in slow:
                    with contextlib.suppress(OSError):
                        it.sendall(b"x")
                self.assertEqual(ask(viewer.host, "GET", "/"), 200)
                self.assertEqual(self.client(url).look(LAST), 204)
            self.assertEqual(viewer.look(LAST), 204)
            self.assertEqual(viewer.until(lambda page: "a" in page.charts).charts["a"]["now"], "1")

    def test_a_whole_request_has_a_deadline(self) -> None:
        server, _ = self.serving(60, request=0.5)
        host = server.url.split("/")[2]
        viewer, began, ended = self.client(server.url), time.monotonic(), {}
        slow = [self.slow(host), self.slow(host, b""), self.slow(host, f"POST /view?{viewer.key} HTTP/1.1\r\nHost: {host}\r\nContent-Type: application/json\r\nContent-Length: 999\r\n\r\n".encode())]
        while len(ended) < len(slow) and time.monotonic() < began + SECONDS:
            time.sleep(0.05)
            for it in set(slow) - set(ended):
                try:
                    it.sendall(b"x")
                    it.settimeout(0)
                    if it.recv(1) == b"":
                        ended[it] = time.monotonic() - began
                except BlockingIOError:
                    it.settimeout(SECONDS)
                except OSError:
                    ended[it] = time.monotonic() - began
        self.assertEqual(len(ended), 3)
        self.assertGreater(min(ended.values()), 0.4)
        self.assertLess(max(ended.values()), 10)
        self.assertEqual(ask(host, "GET", "/"), 200)
        self.assertEqual(viewer.look(LAST), 204)
        # a thread that has answered ends soon
        while len(server.connections) > 1 and time.monotonic() < began + SECONDS:
            time.sleep(0.01)
        self.assertEqual(len(server.connections), 1)

    def test_both_bounds_of_connections_are_options(self) -> None:
        with dashboard("--connections", "3", "--deadline", "2") as (pipe, url):
            viewers, began = [self.client(url) for _ in range(2)], time.monotonic()
            slow = self.slow(viewers[0].host)
            self.assertEqual(slow.recv(1), b"")
            # it ends by the deadline that was said, and not by the usual one
            self.assertTrue(1.5 < time.monotonic() - began < 9)
            viewers.append(self.client(url))
            with self.assertRaises((OSError, http.client.HTTPException)):
                ask(viewers[0].host, "GET", "/")
            viewers.pop().close()
            end = time.monotonic() + SECONDS
            while time.monotonic() < end:
                # what was closed is found when it is written to
                self.write(pipe, b"a 1\n")
                with contextlib.suppress(OSError, http.client.HTTPException):
                    self.assertEqual(ask(viewers[0].host, "GET", "/"), 200)
                    return
                time.sleep(0.1)
            self.fail("the place of a viewer that has left is not free")

    def test_a_header_that_is_too_long_is_cut_off(self) -> None:
        server, _ = self.serving(60)
        host = server.url.split("/")[2]
        for count, answer in ((1, b"HTTP/1.0 200 OK\r\n"), (20, b"")):
            header = f"GET / HTTP/1.1\r\nHost: {host}\r\n".encode() + (b"X-Some: " + b"y" * 60_000 + b"\r\n") * count + b"\r\n"
            told = b""
            with contextlib.suppress(ConnectionError):
                told = self.slow(host, header).makefile("rb").readline()
            self.assertEqual(told, answer)

    def test_an_address_has_so_many_connections(self) -> None:
        bounds, pairs = Bounds(connections=20, of_this_machine=8, of_another=5), [socket.socketpair() for _ in range(60)]
        for one in pairs:
            self.addCleanup(one[0].close)
            self.addCleanup(one[1].close)
        some, open_ones = iter(pairs), Connections(bounds)

        def come(address: Any, heard: Any = True) -> Any:
            mine, theirs = next(some)
            theirs.settimeout(0)
            admitted = open_ones.admit(mine, address)
            if admitted and heard:
                open_ones.heard(mine)
            return admitted, mine, theirs

        first = come("10.0.0.1", heard=False)
        self.assertEqual([come("10.0.0.1")[0] for _ in range(6)], [True] * 5 + [False])
        # the sixth took the place of the first, whose request never came
        self.assertEqual(first[2].recv(1), b"")
        self.assertEqual([come(address)[0] for address in ("127.0.0.1", "127.0.0.2", "::1", "::ffff:127.9.9.9") * 2 + ("127.0.0.1",)], [True] * 8 + [False])
        self.assertEqual([come(f"2001:db8::{number:x}")[0] for number in range(6)], [True] * 5 + [False])
        waiting = come("10.0.0.2", heard=False)
        self.assertEqual((len(open_ones), come("10.0.0.3")[0], come("10.0.0.4")[0]), (19, True, True))
        self.assertEqual((len(open_ones), waiting[2].recv(1), come("10.0.0.5")[0]), (20, b"", False))
        open_ones.ended(waiting[1])
        self.assertEqual(len(open_ones), 20)
        self.assertEqual([holder_of(it) for it in ("10.0.0.1", "::ffff:10.0.0.1", "fe80::1%lo", "2001:db8::5")], ["10.0.0.1", "10.0.0.1", "fe80::/64", "2001:db8::/64"])

    def printed(self, *arguments: Any) -> Any:
        """What the command writes in the terminal up to the first line that isn't its usage."""
        told = subprocess.Popen([sys.executable, "-m", "livevec_dashboard", *arguments, "--port", "0"], cwd=HERE, stdin=subprocess.DEVNULL, stderr=subprocess.PIPE)
        try:
            lines = []
            while not lines or lines[-1] and not lines[-1].startswith(b"livevec-dashboard: "):
                lines.append(told.stderr.readline())
            return b"".join(lines).decode()
        finally:
            told.kill()
            told.wait(SECONDS)
            told.stderr.close()

    def test_what_it_prints_moves_no_terminal(self) -> None:
        shown = "a\\x1b]0;owned\\x07\\u202e\\u2066\\u200f\\x9b31m\\nb"
        with tempfile.TemporaryDirectory() as folder:
            file = os.path.join(folder, EVIL)
            with open(file, "wb"):
                pass
            for arguments in ((file,), ("-", "--title", EVIL), ("-", "--host", EVIL), ("-", EVIL), ("-", "--format", EVIL), ("-", "--scale", EVIL)):
                text = self.printed(*arguments)
                self.assertTrue(text.replace("\n", "").isprintable(), text)
                self.assertIn(shown, text)

    def serving(self, patience: Any, host: Any = "127.0.0.1", **bounds: Any) -> Any:
        """A server in this process, and its store."""
        store = Store()
        server = Server(host, 0, store, bounds=Bounds(patience=patience, **bounds))
        threading.Thread(target=server.serve_forever, daemon=True).start()
        self.addCleanup(server.server_close)
        self.addCleanup(server.shutdown)
        return server, store

    def test_a_viewer_that_stalls_holds_nothing_and_then_gets_the_latest(self) -> None:
        server, store = self.serving(60)
        lines, view = Lines(store.admit), {"charts": [{"name": name, "last": 1000, "columns": 2000} for name in "abcdef"], "watches": []}
        stalled, reading = self.client(server.url, receive=4096), self.client(server.url)
        stalled.look(view)
        reading.look(view)
        got = {"stalled": [], "reading": []}

        def follow(viewer: Any, who: Any) -> None:
            while not got[who] or got[who][-1] < 50_000:
                got[who] += [chart["edit"] for chart in viewer.next()[1].get("charts", []) if chart["name"] == "f"]

        beside = threading.Thread(target=follow, args=(reading, "reading"), daemon=True)
        beside.start()
        longest = 0.0
        for count in range(0, 50_000, 500):
            block = b"".join(b"%c %d\n" % (name, count + at) for at in range(500) for name in b"abcdef")
            began = time.monotonic()
            store.take(lines.take(block))
            longest = max(longest, time.monotonic() - began)
            time.sleep(0.05)
        beside.join(SECONDS)
        self.assertLess(longest, 5.0)
        self.assertEqual(got["reading"][-1], 50_000)
        follow(stalled, "stalled")
        # what lay in the system's buffers came first, and then the latest state
        self.assertLess(len(got["stalled"]), len(got["reading"]) / 2)
        self.assertGreater(len(got["reading"]), 10)

    def test_a_viewer_that_takes_nothing_is_closed(self) -> None:
        server, store = self.serving(0.5)
        lines = Lines(store.admit)
        viewer = self.client(server.url, receive=4096)
        viewer.look({"charts": [{"name": name, "last": 1000, "columns": 2000} for name in "abcdef"], "watches": []})
        end = time.monotonic() + SECONDS
        while server.guests and time.monotonic() < end:
            store.take(lines.take(b"".join(b"%c 1234567\n" % name for _ in range(500) for name in b"abcdef")))
            time.sleep(0.02)
        self.assertEqual(len(server.guests), 0)


if __name__ == "__main__":
    unittest.main()
