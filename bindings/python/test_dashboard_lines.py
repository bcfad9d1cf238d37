"""The lines that the dashboard reads, and the files that it follows.

Expected values are worked out by hand."""
from __future__ import annotations

import os
import subprocess
import sys
import tempfile
import threading
import time
import unittest
from datetime import datetime, timezone
from typing import Any

from livevec_dashboard.lines import MOST_LINE, Lines
from livevec_dashboard.numbers import spelt
from livevec_dashboard.store import Store
from livevec_dashboard.stream import Feed, followed
from livevec_dashboard.times import NO_TIME, time_of
from viewers import HERE, SECONDS


def told(text: Any, **how: Any) -> Any:
    """What lines say, and which of them are bad."""
    lines = Lines(lambda name: True, **how)
    first, rest = lines.take(text), lines.end()
    samples = {name: first.samples.get(name, []) + rest.samples.get(name, []) for name in {**first.samples, **rest.samples}}
    return samples, {why: first.bad.get(why, 0) + rest.bad.get(why, 0) for why in {**first.bad, **rest.bad}}


class Stream(unittest.TestCase):
    def test_each_form_of_line(self) -> None:
        wanted = {"cpu": [3, -4], "disk used": [9]}
        for text in (b"cpu 3\ndisk used\t9\r\n\n  cpu  -4  \n",
                     b'{"name": "cpu", "value": 3}\n{"name": "disk used", "value": 9, "unit": "GB"}\n{"value": -4, "name": "cpu"}',
                     b'{"cpu": 3, "disk used": 9}\n{"cpu": -4}\n',
                     b"name,value\ncpu,3\n\"disk used\",9\ncpu,-4\n",
                     b"cpu,disk used\n3,9\n-4,\n",
                     b"\xef\xbb\xbfname,value\r\ncpu,3\r\ndisk used,9\r\ncpu,-4\r\n"):
            self.assertEqual(told(text), (wanted, {}), text)

    def test_bytes_may_be_cut_anywhere(self) -> None:
        text = b"a 1\nb 22\na -333\n" + b"x" * (MOST_LINE + 5) + b" 1\na 4"
        whole = told(text)
        self.assertEqual(whole, ({"a": [1, -333, 4], "b": [22]}, {"too long": 1}))
        for size in (1, 2, 3, 7, 1000):
            lines, samples, bad, count = Lines(lambda name: True), {}, 0, 0
            for some in [lines.take(text[at:at + size]) for at in range(0, len(text), size)] + [lines.end()]:
                for name, values in some.samples.items():
                    samples.setdefault(name, []).extend(values)
                bad += sum(some.bad.values())
                count += some.lines
            self.assertEqual((samples, bad, count), (whole[0], 1, 5), size)

    def test_bad_lines_are_counted_by_their_reason(self) -> None:
        for line, why in [(b"cpu", "no value"), (b"cpu x", "not a number"), (b"cpu 1_000", "not a number"), (b"cpu 0x10", "not a number"),
                          ("cpu ١٢".encode(), "not a number"), (b"cpu nan", "not a number"), (b"cpu inf", "not a number"), (b"cpu 1.5", "a decimal, and no --scale"),
                          (b"cpu 9223372036854775808", "outside 64 bits"), (b"cpu -9223372036854775809", "outside 64 bits"),
                          (b"cpu " + b"9" * 4000, "outside 64 bits"), (b"c" * 201 + b" 1", "a name that is too long"), (b"\xff 1", "a name that is not UTF-8"),
                          (b"a\x1bb 1", "a name that cannot be shown"), ("a\u202eb 1".encode(), "a name that cannot be shown"), (b"a" * MOST_LINE + b" 1", "too long")]:
            self.assertEqual(told(b"good 1\n" + line + b"\ngood 2\n"), ({"good": [1, 2]}, {why: 1}), line[:40])
        for line, why in [(b"{", "not JSON"), (b"[" * 4000, "not JSON"), (b"[1]", "not a JSON object"), (b'{"name": 5, "value": 1}', "a name that is not text"),
                          (b'{"name": "x", "value": true}', "not a number"), (b'{"name": "x", "value": "7"}', "not a number"), (b'{"x": NaN}', "not JSON"),
                          (b'{"x": 1e3}', "a decimal, and no --scale"), (b'{"x": ' + b"8" * 4000 + b"}", "outside 64 bits"),
                          (b'{"\\ud800": 1}', "a name that is not UTF-8"), (b"\xff", "not JSON"), (b'{"good": 7, "x": null}', "not a number")]:
            samples, bad = told(b'{"good": 1}\n' + line + b'\n{"good": 2}\n')
            self.assertEqual((samples["good"][0], samples["good"][-1], list(samples), bad), (1, 2, ["good"], {why: 1}), line[:40])
        self.assertEqual(told(b"a,b\n1,2,3\n4,x\n\xff,1\n"), ({"a": [4]}, {"another number of fields than the header": 1, "not a number": 1, "not CSV": 1}))

    def test_a_scale_makes_whole_numbers_of_decimals(self) -> None:
        self.assertEqual(told(b"a 1.5\na 2\na -0.0004\na 1.0006\na 1e2\na .5\na 0.0005\na 0.0015\n", scale=1000),
                         ({"a": [1500, 2000, 0, 1001, 100000, 500, 0, 2]}, {}))
        self.assertEqual(told(b'{"a": 1.25, "b": -3}', scale=100), ({"a": [125], "b": [-300]}, {}))
        self.assertEqual(told(b"a 9223372036854775.807\na 9223372036854775.808\na 1e9999\na 1e-9999\n", scale=1000), ({"a": [2**63 - 1, 0]}, {"outside 64 bits": 2}))
        self.assertEqual([spelt(value, 3) for value in (0, 5, -5, 12345, -12345, 2**63)], ["0.000", "0.005", "-0.005", "12.345", "-12.345", "9223372036854775.808"])

    def test_a_number_is_rounded_once_and_a_half_to_even(self) -> None:
        for text, number in [("1.4" + "9" * 80, 1), ("-1.4" + "9" * 80, -1), ("0.5", 0), ("1.5", 2), ("2.5", 2), ("-2.5", -2), ("2.5" + "0" * 80 + "1", 3),
                             ("0.4" + "9" * 4000, 0), ("0.5" + "0" * 4000 + "1", 1), ("149999999999999999999999999999999999999999999999999999999999999999999e-68", 1),
                             ("9223372036854775807.4" + "9" * 80, 2**63 - 1)]:
            self.assertEqual(told(f"a {text}\n".encode(), scale=1), ({"a": [number]}, {}), text[:30])
            self.assertEqual(told(f'{{"a": {text}}}\n'.encode(), scale=1), ({"a": [number]}, {}), text[:30])
        self.assertEqual(told(b"a 0.0014" + b"9" * 80 + b"\n", scale=1000), ({"a": [1]}, {}))
        self.assertEqual(told(b"a 9223372036854775807.5\n", scale=1), ({}, {"outside 64 bits": 1}))

    def test_times_are_those_that_a_line_says(self) -> None:
        start = datetime(2026, 11, 27, 21, 30, tzinfo=timezone.utc)
        moment = round(start.timestamp())
        for value in (moment, moment * 1000, moment * 10**6, moment * 10**9, str(moment), f"{moment}.0009", "2026-11-27T21:30:00Z", "2026-11-27 23:30:00.0+02:00",
                      "2026-11-27T16:00:00-0530", start.astimezone().strftime("%Y-%m-%d %H:%M")):
            self.assertEqual(time_of(value), moment * 1000, value)
        self.assertEqual(time_of("2026-11-27T21:30:00.123456Z"), moment * 1000 + 123)
        # of more digits than a decimal of Python has by itself no part is rounded up
        self.assertEqual([time_of(f"{moment}.{part}" + "9" * 17) for part in ("000", "122", "999")], [moment * 1000, moment * 1000 + 122, moment * 1000 + 999])
        for value in (35, -moment, 20261127213000, "12:00", "2026-13-01", "2026-11-27T25:00Z", "now", "", "1e9", True, None, 1.5, [], 10**4000, "9" * 4000):
            self.assertIsNone(time_of(value), value)

    def test_each_form_that_has_times_takes_them_with_its_samples(self) -> None:
        for text, how in ((b'{"time": 1700000000, "cpu": 3, "disk": 9}\n{"timestamp": "2023-11-14T22:13:21Z", "cpu": 4}\n{"cpu": 5}\n', {}),
                          (b'{"name": "cpu", "value": 3, "time": 1700000000}\n{"name": "disk", "value": 9, "time": 1700000000}\n'
                           b'{"name": "cpu", "value": 4, "time": 1700000001.0}\n{"name": "cpu", "value": 5}\n', {}),
                          (b"time,cpu,disk\n1700000000,3,9\n1700000001,4,\n,5,\n", {}), (b"name,at,value\ncpu,1700000000,3\ndisk,1700000000,9\ncpu,1700000001,4\ncpu,,5\n", {"times": ["at"]})):
            read = Lines(lambda name: True, **how).take(text)
            self.assertEqual((read.samples, read.times, read.bad), ({"cpu": [3, 4, 5], "disk": [9]}, {"cpu": [1700000000000, 1700000001000], "disk": [1700000000000]}, {}), text)
        self.assertEqual(Lines(lambda name: True).take(b'{"cpu": 1}\n{"cpu": 2, "time": 1700000000}\n').times, {"cpu": [NO_TIME, 1700000000000]})
        # what says no time is a name as before, and so is a column that was asked for by its name
        self.assertEqual(told(b'{"time": 35, "cpu": 3}\n'), ({"time": [35], "cpu": [3]}, {}))
        self.assertEqual(told(b"time,cpu\n1700000000,3\n", columns=["time"]), ({"time": [1700000000]}, {}))
        self.assertEqual(told(b"time,cpu\n12:00,3\n"), ({"cpu": [3]}, {"not a number": 1}))

    def test_a_bad_line_is_told_without_what_a_screen_acts_on(self) -> None:
        lines = Lines(lambda name: True)
        self.assertEqual(lines.take("good 1\nbad\x1b[31m\u202e\u05d0\n".encode()).last_bad, "bad\\x1b[31m\\u202e\u05d0")

    def test_columns_leave_others_out(self) -> None:
        self.assertEqual(told(b"time,cpu\n12:00,3\n12:01,4\n", columns=["cpu"]), ({"cpu": [3, 4]}, {}))
        self.assertEqual(told(b'{"time": "12:00", "cpu": 3}', columns=["cpu"]), ({"cpu": [3]}, {}))

    @unittest.skipUnless(os.path.exists("/proc/stat"), "there is no /proc")
    def test_the_machines_feed_has_good_lines(self) -> None:
        feed = subprocess.Popen([sys.executable, os.path.join(HERE, "..", "..", "examples", "machine_load.py"), "50"], stdout=subprocess.PIPE)
        with feed.stdout:
            text = b"".join(feed.stdout.readline() for _ in range(40))
        self.assertEqual(feed.wait(SECONDS), 0)
        samples, bad = told(text)
        self.assertEqual((sum(map(len, samples.values())), bad), (40, {}))
        self.assertTrue(all(0 <= value <= 100 for value in samples["processors, % busy"]))

    def test_names_end_at_their_bound(self) -> None:
        store = Store(most_names=3)
        lines = Lines(store.admit)
        for some in range(0, 1_000_000, 10_000):
            store.take(lines.take(b"".join(b"name%d 1\n" % number for number in range(some, some + 10_000))))
        store.take(lines.take(b"name0 2\n"))
        status = store.status()
        self.assertEqual((store.names, status.reasons, status.lines, status.samples), (["name0", "name1", "name2"], {"more names than there is room for": 999_997}, 1_000_001, 4))
        self.assertEqual(store.series["name0"].answer(0, 2).total, 3)

    def test_a_new_name_costs_as_much_among_many_as_among_few(self) -> None:
        def seconds(count: Any) -> Any:
            store = Store(most_names=count)
            lines, text = Lines(store.admit), b"".join(b"name%d 1\n" % number for number in range(count))
            began = time.process_time()
            for at in range(0, len(text), 1 << 16):
                store.take(lines.take(text[at:at + (1 << 16)]))
            took = time.process_time() - began
            self.assertEqual(len(store.names), count)
            return took

        seconds(500)
        # eight times as many take some eight times as long, and 64 times where each looks at all others
        self.assertLess(min(seconds(4_000) for _ in range(3)), 24 * min(seconds(500) for _ in range(3)))


class Following(unittest.TestCase):
    def setUp(self) -> None:
        folder = tempfile.TemporaryDirectory()
        self.addCleanup(folder.cleanup)
        self.path = os.path.join(folder.name, "feed")
        self.got, self.states, self.ended = [], [], threading.Event()
        self.reader = threading.Thread(target=lambda: [self.got.append(it) for it in followed(self.path, self.ended, self.states.append)])
        self.addCleanup(self.reader.join)
        self.addCleanup(self.ended.set)

    def write(self, text: Any, how: Any = "ab") -> None:
        with open(self.path, how) as file:
            file.write(text)

    def wait_for(self, wanted: Any) -> None:
        end = time.monotonic() + SECONDS
        while self.seen() != wanted and time.monotonic() < end:
            time.sleep(0.02)
        self.assertEqual(self.seen(), wanted)

    def seen(self) -> Any:
        """The bytes of each file in order."""
        files = [b""]
        for it in list(self.got):
            if it is None:
                files.append(b"")
            else:
                files[-1] += it
        return files

    def test_a_file_is_followed_over_its_absence_rotation_and_truncation(self) -> None:
        self.reader.start()
        time.sleep(0.25)
        self.assertEqual(self.states[:1], ["waiting: No such file or directory"])
        self.write(b"a 1\n")
        self.wait_for([b"a 1\n"])
        self.write(b"a 2\nhalf of")
        self.wait_for([b"a 1\na 2\nhalf of"])
        with open(self.path, "ab") as old:
            os.rename(self.path, self.path + ".1")
            old.write(b" a line 3\n")
            old.flush()
            self.write(b"b 1\n")
            self.wait_for([b"a 1\na 2\nhalf of a line 3\n", b"b 1\n"])
        self.write(b"", "wb")
        self.wait_for([b"a 1\na 2\nhalf of a line 3\n", b"b 1\n", b""])
        self.write(b"c 1\n")
        self.wait_for([b"a 1\na 2\nhalf of a line 3\n", b"b 1\n", b"c 1\n"])


    def test_want_of_memory_loses_samples_and_not_the_stream(self) -> None:
        class Short(Store):
            def take(self, told: Any) -> None:
                if told.samples.get("a") == [2]:
                    raise MemoryError
                super().take(told)

        store = Short()
        feed = Feed(self.path, Lines(store.admit), store)
        feed.start()
        self.addCleanup(feed.join)
        self.addCleanup(feed.stop)
        self.reader.start()
        for line, state, samples in ((b"a 1\n", "reading", 1), (b"a 2\n", "short of memory: samples are left out", 1), (b"a 3\n", "reading", 2)):
            self.write(line)
            end = time.monotonic() + SECONDS
            while (store.status().state, store.status().samples) != (state, samples) and time.monotonic() < end:
                time.sleep(0.02)
            self.assertEqual((store.status().state, store.status().samples), (state, samples))


if __name__ == "__main__":
    unittest.main()
