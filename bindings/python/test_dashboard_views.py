"""The dashboard's vectors, and what viewers of them are told, beside plain Python over the same numbers."""
from __future__ import annotations

import os
import random
import tempfile
import threading
import time
import unittest
from array import array
from typing import Any

from livevec_dashboard.lines import Lines
from livevec_dashboard.pace import Pace
from livevec_dashboard.store import MOST_ELEMENTS, Series, Store
from livevec_dashboard.stream import Feed
from livevec_dashboard.viewer import Viewer
from livevec_dashboard.views import BadView, view_of
from plain import best
from viewers import SECONDS, Page


class Vectors(unittest.TestCase):
    def test_answers_are_plain_and_numbers_rise_over_renewals(self) -> None:
        chance, series, plain, edits, firsts = random.Random(5), Series(), [], [], []
        for _ in range(300):
            values = [chance.randrange(-1000, 1000) for _ in range(chance.randrange(1, 90))]
            plain += values
            series.take(array("q", values), keep=200, room=250)
            firsts.append(series.first)
            lo = chance.randrange(series.first, series.end)
            hi = chance.randrange(lo + 1, series.end + 1)
            part = plain[lo:hi]
            answer = series.answer(lo, hi)
            self.assertEqual(answer[1:], (lo, hi, sum(part), min(part), max(part), best(part)))
            self.assertEqual((answer.edit, series.end, series.last()), (len(plain), len(plain), plain[-1]))
            self.assertTrue(min(len(plain), 200) <= series.held <= 250)
            edits.append(answer.edit)
        self.assertEqual((edits, firsts), (sorted(set(edits)), sorted(firsts)))
        self.assertGreater(len(set(firsts)), 30)

    def test_a_vector_is_renewed_before_its_room_ends(self) -> None:
        store = Store()
        lines = Lines(store.admit)
        series, block = None, b"".join(b"a %d\n" % number for number in range(10_000))
        for _ in range(110):
            store.take(lines.take(block))
            series = store.series["a"]
            self.assertLessEqual(series.held, MOST_ELEMENTS)
        self.assertEqual((series.end, series.answer(series.end - 10_000, series.end).total), (1_100_000, sum(range(10_000))))
        self.assertGreaterEqual(series.held, 1_000_000)
        self.assertGreater(series.first, 0)

    def test_names_share_the_room(self) -> None:
        store = Store(keep=1_000, most_samples=5_000)
        lines = Lines(store.admit)
        for name in range(50):
            store.take(lines.take(b"".join(b"n%d %d\n" % (name, value) for value in range(3_000))))
            self.assertLessEqual(sum(series.held for series in store.series.values()), 5_050)
        for series in store.series.values():
            self.assertEqual((series.end, series.answer(2_950, 3_000).total), (3_000, sum(range(2_950, 3_000))))

    def test_sums_beyond_64_bits_are_whole_or_not_told(self) -> None:
        series = Series()
        series.take(array("q", [2**63 - 1] * 5 + [-(2**63)] * 3), keep=10, room=10)
        self.assertEqual((series.answer(0, 5).total, series.answer(0, 8).total, series.answer(5, 8).best), (5 * (2**63 - 1), 5 * (2**63 - 1) - 3 * 2**63, -(2**63)))
        self.assertEqual(series.answer(0, 8).best, 5 * (2**63 - 1))
        many = Series()
        many.take(array("q", [2**63 - 1] * 1000), keep=1000, room=1000)
        self.assertEqual((many.answer(0, 1000).total, many.answer(0, 1000).best), (None, 1000 * (2**63 - 1)))
        # one great number among many is found in halves of halves
        one = Series()
        one.take(array("q", [1] * 300_000 + [2**63 - 1] + [1] * 300_000), keep=700_000, room=700_000)
        self.assertEqual(one.answer(0, 600_001).total, 600_000 + 2**63 - 1)

    def test_columns_are_plain_however_many_are_asked_at_once(self) -> None:
        chance, series = random.Random(6), Series()
        plain = [chance.choice((2**63 - 1, -(2**63), 2**61, 5, -7, 0)) for _ in range(3_000)]
        series.take(array("q", plain), keep=2_000, room=2_500)
        copied = series.copied(series.first, series.end)
        for count, longest in ((1, 3_000), (39, 50), (40, 4), (400, 64), (9, 2_000)):
            ranges = []
            for _ in range(count):
                lo = chance.randrange(series.first, series.end)
                ranges.append((lo, min(lo + chance.randrange(1, longest + 1), series.end)))
            for (lo, hi), column in zip(ranges, series.columns(ranges)):
                part = plain[lo:hi]
                self.assertEqual(column[:2], (min(part), max(part)))
                # by two splits the sum of four is found, if they are split evenly
                self.assertIn(column.total, (sum(part),) if hi - lo <= 3 else (sum(part), None))
                self.assertEqual(copied.column(lo, hi), (min(part), max(part), sum(part)))

    def test_names_that_grow_fewer_samples_each_have_room_for_all(self) -> None:
        chance, store = random.Random(7), Store(keep=300, most_samples=2_000)
        lines = Lines(store.admit)
        plain = {}
        for _ in range(3_000):
            name = f"n{min(chance.randrange(200), chance.randrange(200))}"
            values = [chance.randrange(100) for _ in range(chance.choice((1, 1, 2, 400)))]
            plain.setdefault(name, []).extend(values)
            store.take(lines.take(b"".join(b"%s %d\n" % (name.encode(), value) for value in values)))
            self.assertLessEqual(sum(series.held for series in store.series.values()), 2_000)
        for name, values in plain.items():
            series = store.series[name]
            self.assertEqual((series.end, series.answer(series.first, series.end).total), (len(values), sum(values[series.first:])))
            self.assertGreaterEqual(series.held, min(len(values), 8))

    def test_times_stay_with_their_samples_over_renewals(self) -> None:
        series = Series()
        series.take(array("q", range(10)), keep=20, room=30)
        self.assertEqual((series.has_times, series.time(3)), (False, None))
        for number in range(10, 100, 5):
            series.take(array("q", range(number, number + 5)), keep=20, room=30, times=[1000 * at for at in range(number, number + 4)])
        self.assertGreater(series.first, 50)
        for sample in range(series.first, 100):
            self.assertEqual(series.time(sample), None if sample % 5 == 4 else 1000 * sample)


def plain_columns(values: Any, lo: Any, hi: Any, width: Any) -> Any:
    """The same from nothing."""
    made = {}
    for number in range(lo // width, (hi - 1) // width + 1):
        part = values[max(number * width, lo):min((number + 1) * width, hi)]
        made[number] = [min(part), max(part), sum(part) / len(part)]
    return made


class Lock:
    """A lock that measures how long the thread that holds it works meanwhile, and does something when it is free again."""

    def __init__(self, after: Any = lambda: None) -> None:
        self.lock, self.after, self.longest = threading.Lock(), after, 0.0

    def acquire(self, *how: Any) -> Any:
        got = self.lock.acquire(*how)
        if got:
            self.since = time.thread_time()
        return got

    def release(self) -> None:
        self.longest = max(self.longest, time.thread_time() - self.since)
        self.lock.release()
        after, self.after = self.after, lambda: None
        after()
        self.after = after

    def __enter__(self) -> Any:
        return self.acquire()

    def __exit__(self, *_: Any) -> None:
        self.release()


class Rests(Pace):
    """A pace that measures how long viewers sleep."""

    slept = 0.0

    def rest(self, worked: Any) -> None:
        began = time.monotonic()
        super().rest(worked)
        self.slept += time.monotonic() - began


class Views(unittest.TestCase):
    def test_what_is_sent_adds_up_to_what_is_there(self) -> None:
        chance, store, plain = random.Random(9), Store(keep=900), []
        store.admit("a")
        viewer, page, lines = Viewer(store, 0), Page(), Lines(store.admit)
        spans = [{"last": 7}, {"last": 333}, {"last": 1000}, {"lo": 3, "hi": 5000}, {"lo": 100, "hi": 400}, {"lo": 800}]
        for turn in range(400):
            if turn % 40 == 0:
                viewer.look(view_of({"charts": [{"name": "a", "columns": chance.choice([2, 10, 64, 500]), **spans[turn // 40 % len(spans)]}], "watches": []}))
            values = [chance.randrange(-50, 50) for _ in range(chance.choice([0, 1, 2, 60]))]
            plain += values
            store.take(lines.take(b"".join(b"a %d\n" % value for value in values)))
            page.take(viewer.frame())
            chart = page.charts.get("a")
            if chart and chart["lo"] < chart["hi"]:
                lo, hi = chart["lo"], chart["hi"]
                self.assertEqual(page.columns["a"], plain_columns(plain, lo, hi, chart["width"]))
                part = plain[lo:hi]
                self.assertEqual({kind: chart["numbers"][kind] for kind in ("sum", "least", "greatest", "best")},
                                 {"sum": str(sum(part)), "least": str(min(part)), "greatest": str(max(part)), "best": str(best(part))})
                self.assertAlmostEqual(float(chart["numbers"]["mean"]), sum(part) / len(part), places=3)
        self.assertGreater(store.series["a"].first, 0)

    def test_only_what_changed_is_sent(self) -> None:
        store = Store()
        lines, viewer, page = Lines(store.admit), Viewer(store, 0), Page()
        store.take(lines.take(b"a 1\n" * 100_000 + b"b 5\n"))
        viewer.look(view_of({"charts": [{"name": "a", "columns": 1000, "last": 100_000}, {"name": "b", "columns": 1000, "last": 10}], "watches": []}))
        page.take(viewer.frame())
        self.assertTrue(780 <= page.sent <= 1001)
        self.assertEqual(viewer.frame(), {})
        store.take(lines.take(b"a 2\n"))
        frame = viewer.frame()
        self.assertEqual(([chart["name"] for chart in frame["charts"]], len(frame["charts"][0]["columns"]) <= 3), (["a"], True))

    def test_a_standing_query_tells_when_its_answer_changes(self) -> None:
        store = Store(keep=20)
        lines, viewer, page = Lines(store.admit), Viewer(store, 1), Page()
        viewer.look(view_of({"charts": [], "watches": [{"id": 1, "name": "a", "kind": "sum", "lo": 0, "hi": 4}, {"id": 2, "name": "a", "kind": "greatest", "last": 2},
                                                       {"id": 3, "name": "a", "kind": "mean", "lo": 2}]}))
        for text in (b"", b"a 5\n", b"a 5\na 0\n", b"a 2\n", b"a 1\n", b"a 7\n" * 30):
            store.take(lines.take(text))
            page.take(viewer.frame())
        self.assertEqual([(it["edit"], it["value"], it["lost"]) for it in page.watches[1]], [(1, "0.5", False), (3, "1.0", False), (4, "1.2", False), (35, None, True)])
        self.assertEqual([(it["edit"], it["value"]) for it in page.watches[2]], [(1, "0.5"), (4, "0.2"), (35, "0.7")])
        self.assertEqual([(it["edit"], it["value"]) for it in page.watches[3]], [(1, None), (3, "0.0000"), (4, "0.1000"), (35, None)])

    def test_a_chart_has_the_times_of_its_ends_and_columns(self) -> None:
        store = Store(keep=40)
        lines, viewer, page = Lines(store.admit), Viewer(store, 0), Page()
        viewer.look(view_of({"charts": [{"name": "a", "last": 16, "columns": 10}, {"name": "b", "last": 16, "columns": 10}], "watches": []}))
        for number in range(200):
            store.take(lines.take(b'{"a": %d, "time": %d}\n{"b": 1}\n' % (number, 1_700_000_000 + number)))
            page.take(viewer.frame())
            chart = page.charts["a"]
            when = [1_700_000_000_000 + 1000 * sample for sample in range(chart["lo"], chart["hi"])]
            ticks = [when[at] if at < len(when) else None for at in (0, 4, 8, 12, 15)]
            self.assertEqual(chart["times"], {"from": when[0], "to": when[-1], "ticks": ticks})
            for column, (least, _, _, when) in page.columns["a"].items():
                self.assertEqual(when, 1_700_000_000_000 + 1000 * least, column)
        self.assertNotIn("times", page.charts["b"])
        self.assertEqual({len(column) for column in page.columns["b"].values()}, {3})

    def test_the_lock_is_held_for_a_small_part_of_a_chart_at_a_time(self) -> None:
        store, lock = Store(), Lock()
        store.admit("a")
        store.series["a"].take(array("q", range(520_000)), keep=600_000, room=700_000, times=range(520_000))
        store.changing = threading.Condition(lock)
        viewer = Viewer(store, 0)
        for last in (2_000, 15_000, 250_000, 510_000):
            parts = []
            for turn in range(7):
                viewer.look(view_of({"charts": [{"name": "a", "last": last - turn, "columns": 2_000}], "watches": []}))
                lock.longest, began = 0.0, time.thread_time()
                columns = viewer.frame()["charts"][0]["columns"]
                parts.append(lock.longest / (time.thread_time() - began))
                self.assertGreater(len(columns), 1_800)
            # it is less than a seventh; where columns are computed by who holds it, it is a half
            self.assertLess(min(parts), 0.25, last)

    def test_a_chart_whose_samples_are_dropped_in_the_middle_is_whole_again(self) -> None:
        chance, store, plain, page, lost = random.Random(10), Store(keep=8_000), [], Page(), 0
        lines = Lines(store.admit)

        def feed() -> None:
            values = [chance.randrange(-50, 50) for _ in range(6_000)]
            plain.extend(values)
            store.take(lines.take(b"".join(b"a %d\n" % value for value in values)))

        feed()
        feed()
        lock = Lock(feed)
        store.changing, viewer = threading.Condition(lock), Viewer(store, 0)
        viewer.look(view_of({"charts": [{"name": "a", "last": 30_000, "columns": 2_000}], "watches": []}))
        for turn in range(20):
            # in every other frame more samples come whenever the lock is free
            lock.after = feed if turn % 2 == 0 else lambda: None
            page.take(viewer.frame())
            chart = page.charts["a"]
            wanted = plain_columns(plain, chart["lo"], chart["hi"], chart["width"])
            lost += len(wanted.keys() - page.columns["a"].keys())
            # what is shown is true, also where it isn't all
            self.assertEqual({number: wanted[number] for number in page.columns["a"]}, page.columns["a"])
            if turn % 2:
                self.assertEqual(page.columns["a"], wanted)
        self.assertGreater(lost, 0)

    def test_a_viewer_within_its_bounds_leaves_the_feed_most_of_the_time(self) -> None:
        store, text = Store(), b"".join(b"name%d %d\n" % (number % 24, number) for number in range(24_000))
        store.pace = Rests()
        viewer, ended = Viewer(store, 0), threading.Event()

        def look() -> None:
            turn = 0
            while not store.pace.feed_has_more:
                time.sleep(0.001)
            while not ended.is_set():
                # another range each time, so that nothing that was sent stays good
                turn += 1
                viewer.look(view_of({"charts": [{"name": f"name{number}", "last": 2_000 - turn % 900, "columns": 2_000} for number in range(24)], "watches": []}))
                viewer.frame()

        with tempfile.TemporaryDirectory() as folder:
            path = os.path.join(folder, "feed")
            with open(path, "wb") as file:
                file.writelines([text] * 50)
            feed, viewing = Feed(path, Lines(store.admit), store), threading.Thread(target=look)
            began = time.monotonic()
            feed.start()
            viewing.start()
            while store.status().lines < 24_000 * 50 and time.monotonic() < began + SECONDS:
                time.sleep(0.01)
            slept, worked = store.pace.slept, time.clock_gettime(time.pthread_getcpuclockid(viewing.ident))
            ended.set()
            viewing.join()
            feed.stop()
            feed.join()
        self.assertEqual(store.status().lines, 24_000 * 50)
        # it sleeps nine times as long as it works, but for the last chart; this holds however busy the machine is
        self.assertGreater(slept, 6 * worked)
        self.assertGreater(worked, 0.02)

    def test_views_out_of_bounds_are_refused(self) -> None:
        chart, watch = {"name": "a", "last": 10, "columns": 100}, {"id": 1, "name": "a", "kind": "sum", "lo": 0, "hi": 5}
        view_of({"charts": [chart], "watches": [watch]})
        for bad in (None, [], {}, {"charts": []}, {"charts": [1], "watches": []}, {"charts": [chart] * 2, "watches": []}, {"charts": [], "watches": [watch] * 2},
                    {"charts": [{**chart, "name": str(number)} for number in range(25)], "watches": []},
                    {"charts": [], "watches": [{**watch, "id": number} for number in range(33)]},
                    *({"charts": [{**chart, **other}], "watches": []} for other in ({"columns": 2001}, {"columns": 1}, {"columns": True}, {"columns": "9"}, {"last": 0}, {"last": 2**20},
                                                                                     {"last": 1.5}, {"name": 7}, {"name": ["a"]})),
                    *({"charts": [], "watches": [{**watch, **other}]} for other in ({"kind": "median"}, {"kind": []}, {"lo": -1}, {"lo": 5}, {"hi": 2**60}, {"lo": None}, {"id": -1}))):
            with self.assertRaises(BadView, msg=bad):
                view_of(bad)


if __name__ == "__main__":
    unittest.main()
