"""The dashboard's page in a Chromium without a window, over a feed of 100,000 lines. Skipped where there is no Chromium.

Numbers on the page are compared with those that plain Python makes of the same lines. Pictures are left in the folder LIVEVEC_PICTURES, else in
build/dashboard of the repository: `wide-light.png` is what docs/dashboard.png is a copy of."""
from __future__ import annotations

import os
import random
import re
import unittest
from typing import Any

import chromium
from plain import best
from viewers import HERE, dashboard

PICTURES = os.environ.get("LIVEVEC_PICTURES") or os.path.join(HERE, "..", "..", "build", "dashboard")
LINES = 100_000
NAMES = ("queue length", "latency, ms", "price of tin", "temperature, mK")
HOSTILE = '<img src=x onerror="window.struck=1"><b>loud</b> & \u05d0'


def feed() -> Any:
    """Four names' samples, the same in every run: a queue, latencies with peaks, a price that wanders, a slow wave."""
    chance = random.Random(11)
    samples, queue, price = {name: [] for name in NAMES}, 40, 21_450
    for number in range(LINES // 4):
        queue = max(queue + chance.choice((-3, -2, -1, 0, 1, 2, 3)) + (2 if number % 900 < 90 else 0) - queue // 120, 0)
        price += chance.choice((-4, -1, 0, 0, 1, 4))
        wave = abs(number % 1_200 - 600)
        for name, value in zip(NAMES, (queue, 12 + queue // 8 + int(chance.expovariate(0.2)), price, 293_000 + wave * wave // 400 + chance.randrange(90))):
            samples[name].append(value)
    return samples


def lines_of(samples: Any) -> Any:
    """The samples as lines, one of each name in turn."""
    return "".join(f"{name} {value}\n" for row in zip(*samples.values()) for name, value in zip(samples, row)).encode()


def shown(values: Any) -> Any:
    """The numbers of a range as the page writes them: the best run only where it is another number than the sum and the greatest."""
    thousandths = (2_000 * sum(values) + len(values)) // (2 * len(values))
    run = {} if best(values) in (sum(values), max(values)) else {"best run": f"{best(values):,}"}
    return {"sum": f"{sum(values):,}", "mean": f"{thousandths // 1000:,}.{thousandths % 1000:03}", "least": f"{min(values):,}", "greatest": f"{max(values):,}", **run}


CARD = "[...document.querySelectorAll('.card')].find(card => card.querySelector('h2').textContent === {name!r})"


@unittest.skipUnless(chromium.found(), "there is no Chromium")
class InABrowser(unittest.TestCase):
    @classmethod
    def setUpClass(cls) -> None:
        os.makedirs(PICTURES, exist_ok=True)
        cls.browser = chromium.Chromium(chromium.found())
        cls.addClassCleanup(cls.browser.close)

    def card(self, name: Any) -> Any:
        return CARD.format(name=name)

    def numbers(self, tab: Any, name: Any) -> Any:
        """What numbers a card shows, and after which edits."""
        pairs = tab.run(f"[...{self.card(name)}.querySelectorAll('.numbers > div:not([hidden])')].map(it => [...it.children].map(it => it.textContent))")
        return dict(pairs), re.findall("edit [0-9,]+", tab.run(f"{self.card(name)}.innerText"))

    def middle(self, tab: Any, name: Any) -> Any:
        """Where the chart of a card is: left, right and middle height."""
        return tab.run(f"(() => {{ const box = {self.card(name)}.querySelector('.plot').getBoundingClientRect(); return [box.left, box.right, box.top + box.height / 2]; }})()")

    def press(self, tab: Any, last: Any) -> None:
        tab.run(f"document.querySelector('#lasts button[value=\"{last}\"]').click()")

    def edited(self, tab: Any, name: Any, edit: Any, length: Any) -> None:
        """Waits until a card shows so many samples after that edit."""
        tab.until(f"(() => {{ const told = state.cards.get({name!r})?.told; return told && told.edit === {edit} && told.length === {length}; }})()")

    def test_numbers_queries_notes_and_a_reload(self) -> None:
        samples = feed()
        each = LINES // 4
        with dashboard("--title", "shop floor") as (pipe, url):
            pipe.write(lines_of(samples))
            pipe.flush()
            tab = self.browser.open(url, 1240, 800)
            tab.until(f"document.getElementById('lines').textContent === '{LINES:,}'")
            for last in (1000, 100, 10_000, 100_000):
                self.press(tab, last)
                for name in NAMES:
                    self.edited(tab, name, each, last)
                    self.assertEqual(self.numbers(tab, name), (shown(samples[name][-last:]), [f"edit {each:,}"]))
            self.press(tab, 10_000)
            self.choose_by_mouse(tab, samples)
            self.watch_by_keyboard(tab)
            self.see_a_note(tab, pipe, samples, each)
            self.read_the_table(tab, samples)
            tab.run("window.scrollTo(0, 0)")
            tab.picture(os.path.join(PICTURES, "wide-light.png"))
            self.assertLess(os.path.getsize(os.path.join(PICTURES, "wide-light.png")), 200_000)
            self.reload(tab, samples)
            self.assertEqual(tab.complaints(), [])
            self.look_around(tab, url)
            tab.close()

    def choose_by_mouse(self, tab: Any, samples: Any) -> None:
        """A range is dragged over, and watched."""
        name = NAMES[0]
        self.edited(tab, name, LINES // 4, 10_000)
        left, right, height = self.middle(tab, name)
        tab.drag(left + 0.25 * (right - left), height, left + 0.5 * (right - left))
        lo, hi = map(int, tab.run(f"{self.card(name)}.querySelector('form input').value").split(".."))
        self.assertTrue(abs(lo - 17_500) < 60 and abs(hi - 20_000) < 60, (lo, hi))
        tab.run(f"{self.card(name)}.querySelector('form .first').click()")
        tab.until("state.watches.length === 1 && state.watches[0].told")
        self.assertEqual(tab.run("document.querySelector('#watches li').innerText.split('\\n')[0]"), f"sum of {name}, {lo:,}..{hi:,}")
        self.assertEqual(tab.run("document.querySelector('#watches b').textContent"), f"{sum(samples[name][lo:hi]):,}")

    def watch_by_keyboard(self, tab: Any) -> None:
        """A range is chosen by keys, another one is typed, and a third is refused with a word."""
        tab.run(f"{self.card(NAMES[2])}.querySelector('.plot').focus()")
        tab.key("ArrowLeft", 37)
        self.assertRegex(tab.run(f"{self.card(NAMES[2])}.querySelector('.readout').textContent"), r"^24,\d{3}–24,\d{3}: least 2\d,\d{3}, mean 2\d,\d{3}\.\d+, greatest 2\d,\d{3}$")
        for _ in range(3):
            tab.key("ArrowLeft", 37, shift=True)
        tab.key("Enter", 13)
        tab.until("state.watches.length === 2 && state.watches[1].told")
        tab.run(f"{self.card(NAMES[1])}.querySelector('select').value = 'greatest'; {self.card(NAMES[1])}.querySelector('form input').focus()")
        tab.call("Input.insertText", text="the lot")
        tab.key("Enter", 13, text="\r")
        self.assertFalse(tab.run(f"{self.card(NAMES[1])}.querySelector('.error').hidden"))
        tab.run(f"{self.card(NAMES[1])}.querySelector('form input').select()")
        tab.call("Input.insertText", text="last 500")
        tab.key("Enter", 13, text="\r")
        tab.until("state.watches.length === 3 && state.watches[2].told")
        self.assertTrue(tab.run(f"{self.card(NAMES[1])}.querySelector('.error').hidden"))

    def see_a_note(self, tab: Any, pipe: Any, samples: Any, each: Any) -> None:
        """More lines come, and what they change is told, and nothing else."""
        before, peak = max(samples[NAMES[1]][-500:]), 117
        for name, value in zip(NAMES, (97, peak, 21_300, 293_400)):
            samples[name].append(value)
        pipe.write(lines_of({name: values[-1:] for name, values in samples.items()}))
        pipe.flush()
        note = tab.until("document.querySelector('#notes li')?.textContent")
        self.assertEqual(note, f"greatest of {NAMES[1]}, last 500: {peak:,} at edit {each + 1:,}, was {before:,}")
        self.edited(tab, NAMES[0], each + 1, 10_000)
        self.assertEqual(tab.run("document.querySelectorAll('#notes li').length"), 1)
        for name in NAMES:
            self.edited(tab, name, each + 1, 10_000)
            self.assertEqual(self.numbers(tab, name)[0], shown(samples[name][-10_000:]))

    def read_the_table(self, tab: Any, samples: Any) -> None:
        """Behind a chart is a table of the same numbers."""
        name = NAMES[3]
        tab.run(f"{self.card(name)}.querySelector('details').open = true")
        rows = tab.until(f"(() => {{ const rows = [...{self.card(name)}.querySelectorAll('tbody tr')]; return rows.length && rows.map(row => [...row.children].map(cell => cell.textContent)); }})()")
        self.assertTrue(10 < len(rows) <= 25)
        total = 0
        for span, least, mean, greatest in rows:
            lo, hi = (int(end.replace(",", "")) for end in re.split("–", span))
            part = samples[name][lo:hi + 1]
            total += len(part)
            self.assertEqual((least, greatest), (f"{min(part):,}", f"{max(part):,}"))
            self.assertAlmostEqual(float(mean.replace(",", "")), sum(part) / len(part), places=2)
        self.assertEqual(total, 10_000)
        tab.run(f"{self.card(name)}.querySelector('details').open = false")

    def reload(self, tab: Any, samples: Any) -> None:
        """What was looked at and watched is there again."""
        watched = tab.run("[...document.querySelectorAll('#watches b')].map(it => it.textContent)")
        tab.call("Page.reload")
        tab.until("document.readyState === 'complete' && typeof state === 'object' && state.watches.length === 3 && state.watches.every(watch => watch.told)")
        self.assertEqual(tab.run("[...document.querySelectorAll('#watches b')].map(it => it.textContent)"), watched)
        self.edited(tab, NAMES[0], len(samples[NAMES[0]]), 10_000)
        self.assertEqual(self.numbers(tab, NAMES[0])[0], shown(samples[NAMES[0]][-10_000:]))
        tab.run("document.querySelector('#watches button').click()")
        tab.until("document.querySelectorAll('#watches li').length === 2")

    def look_around(self, tab: Any, url: Any) -> None:
        """Pictures, dark and as narrow as a phone; nothing is wider than the window."""
        tab.scheme(True)
        tab.run("new Promise(done => requestAnimationFrame(() => requestAnimationFrame(done)))")
        tab.picture(os.path.join(PICTURES, "wide-dark.png"))
        for dark in (False, True):
            phone = self.browser.open(url, 390, 844, dark=dark, ratio=2, touch=True)
            phone.until(f"state.cards.get({NAMES[3]!r})?.told?.edit")
            phone.run("new Promise(done => setTimeout(done, 300))")
            self.assertLessEqual(phone.run("document.documentElement.scrollWidth"), 390)
            phone.picture(os.path.join(PICTURES, f"phone-{'dark' if dark else 'light'}.png"))
            self.assertEqual(phone.complaints(), [])
            phone.close()

    def test_names_are_text_and_never_markup(self) -> None:
        with dashboard() as (pipe, url):
            pipe.write(f"{HOSTILE} 5\n<script>window.struck=1</script>\n".encode())
            pipe.flush()
            tab = self.browser.open(url)
            tab.until("state.cards.size === 1 && !document.getElementById('bad').hidden")
            tab.run(f"{self.card(HOSTILE)}.querySelector('form').requestSubmit()")
            tab.until("state.watches[0].told")
            pipe.write(f"{HOSTILE} 6\n".encode())
            pipe.flush()
            self.assertEqual(tab.until("document.querySelector('#notes li')?.textContent"), f"sum of {HOSTILE}, last 1,000: 11 at edit 2, was 5")
            self.assertEqual(tab.run("[document.querySelector('main img, main b:not(#watches b, #notes b)'), document.querySelectorAll('script').length, window.struck ?? null]"), [None, 1, None])
            self.assertEqual(tab.run("document.getElementById('lastbad').textContent"), "<script>window.struck=1</script>")
            self.assertEqual(tab.complaints(), [])
            tab.close()

    def test_the_best_run_is_shown_where_it_says_something(self) -> None:
        with dashboard("--scale", "10") as (pipe, url):
            tab, values = self.browser.open(url), []
            for some, run in (((1,), None), ((-5, -7), None), ((20, -3, 25), "4.2"), ((100,), "14.2"), ((-200, 900), None), ((3,), "90.3")):
                values += some
                pipe.write(b"".join(b"a %s\n" % f"{value / 10}".encode() for value in some))
                pipe.flush()
                self.edited(tab, "a", len(values), 1000)
                self.assertEqual((self.numbers(tab, "a")[0].get("best run"), self.numbers(tab, "a")[1]), (run, [f"edit {len(values)}"]))
            # a mean that ends in a half is rounded once, also where the scale is taken off it
            values += [1, 2] * 8 + [1] * 17
            pipe.write(b"a 0.1\na 0.2\n" * 8 + b"a 0.1\n" * 17)
            pipe.flush()
            self.edited(tab, "a", len(values), 1000)
            self.assertEqual(tab.run("[mean(1.0625), mean(-0.5), mean(12), mean(null), mean(2 ** 60)]"), ["0.1063", "-0.0500", "1.2000", "beyond 64 bits", "115,292,150,460,684,697.6"])
            self.assertEqual(tab.complaints(), [])
            tab.close()

    def test_the_axis_has_the_times_of_the_feed(self) -> None:
        start = 1_764_280_800
        with dashboard() as (pipe, url):
            tab = self.browser.open(url, 1240, 800)
            tab.call("Emulation.setTimezoneOverride", timezoneId="Asia/Kolkata")
            pipe.write(b"".join(b'{"a": %d, "b": %d, "time": %d}\n{"c": 7}\n' % (number % 90, number, start + 2 * number) for number in range(1_600)))
            pipe.flush()
            self.edited(tab, "a", 1_600, 1000)
            # 22:00 of the 27th in Greenwich is 3:30 of the 28th there; sample 600 was taken 1,200 seconds later
            self.assertEqual(self.ticks(tab, "a"), ["03:50:00", "03:58:20", "04:06:40", "04:15:00", "04:23:18"])
            self.assertEqual(tab.run(f"{self.card('a')}.querySelector('.lo').textContent"), "600, 2025-11-28")
            self.assertTrue(tab.run(f"{self.card('c')}.querySelector('.times').hidden"))
            self.assertEqual(tab.run(f"{self.card('c')}.querySelector('.lo').textContent"), "600")
            tab.run(f"{self.card('a')}.querySelector('.plot').focus()")
            tab.key("ArrowRight", 39)
            self.assertRegex(tab.run(f"{self.card('a')}.querySelector('.readout').textContent"), r"^1,59\d–1,599, 04:23:1\d: least ")
            tab.run(f"{self.card('a')}.querySelector('details').open = true")
            row = tab.until(f"(() => {{ const row = {self.card('a')}.querySelector('tbody tr:last-child'); return row && [...row.children].map(it => it.textContent); }})()")
            self.assertEqual((row[0].split("–")[0], row[1], len(row), self.numbers(tab, "a")[1]), ("600", "03:50:00", 5, ["edit 1,600"]))
            self.assertEqual(tab.run("[timeText(0, 5), timeText(0, 86400000), timeText(0, 1e10)]"), ["05:30:00.000", "01-01 05:30", "1970-01-01"])
            self.press(tab, 10_000)
            self.edited(tab, "a", 1_600, 10_000)
            self.assertEqual(self.ticks(tab, "a"), ["03:30:00", "", "", "", ""])
            self.assertEqual(tab.run(f"{self.card('a')}.querySelector('.hi').textContent"), "1,600 samples up to 04:23:18")
            tab.picture(os.path.join(PICTURES, "times.png"))
            self.assertEqual(tab.complaints(), [])
            tab.close()

    def ticks(self, tab: Any, name: Any) -> Any:
        """The times below a chart, once it is drawn."""
        tab.run("new Promise(done => requestAnimationFrame(() => requestAnimationFrame(done)))")
        return tab.run(f"[...{self.card(name)}.querySelectorAll('.times span')].map(it => it.textContent)")

    def test_a_feed_that_stops_and_goes_on_and_a_server_that_goes(self) -> None:
        with dashboard("--scale", "100") as (pipe, url):
            tab = self.browser.open(url)
            pipe.write(b"a 1.25\n")
            pipe.flush()
            tab.until("document.querySelector('.now')?.textContent === '1.25'")
            tab.run("new Promise(done => setTimeout(done, 2500))")
            pipe.write(b"a -0.5\n")
            pipe.flush()
            tab.until("document.querySelector('.now').textContent === '-0.50'")
            self.assertEqual(self.numbers(tab, "a")[0], {"sum": "0.75", "mean": "0.37500", "least": "-0.50", "greatest": "1.25"})
            pipe.close()
            tab.until("document.getElementById('state').textContent === 'the stream has ended'")
        tab.until("document.getElementById('state').textContent.startsWith('connection lost')")
        tab.close()

    def test_a_thousand_names(self) -> None:
        with dashboard() as (pipe, url):
            pipe.write(b"".join(b"name%d %d\n" % (number, number) for number in range(1_000)))
            pipe.flush()
            tab = self.browser.open(url)
            tab.until("document.getElementById('place').textContent === '1–12 of 1,000'")
            tab.run("document.getElementById('search').focus()")
            tab.call("Input.insertText", text="name99")
            tab.until("document.querySelectorAll('.card').length === 11")
            tab.until(f"{self.card('name999')}?.querySelector('.now').textContent === '999'")
            tab.close()


if __name__ == "__main__":
    unittest.main()
