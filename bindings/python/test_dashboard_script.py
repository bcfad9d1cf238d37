"""What the page's script makes of what viewers are told, without a browser: by node, which is handed what the script needs of one.

Expected texts are worked out by hand."""
from __future__ import annotations

import json
import os
import re
import shutil
import subprocess
import unittest
from typing import Any

from livevec_dashboard.lines import Lines
from livevec_dashboard.store import Store
from livevec_dashboard.viewer import Viewer
from livevec_dashboard.views import view_of
from viewers import HERE, SECONDS

SCRIPTS = ("page_in_node.js", *(os.path.join("livevec_dashboard", name) for name in ("page_state.js", "page_charts.js", "page_choices.js")))
DRIVER = "process.stdout.write(JSON.stringify(shownOf(take, state.cards, JSON.parse(require('fs').readFileSync(0, 'utf8')))), () => process.exit());"


def script() -> Any:
    """The page's script as the page has it, after what a browser would have for it."""
    parts = []
    for name in SCRIPTS:
        with open(os.path.join(HERE, name), encoding="utf-8") as file:
            parts.append(file.read())
    return "\n".join([*parts, DRIVER])


@unittest.skipUnless(shutil.which("node"), "there is no node")
class Cards(unittest.TestCase):
    def shown(self, *blocks: Any, last: Any = 1_000, digits: Any = 0, **how: Any) -> Any:
        """What the cards of the names in some lines show after the last of them."""
        store = Store()
        lines, viewer, frames = Lines(store.admit, **how), Viewer(store, digits), []
        for block in blocks:
            store.take(lines.take(block))
            viewer.look(view_of({"charts": [{"name": name, "last": last, "columns": 600} for name in store.names], "watches": []}))
            frames += viewer.frames()
        ran = subprocess.run(["node", "-e", script()], input=json.dumps(frames), capture_output=True, text=True, timeout=SECONDS, env={**os.environ, "TZ": "Asia/Kolkata"})
        self.assertEqual((ran.returncode, ran.stderr), (0, ""))
        return json.loads(ran.stdout)

    def test_the_axis_has_times_where_the_feed_has_them(self) -> None:
        feed = b"".join(b'{"a": %d, "time": %d}\n{"c": 7}\n' % (number % 90, 1_764_280_800 + 2 * number) for number in range(1_600))
        cards = self.shown(feed)
        # 22:00 of the 27th in Greenwich is 3:30 of the 28th there; sample 600 was taken 1,200 seconds later
        self.assertEqual(cards["a"]["times"], ["03:50:00", "03:58:20", "04:06:40", "04:15:00", "04:23:18"])
        self.assertIn("600, 2025-11-28", cards["a"]["texts"])
        self.assertIsNone(cards["c"]["times"])
        self.assertIn("600", cards["c"]["texts"])
        # of a chart that isn't full the axis ends behind the last sample
        cards = self.shown(feed, last=10_000)
        self.assertEqual(cards["a"]["times"], ["03:30:00", "", "", "", ""])
        self.assertIn("1,600 samples up to 04:23:18", cards["a"]["texts"])

    def test_a_card_has_its_edit_once(self) -> None:
        cards = self.shown(b"a 1\n" * 1_599 + b"b 5\n", b"a -2\n")
        for name, edit in (("a", "1,600"), ("b", "1")):
            self.assertEqual(re.findall(r"edit [0-9,]+|[0-9,]+(?:st|th) edit", " ".join(cards[name]["texts"])), [f"edit {edit}"])

    def test_the_best_run_is_shown_where_it_says_something(self) -> None:
        values = []
        for some, run in (((1,), None), ((-5, -7), None), ((20, -3, 25), "4.2"), ((100,), "14.2"), ((-200, 900), None), ((3,), "90.3")):
            values += some
            numbers = self.shown(b"".join(b"a %s\n" % f"{value / 10}".encode() for value in values), digits=1, scale=10)["a"]["numbers"]
            self.assertEqual((numbers.get("best run"), sorted(numbers.keys() - {"best run"})), (run, ["greatest", "least", "mean", "sum"]), values)
        # it is the sum of samples none of which is negative
        self.assertNotIn("best run", self.shown(b"a 1\na 0\na 2\n")["a"]["numbers"])


if __name__ == "__main__":
    unittest.main()
