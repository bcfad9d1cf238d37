"""A shared vector, beside a plain list of what its receipts say."""
import contextlib
import copy
import gc
import io
import os
import random
import re
import threading
import time
import unittest
from typing import Any

import livevec
from livevec import Kind, Queries, Receipt, SharedVector, Vector
from plain import value_of


def watching(kind: Any = "sum") -> Any:
    queries = Queries()
    queries.watch("all", kind)
    return queries


def values(notes: Any) -> Any:
    return [(note.edit, note.value) for note in notes]


def until(is_so: Any) -> None:
    """Waits for what another thread does soon."""
    start = time.monotonic()
    while not is_so():
        if time.monotonic() - start > 8:
            raise AssertionError("it never came")
        time.sleep(0.001)


def beside(*calls: Any) -> Any:
    """Runs each call in a thread of its own; what they raise is raised."""
    wrong, threads = [], []

    def guarded(call: Any) -> None:
        try:
            call()
        except BaseException as error:
            wrong.append(error)

    for call in calls:
        threads.append(threading.Thread(target=guarded, args=(call,)))
        threads[-1].start()

    def join() -> None:
        for thread in threads:
            thread.join()
        if wrong:
            raise wrong[0]

    return join


def feed(shared: Any, seed: Any, rounds: Any, receipts: Any) -> None:
    """Edits of all forms; into the receipts go those that weren't refused, each with what a plain list does."""
    pick = random.Random(seed)
    for _ in range(rounds):
        value, index, other = pick.randrange(-1000, 1001), pick.randrange(700), pick.randrange(700)
        with contextlib.suppress(livevec.Empty, livevec.OutOfRange):
            form = pick.randrange(12)
            if form == 0:
                did = shared.pop()
                receipts.append((did.edit, lambda rows, told=did.told: unittest.TestCase().assertEqual(rows.pop(), told)))
            elif form < 5:
                receipts.append((shared.write(index, value).edit, lambda rows, i=index, x=value: rows.__setitem__(i, x)))
            elif form == 5:
                receipts.append((shared.swap(index, other).edit, lambda rows, i=index, j=other: exchange(rows, i, j)))
            elif form == 6 and pick.randrange(40) == 0:
                receipts.append((shared.truncate(index).edit, lambda rows, i=index: rows.__delitem__(slice(i, None))))
            elif form == 7:
                last = shared.extend([value, 5, -value])
                receipts += [(last - 2 + i, lambda rows, x=x: rows.append(x)) for i, x in enumerate((value, 5, -value))]
            elif form == 8:
                last = shared.write_many([index, other], [value, 9])
                receipts.append((last - 1, lambda rows, i=index, x=value: rows.__setitem__(i, x)))
                receipts.append((last, lambda rows, i=other: rows.__setitem__(i, 9)))
            elif form == 9:
                with shared.locked() as vector:
                    size = len(vector)
                    assert vector.push(size) == size
                    receipts.append((vector.edits, lambda rows, x=size: rows.append(x)))
            else:
                receipts.append((shared.push(value).edit, lambda rows, x=value: rows.append(x)))


def exchange(rows: Any, i: Any, j: Any) -> None:
    rows[i], rows[j] = rows[j], rows[i]


class Threads(unittest.TestCase):
    def test_nothing_is_lost(self) -> None:
        shared, receipts, told = SharedVector(), [[] for _ in range(4)], ([], [])
        shared.start_workers(2)
        names = [self.names(seed) for seed in (3, 4)]
        subscribers = [shared.subscribe(self.queries(some)) for some in names]
        subscribers[0].pause = 0
        listeners = beside(*(lambda i=i: told[i].extend(subscribers[i]) for i in range(2)))

        def edits(i: Any) -> None:
            feed(shared, 11 + i, 300, receipts[i])
            until(lambda: all(told))
            feed(shared, 21 + i, 300, receipts[i])

        beside(*(lambda i=i: edits(i) for i in range(4)))()
        vector = shared.close()
        listeners()
        did = sorted((it for some in receipts for it in some), key=lambda it: it[0])
        self.assertEqual([edit for edit, _ in did], list(range(1, vector.edits + 1)))
        rows = []
        for _, redo in did:
            redo(rows)
        self.assertEqual(list(vector), rows)
        for some, of in zip(told, names):
            self.check_told(some, of, did)

    @staticmethod
    def names(seed: Any) -> Any:
        pick = random.Random(seed)
        starts = [pick.randrange(400) for _ in range(16)]
        return {f"q{i}": (Kind(i % 6), lo, lo + 1 + pick.randrange(500)) for i, lo in enumerate(starts)}

    @staticmethod
    def queries(names: Any) -> Any:
        queries = Queries()
        for name, (kind, lo, hi) in names.items():
            queries.watch(name, kind, lo, hi)
        return queries

    def check_told(self, told: Any, names: Any, did: Any) -> None:
        """Each note is the plain value at its edit, edits rise, and the last told are the values at the end."""
        rows, at, last = [], 0, {name: value_of(kind, []) for name, (kind, _, _) in names.items()}
        for notes in told:
            self.assertLess(at, notes[0].edit)
            for _, redo in did[at:notes[0].edit]:
                redo(rows)
            at = notes[0].edit
            for note in notes:
                kind, lo, hi = names[note.name]
                self.assertEqual((note.edit, note.kind, note.value), (at, kind, value_of(kind, rows[lo:hi])))
                self.assertNotEqual(note.value, last[note.name])
                last[note.name] = note.value
        for _, redo in did[at:]:
            redo(rows)
        self.assertGreater(len(told), 1)
        self.assertEqual(last, {name: value_of(kind, rows[lo:hi]) for name, (kind, lo, hi) in names.items()})

    def test_it_is_gone_through_as_it_was_after_one_edit(self) -> None:
        shared, ended = SharedVector(Vector(range(3000))), threading.Event()

        def edit() -> None:
            while not ended.is_set():
                shared.truncate(0)
                shared.extend([len(shared)] * 3000)
                shared.extend(range(7))

        join = beside(edit)
        try:
            for way in (iter, reversed):
                for _ in range(100):
                    elements = list(way(shared))
                    if way is reversed:
                        elements.reverse()
                    self.assertIn(elements, ([], list(range(3000)), [0] * 3000, [0] * 3000 + list(range(7))))
        finally:
            ended.set()
            join()
        # it is a copy, so edits neither change it nor break it off
        elements = list(shared)
        through, back = iter(shared), reversed(shared)
        shared.truncate(0)
        self.assertEqual((list(through), list(back), list(shared)), (elements, elements[::-1], []))
        with shared.locked():
            for way in (iter, reversed):
                self.assertRaises(livevec.Busy, way, shared)
        shared.close()
        for way in (iter, reversed):
            self.assertRaises(livevec.Closed, way, shared)

    def test_a_subscriber_looks_sleeps_and_has_the_last_notes(self) -> None:
        shared = SharedVector(Vector([4, 5]))
        alerts, late = shared.subscribe(watching()), shared.subscribe(watching("least"))
        self.assertEqual(shared.push(6), Receipt(3, 2))
        self.assertEqual(values(next(alerts)), [(3, 15)])
        self.assertEqual((shared.write(0, 4), alerts.look()), (Receipt(4, 4), []))
        # a pause doesn't hold up the close, nor does a sleep
        alerts.pause = 3600
        shared.push(1)
        self.assertEqual(values(next(alerts)), [(5, 16)])
        sleeping, told = shared.subscribe(watching("greatest")), ([], [])
        join = beside(lambda: told[0].extend(alerts), lambda: told[1].extend(sleeping))
        time.sleep(0.02)
        shared[0] = -9
        vector = shared.close()
        join()
        self.assertEqual([[values(notes) for notes in some] for some in told], [[[(6, 3)]], [[(5, 6)]]])
        self.assertEqual([values(notes) for notes in late], [[(6, -9)]])
        self.assertEqual((list(vector), late.look(), shared.close()), ([-9, 5, 6, 1], [], vector))
        for call in (lambda: shared.push(1), lambda: shared.extend([1]), lambda: len(shared), lambda: shared.sum(), lambda: shared.start_workers(),
                     lambda: shared.subscribe(watching()), lambda: shared.locked().__enter__()):
            self.assertRaises(livevec.Closed, call)

    def test_what_is_refused_changes_nothing(self) -> None:
        shared = SharedVector(Vector(most_buckets=1, most_edits=20))
        alerts = shared.subscribe(watching())
        for refusal, call in ((livevec.Empty, shared.pop), (livevec.OutOfRange, lambda: shared.write(0, 1)), (livevec.OutOfRange, lambda: shared.swap(0, -1)),
                              (livevec.OutOfRange, lambda: shared.truncate(1)), (livevec.TooLarge, lambda: shared.reserve(9)),
                              (OverflowError, lambda: shared.push(2**63)), (TypeError, lambda: shared.extend([1.5])),
                              (ValueError, lambda: shared.write_many([0], [])), (TypeError, lambda: shared.subscribe(shared))):
            self.assertRaises(refusal, call)
        self.assertEqual((shared.edits, len(shared), alerts.look()), (0, 0, []))
        with self.assertRaises(livevec.Full) as refused:
            shared.extend([2] * 9)
        self.assertEqual((refused.exception.pushed, shared.edits, alerts.look()), (0, 0, []))
        self.assertEqual((shared.extend([2] * 8), values(next(alerts))), (8, [(8, 16)]))
        with self.assertRaises(livevec.OutOfRange) as refused:
            shared.write_many([0, 8], [1, 1])
        self.assertEqual((refused.exception.place, refused.exception.pushed, alerts.look()), (1, 0, []))
        self.assertEqual((shared[-1], shared.sum(-3), shared.least(), shared.greatest(1, 1), shared.best(1, 3)), (2, 6, 2, None, 4))
        self.assertEqual((shared.reduce().edit, shared.value("affine", 8), shared.write_many([-1, 0], [7, 8]), shared[7]), (8, (1, 0), 10, 7))
        sums = SharedVector(Vector(kind="sum"))
        early, late = sums.subscribe(watching("least")), sums.subscribe(watching("least"))
        self.assertRaises(livevec.BadKind, early.look)
        self.assertRaises(livevec.BadKind, next, early)
        sums.close()
        self.assertRaises(livevec.BadKind, next, late)
        self.assertRaises(StopIteration, next, late)
        self.assertRaises(TypeError, copy.copy, shared)

    def test_an_exception_within_stops_nobody(self) -> None:
        shared = SharedVector()
        shared.start_workers()
        alerts = shared.subscribe(watching())
        with self.assertRaisesRegex(ZeroDivisionError, "within"), shared.locked() as vector:
            vector.push(3)
            for call in (lambda: len(shared), lambda: next(alerts), shared.stop_workers, shared.close):
                self.assertRaises(livevec.Busy, call)
            shared.subscribe  # only its name
            raise ZeroDivisionError("within")
        self.assertEqual((values(next(alerts)), shared.push(4), values(next(alerts))), ([(1, 3)], Receipt(2, 1), [(2, 7)]))

    def test_workers_compute_stop_and_start_again(self) -> None:
        with SharedVector() as shared:
            shared.start_workers(2)
            for turn in range(1, 4):
                shared.extend(range(2000))
                # a reduction reads few cells once the summaries are there, and nothing keeps them but the workers
                until(lambda: shared.reduce().cells < 8)
                self.assertEqual(shared.reduce().values.sum, turn * 1999000)
                shared.stop_workers()
                shared.start_workers(turn + 1)
            self.assertEqual(shared.close().sum(), 3 * 1999000)

    def test_subscribers_come_and_go_while_edits_go_on(self) -> None:
        with SharedVector() as shared:
            shared.start_workers()
            join = beside(*[lambda: [shared.push(2) for _ in range(1000)]] * 2)
            for _ in range(50):
                self.assertTrue(all(note.value == 2 * note.edit for note in shared.subscribe(watching()).look()))
            join()
            self.assertEqual((shared.sum(), shared.total(), shared.total(-1)), (4000, 4000, shared[-1]))

    def test_what_is_let_go_ends_its_threads(self) -> None:
        before = threading.active_count()
        shared, told = SharedVector(), []
        shared.start_workers(2)
        alerts = shared.subscribe(watching())
        shared.push(7)
        join = beside(lambda: told.extend(alerts))
        del shared
        gc.collect()
        join()
        self.assertEqual([values(notes) for notes in told], [[(1, 7)]])
        until(lambda: threading.active_count() == before)


class Page(unittest.TestCase):
    def test_its_program_prints_what_it_says(self) -> None:
        with open(os.path.join(os.path.dirname(os.path.abspath(__file__)), "README.md"), encoding="utf-8") as file:
            program = re.search(r"^```py\n(.*?)^```$", file.read(), re.M | re.S)[1]
        said = io.StringIO()
        with contextlib.redirect_stdout(said):
            exec(program, {})
        self.assertEqual(said.getvalue().splitlines(), re.findall(r"print\(.*\) +# (.*)$", program, re.M))


if __name__ == "__main__":
    unittest.main()
