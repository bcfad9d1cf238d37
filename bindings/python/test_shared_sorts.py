"""A series and samples that threads share, and a shared vector that goes on as its copy. Values are worked out by hand."""
import _thread
import copy
import signal
import subprocess
import sys
import threading
import time
import unittest
from array import array
from typing import Any

import livevec
from livevec import Busy, Kind, LongReduced, Queries, Receipt, Sample, Samples, Series, SharedSamples, SharedSeries, SharedVector, Vector


def values(notes: Any) -> Any:
    return [(note.name, note.edit, note.value) for note in notes]


class OfSeries(unittest.TestCase):
    def test_each_call(self) -> None:
        shared = SharedSeries(Series([4, 5]))
        alerts, late = shared.subscribe({"all": "sum", "front": ("least", 0, 2)}), shared.subscribe({"most": (Kind.GREATEST, 0, None)})
        self.assertEqual((shared.push(6), len(shared), shared[2], shared.edits), (Receipt(3, 2), 3, 6, 3))
        self.assertEqual(values(next(alerts)), [("all", 3, 15), ("front", 3, 4)])
        self.assertEqual((shared.write(0, 7), shared.swap(0, 1), shared.pop()), (Receipt(4, 4), Receipt(5, 5), Receipt(6, 6)))
        self.assertEqual(values(next(alerts)), [("all", 6, 12), ("front", 6, 5)])
        self.assertEqual((shared.extend([1, 2, 3]), shared.write_many([4], [30]), shared.expire(1)), (9, 10, Receipt(11, 1)))
        self.assertEqual((shared.first, shared.size, shared.truncate(4), list(shared), list(reversed(shared))), (1, 5, Receipt(12, 1), [7, 1, 2], [2, 1, 7]))
        self.assertEqual((shared.sum(), shared.least(), shared.greatest(2), shared.best(1, 3), shared.total(), shared.value("affine", 4)), (10, 1, 2, 8, 10, (1, 0)))
        self.assertEqual((type(shared.reduce()), shared.reduce().edit, shared.reduce().values.sum), (LongReduced, 12, 10))
        self.assertRaises(livevec.NotKept, lambda: shared[0])
        self.assertRaises(livevec.NotKept, shared.write, -1, 0)
        self.assertRaises(OverflowError, shared.push, 2**63)
        with self.assertRaises(livevec.NotKept), shared.locked() as series:
            self.assertRaises(livevec.Busy, len, shared)
            series.push(50)
            series[0]
        self.assertEqual((shared.edits, values(alerts.look()), values(next(late))), (13, [("all", 13, 60), ("front", 13, 7)], [("most", 13, 50)]))
        self.assertRaises(AttributeError, lambda: shared.start_workers())
        self.assertRaises(AttributeError, lambda: shared.renew())
        self.assertRaises(TypeError, copy.copy, shared)
        told = []
        listener = threading.Thread(target=lambda: told.extend(late))
        listener.start()
        time.sleep(0.02)
        shared[4] = 51
        series = shared.close()
        listener.join()
        self.assertEqual([values(notes) for notes in told], [[("most", 14, 51)]])
        self.assertEqual((list(series), series is shared.close(), repr(shared)), ([7, 1, 2, 51], True, "<livevec.SharedSeries, closed>"))
        self.assertEqual([values(notes) for notes in alerts], [[("all", 14, 61)]])
        for call in (lambda: shared.push(1), lambda: len(shared), lambda: shared.subscribe({}), lambda: shared.sum()):
            self.assertRaises(livevec.Closed, call)

    def test_what_can_not_be_watched(self) -> None:
        shared = SharedSeries()
        for wrong, asked in ((livevec.BadName, {"seventeen letters": "sum"}), (livevec.BadRange, {"back": ("sum", 2, 1)}), (ValueError, {"of": "median"}),
                             (ValueError, {"of": ("sum", -1, 2)}), (livevec.TooMany, {f"q{i}": "sum" for i in range(65)}), (TypeError, {5: "sum"})):
            self.assertRaises(wrong, shared.subscribe, asked)
        self.assertEqual((shared.subscribe({}).look(), repr(shared.subscribe({"low": "least"}))), ([], "<livevec.Subscriber to low>"))
        for wrong in (Vector(), [1], None.__class__):
            self.assertRaises(TypeError, SharedSeries, wrong)
        self.assertRaises(TypeError, SharedSamples, Series())
        self.assertRaises(TypeError, SharedVector, Series())

    def test_threads_push_and_listen(self) -> None:
        shared, told = SharedSeries(), []
        alerts = shared.subscribe({"all": "sum"})
        alerts.pause = 0
        listener = threading.Thread(target=lambda: told.extend(alerts))
        feeders = [threading.Thread(target=lambda: [shared.push(2) for _ in range(500)]) for _ in range(4)]
        for thread in (listener, *feeders):
            thread.start()
        for thread in feeders:
            thread.join()
        self.assertEqual(shared.close().size, 2000)
        listener.join()
        # of twos alone the sum is twice the number of edits, and the numbers rise
        self.assertTrue(all(note.value == 2 * note.edit for notes in told for note in notes))
        edits = [notes[0].edit for notes in told]
        self.assertEqual((edits, edits[-1]), (sorted(set(edits)), 2000))


class OfSamples(unittest.TestCase):
    def test_each_call(self) -> None:
        with SharedSamples(Samples([0, 12], [20, 22])) as load:
            alerts = load.subscribe({"most": "greatest"})
            self.assertEqual((load.push(61, 30), load.push_many([75, 80], [26, 28]), load.sample(3), load[3]), (Receipt(3, 2), 5, Sample(75, 26), 26))
            self.assertEqual((values(next(alerts)), load.value_of_last("sum", 60), load.value_between("least", 0, 13)), ([("most", 5, 30)], 84, 20))
            self.assertEqual((load.expire_before(70), load.expire(4), load.first, len(load)), (Receipt(6, 3), Receipt(7, 1), 4, 1))
            with self.assertRaises(livevec.Earlier) as earlier:
                load.push(79, 1)
            self.assertEqual((earlier.exception.newest, load.write(4, 29), values(alerts.look())), (80, Receipt(8, 28), [("most", 8, 29)]))
        self.assertEqual(list(load.close().times()), [80])


class Renewed(unittest.TestCase):
    def test_a_vector_of_few_edits_goes_on(self) -> None:
        shared, queries = SharedVector(Vector(most_buckets=1, most_edits=6, kind="sum")), Queries()
        queries.watch("all", "sum")
        alerts, wanted = shared.subscribe(queries), []
        shared.start_workers(2)
        first = shared._of
        for edit in range(1, 51):
            with shared.locked() as vector:
                is_worn = vector.edits == 6
            if is_worn:
                self.assertRaises(livevec.Worn, shared.push, 1)
                shared.renew()
                self.assertEqual((shared.edits, alerts.look(), list(shared)), (edit - 1, [], wanted))
                self.assertRaises(livevec.BadKind, shared.least)
            # of at most two elements, so that a copy has four edits left
            if len(wanted) < 2:
                wanted.append(edit)
                self.assertEqual(shared.push(edit), Receipt(edit, len(wanted) - 1))
            else:
                self.assertEqual(shared.pop(), Receipt(edit, wanted.pop()))
            self.assertEqual(values(alerts.look()), [("all", edit, sum(wanted))])
        with shared.locked():
            self.assertRaises(livevec.Busy, shared.renew)
        self.assertIs(shared.close(), first)
        self.assertEqual((list(first), first.kind), (wanted, Kind.SUM))
        self.assertLessEqual(first.edits, 6)
        self.assertRaises(livevec.Closed, shared.renew)

    def test_it_is_refused_with_nothing_changed(self) -> None:
        shared = SharedVector(Vector([1, 1], most_edits=3))
        shared.push(1)
        shared.renew()
        self.assertEqual((shared.edits, list(shared)), (3, [1, 1, 1]))
        self.assertRaises(livevec.Worn, shared.pop)

    def test_it_answers_by_the_same_table(self) -> None:
        table = [[(state + letter) % 8 for letter in range(4)] for state in range(8)]
        shared = SharedVector(Vector([1, 2, 3], table=table))
        shared.renew()
        self.assertEqual((shared.value("automaton"), shared.push(1), shared.reduce().edit), ((6, 7, 0, 1, 2, 3, 4, 5), Receipt(4, 3), 4))


class AsAlone(unittest.TestCase):
    """What is shared answers as its twin that isn't: of [3, -1, 4, 1, -5, 9, 2, 6], values worked out by hand where they are short."""

    ELEMENTS, TIMES = [3, -1, 4, 1, -5, 9, 2, 6], [0, 5, 5, 10, 20, 30, 31, 40]
    ASKED = (("where_least",), ("where_greatest", 0, 5), ("where_best",), ("where_reaches", 6), ("where_reaches_back", 8), ("where_first_at_least", 4),
             ("where_first_at_most", -1, 2), ("where_last_at_least", 4, 0, 5), ("where_last_at_most", 1), ("total", 1, 5), ("value", "affine", 2, 4),
             ("value_many", "sum", [(0, 3), (2, 8)]), ("to_array", 2, 5), ("least", 3), ("best",))
    CELLS = (("rolling", "greatest", 3), ("scan_inclusive_by", "sum", 2), ("scan_exclusive_by", "least"))

    def forms(self) -> Any:
        yield SharedVector(Vector(self.ELEMENTS)), Vector(self.ELEMENTS)
        yield SharedSeries(Series(self.ELEMENTS)), Series(self.ELEMENTS)
        yield SharedSamples(Samples(self.TIMES, self.ELEMENTS)), Samples(self.TIMES, self.ELEMENTS)

    def test_each_question(self) -> None:
        for shared, alone in self.forms():
            with self.subTest(shared=shared), shared:
                for name, *given in self.ASKED:
                    self.assertEqual(getattr(shared, name)(*given), getattr(alone, name)(*given), (name, given))
                for name, *given in self.CELLS:
                    self.assertEqual(getattr(shared, name)(*given).cells.tolist(), getattr(alone, name)(*given).cells.tolist())
                self.assertEqual(list(shared.scan_inclusive(1)), list(alone.scan_inclusive(1)))
                self.assertEqual(list(shared.scan_exclusive(1)), list(alone.scan_exclusive(1)))
                self.assertEqual((shared[2:4], shared[::3]), ([4, 1], [3, 1, 2]))
                self.assertRaisesRegex(TypeError, "the index is a whole number", lambda: shared["2"])
                self.assertEqual((shared.copy() == alone, list(reversed(shared)), shared.ask(), shared.ask().edit), (True, self.ELEMENTS[::-1], alone.ask(), 8))
                column = array("q", [7, 7, 7])
                self.assertEqual((shared.value_many("sum", iter([(0, 3), (6, 8)]), into=column), column.tolist()), (2, [6, 8, 7]))
                self.assertEqual((shared.rolling("sum", 2, 5, 8, into=column), column.tolist()), (3, [4, 11, 8]))
                if not isinstance(shared, SharedSamples):
                    self.assertEqual((shared.swap(0, 5), shared.write_many([7], [60])), (Receipt(9, 9), 10))
                self.assertEqual((shared.clear().told, len(shared)), (8, 0))
                self.assertIsNone(shared.where_least())

    def test_what_one_form_has(self) -> None:
        vector, series, load = (shared for shared, _ in self.forms())
        self.assertEqual((vector.capacity, vector.summary(0, 3).total), (8, 6))
        vector.append(7)
        self.assertEqual((vector[-1], vector.edits), (7, 9))
        series.prepare("sum")
        self.assertEqual((Series.load(series.save()), series.expire(2)), (Series(self.ELEMENTS), Receipt(9, 2)))
        self.assertEqual((load.times(1, 4).tolist(), load.between(5, 10), load.last(10), load.rolling_span("sum", 6).cells.tolist()),
                         ([5, 5, 10], (1, 3), (6, 8), [3, 2, 6, 4, -5, 9, 11, 6]))
        self.assertEqual(Samples.load(load.save()), Samples(self.TIMES, self.ELEMENTS))


class Compared(unittest.TestCase):
    def test_elements_count_and_not_where_they_stand(self) -> None:
        one, same, other = (SharedVector(Vector(of)) for of in ([1, 2], [1, 2], [1, 3]))
        self.assertTrue(one == same and one != other and one == one)
        other[1] = 2
        self.assertTrue(other == same)
        late, early = SharedSeries(Series([9, 2, 3])), SharedSeries(Series([1, 2, 3]))
        self.assertFalse(late == early)
        for series in (late, early):
            series.expire(1)
        self.assertTrue(late == early)
        self.assertFalse(one == late)
        self.assertTrue(SharedSamples(Samples([0, 5], [7, 7])) == SharedSamples(Samples([0, 5], [7, 7])) != SharedSamples(Samples([0, 6], [7, 7])))
        self.assertTrue(SharedSamples(Samples([0, 5], [7, 7])) == Samples([0, 5], [7, 7]) != SharedSeries(Series([7, 7])))
        self.assertRaises(TypeError, hash, one)
        one.close()
        self.assertRaises(livevec.Closed, lambda: one == same)

    def test_both_ways_at_once(self) -> None:
        a, b = (SharedVector(Vector([1] * 64)) for _ in range(2))
        told: list[int] = []
        both = [threading.Thread(target=lambda of=of, to=to: told.append(sum(of == to for _ in range(200)))) for of, to in ((a, b), (b, a))]
        for thread in both:
            thread.start()
        for round in range(100):
            a[0] = round % 2
        for thread in both:
            thread.join(60)
        a[0] = 1
        self.assertEqual((len(told), a == b), (2, True))


class Ends(unittest.TestCase):
    def setUp(self) -> None:
        # one that is started in the background ignores it
        self.addCleanup(signal.signal, signal.SIGINT, signal.signal(signal.SIGINT, signal.default_int_handler))

    def test_a_signal_ends_the_wait_for_a_turn(self) -> None:
        shared = SharedVector(Vector([1]))
        inside, done = threading.Event(), threading.Event()

        def hold() -> None:
            with shared.locked():
                inside.set()
                done.wait(20)

        holder = threading.Thread(target=hold)
        holder.start()
        inside.wait()
        for wait in (lambda: shared.push(2), lambda: shared.locked().__enter__(), shared.close, lambda: shared[0]):
            threading.Timer(0.05, signal.pthread_kill, (threading.main_thread().ident, signal.SIGINT)).start()
            self.assertRaises(KeyboardInterrupt, wait)
        done.set()
        holder.join()
        # nobody has it, and nothing was done
        self.assertEqual((shared.push(3), list(shared)), (Receipt(2, 1), [1, 3]))
        with shared.locked():
            self.assertRaises(Busy, shared.push, 4)
            self.assertRaises(Busy, shared.close)
        self.assertEqual(shared.close().to_array().tolist(), [1, 3])
        self.assertRaises(livevec.Closed, shared.push, 5)

    def test_a_signal_wakes_who_sleeps(self) -> None:
        alerts = SharedSeries().subscribe({"all": "sum"})
        shared = SharedVector()
        queries = Queries()
        queries.watch("all", "sum")
        for sleeper in (shared.subscribe(queries),):
            threading.Timer(0.05, _thread.interrupt_main).start()
            self.assertRaises(KeyboardInterrupt, next, sleeper)
        # what was let go at once has ended
        self.assertRaises(StopIteration, next, alerts)

    def test_answers_name_the_shared_edit_after_a_renewal(self) -> None:
        shared = SharedVector(Vector([1, 2], most_edits=5))
        for value in (5, 6, 7):
            shared.write(0, value)
        shared.renew()
        self.assertEqual((shared.edits, shared.push(3)), (5, Receipt(6, 2)))
        told = [shared.scan_inclusive(), shared.scan_exclusive(1), shared.scan_inclusive_by("sum"), shared.scan_exclusive_by("least", 1), shared.rolling("sum", 2)]
        self.assertEqual([answer.edit for answer in (*told, shared.ask(), shared.reduce())], [6] * 7)
        self.assertEqual((told[0].sums(), told[1].sums(), told[4].cells.tolist()), ([7, 9, 12], [0, 2], [7, 9, 5]))

    def test_columns_of_the_callers(self) -> None:
        elements = [3, -1, 4, 1, -5, 9, 2, 6]
        column = array("q", [7] * 3)
        shared = SharedVector(Vector(elements))
        self.assertEqual((shared.scan_inclusive_into("sum", column, 0, 2), column.tolist()), (2, [3, 2, 7]))
        self.assertEqual((shared.scan_exclusive_into("greatest", column, 1, 4), column.tolist()), (3, [0, -1, 4]))
        self.assertEqual((shared.read_into(column, 5), column.tolist()), (3, [9, 2, 6]))
        self.assertRaises(livevec.ShortBuffer, shared.scan_inclusive_into, "sum", column, 0, 4)
        self.assertRaises(TypeError, shared.scan_inclusive_into, "sum", column, 0, 4, at=1)
        series, load = SharedSeries(Series(elements)), SharedSamples(Samples(range(8), elements))
        for one in (series, load):
            self.assertEqual((one.scan_inclusive_into("sum", column, at=5), column.tolist()), (3, [11, 13, 19]))
            self.assertEqual((one.scan_exclusive_into("least", column, 0, 8, at=6), column.tolist()), (2, [-5, -5, 19]))
            self.assertEqual((one.read_into(column, 0, 2), column.tolist()), (2, [3, -1, 19]))
        self.assertEqual((load.times_into(column, 5), column.tolist()), (3, [5, 6, 7]))

    def test_what_is_let_go_at_work_ends(self) -> None:
        before = threading.active_count()
        for _ in range(100):
            shared = SharedVector(Vector(range(2000)))
            shared.start_workers(2)
            shared.push(7)
            del shared
        while threading.active_count() > before:
            time.sleep(0.001)

    def test_a_program_ends_that_closes_nothing(self) -> None:
        program = ("from livevec import SharedVector, SharedSeries, Vector\n"
                   "shared = SharedVector(Vector(range(100000)))\nshared.start_workers(3)\nother = SharedSeries()\nalerts = other.subscribe({'all': 'sum'})\n"
                   "shared.push(1)\nother.push(2)\nprint(alerts.look()[0].value)\n")
        self.assertEqual(subprocess.run([sys.executable, "-c", program], capture_output=True, text=True, timeout=60).stdout, "2\n")


if __name__ == "__main__":
    unittest.main()
