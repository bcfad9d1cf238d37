"""Standing queries. Expected values are worked out by hand from the rules, or by plain Python over the same numbers."""
import pickle
import random
import unittest

import livevec
from livevec import Kind, Vector
from plain import value_of


class Standing(unittest.TestCase):
    """Standing queries, beside a plain list of what each was told last."""

    def test_notes_are_those_of_a_plain_list(self) -> None:
        chance = random.Random(7)
        vector, row, queries, told = Vector(), [], livevec.Queries(), {}
        for _ in range(700):
            name, kind, lo = f"q{chance.randrange(12)}", chance.choice(list(Kind)), chance.randrange(40)
            if name not in told and chance.random() < 0.3:
                hi = chance.choice([None, 2**70, lo, lo + chance.randrange(50)])
                self.assertIsNone(queries.watch(name, kind, lo, hi))
                told[name] = [kind, slice(lo, hi), value_of(kind, [])]
            elif name in told and chance.random() < 0.1:
                queries.unwatch(name)
                del told[name]
            x = chance.randrange(-300, 300)
            if row and chance.random() < 0.4:
                at = chance.randrange(len(row))
                vector[at] = row[at] = x
            elif row and chance.random() < 0.3:
                self.assertEqual(vector.pop(), row.pop())
            else:
                vector.push(x)
                row.append(x)
            self.assertEqual(queries.names, tuple(told))
            for name, (kind, part, _) in told.items():
                self.assertEqual(queries.answer(vector, name), (vector.edits, value_of(kind, row[part])))
            if chance.random() < 0.6:
                wanted = []
                for name, query in told.items():
                    value = value_of(query[0], row[query[1]])
                    if value != query[2]:
                        wanted.append(livevec.Note(name, query[0], vector.edits, value))
                        query[2] = value
                self.assertEqual(queries.notes(vector), wanted)
                self.assertEqual(queries.notes(vector), [])

    def test_what_is_refused_changes_nothing(self) -> None:
        queries, sums, all_kinds = livevec.Queries(), Vector([4], kind="sum"), Vector([3, -5])
        for name in ("", "A", "a b", "\u00e9", "a\0b", "\ud800", "seventeen_bytes_17"):
            for call in (lambda: queries.watch(name, "sum", 5, 3), lambda: queries.unwatch(name), lambda: queries.answer(sums, name)):
                with self.assertRaises(livevec.BadName):
                    call()
        with self.assertRaises(livevec.BadRange):
            queries.watch("a", "sum", 5, 3)
        queries.watch("a", "sum")
        queries.watch("b", "least", 1, 2)
        for refused, call in [(livevec.NameTaken, lambda: queries.watch("a", "best")), (livevec.NoSuchName, lambda: queries.unwatch("c")),
                              (KeyError, lambda: queries.answer(sums, "c")), (livevec.BadKind, lambda: queries.answer(sums, "b")),
                              (ValueError, lambda: queries.watch("c", "median")), (ValueError, lambda: queries.watch("c", "sum", -1)),
                              (TypeError, lambda: queries.watch(b"c", "sum")), (TypeError, lambda: queries.notes([3, -5]))]:
            with self.assertRaises(refused):
                call()
        with self.assertRaises(livevec.BadKind) as caught:
            queries.notes(sums)
        self.assertEqual((caught.exception.number, caught.exception.detail), (113, 1))
        self.assertEqual(queries.notes(all_kinds), [("a", Kind.SUM, 2, -2), ("b", Kind.LEAST, 2, -5)])
        self.assertEqual(queries.answer(sums, "a"), (1, 4))
        for at in range(livevec.MOST_QUERIES - 2):
            queries.watch(f"q{at}", "affine")
        with self.assertRaises(livevec.TooMany):
            queries.watch("more", "sum")
        self.assertEqual(len(queries.notes(all_kinds)), 62)

    def test_spans_and_bounds(self) -> None:
        feed, queries = livevec.Series(), livevec.Queries()
        queries.watch("two", "sum", last=2)
        queries.watch("high", Kind.GREATEST, last=3, at_least=10)
        queries.watch("low", "least", at_most=-1)
        told = []
        for value in (4, 10, 4, -1):
            feed.append(value)
            told.append([(note.name, note.edit, note.value) for note in queries.notes(feed)])
        self.assertEqual(told, [[("two", 1, 4)], [("two", 2, 14), ("high", 2, 10)], [], [("two", 4, 3), ("low", 4, -1)]])
        self.assertEqual(queries.answer(feed, "high"), (4, 10))
        load, windows = livevec.Samples([0, 5, 9], [7, 1, 2]), livevec.Queries()
        windows.watch("ten", "sum", within=10)
        self.assertEqual([note.value for note in windows.notes(load)], [10])
        load.push(15, 3)
        self.assertEqual((windows.answer(load, "ten").value, [note.value for note in windows.notes(load)]), (5, [5]))
        for of in (feed, Vector()):
            for call in (lambda: windows.notes(of), lambda: windows.answer(of, "ten")):
                with self.assertRaises(livevec.BadKind):
                    call()
        for spans in ({"lo": 1, "last": 2}, {"last": 1, "within": 1}, {"at_least": 1, "at_most": 1}, {"last": -1}):
            with self.assertRaises(ValueError):
                windows.watch("no", "sum", **spans)
        shared = livevec.SharedSamples(load)
        alerts = shared.subscribe(windows)
        shared.push(16, 4)
        self.assertEqual([note.value for note in alerts.look()], [9])

    def test_it_ends(self) -> None:
        with livevec.Queries() as queries:
            queries.watch("a", "sum")
            self.assertEqual(repr(queries), "<livevec.Queries a>")
        self.assertEqual(repr(queries), "<livevec.Queries, closed>")
        queries.close()
        for call in (lambda: queries.watch("a", "sum"), lambda: queries.unwatch("a"), lambda: queries.notes(Vector())):
            with self.assertRaises(livevec.Closed):
                call()
        with self.assertRaises(TypeError):
            pickle.dumps(queries)
        note = livevec.Note("a", Kind.SUM, 1, 4)
        self.assertEqual(pickle.loads(pickle.dumps(note)), note)


if __name__ == "__main__":
    unittest.main()
