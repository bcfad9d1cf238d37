"""The journal and transcripts. The texts and what an audit says of them are rows of examples/rows."""
import unittest
from typing import Any

import livevec
from livevec import JournalEdit, Kind, Recorded, Vector, Verdict, audit, audit_front, journal, restore, transcript

SOUND = """livevec 1
j push 513
j push 768
a 1 sum 0 1 513
a 2 least 0 2 513
a 2 greatest 0 2 768
a 2 best 0 2 1281
a 2 affine 0 2 6 3
a 2 automaton 0 2 2 6 2 6 2 6 2 6
end
"""


def asked(vector: Any, kind: Any, lo: Any = 0, hi: Any = None) -> Any:
    """An answer as it is recorded."""
    return Recorded(vector.edits, kind, lo, len(vector) if hi is None else hi, vector.value(kind, lo, hi))


class Journals(unittest.TestCase):
    def test_each_edit(self) -> None:
        vector = Vector([-4, 6])
        vector[1] = -(1 << 63)
        vector.swap(0, 1)
        vector.reserve(9)
        vector.pop()
        vector.truncate(0)
        edits = [JournalEdit("push", value=-4), JournalEdit("push", value=6), JournalEdit("write", 1, value=-(1 << 63)), JournalEdit("swap", 0, 1),
                 JournalEdit("reserve", 9), JournalEdit("pop"), JournalEdit("truncate", 0)]
        for start in range(8):
            self.assertEqual(journal(vector, start), edits[start:])
        self.assertEqual(journal(vector, (1 << 32) - 1), [])
        with self.assertRaises(OverflowError):
            journal(vector, -1)

    def test_many(self) -> None:
        vector = Vector(range(10_000))
        self.assertEqual([it.value for it in journal(vector)], list(range(10_000)))
        vector.close()
        with self.assertRaises(livevec.Closed):
            journal(vector)


class Texts(unittest.TestCase):
    def test_each_kind(self) -> None:
        vector = Vector([513])
        answers = [asked(vector, Kind.SUM)]
        vector.push(768)
        answers += [asked(vector, kind) for kind in Kind if kind is not Kind.SUM]
        text = transcript(vector, answers)
        self.assertEqual(text, SOUND)
        self.assertEqual(audit(text), Verdict("yes"))
        false = answers[:1] + [answers[1]._replace(value=512)] + answers[2:]
        self.assertEqual(audit(transcript(vector, false)), Verdict("no", 5))
        with self.assertRaises(livevec.NotInOrder):
            transcript(vector, answers[::-1])

    def test_wide_and_none(self) -> None:
        vector = Vector()
        none = [asked(vector, kind) for kind in ("least", "greatest", "best")]
        vector.extend([-5, (1 << 63) - 1, (1 << 63) - 1])
        answers = [*none, asked(vector, "best"), asked(vector, "best", 0, 1), asked(vector, "sum", 0, 1)]
        text = transcript(vector, answers)
        self.assertIn("a 0 best 0 0 none\na 3 best 0 3 18446744073709551614\na 3 best 0 1 -5\na 3 sum 0 1 18446744073709551611\n", text)
        self.assertTrue(audit(text))

    def test_nothing(self) -> None:
        self.assertEqual(transcript(Vector()), "livevec 1\nend\n")


class Audits(unittest.TestCase):
    def test_transcripts(self) -> None:
        self.assertEqual(audit(b"livevec 1\nj pop\nnonsense\n"), Verdict("no", 2))
        self.assertEqual(audit("livevec 1\nj push 5\na 1 sum 0 1 5\nj push 6\nend\n"), Verdict("bad", 4))
        self.assertFalse(audit(""))

    def test_fronts(self) -> None:
        self.assertEqual(audit_front("livev"), Verdict("yes"))
        self.assertEqual(audit_front("livevec 1\nj push 5\na 1 sum 0 1 5\nj push 6\na 2 sum 0 2 11\na 2 least 0 2 5\nend\n"), Verdict("yes", 0, 2, 3))
        self.assertEqual(audit_front("livevec 1\nj push 5\na 1 sum 0 1 6\nj push 6\n"), Verdict("no", 3))
        self.assertEqual(audit_front(bytearray(b"livevec 1\nend\nend\n")), Verdict("bad", 3))

    def test_checksums_of_a_log(self) -> None:
        log = "livevec 3 0 0 3048bf0ec06edf22\nj push 5 103746d1d7a0d433\nj pop 6682bbb128f05428\n"
        self.assertEqual(audit_front(log), Verdict("yes", 0, 2))
        self.assertEqual(restore(log).edits, 2)
        self.assertEqual(audit_front(log.replace("push 5", "push 6")), Verdict("bad", 2))
        self.assertEqual(audit_front(log.replace("j push 5 103746d1d7a0d433\n", "")), Verdict("bad", 2))


class Restores(unittest.TestCase):
    def test_goes_on(self) -> None:
        vector = restore("livevec 1\nj push 5\na 1 sum 0 1 5\nj push 6\na 2 su")
        self.assertEqual((vector.push(9), vector.edits, vector.sum()), (2, 3, 20))
        self.assertEqual(restore(transcript(vector)), vector)
        self.assertEqual(vector.copy(), vector)

    def test_of_one_kind(self) -> None:
        vector = restore(SOUND, kind="least")
        self.assertEqual((vector.kind, vector.least()), (Kind.LEAST, 513))
        with self.assertRaises(livevec.BadKind):
            vector.sum()

    def test_refusals(self) -> None:
        with self.assertRaises(livevec.NoFront) as caught:
            restore("livevec 1\nj push 5\nj pop\nj pop\n")
        self.assertEqual(caught.exception.verdict, Verdict("no", 4))
        with self.assertRaises(livevec.Worn) as worn:
            restore(SOUND, most_edits=1)
        self.assertEqual(worn.exception.pushed, 1)
        with self.assertRaises(livevec.TooLarge) as large:
            restore("livevec 1\nj reserve 9\n", most_buckets=1)
        self.assertEqual((large.exception.detail, large.exception.pushed), (8, 0))
        with self.assertRaises(livevec.BadLimits):
            restore(SOUND, most_buckets=0)


if __name__ == "__main__":
    unittest.main()
