"""Vectors, series and samples as bytes, beside bytes that are laid out here as docs/formats.md of the repository says.

usage: python3 -m unittest test_saved
"""
import random
import struct
import unittest
from array import array
from typing import Any

import livevec
from livevec import BadRange, Earlier, NotSaved, Samples, Series, SharedVector, Vector


USUAL = bytes((2 * state + rest) % 8 for rest in range(4) for state in range(8))


def laid_out(first: Any, edits: Any, values: Any, times: Any = None, states: Any = USUAL) -> Any:
    head = struct.pack("<5Q", 1, 1 if times is None else 2, first, edits, len(values))
    numbers = [*values, *(times or ())]
    return sealed(b"livevec:" + head + states + struct.pack(f"<{len(numbers)}q", *numbers))


def sealed(saved: Any) -> Any:
    """Bytes with their checksum behind them."""
    checksum = 0xcbf29ce484222325
    for byte in saved:
        checksum = (checksum ^ byte) * 0x100000001b3 % 2**64
    return bytes(saved) + struct.pack("<Q", checksum)


def are_saved(saved: Any, is_timed: Any) -> Any:
    """Whether bytes with a right checksum are those of a series, or of samples."""
    if len(saved) < 88 or len(saved) % 8:
        return False
    text, version, what, first, _, count = struct.unpack_from("<8s5Q", saved)
    if (text, version, what) != (b"livevec:", 1, 2 if is_timed else 1) or len(saved) != 88 + (16 if is_timed else 8) * count or first + count > 2**62:
        return False
    times = list(struct.unpack_from(f"<{count}q", saved, 80 + 8 * count)) if is_timed else []
    return max(saved[48:80]) <= 7 and times == sorted(times)


class Saved(unittest.TestCase):
    def both(self, count: Any, gone: Any) -> Any:
        """A series and samples whose first elements are gone, each with the bytes that it should have."""
        drawn = random.Random(13)
        values = [drawn.choice((2**63 - 1, -2**63, *range(-9, 10))) for _ in range(count)]
        times = sorted(drawn.randint(-50, 50) for _ in range(count))
        series, samples = Series(values), Samples(times, values)
        for some in (series, samples):
            some.expire(gone)
            self.addCleanup(some.close)
        values, times = values[gone:], times[gone:]
        return (series, laid_out(gone, count + 1, values)), (samples, laid_out(gone, count + 1, values, times))

    def test_bytes_are_as_they_are_laid_out(self) -> None:
        for count, gone in ((0, 0), (1, 0), (1, 1), (9, 3), (300, 41)):
            for some, saved in self.both(count, gone):
                self.assertEqual((some.save(), some.saved_length), (saved, len(saved)))
                for length in (8, 13, 96):
                    room, pieces = bytearray(length), b""
                    while many := some.save_into(room, len(pieces)):
                        pieces += room[:many]
                    self.assertEqual(pieces, saved)

    def test_what_is_loaded_goes_on(self) -> None:
        for some, saved in self.both(70, 12):
            of = type(some)
            for back in (of.load(saved), of.load(bytearray(saved)), of.load(memoryview(saved)), of.load(array("q", saved)),
                         of.load_pieces(saved[at : at + 7] for at in range(0, len(saved), 7)), of.load_pieces([saved, b""])):
                self.assertIs(type(back), of)
                self.assertEqual((list(back), back.first, back.size, back.edits), (list(some), 12, 70, 71))
                self.assertEqual((back.sum(), back.where_least(), back.save()), (some.sum(), some.where_least(), saved))
                if of is Series:
                    self.assertEqual((back.push(5), back.edits), (70, 72))
                else:
                    self.assertEqual(back.times(), some.times())
                    self.assertRaises(Earlier, back.push, back.times()[-1] - 1, 5)
                    self.assertEqual((back.push(2**63 - 1, 5), back.edits), (70, 72))
                back.close()

    def test_a_class_of_ones_own_is_loaded(self) -> None:
        class Readings(Series):
            pass

        class Prices(Vector):
            pass

        self.assertIs(type(Readings.load(Series([1]).save())), Readings)
        self.assertIs(type(Prices.load(Series([1]).save())), Prices)

    def test_a_push_after_the_length_was_told_is_saved_too(self) -> None:
        def pushed_late(of: Any) -> Any:
            class Late(of):  # type: ignore[misc, valid-type]
                @property
                def saved_length(self) -> int:
                    length: int = super().saved_length
                    if len(self) < 5:
                        self.extend([7, 8])
                    return length

            return Late([1, 2])

        for of in (Vector, Series):
            self.assertEqual(list(of.load(pushed_late(of).save())), [1, 2, 7, 8, 7, 8])

    def test_other_bytes_are_refused(self) -> None:
        (_, of_series), (_, of_samples) = self.both(9, 2)
        for of, saved in ((Series, of_series), (Samples, of_samples)):
            for at in range(len(saved)):
                wrong = bytearray(saved)
                wrong[at] ^= 1 << at % 8
                self.assertRaises(NotSaved, of.load, wrong)
                self.assertRaises(NotSaved, of.load, saved[:at])
            self.assertRaises(NotSaved, of.load, saved + b"\0")
        with self.assertRaises(NotSaved) as caught:
            Series.load(of_samples)
        self.assertEqual((caught.exception.number, str(caught.exception)), (22, "bytes that are no saved vector, series or samples"))
        self.assertIsInstance(caught.exception, ValueError)
        self.assertRaises(NotSaved, Samples.load, of_series)
        self.assertRaises(NotSaved, Samples.load_pieces, [])
        self.assertRaises(TypeError, Series.load, "livevec:")
        self.assertRaises(TypeError, Series.load_pieces, [of_series, 7])

    def test_a_vector_is_saved_as_a_series_of_its_elements(self) -> None:
        drawn = random.Random(19)
        for count in (0, 1, 9, 1025):
            values = [drawn.choice((2**63 - 1, -2**63, *range(-9, 10))) for _ in range(count)]
            saved = laid_out(0, count, values)
            vector = Vector([*values, 7], most_buckets=9, most_edits=5000)
            vector.pop()
            self.assertEqual((vector.save(), vector.saved_length, SharedVector(vector.copy()).save()), (saved, len(saved), saved))
            room, pieces = bytearray(3001), b""
            while many := vector.save_into(room, len(pieces)):
                pieces += room[:many]
            self.assertEqual(pieces, saved)
            for back in (Vector.load(saved), Vector.load(bytearray(saved)), Vector.load(array("q", saved)), Vector.load_pieces([saved, b""]),
                         Vector.load_pieces(saved[at : at + 7] for at in range(0, len(saved), 7))):
                self.assertEqual((list(back), back.edits, back.sum()), (values, count, (sum(values) + 2**63) % 2**64 - 2**63))
                back.push_saved(memoryview(saved))
                self.assertEqual((list(back), back.edits), (values * 2, count * 2))
            self.assertEqual(list(Series.load(saved)), values)

    def test_a_vector_takes_what_a_series_has_kept(self) -> None:
        (series, of_series), (_, of_samples) = self.both(70, 12)
        self.assertEqual(list(Vector.load(of_series)), list(series))
        table = [[3] * 4] * 8
        for made in (Vector(kind="least", most_edits=58), Vector(table=table, most_edits=58)):
            made.push_saved(of_series)
            self.assertEqual((made.to_array(), made.least()), (series.to_array(), min(series)))
            self.assertRaises(livevec.Worn, made.push_saved, of_series)
            self.assertEqual((len(made), made.edits), (58, 58))
        small = Vector([7], most_buckets=3)
        through = iter(small)
        with self.assertRaises(livevec.Full) as caught:
            small.push_saved(of_series)
        self.assertEqual((caught.exception.pushed, next(through), list(small), small.edits), (0, 7, [7], 1))
        for at in range(len(of_series)):
            wrong = bytearray(of_series)
            wrong[at] ^= 1 << at % 8
            self.assertRaises(NotSaved, small.push_saved, wrong)
            self.assertRaises(NotSaved, Vector.load, of_series[:at])
        self.assertRaises(NotSaved, Vector.load, of_series + b"\0")
        self.assertRaises(NotSaved, small.push_saved, of_samples)
        self.assertRaises(NotSaved, Vector.load_pieces, [])
        self.assertRaises(TypeError, small.push_saved, "livevec:")
        self.assertRaises(BadRange, small.save_into, bytearray(8), 4)
        self.assertRaises(TypeError, small.save_into, bytes(8))
        self.assertEqual((small.save_into(bytearray(8), 96), small.save_into(bytearray(7)), small.save_into(bytearray())), (0, 0, 0))
        small.close()
        for call in (small.save, lambda: small.save_into(bytearray(8)), lambda: small.saved_length, lambda: small.push_saved(of_series)):
            self.assertRaises(livevec.Closed, call)

    def test_an_edit_is_seen_while_elements_are_gone_through(self) -> None:
        vector = Vector([1, 2])
        through = iter(vector)
        self.assertEqual(next(through), 1)
        vector.push_saved(vector.save())
        self.assertRaises(RuntimeError, next, through)

    def test_forged_bytes_are_loaded_where_they_are_those_of_some(self) -> None:
        drawn, loaded = random.Random(17), [0, 0]
        for turn in range(6000):
            count, is_timed = drawn.randrange(5), turn % 2
            times = sorted(drawn.randrange(4) for _ in range(count))
            saved = bytearray(laid_out(drawn.choice((0, 3, 2**62 - count)), drawn.randrange(9), [7] * count, times if is_timed else None)[:-8])
            for _ in range(drawn.randrange(3)):
                number = drawn.choice((0, 1, 2, 3, count, 2**62, 2**62 - count + 1, 2**63, 2**64 - 1, drawn.getrandbits(64), 0x0706050403020100))
                struct.pack_into("<Q", saved, 8 * drawn.randrange(len(saved) // 8), number)
            if drawn.randrange(6) == 0:
                saved += bytes(drawn.randrange(20))
            forged, of = sealed(saved), Samples if is_timed else Series
            if not are_saved(forged, is_timed):
                self.assertRaises(NotSaved, of.load, forged)
                continue
            loaded[is_timed] += 1
            with of.load(forged) as back:
                first, edits = struct.unpack_from("<2Q", forged, 24)
                values = struct.unpack_from(f"<{len(back)}q", forged, 80)
                self.assertEqual((back.first, back.edits, tuple(back), back.save()), (first, edits, values, forged))
        self.assertGreater(min(loaded), 500)

    def test_other_automata_and_the_last_indices(self) -> None:
        states = bytes(range(7, -1, -1)) + bytes(8) + bytes([3] * 8) + bytes(range(8))
        back = Series.load(laid_out(0, 3, [4, 8, 11], states=states))
        self.assertEqual(back.value("automaton"), tuple(range(8)))
        self.assertEqual((back.value("automaton", 0, 1), back.push(1), back.value("automaton")), (tuple(range(7, -1, -1)), 3, (0,) * 8))
        back.extend([2] * 30)
        back.write(5, 3)
        self.assertEqual((back.value("automaton"), back.ask(0, 3).values.automaton), ((3,) * 8, tuple(range(8))))
        for of, times in ((Series, None), (Samples, [5, 5])):
            back = of.load(laid_out(2**62 - 2, 2**64 - 2, [1, 2], times))
            self.assertRaises(livevec.Full, back.push, *([7] if times is None else [7, 7]))
            self.assertEqual((back.size, back.pop(), back.edits), (2**62, 2, 2**64 - 1))
            for call in (back.pop, lambda: back.write(2**62 - 2, 1), lambda: back.expire(2**62 - 1), lambda: back.push(*([7] if times is None else [7, 7]))):
                self.assertRaises(livevec.Worn, call)
            self.assertEqual((list(back), of.load(back.save()).edits), ([1], 2**64 - 1))

    def test_places_and_buffers_that_are_refused(self) -> None:
        series = Series([1, 2])
        self.assertRaises(BadRange, series.save_into, bytearray(8), 4)
        self.assertRaises(OverflowError, series.save_into, bytearray(8), -8)
        self.assertEqual((series.save_into(bytearray(8), 104), series.save_into(bytearray(8), 2**64 - 8), series.save_into(bytearray(7))), (0, 0, 0))
        self.assertEqual(series.save_into(bytearray()), 0)
        for wrong in (bytes(8), memoryview(bytearray(16))[::2], [0] * 8):
            self.assertRaises(TypeError, series.save_into, wrong)
        numbers = array("q", bytes(8 * 13))
        self.assertEqual((series.save_into(numbers), numbers.tobytes()), (104, series.save()))
        series.close()
        for call in (series.save, lambda: series.saved_length, lambda: series.save_into(bytearray(8))):
            self.assertRaises(livevec.Closed, call)


if __name__ == "__main__":
    unittest.main()
