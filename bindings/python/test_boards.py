"""Boards and their seats. Expected values are worked out by hand from the rules, or by plain Python over the same numbers."""
import contextlib
import copy
import itertools
import pickle
import sys
import threading
import unittest
from array import array
from typing import Any

import livevec
from livevec import Board, Finished, Kind, Refreshed


def alone(kind: Any = "sum", **limits: Any) -> Any:
    """A board and its only seat."""
    board = Board(kind, seats=1, **limits)
    return board, board.sit()


def insist(call: Any, *arguments: Any) -> Any:
    """Makes a call again until no other seat's edit stands in its way."""
    while True:
        with contextlib.suppress(livevec.Outrun):
            return call(*arguments)


class Boards(unittest.TestCase):
    def test_a_board_has_limits_and_seats(self) -> None:
        for limits in [dict(seats=0), dict(seats=9), dict(most_buckets=0), dict(most_buckets=10), dict(most_edits=0), dict(most_edits=2**24)]:
            with self.assertRaises(livevec.BadLimits):
                Board("sum", **limits)
        for kind in ["sums", "SUM", "", 0, None]:
            with self.assertRaises(ValueError):
                Board(kind)
        board = Board(Kind.LEAST, seats=2)
        one, _two = board.sit(), board.sit()
        one.close()
        _again = board.sit()
        with self.assertRaises(livevec.NoSeat):
            board.sit()
        self.assertEqual((repr(board), repr(one)), ("<livevec.Board of kind least>", "<livevec.Seat of kind least, closed>"))

    def test_each_edit_answers(self) -> None:
        board, seat = alone(most_buckets=1, most_edits=13)
        with self.assertRaises(livevec.Empty):
            seat.pop()
        self.assertEqual((seat.push(-(2**15)), seat.push(2**15 - 1, tries=0), len(seat)), (0, 1, 2))
        for wide in [2**15, -(2**15) - 1, 2**63, -(2**200)]:
            with self.assertRaises(livevec.TooWide):
                seat.push(wide)
            with self.assertRaises(OverflowError):
                seat[0] = wide
        self.assertEqual((seat.write(0, 5), seat[0], seat[-1], seat[-2]), (-(2**15), 5, 2**15 - 1, 5))
        for past in [lambda: seat.write(2, 5), lambda: seat[2], lambda: seat[-3]]:
            with self.assertRaises(livevec.OutOfRange) as raised:
                past()
            self.assertEqual(raised.exception.detail, 2)
        self.assertEqual((seat.pop(), [seat.push(i) for i in range(1, 8)]), (2**15 - 1, list(range(1, 8))))
        with self.assertRaises(livevec.Full):
            seat.push(8)
        board.close()
        self.assertEqual((seat.pop(), seat.push(9)), (7, 7))
        with self.assertRaises(livevec.Worn):
            seat.pop()
        with self.assertRaises(OverflowError):
            seat.pop(tries=-1)

    def test_a_board_reduces_by_its_kind(self) -> None:
        # as worked out in bindings/c/tests.c
        wanted = {"sum": (2050, 0), "least": (-6, None), "greatest": (1027, None), "best": (2052, None), "affine": ((0, 3949), (1, 0)),
                  "automaton": ((7,) * 8, tuple(range(8)))}
        for kind, (value, nothing) in wanted.items():
            _board, seat = alone(kind)
            for element in [4, -6, 1027, 1025]:
                seat.push(element)
            self.assertEqual((seat.reduce(), seat.reduce(-9, -1).edit, seat.reduce(2, 2).value), ((4, 4, 0, value), 4, nothing))
            with self.assertRaises(livevec.BadRange):
                seat.reduce(3, 2)
            with self.assertRaises(livevec.OutOfRange):
                seat.reduce(0, 5)

    def test_a_refresh_saves_reads(self) -> None:
        _board, seat = alone("greatest")
        for element in range(9):
            seat.push(element)
        self.assertEqual((seat.refresh(0), seat.reduce()), (Refreshed(9, 8), (9, 1, 1, 8)))
        with self.assertRaises(livevec.OutOfRange):
            seat.refresh(1)

    def test_a_board_ends_once_its_seats_are_closed(self) -> None:
        with Board(seats=2) as board:
            with board.sit() as seat:
                seat.push(11)
                with self.assertRaises(livevec.SeatsOut):
                    board.finish()
                seat.push(-12)
            self.assertEqual(board.finish(), Finished(2, array("q", [11, -12])))
            for closed in [board.finish, board.sit, seat.pop, lambda: len(seat)]:
                with self.assertRaises(livevec.Closed):
                    closed()
            board.close()
        seat.close()
        with self.assertRaises(TypeError):
            copy.copy(board)
        with self.assertRaises(TypeError):
            pickle.dumps(seat)

    def test_a_seat_serves_one_thread_at_a_time(self) -> None:
        _board, seat = alone()
        with seat._one:
            for call in [seat.pop, seat.close, lambda: seat[0]]:
                with self.assertRaisesRegex(RuntimeError, "one thread"):
                    call()
        self.assertEqual(seat.push(1), 0)

    def test_refusals_have_their_numbers(self) -> None:
        for refusal, number, base in [(livevec.TooWide, 16, OverflowError), (livevec.Contended, 17, livevec.Outrun), (livevec.Overtaken, 18, livevec.Outrun),
                                      (livevec.NoSeat, 105, RuntimeError), (livevec.SeatsOut, 106, RuntimeError)]:
            self.assertEqual((refusal.number, issubclass(refusal, base), issubclass(refusal, livevec.Refusal)), (number, True, True))
        self.assertEqual(str(livevec.Contended(3)), "contended: edit 3 came first")

    def test_eight_threads_share_one_list_of_edits(self) -> None:
        rounds, board, played, failed = 200, Board("sum", seats=8), {}, []

        def sums(seat: Any) -> Any:
            size = len(seat)
            told = insist(seat.reduce, 0, size)
            self.assertTrue(size <= told.value <= size * 108, (size, told))
            return told.edit

        def play(number: Any, seat: Any) -> None:
            try:
                with seat:
                    places, last = [], 0
                    for _ in range(rounds):
                        places.append(insist(seat.push, number))
                        last, before = sums(seat), last
                        self.assertLess(before, last)
                    self.assertEqual({insist(seat.write, place, 100 + number) for place in places}, {number})
                    played[number] = places
            except BaseException as failure:
                failed.append(failure)

        before = sys.getswitchinterval()
        sys.setswitchinterval(1e-5)
        try:
            threads = [threading.Thread(target=play, args=(number, board.sit())) for number in range(1, 9)]
            for thread in threads:
                thread.start()
            for thread in threads:
                thread.join()
        finally:
            sys.setswitchinterval(before)
        self.assertEqual(failed, [])
        edits, elements = board.finish()
        self.assertEqual((edits, len(elements), sum(elements)), (3200, 1600, rounds * (8 * 100 + 36)))
        for number, places in played.items():
            self.assertEqual({elements[place] for place in places}, {100 + number})
        self.assertEqual(sorted(itertools.chain(*played.values())), list(range(1600)))


if __name__ == "__main__":
    unittest.main()
