"""The calls that look for quotients, as they are built: each range, each aim and each bound, and why a search is given
up."""

from __future__ import annotations

import ctypes
import unittest
from typing import NamedTuple

from tests import samples
from tests.raw_calls import UNCOUNTED, UNTOLD, called, text

LIMIT = 100_000
# The certificate of 0.3, where a move takes one from a heap
OF_0_3 = (samples / "0.3.mqc").read_bytes()
# The part of 0.33 with the heap 1 alone: two such heaps are as none
PART_OF_0_33 = (
    b"mqc 2\ncode 0.33\norder 2\nstart 2\nperiod 0\nphi 1\nportion 1\nwords 0:1\nrow 0 1\nrow 1 0\napart 0\nend\n"
)

# The text of the whole game 0.26, and a presentation of 0.404: no part to fewer heaps has an infinite quotient
WHOLE_0_26 = (samples / "0.26.mqw").read_bytes()
PRESENTED_0_404 = (samples / "0.404_heaps_12.mqp").read_bytes()

# The limit, the rounds, the aim, the heaps and the order; for an infinite quotient the heaps alone
Bounds = tuple[int, ...]


class Search(NamedTuple):
    name: str
    code: bytes
    bounds: Bounds
    status: int


SEARCHES = [
    Search("a quotient", b"0.3", (100, 4, 0, 8, 8), 0),
    Search("a limit that is met", b"0.3", (1, 4, 0, 8, 8), 13),
    Search("no limit", b"0.3", (0, 4, 0, 8, 8), 15),
    Search("the largest limit", b"0.3", (1000000, 4, 0, 8, 8), 0),
    Search("a larger limit", b"0.3", (1000001, 4, 0, 8, 8), 15),
    Search("one round", b"0.3", (100, 1, 0, 8, 8), 0),
    Search("no round", b"0.3", (100, 0, 0, 8, 8), 15),
    Search("the most rounds", b"0.3", (100, 1000, 0, 8, 8), 0),
    Search("more rounds", b"0.3", (100, 1001, 0, 8, 8), 15),
    Search("one heap", b"0.3", (100, 4, 0, 1, 8), 15),
    Search("two heaps, which show no period", b"0.33", (100, 4, 0, 2, 8), 13),
    Search("the most heaps", b"0.3", (100, 4, 0, 8210, 8), 0),
    Search("more heaps", b"0.3", (100, 4, 0, 8211, 8), 15),
    Search("one element", b"0.3", (100, 4, 0, 8, 1), 15),
    Search("two elements", b"0.3", (100, 4, 0, 8, 2), 0),
    Search("the most elements by few heaps", b"0.3", (100, 4, 0, 8, 256), 0),
    Search("more elements by few heaps", b"0.3", (100, 4, 0, 8, 257), 15),
    Search("more elements by the most of few heaps", b"0.3", (100, 4, 0, 64, 257), 15),
    Search("the most elements by many heaps", b"0.3", (100, 4, 0, 65, 4096), 0),
    Search("more elements by many heaps", b"0.3", (100, 4, 0, 65, 4097), 15),
    Search("the most elements of a part", b"0.3", (100, 4, 1, 8, 4096), 0),
    Search("more elements of a part", b"0.3", (100, 4, 1, 8, 4097), 15),
    Search("a part without heaps", b"0.3", (100, 4, 1, 0, 8), 15),
    Search("a part of one heap", b"0.3", (100, 4, 1, 1, 8), 0),
    Search("a part of too many heaps", b"0.3", (100, 4, 1, 1025, 8), 15),
    Search("no such aim", b"0.3", (100, 4, 3, 8, 8), 15),
    Search("a limit of 2", b"0.33", (2, 4, 0, 24, 8), 13),
    Search("an order too small", b"0.33", (LIMIT, 4, 0, 24, 5), 13),
    Search("no period by one round", b"0.77", (100, 1, 0, 8, 8), 13),
    Search("a code that ends in 0", b"0.30", (100, 4, 0, 8, 8), 12),
    Search("a code that ends in a point", b"0.8.", (100, 4, 0, 8, 8), 12),
    Search("a byte that is no text", b"\xff", (100, 4, 0, 8, 8), 12),
    Search("no limit for no code", b"0.30", (0, 4, 0, 8, 8), 15),
    Search("no such aim for no code", b"\xff", (100, 4, 3, 8, 8), 15),
]


class Told(NamedTuple):
    """A search, with so much room; the status, the length, and what is told."""

    name: str
    code: bytes
    bounds: Bounds
    room: int
    status: int
    length: int
    told: bytes


QUOTIENTS = [
    Told("just room", b"0.3", (100, 4, 0, 8, 8), 96, 0, 96, OF_0_3),
    Told("room for a byte less", b"0.3", (100, 4, 0, 8, 8), 95, 14, 96, b""),
]
FURTHEST = [
    Told("the furthest by no heaps", b"0.33", (LIMIT, 64, 2, 0, 4), 120, 0, len(PART_OF_0_33), PART_OF_0_33),
    Told("the furthest by many heaps", b"0.33", (LIMIT, 64, 2, 4000, 4), 120, 0, len(PART_OF_0_33), PART_OF_0_33),
]


# The bounds where nobody asks for others
USUAL = (LIMIT, 64, 0, 24, 64)
TWO_HEAPS = (LIMIT, 64, 0, 2, 64)
WHYS = [
    Told("no period", b"0.77", USUAL, 400, 13, 32, b"gave up 2 Empty\nno period 24 24\n"),
    Told("too large", b"0.6", USUAL, 400, 13, 29, b"gave up 2 Empty\ntoo large 15\n"),
    Told("repairs", b"0.06", USUAL, 400, 13, 30, b"gave up 2 Empty\nrepairs 17 48\n"),
    Told("one element", b"0.4", TWO_HEAPS, 400, 13, 28, b"gave up 2 Empty\none element\n"),
    Told("just room for the lines", b"0.4", TWO_HEAPS, 28, 13, 28, b"gave up 2 Empty\none element\n"),
    Told("no room for the lines", b"0.4", TWO_HEAPS, 27, 14, 28, b""),
    Told("members", b"0.33", (5, 64, 0, 24, 64), 400, 13, 24, b"gave up 2 Empty\nmembers\n"),
    Told("rounds", b"0.07", (LIMIT, 1, 0, 24, 64), 400, 13, 24, b"gave up 1 Rounds\nrounds\n"),
    Told("found", b"0.3", (100, 4, 0, 8, 8), 400, 0, 96, OF_0_3),
    Told("no code", b"0.30", USUAL, 400, 12, UNCOUNTED, b""),
    Told("no rounds", b"0.3", (LIMIT, 0, 0, 24, 64), 400, 15, UNCOUNTED, b""),
]


# Each part of 0.33 has a finite quotient, and each of 0.404 to heap 11
UNTIL_8, UNTIL_11 = (b"gave up: each part to heap %d seems to have a finite quotient\n" % it for it in (8, 11))
INFINITE = [
    Told("a whole game", b"0.26", (64,), 400, 0, 159, WHOLE_0_26),
    Told("a whole game by one heap", b"0.26", (1,), 400, 0, 159, WHOLE_0_26),
    Told("by the most heaps", b"0.26", (1024,), 400, 0, 159, WHOLE_0_26),
    Told("just room", b"0.26", (64,), 159, 0, 159, WHOLE_0_26),
    Told("room for a byte less", b"0.26", (64,), 158, 14, 159, b""),
    Told("finite quotients", b"0.33", (8,), 400, 13, 61, UNTIL_8),
    Told("just room for the line", b"0.33", (8,), 61, 13, 61, UNTIL_8),
    Told("no room for the line", b"0.33", (8,), 60, 14, 61, b""),
    Told("no heap", b"0.26", (0,), 400, 15, UNCOUNTED, b""),
    Told("more heaps", b"0.26", (1025,), 400, 15, UNCOUNTED, b""),
    Told("a code that ends in 0", b"0.260", (64,), 400, 12, UNCOUNTED, b""),
    Told("no byte", b"", (64,), 400, 12, UNCOUNTED, b""),
    Told("a byte that is no text", b"\xff", (64,), 400, 12, UNCOUNTED, b""),
    Told("no heap for no code", b"0.260", (0,), 400, 15, UNCOUNTED, b""),
]
PARTS = [
    Told("a part", b"0.404", (64,), 400, 0, len(PRESENTED_0_404), PRESENTED_0_404),
    Told("by just as many heaps", b"0.404", (12,), 400, 0, len(PRESENTED_0_404), PRESENTED_0_404),
    Told("by a heap less", b"0.404", (11,), 400, 13, 62, UNTIL_11),
    Told("finite quotients", b"0.33", (8,), 60, 14, 61, b""),
    Told("no heap", b"0.404", (0,), 400, 15, UNCOUNTED, b""),
    Told("more heaps", b"0.404", (1025,), 400, 15, UNCOUNTED, b""),
    Told("a code that ends in 0", b"0.4040", (64,), 400, 12, UNCOUNTED, b""),
]


def searched(call: str, code: bytes, bounds: Bounds, room: int) -> tuple[int, int, bytes]:
    """The status, the length, and what the room holds."""
    told, count = text(room), ctypes.c_uint64(UNCOUNTED)
    status = called(call, code, *bounds, told, count)
    return status, count.value, bytes(told)


def filled(told: bytes, room: int) -> bytes:
    """A room that holds this, and behind it what it held before."""
    return told + bytes([UNTOLD]) * (room - len(told))


class Searches(unittest.TestCase):
    def test_searches_keep_within_what_is_asked(self) -> None:
        """A length is told with a certificate alone, and else nothing is."""
        for row in SEARCHES:
            with self.subTest(row.name):
                status, length, told = searched("misere_solve", row.code, row.bounds, 400)
                self.assertEqual(status, row.status)
                if status:
                    self.assertEqual((length, told), (UNCOUNTED, filled(b"", 400)))
                else:
                    self.assertEqual((told[:4], told[length - 5 : length]), (b"mqc ", b"\nend\n"))

    def look_at(self, call: str, rows: list[Told]) -> None:
        for row in rows:
            with self.subTest(row.name):
                told = searched(call, row.code, row.bounds, row.room)
                self.assertEqual(told, (row.status, row.length, filled(row.told, row.room)))

    def test_quotients_are_found(self) -> None:
        self.look_at("misere_solve", QUOTIENTS)

    def test_the_furthest_part_is_found_whatever_the_heaps(self) -> None:
        self.look_at("misere_solve", FURTHEST)

    def test_parts_of_games_are_found(self) -> None:
        status, _, told = searched("misere_solve", b"0.3", (100, 4, 1, 2, 8), 120)
        self.assertEqual((status, told[:6]), (0, b"mqc 2\n"))

    def test_searches_say_why_they_are_given_up(self) -> None:
        self.look_at("misere_solve_why", WHYS)

    def test_infinite_quotients_are_found(self) -> None:
        self.look_at("misere_solve_infinite", INFINITE)

    def test_parts_with_an_infinite_quotient_are_found(self) -> None:
        for call in ("misere_solve_infinite", "misere_solve_presented"):
            self.look_at(call, PARTS)
