"""The calls that check certificates and ask quotients, as they are built: by bytes, and of what is opened."""

from __future__ import annotations

import ctypes
import unittest
from typing import Any, NamedTuple

from misere._library import Opened
from tests import samples
from tests.made_texts import nim, wrong_at
from tests.raw_calls import (
    NO_MOVE,
    UNCOUNTED,
    UNTOLD,
    Check,
    Move,
    called,
    front,
    move_of,
    moves,
    numbers,
    told_in,
    words,
)

# Of 0.3, where a move takes one from a heap: of the whole game, to heap 2, and one that is wrong at two heaps of 1
FULL, PARTIAL = ((samples / f"{it}.mqc").read_bytes() for it in ("0.3", "0.3_heaps_2"))
WRONG = (samples / "refused/outcome_at_two_ones.mqc").read_bytes()
LIMIT, LARGE_LIMIT = 100, 100_000
HEAPS = [10**12, 1]
ONES = [1] * 100


CHECKS = [
    Check("a certificate", FULL, LIMIT, 0),
    Check("no text", b"", LIMIT, 1),
    Check("a limit of 0", FULL, 0, 8),
]


class Asked(NamedTuple):
    """What is asked of a position; the status, and the number that is told."""

    name: str
    call: str
    certificate: bytes
    heaps: list[int]
    status: int
    told: int = UNTOLD


POSITIONS = [
    Asked("an outcome", "outcome", FULL, HEAPS, 0, 0),
    Asked("an element", "value", FULL, HEAPS, 0, 1),
    Asked("no heap", "outcome", FULL, [0], 10),
    Asked("no text", "value", b"", HEAPS, 1),
]
PARTS = [
    Asked("heaps of a part", "outcome", PARTIAL, [2, 1, 2], 0, 0),
    Asked("the outcome beyond a part", "outcome", PARTIAL, [2, 3], 23),
    Asked("the element beyond a part", "value", PARTIAL, [2, 3], 23),
]


class Answer(NamedTuple):
    """A position of 0.3, and what is to be done in it."""

    name: str
    heaps: list[int]
    told: Move


ANSWERS = [
    Answer("a move", [2, 3, 3], (2, 2, 1, 0, 0)),
    Answer("a move from a hundred heaps", ONES, (2, 1, 0, 0, 0)),
]


class Many(NamedTuple):
    """Positions, and how many rooms there are; the status, and what is told."""

    name: str
    call: str
    certificate: bytes
    heaps: list[int]
    ends: list[int]
    room: int
    status: int
    told: list[Any]


OUTCOMES = [
    Many("outcomes", "outcomes", FULL, [1, 2, 1, 2], [1, 1, 4], 3, 0, [0, 1, 0]),
    Many("ends that fall", "outcomes", FULL, [1, 2, 1, 2], [1, 0, 4], 3, 11, [UNTOLD] * 3),
    Many("fewer ends than rooms", "outcomes", FULL, [1, 2, 1, 2], [1], 3, 11, [UNTOLD] * 3),
]
VALUES = [
    Many("elements", "values", FULL, [1, 2, 1, 1, 2], [1, 1, 4], 3, 0, [1, 0, 0]),
    Many("elements beyond a part", "values", PARTIAL, [3], [1], 1, 23, [UNTOLD] * 3),
]
MOVES = [
    Many("moves", "answers", FULL, [2, 2, 1], [0, 1, 3], 3, 0, [(0, 0, 0, 0, 0), (2, 2, 1, 0, 0), (1, 0, 0, 0, 0)]),
    Many("no heap among many", "answers", FULL, [2, 0], [0, 1, 2], 3, 10, [NO_MOVE] * 3),
]
OF_AN_OWNER = [
    OUTCOMES[0],
    VALUES[0],
    MOVES[0],
    Many("an end behind the heaps", "values", FULL, [1], [2], 3, 11, [UNTOLD] * 3),
]


class Failure(NamedTuple):
    """A certificate, and how much room there is; the status, the length, and the heaps that are told."""

    name: str
    certificate: bytes
    limit: int
    room: int
    status: int
    length: int
    told: list[int]


FAILURES = [
    Failure("none", FULL, LIMIT, 4, 0, UNCOUNTED, [UNTOLD] * 4),
    Failure("at two heaps", WRONG, LIMIT, 4, 7, 2, [1, 1, UNTOLD, UNTOLD]),
    Failure("at two heaps with room for one", WRONG, LIMIT, 1, 7, 2, [UNTOLD]),
]
WRONG_AT_99 = wrong_at(99, 100)
MANY_FAILURES = [
    Failure("room for a heap less", WRONG_AT_99, LARGE_LIMIT, 98, 7, 99, [UNTOLD] * 98),
    Failure("just room", WRONG_AT_99, LARGE_LIMIT, 99, 7, 99, [1] * 99),
    Failure("more room", WRONG_AT_99, LARGE_LIMIT, 200, 7, 99, [1] * 99 + [UNTOLD] * 101),
]


class Step(NamedTuple):
    """A call of one owner, with a certificate, with heaps or with neither; the status, and the number that is told."""

    name: str
    call: str
    given: bytes | list[int] | None
    status: int
    told: int = UNTOLD


STEPS = [
    Step("asked while closed", "misere_opened_outcome", [1], 17),
    Step("closed while closed", "misere_close", None, 17),
    Step("no text is opened", "misere_open", b"", 1),
    Step("a certificate is opened", "misere_open", FULL, 0),
    Step("an outcome", "misere_opened_outcome", [2, 1], 0, 0),
    Step("an element", "misere_opened_value", [1, 2], 0, 1),
    Step("no heap", "misere_opened_value", [0], 10),
    Step("a part is opened in its place", "misere_open", PARTIAL, 0),
    Step("beyond the part", "misere_opened_value", [3], 23),
    Step("closed", "misere_close", None, 0),
]


class OfNim(NamedTuple):
    """A position of Nim to 255, in which a heap is worth its size less 1: its outcome, its element, and the kind of the
    answer. The last two elements are 0 and 1 of positions with a number above 1."""

    name: str
    heaps: list[int]
    outcome: int
    element: int
    kind: int


TOLD = [
    OfNim("a heap worth 0", [1], 1, 0, 0),
    OfNim("a heap worth 1", [2], 0, 1, 1),
    OfNim("the largest heap", [256], 1, 255, 2),
    OfNim("two of the largest", [256, 256], 0, 256, 1),
    OfNim("three that make 0", [2, 4, 3], 0, 256, 1),
    OfNim("three that make 1", [256, 2, 256], 1, 257, 2),
    OfNim("a hundred of the largest", [256] * 100, 0, 256, 1),
]


def opened(certificate: bytes, limit: int = LIMIT) -> Opened:
    owner = Opened()
    status = called("misere_open", certificate, limit, owner)
    if status:
        raise AssertionError(f"nothing was opened: {status}")
    return owner


def room_of(call: str, length: int) -> Any:
    return moves(length) if call.endswith("answers") else numbers(length)


class Calls(unittest.TestCase):
    def test_certificates_are_checked(self) -> None:
        for row in CHECKS:
            with self.subTest(row.name):
                self.assertEqual(called("misere_check", row.certificate, row.limit), row.status)

    def look_at_positions(self, rows: list[Asked]) -> None:
        for row in rows:
            with self.subTest(row.name):
                told = ctypes.c_uint32(UNTOLD)
                status = called(f"misere_{row.call}", row.certificate, LIMIT, words(row.heaps), told)
                self.assertEqual((status, told.value), (row.status, row.told))

    def test_positions_are_told(self) -> None:
        self.look_at_positions(POSITIONS)

    def test_partial_certificates_speak_of_their_heaps(self) -> None:
        self.look_at_positions(PARTS)

    def look_at_answers(self, rows: list[Answer]) -> None:
        for row in rows:
            with self.subTest(row.name):
                [told] = room = moves(1)
                status = called("misere_answer", FULL, LIMIT, words(row.heaps), told)
                self.assertEqual((status, told_in(room)), (0, [row.told]))

    def test_moves_are_told(self) -> None:
        self.look_at_answers(ANSWERS[:1])

    def test_a_hundred_heaps_are_one_position(self) -> None:
        self.look_at_positions([Asked("the outcome of a hundred heaps", "outcome", FULL, ONES, 0, 1)])
        self.look_at_answers(ANSWERS[1:])

    def look_at_many(self, rows: list[Many]) -> None:
        for row in rows:
            with self.subTest(row.name):
                told = room_of(row.call, len(row.told))
                given = (words(row.heaps), words(row.ends), front(told, row.room))
                status = called(f"misere_{row.call}", row.certificate, LIMIT, *given)
                self.assertEqual((status, told_in(told)), (row.status, row.told))

    def test_many_positions_are_told(self) -> None:
        self.look_at_many(OUTCOMES)

    def test_elements_of_many_positions_are_told(self) -> None:
        self.look_at_many(VALUES)

    def test_moves_of_many_positions_are_told(self) -> None:
        self.look_at_many(MOVES)

    def look_at_failures(self, rows: list[Failure]) -> None:
        for row in rows:
            with self.subTest(row.name):
                told, count = words([UNTOLD] * row.room), ctypes.c_uint64(UNCOUNTED)
                status = called("misere_failure", row.certificate, row.limit, told, count)
                self.assertEqual((status, count.value, told_in(told)), (row.status, row.length, row.told))

    def test_failures_are_told(self) -> None:
        self.look_at_failures(FAILURES)

    def test_failures_at_many_heaps_are_told(self) -> None:
        self.look_at_failures(MANY_FAILURES)


class Owners(unittest.TestCase):
    def test_opened_quotients_are_asked(self) -> None:
        owner = Opened()
        for row in STEPS:
            with self.subTest(row.name):
                told = ctypes.c_uint32(UNTOLD)
                if isinstance(row.given, bytes):
                    status = called(row.call, row.given, LIMIT, owner)
                elif row.given is None:
                    status = called(row.call, owner)
                else:
                    status = called(row.call, owner, words(row.given), told)
                self.assertEqual((status, told.value), (row.status, row.told))

    def test_answers_of_opened_quotients_sort_the_heaps(self) -> None:
        owner, heaps, [told] = opened(FULL), words([3, 2, 3]), moves(1)
        self.assertEqual(called("misere_opened_answer", owner, heaps, told), 0)
        self.assertEqual((move_of(told), told_in(heaps)), ((2, 2, 1, 0, 0), [2, 3, 3]))
        self.assertEqual(called("misere_close", owner), 0)

    def test_a_second_owner_keeps_the_quotient(self) -> None:
        owner, other = Opened(), Opened()
        self.assertEqual(called("misere_share", owner, other), 17)
        self.assertEqual(called("misere_open", FULL, LIMIT, owner), 0)
        self.assertEqual(called("misere_share", owner, other), 0)
        self.assertEqual(called("misere_close", owner), 0)
        for row in OF_AN_OWNER:
            with self.subTest(row.name):
                told = room_of(row.call, row.room)
                status = called(f"misere_opened_{row.call}", other, words(row.heaps), words(row.ends), told)
                self.assertEqual((status, told_in(told)), (row.status, row.told))
        self.assertEqual(called("misere_close", other), 0)


def rules_of(heaps: range) -> dict[str, list[Any]]:
    """What each call tells of positions of 0.3 of one heap each: who makes the last of as many moves as it has tokens
    loses, odd heaps are 1 and even ones 0, and one is taken from an even heap."""
    return {
        "outcomes": [(it + 1) % 2 for it in heaps],
        "values": [it % 2 for it in heaps],
        "answers": [(1, 0, 0, 0, 0) if it % 2 else (2, it, it - 1, 0, 0) for it in heaps],
    }


class Thousand(unittest.TestCase):
    """A hundred positions by one call, and a thousand: number k of them is a heap of k alone, and ends at k."""

    def look_at(self, prefix: str, *asked: Any) -> None:
        for count in (100, 1000):
            heaps = words(range(1, count + 1))
            for call, rule in rules_of(range(1, count + 1)).items():
                with self.subTest(f"{call} of {count} positions"):
                    told = room_of(call, count)
                    self.assertEqual(called(f"{prefix}{call}", *asked, heaps, heaps, told), 0)
                    self.assertEqual(told_in(told), rule)

    def test_a_thousand_positions_are_told(self) -> None:
        self.look_at("misere_", FULL, LIMIT)

    def test_a_thousand_positions_are_told_of_what_is_opened(self) -> None:
        owner = opened(FULL)
        self.look_at("misere_opened_", owner)
        self.assertEqual(called("misere_close", owner), 0)


class Large(unittest.TestCase):
    """A quotient of 258 elements, of which each owner is asked of positions of up to a hundred heaps."""

    certificate = nim(256)

    def look_at(self, owner: Opened, whose: str) -> None:
        for row in TOLD:
            with self.subTest(f"{row.name}, by the {whose} owner"):
                heaps, outcome, element = words(row.heaps), ctypes.c_uint32(UNTOLD), ctypes.c_uint32(UNTOLD)
                [answer] = moves(1)
                self.assertEqual(called("misere_opened_outcome", owner, heaps, outcome), 0)
                self.assertEqual(called("misere_opened_value", owner, heaps, element), 0)
                self.assertEqual(told_in(heaps), row.heaps)
                self.assertEqual(called("misere_opened_answer", owner, heaps, answer), 0)
                self.assertEqual(told_in(heaps), sorted(row.heaps))
                told = (outcome.value, element.value, answer.kind)
                self.assertEqual(told, (row.outcome, row.element, row.kind))

    def test_many_elements_are_opened(self) -> None:
        owner, other = opened(self.certificate, LARGE_LIMIT), Opened()
        self.assertEqual(called("misere_share", owner, other), 0)
        self.look_at(owner, "first")
        self.assertEqual(called("misere_close", owner), 0)
        self.look_at(other, "second")
        self.assertEqual([called("misere_close", other) for _ in range(2)], [0, 17])

    def test_many_elements_are_asked_by_their_bytes(self) -> None:
        heaps, outcome, element = words([256] * 100), ctypes.c_uint32(UNTOLD), ctypes.c_uint32(UNTOLD)
        self.assertEqual(called("misere_check", self.certificate, LARGE_LIMIT), 0)
        self.assertEqual(called("misere_outcome", self.certificate, LARGE_LIMIT, heaps, outcome), 0)
        self.assertEqual(called("misere_value", self.certificate, LARGE_LIMIT, heaps, element), 0)
        self.assertEqual((outcome.value, element.value), (0, 256))
