"""The calls on whole games and presentations as they are built: of all heaps of 0.26; of 0.354 with the heaps 1 to 5, of
0.404 to heap 12, of 0.75 to heap 22, and of Kayles. The outcomes of 0.354 are those of other programs, by a search through
all plays. Those of 0.26 are by its theorem, which docs/WHOLE.md proves by hand."""

from __future__ import annotations

import ctypes
import unittest
from typing import Any, NamedTuple

from misere._library import Opened
from tests import samples, top
from tests.raw_calls import (
    NO_MOVE,
    UNCOUNTED,
    UNTOLD,
    Move,
    called,
    front,
    move_of,
    moves,
    numbers,
    text,
    told_in,
    words,
)

RIGHT = (samples / "0.354_heaps_5.mqp").read_bytes()
# It says that 2 + 3 is P, which is N
WRONG = RIGHT.replace(b"ad^2 d^3", b"ad^2 bc^2 d^3")
# A text of a whole game; one which says that heap 9 never rules, so that heap 9 alone is wrong; and one which gives heap
# 1, of weight 0, a lead: right of each outcome, but no such triple is an element
WHOLE = (samples / "0.26.mqw").read_bytes()
UNRULED = WHOLE.replace(b"leads 0 0 0 0 0 0 0 0 1", b"leads 0 0 0 0 0 0 0 0 0")
LEADING = WHOLE.replace(b"leads 0 0 0 0", b"leads 1 0 0 0")
# Presentations: an infinite quotient, a finite one, and a finite one of a whole game; one with a pair of relations that
# doesn't join, one with an option that has no word, and one with a wrong portion
PRESENTED, FINITE, KAYLES = ((samples / f"{it}.mqp").read_bytes() for it in ("0.404_heaps_12", "0.75_heaps_22", "0.77"))
UNJOINED, LEAVING = (
    (samples / f"refused/{it}.mqp").read_bytes() for it in ("law_pair_does_not_join", "part_heap_left_out")
)
MISTAKEN = FINITE.replace(b"portion a", b"portion 1 a")


class Check(NamedTuple):
    """A text, and the status of its check."""

    name: str
    text: bytes
    status: int


CHECKS = [
    Check("no text", b"", 1),
    Check("of a whole game", WHOLE, 0),
    Check("heap 9 never rules", UNRULED, 7),
    Check("a text that no heap breaks, and no element", LEADING, 33),
    Check("no end of a whole game", WHOLE[:-4], 1),
    Check("another format of whole games", WHOLE.replace(b"mqw 1", b"mqw 2"), 1),
    Check("presented", RIGHT, 0),
    Check("presented, of a finite quotient", FINITE, 0),
    Check("presented, of a whole game", KAYLES, 0),
    Check("no end of a presentation", FINITE[:-4], 1),
    Check("P at 2 + 3", WRONG, 7),
    Check("a pair that doesn't join", UNJOINED, 2),
    Check("an option with no word", LEAVING, 31),
    Check("a wrong portion", MISTAKEN, 7),
    Check("with tracks", b"mqi 1\n" + RIGHT.partition(b"\n")[2], 1),
    Check("that of a finite quotient", (samples / "0.33.mqc").read_bytes(), 1),
]


class Failure(NamedTuple):
    """A text, and how much room there is in memory for four; the status, the length, and the heaps that are told."""

    name: str
    text: bytes
    room: int
    status: int
    length: int
    told: list[int]


FAILURES = [
    Failure("right", RIGHT, 4, 0, UNCOUNTED, [UNTOLD] * 4),
    Failure("no text", b"", 4, 1, UNCOUNTED, [UNTOLD] * 4),
    Failure("at two heaps with room for one", WRONG, 1, 7, 2, [UNTOLD] * 4),
    Failure("at two heaps", WRONG, 4, 7, 2, [2, 3, UNTOLD, UNTOLD]),
    Failure("heap 9 never rules", UNRULED, 4, 7, 1, [9, UNTOLD, UNTOLD, UNTOLD]),
    Failure("a text that no heap breaks, and no element", LEADING, 4, 33, UNCOUNTED, [UNTOLD] * 4),
]


class Said(NamedTuple):
    """A text, what its code is, how far its heaps go, 0 of a whole game, and its order, 0 if it is infinite."""

    text: bytes
    code: bytes
    kind: int
    order: int = 0


SAID = [
    Said(RIGHT, b"0.354", 5),
    Said((top / "atlas/infinite/0.5e_heaps_17_without_16.mqp").read_bytes(), b"0.5e", 17),
    Said(WHOLE, b"0.26", 0),
    Said((samples / "0.f3.mqw").read_bytes(), b"0.f3", 0),
    Said(PRESENTED, b"0.404", 12),
    Said(FINITE, b"0.75", 22, 8),
    Said(KAYLES, b"0.77", 0, 40),
]


class Word(NamedTuple):
    """A presentation, heaps, the room for a word, the status, how long it is, and the word if it is told."""

    name: str
    text: bytes
    heaps: list[int]
    room: int
    status: int
    length: int
    word: bytes = b""


WORDS = [
    Word("nothing", PRESENTED, [], 8, 0, 1, b"1"),
    Word("a square that is 1", PRESENTED, [3, 3], 8, 0, 1, b"1"),
    Word("a heap of two letters", PRESENTED, [7], 8, 0, 2, b"ab"),
    Word("as long as the room", PRESENTED, [9] * 100, 5, 0, 5, b"c^100"),
    Word("longer than the room", PRESENTED, [9] * 100, 4, 14, 5),
    Word("no heap's size", PRESENTED, [1, 0], 8, 10, UNCOUNTED),
    Word("no word", PRESENTED, [13], 8, 23, UNCOUNTED),
    Word("repeated", KAYLES, [1000], 8, 0, 4, b"ab^2"),
    Word("by triples", WHOLE, [0], 8, 16, UNCOUNTED),
]


class Family(NamedTuple):
    """A heap 4 with so many heaps of 2 and of 5, and the outcome."""

    twos: int
    fives: int
    outcome: int


FAMILY = [
    Family(1, 6, 1),
    Family(1, 7, 0),
    Family(1, 8, 1),
    Family(1, 10, 1),
    Family(1, 12, 1),
    Family(1, 13, 0),
    Family(1, 14, 1),
    Family(2, 7, 1),
    Family(2, 10, 0),
    Family(2, 11, 1),
]


class Refused(NamedTuple):
    name: str
    heaps: list[int]
    status: int


REFUSED = [
    Refused("no heap's size, and one too large", [6, 0], 10),
    Refused("above a heap", [1, 10**18 + 1], 10),
    Refused("too large", [1, 6], 23),
]


class Moved(NamedTuple):
    """Heaps, and what is to be done with them. They stand rising afterwards."""

    name: str
    heaps: list[int]
    told: Move


MOVED = [
    Moved("a winning move", [5, 5, 5, 5, 5, 5, 5, 5, 4, 2], (2, 4, 3, 0, 0)),
    Moved("lost", [2, 4, 5, 5, 5, 5, 5, 5, 5], (1, 0, 0, 0, 0)),
    Moved("ended", [], (0, 0, 0, 0, 0)),
]
# Of 0.26: the nim sum is 3 and the great heap rules; it is 2; a heap 1 can't be moved
GREAT = 10**15
MOVED_WHOLE = [
    Moved("the great heap rules", [GREAT], (2, GREAT, GREAT - 1, 0, 0)),
    Moved("beside a heap 2", [GREAT, 2], (1, 0, 0, 0, 0)),
    Moved("ended", [1], (0, 0, 0, 0, 0)),
    Moved("of weight 0", [2], (1, 0, 0, 0, 0)),
    Moved("of weight 1", [3], (2, 3, 2, 0, 0)),
]
# Of 0.404: one token is taken, or three, and two heaps are left. So a heap 3 has one move, and one of 1 or 2 none
MOVED_PRESENTED = [
    Moved("no move is possible", [2, 1, 1], (0, 0, 0, 0, 0)),
    Moved("one move", [3], (1, 0, 0, 0, 0)),
    Moved("two moves, one after the other", [3, 3], (2, 3, 1, 1, 0)),
    Moved("a move that leaves one move", [5], (2, 5, 1, 3, 0)),
]


class Ruled(NamedTuple):
    """Heaps of 0.26, of which the first one is the heaviest; the nim sum, and whether it rules. P are those of nim sum 2
    that it rules, and those of nim sum 0 that it doesn't."""

    heaps: list[int]
    nim_sum: int
    rules: bool
    outcome: int


RULED = [
    Ruled([16, 2], 2, True, 0),
    Ruled([16, 2, 3, 3], 2, False, 1),
    Ruled([16, 2, 3, 3, 3], 0, False, 0),
    Ruled([15, 3], 0, True, 1),
    Ruled([15, 3, 3], 2, True, 0),
    Ruled([15, 3, 3, 3, 3], 2, False, 1),
    Ruled([15, 3, 3, 3, 3, 3], 0, False, 0),
    Ruled([GREAT + 1, 2, 2, 3, 3], 0, True, 1),
    Ruled([GREAT + 3, 3, 3], 2, True, 0),
    Ruled([GREAT + 4, 5, 6], 2, True, 0),
]


class Many(NamedTuple):
    """Positions by their ends, and how many rooms there are in memory for three; the status, and what is told."""

    name: str
    call: str
    heaps: list[int]
    ends: list[int]
    room: int
    status: int
    told: list[Any]


HEAPS = [3, 2, 5, 5, 4, 5, 5, 2, 5, 5, 5]
MANY = [
    Many("fewer ends than rooms", "outcomes", HEAPS, [2, 2], 3, 11, [UNTOLD] * 3),
    Many("an end behind the heaps", "outcomes", HEAPS, [2, 2, 12], 3, 11, [UNTOLD] * 3),
    Many("a heap beyond", "answers", [6], [1], 1, 23, [NO_MOVE] * 3),
    Many("outcomes", "outcomes", HEAPS, [2, 2, 11], 3, 0, [1, 1, 0]),
]
# The kinds of the answers at the ends of the last of these
KINDS = [2, 0, 1]


class Described(NamedTuple):
    """An output, with so much room in memory for 4096 bytes; the status, and how what is told begins."""

    name: str
    output: int
    room: int
    status: int
    beginning: bytes = b""


DESCRIBED = [
    Described("plain", 0, 4096, 0, b"Q_5(0.354) = < a,b,c,d | a^2=1"),
    Described("LaTeX", 1, 4096, 0, b"\\begin{flushleft}"),
    Described("relations, which there are none of", 2, 4096, 15),
    Described("JSON", 3, 4096, 0, b"{"),
    Described("no such output", 4, 4096, 15),
    Described("no room", 0, 9, 14),
]


def opened(given: bytes = RIGHT) -> Opened:
    owner = Opened()
    if status := called("misere_infinite_open", given, owner):
        raise AssertionError(f"nothing was opened: {status}")
    return owner


def outcome_of(owner: Opened, heaps: list[int]) -> tuple[int, int]:
    """The status, and the number that is told."""
    told = ctypes.c_uint32(UNTOLD)
    return called("misere_infinite_outcome", owner, words(heaps), told), told.value


def answer_of(owner: Opened, heaps: list[int]) -> tuple[int, Move, list[int]]:
    """The status, the answer that is told, and the heaps as they stand afterwards."""
    [told], given = moves(1), words(heaps)
    return called("misere_infinite_answer", owner, given, told), move_of(told), told_in(given)


class Opening(unittest.TestCase):
    def test_texts_are_checked_and_opened(self) -> None:
        for row in CHECKS:
            with self.subTest(row.name):
                owner = Opened()
                self.assertEqual(called("misere_check_infinite", row.text), row.status)
                self.assertEqual(called("misere_infinite_open", row.text, owner), row.status)
                self.assertEqual(called("misere_infinite_close", owner), 17 if row.status else 0)

    def test_failures_are_told(self) -> None:
        for row in FAILURES:
            with self.subTest(row.name):
                told, count = words([UNTOLD] * 4), ctypes.c_uint64(UNCOUNTED)
                status = called("misere_infinite_failure", row.text, front(told, row.room), count)
                self.assertEqual((status, count.value, told_in(told)), (row.status, row.length, row.told))

    def test_infinite_owners_are_made_and_closed(self) -> None:
        one, other = Opened(), Opened()
        self.assertEqual(called("misere_infinite_share", one, other), 17)
        self.assertEqual(called("misere_infinite_open", RIGHT, one), 0)
        self.assertEqual(called("misere_infinite_share", one, other), 0)
        self.assertEqual(called("misere_infinite_open", WRONG, one), 7)
        self.assertEqual([called("misere_infinite_close", one) for _ in range(2)], [0, 17])
        self.assertEqual(outcome_of(one, [1]), (17, UNTOLD))
        self.assertEqual(outcome_of(other, [1]), (0, 0))
        self.assertEqual(called("misere_infinite_close", other), 0)

    def test_each_tells_its_code_and_its_heaps(self) -> None:
        told, count, kind = text(8), ctypes.c_uint64(UNCOUNTED), ctypes.c_uint64(UNCOUNTED)
        self.assertEqual(called("misere_infinite_code", Opened(), told, count), 17)
        self.assertEqual(called("misere_infinite_kind", Opened(), kind), 17)
        self.assertEqual((count.value, kind.value, set(told)), (UNCOUNTED, UNCOUNTED, {UNTOLD}))
        for row in SAID:
            with self.subTest(row.code):
                owner, told = opened(row.text), text(8)
                self.assertEqual(called("misere_infinite_code", owner, front(told, 3), count), 14)
                self.assertEqual((count.value, set(told)), (len(row.code), {UNTOLD}))
                self.assertEqual(called("misere_infinite_code", owner, told, count), 0)
                self.assertEqual(bytes(told), row.code.ljust(8, bytes([UNTOLD])))
                self.assertEqual((called("misere_infinite_kind", owner, kind), kind.value), (0, row.kind))
                self.assertEqual(called("misere_infinite_close", owner), 0)

    def test_each_tells_its_order(self) -> None:
        told = ctypes.c_uint64(UNCOUNTED)
        self.assertEqual((called("misere_infinite_order", Opened(), told), told.value), (17, UNCOUNTED))
        for row in SAID:
            with self.subTest(row.code):
                owner = opened(row.text)
                self.assertEqual((called("misere_infinite_order", owner, told), told.value), (0, row.order))
                self.assertEqual(called("misere_infinite_close", owner), 0)

    def test_positions_have_words(self) -> None:
        told, count = text(8), ctypes.c_uint64(UNCOUNTED)
        self.assertEqual(called("misere_infinite_value", Opened(), words([0]), told, count), 17)
        self.assertEqual((count.value, set(told)), (UNCOUNTED, {UNTOLD}))
        for row in WORDS:
            with self.subTest(row.name):
                owner, told, count = opened(row.text), text(8), ctypes.c_uint64(UNCOUNTED)
                status = called("misere_infinite_value", owner, words(row.heaps), front(told, row.room), count)
                self.assertEqual((status, count.value), (row.status, row.length))
                self.assertEqual(bytes(told), row.word.ljust(8, bytes([UNTOLD])))
                self.assertEqual(called("misere_infinite_close", owner), 0)

    def test_whole_games_are_not_described(self) -> None:
        owner = opened(WHOLE)
        for output, status in ((0, 16), (1, 16), (2, 15), (3, 16), (4, 15)):
            told, count = text(64), ctypes.c_uint64(UNCOUNTED)
            self.assertEqual(called("misere_infinite_describe", owner, output, told, count), status, output)
            self.assertEqual((count.value, set(told)), (UNCOUNTED, {UNTOLD}), output)
        self.assertEqual(called("misere_infinite_close", owner), 0)

    def test_presentations_are_described(self) -> None:
        told, count = text(4096), ctypes.c_uint64(UNCOUNTED)
        self.assertEqual(called("misere_infinite_describe", Opened(), 0, told, count), 17)
        self.assertEqual((count.value, set(told)), (UNCOUNTED, {UNTOLD}))
        owner = opened()
        for row in DESCRIBED:
            with self.subTest(row.name):
                told, count = text(4096), ctypes.c_uint64(UNCOUNTED)
                status = called("misere_infinite_describe", owner, row.output, front(told, row.room), count)
                self.assertEqual((status, bytes(told)[: len(row.beginning)]), (row.status, row.beginning))
                self.assertEqual(count.value == UNCOUNTED, status == 15)
                self.assertEqual(set(bytes(told)[0 if status else count.value :]), {UNTOLD})
        self.assertEqual(called("misere_infinite_close", owner), 0)


class Answering(unittest.TestCase):
    def test_a_family_has_its_outcomes(self) -> None:
        owner = opened()
        for twos, fives, outcome in FAMILY:
            with self.subTest(f"4 + {twos} 2 + {fives} 5"):
                self.assertEqual(outcome_of(owner, [4] + [2] * twos + [5] * fives), (0, outcome))
        self.assertEqual(called("misere_infinite_close", owner), 0)

    def test_heaps_beyond_are_refused(self) -> None:
        self.assertEqual(outcome_of(Opened(), [0]), (17, UNTOLD))
        self.assertEqual(answer_of(Opened(), [0]), (17, NO_MOVE, [0]))
        owner = opened()
        for row in REFUSED:
            with self.subTest(row.name):
                self.assertEqual(outcome_of(owner, row.heaps), (row.status, UNTOLD))
                self.assertEqual(answer_of(owner, row.heaps), (row.status, NO_MOVE, row.heaps))
        self.assertEqual(called("misere_infinite_close", owner), 0)

    def test_moves_are_told(self) -> None:
        owner = opened()
        for row in MOVED:
            with self.subTest(row.name):
                self.assertEqual(answer_of(owner, row.heaps), (0, row.told, sorted(row.heaps)))
        self.assertEqual(called("misere_infinite_close", owner), 0)

    def test_whole_games_are_told(self) -> None:
        owner = opened(WHOLE)
        for row in MOVED_WHOLE:
            with self.subTest(row.name):
                self.assertEqual(outcome_of(owner, row.heaps), (0, int(row.told[0] != 1)))
                self.assertEqual(answer_of(owner, row.heaps), (0, row.told, sorted(row.heaps)))
        for it in RULED:
            self.assertEqual(outcome_of(owner, it.heaps), (0, it.outcome), it)
        for heaps in ([0], [1, 10**18 + 1]):
            self.assertEqual(outcome_of(owner, heaps), (10, UNTOLD))
            self.assertEqual(answer_of(owner, heaps), (10, NO_MOVE, heaps))
        told, made = numbers(len(RULED)), moves(len(RULED))
        given = [heap for it in RULED for heap in it.heaps]
        ends = [sum(len(it.heaps) for it in RULED[: at + 1]) for at in range(len(RULED))]
        self.assertEqual(called("misere_infinite_outcomes", owner, words(given), words(ends), told), 0)
        self.assertEqual(called("misere_infinite_answers", owner, words(given), words(ends), made), 0)
        self.assertEqual(told_in(told), [it.outcome for it in RULED])
        self.assertEqual([it.kind for it in made], [1 + it.outcome for it in RULED])
        self.assertEqual(called("misere_infinite_close", owner), 0)

    def test_presentations_are_played(self) -> None:
        owner = opened(PRESENTED)
        for row in MOVED_PRESENTED:
            with self.subTest(row.name):
                self.assertEqual(outcome_of(owner, row.heaps), (0, int(row.told[0] != 1)))
                self.assertEqual(answer_of(owner, row.heaps), (0, row.told, sorted(row.heaps)))
        for heaps, status in (([0], 10), ([13], 23)):
            self.assertEqual(outcome_of(owner, heaps), (status, UNTOLD))
            self.assertEqual(answer_of(owner, heaps), (status, NO_MOVE, heaps))
        self.assertEqual(called("misere_infinite_close", owner), 0)

    def test_many_positions_are_told(self) -> None:
        told = numbers(3)
        closed = called("misere_infinite_outcomes", Opened(), words(HEAPS), words([9]), told)
        self.assertEqual((closed, told_in(told)), (17, [UNTOLD] * 3))
        owner = opened()
        for row in MANY:
            with self.subTest(row.name):
                room: Any = moves(3) if row.call == "answers" else numbers(3)
                given = (words(row.heaps), words(row.ends), front(room, row.room))
                status = called(f"misere_infinite_{row.call}", owner, *given)
                self.assertEqual((status, told_in(room)), (row.status, row.told))
        made = moves(3)
        self.assertEqual(called("misere_infinite_answers", owner, words(HEAPS), words([2, 2, 11]), made), 0)
        self.assertEqual([it.kind for it in made], KINDS)
        self.assertEqual(called("misere_infinite_close", owner), 0)
