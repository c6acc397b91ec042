"""Infinite quotients: what is told of samples, beside a search of all plays, the families of docs/INFINITE.md and the
theorem of docs/WHOLE.md."""

from __future__ import annotations

import copy
import functools
import itertools
import json
import operator
import pathlib
import pickle
import random
import tempfile
import threading
import unittest
from collections.abc import Callable, Sequence
from typing import Any, NamedTuple, get_args

import misere
from compare import search_of
from tests import presented, quotient, raised, samples, top, whole

SMALL, THREADS = 200, 8
LEFT_OUT = top / "atlas/infinite/0.5e_heaps_17_without_16.mqp"


def outcome_of(twos: int, fives: int) -> str:
    """4 + j·2 + i·5, with j and i from 1 on, is P exactly if i - 3j is 4, 10, 16, .."""
    more = fives - 3 * twos
    return "P" if more >= 4 and more % 6 == 4 else "N"


def weight_of(heap: int) -> int:
    """That of a heap of 0.26."""
    return (heap - 5) // 2 if heap >= 9 else int(heap in (3, 4, 7, 8))


def reach_of(heap: int) -> int:
    """How much the others may weigh that a heap of 0.26 rules, or -1 if it never does."""
    if heap < 9 or heap == 12:
        return -1
    return 0 if heap == 10 else (heap - 9 if heap % 2 else heap - 14) // 2


def outcome_of_26(heaps: Sequence[int]) -> str:
    """By the theorem of 0.26, which is proved by hand."""
    nim_sum, weight = functools.reduce(operator.xor, ((it - 1) % 4 for it in heaps), 0), sum(map(weight_of, heaps))
    if not weight:
        return "P" if nim_sum == 1 else "N"
    rules = any(weight - weight_of(it) <= reach_of(it) for it in heaps)
    return "P" if nim_sum == (2 if rules else 0) else "N"


def triple_of_26(heaps: Sequence[int]) -> misere.Triple:
    """Those of docs/WHOLE.md: the parity of the nim sum, the weight, and the lead."""
    weight = sum(map(weight_of, heaps))
    leads = [reach_of(it) - (weight - weight_of(it)) + 1 for it in heaps if reach_of(it) >= 0]
    return misere.Triple(sum((it - 1) % 2 for it in heaps) % 2, weight, max([0, *leads]))


class Infinite(unittest.TestCase):
    of = presented("0.354_heaps_5")

    def test_it_says_of_which_heaps_it_speaks(self) -> None:
        self.assertEqual((self.of.code, self.of.last_heap, self.of.without), ("0.354", 5, ()))
        self.assertEqual(repr(self.of), "<infinite misère quotient of 0.354: heaps to 5>")
        part = misere.check_infinite(LEFT_OUT)
        self.assertEqual((part.code, part.last_heap, part.without), ("0.5e", 17, (16,)))
        self.assertEqual(repr(part), "<infinite misère quotient of 0.5e: heaps to 17 without 16>")

    def test_a_family_is_told_as_it_is(self) -> None:
        numbers = list(itertools.product(range(1, 9), range(1, 40)))
        positions = [[4] + [2] * twos + [5] * fives for twos, fives in numbers]
        outcomes = [outcome_of(*it) for it in numbers]
        self.assertEqual(self.of.outcomes(positions), outcomes)
        self.assertEqual([self.of.outcome(it) for it in positions], outcomes)
        for heaps, outcome, answer in zip(positions, outcomes, self.of.answers(positions)):
            self.assertEqual(isinstance(answer, misere.Move), outcome == "N", heaps)

    def test_answers_are_moves(self) -> None:
        self.assertEqual((self.of.answer([]), self.of.winning_move([])), ("ended", None))
        self.assertEqual((self.of.answer([1]), self.of.winning_move([1])), ("lost", None))
        self.assertEqual(self.of.answer([5] * 8 + [4, 2]), misere.Move(4, (3,)))
        self.assertEqual(self.of.winning_move([2, 4] + [5] * 7), None)
        self.assertEqual(self.of.answers([[], [1]]), ["ended", "lost"])

    def test_small_positions_are_told_as_a_search_finds_them(self) -> None:
        chosen, search = random.Random(354), search_of("0.354")
        positions = [[chosen.randint(1, 5) for _ in range(chosen.randint(0, 7))] for _ in range(SMALL)]
        self.assertEqual(self.of.outcomes(positions), [search(it) for it in positions])

    def test_a_winning_move_leaves_a_lost_position(self) -> None:
        chosen = random.Random(5)
        for _ in range(SMALL):
            heaps = [chosen.randint(1, 5) for _ in range(chosen.randint(1, 12))]
            move = self.of.winning_move(heaps)
            if move is not None:
                heaps.remove(move.heap)
                self.assertEqual(self.of.outcome(heaps + list(move.left)), "P", (heaps, move))

    def test_it_is_described(self) -> None:
        texts = [self.of.describe(it) for it in get_args(misere.InfiniteOutput)]
        self.assertEqual((len(set(texts)), texts[0]), (3, self.of.describe()))
        told = self.of.to_dict()
        self.assertEqual(told, json.loads(texts[2]))
        self.assertEqual((told["code"], told["heaps"], told["order"]), ("0.354", 5, None))
        self.assertEqual(told["words"], ["a", "b", "c^2", "c", "d"])
        part = misere.check_infinite(LEFT_OUT).to_dict()
        self.assertEqual((part["heaps"], part["words"][15]), (17, None))

    def test_it_is_a_value(self) -> None:
        again = presented("0.354_heaps_5")
        self.assertEqual(({self.of, again}, self.of == quotient("0.33")), ({self.of}, False))
        for other in (copy.copy(self.of), copy.deepcopy(self.of), pickle.loads(pickle.dumps(self.of))):
            self.assertEqual((other, other.outcome([2, 5])), (self.of, self.of.outcome([2, 5])))

    def test_a_closed_one_is_asked_no_more(self) -> None:
        with presented("0.354_heaps_5") as it:
            other = copy.copy(it)
        self.assertEqual((it.closed, it.code, it.last_heap, other.outcome([1])), (True, "0.354", 5, "P"))
        calls: list[Callable[[], object]] = [
            lambda: it.outcome([1]),
            lambda: it.answers([[1]]),
            it.describe,
            lambda: copy.copy(it),
        ]
        for call in calls:
            self.assertIsInstance(raised(call), misere.NotOpen)

    def test_each_thread_is_told_as_one_alone(self) -> None:
        positions = [[4] + [2] * twos + [5] * fives for twos in range(1, 5) for fives in range(1, 20)]
        told, wrong = self.of.answers(positions), []

        def ask() -> None:
            if [self.of.answer(it) for it in positions] != told or self.of.answers(positions) != told:
                wrong.append(1)

        threads = [threading.Thread(target=ask) for _ in range(THREADS)]
        for thread in threads:
            thread.start()
        for thread in threads:
            thread.join()
        self.assertEqual(wrong, [])


class Whole(unittest.TestCase):
    of = whole("0.26")

    def test_it_says_that_it_speaks_of_all_heaps(self) -> None:
        self.assertEqual((self.of.code, self.of.last_heap, self.of.without), ("0.26", None, ()))
        self.assertEqual(repr(self.of), "<infinite misère quotient of 0.26: all heaps>")

    def test_it_is_told_as_its_theorem_says(self) -> None:
        chosen = random.Random(26)
        for most in (8, 16, 40, 2000, 10**15, 10**18):
            sizes = [[chosen.randint(1, most) for _ in range(chosen.randint(0, 7))] for _ in range(SMALL)]
            positions = [it + [3] * chosen.randint(0, 9) for it in sizes]
            outcomes = [outcome_of_26(it) for it in positions]
            self.assertEqual(self.of.outcomes(positions), outcomes)
            for heaps, outcome, answer in zip(positions, outcomes, self.of.answers(positions)):
                ended = "ended" if not set(heaps) - {1} else "lost"
                if isinstance(answer, str):
                    self.assertEqual((answer, outcome), (ended, "N" if ended == "ended" else "P"), heaps)
                    continue
                left = [*heaps, *answer.left]
                left.remove(answer.heap)
                self.assertEqual((outcome, outcome_of_26(left)), ("N", "P"), (heaps, answer))

    def test_small_positions_are_told_as_a_search_finds_them(self) -> None:
        chosen = random.Random(734)
        for code in ("0.26", "0.734", "4.7"):
            search, of = search_of(code), whole(code)
            positions = [[chosen.randint(1, 8) for _ in range(chosen.randint(0, 5))] for _ in range(SMALL)]
            self.assertEqual(of.outcomes(positions), [search(it) for it in positions], code)

    def test_heaps_are_as_large_as_numbers_go(self) -> None:
        self.assertEqual(self.of.answer([10**15]), misere.Move(10**15, (10**15 - 1,)))
        self.assertEqual(self.of.winning_move([10**15, 2]), None)

    def test_it_is_a_value(self) -> None:
        for other in (whole("0.26"), copy.copy(self.of), pickle.loads(pickle.dumps(self.of))):
            self.assertEqual((other, other.outcome([10**15, 2])), (self.of, "P"))

    def test_positions_have_triples(self) -> None:
        chosen = random.Random(9)
        for most in (8, 16, 40, 10**18):
            for _ in range(SMALL):
                heaps = [chosen.randint(1, most) for _ in range(chosen.randint(0, 7))]
                self.assertEqual(self.of.value(heaps), triple_of_26(heaps), heaps)
        self.assertEqual(self.of.value([10**15]), misere.Triple(1, 499999999999997, 499999999999994))
        self.assertEqual(self.of.value([12]), self.of.value([3, 4, 3]))


class Row(NamedTuple):
    name: str
    call: Callable[[], object]
    kind: type[misere.MisereError]
    number: int
    words: str


def wrong(given: Any) -> Any:
    """What is given of a type that the declarations don't allow."""
    return given


OF = Infinite.of
# It says that 2 + 3 is P, which is N
WRONG = OF.certificate.replace(b"ad^2 d^3", b"ad^2 bc^2 d^3")
ROWS = [
    Row("no heap for a triple", lambda: Whole.of.value([2, 0]), misere.NotAHeap, 10, "0 isn't, at [1]"),
    Row("no heap", lambda: OF.outcome([1, 0]), misere.NotAHeap, 10, "0 isn't, at [1]"),
    Row("no heap of many", lambda: OF.answers([[1], [2, -1]]), misere.NotAHeap, 10, "-1 isn't, at [1, 1]"),
    Row("beyond", lambda: OF.outcome([6]), misere.Beyond, 23, "speaks of heaps to 5 alone, and not of 6"),
    Row("beyond of many", lambda: OF.outcomes([[1], [5, 7]]), misere.Beyond, 23, "not of 7"),
    Row(
        "a heap that is left out",
        lambda: misere.check_infinite(LEFT_OUT).answer([16]),
        misere.Beyond,
        23,
        "speaks of heaps to 17 without 16 alone, and not of 16",
    ),
    Row(
        "no heap of a whole game", lambda: Whole.of.outcome([10**18 + 1]), misere.NotAHeap, 10, "000001 isn't, at [0]"
    ),
    Row("no description", Whole.of.describe, misere.NotDescribed, 16, "is not described"),
    Row("no output", lambda: OF.describe(wrong("relations")), misere.NotInRange, 15, "description, latex, json, and"),
    Row("nothing for an output", lambda: OF.describe(wrong(None)), misere.NotInRange, 15, "None is none"),
    Row("no text", lambda: misere.check_infinite(b""), misere.Refused, 1, "the bytes spell no certificate"),
    Row(
        "one of a finite quotient",
        lambda: misere.check_infinite(samples / "0.33.mqc"),
        misere.Refused,
        1,
        "misere.check checks such a text",
    ),
    Row(
        "one of a whole game",
        lambda: misere.check(samples / "0.26.mqw"),
        misere.Refused,
        1,
        "misere.check_infinite checks such a text",
    ),
    Row(
        "a presentation",
        lambda: misere.check(samples / "0.75_heaps_22.mqp"),
        misere.Refused,
        1,
        "misere.check_infinite checks such a text",
    ),
    Row("with tracks", lambda: misere.verify("mqi 1\n"), misere.Refused, 1, "the bytes spell no certificate"),
    Row("nothing that tells apart", lambda: Whole.of.apart([1], [2]), misere.NotDescribed, 16, "only a presentation"),
    Row(
        "a table of one's own",
        lambda: misere.verify(b"table 1\ncode 0.3\n"),
        misere.Refused,
        1,
        "misere.certify takes a table",
    ),
    Row(
        "another text of a whole game",
        lambda: misere.check_infinite(Whole.of.certificate.replace(b"code 0.26", b"code 0.3")),
        misere.Refused,
        7,
        "7 Outcome: the rule of the code's game fails at a position: [1]",
    ),
    Row(
        "a file's name",
        lambda: misere.check_infinite(str(samples / "0.354_heaps_5.mqp")),
        misere.Refused,
        1,
        "misere.check_infinite(pathlib.Path(",
    ),
    Row("a wrong outcome", lambda: misere.check_infinite(WRONG), misere.Refused, 7, "fails at a position: [2, 3]"),
    Row("no entry", lambda: misere.InfiniteCatalogue()["0.33"], misere.Absent, 0, "no entry of '0.33'"),
    Row(
        "finite quotients alone",
        lambda: misere.solve_infinite("0.33", heaps=8),
        misere.NotFound,
        13,
        "no infinite quotient of 0.33 was found; the reason is: each part to heap 8 seems to have a finite quotient",
    ),
    Row(
        "a search of too many heaps",
        lambda: misere.solve_infinite("0.26", heaps=1025),
        misere.NotInRange,
        15,
        "heaps is 1 to 1024, and 1025 isn't",
    ),
    Row("a search of no code", lambda: misere.solve_infinite("0.260"), misere.NotACode, 12, "'0.260' is none"),
    Row("a search of no text", lambda: misere.solve_infinite(wrong(26)), misere.WrongType, 12, "and not 26"),
]


class Searches(unittest.TestCase):
    def test_infinite_quotients_are_found(self) -> None:
        self.assertEqual(misere.solve_infinite("0.26"), whole("0.26"))
        self.assertEqual(misere.solve_infinite("0.404"), misere.InfiniteCatalogue()["0.404"])


class Faults(unittest.TestCase):
    def test_each_is_of_its_kind_and_says_why(self) -> None:
        for row in ROWS:
            with self.subTest(row.name):
                stop = raised(row.call)
                self.assertIsInstance(stop, row.kind)
                self.assertEqual(stop and stop.number, row.number)
                self.assertIn(row.words, str(stop))


class Verified(unittest.TestCase):
    def test_each_kind_is_told_by_its_first_word(self) -> None:
        for file, kind in (("0.33.mqc", misere.Quotient), ("0.354_heaps_5.mqp", misere.InfiniteQuotient)):
            self.assertIsInstance(misere.verify(samples / file), kind, file)
        self.assertEqual(misere.verify(Whole.of.certificate), Whole.of)
        self.assertEqual(misere.verify(quotient("0.33").certificate.decode()), quotient("0.33"))


class Catalogues(unittest.TestCase):
    atlas = misere.InfiniteCatalogue()

    def test_the_atlas_has_each_code_of_its_files(self) -> None:
        files = [*(top / "atlas").glob("**/*.mq[pw]"), *samples.glob("*.mqw")]
        codes = {file.stem.partition("_")[0] for file in files}
        self.assertEqual((set(self.atlas), len(self.atlas)), (codes, len(codes)))

    def test_whole_games_stand_before_parts(self) -> None:
        for code in ("0.26", "0.734", "0.f3", "4.7"):
            self.assertEqual((self.atlas[code], self.atlas.furthest(code)), (whole(code), whole(code)), code)
        self.assertEqual(self.atlas["0.157"].last_heap, None)

    def test_a_game_has_its_code_and_its_name(self) -> None:
        self.assertEqual(self.atlas["0.354"], Infinite.of)
        self.assertEqual(self.atlas.certificate("Dawson's Kayles"), self.atlas.certificate("0.07"))

    def test_a_part_has_its_last_heap(self) -> None:
        files = {34: "0.07_heaps_34", 36: "0.07_heaps_36", 37: "0.07_heaps_37"}
        for last, name in files.items():
            text = (top / f"atlas/infinite/{name}.mqp").read_text()
            self.assertEqual(self.atlas.certificate(("0.07", last)), text, last)
        self.assertEqual(self.atlas.certificate("0.07"), self.atlas.certificate(("0.07", 34)))
        self.assertEqual((self.atlas._furthest["0.07"], self.atlas.furthest("0.354")), (37, Infinite.of))
        self.assertEqual(("0.07", 33) in self.atlas, False)

    def test_a_folder_with_another_text_is_none(self) -> None:
        with tempfile.TemporaryDirectory() as folder:
            self.assertEqual(len(misere.InfiniteCatalogue(folder)), 0)
            for code in ("0.26", "4.7"):
                pathlib.Path(folder, f"{code}.mqw").write_bytes(whole(code).certificate)
            games = misere.InfiniteCatalogue(folder)
            self.assertEqual(
                (set(games), games["0.26"], games["4.7", 0]), ({"0.26", "4.7"}, whole("0.26"), whole("4.7"))
            )
            pathlib.Path(folder, "a.mqi").write_text("mqi 1\n")
            self.assertEqual(len(misere.InfiniteCatalogue(folder)), 2)
            pathlib.Path(folder, "a.mqp").write_text("mqp 1\n")
            self.assertIsInstance(raised(lambda: misere.InfiniteCatalogue(folder)), misere.Refused)
