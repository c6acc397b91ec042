"""What is raised, as which of Python's own kinds, and in which words."""

from __future__ import annotations

import pickle
import re
import unittest
from collections.abc import Callable
from typing import Any, NamedTuple

import misere
from tests import quotient, raised, samples, top


class Row(NamedTuple):
    name: str
    call: Callable[[], object]
    kind: type[misere.MisereError]
    own: type[Exception]
    number: int
    words: str


full, partial = quotient("0.33"), quotient("0.75_heaps_8")
closed = quotient("0.33")
closed.close()


def wrong(given: Any) -> Any:
    """What is given of a type that the declarations don't allow."""
    return given


def of_a_position(
    name: str,
    heaps: Any,
    kind: type[misere.MisereError],
    own: type[Exception],
    number: int,
    words: str,
    of: misere.Quotient = full,
) -> list[Row]:
    """A row for each call that takes a position, and for each that takes many."""
    one: list[Callable[[Any], object]] = [of.outcome, of.value, of.answer, of.winning_move]
    many: list[Callable[[Any], object]] = [of.outcomes, of.values, of.answers]
    calls = [
        *((it.__name__, lambda it=it: it(heaps)) for it in one),
        *((it.__name__, lambda it=it: it([[1], heaps])) for it in many),
    ]
    return [Row(f"{name}, {called}", call, kind, own, number, words) for called, call in calls]


ROWS = [
    *of_a_position("no heap", [0], misere.NotAHeap, ValueError, 10, "0 isn't"),
    *of_a_position("no heap among others", [7, 0, 0], misere.NotAHeap, ValueError, 10, "0 isn't, at "),
    *of_a_position("below nothing behind others", [7, -2], misere.NotAHeap, ValueError, 10, "-2 isn't, at "),
    *of_a_position("too large", [1, 10**18 + 1], misere.NotAHeap, ValueError, 10, "1000000000000000001 isn't"),
    *of_a_position("wider than a word", [2**64], misere.NotAHeap, ValueError, 10, "18446744073709551616 isn't"),
    *of_a_position("below nothing", [-1], misere.NotAHeap, ValueError, 10, "-1 isn't"),
    *of_a_position("a zero of bytes", b"\1\0", misere.NotAHeap, ValueError, 10, "0 isn't"),
    *of_a_position("a text", ["2"], misere.WrongType, TypeError, 10, "'2'"),
    *of_a_position("a fraction", [1.5], misere.WrongType, TypeError, 10, "1.5"),
    *of_a_position("one text", "22", misere.WrongType, TypeError, 10, "'2'"),
    *of_a_position("one number", 7, misere.WrongType, TypeError, 10, "7 is none"),
    *of_a_position("nothing", None, misere.WrongType, TypeError, 10, "None is none"),
    *of_a_position("beyond", [1, 9], misere.Beyond, ValueError, 23, "heaps to 8 alone, and not of 9", partial),
    *of_a_position("closed", [2], misere.NotOpen, ValueError, 17, "17 NotOpen: the quotient is closed", closed),
    Row("a text of a closed one", closed.describe, misere.NotOpen, ValueError, 17, "closed"),
    Row("a block of a closed one", closed.__enter__, misere.NotOpen, ValueError, 17, "closed"),
    Row("heaps for positions", lambda: full.outcomes(wrong([2, 3])), misere.WrongType, TypeError, 10, "are rows"),
    Row("bytes for positions", lambda: full.values(wrong(b"\2\3")), misere.WrongType, TypeError, 10, "are rows"),
    Row("a number for positions", lambda: full.answers(wrong(5)), misere.WrongType, TypeError, 10, "are rows"),
    Row("a text for positions", lambda: full.answers(wrong("12")), misere.WrongType, TypeError, 10, "integer"),
    Row("the place", lambda: full.outcome([7, 0, 5]), misere.NotAHeap, ValueError, 10, "0 isn't, at [1]; where a 0"),
    Row("the place of many", lambda: full.values([[7], [], [1, 0]]), misere.NotAHeap, ValueError, 10, "at [2, 1]"),
    Row(
        "the place below 0",
        lambda: full.answers([[7], [1, 2, -5]]),
        misere.NotAHeap,
        ValueError,
        10,
        "-5 isn't, at [1, 2]",
    ),
    Row("the place of a text", lambda: full.value(wrong([7, "2"])), misere.WrongType, TypeError, 10, "not '2', at [1]"),
    Row(
        "the place of a fraction",
        lambda: full.outcomes(wrong([[7], [1, 2.5]])),
        misere.WrongType,
        TypeError,
        10,
        "not 2.5, at [1, 1]",
    ),
    Row("phi of no heap", lambda: full.phi(0), misere.NotAHeap, ValueError, 10, "0 isn't"),
    Row("phi of a text", lambda: full.phi(wrong("1")), misere.WrongType, TypeError, 10, "'1'"),
    Row("phi of a large heap", lambda: full.phi(10**18 + 1), misere.NotAHeap, ValueError, 10, "isn't"),
    Row("phi beyond", lambda: partial.phi(9), misere.Beyond, ValueError, 23, "not of 9"),
    Row("no text", lambda: misere.check(b""), misere.Refused, ValueError, 1, "1 Text: the bytes spell no certificate"),
    Row("no file of that name", lambda: misere.check("0.33.mqc"), misere.Refused, ValueError, 1, "no certificate"),
    Row(
        "a file's name",
        lambda: misere.check(str(samples / "0.33.mqc")),
        misere.Refused,
        ValueError,
        1,
        "this text is the name of a file: misere.check(pathlib.Path(",
    ),
    Row("a catalogue's file", lambda: misere.check(top / "atlas/octal.json"), misere.Refused, ValueError, 1, "Text"),
    Row(
        "no catalogue", lambda: misere.Catalogue(samples / "0.33.mqc"), misere.Refused, ValueError, 1, "is no catalogue"
    ),
    Row("no entry", lambda: misere.Catalogue()["0.70"], misere.Absent, KeyError, 0, "no entry of '0.70'"),
    Row("no such part", lambda: misere.Catalogue()["0.07", 23], misere.Absent, KeyError, 0, "no entry of ('0.07', 23)"),
    Row("no UTF-8", lambda: misere.check("\ud800"), misere.Refused, ValueError, 1, "Text"),
    Row("limit met", lambda: misere.check(full.certificate, 1), misere.Refused, ValueError, 8, "Limit"),
    Row("limit below nothing", lambda: misere.check(b"", -1), misere.NotInRange, ValueError, 15, "-1"),
    Row("limit of 33 bits", lambda: misere.check(b"", 1 << 32), misere.NotInRange, ValueError, 15, "32 bits"),
    Row("limit in words", lambda: misere.check(b"", wrong("9")), misere.WrongType, TypeError, 15, "'9'"),
    Row("a number for bytes", lambda: misere.check(wrong(33)), misere.WrongType, TypeError, 15, "not 33"),
    Row(
        "a code that ends in 0",
        lambda: misere.solve("0.770"),
        misere.NotACode,
        ValueError,
        12,
        "'0.770' is none: a code is such as",
    ),
    Row("a code in capitals", lambda: misere.solve("0.A"), misere.NotACode, ValueError, 12, "'0.A' is none"),
    Row("a code that isn't ASCII", lambda: misere.solve("é"), misere.NotACode, ValueError, 12, "'é' is none"),
    Row("a code that isn't UTF-8", lambda: misere.solve("\ud800"), misere.NotACode, ValueError, 12, "none"),
    Row(
        "a number for a code",
        lambda: misere.solve(wrong(33)),
        misere.WrongType,
        TypeError,
        12,
        "a code is a text such as '0.33', and not 33",
    ),
    Row(
        "too few heaps",
        lambda: misere.solve("0.3", heaps=1),
        misere.NotInRange,
        ValueError,
        15,
        "heaps is 2 to 8210, and 1 isn't",
    ),
    Row(
        "too many elements",
        lambda: misere.solve("0.3", order=257),
        misere.NotInRange,
        ValueError,
        15,
        "order is 2 to 256",
    ),
    Row(
        "too many elements by many heaps",
        lambda: misere.solve("0.3", order=4097, deep=True),
        misere.NotInRange,
        ValueError,
        15,
        "order is 2 to 4096",
    ),
    Row("no rounds", lambda: misere.solve("0.3", rounds=0), misere.NotInRange, ValueError, 15, "rounds is 1 to 1000"),
    Row("no last heap", lambda: misere.solve_part("0.3", 0), misere.NotInRange, ValueError, 15, "heaps is 1 to 1024"),
    Row("one element", lambda: misere.solve_furthest("0.3", 1), misere.NotInRange, ValueError, 15, "is 2 to 4096"),
    Row("heaps and deep", lambda: misere.solve("0.3", heaps=9, deep=True), misere.WrongType, TypeError, 15, "deep"),
    Row("given up", lambda: misere.solve("0.77", heaps=8), misere.NotFound, LookupError, 13, "heaps to 8"),
    Row("no output", lambda: full.describe(wrong("verse")), misere.NotInRange, ValueError, 15, "'verse' is none"),
]


class Faults(unittest.TestCase):
    def test_each_is_of_its_kinds_and_says_why(self) -> None:
        for row in ROWS:
            with self.subTest(row.name):
                stop = raised(row.call)
                self.assertIsInstance(stop, row.kind)
                self.assertIsInstance(stop, row.own)
                self.assertEqual(stop and stop.number, row.number)
                self.assertIn(row.words, str(stop))

    def test_each_can_be_sent_to_another_process(self) -> None:
        for row in ROWS:
            with self.subTest(row.name):
                stop = raised(row.call)
                sent = pickle.loads(pickle.dumps(stop))
                self.assertEqual((type(sent), str(sent), vars(sent)), (type(stop), str(stop), vars(stop)))

    def test_a_refused_outcome_has_its_position(self) -> None:
        wrong = (samples / "refused/outcome_at_two_ones.mqc").read_bytes()
        stop = raised(lambda: misere.check(wrong))
        self.assertEqual(stop and (stop.number, stop.name, stop.position), (7, "Outcome", [1, 1]))
        self.assertTrue(str(stop).endswith("fails at a position: [1, 1]"))

    def test_a_position_of_many_equal_heaps_is_told_in_few_words(self) -> None:
        rows = [([2, 3], ": [2, 3]"), ([1] * 16, f": {[1] * 16}"), ([1] * 4094 + [3], ": [4094·1, 3]")]
        for position, end in rows:
            self.assertTrue(str(misere.Refused(7, None, position)).endswith(end), end)

    def test_a_search_says_how_far_it_went(self) -> None:
        stop = raised(lambda: misere.solve("0.77", heaps=8))
        assert isinstance(stop, misere.NotFound)
        self.assertEqual(stop.bounds, {"limit": misere.LIMIT, "rounds": 64, "heaps": 8, "order": 64})

    def test_a_search_names_calls_that_go_further(self) -> None:
        """Each stands there as it runs, and finds something."""
        rows: list[tuple[str, Callable[[], object], list[str]]] = [
            ("few heaps", lambda: misere.solve("0.77"), ['solve("0.77", deep=True)', 'solve_furthest("0.77", 64)']),
            (
                "an order",
                lambda: misere.solve("0.677", deep=True, order=64),
                ['solve("0.677", deep=True)', 'solve_furthest("0.677", 64)'],
            ),
            (
                "members",
                lambda: misere.solve("0.33", limit=5),
                ['solve("0.33", deep=True, limit=1000000)', 'solve_furthest("0.33", 64, limit=1000000)'],
            ),
            (
                "a part",
                lambda: misere.solve_part("0.07", 33),
                ['solve_part("0.07", 33, order=4096)', 'solve_furthest("0.07", 512)'],
            ),
        ]
        for name, search, calls in rows:
            with self.subTest(name):
                said = str(raised(search))
                named = re.findall(r"misere\.(\w+\([^)]*\))", said)
                self.assertEqual(named, calls, said)
                for call in named:
                    self.assertIsInstance(eval(f"misere.{call}"), misere.Quotient)

    def test_a_search_says_why_it_was_given_up(self) -> None:
        # (the lines of docs/MESSAGES.md)
        rows: list[tuple[str, Callable[[], object], str]] = [
            ("no period", lambda: misere.solve("0.77"), "no period 24 24"),
            ("too large", lambda: misere.solve("0.6"), "too large 15"),
            ("repairs", lambda: misere.solve("0.06"), "repairs 17 48"),
            ("one element", lambda: misere.solve("0.4", heaps=2), "one element"),
            ("members", lambda: misere.solve("0.33", limit=5), "members"),
            ("rounds", lambda: misere.solve("0.07", rounds=1), "rounds"),
        ]
        for name, search, why in rows:
            with self.subTest(name):
                stop = raised(search)
                assert isinstance(stop, misere.NotFound)
                self.assertEqual(stop.why, why)
                self.assertIn(why, str(stop))
