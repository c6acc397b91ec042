"""Presentations: what is told of samples, beside a search of all plays and the words of their texts."""

from __future__ import annotations

import copy
import json
import pickle
import random
import unittest
from typing import Any, get_args

import misere
from compare import search_of
from tests import presented, quotient, raised, samples

SMALL = 200
INFINITE, KAYLES, FINITE = presented("0.404_heaps_12"), presented("0.77"), presented("0.75_heaps_22")


def refused(name: str) -> misere.MisereError | None:
    return raised(lambda: misere.check_infinite(samples / f"refused/{name}.mqp"))


class Presented(unittest.TestCase):
    def test_each_says_of_which_heaps_it_speaks_and_its_order(self) -> None:
        said = [(it.code, it.last_heap, it.without, it.order, it.presented) for it in (INFINITE, KAYLES, FINITE)]
        self.assertEqual(said[0], ("0.404", 12, (), None, True))
        self.assertEqual(said[1], ("0.77", None, (), 40, True))
        self.assertEqual(said[2], ("0.75", 22, (), 8, True))
        self.assertEqual(repr(INFINITE), "<infinite misère quotient of 0.404: heaps to 12>")
        self.assertEqual(repr(KAYLES), "<presented, of order 40, misère quotient of 0.77: all heaps>")

    def test_small_positions_are_told_as_a_search_finds_them(self) -> None:
        chosen = random.Random(77)
        for of, most in ((INFINITE, 12), (KAYLES, 9), (FINITE, 12)):
            search = search_of(of.code)
            positions = [[chosen.randint(1, most) for _ in range(chosen.randint(0, 4))] for _ in range(SMALL)]
            self.assertEqual(of.outcomes(positions), [search(it) for it in positions], of.code)
            self.assertEqual([of.outcome(it) for it in positions], of.outcomes(positions))
            for heaps, answer in zip(positions, of.answers(positions)):
                if not isinstance(answer, misere.Move):
                    self.assertEqual(search(heaps), "N" if answer == "ended" else "P", heaps)
                    continue
                left = [*heaps, *answer.left]
                left.remove(answer.heap)
                self.assertEqual((search(heaps), search(left)), ("N", "P"), (heaps, answer))

    def test_kayles_is_told_as_by_its_certificate(self) -> None:
        other, chosen = quotient("0.77"), random.Random(7)
        positions = [[chosen.randint(1, 10**18) for _ in range(chosen.randint(0, 6))] for _ in range(SMALL)]
        self.assertEqual(KAYLES.outcomes(positions), other.outcomes(positions))
        self.assertEqual(KAYLES.order, other.order)
        elements = {KAYLES.value(it): other.value(it) for it in positions}
        self.assertTrue(all(elements[KAYLES.value(it)] == other.value(it) for it in positions))

    def test_positions_have_words(self) -> None:
        rows: list[tuple[list[int], str]] = [
            ([], "1"),
            ([3, 3], "1"),
            ([5] * 3, "b"),
            ([7], "ab"),
            ([9] * 4 + [5], "bc^2"),
            ([11, 5, 12], "abe"),
        ]
        for heaps, word in rows:
            self.assertEqual(INFINITE.value(heaps), word, heaps)
        self.assertEqual(INFINITE.value([9] * 1000), "c^1000")
        self.assertEqual((KAYLES.value([1000]), KAYLES.value([988])), ("ab^2", "ab^2"))

    def test_positions_are_told_apart(self) -> None:
        self.assertIsNone(INFINITE.apart([3, 3], []))
        self.assertIsNone(FINITE.apart([5, 5], [2, 2]))
        chosen = random.Random(40)
        for of, most in ((INFINITE, 12), (FINITE, 22)):
            for _ in range(20):
                first, second = ([chosen.randint(1, most) for _ in range(chosen.randint(0, 4))] for _ in range(2))
                told = of.apart(first, second)
                self.assertEqual(told is None, of.value(first) == of.value(second), (first, second))
                if told is not None:
                    beside = [of.outcome([*it, *told.position]) for it in (first, second)]
                    self.assertEqual((tuple(beside), len(set(beside))), (told.outcomes, 2), (first, second))
        self.assertEqual(FINITE.apart([2], [1, 2]), quotient("0.75").apart([2], [1, 2]))

    def test_each_is_described(self) -> None:
        texts = [INFINITE.describe(it) for it in get_args(misere.InfiniteOutput)]
        self.assertEqual((len(set(texts)), texts[0]), (3, INFINITE.describe()))
        self.assertTrue(texts[0].startswith("Q_12(0.404) = < a,b,c,d,e | a^2=1, b^3=b, abc^3=bc^2e"), texts[0])
        told = INFINITE.to_dict()
        self.assertEqual(told, json.loads(texts[2]))
        self.assertEqual((told["kind"], told["order"], told["generators"]["e"]), ("presented", None, 12))
        self.assertEqual((KAYLES.to_dict()["order"], len(KAYLES.to_dict()["relations"])), (40, 21))

    def test_a_notebook_shows_it(self) -> None:
        html = INFINITE._repr_html_() or ""
        self.assertIn("<i>Q</i><sub>12</sub>(<b>0.404</b>) = ⟨ <i>a</i>, <i>b</i>, <i>c</i>", html)
        self.assertIn("infinite, relations 9, portion 15", html)
        self.assertIn("and so on from heap 71, with period 12", KAYLES._repr_html_() or "")
        with presented("0.75_heaps_22") as it:
            pass
        self.assertIsNone(it._repr_html_())

    def test_it_is_a_value(self) -> None:
        for other in (presented("0.77"), copy.copy(KAYLES), pickle.loads(pickle.dumps(KAYLES))):
            self.assertEqual((other, other.order, other.value([1000])), (KAYLES, 40, "ab^2"))
        self.assertEqual(misere.verify(samples / "0.77.mqp"), KAYLES)

    def test_a_search_finds_one(self) -> None:
        self.assertEqual(misere.solve_infinite("0.404", presented=True), INFINITE)
        stop = raised(lambda: misere.solve_infinite("0.33", heaps=8, presented=True))
        self.assertIsInstance(stop, misere.NotFound)

    def test_refusals_have_their_numbers(self) -> None:
        told = [(it.number, it.name) for it in map(refused, ("law_pair_does_not_join", "part_heap_left_out")) if it]
        self.assertEqual(told, [(2, "Law"), (31, "Part")])
        rows: list[tuple[Any, int]] = [
            (lambda: INFINITE.outcome([13]), 23),
            (lambda: INFINITE.value([13]), 23),
            (lambda: INFINITE.value([0]), 10),
            (lambda: INFINITE.apart([3], [13]), 23),
            (lambda: misere.check_infinite(FINITE.certificate.replace(b"portion a", b"portion 1 a")), 7),
            (lambda: misere.check(samples / "0.77.mqp"), 1),
        ]
        for call, number in rows:
            stop = raised(call)
            self.assertEqual(stop and stop.number, number)
