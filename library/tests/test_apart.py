"""What tells two positions apart: those of 0.33 are worked out by hand of the relations a² = 1 and b³ = b, with the heaps 1,
2, 3 as a, b and 1, and the P-portion a and b²."""

from __future__ import annotations

import itertools
import unittest
from typing import NamedTuple

import misere
from tests import quotient, raised


class Two(NamedTuple):
    """Two positions of 0.33, and what tells them apart: a position and both outcomes."""

    first: list[int]
    second: list[int]
    told: misere.Apart | None


TWO = [
    Two([1, 1], [3], None),
    Two([], [], None),
    Two([2, 2], [], misere.Apart((), ("P", "N"))),
    Two([2], [1, 2, 2], misere.Apart((1,), ("N", "P"))),
    Two([], [1, 2, 2], misere.Apart((2, 2), ("P", "N"))),
    Two([2, 10**18], [2, 1], None),
]


class Apart(unittest.TestCase):
    def test_what_tells_two_apart_is_told(self) -> None:
        of = quotient("0.33")
        for row in TWO:
            self.assertEqual(of.apart(row.first, row.second), row.told, row)

    def test_it_has_the_outcomes_that_are_told(self) -> None:
        for name in ("0.75", "0.b", "0.75_heaps_8"):
            of = quotient(name)
            positions = [
                list(it) for count in range(3) for it in itertools.combinations_with_replacement(range(1, 9), count)
            ]
            for first, second in itertools.combinations(positions, 2):
                apart = of.apart(first, second)
                self.assertEqual(apart is None, of.value(first) == of.value(second), (name, first, second))
                if apart:
                    outcomes = tuple(of.outcome([*it, *apart.position]) for it in (first, second))
                    self.assertEqual((outcomes, len(set(outcomes))), (apart.outcomes, 2), (name, first, second))

    def test_of_what_the_certificate_does_not_speak_nothing_is_told(self) -> None:
        part = quotient("0.3_heaps_2")
        rows = [([1], [2, 3], misere.Beyond, "and not of 3"), ([1], [2, 0], misere.NotAHeap, "0 isn't, at [1, 1]")]
        for first, second, kind, words in rows:
            stop = raised(lambda: part.apart(first, second))
            self.assertIsInstance(stop, kind)
            self.assertIn(words, str(stop))
        part.close()
        self.assertIsInstance(raised(lambda: part.apart([1], [2])), misere.NotOpen)
