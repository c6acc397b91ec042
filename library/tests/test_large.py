"""A certificate of 304 elements, and one in the third format, and a thousand positions of each, by each call."""

from __future__ import annotations

import random
import unittest

import misere
from tests import raised
from tests.made_texts import wrong_at


class Large(unittest.TestCase):
    of = misere.solve_part("0.6", 16)

    def positions(self) -> list[list[int]]:
        """A thousand positions, of up to a hundred heaps."""
        chosen = random.Random(62)
        return [[chosen.randint(1, 16) for _ in range(chosen.randint(0, 100))] for _ in range(1000)]

    def element(self, heaps: list[int]) -> int:
        product = 0
        for heap in heaps:
            product = self.of.table[self.of.phi(heap)][product]
        return product

    def test_it_is_checked(self) -> None:
        again = misere.check(self.of.certificate)
        self.assertEqual((again.order, again.last_heap), (304, 16))

    def test_each_position_is_told(self) -> None:
        positions = self.positions()
        elements = [self.element(it) for it in positions]
        outcomes = ["P" if it in self.of.portion else "N" for it in elements]
        self.assertEqual(self.of.values(positions), elements)
        self.assertEqual(self.of.outcomes(positions), outcomes)
        for heaps, outcome, answer in zip(positions, outcomes, self.of.answers(positions)):
            self.assertEqual(isinstance(answer, misere.Move), outcome == "N" and any(it > 1 for it in heaps), heaps)

    def test_a_hundred_heaps_are_told(self) -> None:
        heaps = [it % 16 + 1 for it in range(100)]
        self.assertEqual(self.of.value(heaps), self.element(heaps))
        self.assertEqual(self.of.outcome(heaps), "P" if self.element(heaps) in self.of.portion else "N")
        self.assertEqual(self.of.answer(heaps), self.of.answers([heaps])[0])

    def test_it_is_described_but_not_as_present_takes_relations(self) -> None:
        self.assertTrue(self.of.describe().startswith("Q_16(0.6) = < a,"))
        self.assertIn("\norder 304 portion ", self.of.describe(basis=True))
        self.assertIsInstance(raised(lambda: self.of.describe("relations")), misere.NotDescribed)


class Failing(unittest.TestCase):
    def test_more_heaps_are_told_than_there_is_room_for_at_first(self) -> None:
        for ones in (63, 65, 99):
            stop = raised(lambda: misere.check(wrong_at(ones, ones + 3)))
            self.assertEqual((stop.number, stop.position) if stop else None, (7, [1] * ones))


class Third(unittest.TestCase):
    """A certificate in the third format, whose text leaves rows out."""

    of = misere.solve_furthest("0.07", 1024)

    def test_it_is_in_the_third_format(self) -> None:
        text = self.of.certificate.decode()
        self.assertTrue(text.startswith("mqc 3\ncode 0.07\n"))
        self.assertEqual((self.of.order, self.of.last_heap, "\napart " in text), (638, 33, False))
        self.assertLess(text.count("\nrow "), 34)

    def test_its_table_is_whole(self) -> None:
        table, order = self.of.table, self.of.order
        self.assertEqual((len(table), {len(row) for row in table}, table[0]), (order, {order}, tuple(range(order))))
        self.assertEqual(table, tuple(zip(*table)))

    def test_its_table_has_the_values(self) -> None:
        chosen = random.Random(638)
        positions = [[chosen.randint(1, 33) for _ in range(chosen.randint(0, 40))] for _ in range(1000)]
        values = []
        for heaps in positions:
            product = 0
            for heap in heaps:
                product = self.of.table[product][self.of.phi(heap)]
            values.append(product)
        self.assertEqual(self.of.values(positions), values)
        self.assertEqual(self.of.outcomes(positions), ["P" if it in self.of.portion else "N" for it in values])
