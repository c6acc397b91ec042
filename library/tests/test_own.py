"""Quotients of one's own, in any numbering."""

from __future__ import annotations

import random
import unittest

import misere
from misere._library import library, told_by
from tests import quotient, samples, top

# Of two elements each of which is its own inverse, and of three that aren't so simple
TWO = [[0, 1], [1, 0]]
CHAIN = [[0, 1, 2], [1, 1, 2], [2, 2, 2]]


def certified_again(sample: misere.Quotient, seed: str) -> misere.Quotient:
    """What is certified of a quotient's table, in other numbers."""
    names = [*range(sample.order)]
    random.Random(seed).shuffle(names)
    places = sorted(range(sample.order), key=names.__getitem__)
    table = [[names[sample.table[x][y]] for y in places] for x in places]
    last = sample.last_heap or sample.start + 3 * sample.period - 1
    heaps = [names[sample.phi(heap)] for heap in range(1, last + 1)]
    portion = {names[it] for it in sample.portion}
    period = 2 * sample.period if sample.last_heap is None else 0
    return misere.certify(sample.code, table, heaps, portion, period)


class Own(unittest.TestCase):
    def test_a_sample_in_another_numbering_is_the_sample(self) -> None:
        for path in sorted(samples.glob("*.mqc")):
            with self.subTest(path.name):
                sample = quotient(path.stem)
                self.assertEqual(certified_again(sample, path.name), sample)

    def test_a_quotient_of_864_elements_in_another_numbering_is_that_quotient(self) -> None:
        sample = misere.Catalogue(top / "atlas/parts.json")["0.04", 44]
        self.assertEqual((sample.order, certified_again(sample, "0.04")), (864, sample))

    def test_what_is_refused_of_a_table_has_its_own_numbers(self) -> None:
        rows: list[tuple[str, list[list[int]], list[int], list[int], str]] = [
            ("no identity", [[0, 0], [0, 0]], [1], [1], "2 Identity: no element of the table is the identity"),
            (
                "not commutative",
                [[0, 1, 2], [1, 1, 1], [2, 2, 2]],
                [1, 2],
                [1],
                "2 Commutes: the product 1·2 is 1, and 2·1 is 2",
            ),
            (
                "not associative",
                [[0, 1, 2], [1, 2, 0], [2, 0, 0]],
                [1, 2],
                [1],
                "2 Associates: the product (1·1)·2 is 0, and 1·(1·2) is 1",
            ),
            ("unreached", CHAIN, [1], [1], "3 Unreached: no position has the element 2"),
            ("not apart", TWO, [1], [0, 1], "6 Apart: no element tells 0 and 1 apart"),
            (
                "the empty position is N",
                TWO,
                [1],
                [0],
                "7 Outcome: the rule of the code's game fails at a position: []",
            ),
        ]
        for name, table, heaps, portion, said in rows:
            with self.subTest(name), self.assertRaises(misere.Refused) as refused:
                misere.certify("0.1", table, heaps, portion, 0)
            self.assertEqual(str(refused.exception), said)

    def test_the_call_says_what_the_program_says(self) -> None:
        # (the call takes tables alone)
        of_tables = (top / "tests/certifying.rows").read_text().partition("\n== presentations\n")[0]
        blocks = [it.splitlines() for it in of_tables.split("\n\n")]
        refused = [it for it in blocks if "$ certify -" in it and "= 1" in it]
        self.assertGreater(len(refused), 8)
        for block in refused:
            table, said = ("".join(f"{it[2:]}\n" for it in block if it.startswith(mark)) for mark in "<>")
            with self.subTest(said):
                # (at first there is room for a part of the lines)
                told = told_by(8, library.misere_certify, table.encode(), len(table), misere.LIMIT)
                self.assertEqual(told, (int(said.split()[1]), said.encode()))

    def test_a_part_is_asked_for_by_its_period(self) -> None:
        with self.assertRaises(TypeError):
            misere.certify("0.1", TWO, [1, 0], [1])  # type: ignore[call-arg]
        self.assertEqual(misere.certify("0.1", TWO, [1, 0], [1], 0).last_heap, 2)
        self.assertIsNone(misere.certify("0.1", TWO, [1, 0], [1], period=1).last_heap)

    def test_what_is_no_table(self) -> None:
        rows: list[tuple[str, list[list[int]], list[int], list[int], int, str]] = [
            ("one element", [[0]], [0], [0], 0, "a table has 2 to 4096 rows, and this one 1"),
            ("a short row", [[0, 1], [1]], [1], [1], 0, "the table has 2 rows, and its row 1 1 entries"),
            ("no element", [[0, 1], [1, 2]], [1], [1], 0, "an entry of row 1 is 0 to 1, and 2 isn't"),
            ("no heaps", TWO, [], [1], 0, "of 0 heaps none has the period 0"),
            ("a long period", TWO, [1, 0], [1], 3, "of 2 heaps none has the period 3"),
        ]
        for name, table, heaps, portion, period, said in rows:
            with self.subTest(name), self.assertRaises(misere.NotInRange) as stop:
                misere.certify("0.1", table, heaps, portion, period)
            self.assertEqual(stop.exception.said, said)
