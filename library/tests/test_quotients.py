"""What a quotient is, and what is found."""

from __future__ import annotations

import copy
import itertools
import pickle
import unittest

import misere
from tests import quotient, raised, samples, top


class Quotients(unittest.TestCase):
    def test_a_full_one_says_what_its_text_says(self) -> None:
        full = quotient("0.33")
        self.assertEqual((full.code, full.order, full.start, full.period), ("0.33", 6, 1, 3))
        self.assertEqual((full.portion, full.last_heap), (frozenset({1, 4}), None))
        self.assertEqual([full.phi(heap) for heap in (1, 2, 3, 4, 5, 6, 10**18)], [1, 2, 0, 1, 2, 0, 1])
        self.assertEqual(full.table[0], (0, 1, 2, 3, 4, 5))
        self.assertEqual(repr(full), "<misère quotient of 0.33: order 6, start 1, period 3>")

    def test_a_partial_one_says_what_its_text_says(self) -> None:
        partial = quotient("0.75_heaps_8")
        self.assertEqual((partial.code, partial.order, partial.start, partial.period), ("0.75", 8, 9, 0))
        self.assertEqual(
            (partial.last_heap, [partial.phi(heap) for heap in range(1, 9)]), (8, [1, 2, 1, 2, 3, 2, 3, 2])
        )
        self.assertEqual(repr(partial), "<misère quotient of 0.75: order 8, to heap 8>")

    def test_a_certificate_comes_as_bytes_or_text(self) -> None:
        text = (samples / "0.33.mqc").read_bytes()
        forms: list[misere.Given] = [text, text.decode(), bytearray(text), memoryview(text), samples / "0.33.mqc"]
        for form in forms:
            with self.subTest(type(form)):
                self.assertEqual((misere.check(form).certificate, misere.check(form)), (text, quotient("0.33")))

    def test_it_is_a_value(self) -> None:
        full, again, partial = quotient("0.75"), quotient("0.75"), quotient("0.75_heaps_8")
        self.assertEqual(
            ({full, again, partial}, full != partial, full == full.certificate), ({full, partial}, True, False)
        )
        for other in (copy.copy(full), copy.deepcopy(full), pickle.loads(pickle.dumps(full))):
            self.assertEqual((other, other.outcome([2, 5])), (full, full.outcome([2, 5])))

    def test_answers_are_moves(self) -> None:
        full = quotient("0.33")
        self.assertEqual((full.answer([]), full.winning_move([])), ("ended", None))
        self.assertEqual((full.answer([1]), full.winning_move([1])), ("lost", None))
        self.assertEqual(full.answer([2, 10**12]), misere.Move(2, ()))
        self.assertEqual(full.winning_move([2, 10**12]), misere.Move(heap=2, left=()))


class Monoids(unittest.TestCase):
    def test_tame_is_what_the_description_says(self) -> None:
        for file in samples.glob("*.mqc"):
            with self.subTest(file.name):
                of = misere.check(file)
                self.assertEqual(of.tame, of.to_dict()["tame"])
        self.assertEqual((quotient("0.33").tame, quotient("0.75").tame), (2, None))

    def test_an_isomorphism_keeps_products_and_the_portion(self) -> None:
        one, other = misere.solve_part("0.07", 20), misere.solve_part("0.4", 21)
        images = one.isomorphism(other) or ()
        self.assertEqual(sorted(images), [*range(one.order)])
        self.assertEqual({images[it] for it in one.portion}, other.portion)
        for x, row in enumerate(one.table):
            self.assertEqual([images[it] for it in row], [other.table[images[x]][it] for it in images])

    def test_what_is_isomorphic(self) -> None:
        rows = [("0.33", "0.33", True), ("0.75", "0.75_heaps_8", True), ("0.33", "0.75", False), ("0.77", "0.b", False)]
        for one, other, told in rows:
            with self.subTest((one, other)):
                self.assertEqual(quotient(one).isomorphic(quotient(other)), told)
                self.assertEqual(quotient(other).isomorphic(quotient(one)), told)
        self.assertIsInstance(raised(lambda: quotient("0.33").isomorphic(7)), misere.WrongType)  # type: ignore[arg-type]


class Found(unittest.TestCase):
    def test_what_is_found_is_the_sample(self) -> None:
        found = {
            "0.33": misere.solve("0.33"),
            "0.75": misere.solve("0.75"),
            "0.77": misere.solve("0.77", deep=True),
            "0.75_heaps_8": misere.solve_part("0.75", 8),
            "0.8_heaps_4": misere.solve_part("0.8", 4),
        }
        for name, it in found.items():
            with self.subTest(name):
                self.assertEqual(it, quotient(name))

    def test_a_game_has_its_name(self) -> None:
        self.assertEqual(misere.solve("Kayles", deep=True), quotient("0.77"))
        self.assertEqual(misere.solve_part("dawson's kayles", 8).code, "0.07")
        self.assertIn("names are Kayles", str(raised(lambda: misere.solve("Kayle"))))

    def test_a_deep_search_is_that_of_the_program(self) -> None:
        found = misere.solve("0.677", deep=True)
        self.assertEqual((found.order, found.last_heap), (172, None))

    def test_the_furthest_is_partial(self) -> None:
        furthest = misere.solve_furthest("0.07", 24)
        self.assertLessEqual(furthest.order, 24)
        self.assertEqual((furthest.code, furthest.period), ("0.07", 0))

    def test_any_is_the_whole_or_a_part(self) -> None:
        self.assertEqual(misere.solve_any("0.33"), quotient("0.33"))
        part = misere.solve_any("0.07", order=24)
        self.assertEqual((part.last_heap, part.order), (24, 24))

    def test_a_series_is_that_of_the_program(self) -> None:
        rows = [
            ("0.33", 64, [2, 6, 6, 6]),
            ("0.07", 64, [1, 2, 2, 6]),
            ("0.0001", 64, [1, 1, 1, 2]),
            ("0.33", 5, [2]),
        ]
        for code, order, orders in rows:
            with self.subTest((code, order)):
                self.assertEqual([*itertools.islice(misere.series(code, order), 4)], orders)

    def test_limits_may_be_integers_of_any_kind(self) -> None:
        class Number:
            def __index__(self) -> int:
                return 8

        self.assertEqual(misere.solve_part("0.75", Number()), quotient("0.75_heaps_8"))  # type: ignore[arg-type]


class Versions(unittest.TestCase):
    def test_the_version_stands_in_one_place(self) -> None:
        version = (top / "VERSION").read_text().strip()
        self.assertEqual((misere.__version__, misere.version()), (version, 2))
        self.assertIn(f'\nversion = "{version}"\n', (top / "library/rust/Cargo.toml").read_text())
