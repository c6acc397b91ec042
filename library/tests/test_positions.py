"""In which forms heaps and positions may be given."""

from __future__ import annotations

import array
import importlib
import unittest
from typing import Any

from tests import quotient, raised

# (imported so, mypy says the same with numpy and without it)
numpy: Any
try:
    numpy = importlib.import_module("numpy")
except ImportError:
    numpy = None


def masked(table: Any, **mask: Any) -> Any:
    """A masked array."""
    make: Any = numpy.ma.array
    return make(table, **mask)


# A position of 0.33 whose bytes, as the memory of one number, would be another
HEAPS = [1, 1, 1, 1, 2, 2, 2, 2]
FORMS: dict[str, Any] = {
    "a list": HEAPS,
    "a tuple": tuple(HEAPS),
    "bytes": bytes(HEAPS),
    "a bytearray": bytearray(HEAPS),
    "a view of bytes": memoryview(bytes(HEAPS)),
    "an array of bytes": array.array("B", HEAPS),
    "an array of words": array.array("Q", HEAPS),
    "an iterator": HEAPS,
}


def given(form: str) -> Any:
    return iter(HEAPS) if form == "an iterator" else FORMS[form]


class Forms(unittest.TestCase):
    def test_heaps_are_numbers_in_each_form(self) -> None:
        asked = quotient("0.33")
        value = 0
        for heap in HEAPS:
            value = asked.table[asked.phi(heap)][value]
        outcome = "P" if value in asked.portion else "N"
        self.assertEqual((value, outcome), (asked.value(HEAPS), asked.outcome(HEAPS)))
        for form in FORMS:
            with self.subTest(form):
                self.assertEqual((asked.value(given(form)), asked.outcome(given(form))), (value, outcome))
                self.assertEqual(asked.answer(given(form)), asked.answer(HEAPS))
                self.assertEqual(asked.values([given(form), []]), [value, 0])
                self.assertEqual(asked.outcomes([[], given(form)]), ["N", outcome])
                self.assertEqual(asked.answers([given(form)]), asked.answers([HEAPS]))

    def test_bytes_that_fill_no_word_are_heaps(self) -> None:
        asked = quotient("0.33")
        for count in range(10):
            with self.subTest(count):
                self.assertEqual(asked.value(bytes([1] * count)), asked.value([1] * count))

    def test_positions_come_in_any_iterable(self) -> None:
        asked = quotient("0.75")
        rows: list[list[int]] = [[2, 5], [], [1, 10**18]]
        forms: dict[str, Any] = {"tuple": tuple(rows), "generator": (it for it in rows), "none": []}
        for form, positions in forms.items():
            with self.subTest(form):
                told = asked.values(positions)
                self.assertEqual(told, [asked.value(it) for it in rows] if positions else [])


@unittest.skipIf(numpy is None, "there is no numpy")
class Arrays(unittest.TestCase):
    ROWS: list[list[int]] = [[2, 0, 5], [0, 0, 0], [1, 1, 0], [0, 7, 7]]
    POSITIONS: list[list[int]] = [[2, 5], [], [1, 1], [7, 7]]

    def test_the_rows_of_an_array_are_positions(self) -> None:
        asked = quotient("0.75")
        for kind in ("i1", "i4", "i8", "u1", "u2", "u8", ">i4"):
            with self.subTest(kind):
                rows = numpy.array(self.ROWS, dtype=kind)
                self.assertEqual(asked.outcomes(rows).tolist(), asked.outcomes(self.POSITIONS))
                self.assertEqual(asked.values(rows).tolist(), asked.values(self.POSITIONS))
                self.assertEqual(asked.answers(rows), asked.answers(self.POSITIONS))
                self.assertEqual(asked.values(rows[:, ::2]).tolist(), asked.values([[2, 5], [], [1], [7]]))

    def test_an_array_of_one_dimension_is_a_position(self) -> None:
        asked = quotient("0.75")
        for row, heaps in zip(numpy.array(self.ROWS), self.POSITIONS):
            with self.subTest(heaps):
                self.assertEqual((asked.value(row), asked.outcome(row)), (asked.value(heaps), asked.outcome(heaps)))
                self.assertEqual(asked.answer(row), asked.answer(heaps))
                self.assertEqual(asked.values([row, [1]]), asked.values([heaps, [1]]))

    def test_arrays_may_be_empty(self) -> None:
        asked = quotient("0.75")
        for shape, values in (((0, 3), []), ((2, 0), [0, 0])):
            with self.subTest(shape):
                told = asked.values(numpy.zeros(shape, dtype="i8"))
                self.assertEqual((told.tolist(), told.dtype.kind), (values, "u"))
        self.assertEqual(asked.outcomes(numpy.zeros((0, 3), dtype="i8")).tolist(), [])

    def test_an_array_of_objects_is_a_sequence(self) -> None:
        rows = numpy.empty(2, dtype=object)
        rows[:] = [[2, 5], [1]]
        asked = quotient("0.75")
        self.assertEqual(asked.values(rows), asked.values([[2, 5], [1]]))

    def test_other_arrays_are_refused(self) -> None:
        asked = quotient("0.75")
        wrong = {
            "a row for rows": lambda: asked.outcomes(numpy.array([1, 2])),
            "rows for a row": lambda: asked.outcome(numpy.array([[1, 2]])),
            "a number": lambda: asked.outcome(numpy.array(1)),
            "three dimensions": lambda: asked.values(numpy.zeros((1, 1, 1), dtype="i8")),
            "a masked row": lambda: asked.outcome(masked([1, 2], mask=[0, 1])),
            "masked rows": lambda: asked.outcomes(masked([[1, 2]], mask=[[0, 1]])),
            "fractions": lambda: asked.value(numpy.array([1.0])),
            "truths": lambda: asked.value(numpy.array([True])),
        }
        for name, call in wrong.items():
            with self.subTest(name):
                self.assertIsInstance(raised(call), TypeError)

    def test_a_heap_of_an_array_is_refused_as_others_are(self) -> None:
        asked = quotient("0.75_heaps_8")
        for heap, number in ((-1, 10), (10**18 + 1, 10), (9, 23)):
            with self.subTest(heap):
                stop = raised(lambda: asked.outcomes(numpy.array([[1, heap]])))
                self.assertEqual(stop and stop.number, number)

    def test_a_wrong_entry_of_an_array_is_named(self) -> None:
        asked = quotient("0.75")
        rows: list[tuple[str, Any, str]] = [
            ("below nothing", numpy.array([[3, 1], [1, -2]]), "-2 isn't, at [1, 1]"),
            ("of a byte below nothing", numpy.array([[3, -1]], dtype="i1"), "-1 isn't, at [0, 1]"),
            ("too large", numpy.array([[3], [10**18 + 1]]), "1000000000000000001 isn't, at [1, 0]"),
            ("all bits", numpy.array([[2**64 - 1]], dtype="u8"), "18446744073709551615 isn't, at [0, 0]"),
            ("masked", masked([[1, 2], [3, 4]], mask=[[0, 0], [0, 1]]), "no heap, as that at [1, 1]"),
            ("a row below nothing", [[3], numpy.array([1, 2, -5])], "-5 isn't, at [1, 2]"),
            ("a masked row", [[3], [1], masked([1, 2], mask=[0, 1])], "no heap, as that at [2, 1]"),
            ("a masked entry of a row", [[3], [1, numpy.ma.masked]], "not masked, at [1, 1]"),
        ]
        for name, table, words in rows:
            for call in (asked.values, asked.outcomes, asked.answers):
                with self.subTest(name, call=call.__name__):
                    self.assertIn(words, str(raised(lambda: call(table))))
        self.assertIn("-7 isn't, at [1]", str(raised(lambda: asked.value(numpy.array([1, -7])))))

    def test_a_mask_that_hides_nothing_is_none(self) -> None:
        asked, table = quotient("0.75"), numpy.array([[2, 5], [1, 0]])
        self.assertEqual(asked.values(masked(table)).tolist(), asked.values(table).tolist())
        filled = masked(table, mask=[[0, 1], [0, 0]]).filled(0)
        self.assertEqual(asked.values(filled).tolist(), asked.values([[2], [1]]))
