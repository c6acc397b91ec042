"""Descriptions beside the certificates that they are of: all words are multiplied by the certificate's table."""

from __future__ import annotations

import json
import re
import unittest
from collections.abc import Iterator
from typing import get_args

import misere
from misere._shown import powers_of
from tests import quotient, samples, top


def entries() -> Iterator[tuple[str, str]]:
    """The name and the certificate of each entry of the atlas, and of each sample."""
    for name in ("octal", "hexadecimal"):
        for entry in json.loads((top / f"atlas/{name}.json").read_text())["entries"]:
            yield f"{entry['code']} {entry['heaps']}", entry["certificate"]
    yield from ((file.name, file.read_text()) for file in sorted(samples.glob("*.mqc")))


class Read:
    """A description with the elements of its words, by the table."""

    def __init__(self, of: misere.Quotient, basis: bool) -> None:
        self.of, self.text = of, of.describe(basis=basis)
        self.told = of.to_dict(basis)

    def element(self, word: str) -> int:
        product = 0
        for letter, power in powers_of(word):
            for _ in range(power):
                product = self.of.table[product][self.of.phi(self.told["generators"][letter])]
        return product

    def elements(self, words: list[str]) -> list[int]:
        return [self.element(word) for word in words]


def units_of(of: misere.Quotient) -> set[int]:
    return {x for x, row in enumerate(of.table) if 0 in row}


def kernel_of(of: misere.Quotient) -> set[int]:
    """The elements that are multiples of each element."""
    return set.intersection(*(set(row) for row in of.table))


class Descriptions(unittest.TestCase):
    def test_what_is_told_is_true_of_the_table(self) -> None:
        count = 0
        for name, certificate in entries():
            of = misere.check(certificate)
            for basis in (False, True):
                with self.subTest(name, basis=basis):
                    self.look_at(Read(of, basis))
            count += 1
        self.assertGreater(count, len(misere.Catalogue()))

    def look_at(self, it: Read) -> None:
        of, told = it.of, it.told
        self.assertEqual((told["code"], told["order"], told["period"]), (of.code, of.order, of.period))
        for left, right in told["relations"]:
            self.assertEqual(it.element(left), it.element(right), (left, right))
        last = of.start + of.period - 1
        self.assertEqual(it.elements(told["heaps"]), [of.phi(heap) for heap in range(1, last + 1)])
        for name, elements in (
            ("portion", set(of.portion)),
            ("units", units_of(of)),
            ("idempotents", {x for x, row in enumerate(of.table) if row[x] == x}),
            ("kernel", kernel_of(of)),
        ):
            words = it.elements(told[name])
            self.assertEqual((set(words), len(words)), (elements, len(elements)), name)

    def test_a_dict_has_the_words_of_the_plain_lines(self) -> None:
        """(Their rows begin as 12+ does.)"""
        for name in ("0.33", "0.71", "0.75", "0.75_heaps_8", "0.77", "0.b"):
            for basis in (False, True):
                with self.subTest(name, basis=basis):
                    it = Read(quotient(name), basis)
                    words = [word for word in it.text.split() if not re.fullmatch(r"\d+\+", word)]
                    self.assertEqual(words, written(it).split())

    def test_a_dict_goes_through_json(self) -> None:
        full = quotient("0.75").to_dict()
        self.assertEqual(full, json.loads(json.dumps(full)))
        self.assertEqual(
            full,
            {
                "code": "0.75",
                "kind": "full",
                "order": 8,
                "portion": ["a", "b^2"],
                "tame": None,
                "generators": {"a": 1, "b": 2, "c": 5},
                "relations": [["a^2", "1"], ["bc", "ab"], ["c^2", "b^2"]],
                "units": ["1", "a"],
                "idempotents": ["1", "b^2"],
                "kernel": ["b", "ab", "b^2", "ab^2"],
                "heaps": ["a", "b", "a", "b", "c", "b", "c", "b", "ab^2"],
                "start": 8,
                "period": 2,
            },
        )
        part = quotient("0.75_heaps_8").to_dict()
        self.assertEqual((part["kind"], part["start"], part["period"], len(part["heaps"])), ("partial", 9, 0, 8))
        self.assertEqual(quotient("0.33").to_dict()["tame"], 2)
        self.assertEqual(quotient("0.75").to_dict(basis=True)["relations"][1], ["b^3", "b"])

    def test_each_output_is_a_text_of_its_own(self) -> None:
        """(compare.py compares them with what the program prints.)"""
        of = quotient("0.75")
        begin = {
            "description": "Q(0.75) = < a,b,c | a^2=1, bc=ab, c^2=b^2 >\n",
            "latex": "\\begin{flushleft}\n$\\mathcal{Q}(\\mathbf{0.75})",
            "relations": "a^2=1 bc=ab c^2=b^2 b^3=b c^4=c^2",
            "json": '{"code":"0.75","kind":"full",',
            "singular": "// Q(0.75), of order 8: vdim(std(I))\nring R = 0,(c,b,a),dp;\nideal I =\n  a^2-1,\n  b*c-a*b,\n",
            "gap": '# Q(0.75), of order 8: ReducedGroebnerBasis(I, O)\nc := Indeterminate(Rationals, "c" : new);;\n',
        }
        self.assertEqual(list(begin), list(get_args(misere.Output)))
        for output in get_args(misere.Output):
            with self.subTest(output):
                self.assertTrue(of.describe(output).startswith(begin[output]), of.describe(output))
        self.assertEqual((of.singular(), of.gap()), (of.describe("singular"), of.describe("gap")))
        basis = (of.describe("singular", basis=True), of.describe("gap", basis=True))
        self.assertEqual((of.singular(basis=True), of.gap(basis=True)), basis)
        self.assertIn("b^3-b", basis[0])


def written(it: Read) -> str:
    """The words of the plain lines, of the values of a dict."""
    told = it.told
    part = it.text[1 : it.text.index("(")]
    relations = ", ".join(f"{left}={right}" for left, right in told["relations"])
    generators = " ".join(f"{letter}={heap}" for letter, heap in told["generators"].items())
    tame = "wild" if told["tame"] is None else f"tame {told['tame']}"
    lines = [
        f"Q{part}({told['code']}) = < {','.join(told['generators'])} | {relations} >",
        f"P{part} = {{ {', '.join(told['portion'])} }}",
        f"order {told['order']} portion {len(told['portion'])} {tame}",
        f"generators {generators}",
        f"units {' '.join(told['units'])}",
        f"idempotents {' '.join(told['idempotents'])}",
        f"kernel {' '.join(told['kernel'])}",
        " ".join(told["heaps"]),
        f"repeat {told['period']} from {told['start']}" if told["period"] else f"heaps to {told['start'] - 1}",
    ]
    return "\n".join(lines)
