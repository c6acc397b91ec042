"""What a notebook shows."""

from __future__ import annotations

import re
import unittest
from html.parser import HTMLParser

import misere
from tests import quotient, samples, whole


class Balanced(HTMLParser):
    """Reads HTML of which each element is closed, and keeps its texts."""

    def __init__(self, text: str) -> None:
        super().__init__()
        self.open: list[str] = []
        self.texts: list[str] = []
        self.feed(text)
        self.close()
        assert not self.open, self.open

    def handle_starttag(self, tag: str, attrs: object) -> None:
        if tag != "br":
            self.open.append(tag)

    def handle_endtag(self, tag: str) -> None:
        assert self.open.pop() == tag, tag

    def handle_data(self, data: str) -> None:
        self.texts.append(data)


class Shown(unittest.TestCase):
    def test_html_has_the_lines_of_the_description(self) -> None:
        text = "".join(Balanced(quotient("0.75")._repr_html_() or "").texts)
        self.assertIn("Q(0.75) = ⟨ a, b, c | a2 = 1, bc = ab, c2 = b2 ⟩", text)
        self.assertIn("P = { a, b2 }", text)
        self.assertIn("order 8, portion 2, wild", text)
        self.assertTrue(
            text.endswith("0+ababcbcb8+ab2and so on from heap 8, with period 2".replace("0+", "0+", 1)), text
        )

    def test_html_of_a_part_says_so(self) -> None:
        text = "".join(Balanced(quotient("0.75_heaps_8")._repr_html_() or "").texts)
        self.assertTrue(text.startswith("Q8(0.75) = "), text)
        self.assertIn("P8 = {", text)
        self.assertTrue(text.endswith("heaps to 8"), text)

    def test_html_of_a_whole_game_has_its_heaps(self) -> None:
        text = "".join(Balanced(whole("0.26")._repr_html_() or "").texts)
        self.assertTrue(text.startswith("Q(0.26) is infinite"), text)
        self.assertIn("heapoddweightlead1000210030104110", text)
        self.assertTrue(text.endswith("16152and so on from heap 13, with period 4 and rise 2"), text)

    def test_latex_is_formulas_alone(self) -> None:
        shown = quotient("0.33")._repr_latex_() or ""
        self.assertIn(
            r"$$\displaystyle \mathcal{Q}(\mathbf{0.33})=\langle a,b\mid a^{2}=1\text{, }b^{3}=b\rangle$$", shown
        )
        self.assertIn(r"\text{tame }\mathcal{T}_{2}".replace(r"\text{tame }", r"\text{, tame }"), shown)
        for file in samples.glob("*.mqc"):
            with self.subTest(file.name):
                of = misere.check(file.read_bytes())
                latex = of._repr_latex_() or ""
                rest = re.sub(r"\$\$[^$]+\$\$\n?", "", latex)
                self.assertEqual((rest, latex.count("{"), "makebox" in latex), ("", latex.count("}"), False))
                self.assertEqual(latex.count(r"\begin{array}"), of.describe("latex").count(r"\begin{array}"))
                Balanced(of._repr_html_() or "")
