"""Catalogues by codes, by names and by parts, and the atlas."""

from __future__ import annotations

import json
import pathlib
import tempfile
import unittest

import misere
from tests import quotient, raised, top


class Catalogues(unittest.TestCase):
    atlas = misere.Catalogue()

    def test_the_atlas_has_each_code_of_its_files(self) -> None:
        files = [json.loads((top / f"atlas/{name}.json").read_text()) for name in ("octal", "hexadecimal")]
        codes = [entry["code"] for file in files for entry in file["entries"]]
        self.assertEqual((list(self.atlas), len(self.atlas)), (codes, len(codes)))

    def test_a_game_has_its_code_and_its_name(self) -> None:
        self.assertEqual(self.atlas["0.77"], quotient("0.77"))
        for name, code in misere.NAMES.items():
            with self.subTest(name):
                self.assertEqual(self.atlas[name], self.atlas[code])
                self.assertEqual(self.atlas[name].code, code)

    def test_a_part_has_its_last_heap(self) -> None:
        part = self.atlas["0.07", 33]
        self.assertEqual((part, part.last_heap), (quotient("0.07_heaps_33"), 33))
        self.assertEqual(self.atlas["0.77", 0], self.atlas["Kayles"])

    def test_a_code_alone_is_the_full_one_or_that_of_the_most_heaps(self) -> None:
        names = ("octal", "hexadecimal", "parts")
        files = [json.loads((top / f"atlas/{name}.json").read_text()) for name in names]
        entries = [entry for file in files for entry in file["entries"]]
        for code in self.atlas:
            lasts = {it["heaps"]: it["certificate"] for it in entries if it["code"] == code}
            self.assertEqual(self.atlas.certificate(code), lasts[0 if 0 in lasts else max(lasts)], code)
        self.assertEqual(self.atlas["Dawson's Kayles"], quotient("0.07_heaps_33"))
        octal = misere.Catalogue(top / "atlas/octal.json")
        self.assertEqual(octal["Dawson's Kayles"].last_heap, 24)

    def test_the_furthest_has_the_most_heaps(self) -> None:
        self.assertEqual(self.atlas.furthest("dawsons kayles"), quotient("0.07_heaps_33"))
        self.assertEqual(self.atlas.furthest("0.77"), self.atlas["Kayles"])
        self.assertIsInstance(raised(lambda: self.atlas.furthest("0.70")), misere.Absent)

    def test_what_is_there(self) -> None:
        there = ["0.77", "Kayles", ("0.07", 24), ("0.33", 0)]
        absent: list[object] = ["0.70", "Nim", ("0.07", 0), ("0.07", 23), 7, None, ("0.33",)]
        self.assertEqual([it in self.atlas for it in there], [True] * len(there))
        self.assertEqual([it in self.atlas for it in absent], [False] * len(absent))
        self.assertIsNone(self.atlas.get("0.70"))

    def test_one_file(self) -> None:
        octal = misere.Catalogue(top / "atlas/octal.json")
        self.assertEqual(
            (octal["0.33"], "0.b" in octal, repr(octal)),
            (quotient("0.33"), False, f"<catalogue of {len(octal)} codes>"),
        )

    def test_a_full_one_is_told_before_a_partial_one(self) -> None:
        texts = [(0, "0.75"), (8, "0.75_heaps_8")]
        entries = [
            {"code": "0.75", "heaps": it, "certificate": quotient(name).certificate.decode()} for it, name in texts
        ]
        with tempfile.TemporaryDirectory() as folder:
            file = pathlib.Path(folder, "both.json")
            for order in (entries, entries[::-1], entries[1:]):
                file.write_text(json.dumps({"version": 2, "entries": order}))
                both = misere.Catalogue(file)
                self.assertEqual(both["0.75"].last_heap, 8 if len(order) == 1 else None)
                self.assertEqual(both["0.75", 8].last_heap, 8)
                self.assertEqual(both.furthest("0.75"), both["0.75"])
