"""The wheel: the same bytes each time, with all that is needed and right sums."""

from __future__ import annotations

import base64
import hashlib
import pathlib
import sys
import tempfile
import unittest
import zipfile

from tests import top

sys.path.insert(0, str(top / "library/packaging"))
import wheel_of_misere  # noqa: E402


class Wheel(unittest.TestCase):
    def test_it_is_the_same_each_time_and_holds_the_library(self) -> None:
        with tempfile.TemporaryDirectory() as one, tempfile.TemporaryDirectory() as other:
            name = wheel_of_misere.build_wheel(one)
            self.assertEqual(wheel_of_misere.build_wheel(other), name)
            file = pathlib.Path(one, name)
            self.assertEqual(file.read_bytes(), pathlib.Path(other, name).read_bytes())
            with zipfile.ZipFile(file) as wheel:
                self.look_at({place: wheel.read(place) for place in wheel.namelist()})

    def look_at(self, files: dict[str, bytes]) -> None:
        self.assertEqual(files["misere/libmisere.so.1"], (top / "library/libmisere.so.1").read_bytes())
        for file in (top / "library/misere").glob("*.*"):
            self.assertEqual(files[f"misere/{file.name}"], file.read_bytes())
        self.assertEqual(sum(it.endswith(".mqp") for it in files), len(list((top / "atlas/infinite").glob("*.mqp"))))
        whole = [*(top / "atlas/whole").glob("*.mqw"), *(top / "certificates").glob("*.mqw")]
        self.assertEqual({it for it in files if it.endswith(".mqw")}, {f"misere/atlas/whole/{it.name}" for it in whole})
        self.assertEqual(files["misere/atlas/whole/0.26.mqw"], (top / "certificates/0.26.mqw").read_bytes())
        for name in ("octal.json", "hexadecimal.json", "parts.json", "infinite/0.354_heaps_5.mqp"):
            self.assertEqual(files[f"misere/atlas/{name}"], (top / "atlas" / name).read_bytes())
        licences = {place.rpartition("/")[2]: text for place, text in files.items() if "LICENSE-" in place}
        self.assertEqual(licences, {name: (top / name).read_bytes() for name in ("LICENSE-MIT", "LICENSE-APACHE")})
        metadata = next(text for place, text in files.items() if place.endswith("/METADATA")).decode()
        self.assertNotRegex(metadata, r"\]\((?![a-z]+:)")
        record = next(place for place in files if place.endswith("/RECORD"))
        listed = [line.split(",") for line in files[record].decode().splitlines()]
        self.assertEqual([place for place, _, _ in listed], list(files))
        for place, told, size in listed[:-1]:
            digest = base64.urlsafe_b64encode(hashlib.sha256(files[place]).digest()).rstrip(b"=").decode()
            self.assertEqual((told, int(size)), (f"sha256={digest}", len(files[place])), place)
