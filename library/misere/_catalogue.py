"""Catalogues of certificates, such as those of the atlas, of finite quotients and of infinite ones."""

from __future__ import annotations

import json
import os
import pathlib
from collections.abc import Iterable, Iterator, Mapping
from typing import Any, TypeVar, Union

from . import _certificate
from ._asked import Asked
from ._bounds import LIMIT
from ._faults import TEXT, Absent, Refused
from ._infinite import InfiniteQuotient
from ._names import code_of
from ._quotient import Quotient

ATLAS = ("octal.json", "hexadecimal.json", "parts.json")
# A code or a name; or a code with the last heap of a partial certificate, which is 0 of a full one
Key = Union[str, "tuple[str, int]"]
Texts = dict["tuple[str, int]", str]
Kinds = dict[str, int]
Kept = TypeVar("Kept", bound=Asked)


class _Kept(Mapping[Key, Kept]):
    """Certificates by their codes and last heaps, each of which is checked when it is asked for."""

    def __init__(self, texts: Texts, kinds: Kinds) -> None:
        """Of texts, and of the last heap of that which a code alone means."""
        self._texts, self._kinds = texts, kinds
        self._furthest = _furthest_of(texts)

    def certificate(self, key: Key) -> str:
        """The text of a certificate, which nobody has checked yet."""
        code, heaps = (key, None) if isinstance(key, str) else key
        code = code_of(code)
        if heaps is None:
            heaps = self._kinds.get(code, 0)
        if (code, heaps) not in self._texts:
            raise Absent(0, f"the catalogue has no entry of {key!r}")
        return self._texts[code, heaps]

    def furthest(self, code: str) -> Kept:
        """The quotient of a code or a name that speaks of the most heaps: the full one if there is one."""
        plain = code_of(code)
        return self[plain, self._furthest[plain]] if plain in self._furthest else self[code]

    def __iter__(self) -> Iterator[str]:
        """The codes, each once."""
        return iter(self._kinds)

    def __len__(self) -> int:
        return len(self._kinds)

    def __contains__(self, key: object) -> bool:
        try:
            self.certificate(key)  # type: ignore[arg-type]
        except (Absent, TypeError, ValueError):
            return False
        return True

    def __repr__(self) -> str:
        return f"<catalogue of {len(self)} codes>"


class Catalogue(_Kept[Quotient]):
    """The quotients of a catalogue file, such as `misere catalogue FILE --add` writes, or without a path those of the
    atlas. A certificate is checked when its quotient is asked for, and nothing is believed of the file.

    catalogue["0.77"] is the quotient of a code, the full one where there is one, else the partial one of the most heaps;
    catalogue["Kayles"] that of a name; catalogue["0.07", 24] that of the heaps to 24. So catalogue["0.07"] is the part to
    heap 33, as on the page for browsers. What isn't there raises Absent, a KeyError."""

    def __init__(self, path: str | os.PathLike[str] | None = None, limit: int = LIMIT) -> None:
        texts: Texts = {}
        for file in [pathlib.Path(path)] if path is not None else [_atlas() / name for name in ATLAS]:
            texts.update(_entries_of(file))
        super().__init__(texts, _furthest_of(texts))
        self._limit = limit

    def __getitem__(self, key: Key) -> Quotient:
        return Quotient(self.certificate(key), self._limit)


class InfiniteCatalogue(_Kept[InfiniteQuotient]):
    """The quotients of a folder of presentations, NAME.mqp each, and of texts of whole games, NAME.mqw; or without a path
    the infinite ones of the atlas. (Those of whole games of four digits are in the repository alone.)

    catalogue["0.26"] is that of the whole game, and catalogue["0.07"] or catalogue["Dawson's Kayles"], where there is none,
    that of the fewest heaps. catalogue.furthest("0.07") is that of the most, and catalogue["0.07", 34] that of the heaps
    to 34: of several the one that leaves out the fewest. Each is checked when it is asked for: those of the most heaps take
    minutes, all of them the check's."""

    def __init__(self, path: str | os.PathLike[str] | None = None) -> None:
        texts = _infinite_of(_infinite_files() if path is None else sorted(pathlib.Path(path).glob("*.mq[pw]")))
        kinds: Kinds = {}
        for code, heaps in sorted(texts):
            kinds.setdefault(code, heaps)
        super().__init__(texts, kinds)

    def __getitem__(self, key: Key) -> InfiniteQuotient:
        return InfiniteQuotient(self.certificate(key))


def _infinite_files() -> list[pathlib.Path]:
    """Where the atlas has infinite quotients, of parts and of whole games. Those of some whole games are samples, which
    stand beside the atlas, or in it where it is installed."""
    atlas = _atlas()
    games = atlas / "whole", atlas / "whole/further", atlas.parent / "certificates"
    return sorted([*(atlas / "infinite").glob("*.mqp"), *(file for it in games for file in it.glob("*.mqw"))])


def _infinite_of(files: Iterable[pathlib.Path]) -> Texts:
    """The certificates of files, by what their texts say."""
    texts: dict[tuple[str, int], tuple[int, str]] = {}
    for file in files:
        try:
            text = file.read_text("ascii")
            part = _certificate.read_part(text)
        except (ValueError, KeyError, IndexError):
            raise Refused(TEXT, f"{file} is no certificate") from None
        entry, left_out = (part.code, part.last_heap or 0), len(part.without)
        if entry not in texts or left_out < texts[entry][0]:
            texts[entry] = (left_out, text)
    return {entry: text for entry, (_, text) in texts.items()}


def _furthest_of(keys: Iterable[tuple[str, int]]) -> Kinds:
    """Of each code the kind that speaks of the most heaps: the full one, else that of the largest last heap."""
    furthest: Kinds = {}
    for code, heaps in keys:
        known = furthest.setdefault(code, heaps)
        furthest[code] = 0 if 0 in (heaps, known) else max(heaps, known)
    return furthest


def _entries_of(file: pathlib.Path) -> dict[tuple[str, int], str]:
    """The certificates of a file, by their codes and last heaps."""
    try:
        read: Any = json.loads(file.read_bytes())
        return {(it["code"], int(it.get("heaps", 0))): str(it["certificate"]) for it in read["entries"]}
    except (ValueError, KeyError, TypeError, AttributeError):
        raise Refused(TEXT, f"{file} is no catalogue") from None


def _atlas() -> pathlib.Path:
    """The folder of the atlas: in the package, as in a wheel; at the top, as in the sources; or where the package of the
    system or a prefix has it."""
    package = pathlib.Path(__file__).resolve().parent
    places = [package / "atlas", package.parents[1] / "atlas", *(it / "share/misere/atlas" for it in package.parents)]
    found = next((it for it in places if all((it / name).is_file() for name in ATLAS)), None)
    if found is None:
        raise FileNotFoundError(f"the atlas is in none of {', '.join(map(str, places[:3]))}; name a catalogue's file")
    return found
