"""What the runs of four_digits say: each kind of codes with its accepted certificates, the table, and the summary."""

from __future__ import annotations

import collections
import functools
import pathlib
import subprocess
import sys
from collections.abc import Callable, Iterable, Iterator
from concurrent.futures import ThreadPoolExecutor
from dataclasses import dataclass, field
from typing import Any

from atlas_page import CATALOGUES, Entry, entries_of, groups_of, row
from certificate_lines import heaps_of, is_presentation, left_out, letters_of, place_of, relations_of, words_of
from game_kinds import renamed
from runs import Runs
from script import load, root

IN_ATLAS = ("0.d", "0.dd", "0.ddd", "4.d", "4.dd")
SHAPES = (*IN_ATLAS, "0.dddd", "4.ddd")
HEADS = "code codes outcome order portion start period heaps without letters relations".split()
HEADS += "seconds accepted others whole".split()
LAST_HEAPS = [(1, 9), (10, 19), (20, 29), (30, 49), (50, 99), (100, 1023), (1024, 1024)]
OUT_OF_SECONDS = "out of seconds"


def shape_of(code: str) -> str:
    first, digits = code.split(".")
    return f"{first}.{'d' * len(digits)}"


def is_short(code: str) -> bool:
    """Whether the atlas has an entry of the code."""
    return shape_of(code) in IN_ATLAS


def outcome_of(text: str | None) -> str:
    if text is None:
        return "neither"
    return "infinite" if is_presentation(text) else "part" if heaps_of(text) else "full"


@functools.cache
def whole_codes() -> frozenset[str]:
    """The codes of whole games with an infinite quotient, of which a text of the repository tells all outcomes."""
    folders = ("certificates", "atlas/whole", "atlas/whole/further")
    return frozenset(it.stem for folder in folders for it in (root / folder).glob("*.mqw"))


@functools.cache
def normal_codes() -> frozenset[str]:
    """The codes of whole games that are normal play beyond a heap, by scripts/four_tails."""
    lines = (root / "atlas/four_tails.tsv").read_text().splitlines()[1:]
    return frozenset(line.split("\t")[0] for line in lines)


def period_of(text: str) -> int:
    return int(words_of(text)["period"])


def order_of(text: str) -> int:
    return int(words_of(text)["order"])


@dataclass
class Kind:
    """A kind of codes: the seconds of the searches of its first one, the certificates of its codes that are to be
    checked, and those that are accepted."""

    codes: list[str]
    seconds: float
    candidates: dict[str, str]
    accepted: dict[str, str] = field(default_factory=dict)

    @property
    def first(self) -> str:
        return self.codes[0]

    @property
    def text(self) -> str | None:
        return self.accepted.get(self.first)

    @property
    def outcome(self) -> str:
        return outcome_of(self.text)

    @property
    def last(self) -> int:
        """The last heap of a part, or of an infinite one."""
        assert self.text
        return heaps_of(self.text)

    def cells(self) -> list[str]:
        """Its line in the table."""
        found = dict.fromkeys(HEADS, "")
        found |= {"code": self.first, "codes": str(len(self.codes)), "outcome": self.outcome}
        found |= {"seconds": f"{self.seconds:.1f}", "accepted": str(len(self.accepted))}
        found["others"] = " ".join(code if code in self.accepted else f"({code})" for code in self.codes[1:])
        found["whole"] = str(sum(code in whole_codes() for code in self.codes) or "")
        if self.text:
            words = words_of(self.text)
            found["portion"] = str(len(words["portion"].split()))
            if self.outcome == "full":
                found |= {"start": words["start"], "period": words["period"]}
            else:
                found["heaps"] = str(self.last)
            if self.outcome == "infinite":
                found |= {"letters": str(letters_of(self.text)), "relations": str(relations_of(self.text))}
                found["without"] = " ".join(map(str, left_out(self.text)))
            else:
                found["order"] = words["order"]
        return [found[name] for name in HEADS]


def kind_of(codes: list[str], texts: dict[str, str], seconds: float) -> Kind:
    """A kind with the certificates that were found; an infinite one is that of its other codes, too."""
    kind = Kind(codes, seconds, {code: texts[code] for code in codes if code in texts})
    infinite = next((text for text in kind.candidates.values() if is_presentation(text)), None)
    for code in codes if infinite else []:
        if outcome_of(kind.candidates.get(code)) in ("neither", "part"):
            assert infinite
            own = renamed(infinite, code)
            kind.candidates |= {code: own} if own else {}
    return kind


def check(program: str, jobs: int, kinds: list[Kind], folder: str) -> None:
    """Has the program check each certificate."""
    runs = Runs()

    def is_accepted(code: str, text: str) -> bool:
        file = pathlib.Path(folder, f"{code}.{'mqp' if is_presentation(text) else 'mqc'}")
        file.write_text(text)
        run = runs.run([program, "infinite" if is_presentation(text) else "check", str(file)])
        if run.status:
            print(f"four_digits: {code} isn't accepted: {run.line}", file=sys.stderr, flush=True)
        return run.status == 0 and words_of(text)["code"] == code

    asked = [(kind, code, text) for kind in kinds for code, text in kind.candidates.items()]
    with ThreadPoolExecutor(jobs) as pool:
        for (kind, code, text), is_so in zip(asked, pool.map(lambda it: is_accepted(*it[1:]), asked)):
            if is_so:
                kind.accepted[code] = text


def table_of(heads: Iterable[str], rows: Iterable[Iterable[Any]]) -> Iterator[str]:
    heads = list(heads)
    yield row(heads)
    yield "|---" * len(heads) + "|"
    yield from map(row, rows)
    yield ""


def named(codes: Iterable[str]) -> str:
    """The first of codes."""
    return f"`{min(codes, key=lambda code: (not is_short(code), place_of(code)))}`"


class Monoids:
    """The classes of isomorphic full quotients, each as the codes that have it: those of four digits and the atlas's
    ones. They are made by the page's own search, and compared by the program as scripts/classes_stand does."""

    def __init__(self, program: str, full: dict[str, str], folder: str) -> None:
        stand = load(root / "scripts/classes_stand", "classes_stand")
        atlas = [it for name in CATALOGUES for it in entries_of(root, name) if not it.heaps]
        self.in_atlas = {it.code for it in atlas}
        more = [Entry({"code": it, "heaps": 0, "certificate": full[it]}) for it in full if it not in self.in_atlas]
        groups = groups_of([*atlas, *more])
        files = [pathlib.Path(folder, f"{at}.mqc") for at, _ in enumerate(groups)]
        quotients = [stand.Quotient(group[0], file) for group, file in zip(groups, files)]
        numbers = load(root / "web/page/isomorphism.py", "isomorphism").classes_of(
            [(it.rows, it.portion) for it in quotients]
        )
        self.classes: dict[int, list[str]] = collections.defaultdict(list)
        for number, group in zip(numbers, groups):
            self.classes[number] += [it.code for it in group]
        self.number = {code: number for number, codes in self.classes.items() for code in codes}
        version = subprocess.run([program, "--version"], capture_output=True, text=True, check=False)
        # (another program has no --version)
        self.by = version.stdout.strip() if version.returncode == 0 else ""
        self.pairs = list(stand.pairs_of(quotients, numbers)) if self.by else []
        with ThreadPoolExecutor() as pool:
            well = list(pool.map(lambda pair: stand.stands(program, *pair), self.pairs))
        self.stands = all(well)

    @property
    def new(self) -> list[list[str]]:
        """The classes that no code of the atlas has."""
        return [codes for codes in self.classes.values() if not self.in_atlas.intersection(codes)]

    def count(self, codes: Iterable[str]) -> tuple[int, int]:
        """How many classes some codes have, and how many of these are new."""
        those = {self.number[code] for code in codes}
        return len(those), sum(not self.in_atlas.intersection(self.classes[it]) for it in those)


class Summary:
    """What the table says in all. A code counts for what a certificate of its own shows."""

    def __init__(
        self, kinds: list[Kind], lines: list[dict[str, Any]], left: dict[str, int], monoids: Monoids, machine: str
    ) -> None:
        self.kinds, self.lines, self.left, self.monoids, self.machine = kinds, lines, left, monoids, machine
        self.texts = {code: text for kind in kinds for code, text in kind.accepted.items()}
        self.full = full_of(kinds)
        self.infinite = {code: text for code, text in self.texts.items() if is_presentation(text)}

    def families(self) -> Iterator[str]:
        """How many codes of each shape have a full quotient, or none, or neither is known."""
        codes = [code for kind in self.kinds for code in kind.codes]
        new = [(f"`{shape}`", (shape,)) for shape in SHAPES if shape not in IN_ATLAS]
        sides = [("shorter", IN_ATLAS), *new, ("all", SHAPES)]
        found = (self.full, whole_codes(), self.infinite, normal_codes())
        rows = []
        for name, shapes in sides:
            those = [code for code in codes if shape_of(code) in shapes]
            counts = [sum(code in it for code in those) for it in found]
            rows.append([name, *(f"{it:,}" for it in (len(those), *counts, len(those) - sum(counts)))])
        heads = ["In all", "A full quotient", "None: all outcomes are known", "None: a part has an infinite one"]
        yield from table_of(["Codes", *heads, "Normal play beyond a heap", "Not known"], rows)

    def orders(self) -> Iterator[str]:
        """The full quotients by order."""
        groups: dict[int, list[str]] = collections.defaultdict(list)
        for code, text in self.full.items():
            groups[order_of(text)].append(code)
        rows = []
        for order, codes in sorted(groups.items()):
            periods = sorted({period_of(self.full[code]) for code in codes})
            count, new = self.monoids.count(codes)
            long = sum(not is_short(code) for code in codes)
            rows.append([order, len(codes), long, count, new or "", named(codes), " ".join(map(str, periods))])
        heads = ["Order", "Codes", "Not of the atlas", "Monoids", "New", "The first", "Periods"]
        yield from table_of(heads, rows)

    def shapes(self) -> Iterator[str]:
        """The infinite quotients by generators and relations."""
        groups: dict[tuple[int, int], list[Kind]] = collections.defaultdict(list)
        for kind in self.kinds:
            if kind.outcome == "infinite":
                assert kind.text
                groups[letters_of(kind.text), relations_of(kind.text)].append(kind)
        rows = []
        for (letters, relations), those in sorted(groups.items()):
            codes = [code for kind in those for code in kind.accepted]
            heaps = " ".join(str(it) for it in sorted({kind.last for kind in those}))
            long = sum(not is_short(code) for code in codes)
            rows.append([letters, relations, len(codes), long, named(codes), heaps])
        heads = ["Generators", "Relations", "Codes", "Not of the atlas", "The first", "Last heaps of first codes"]
        yield from table_of(heads, rows)

    def parts(self) -> Iterator[str]:
        """How far the kinds go of which neither is known."""
        those = [kind for kind in self.kinds if kind.outcome == "part"]
        rows = []
        for least, most in LAST_HEAPS:
            them = [kind for kind in those if least <= kind.last <= most]
            if them:
                heaps = f"{least} to {most}" if least < most else least
                rows.append([heaps, len(them), sum(len(it.codes) for it in them), named(it.first for it in them)])
        if those:
            yield from table_of(["Last heap", "Kinds", "Codes of these", "The first"], rows)
        left = [kind for kind in self.kinds if kind.outcome == "neither"]
        if left:
            count = sum(len(kind.codes) for kind in left)
            yield f"No part is listed of the other {len(left):,} kinds, {count:,} codes."
            yield ""

    def greatest(self, name: str, value: Callable[[str], int]) -> str:
        """The greatest period or order of new kinds, beside that of the atlas."""

        def told(codes: list[str]) -> str:
            most = max((value(self.full[code]) for code in codes), default=0)
            return f"{most:,} ({named(it for it in codes if value(self.full[it]) == most)})" if codes else "none"

        new = [code for kind in self.new_kinds for code in kind.codes if code in self.full]
        return (
            f"- The {name} of them is {told(new)}; of the atlas it is {told([it for it in self.full if is_short(it)])}."
        )

    @property
    def new_kinds(self) -> list[Kind]:
        """The kinds without a code of the atlas."""
        return [kind for kind in self.kinds if not is_short(kind.first)]

    def news(self) -> Iterator[str]:
        """What no shorter code has."""
        infinite = [kind for kind in self.new_kinds if kind.outcome == "infinite"]
        full = [kind for kind in self.new_kinds if kind.outcome == "full"]
        yield f"{len(self.new_kinds):,} kinds are *new*: they have no code of the atlas. Of these {len(full):,} have a"
        yield f"full quotient, and {len(infinite):,} no finite one."
        yield ""
        yield self.greatest("longest period", period_of)
        yield self.greatest("largest order", order_of)
        yield f"- {len(self.monoids.new)} bipartite monoids of full quotients are new, up to isomorphism."
        if infinite:
            least, first = (
                min(infinite, key=key) for key in (lambda it: relations_of(it.text or ""), lambda it: it.last)
            )
            fewest = relations_of(least.text or "")
            yield f"- The fewest relations of an infinite one are {fewest}, of `{least.first}` to heap {least.last}. The"
            yield f"  fewest heaps are those of `{first.first}`, to heap {first.last}."
        yield ""

    def made(self) -> Iterator[str]:
        """How the searches were bounded."""
        steps: dict[str, list[dict[str, Any]]] = collections.defaultdict(list)
        for line in self.lines:
            steps[line["step"]].append(line)
        rows = []
        for step, left in self.left.items():
            them = steps[step]
            bounds = " ".join(f"{it} s" for it in sorted({line["bound"] for line in them}))
            found = sum(bool(line["certificate"]) for line in them)
            cut = sum(line["why"] == OUT_OF_SECONDS for line in them)
            by = ", ".join(sorted({line["by"] for line in them}))
            seconds = f"{sum(it['seconds'] for it in them):,.0f}"
            rows.append([step, by, f"{len(them):,}", f"{found:,}", bounds, f"{cut:,}", f"{left:,}", seconds])
        heads = ["Step", "By", "Searches", "Found", "Each at most", "Ended by that", "Not made yet", "Seconds in all"]
        yield from table_of(heads, rows)
        taken = collections.Counter(line["by"] for line in steps["atlas"])
        told = [f"{count:,} codes have a certificate of {by}." for by, count in taken.items()]
        yield f"The seconds are those of one processor, {self.machine}. {' '.join(told)}"
        if self.monoids.by:
            yield f"Each certificate that counts was accepted by {self.monoids.by}, which compared the monoids, too."
        else:
            yield "**The proved program has checked no certificate that isn't the atlas's**, and compared no monoids:"
            yield "other programs did."
        yield ""

    def text(self) -> str:
        count = sum(len(kind.codes) for kind in self.kinds)
        parts = (self.families, self.news, self.orders, self.shapes, self.parts, self.made)
        told = f"{count:,} codes are of {len(self.kinds):,} kinds."
        lines = [told, "", *(line for part in parts for line in part())]
        return "\n".join(lines).rstrip("\n") + "\n"


def full_of(kinds: list[Kind]) -> dict[str, str]:
    """The accepted full certificates, by code."""
    texts = {code: text for kind in kinds for code, text in kind.accepted.items()}
    return {code: text for code, text in texts.items() if outcome_of(text) == "full"}


def atlas_texts() -> dict[str, str]:
    """The full certificates of the atlas and its infinite presentations by code; of those of a code the shortest."""
    found = {it.code: it.certificate for name in CATALOGUES for it in entries_of(root, name) if not it.heaps}
    for file in sorted((root / "atlas/infinite").glob("*.mqp"), key=lambda it: -it.stat().st_size):
        found[file.name.split("_")[0]] = file.read_text()
    return found


def table_text(kinds: list[Kind]) -> str:
    """The table: a line for each kind, with tabs between."""
    return "".join("\t".join(cells) + "\n" for cells in [HEADS, *(kind.cells() for kind in kinds)])
