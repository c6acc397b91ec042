"""The page of the atlas: what atlas/page.md says, with the tables and descriptions that its lines in braces name, out
of the catalogues and of `misere describe`."""

from __future__ import annotations

import collections
import json
import os
import pathlib
import re
import subprocess
import sys
import tempfile
from collections.abc import Iterable, Iterator
from concurrent.futures import ThreadPoolExecutor
from typing import Any

sys.dont_write_bytecode = True
from certificate_lines import LARGEST_ORDER, LARGEST_PART, is_hexadecimal, place_of, words_of

CATALOGUES = ("octal", "hexadecimal")
# The catalogue of further parts: the families of its codes, two more of them, and how long its texts are at most
PARTS, FAMILIES_OF_PARTS, MORE_WITH_PARTS, LONGEST_OF_PARTS = "parts", ("0.d", "0.dd"), ("0.007", "0.137"), 1 << 16
HEADS = ("Code", "Order", "Portion", "Period", "Generators", "Tame or wild", "The same quotient")


class Entry:
    """An entry of a catalogue, and what describes it once that is asked for."""

    def __init__(self, entry: dict[str, Any]) -> None:
        self.code: str = entry["code"]
        self.heaps: int = entry["heaps"]
        self.certificate: str = entry["certificate"]
        # what follows the lines of the format and the code
        self.quotient = self.certificate.split("\n", 2)[2]
        self.words = words_of(self.certificate)
        self.order, self.portion = int(self.words["order"]), len(self.words["portion"].split())
        self.description = ""

    @property
    def period(self) -> str:
        """The period and its start, or the last heap."""
        return f"heaps to {self.heaps}" if self.heaps else f"{self.words['period']} from {self.words['start']}"

    @property
    def line(self) -> str:
        """The line with which a catalogue lists it."""
        end = f"heaps {self.heaps}" if self.heaps else f"start {self.words['start']} period {self.words['period']}"
        return f"{self.code} order {self.order} {end}"

    @property
    def family(self) -> str:
        """The shape of the code, such as `0.dd`, where d stands for an octal digit and h for a hexadecimal one."""
        first, digits = self.code.split(".")
        return f"{first}.{('h' if is_hexadecimal(self.code) else 'd') * len(digits)}"

    def described(self, name: str) -> list[str] | None:
        """The words of a line of the description, or None where the quotient isn't described."""
        line = next((line for line in self.description.splitlines() if line.split(" ")[0] == name), None)
        return line.split(" ")[1:] if line else None

    @property
    def kind(self) -> str:
        """Tame with its number, or wild."""
        words = self.described("order")
        return " ".join(words[3:]) if words else ""

    @property
    def generators(self) -> str:
        """The first heap of each generator."""
        words = self.described("generators")
        return " ".join(word.split("=")[1] for word in words) if words else ""


def entries_of(root: pathlib.Path, name: str) -> list[Entry]:
    return [Entry(entry) for entry in json.loads((root / f"atlas/{name}.json").read_text())["entries"]]


def tails_of(root: pathlib.Path) -> dict[str, int]:
    """Beyond which heap the whole game of a code is normal play, by the table of WHOLE, which tails_stand compares."""
    rows = re.findall(r"^\| (\d+) \| \d+ \| (`.*`) \|$", (root / "docs/WHOLE.md").read_text(), re.M)
    return {code: int(heap) for heap, codes in rows for code in re.findall(r"`([^`]*)`", codes)}


def whole_of(root: pathlib.Path) -> dict[str, str]:
    """The text of each whole game with a ruling heap, by its code."""
    files = sorted([*root.glob("atlas/whole/*.mqw"), *root.glob("certificates/*.mqw")])
    return {it.stem: it.read_text() for it in files}


def partial_of(root: pathlib.Path) -> dict[str, Entry]:
    """The entry of each code that has a partial one in place of a full one."""
    return {it.code: it for name in CATALOGUES for it in entries_of(root, name) if it.heaps}


def codes_of_parts(partial: dict[str, Entry]) -> list[str]:
    """The codes of which the catalogue of parts has one, if it goes further and its text isn't too long."""
    return [it.code for it in partial.values() if it.family in FAMILIES_OF_PARTS or it.code in MORE_WITH_PARTS]


def is_further(partial: dict[str, Entry], code: str, heaps: int, certificate: str) -> bool:
    """Whether a certificate belongs into the catalogue of parts."""
    goes_on = code in partial and heaps > partial[code].heaps
    return goes_on and code in codes_of_parts(partial) and len(certificate) <= LONGEST_OF_PARTS


def describe(program: str, entries: Iterable[Entry]) -> None:
    """Asks the program for the description of each entry, of as many side by side as there are processors."""

    def described(entry: Entry) -> None:
        with tempfile.NamedTemporaryFile("w", suffix=".mqc") as file:
            file.write(entry.certificate)
            file.flush()
            run = subprocess.run([program, "describe", file.name], capture_output=True, text=True, check=False)
        if run.returncode not in (0, 1) or (run.returncode == 1 and not run.stdout.startswith("not described")):
            sys.exit(f"describe of {entry.code} ends with status {run.returncode}: {run.stdout}{run.stderr}")
        entry.description = run.stdout

    with ThreadPoolExecutor(len(os.sched_getaffinity(0))) as pool:
        list(pool.map(described, entries))


def groups_of(entries: Iterable[Entry]) -> list[list[Entry]]:
    """The entries by quotient, in their order: octal codes first."""
    groups: dict[str, list[Entry]] = collections.defaultdict(list)
    for entry in entries:
        groups[entry.quotient].append(entry)
    return list(groups.values())


def row(cells: Iterable[Any]) -> str:
    return f"| {' | '.join(str(cell) for cell in cells)} |"


def quotient_row(group: list[Entry]) -> str:
    """The row of a quotient: its first code, what it is, and the other codes that have it."""
    first, *others = group
    same = " ".join(f"`{it.code}`" for it in others)
    return row([f"`{first.code}`", first.order, first.portion, first.period, first.generators, first.kind, same])


class Page:
    """What the lines in braces stand for, over all entries of the atlas."""

    def __init__(self, root: pathlib.Path, program: str) -> None:
        self.root, self.program = root, program
        self.entries = [entry for name in CATALOGUES for entry in entries_of(root, name)]
        self.groups = groups_of(self.entries)
        describe(program, [group[0] for group in self.groups])
        for group in self.groups:
            for entry in group:
                entry.description = entry.description or group[0].description

    def families(self) -> Iterator[str]:
        """A row for each family: its codes, how many have a full quotient, tame or wild, and a partial one, and how
        many quotients these are."""
        yield row(["Codes", "In all", "Full", "of these tame", "wild", "Partial", "Different quotients"])
        yield "|---|---|---|---|---|---|---|"
        members: dict[str, list[Entry]] = collections.defaultdict(list)
        for entry in self.entries:
            members[entry.family].append(entry)
        for family, entries in [*members.items(), ("all", self.entries)]:
            full = [entry for entry in entries if entry.heaps == 0]
            tame = sum(entry.kind.startswith("tame") for entry in full)
            wild = sum(entry.kind == "wild" for entry in full)
            name = family if family == "all" else f"`{family}`"
            quotients = len({entry.quotient for entry in entries})
            yield row([name, len(entries), len(full), tame, wild, len(entries) - len(full), quotients])

    def table(self, family: str) -> Iterator[str]:
        """The quotients whose first code is of this family: the full ones, and then the partial ones."""
        groups = [group for group in self.groups if group[0].family == family]
        yield row(HEADS)
        yield "|---" * len(HEADS) + "|"
        yield from (quotient_row(group) for group in groups if group[0].heaps == 0)
        yield from (quotient_row(group) for group in groups if group[0].heaps > 0)

    def described(self, code: str) -> Iterator[str]:
        """The description of a code's entry, as the program prints it of the first code with the same quotient, under
        its own code."""
        entry = next(entry for entry in self.entries if entry.code == code)
        yield "```text"
        yield re.sub(r"\AQ(_\d+)?\(\S+\)", rf"Q\1({code})", entry.description).rstrip("\n")
        yield "```"

    def furthest(self, code: str) -> Iterator[str]:
        """How far a code goes with as many elements as a certificate can have, in the words with which a catalogue
        lists it."""
        words = ["solve", code, "--furthest", str(LARGEST_ORDER)]
        found = words_of(subprocess.run([self.program, *words], capture_output=True, text=True, check=True).stdout)
        listed = f"{code} order {found['order']} heaps {int(found['start']) - 1}"
        portion = len(found["portion"].split())
        yield f"`misere {' '.join(words)}` finds `{listed}`, with a portion of {portion}."

    def listed(self, code: str) -> Iterator[str]:
        """A code's entry as a catalogue lists it, full or partial, with its portion."""
        entry = next(entry for entry in self.entries if entry.code == code)
        yield f"`{entry.line}`, with a portion of {entry.portion}."

    def counted(self, line: str) -> str:
        """A line with the counts of entries that it names."""
        full = [entry for entry in self.entries if not entry.heaps]
        counts = {"all": len(self.entries), "full": len(full), "partial": len(self.entries) - len(full)}
        counts["octal"] = sum(not is_hexadecimal(entry.code) for entry in full)
        infinite = {file.name.split("_")[0] for file in (self.root / "atlas/infinite").glob("*.mqp")}
        octal = sum(not is_hexadecimal(code) for code in infinite)
        counts |= {"infinite": len(infinite), "infinite_octal": octal, "infinite_hexadecimal": len(infinite) - octal}
        counts["partial_octal"] = sum(bool(it.heaps) and not is_hexadecimal(it.code) for it in self.entries)
        counts["open_octal"] = counts["partial_octal"] - octal
        return re.sub(r"\{count (\w+)\}", lambda named: f"{counts[named[1]]:,}", line)

    def file(self, name: str) -> Iterator[str]:
        """What a file of the atlas says."""
        yield (self.root / "atlas" / name).read_text().rstrip("\n")

    def parts(self) -> Iterator[str]:
        """The catalogue of further parts, beside how far the atlas goes with few elements."""
        partial = partial_of(self.root)
        yield row(["Code", "Last heap", "Order", "Portion", "With few elements: last heap", "Order"])
        yield "|---|---|---|---|---|---|"
        for it in entries_of(self.root, PARTS):
            yield row([f"`{it.code}`", it.heaps, it.order, it.portion, partial[it.code].heaps, partial[it.code].order])

    def rest(self) -> Iterator[str]:
        """How far the partial quotients go."""
        bounds = [(1, 9), (10, 19), (20, 29), (30, 49), (50, 99), (100, LARGEST_PART - 1), (LARGEST_PART, LARGEST_PART)]
        partial = [entry for entry in self.entries if entry.heaps]
        yield row(["Last heap", "Codes", "The first"])
        yield "|---|---|---|"
        for least, most in bounds:
            codes = [entry.code for entry in partial if least <= entry.heaps <= most]
            if codes:
                yield row(
                    [f"{least} to {most}" if least < most else least, len(codes), f"`{min(codes, key=place_of)}`"]
                )

    def lines(self) -> Iterator[str]:
        """The lines of the page."""
        for line in (self.root / "atlas/page.md").read_text().splitlines():
            named = re.fullmatch(r"\{(families|table|described|furthest|listed|file|parts|rest)(?: (\S+))?\}", line)
            if named:
                yield from getattr(self, named[1])(*([named[2]] if named[2] else []))
            else:
                yield self.counted(line)

    def text(self) -> str:
        return "\n".join(self.lines()) + "\n"
