"""The crates and what they are made of: which of them are as they were built, by sums of their sources.

Beside what scripts/build makes of a crate it writes a record: the sum of the crate's sources, the sum of what was made,
and, of a program, the sums of the libraries that it was built over, and that of all sources that it stands on. A
library's own `format` says over which libraries it was built. So a copied clone, or one with sources as another
checkout has them, is known for what it is, whatever the times of its files. Where no record stands, as behind `rt ci`,
times decide, or whoever says that the libraries are those of their sources.
"""

from __future__ import annotations

import hashlib
import json
import pathlib
from collections.abc import Iterable, Iterator
from dataclasses import asdict, dataclass, field

from script import root

PARTS = ("src", "specs", "proofs")
STATIC = ("misere_library", "solve_library", "infinite_library")
PROGRAMS = ("misere", "misere_check", *STATIC)


def folder_of(name: str) -> pathlib.Path:
    return root / "crates" / name


def out_of(name: str) -> pathlib.Path:
    return folder_of(name) / "out"


def target_of(program: str) -> pathlib.Path:
    """The file that is built in the end."""
    return out_of(program) / (f"lib{program}.a" if program in STATIC else program)


def files_of(name: str) -> Iterator[pathlib.Path]:
    """The sources of a crate, in one order."""
    for part in PARTS:
        yield from sorted(it for it in (folder_of(name) / part).rglob("*") if it.is_file())


def changed(name: str) -> float:
    """When a source of the crate changed last."""
    return max(it.stat().st_mtime for it in files_of(name))


def made(file: pathlib.Path) -> float:
    return file.stat().st_mtime if file.exists() else 0


def read_lines() -> dict[str, str]:
    """The line of each crate in crates.txt, without a comment."""
    lines = (line.partition("#")[0].strip() for line in (root / "crates.txt").read_text().splitlines())
    return {line.split()[0].rstrip(":"): line for line in lines if ":" in line}


def read_crates() -> dict[str, list[str]]:
    """Each crate with the crates right below it."""
    lines = read_lines()
    below = {name: line.partition(":")[2].split() for name, line in lines.items()}
    return {name: [it for it in names if it in below] for name, names in below.items()}


def stood_on(below: dict[str, list[str]], *programs: str) -> dict[str, list[str]]:
    """The programs and all crates that they stand on, lowest first."""
    found: dict[str, list[str]] = {}

    def visit(name: str) -> None:
        for it in below[name]:
            if it not in found:
                visit(it)
        found.setdefault(name, below[name])

    for program in programs:
        visit(program)
    return found


def sum_of_file(file: pathlib.Path) -> str:
    return hashlib.sha256(file.read_bytes()).hexdigest() if file.is_file() else ""


def sum_of_all(sums: Iterable[str]) -> str:
    return hashlib.sha256("\n".join(sums).encode()).hexdigest()


@dataclass
class Record:
    """What stands beside something that was built."""

    sources: str
    made: str
    all: str = ""
    over: dict[str, str] = field(default_factory=dict)


class Sources:
    """The crates that programs stand on, and which of them are as they were built."""

    def __init__(self, *programs: str) -> None:
        self.programs, self.lines = programs, read_lines()
        self.crates = stood_on(read_crates(), *programs)

    def below(self, name: str) -> list[str]:
        """The crates that a crate stands on, lowest first."""
        return [it for it in stood_on(self.crates, name) if it != name]

    def libraries(self) -> list[str]:
        """The crates that aren't programs."""
        return [it for it in self.crates if it not in self.programs]

    def made_of(self, name: str) -> pathlib.Path:
        """The file that stands, and tells all of it, where the crate is built: the program, or the format of a library,
        which holds its sum."""
        return target_of(name) if name in self.programs else out_of(name) / f"rlib/{name}.rlib/format"

    def record_of(self, name: str) -> pathlib.Path:
        return out_of(name) / ("sources" if name in self.programs else "rlib/sources")

    def sum_of(self, name: str) -> str:
        """The sum of a crate's own sources, and of its line in crates.txt."""
        total = hashlib.sha256(self.lines[name].encode())
        for file in files_of(name):
            text = file.read_bytes()
            total.update(f"\n{file.relative_to(root)} {len(text)}\n".encode())
            total.update(text)
        return total.hexdigest()

    def read(self, name: str) -> Record | None:
        """The record of what stands there, if there is one; none that is of something else, as where rt was called by
        hand."""
        try:
            record = Record(**json.loads(self.record_of(name).read_text()))
        except (OSError, ValueError, TypeError):
            return None
        return record if record.made == sum_of_file(self.made_of(name)) else None

    def built_below(self, program: str) -> dict[str, str]:
        """The sums of the libraries that stand below a program now."""
        return {it: sum_of_file(self.made_of(it)) for it in self.below(program)}

    def write(self, name: str, sources: str) -> None:
        """Writes beside what was built of which sources it was."""
        record = Record(sources, sum_of_file(self.made_of(name)))
        if name in self.programs:
            records = {it: self.read(it) for it in self.below(name)}
            record.over = self.built_below(name)
            record.all = sum_of_all([*((it.sources if it else "") for it in records.values()), sources])
        self.put(name, record)

    def renew(self) -> None:
        """Notes of which sources programs are now that stand over libraries that came out as they were."""
        for program in self.programs:
            if record := self.read(program):
                self.write(program, record.sources)

    def put(self, name: str, record: Record) -> None:
        """Writes a record, where that can be done."""
        try:
            self.record_of(name).write_text(json.dumps(asdict(record), indent=1, sort_keys=True) + "\n")
        except OSError:
            pass

    def over(self, name: str, record: Record | None) -> dict[str, str]:
        """The sums of the libraries over which something was built."""
        if name in self.programs:
            return record.over if record else {}
        lines = (line.split() for line in self.made_of(name).read_text(errors="replace").splitlines())
        return {line[1]: line[2] for line in lines if line[:1] == ["over"] and len(line) == 3}

    def fits(self, name: str, record: Record | None) -> bool:
        """Whether what was built stands over the libraries that are there now."""
        over = self.over(name, record)
        return all(over.get(it) == sum_of_file(self.made_of(it)) for it in self.below(name))

    def is_as_built(self, name: str) -> bool:
        """Whether a crate is built of its sources as they are, over the libraries that are there."""
        record = self.read(name)
        if not self.made_of(name).is_file():
            return False
        if record:
            return record.sources == self.sum_of(name) and self.fits(name, record)
        if name in self.programs:
            return self.is_newer(name)
        return changed(name) <= made(out_of(name) / "rlib/stamp") and self.fits(name, None)

    def is_newer(self, program: str) -> bool:
        """Whether a program is newer than all its sources: what is looked at where no record stands."""
        return made(self.made_of(program)) >= max(changed(it) for it in stood_on(self.crates, program))

    def program_stands(self, program: str) -> bool:
        """Whether a program is as all sources that it stands on are. Where times alone say so, it is recorded."""
        record, file = self.read(program), self.made_of(program)
        if not file.is_file():
            return False
        sums = {it: self.sum_of(it) for it in stood_on(self.crates, program)}
        if record:
            return record.all == sum_of_all(sums.values())
        if stands := self.is_newer(program):
            for name in sums:
                self.stands(name)
            told = Record(sums[program], sum_of_file(file), sum_of_all(sums.values()), self.built_below(program))
            self.put(program, told)
        return stands

    def stands(self, name: str) -> bool:
        """Whether a crate is as it was built; where times alone say so of a library, it is recorded."""
        stands = self.is_as_built(name)
        if stands and name not in self.programs and not self.read(name):
            self.write(name, self.sum_of(name))
        return stands

    def take(self) -> None:
        """Records the libraries that are there as made of their sources."""
        for name in self.libraries():
            if self.made_of(name).is_file():
                self.write(name, self.sum_of(name))

    def changed_crates(self) -> list[str]:
        """The crates whose sources are others than those that were built."""
        records = {name: self.read(name) for name in self.crates}
        return [name for name, record in records.items() if record and record.sources != self.sum_of(name)]

    def newest_file(self, names: Iterable[str]) -> pathlib.Path:
        """The file of these crates that changed last, by its time."""
        files = (file for name in names for file in files_of(name))
        return max(files, key=lambda it: it.stat().st_mtime).relative_to(root)
