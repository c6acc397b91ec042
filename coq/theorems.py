"""Coq files with a theorem of each certificate, and what Coq says of them.

Nothing of this is trusted: the bytes, the code and the heaps of which it speaks stand in each theorem, and Coq refuses
one that isn't so.
"""

from __future__ import annotations

import dataclasses
import json
import pathlib
import re
import resource
import subprocess
import sys
from collections.abc import Iterable, Iterator, Sequence
from typing import Protocol

here = pathlib.Path(__file__).resolve().parent
sys.path.insert(0, str(here.parent / "scripts"))

LONGEST_NAME = 40
LETTERS = "abcdefghijklmnopqrstuvwxyz"
CLOSED = "Closed under the global context"
# What a text has, as coq/Faults.v names it; and what coq/PresentedText.v says of a presentation
FAULTS = ("Text", "Law", "Word", "Order", "Period", "Apart", "Outcome")
ANSWERS_OF_PRESENTATIONS = {"Text": "Unspelled", "Law": "Unlawful", "Part": "Leaving"}
# The faults of texts by their files' endings
FAULTS_OF = {".mqp": tuple(ANSWERS_OF_PRESENTATIONS)}


class Stated(Protocol):
    """What has a theorem."""

    @property
    def name(self) -> str:
        ...

    @property
    def text(self) -> bytes:
        ...

    @property
    def needs(self) -> tuple[str, ...]:
        ...

    @property
    def theorem(self) -> str:
        ...

    def line(self, name: str, otherwise: str) -> str:
        ...

    def source(self) -> str:
        ...


@dataclasses.dataclass(frozen=True)
class Text:
    """A text, the name that it has in Coq, and whether the theorem is that it certifies a game, or that it doesn't."""

    name: str
    text: bytes
    right: bool = True
    fault: str = ""  # of a text that is refused, where it is said

    @property
    def needs(self) -> tuple[str, ...]:
        """The files of the theory with what the theorem says, and with what proves it."""
        if self.is_whole:
            return ("WholeText", "Whole")
        if self.is_presentation:
            return ("PresentedText",)
        if self.fault:
            return ("Faults", "Answers")
        return ("Main",) if self.right else ("Converse",)

    @property
    def is_whole(self) -> bool:
        """A text of a whole game: what it shows is who wins, and which positions are indistinguishable."""
        return self.text.startswith(b"mqw ")

    @property
    def is_presentation(self) -> bool:
        """A text of a presentation: what it shows is that generators and relations are the quotient of its heaps."""
        return self.text.startswith(b"mqp ")

    @property
    def is_left_out(self) -> bool:
        """A presentation that the checker of coq/ doesn't take: of a whole game, or in which each power of some letter
        is an element."""
        if self.is_presentation and " " in self.line("heaps", ""):
            return True
        lefts = re.findall(r"^relation ([a-z])(?:\^\d+)? ", self.text.decode("latin-1"), re.M)
        letters = self.line("letters", "").split()
        return self.is_presentation and not set(LETTERS[: len(letters)]) <= set(lefts)

    @property
    def theorem(self) -> str:
        if not self.right:
            return "refused_" + self.name
        if self.is_whole:
            return "whole_" + self.name
        if self.is_presentation:
            return "presentation_" + self.name
        return "quotient_of_" + self.name

    def line(self, name: str, otherwise: str) -> str:
        found = re.search(rf"^{name} (.*)$", self.text.decode("latin-1"), re.M)
        return found[1].strip() if found else otherwise

    @property
    def code(self) -> str:
        return self.line("code", "")

    @property
    def digits(self) -> str:
        return "; ".join(str(int(digit, 16)) for digit in re.sub(r"[^0-9a-f]", "", self.code))

    @property
    def last_heap(self) -> int:
        """0 for a full certificate."""
        if self.is_presentation:
            return number(self.line("heaps", "0"))
        return max(number(self.line("start", "1")) - 1, 0) if self.line("period", "1") == "0" else 0

    def source(self) -> str:
        """The text as Coq has it, and the theorem."""
        text = f"\nDefinition text_of_{self.name} : text := {literal(self.text)}.\n\n"
        if self.is_whole:
            return text + self.source_of_whole()
        if self.is_presentation:
            return text + self.source_of_presentation()
        if self.fault:
            said = f"Theorem {self.theorem} : is_true_of text_of_{self.name} {self.fault}.\n"
            return text + said + f"Proof. apply verdict_right. vm_cast_no_check (eq_refl {self.fault}). Time Qed.\n"
        if not self.right:
            said = f"Theorem {self.theorem} : forall k g, ~ certifies text_of_{self.name} k g.\n"
            return text + said + "Proof. apply refused_right. vm_cast_no_check (eq_refl false). Time Qed.\n"
        kind = f"(UpTo {self.last_heap})" if self.last_heap else "Whole"
        said = f"Theorem {self.theorem} : certifies text_of_{self.name} {kind} [{self.digits}].\n"
        return text + said + "Proof. apply check_sound. vm_cast_no_check (eq_refl true). Time Qed.\n"

    def source_of_presentation(self) -> str:
        """The theorem of a text of a presentation."""
        if self.fault:
            answer = ANSWERS_OF_PRESENTATIONS[self.fault]
            said = f"Theorem {self.theorem} : is_true_of_presentation text_of_{self.name} {answer}.\n"
            return said + f"Proof. apply has_presented_answer. vm_cast_no_check (eq_refl {answer}). Time Qed.\n"
        if not self.right:
            said = f"Theorem {self.theorem} : presented_by text_of_{self.name} = None.\n"
            return said + "Proof. vm_cast_no_check (eq_refl (@None (code * N))). Time Qed.\n"
        game = f"[{self.digits}] {self.last_heap}"
        said = f"Theorem {self.theorem} : presents_it text_of_{self.name} {game}.\n"
        found = f"(eq_refl (Some ([{self.digits}], {self.last_heap})))"
        return said + f"Proof. apply presented_by_right. vm_cast_no_check {found}. Time Qed.\n"

    def source_of_whole(self) -> str:
        """The theorem of a text of a whole game."""
        if self.fault:
            said = f"Theorem {self.theorem} : forall c, ~ spells_whole text_of_{self.name} c.\n"
            return said + "Proof. apply unread_whole. vm_cast_no_check (eq_refl (@None whole)). Time Qed.\n"
        if not self.right:
            said = f"Theorem {self.theorem} : is_solved text_of_{self.name} = false.\n"
            return said + "Proof. vm_cast_no_check (eq_refl false). Time Qed.\n"
        said = f"Theorem {self.theorem} : solves text_of_{self.name} [{self.digits}].\n"
        return said + f"Proof. apply solves_right. vm_cast_no_check (eq_refl (Some [{self.digits}])). Time Qed.\n"


@dataclasses.dataclass(frozen=True)
class Least:
    """A text of a whole game, with the theorem that its start and its period are the least."""

    of: Text

    needs = ("WholeText", "WholeUnique")

    @property
    def name(self) -> str:
        return self.of.name

    @property
    def text(self) -> bytes:
        return self.of.text

    @property
    def theorem(self) -> str:
        return "least_" + self.name

    def line(self, name: str, otherwise: str) -> str:
        return self.of.line(name, otherwise)

    def source(self) -> str:
        """The text as Coq has it, and the theorem."""
        return (
            f"\nDefinition text_of_{self.name} : text := {literal(self.text)}.\n\n"
            f"Theorem {self.theorem} : has_least text_of_{self.name}.\n"
            "Proof. apply test_least_text_right. vm_cast_no_check (eq_refl true). Time Qed.\n"
        )


def number(word: str) -> int:
    """A number of few digits, or 0."""
    return int(word) if re.fullmatch(r"[0-9]{1,9}", word) else 0


def literal(text: bytes) -> str:
    """A literal of Coq; byte by byte where some byte is neither LF nor printable ASCII."""
    if all(byte == 10 or 32 <= byte < 127 for byte in text):
        return '"' + text.decode().replace('"', '""') + '"%text'
    return "text_of_bytes [" + "; ".join(f"x{byte:02x}" for byte in text) + "]"


def name_of(code: str, last_heap: int) -> str:
    """A name for Coq and for a file; of a code that is too long, which no text may have, its first digits."""
    return re.sub(r"\W", "_", code, flags=re.A)[:LONGEST_NAME] + (f"_heaps_{last_heap}" if last_heap else "")


def certificate(text: bytes) -> Text:
    it = Text("", text)
    return Text(name_of(it.code, it.last_heap), text)


def fault_of(file: pathlib.Path) -> str:
    """The fault with which the name of a file begins."""
    begin = file.stem.split("_")[0].capitalize()
    return begin if begin in FAULTS_OF.get(file.suffix, FAULTS) else ""


def in_folder(folder: pathlib.Path, right: bool = True) -> list[Text]:
    """The certificates of a folder, by their files' names, without presentations that Coq doesn't take. Those of refused
    ones begin with their fault. (A presentation that is undecided may be right.)"""
    texts = [
        Text(re.sub(r"\W", "_", file.stem), file.read_bytes(), right, "" if right else fault_of(file))
        for file in sorted(folder.iterdir())
        if file.suffix in (".mqc", ".mqw", ".mqp") and not file.stem.startswith("undecided")
    ]
    return [it for it in texts if not it.is_left_out]


def in_catalogue(file: pathlib.Path) -> list[Text]:
    entries = json.loads(file.read_text())["entries"]
    return [certificate(entry["certificate"].encode()) for entry in entries]


def head_of(texts: Sequence[Stated]) -> str:
    """What a file begins with that has the theorems of these texts."""
    needs = sorted({name for it in texts for name in it.needs})
    return f"From Ravenargent Require Import Text {' '.join(needs)}.\nOpen Scope N_scope.\n"


def source_of(texts: Sequence[Stated]) -> str:
    """A file with the theorems of these texts, at whose end Coq says which axioms they stand on."""
    all_of_them = ",\n  ".join(it.theorem for it in texts)
    told = f"\nDefinition all_of_them := ({all_of_them}).\nPrint Assumptions all_of_them.\n"
    return head_of(texts) + "".join(it.source() for it in texts) + told


def batches(texts: Iterable[Stated], size: int) -> Iterator[list[Stated]]:
    """Texts in turn, about so many bytes together."""
    batch: list[Stated] = []
    for it in texts:
        if batch and sum(len(other.text) for other in batch) + len(it.text) > size:
            yield batch
            batch = []
        batch.append(it)
    if batch:
        yield batch


@dataclasses.dataclass(frozen=True)
class Said:
    """What coqc said of a file: its status, its lines, and the seconds of each Qed."""

    status: int
    lines: str
    seconds: list[float]

    @property
    def is_closed(self) -> bool:
        return self.status == 0 and CLOSED in self.lines

    @property
    def ran_out(self) -> bool:
        """Whether Coq had no end for want of stack or memory, or was ended by a signal."""
        return self.status not in (0, 1) or re.search(r"Stack overflow|Out of memory", self.lines) is not None


def grow_stack() -> None:
    """As much stack as the system gives: Coq reads long literals by recursion."""
    hard = resource.getrlimit(resource.RLIMIT_STACK)[1]
    resource.setrlimit(resource.RLIMIT_STACK, (hard, hard))


def compile_file(file: pathlib.Path) -> Said:
    words = ["coqc", "-q", "-Q", str(here), "Ravenargent", file.name]
    run = subprocess.run(
        words, cwd=file.parent, text=True, stdout=subprocess.PIPE, stderr=subprocess.STDOUT, preexec_fn=grow_stack
    )
    times = re.findall(r"^Finished transaction in [\d.]+ secs \(([\d.]+)u", run.stdout, re.M)
    return Said(run.returncode, run.stdout, [float(time) for time in times])


def prove(name: str, texts: Sequence[Stated], folder: pathlib.Path) -> Said:
    """Writes a file of this name with the theorems of some texts, and has Coq prove it."""
    folder.mkdir(parents=True, exist_ok=True)
    file = folder / f"{name}.v"
    file.write_text(source_of(texts))
    said = compile_file(file)
    for tail in (".vo", ".vok", ".vos", ".glob"):
        file.with_suffix(tail).unlink(missing_ok=True)
    (folder / f".{name}.aux").unlink(missing_ok=True)
    return said
