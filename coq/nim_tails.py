"""Nim tails, for coq/prove: games whose positions with a large heap are lost exactly if their nim sum is 0.

The codes are those of the table of docs/WHOLE.md, and the texts the partial certificates of the atlas's catalogues,
which have none of 0.df that shows its tail. What is found here, Coq tests: the last heap outside the kernel of the
quotient, the kernel's identity, and the element of each bit of nim values.
"""

from __future__ import annotations

import dataclasses
import functools
import json
import re
from collections.abc import Iterator

from theorems import literal
from script import root

TABLE = "| Above heap | Outside | Codes |\n"
CATALOGUES = ("octal", "hexadecimal", "parts")
LARGER = ("0.df",)


def options(digits: list[int], n: int) -> Iterator[tuple[int, ...]]:
    """What moves in a heap leave."""
    for at, digit in enumerate(digits[: n + 1]):
        if digit & 1 and n == at:
            yield ()
        if digit & 2 and n > at:
            yield (n - at,)
        if digit & 4:
            yield from ((one, n - at - one) for one in range(1, n - at))
        if digit & 8:
            yield from ((one, two, n - at - one - two) for one in range(1, n - at) for two in range(1, n - at - one))


def nim_values(digits: list[int], last: int) -> list[int]:
    values = [0]
    for n in range(1, last + 1):
        sums = {functools.reduce(int.__xor__, (values[h] for h in option), 0) for option in options(digits, n)}
        values.append(next(value for value in range(len(sums) + 1) if value not in sums))
    return values


@dataclasses.dataclass(frozen=True)
class Tail:
    """A partial certificate of a code."""

    code: str
    text: bytes

    needs = ("NimValues", "NimTails")

    @property
    def name(self) -> str:
        return "tail_" + self.code.replace(".", "_")

    @property
    def theorem(self) -> str:
        return self.name

    @property
    def digits(self) -> list[int]:
        return [int(digit, 16) for digit in self.code.replace(".", "")]

    def numbers(self, name: str) -> list[list[int]]:
        """The numbers of the lines with a name."""
        lines = re.findall(rf"^{name} (.*)$", self.text.decode(), re.M)
        return [[int(word) for word in line.split(" ")] for line in lines]

    def line(self, name: str, otherwise: str) -> str:
        found = re.search(rf"^{name} (.*)$", self.text.decode(), re.M)
        return found[1] if found else otherwise

    def kernel(self) -> tuple[int, int, list[int]]:
        """The last heap outside the kernel, the kernel's identity, and the elements of the bits of nim values."""
        rows, phi = self.numbers("row"), self.numbers("phi")[0]
        ideal = min((set(row) for row in rows), key=len)
        e = next(x for x in ideal if rows[x][x] == x)
        last = max(heap for heap, x in enumerate(phi, 1) if x not in ideal)
        elements = {0: e}
        for value, x in zip(nim_values(self.digits, len(phi))[1:], phi):
            if value not in elements:
                elements |= {value ^ other: rows[y][rows[x][e]] for other, y in elements.items()}
        return last, e, [elements[1 << bit] for bit in range((len(elements) - 1).bit_length())]

    def source(self) -> str:
        """The text, and the theorem."""
        last, e, basis = self.kernel()
        code = f"[{'; '.join(map(str, self.digits))}]"
        found = f"{code} {last} {e} [{'; '.join(map(str, basis))}]"
        return (
            f"\nDefinition text_of_{self.name} : text := {literal(self.text)}.\n\n"
            f"Theorem {self.theorem} : forall X, is_position Whole X -> (exists n, In n X /\\ {last} < n) ->\n"
            f"  (isP {code} X <-> nim_sum_of (nim {code}) X = 0).\n"
            f"Proof. apply (has_tail_right text_of_{self.name} {found}). vm_cast_no_check (eq_refl true). Time Qed.\n"
        )


def codes() -> list[str]:
    """The codes that have a tail by the atlas's certificates, in the order of the table."""
    page = (root / "docs/WHOLE.md").read_text()
    rows = page[page.index(TABLE) + len(TABLE) :].split("\n\n")[0]
    return [code for code in re.findall(r"`(\S+)`", rows) if code not in LARGER]


def tails() -> list[Tail]:
    """The tail of each of these codes."""
    texts = {
        entry["code"]: entry["certificate"].encode()
        for name in CATALOGUES
        for entry in json.loads((root / f"atlas/{name}.json").read_text())["entries"]
        if entry["heaps"]
    }
    return [Tail(code, texts[code]) for code in codes()]
