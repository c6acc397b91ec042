"""Checks and searches of the program beside those of others, in one run.

Two programs can be compared with it, neither of which is part of this repository:

    CHECKER check FILE --limit N    prints a verdict on a full certificate in the first format
    SOLVER solve CODE --heaps M     prints the certificate of a code, after looking at M heaps at most
"""

from __future__ import annotations

import pathlib
import tempfile
from collections.abc import Iterable, Iterator, Sequence
from dataclasses import dataclass

from certificate_lines import words_of
from runs import best_in_turn, run

# Octal codes whose quotients have at most 256 elements, by how long a check takes
CODES = ["0.15", "0.77", "0.044", "0.3333333333333333", "0.423333", "0.3171", "0.7777777777777777"]
# How many pairs a check may keep, and how many heaps a search may look at
MOST_PAIRS, MOST_HEAPS = 1_000_000, 1_400
# Times below this, in seconds, make no ratio
SHORT = 0.0003
# How often each command is run
TURNS = 15
OTHERS = """
## Beside other programs

What one could take instead, if a proof weren't wanted: a checker and a solver written in Rust for speed, by somebody
who knows the subject. Neither is proved, published, or part of this repository. The checker reads full certificates of
octal games with at most 256 elements alone. Each command was run {runs} times, in turn with the other program's. Times
are the processor's, in milliseconds, without the start of the program. The ratio says how many times as long the proved
program takes.
"""
CHECKS = """
{checks}
"""
SEARCHES = """
`misere solve` has what it finds checked by the proved checker, and this is in its time.

{searches}
"""


@dataclass(frozen=True)
class Pair:
    """What two programs print, and how long they take without their starts, in seconds of the processor."""

    printed: tuple[bytes, bytes]
    ours: float
    theirs: float

    @property
    def cells(self) -> list[str]:
        """Both times in milliseconds, and how many times as long ours is."""
        has_ratio = min(self.ours, self.theirs) >= SHORT
        ratio = f"{self.ours / self.theirs:.1f}" if has_ratio else ""
        return [f"{1e3 * self.ours:,.1f}", f"{1e3 * self.theirs:,.1f}", ratio]


def pair_of(ours: Sequence[str], theirs: Sequence[str]) -> Pair:
    """Runs two commands in turn, each beside a run of its program that ends at once."""
    starts = [[ours[0], "--version"], [theirs[0]]]
    made = best_in_turn([ours, theirs, *starts], TURNS)
    long = [max(0.0, it.seconds - start.seconds) for it, start in zip(made, made[2:])]
    return Pair((made[0].printed, made[1].printed), long[0], long[1])


def certificates(program: str) -> Iterator[tuple[str, bytes]]:
    """The certificate of each code, as the program finds it."""
    for code in CODES:
        yield code, run([program, "solve", code, "--deep"]).printed


def row_of_texts(code: str, text: bytes, pair: Pair) -> list[str]:
    same = "the same" if pair.printed[0] == pair.printed[1] else "**another**"
    return [f"`{code}`", words_of(text.decode())["order"], f"{len(text):,}", *pair.cells, same]


def checks(program: str, checker: str, folder: str) -> Iterator[list[str]]:
    """A row for each check by both programs."""
    yield ["Code", "Order", "Bytes", "`misere check`", "The other checker", "Ratio", "Verdict"]
    for code, text in certificates(program):
        file = pathlib.Path(folder, "it.mqc")
        file.write_bytes(text)
        words = ["check", str(file), "--limit", str(MOST_PAIRS)]
        yield row_of_texts(code, text, pair_of([program, *words], [checker, *words]))


def searches(program: str, solver: str) -> Iterator[list[str]]:
    """A row for each search by both programs."""
    yield ["Code", "Order", "Bytes", "`misere solve --deep`", "The other solver", "Ratio", "Certificate"]
    for code, text in certificates(program):
        theirs = [solver, "solve", code, "--heaps", str(MOST_HEAPS)]
        yield row_of_texts(code, text, pair_of([program, "solve", code, "--deep"], theirs))


def table(rows: Iterable[list[str]]) -> str:
    """A table of a page, of which the first row has the heads."""
    heads, *rest = rows
    return "\n".join(f"| {' | '.join(row)} |" for row in (heads, ["---"] * len(heads), *rest))


def beside(program: str, checker: str | None, solver: str | None) -> str:
    """The part of a page that compares, empty if there is nothing to compare with."""
    parts = [OTHERS.format(runs=TURNS)] if checker or solver else []
    if checker:
        with tempfile.TemporaryDirectory() as folder:
            parts.append(CHECKS.format(checks=table(checks(program, checker, folder))))
    if solver:
        parts.append(SEARCHES.format(searches=table(searches(program, solver))))
    return "".join(parts)
