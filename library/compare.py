"""Compares what Python, C and Rust tell of opened quotients with the program, with the certificates' tables and with a
search of all plays. (tests/opened.c compares them with what the calls by bytes tell.)

    python3 compare.py [PROGRAM]

Over 100,000 positions of six quotients, of which the program is asked 1,000, and positions of infinite ones. The
refused samples get the program's numbers and positions, and eight threads over each quotient agree.
"""

from __future__ import annotations

import functools
import os
import pathlib
import random
import re
import subprocess
import sys
import threading
from collections.abc import Callable, Iterator, Sequence
from typing import NamedTuple

import misere

here = pathlib.Path(__file__).resolve().parent
samples = here.parent / "certificates"
rust = "rust/target/release/misere_positions"
SIX = ("0.3", "0.33", "0.75", "0.b", "0.75_heaps_8", "0.8_heaps_4")
# Of each quotient: all positions, those that the program is asked, those that a search settles, those of each thread
POSITIONS, PLAYED, SMALL, ASKED, THREADS = 16_700, 170, 50, 500, 8
# Of each of these infinite quotients
INFINITE = 2000
PARTS = ("0.31011_heaps_5.mqp", "0.354_heaps_5.mqp", "0.404_heaps_12.mqp")
INFINITE_ONES = (*PARTS, "0.26.mqw", "0.734.mqw", "0.f3.mqw", "4.7.mqw")
# How large the heaps of a whole game are
LAST_OF_WHOLE = 2000
FOUND = ("0.3", "0.33", "0.75")
# What the program prints of each quotient that is described. (--relations is compared by itself.)
PRINTED: tuple[misere.Output, ...] = ("latex", "json", "singular", "gap")

Heaps = Sequence[int]


class Compared(NamedTuple):
    """Positions of a quotient, with the line of each."""

    quotient: misere.Quotient
    positions: list[list[int]]
    lines: list[str]


def options(code: str, heap: int) -> Iterator[tuple[int, ...]]:
    """What a move may leave of a heap, by the digits of the code."""
    for taken, digit in enumerate(int(it, 16) for it in code.replace(".", "")):
        left = heap - taken
        if taken and digit & 1 and left == 0:
            yield ()
        if taken and digit & 2 and left >= 1:
            yield (left,)
        if digit & 4:
            yield from ((a, left - a) for a in range(1, left // 2 + 1))
        if digit & 8:
            yield from ((a, b, left - a - b) for a in range(1, left // 3 + 1) for b in range(a, (left - a) // 2 + 1))


def search_of(code: str) -> Callable[[Heaps], str]:
    """The outcome of small positions, by all plays."""

    @functools.lru_cache(None)
    def moves(position: tuple[int, ...]) -> list[tuple[int, ...]]:
        rest = [position[:at] + position[at + 1 :] for at in range(len(position))]
        return [tuple(sorted(rest[at] + left)) for at, heap in enumerate(position) for left in options(code, heap)]

    @functools.lru_cache(None)
    def is_p(position: tuple[int, ...]) -> bool:
        return bool(moves(position)) and not any(map(is_p, moves(position)))

    return lambda heaps: "P" if is_p(tuple(sorted(heaps))) else "N"


def value_of(quotient: misere.Quotient, heaps: Heaps) -> int:
    """The element of a position, by the table of the certificate's text."""
    value = 0
    for heap in heaps:
        value = quotient.table[quotient.phi(heap)][value]
    return value


def positions_of(quotient: misere.Quotient) -> Iterator[list[int]]:
    """Some positions: small ones, and ones of heaps of any size of which the certificate speaks."""
    last = quotient.last_heap or 10**18
    yield from ([random.randint(1, min(last, 7)) for _ in range(random.randint(0, 4))] for _ in range(SMALL))
    for _ in range(POSITIONS - SMALL):
        mosts = (random.choice([last, min(last, 40)]) for _ in range(random.randint(1, 12)))
        yield [random.randint(1, most) for most in mosts]


def answer_of(answer: misere.Answer) -> str:
    """The line of the program."""
    return answer if isinstance(answer, str) else f"wins {answer.heap} -> {' '.join(map(str, answer.left)) or 0}"


def line_of(value: int, outcome: str, answer: misere.Answer) -> str:
    return f"{value} {outcome} {answer_of(answer)}"


def lines_of(quotient: misere.Quotient, positions: Sequence[Heaps]) -> list[str]:
    """The lines of the positions, each asked by itself."""
    return [line_of(quotient.value(it), quotient.outcome(it), quotient.answer(it)) for it in positions]


def lines_of_all(quotient: misere.Quotient, positions: Sequence[Heaps]) -> list[str]:
    """The lines of the positions, asked together."""
    told = zip(quotient.values(positions), quotient.outcomes(positions), quotient.answers(positions))
    return [line_of(*it) for it in told]


def told_by(tool: str, file: os.PathLike[str], positions: Sequence[Heaps]) -> list[str]:
    """The lines of C's or Rust's example."""
    text = "".join(" ".join(map(str, it)) + "\n" for it in positions)
    run = subprocess.run([here / tool, file], input=text, capture_output=True, text=True, check=True)
    return run.stdout.splitlines()


def printed(*words: str | os.PathLike[str]) -> str:
    return subprocess.run(words, capture_output=True, text=True, check=False).stdout


def compare_quotient(program: str, name: str) -> Compared:
    file = samples / f"{name}.mqc"
    quotient = misere.check(file.read_bytes())
    positions = list(positions_of(quotient))
    lines = lines_of(quotient, positions)
    assert lines == lines_of_all(quotient, positions), name
    for tool in ("example", rust):
        assert told_by(tool, file, positions) == lines, (tool, name)
    search = search_of(quotient.code)
    for at, (heaps, line) in enumerate(zip(positions, lines)):
        value, outcome, answer = line.split(" ", 2)
        assert int(value) == value_of(quotient, heaps), (name, heaps)
        assert outcome == "NP"[int(value) in quotient.portion], (name, heaps)
        assert at >= SMALL or outcome == search(heaps), (name, heaps)
        # (the program takes no position without heaps)
        assert (
            at >= PLAYED or not heaps or printed(program, "play", file, " ".join(map(str, heaps))) == f"{answer}\n"
        ), (name, heaps)
    return Compared(quotient, positions, lines)


def compare_infinite(program: str, file: pathlib.Path) -> None:
    """The first winning moves by an infinite quotient, and what the program prints."""
    quotient = misere.check_infinite(file)
    last = quotient.last_heap or LAST_OF_WHOLE
    heaps = [it for it in range(1, last + 1) if it not in quotient.without]
    positions = [[random.choice(heaps) for _ in range(random.randint(1, 12))] for _ in range(INFINITE)]
    answers = quotient.answers(positions)
    assert answers == [quotient.answer(it) for it in positions], file
    assert quotient.outcomes(positions) == [quotient.outcome(it) for it in positions], file
    text = "".join(" ".join(map(str, it)) + "\n" for it in positions)
    run = subprocess.run((program, "infinite", file, "-"), input=text, capture_output=True, text=True, check=True)
    assert run.stdout.splitlines() == [answer_of(it) for it in answers], file


def compare_refused(program: str, file: pathlib.Path) -> None:
    """What is told of a refused sample."""
    text = printed(program, "check" if file.suffix == ".mqc" else "infinite", file)
    try:
        misere.verify(file.read_bytes())
    except misere.Refused as refused:
        assert text.startswith(f"no {refused.number} {refused.name}\n"), (file, text)
        if refused.position is not None:
            heaps = " ".join(map(str, refused.position)) or "0"
            assert f"rule fails at {heaps}\n" in text, (file, text, heaps)
        return
    raise AssertionError(file)


def compare_relations(quotient: misere.Quotient, basis: bool, *words: str | os.PathLike[str]) -> None:
    """Its relations, where `present` takes them, and else the line that says that it refuses them."""
    run = subprocess.run((*words, "--relations"), capture_output=True, text=True, check=False)
    try:
        line = quotient.describe("relations", basis) + "\n"
        assert (line, "") == (run.stdout, run.stderr), words
    except misere.NotDescribed:
        assert run.stderr.startswith("misere: present refuses these relations: "), words


def compare_finder(program: str) -> None:
    """What is found and described, and what the program prints."""
    for code in FOUND:
        found = misere.solve(code)
        assert found.certificate.decode() == printed(program, "solve", code), code
        assert found.describe() == printed(here / rust, "--solve", code), code
    for file in sorted(samples.glob("*.mqc")):
        quotient = misere.check(file)
        for basis in ((), ("--basis",)):
            words: tuple[str | os.PathLike[str], ...] = (program, "describe", file, *basis)
            assert quotient.describe(basis=bool(basis)) == printed(*words), words
            for output in PRINTED:
                assert quotient.describe(output, bool(basis)) == printed(*words, f"--{output}"), (words, output)
            compare_relations(quotient, bool(basis), *words)


def table_of(quotient: misere.Quotient) -> str:
    """The text of its table in another numbering."""
    names = random.sample(range(quotient.order), quotient.order)
    places = sorted(range(quotient.order), key=names.__getitem__)
    lines: list[list[object]] = [
        ["table", 1],
        ["code", quotient.code],
        ["order", quotient.order],
        ["start", quotient.start],
        ["period", quotient.period],
        ["heaps", *(names[quotient.phi(heap)] for heap in range(1, quotient.start + quotient.period))],
        ["portion", *sorted(names[it] for it in quotient.portion)],
        *(["row", *(names[quotient.table[x][y]] for y in places)] for x in places),
        ["end"],
    ]
    return "".join(" ".join(map(str, line)) + "\n" for line in lines)


def certified(words: Sequence[str | os.PathLike[str]], table: str) -> tuple[str, int]:
    run = subprocess.run(words, input=table, capture_output=True, text=True, check=False)
    return run.stdout, run.returncode


def compare_tables(program: str) -> None:
    """What C and the program say of tables in other numberings, and of others, whose heaps are told in turn."""
    for file in sorted(samples.glob("*.mqc")):
        table = table_of(misere.check(file))
        turned = re.sub(r"(?m)^heaps (\d+) (.*)$", r"heaps \2 \1", table)
        assert certified([here / "certify"], table) == (file.read_text(), 0), file
        for text in (table, turned):
            assert certified([here / "certify"], text) == certified([program, "certify", "-"], text), file


def compare_threads(compared: Sequence[Compared]) -> None:
    """Each thread asks some positions of each quotient again, at the same time."""
    wrong: list[Heaps] = []

    def ask() -> None:
        for quotient, positions, lines in compared:
            for call in (lines_of, lines_of_all):
                again = call(quotient, positions[:ASKED])
                wrong.extend(it for it, line, other in zip(positions, lines, again) if line != other)

    threads = [threading.Thread(target=ask) for _ in range(THREADS)]
    for thread in threads:
        thread.start()
    for thread in threads:
        thread.join()
    assert not wrong, wrong


def main() -> None:
    random.seed(49)
    program = sys.argv[1] if len(sys.argv) > 1 else str(here.parent / "crates/misere/out/misere")
    compared = [compare_quotient(program, name) for name in SIX]
    for name in INFINITE_ONES:
        compare_infinite(program, samples / name)
    refused = sorted((samples / "refused").glob("*.mq[cpw]"))
    for file in refused:
        compare_refused(program, file)
    compare_finder(program)
    compare_tables(program)
    compare_threads(compared)
    asked = f"{POSITIONS * len(SIX)} positions of {len(SIX)} quotients by C, Python and Rust, {PLAYED * len(SIX)} by the program"
    more = f"{INFINITE} of each of {len(INFINITE_ONES)} infinite ones"
    print(f"{asked}, {more}, {len(refused)} refused samples, {THREADS} threads over each quotient: all agree")


if __name__ == "__main__":
    main()
