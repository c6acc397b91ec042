"""Wrong certificates: samples in which one line is changed, each line of them in turn."""

from __future__ import annotations

import pathlib
import re
from collections.abc import Iterator, Sequence

from theorems import Text
from script import root

SAMPLES = [f"certificates/{name}.mqc" for name in ("0.33", "0.75", "0.75_heaps_8", "0.b", "0.77", "0.71")]
WHOLE_SAMPLES = ["certificates/0.26.mqw", "certificates/0.734.mqw", "atlas/whole/0.355.mqw", "certificates/0.f3.mqw"]
PRESENTED_SAMPLES = ["certificates/0.75_heaps_22.mqp"]
COUNT = 200


def bumped(line: str, at: int) -> str:
    """The line with one of its numbers, chosen by `at`, one larger."""
    numbers = list(re.finditer(r"\d+", line))
    if not numbers:
        return line + " 0"
    number = numbers[at % len(numbers)]
    return line[: number.start()] + str(int(number[0]) + 1) + line[number.end() :]


def changes(lines: list[str], at: int) -> Iterator[list[str]]:
    """The lines with number `at` changed in some ways: a number one larger, a number lost, the line lost."""
    before, line, after = lines[:at], lines[at], lines[at + 1 :]
    yield [*before, bumped(line, at), *after]
    yield [*before, *after]
    if " " in line:
        yield [*before, line.rsplit(" ", 1)[0], *after]


def ways_of(file: pathlib.Path) -> list[list[list[str]]]:
    """How each line of a sample is changed. What is said of a whole game may be right of another code too, and a cycle
    of a presentation may begin later, so those lines of such texts are left."""
    lines = file.read_text().splitlines()
    left = {".mqw": "code ", ".mqp": "cycle "}.get(file.suffix, "\n")
    is_left = [line.startswith(left) for line in lines]
    return [[] if is_left[at] else list(changes(lines, at)) for at in range(len(lines))]


def damaged_texts(samples: Sequence[str] = SAMPLES) -> list[Text]:
    """Two hundred of some samples, or as many as there are."""
    made: list[Text] = []
    files = [root / sample for sample in samples]
    rounds = [ways_of(file) for file in files]
    for way in range(3):
        for file, lines in zip(files, rounds):
            for at, ways in enumerate(lines):
                if way < len(ways) and len(made) < COUNT:
                    text = "\n".join(ways[way]) + "\n"
                    told = re.sub(r"\W", "_", file.stem) + f"_line_{at + 1}_{way}"
                    made.append(Text(told, text.encode(), False))
    return made
