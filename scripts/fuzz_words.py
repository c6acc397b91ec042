"""Command lines for scripts/fuzz: some that are written here, and others of what the program's own --help names."""

from __future__ import annotations

import random
import re
from collections.abc import Iterator

from fuzz_texts import CODES, POSITIONS, PRESENTATIONS, word
from help_lines import Commands, Option

Words = list[bytes]

LIMITS = [b"1", b"3", b"100000", b"1000000"]
HEAPS = [b"0", b"1", b"2", b"8", b"1024", b"1025", b"02", b""]
# What an argument or an option takes, by the name of its value in the help
VALUES = {
    "CERT": [b"x.mqc"],
    "CODE": [*CODES, b"-"],
    "FILE": [*[b"x.mqc"] * 6, b"-", b"nowhere"],
    "POSITION": [*POSITIONS, b"-"],
    "SCRIPT": [b"steps.txt"],
    "TEXT": PRESENTATIONS,
}
# So many command lines of what the help names are tried beside those that are written here
LINES = 6
# The most that a search is asked for, since a longer one takes more than a run may; and the commands that search
MOST_OF_A_SEARCH = 16
# A number above it is out of each range that a longer search has
LARGEST = 10_000
SEARCHES = ("solve", "series")


def values_of(command: str, name: str, about: str) -> list[bytes]:
    """The words that an argument or an option is given: those of its name, or numbers at the ends of its range and
    beyond."""
    if name == "FILE" and command == "catalogue":
        return [b"x.json", b"nowhere"]
    if name in VALUES:
        return VALUES[name]
    ends = [int(it) for pair in re.findall(r"(\d+) to (\d+)", about) for it in pair]
    numbers = {it + more for it in ends for more in (-1, 0, 1)} | {2, 3, 8, 16}
    if command in SEARCHES and ends:
        numbers = {it for it in numbers if not MOST_OF_A_SEARCH < it <= max(ends)}
    return [b"%d" % it for it in sorted(numbers)]


def changed(command: str, values: Words, chance: random.Random) -> bytes:
    """One of the values, changed or not, but in a search to no number that asks for more than a run may take."""
    value = word(values, chance)
    is_long = value.isdigit() and value not in values and MOST_OF_A_SEARCH < int(value) <= LARGEST
    return b"%d" % MOST_OF_A_SEARCH if command in SEARCHES and is_long else value


def words_of(command: str, option: Option, chance: random.Random) -> Words:
    """An option with its value, as two words or as one."""
    name = b"--" + option.name.encode()
    if not option.value:
        return [name]
    value = changed(command, values_of(command, option.value, option.about), chance)
    return [name + b"=" + value] if chance.randrange(8) == 0 else [name, value]


def line(commands: Commands, chance: random.Random) -> Words:
    """A command line of what the help names, and sometimes with a word that is changed, left out or doubled."""
    name = chance.choice(sorted(commands))
    command = commands[name]
    parts = [words_of(name, it, chance) for it in command.own if chance.randrange(3) == 0]
    for argument, about in command.arguments:
        if argument in command.needs or chance.randrange(2):
            for _ in range(chance.choice((1, 1, 2, 3)) if argument in command.repeated else 1):
                parts.insert(chance.randrange(len(parts) + 1), [word(values_of(name, argument, about), chance)])
    if [b"--infinite"] in parts:
        # its work is bounded, and may take minutes
        parts = [it for it in parts if not it[0].startswith(b"--heaps")] + [[b"--heaps", b"5"]]
    words = [name.encode(), *(it for part in parts for it in part)]
    heads: list[Words] = [words[:1]] * 30 + [[], [b"--help"], [b"--version"], [b"help", *words[:1]]]
    words[:1] = chance.choice(heads)
    if words and chance.randrange(4) == 0:
        at, kind = chance.randrange(len(words)), chance.randrange(3)
        instead: list[Words] = [[], words[at : at + 1] * 2, [changed(name, [words[at]], chance)]]
        words[at : at + 1] = instead[kind]
    return words


def lines_of(words: Words, chance: random.Random) -> bytes:
    """Some of the words, each on a line; the last may have no LF."""
    lines = b"".join(word(words, chance) + b"\n" for _ in range(chance.randrange(6)))
    return lines if chance.randrange(2) else lines[:-1]


def stdin_of(text: bytes, chance: random.Random) -> bytes:
    """What stands on standard input: a certificate, positions or codes."""
    kind = chance.randrange(4)
    if kind < 2:
        return text
    return lines_of(POSITIONS if kind == 2 else CODES, chance)


def tries(commands: Commands, chance: random.Random, text: bytes) -> Iterator[tuple[Words, bytes]]:
    """The words of a run, and what stands on standard input."""
    yield [b"check"], text
    yield [b"check", b"x.mqc", b"--limit", word(LIMITS, chance)], b""
    yield [b"show", b"x.mqc"], b""
    yield [b"describe", b"x.mqc", *chance.sample([b"--latex", b"--basis", b"--relations"], chance.randrange(3))], b""
    yield [b"play", b"x.mqc", word(POSITIONS, chance)], b""
    yield [b"play", b"x.mqc", b"-"], lines_of(POSITIONS, chance)
    yield [b"compare", b"x.mqc", word([b"x.mqc", b"-", b"nowhere"], chance)], text
    yield [b"certify", word([b"x.mqc", b"-", b"nowhere"], chance)], text
    yield [b"explain", word([b"x.mqc", b"-", b"nowhere"], chance)], text
    yield [b"infinite", b"x.mqp"], b""
    yield [b"infinite", b"x.mqp", word(POSITIONS, chance)], b""
    yield [b"infinite", b"x.mqp", b"-"], lines_of(POSITIONS, chance)
    yield [b"infinite", b"x.mqp", b"--show", *chance.sample([b"--latex", b"--json"], chance.randrange(3))], b""
    yield [b"verify", word([b"x.mqc", b"x.mqw", b"-"], chance)], text
    yield [b"verify", b"x.mqp", b"--limit", word(LIMITS, chance)], b""
    yield [b"tail", b"x.mqc"], b""
    given = [b"x.mqc", b"x.mqw", b"x.mqp"]
    yield [b"value", word(given, chance), word(POSITIONS, chance)], b""
    yield [b"apart", word(given, chance), word(POSITIONS, chance), word(POSITIONS, chance)], b""
    yield [b"play", word(given, chance), word(POSITIONS, chance), *chance.sample([b"--all"], chance.randrange(2))], b""
    yield [word([b"show", b"describe", b"infinite", b"explain"], chance), b"x.mqw"], b""
    yield [b"present", word(PRESENTATIONS, chance)], b""
    yield [b"solve", word(CODES, chance), b"--heaps", b"12", b"--rounds", b"2"], b""
    yield [b"solve", *(word(CODES, chance) for _ in range(3)), b"--heaps", b"12", b"--rounds", b"2"], b""
    yield [b"solve", b"-", b"--heaps", b"12", b"--rounds", b"2"], lines_of(CODES, chance)
    yield [b"solve", word(CODES, chance), b"--any", b"--order", b"8", b"--rounds", b"2"], b""
    yield [b"series", word(CODES, chance), b"--order", b"12", b"--heaps", b"6"], b""
    yield [b"solve", word(CODES, chance), b"--infinite", b"--heaps", b"5"], b""
    yield [b"solve", word(CODES, chance), b"--infinite", b"--presented", b"--heaps", b"5"], b""
    yield [b"catalogue", b"x.json"], b""
    yield [b"catalogue", b"x.json", b"--table", *chance.sample([b"--json"], chance.randrange(2))], b""
    yield [b"catalogue", b"x.json", b"--get", word(CODES, chance)], b""
    yield [b"catalogue", b"x.json", b"--get", word(CODES, chance), b"--heaps", word(HEAPS, chance)], b""
    yield [b"catalogue", b"x.json", b"--migrate"], b""
    yield [b"catalogue", b"x.json", b"--add", b"x.mqc"], b""
    yield [b"catalogue", b"x.json", b"--new"], b""
    yield [b"catalogue", b"x.json", b"--new", b"--add", b"x.mqc"], b""
    yield [b"catalogue", b"x.json", b"--salvage"], b""
    yield [b"desk", b"steps.txt"], b""
    for _ in range(LINES):
        yield line(commands, chance), stdin_of(text, chance)
