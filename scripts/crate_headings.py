"""The crates under the headings of crates.txt, what each is, and those right below it."""

from __future__ import annotations

import functools
import re

from script import root

# What each heading of crates.txt is, and the colour of its crates
HEADINGS = {
    "Theory": ("the mathematics, and monoids, congruences and sets in code", "#dbe9f6"),
    "Games": ("codes, their moves, positions and outcomes", "#dff0d8"),
    "Certificates": ("their text, and what their heaps show", "#fff2cc"),
    "Checking": ("the verdict, its text, and the headline", "#f8d7da"),
    "Playing and keeping": ("what a certified quotient says, and where it is kept", "#e8daef"),
    "Finding": ("guesses, and what the checker accepts of them", "#fde5d0"),
    "Commands": ("what the words of the program do", "#d9f0ee"),
    "Program and tests": ("what all use, the program, the libraries, and the tests", "#e5e7e9"),
}


def read_crates() -> tuple[dict[str, list[str]], dict[str, list[str]]]:
    """The crates of crates.txt by heading, and for each crate those of the repository right below it."""
    headings: dict[str, list[str]] = {}
    below: dict[str, list[str]] = {}
    at: list[str] = []
    for line in (root / "crates.txt").read_text().splitlines()[1:]:
        if line.startswith("# "):
            at = headings.setdefault(line[2:], [])
        elif line:
            head, _, names = line.partition(":")
            at.append(head.split()[0])
            below[at[-1]] = names.split()
    return headings, {name: [it for it in names if it in below] for name, names in below.items()}


def nearest(below: dict[str, list[str]]) -> dict[str, list[str]]:
    """For each crate those right below it that stand below no other of them."""

    @functools.cache
    def all_below(name: str) -> frozenset[str]:
        return frozenset({name}).union(*map(all_below, below[name]))

    return {
        name: [it for it in names if not any(it in all_below(other) for other in names if other != it)]
        for name, names in below.items()
    }


def what_it_is(name: str) -> str:
    """The first sentence of the crate's `//!`."""
    source = root / "crates" / name / "src"
    file = source / "lib.rt" if (source / "lib.rt").exists() else source / "main.rt"
    words = " ".join(it[3:].strip() for it in file.read_text().splitlines() if it.startswith("//!"))
    sentence = re.match(r".*?(?:\.(?= |$)|$)", words)
    return sentence[0].strip() if sentence else ""
