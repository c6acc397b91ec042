"""Kinds of octal codes, whose heaps play alike, and a presentation under the name of another code of its kind."""

from __future__ import annotations

import collections
from collections.abc import Iterable

from certificate_lines import words_of

LOOKED, COMPARED = 40, 28  # heaps whose options are made, and how many different ones make a kind


class Games:
    """The heaps of octal codes as games: a number for each, which those with the same options share. A heap without a
    move has 0."""

    def __init__(self) -> None:
        self.numbers: dict[frozenset[tuple[int, ...]], int] = {frozenset(): 0}

    def heaps(self, code: str, last: int = LOOKED) -> list[int]:
        """The numbers of the heaps 0 to the last."""
        first, digits = code.split(".")
        takes = [(at, int(digit)) for at, digit in enumerate(first + digits) if digit != "0"]
        found = [0]
        for n in range(1, last + 1):
            options: set[tuple[int, ...]] = set()
            for taken, digit in takes:
                rest = n - taken
                if rest == 0 and digit & 1:
                    options.add(())
                if rest > 0 and taken and digit & 2:
                    options.add((found[rest],) if found[rest] else ())
                if rest > 1 and digit & 4:
                    for one in range(1, rest // 2 + 1):
                        options.add(tuple(sorted(it for it in (found[one], found[rest - one]) if it)))
            found.append(self.numbers.setdefault(frozenset(options), len(self.numbers)))
        return found


def kinds_of(codes: Iterable[str]) -> list[list[str]]:
    """The codes by kind. Two are of a kind if their first different heaps are the same games, in the same order; heaps
    without a move don't count."""
    games = Games()
    groups: dict[tuple[int, ...], list[str]] = collections.defaultdict(list)
    for code in codes:
        groups[tuple(it for it in dict.fromkeys(games.heaps(code)) if it)[:COMPARED]].append(code)
    return list(groups.values())


class Renaming:
    """The heaps of a presentation, and those of another code that are the same games."""

    def __init__(self, text: str, code: str) -> None:
        self.words = words_of(text)["words"].split()
        games, last = Games(), len(self.words) + len(code)
        self.own, self.others = (games.heaps(it, last) for it in (words_of(text)["code"], code))
        self.said: dict[int, int] = {}  # of each game that has a word, its first heap
        for heap, word in enumerate(self.words, 1):
            if word != "-" and self.own[heap]:
                self.said.setdefault(self.own[heap], heap)
        self.firsts = {game: self.others.index(game) for game in self.said if game in self.others}
        self.code, self.last = code, max(self.firsts.values(), default=0)

    @property
    def has_all(self) -> bool:
        return len(self.firsts) == len(self.said)

    def heap(self, heap: str) -> int:
        """The other code's heap; KeyError for one without a move."""
        return self.firsts[self.own[int(heap)]]

    def word(self, game: int) -> str:
        """The word of a heap: of one without a move it is 1, and one of another game is left out."""
        return self.words[self.said[game] - 1] if game in self.said else "-" if game else "1"

    def line(self, line: str) -> str:
        """A line of the presentation under the other name."""
        name, *words = line.split(" ")
        if name == "code":
            words = [self.code]
        elif name == "heaps":
            words = [str(self.last)]
        elif name == "letters":
            words = [str(self.heap(heap)) for heap in words]
        elif name == "words":
            words = [self.word(game) for game in self.others[1 : self.last + 1]]
        return " ".join([name, *words])


def renamed(text: str, code: str) -> str | None:
    """A presentation under the name of another code of its kind, or None if that hasn't all its heaps. Nothing says that
    it is right; a check does."""
    it = Renaming(text, code)
    try:
        return "".join(f"{it.line(line)}\n" for line in text.splitlines()) if it.has_all else None
    except KeyError:
        return None
