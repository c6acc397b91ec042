"""Presentations as certificates: their texts, made of what `misere describe --basis --json` prints, and changed
ones."""

from __future__ import annotations

import json
import random
import re
import subprocess
from dataclasses import dataclass, replace
from typing import Any

Word = tuple[int, ...]
# Digits of codes, one of which a changed text may have in place of another
DIGITS = "01234567"


def exponents(text: str, letters: int) -> Word:
    """The exponents of a word as it is printed."""
    word = [0] * letters
    for letter, exponent in re.findall(r"([a-z])(?:\^(\d+))?", text if text != "1" else ""):
        word[ord(letter) - ord("a")] += int(exponent or 1)
    return tuple(word)


def spelled(word: Word) -> str:
    """The word as it is printed."""
    return "".join(chr(ord("a") + i) + (f"^{n}" if n > 1 else "") for i, n in enumerate(word) if n) or "1"


def rank(word: Word) -> tuple[int, list[int]]:
    """By which words are in order: fewer letters first, and then by the alphabet."""
    return sum(word), [-n for n in word]


def relation_rank(relation: tuple[Word, Word]) -> tuple[int, int, list[int]]:
    """By which relations are: first by the last letter of the left word."""
    left = relation[0]
    return (max((i for i, n in enumerate(left) if n), default=-1), *rank(left))


def divides(left: Word, word: Word) -> bool:
    return all(i <= j for i, j in zip(left, word))


@dataclass(frozen=True)
class Presentation:
    """What a text of a presentation says."""

    code: str
    period: int
    letters: tuple[int, ...]
    words: tuple[Word | None, ...]
    relations: tuple[tuple[Word, Word], ...]
    cycles: tuple[tuple[int, int], ...]
    portion: tuple[Word, ...]

    def text(self) -> str:
        lines = [
            "mqp 1",
            f"code {self.code}",
            f"heaps {len(self.words)}" + (f" period {self.period}" if self.period else ""),
            "letters " + " ".join(map(str, self.letters)),
            "words " + " ".join("-" if it is None else spelled(it) for it in self.words),
            *(f"relation {spelled(left)} {spelled(right)}" for left, right in self.relations),
            "cycle " + " ".join(f"{start}:{period}" for start, period in self.cycles),
            "portion " + " ".join(map(spelled, self.portion)),
            "end",
        ]
        return "\n".join(lines) + "\n"

    @property
    def is_endless(self) -> bool:
        """Whether each power of some letter is a standard word."""
        powers = [[i for i, n in enumerate(left) if n] for left, _ in self.relations]
        return any([i] not in powers for i in range(len(self.letters)))

    def standard_words(self, most: int) -> set[Word]:
        """The words in which no left one is, if there are no more than so many."""
        lefts = [left for left, _ in self.relations]
        found = {(0,) * len(self.letters)}
        new = list(found)
        while new and len(found) <= most:
            word = new.pop()
            for i in range(len(word)):
                longer = (*word[:i], word[i] + 1, *word[i + 1 :])
                if longer not in found and not any(divides(it, longer) for it in lefts):
                    found.add(longer)
                    new.append(longer)
        return found

    def is_p(self, word: Word) -> bool:
        """Whether the portion has a standard word."""
        cycles = [*self.cycles, *[(1 << 30, 1)] * (len(word) - len(self.cycles))]
        return (
            tuple(n if n < start else start + (n - start) % period for n, (start, period) in zip(word, cycles))
            in self.portion
        )

    def form(self, word: Word) -> Word:
        """The normal form of a word."""
        for left, right in self.relations:
            if divides(left, word):
                return self.form(tuple(n - i + j for n, i, j in zip(word, left, right)))
        return word

    def rows(self, elements: list[Word]) -> list[list[int]]:
        """The products of all elements, by their numbers; a word comes after those with a letter less."""
        number = {word: at for at, word in enumerate(elements)}
        count = len(self.letters)
        plus = [[number[self.form((*w[:i], w[i] + 1, *w[i + 1 :]))] for i in range(count)] for w in elements]
        columns = [list(range(len(elements)))]
        for word in elements[1:]:
            i = next(i for i, n in enumerate(word) if n)
            before = columns[number[(*word[:i], word[i] - 1, *word[i + 1 :])]]
            columns.append([plus[at][i] for at in before])
        return columns

    def table(self, most: int) -> str:
        """The quotient as a table, as `misere certify` reads it, if it has no more elements than so many and each heap
        has a word."""
        elements = sorted(self.standard_words(most), key=rank)
        number = {word: at for at, word in enumerate(elements)}
        heaps = [number[self.form(it)] for it in self.words if it is not None]
        lines = [
            f"table 1\ncode {self.code}\norder {len(elements)}",
            f"start {len(self.words) - self.period + 1}\nperiod {self.period}",
            "heaps " + " ".join(map(str, heaps)),
            "portion " + " ".join(str(at) for at, word in enumerate(elements) if self.is_p(word)),
            *("row " + " ".join(map(str, row)) for row in self.rows(elements)),
            "end",
        ]
        return "\n".join(lines) + "\n"

    def says(self, most: int) -> tuple[object, ...]:
        """All that it says: two of these are equal if the texts say the same in the same letters."""
        portion = frozenset(filter(self.is_p, self.standard_words(most)))
        return self.code, self.period, self.letters, self.words, frozenset(self.relations), portion


def parsed(text: str) -> Presentation:
    """What a text of a presentation says."""
    lines = [line.split(" ") for line in text.splitlines()]
    named = {words[0]: words[1:] for words in lines if words[0] != "relation"}
    count = len(named["letters"])
    relations = [(exponents(words[1], count), exponents(words[2], count)) for words in lines if words[0] == "relation"]
    cycles = [(int(start), int(period)) for start, period in (it.split(":") for it in named["cycle"])]
    return Presentation(
        code=named["code"][0],
        period=int(named["heaps"][2]) if len(named["heaps"]) > 1 else 0,
        letters=tuple(map(int, named["letters"])),
        words=tuple(None if it == "-" else exponents(it, count) for it in named["words"]),
        relations=tuple(relations),
        cycles=tuple(cycles),
        portion=tuple(exponents(it, count) for it in named["portion"]),
    )


def described(program: str, certificate: str) -> dict[str, Any]:
    """What the program says of the quotient of a certificate."""
    words = [program, "describe", "-", "--basis", "--json"]
    said: dict[str, Any] = json.loads(
        subprocess.run(words, input=certificate, capture_output=True, text=True, check=True).stdout
    )
    return said


def presentation_of(said: dict[str, Any]) -> Presentation:
    """The presentation of what is said of a finite quotient."""
    letters = tuple(sorted(said["generators"].values()))
    count = len(letters)
    portion = [exponents(it, count) for it in said["portion"]]
    relations = [(exponents(left, count), exponents(right, count)) for left, right in said["relations"]]
    return Presentation(
        code=said["code"],
        period=said["period"] if said["kind"] == "full" else 0,
        letters=letters,
        words=tuple(exponents(it, count) for it in said["heaps"]),
        relations=tuple(sorted(relations, key=relation_rank)),
        cycles=tuple((max((it[i] for it in portion), default=-1) + 1, 1) for i in range(count)),
        portion=tuple(sorted(portion, key=rank)),
    )


# ---- changed ones


def tweaked(chance: random.Random, word: Word) -> Word:
    i = chance.randrange(len(word))
    return (*word[:i], max(0, word[i] + chance.choice([-1, 1, 1, 2])), *word[i + 1 :])


def without(items: tuple[Any, ...], at: int) -> tuple[Any, ...]:
    return items[:at] + items[at + 1 :]


def with_item(items: tuple[Any, ...], at: int, item: object) -> tuple[Any, ...]:
    return (*items[:at], item, *items[at + 1 :])


def with_relation(chance: random.Random, given: Presentation) -> Presentation:
    """A relation changed, dropped or added."""
    relations = given.relations
    at = chance.randrange(len(relations))
    left, right = relations[at]
    some = [it for relation in relations for it in relation] + list(given.portion)
    new = chance.choice(
        [
            with_item(relations, at, (tweaked(chance, left), right)),
            with_item(relations, at, (left, tweaked(chance, right))),
            with_item(relations, at, (left, chance.choice(some))),
            without(relations, at),
            (*relations, (tweaked(chance, chance.choice(some)), tweaked(chance, chance.choice(some)))),
        ]
    )
    turned = {(max(it, key=rank), min(it, key=rank)) for it in new}
    return replace(given, relations=tuple(sorted(turned, key=relation_rank)))


def with_portion(chance: random.Random, given: Presentation) -> Presentation:
    """A word of the portion changed, dropped or added."""
    at = chance.randrange(len(given.portion))
    new = chance.choice(
        [
            with_item(given.portion, at, tweaked(chance, given.portion[at])),
            without(given.portion, at),
            (*given.portion, tweaked(chance, chance.choice(given.portion))),
        ]
    )
    return replace(given, portion=tuple(sorted(set(new), key=rank)))


def with_cycle(chance: random.Random, given: Presentation) -> Presentation:
    at = chance.randrange(len(given.cycles))
    start, period = given.cycles[at]
    new = (max(0, start + chance.choice([-1, 0, 1])), max(1, period + chance.choice([-1, 0, 1, 2])))
    return replace(given, cycles=with_item(given.cycles, at, new))


def with_word(chance: random.Random, given: Presentation) -> Presentation:
    at = chance.randrange(len(given.words))
    if chance.random() < 0.5:
        new: Word | None = tweaked(chance, given.words[at] or given.portion[0])
    else:
        new = chance.choice(given.words)
    return replace(given, words=with_item(given.words, at, new))


def with_code(chance: random.Random, given: Presentation) -> Presentation:
    at = chance.randrange(2, len(given.code))
    return replace(given, code=given.code[:at] + chance.choice(DIGITS) + given.code[at + 1 :])


CHANGES = (with_relation, with_relation, with_portion, with_portion, with_cycle, with_word, with_code)


def changed(chance: random.Random, given: Presentation) -> Presentation:
    """The presentation with one thing changed, its lists in order."""
    while (new := chance.choice(CHANGES)(chance, given)) == given or not new.portion:
        pass
    return new
