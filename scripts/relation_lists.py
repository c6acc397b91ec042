"""Lists of relations between words in letters that commute, as `misere describe` prints them, and what follows from
some: words rewritten by rules, which are completed by twos (Buchberger). The ordering is the graded reverse
lexicographic one, with the last letter largest. Nothing here is taken from the program."""

from __future__ import annotations

import json
import re
from collections.abc import Iterable

LETTERS = 26
# The exponents of the letters a, b, ..
Word = tuple[int, ...]
Relation = tuple[Word, Word]

FACTOR = re.compile(r"([a-z])(?:\^\{?(\d+)\}?)?")
# Where the list of relations is in the text of each output
PLACES = {
    "": re.compile(r"^Q\S* = < \S* \| (.*) >$", re.M),
    "--latex": re.compile(r"\\mid (.*)\\rangle"),
    "--singular": re.compile(r"ideal I =\n(.*?);", re.S),
    "--gap": re.compile(r"I := \[\n(.*?)\];", re.S),
    "--relations": re.compile(r"^(.*)$", re.M),
}


def word_of(text: str) -> Word:
    """A word, as any of the outputs has it; 1 is that of no letter."""
    exponents = [0] * LETTERS
    for letter, power in FACTOR.findall(text):
        exponents[ord(letter) - ord("a")] += int(power or 1)
    return tuple(exponents)


def relations_of(output: str, text: str) -> list[Relation]:
    """The relations that stand in a text of this output, in their order; none if they aren't found."""
    if output == "--json":
        return [(word_of(left), word_of(right)) for left, right in json.loads(text)["relations"]]
    found = PLACES[output].search(text)
    pairs = (re.split("[=-]", it) for it in re.split("[, ]+", found[1].replace("$", "")) if it.strip()) if found else ()
    return [(word_of(left), word_of(right)) for left, right in pairs]


def is_between_powers(relation: Relation) -> bool:
    """Whether a relation is between two powers of one letter."""
    left, right = relation
    return sum(1 for v, w in zip(left, right) if v or w) == 1


def place_of(word: Word) -> tuple[int, Word]:
    """Where a word stands in the ordering."""
    return sum(word), tuple(-exponent for exponent in word)


def is_in(v: Word, w: Word) -> bool:
    return all(a <= b for a, b in zip(v, w))


def rewritten(word: Word, rule: Relation) -> Word:
    """A word that the rule's left word is in, with the right word in its place."""
    return tuple(a - b + c for a, b, c in zip(word, *rule))


def reduced(word: Word, rules: list[Relation]) -> Word:
    """A word rewritten until no rule can."""
    while rule := next((it for it in rules if is_in(it[0], word)), None):
        word = rewritten(word, rule)
    return word


def rule_of(v: Word, w: Word) -> Relation:
    """The rule between two words, to the one that comes first."""
    return (w, v) if place_of(v) < place_of(w) else (v, w)


def completed(relations: Iterable[Relation]) -> list[Relation]:
    """Rules by which two words are rewritten to one exactly if the relations relate them."""
    rules: list[Relation] = []
    waiting = [rule_of(*it) for it in relations]
    while waiting:
        waiting.sort(key=lambda it: place_of(it[0]), reverse=True)
        left, right = (reduced(it, rules) for it in waiting.pop())
        if left == right:
            continue
        rule = rule_of(left, right)
        # what the new rule rewrites is no rule any more, but waits to be one
        waiting += [it for it in rules if is_in(rule[0], it[0])]
        rules = [it for it in rules if not is_in(rule[0], it[0])]
        for other in rules:
            if any(a and b for a, b in zip(rule[0], other[0])):
                both = tuple(max(a, b) for a, b in zip(rule[0], other[0]))
                waiting.append(rule_of(rewritten(both, rule), rewritten(both, other)))
        rules.append(rule)
    return rules


def follows(relation: Relation, rules: list[Relation]) -> bool:
    """Whether completed rules relate the two words."""
    return reduced(relation[0], rules) == reduced(relation[1], rules)


def reduced_basis(relations: Iterable[Relation]) -> set[Relation]:
    """The reduced Gröbner basis."""
    rules = completed(relations)
    return {(left, reduced(right, rules)) for left, right in rules}


def is_short(relations: list[Relation]) -> bool:
    """Whether no relation follows from the others."""
    return not any(follows(it, completed(relations[:at] + relations[at + 1 :])) for at, it in enumerate(relations))
