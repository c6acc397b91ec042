"""Certificates that are made by rule: of the sums of numbers, of powers that come to repeat, and of tame games. Their
elements are numbered by least keys, and beside each pair stands the least element that tells it apart, if one does.
Whether one is right is for a check to say.

In a *tame* game each position is worth a number and is firm or not, as in Nim: sums take the exclusive or of the
numbers, and are firm where a part is. The value of a heap follows from those of its options by least numbers that are
missing, once under normal and once under misère play. That a game is tame is for the check to say.
"""

from __future__ import annotations

import itertools
import operator
import sys
from array import array
from collections.abc import Callable, Collection, Sequence
from dataclasses import dataclass
from typing import Generic, TypeVar

from certificate_lines import Certificate, Key, firsts_of

Element = TypeVar("Element")
Tame = tuple[int, bool]


@dataclass
class Monoid(Generic[Element]):
    """A commutative monoid by its identity and its product, with the elements in the portion told by a test."""

    one: Element
    times: Callable[[Element, Element], Element]
    holds: Callable[[Element], bool]


def plus(x: Tame, y: Tame) -> Tame:
    """The sum of two tame values."""
    return x[0] ^ y[0], x[1] or y[1]


# A position that isn't firm is lost for the player to move where it is worth 1, and a firm one where it is worth 0.
TAME: Monoid[Tame] = Monoid((0, False), plus, lambda x: x == (1, False) or x == (0, True))


def cyclic(order: int) -> Monoid[int]:
    """The sums of numbers under an order, with the odd ones but the last in the portion."""
    return Monoid(0, lambda x, y: (x + y) % order, lambda x: x % 2 == 1 and x + 1 < order)


def powers(*letters: tuple[int, int]) -> Monoid[tuple[int, ...]]:
    """The products of powers of letters, which commute. Each letter has a power from which on its powers repeat, and
    after how many. In the portion are those whose powers' sum is divisible by three, but not by two."""

    def power(n: int, start: int, period: int) -> int:
        return n if n < start else start + (n - start) % period

    def times(x: tuple[int, ...], y: tuple[int, ...]) -> tuple[int, ...]:
        return tuple(power(a + b, *letter) for a, b, letter in zip(x, y, letters))

    return Monoid((0,) * len(letters), times, lambda x: sum(x) % 6 == 3)


def letter(at: int, of: int, power: int = 1) -> tuple[int, ...]:
    """A power of one of so many letters."""
    return (0,) * at + (power,) + (0,) * (of - at - 1)


def missing(numbers: Collection[int]) -> int:
    """The least number that isn't there."""
    return next(n for n in range(len(numbers) + 1) if n not in numbers)


def heap_of(options: set[Tame]) -> Tame:
    """The tame value of a heap by those of its options."""
    if not options:
        return TAME.one
    normal = missing({value for value, _ in options})
    misere = missing({value if firm else value ^ 1 for value, firm in options})
    if normal != misere and {normal, misere} != {0, 1}:
        sys.exit(f"a heap is worth {normal} under normal play and {misere} under misère play: the game isn't tame")
    return normal, normal == misere


def heaps_of(code: str, last: int) -> list[Tame]:
    """The tame values of the heaps 1 to the last one."""
    digits = [int(digit, 16) for digit in code.replace(".", "")]
    phi: list[Tame] = [TAME.one]
    twos: list[set[Tame]] = []
    threes: list[set[Tame]] = []
    for n in range(1, last + 1):
        for whole in range(len(twos), n + 1):
            twos.append({plus(phi[a], phi[whole - a]) for a in range(1, whole // 2 + 1)})
            threes.append({plus(phi[a], x) for a in range(1, whole // 3 + 1) for x in twos[whole - a]})
        options: set[Tame] = set()
        for j, digit in enumerate(digits[: n + 1]):
            if digit & 1 and 0 < j == n:
                options.add(TAME.one)
            if digit & 2 and 0 < j < n:
                options.add(phi[n - j])
            if digit & 4:
                options |= twos[n - j]
            if digit & 8:
                options |= threes[n - j]
        phi.append(heap_of(options))
    return phi[1:]


def numbered(monoid: Monoid[Element], phi: Sequence[Element]) -> tuple[list[Element], dict[Element, int], list[Key]]:
    """The elements by number, and the keys of all but 0: pairs of an element and a heap, rising."""
    elements, numbers, f = [monoid.one], {monoid.one: 0}, 0
    keys: list[Key] = []
    while f < len(elements):
        for h, of_heap in enumerate(phi, 1):
            it = monoid.times(elements[f], of_heap)
            if it not in numbers:
                numbers[it] = len(elements)
                elements.append(it)
                keys.append((f, h))
        f += 1
    return elements, numbers, keys


def separators(rows: Sequence[Sequence[int]], inside: Sequence[bool]) -> array[int]:
    """For each pair of elements the least one that tells it apart, or 0: looked for product by product."""
    looks = [bytes([inside[it] for it in row]) for row in rows]
    pairs = itertools.combinations(looks, 2)
    return array("H", (next(itertools.compress(itertools.count(), map(operator.ne, *it)), 0) for it in pairs))


def certificate(
    code: str, monoid: Monoid[Element], phi: Sequence[Element], start: int, period: int, whole: bool = True
) -> Certificate:
    """The certificate whose heaps 1 to start + period - 1 have these elements. Where it isn't whole it has only the
    rows that a text in the third format says, and no separators."""
    elements, numbers, keys = numbered(monoid, phi)
    said = elements if whole else elements[: firsts_of(keys) + 1]
    rows = [array("H", [numbers[monoid.times(x, y)] for y in elements]) for x in said]
    inside = [monoid.holds(it) for it in elements]
    portion = [n for n, holds in enumerate(inside) if holds]
    apart = separators(rows, inside) if whole else array("H")
    return Certificate(code, len(elements), start, period, [numbers[it] for it in phi], portion, keys, rows, apart)


def part(code: str, last: int) -> Certificate:
    """The certificate of a tame game for the heaps up to the last one."""
    return certificate(code, TAME, heaps_of(code, last), last + 1, 0)


def full(code: str, start: int, period: int) -> Certificate:
    """The certificate of a tame game with this start and period."""
    return certificate(code, TAME, heaps_of(code, start + period - 1), start, period)
