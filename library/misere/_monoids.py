"""What is read off the tables of quotients: which of Nim's a quotient is, and an isomorphism of two.

Nothing of it is proved. `misere describe` prints the first, and `misere compare` the second, with a proof of each."""

from __future__ import annotations

from collections.abc import Iterable, Sequence
from typing import NamedTuple, Optional

Rows = Sequence[Sequence[int]]
Map = dict[int, int]


class Monoid(NamedTuple):
    """A bipartite monoid, of which 0 is the identity, and elements that generate it."""

    table: Rows
    portion: frozenset[int]
    generators: frozenset[int]


def tame_of(monoid: Monoid) -> int | None:
    """The n for which the quotient is T_n, if it is one: the identity and a, with a·a = 1, and for n from 2 on beside them
    a group of 2^n elements with the identity e, in which each square is e. (Plambeck and Siegel; `IsTame`.)"""
    order, portion = len(monoid.table), sorted(monoid.portion)
    if order == 2:
        return 1 if portion == [1] and monoid.table[1][1] == 0 else None
    n = (order - 2).bit_length() - 1
    if n < 2 or order != 2**n + 2 or len(portion) != 2:
        return None
    return n if any(_is_tame_by(monoid.table, a, e) for a, e in (portion, portion[::-1])) else None


def _is_tame_by(table: Rows, a: int, e: int) -> bool:
    if 0 in (a, e) or table[a][a] != 0 or table[a][e] == e:
        return False
    return all(table[x][x] == e and table[e][x] == x for x in range(len(table)) if x not in (0, a))


def isomorphism_of(one: Monoid, other: Monoid) -> tuple[int, ...] | None:
    """The image of each element by a bijection that keeps products and the portion, if there is one.

    Colours cut the search short. A map is made of the images of generators, and tested at each product by one of these.
    """
    colours = _colours_of(one, other) if len(one.table) == len(other.table) else None
    if colours is None:
        return None
    mine, others = colours
    alike: dict[int, list[int]] = {}
    for element, colour in enumerate(others):
        alike.setdefault(colour, []).append(element)
    generators = sorted(_few(one), key=lambda it: len(alike[mine[it]]))
    found = _search(one, other, [(it, alike[mine[it]]) for it in generators], {})
    return None if found is None else tuple(found[it] for it in range(len(found)))


def _search(one: Monoid, other: Monoid, choices: Sequence[tuple[int, list[int]]], images: Map) -> Map | None:
    """An isomorphism by which the generators have these images, and the others one of those that they may choose."""
    known = _extended(one.table, other.table, images)
    if known is None or len(set(known.values())) < len(known):
        return None
    if any((x in one.portion) != (y in other.portion) for x, y in known.items()):
        return None
    if not choices:
        return known if len(known) == len(one.table) else None
    (generator, those), *rest = choices
    tried = (_search(one, other, rest, {**images, generator: it}) for it in those)
    return next((it for it in tried if it is not None), None)


def _extended(one: Rows, other: Rows, images: Map) -> Map | None:
    """The map on all that some elements generate, by the images of these; or None if it keeps no products."""
    known, todo = {0: 0}, [0]
    while todo:
        x = todo.pop()
        for generator, image in images.items():
            product, to = one[x][generator], other[known[x]][image]
            if product not in known:
                known[product] = to
                todo.append(product)
            elif known[product] != to:
                return None
    return known


def _few(monoid: Monoid) -> list[int]:
    """Generators, rising: each that those before it don't generate."""
    few: list[int] = []
    made = {0}
    for generator in sorted(monoid.generators):
        if generator not in made:
            few.append(generator)
            made = set(_extended(monoid.table, monoid.table, {it: it for it in few}) or ())
    return few


def _colours_of(one: Monoid, other: Monoid) -> Optional[tuple[list[int], list[int]]]:
    """A colour for each element of both, which isomorphisms keep; or None if there are other colours in one."""
    sides, kinds = (one, other), 0
    colours = [[int(x in side.portion) + 2 * (x == 0) for x in range(len(side.table))] for side in sides]
    while True:
        numbers: dict[object, int] = {}
        refined = [
            [numbers.setdefault(it, len(numbers)) for it in _signs(side.table, its)]
            for side, its in zip(sides, colours)
        ]
        if sorted(refined[0]) != sorted(refined[1]):
            return None
        if len(numbers) == kinds:
            return refined[0], refined[1]
        colours, kinds = refined, len(numbers)


def _signs(table: Rows, colours: Sequence[int]) -> Iterable[tuple[int, int, int]]:
    """Of each element its colour, that of its square, and the colours of all with those of its products. (Of the last a
    hash: if two are alike that aren't, colours are coarser, which makes no map another one.)"""
    scaled = [colour * (len(table) + 4) for colour in colours]
    for x, row in enumerate(table):
        products = sorted([scale + colours[product] for scale, product in zip(scaled, row)])
        yield colours[x], colours[row[x]], hash(tuple(products))
