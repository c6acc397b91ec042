"""Nim values of octal and hexadecimal codes, in normal play, and the period with which they go on."""

from __future__ import annotations

from collections.abc import Iterator, Sequence

# So many heaps are looked at, and as many of a code that may leave three heaps
HEAPS, HEAPS_BY_THREES = 256, 96
ONE, TWO, THREE = 2, 4, 8


def nim_values(code: str) -> list[int]:
    """Those of the heaps 0, 1, .."""
    digits = [int(it, 16) for it in code.replace(".", "")]
    threes = any(it & THREE for it in digits)
    values, pairs, triples = [0], [0], [0]
    for heap in range(1, (HEAPS_BY_THREES if threes else HEAPS) + 1):
        reached = 0
        for taken, digit in enumerate(digits[: heap + 1]):
            rest = heap - taken
            reached |= (digit & 1) if rest == 0 else 0
            reached |= 1 << values[rest] if digit & ONE and 0 < rest < heap else 0
            # (a heap that is split as a whole leaves smaller ones)
            reached |= _pairs(values, rest) if digit & TWO and rest == heap else 0
            reached |= _triples(values, pairs, rest) if digit & THREE and rest == heap else 0
            reached |= pairs[rest] if digit & TWO and rest < heap else 0
            reached |= triples[rest] if digit & THREE and rest < heap else 0
        # the least number that isn't reached
        values.append((~reached & (reached + 1)).bit_length() - 1)
        pairs.append(_pairs(values, heap))
        triples.append(_triples(values, pairs, heap) if threes else 0)
    return values


def _pairs(values: Sequence[int], rest: int) -> int:
    """The nim sums of two heaps that are together so many, as bits."""
    reached = 0
    for first in range(1, rest // 2 + 1):
        reached |= 1 << (values[first] ^ values[rest - first])
    return reached


def _triples(values: Sequence[int], pairs: Sequence[int], rest: int) -> int:
    """The same of three heaps."""
    reached = 0
    for first in range(1, rest // 3 + 1):
        for other in _bits(pairs[rest - first]):
            reached |= 1 << (values[first] ^ other)
    return reached


def _bits(reached: int) -> Iterator[int]:
    while reached:
        last = reached & -reached
        yield last.bit_length() - 1
        reached ^= last


def period_of(code: str, values: Sequence[int]) -> tuple[int, int] | None:
    """From which heap on the values repeat, and with which period, if those that are here show it. (Guy and Smith: if
    they repeat from a heap n on until a heap of which each option has a heap that is at least n + period.)"""
    digits = [int(it, 16) for it in code.replace(".", "")]
    most, last = (3 if any(it & THREE for it in digits) else 2), len(digits) - 1
    for period in range(1, len(values) // 2):
        start = len(values) - period
        while start > 1 and values[start - 1] == values[start - 1 + period]:
            start -= 1
        if most * (start + period) + last < len(values):
            return start, period
    return None
