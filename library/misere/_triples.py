"""The triples of a whole game, by the lists of its text, which the library has accepted before it is read here. Of what is
computed of them docs/WHOLE.md has the rules."""

from __future__ import annotations

import functools
from collections.abc import Iterable

from ._answers import Triple


class WholeGame:
    """What a text of a whole game says: the triples of the heaps up to the end of the first period, and how they go on."""

    __slots__ = ("listed", "period", "rise", "start")

    def __init__(self, text: str) -> None:
        words = {name: words for name, *words in (line.split(" ") for line in text.splitlines())}
        self.start, self.period, self.rise = (int(words[name][0]) for name in ("start", "period", "rise"))
        rows = (map(int, words[name]) for name in ("odd", "weights", "leads"))
        self.listed = [Triple(*it) for it in zip(*rows)]

    def triple_of(self, heaps: Iterable[int]) -> Triple:
        """That of a position."""
        return functools.reduce(_times, map(self._of_heap, heaps), Triple(0, 0, 0))

    def _of_heap(self, heap: int) -> Triple:
        if heap < self.start:
            return self.listed[heap - 1]
        times, at = divmod(heap - self.start, self.period)
        odd, weight, lead = self.listed[self.start + at - 1]
        more = times * self.rise
        return Triple(odd, weight + more, lead + more if lead else 0)


def _times(one: Triple, other: Triple) -> Triple:
    lead = max(one.lead - other.weight, other.lead - one.weight, 0)
    return Triple(one.odd ^ other.odd, one.weight + other.weight, lead)
