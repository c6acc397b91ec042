"""The text of a certificate, which stands as docs/TEXT.md says: the library has accepted it before it is read here."""

from __future__ import annotations

from collections.abc import Iterable, Sequence
from typing import NamedTuple

Rows = tuple[tuple[int, ...], ...]


class Certificate:
    """What its lines say. `phi` has the elements of the heaps 1, 2, .., and `period` is 0 of a partial one."""

    __slots__ = ("code", "order", "period", "phi", "portion", "start", "_keys", "_rows", "_table")

    def __init__(self, words: dict[str, list[str]], rows: Iterable[Sequence[str]]) -> None:
        self.code = words["code"][0]
        self.order, self.start, self.period = (int(words[name][0]) for name in ("order", "start", "period"))
        self.phi, self.portion = tuple(map(int, words["phi"])), frozenset(map(int, words["portion"]))
        self._keys, self._rows = words["words"], tuple(tuple(map(int, row)) for row in rows)
        self._table: Rows | None = None

    @property
    def table(self) -> Rows:
        """The products. Where the text leaves rows out they are made when they are first asked for."""
        if self._table is None:
            self._table = self._rows if len(self._rows) == self.order else self._made()
        return self._table

    def position_of(self, element: int) -> tuple[int, ...]:
        """The position that the keys spell of an element: none of fewer heaps has it."""
        heaps = []
        while element:
            element, heap = map(int, self._keys[element - 1].split(":"))
            heaps.append(heap)
        return tuple(sorted(heaps))

    def _made(self) -> Rows:
        """All rows, of those of the elements that heaps have: each other element is the product of its key."""
        rows = [tuple(range(self.order)), *self._rows]
        for key in self._keys[len(self._rows) :]:
            element, heap = map(int, key.split(":"))
            row = rows[element]
            rows.append(tuple([row[x] for x in rows[self.phi[heap - 1]]]))
        return tuple(rows)


class Part(NamedTuple):
    """Which heaps a text of a whole game, or a presentation, speaks of: those up to the last one, but for some; or all, and
    then there is no last one. The letters of a presentation are words of these heaps; a whole game has none."""

    code: str
    last_heap: int | None
    without: tuple[int, ...]
    letters: tuple[int, ...] | None = None


def read_part(text: str) -> Part:
    """What an accepted text of a whole game, or a presentation, says of its heaps. One of a whole game, mqw, speaks of all. A
    heap that a presentation leaves out is a minus in the line of the heaps' words. If it has a period, the words repeat,
    and so do the heaps that it leaves out."""
    words = {name: words for name, *words in (line.split(" ") for line in text.splitlines()[:5])}
    if "mqw" in words:
        return Part(words["code"][0], None, ())
    last, *period = words["heaps"]
    without = tuple(heap for heap, word in enumerate(words["words"], 1) if word == "-")
    return Part(words["code"][0], None if period else int(last), without, tuple(map(int, words["letters"])))


def read(text: str) -> Certificate:
    """What an accepted text says."""
    lines = [line.split(" ") for line in text.splitlines()]
    return Certificate({name: words for name, *words in lines}, (row for name, *row in lines if name == "row"))
