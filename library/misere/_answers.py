"""What is answered of positions."""

from __future__ import annotations

import ctypes
from typing import Any, Literal, NamedTuple, Union

from ._library import Told

#: 'P' where the player who has just moved wins, 'N' where the next one does.
Outcome = Literal["P", "N"]
OUTCOMES: tuple[Outcome, Outcome] = ("P", "N")


class Move(NamedTuple):
    """A winning move: the heap that it takes, and the heaps that it leaves of it, rising."""

    heap: int
    left: tuple[int, ...]


class Apart(NamedTuple):
    """What tells two positions apart: a third one, beside which the outcomes of the first and of the second differ."""

    position: tuple[int, ...]
    outcomes: tuple[Outcome, Outcome]


class Triple(NamedTuple):
    """The element of a position in a whole game: 1 if it is odd and else 0, its weight, and its lead, which is 0 if no heap
    rules. Two positions are indistinguishable exactly if their triples are equal."""

    odd: int
    weight: int
    lead: int


#: What to do in a position: there is no move; each one loses; or the first one that wins.
Answer = Union[Literal["ended", "lost"], Move]


def answer_of(told: Told) -> Answer:
    """The answer that a call told."""
    if told.kind == 0:
        return "ended"
    if told.kind == 1:
        return "lost"
    return Move(told.heap, tuple(part for part in (told.first, told.second, told.third) if part))


def array_of(told: ctypes.Array[ctypes.c_uint32]) -> Any:
    """Numbers that a call told as an array of numpy. It is there, since the positions were one of its arrays."""
    import numpy

    return numpy.array(numpy.ctypeslib.as_array(told)) if len(told) else numpy.zeros(0, dtype="u4")


def letters_of(told: ctypes.Array[ctypes.c_uint32]) -> Any:
    """Outcomes that a call told as an array of numpy, of their letters."""
    import numpy

    return numpy.array(OUTCOMES)[array_of(told)]
