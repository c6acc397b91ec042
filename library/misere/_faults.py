"""What a call raises. Each fault is a `MisereError`, and one of Python's own kinds too."""

from __future__ import annotations

import itertools
from typing import Any

#: The statuses of the library's calls. 1 to 9, 23 and 31 to 34 are the program's numbers too.
NAMES = {
    0: "Yes",
    1: "Text",
    2: "Law",
    3: "Word",
    4: "Order",
    5: "Period",
    6: "Apart",
    7: "Outcome",
    8: "Limit",
    9: "Memory",
    10: "NotAHeap",
    11: "NotEnds",
    12: "NotACode",
    13: "GaveUp",
    14: "NoRoom",
    15: "NotInRange",
    16: "NotDescribed",
    17: "NotOpen",
    23: "Beyond",
    31: "Part",
    33: "Undecided",
    34: "Finite",
}
# So many heaps are listed one by one
MOST_LISTED = 16
TEXT, LAW, APART, OUTCOME, LIMIT_MET, MEMORY = 1, 2, 6, 7, 8, 9
NOT_A_HEAP, NOT_A_CODE, GAVE_UP = 10, 12, 13
NO_ROOM, NOT_IN_RANGE, NOT_DESCRIBED, NOT_OPEN, BEYOND = 14, 15, 16, 17, 23

_MEANINGS = {
    1: "the bytes spell no certificate",
    2: "the table is no commutative monoid with the identity 0",
    3: "a key has no smaller element, or another product than its element",
    4: "the keys do not rise, or a product has a smaller key",
    5: "a smaller period serves, or the period serves from an earlier start",
    6: "a separating element is not the least one",
    7: "the rule of the code's game fails at a position",
    8: "more different transition pairs than the limit",
    9: "memory was refused",
    10: "a heap is an integer of 1 to 10^18",
    12: (
        "a code is such as '0.77', '4.56' or '0.b': 0, 4, 8 or c, a point, and 1 to 16 digits,"
        " 0 to 9 and a to f, of which the last isn't 0"
    ),
    13: "no certificate was found",
    15: "a bound or a choice is out of its range",
    16: "the quotient is not described within the bounds",
    17: "the quotient is closed",
    23: "the certificate does not speak of all the heaps",
    31: "some option of one of its heaps has a heap of which it does not speak",
    33: "the rule was not seen to hold, and no position was found at which it fails",
    34: "the quotient is finite",
}


class MisereError(Exception):
    """A call told nothing. `number` and `name` say why, `said` says more, and of the refusal `Outcome` `position`
    holds the heaps of a position at which the rule of the code's game fails."""

    def __init__(self, number: int, said: str | None = None, position: list[int] | None = None) -> None:
        super().__init__(number, said, position)
        self.number = number
        self.name = NAMES.get(number, "Unknown")
        self.said = _MEANINGS.get(number, "") if said is None else said
        self.position = position

    def __str__(self) -> str:
        where = "" if self.position is None else f": {_listed(self.position)}"
        return f"{self.number} {self.name}" + (f": {self.said}" if self.said else "") + where


def _listed(heaps: list[int]) -> str:
    """Heaps as a list. Of many those that are equal and stand side by side are told as such, as in [4094·1, 3]."""
    if len(heaps) <= MOST_LISTED:
        return str(heaps)
    groups = ((heap, len(list(equal))) for heap, equal in itertools.groupby(heaps))
    return f"[{', '.join(str(heap) if count == 1 else f'{count}·{heap}' for heap, count in groups)}]"


class Refused(MisereError, ValueError):
    """The bytes are not an accepted certificate (1 to 8, or 31 to 34 of an infinite quotient)."""


class NoMemory(MisereError, MemoryError):
    """Memory was refused (9)."""


class NotAHeap(MisereError, ValueError):
    """A heap is not of 1 to 10^18 (10)."""


class NotACode(MisereError, ValueError):
    """The text is no code (12)."""


class NotFound(MisereError, LookupError):
    """No certificate was found, by this search (13). `bounds` has the words of the search, and `why` the reason for which
    it was given up, as `misere solve CODE --why` prints it: "no period 24 24", "too large 15", "rounds" and others."""

    bounds: dict[str, Any] = {}
    why: str = ""


class NotInRange(MisereError, ValueError):
    """A bound of a search, or a choice, is out of its range (15)."""


class NotDescribed(MisereError, LookupError):
    """The quotient is not described within the bounds (16)."""


class NotOpen(MisereError, ValueError):
    """The quotient is closed (17)."""


class Beyond(MisereError, ValueError):
    """The certificate doesn't speak of all the heaps (23)."""


class Absent(MisereError, KeyError):
    """A catalogue has no entry of that code. The number is 0, as no call was asked."""

    def __init__(self, number: int, said: str | None = None, position: list[int] | None = None) -> None:
        super().__init__(number, said, position)
        self.name = "Absent"

    def __str__(self) -> str:
        return self.said


class WrongType(MisereError, TypeError):
    """What is given is of a type of which no call can be asked. The number is that of a wrong value in its place."""

    def __str__(self) -> str:
        return self.said


_KINDS: dict[int, type[MisereError]] = {
    **dict.fromkeys([*range(1, 9), 31, 33, 34], Refused),
    MEMORY: NoMemory,
    NOT_A_HEAP: NotAHeap,
    NOT_A_CODE: NotACode,
    GAVE_UP: NotFound,
    NOT_IN_RANGE: NotInRange,
    NOT_DESCRIBED: NotDescribed,
    NOT_OPEN: NotOpen,
    BEYOND: Beyond,
}


def fault(status: int, said: str | None = None, position: list[int] | None = None) -> MisereError:
    """The fault that a status is."""
    return _KINDS.get(status, MisereError)(status, said, position)
