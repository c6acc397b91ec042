"""A certified infinite quotient, or one that is presented, and what it is asked."""

from __future__ import annotations

import ctypes
import json
from collections.abc import Iterable, Sequence
from typing import Any, Literal, Optional

from . import _certificate, _shown
from ._answers import Apart, Triple
from ._asked import Asked, Given, number_of_output
from ._certified import Infinite
from ._faults import NOT_DESCRIBED, NotOpen, fault
from ._given import heaps_of, refusal_of, words_of
from ._library import told_by
from ._telling import thirds
from ._triples import WholeGame

# As many bytes are room for most words
USUAL_WORD = 256

#: What is told of an infinite quotient, and of one that is presented.
InfiniteOutput = Literal["description", "latex", "json"]
# By the library's numbers, which are those of the outputs of a finite quotient
OUTPUTS: tuple[Optional[InfiniteOutput], ...] = ("description", "latex", None, "json")


class InfiniteQuotient(Asked):
    """A certified infinite misère quotient: the outcomes of all positions of a whole game, or of some of its heaps, which no
    finite quotient predicts. One that generators and relations present may be finite: `order` says so. It is made by a check
    alone, and doesn't change. Any number of threads may ask it. It is closed, copied and pickled as a Quotient is.

    A game may have several texts, of other heaps. They never contradict each other."""

    __slots__ = ("_order",)
    _calls, _check = Infinite, "check_infinite"
    _certified: Infinite
    _said: _certificate.Part
    _order: int | None

    def __init__(self, certificate: Given) -> None:
        super().__init__(certificate)
        self._said = _certificate.read_part(self._bytes.decode("ascii"))
        self._order = self._told_order()

    @property
    def last_heap(self) -> int | None:
        """The last heap of which it speaks; None if it is of the whole game, and speaks of all."""
        return self._said.last_heap

    @property
    def without(self) -> tuple[int, ...]:
        """The heaps below the last one of which it doesn't speak, rising."""
        return self._said.without

    @property
    def presented(self) -> bool:
        """Whether it is a presentation, by generators and relations."""
        return self._said.letters is not None

    @property
    def order(self) -> int | None:
        """How many elements a presented quotient has; None if it is infinite, as that of each whole game is."""
        return self._order

    @property
    def _left_out(self) -> tuple[int, ...]:
        return self.without

    def value(self, heaps: Iterable[int]) -> Triple | str:
        """The element of a position. By a presentation it is a word in its letters, such as 'ab^2', or '1'; that is proved.
        In a whole game it is a triple, which the module computes of the text's lists; `misere value` proves what it prints.
        Two positions are indistinguishable exactly if these are equal."""
        given = heaps_of(heaps)
        if self.presented:
            return self._word_of(given)
        self.outcome(given)
        return WholeGame(self._bytes.decode("ascii")).triple_of(given)

    def apart(self, first: Iterable[int], second: Iterable[int]) -> Apart | None:
        """What tells two positions apart by a presentation: a third one, of as few heaps of its letters as can be, and the
        outcomes of the two beside it. None if they are indistinguishable. By a text of a whole game, and if no position that
        is tried tells them apart, it raises NotDescribed. `misere apart` proves what it prints."""
        if self._said.letters is None:
            raise fault(NOT_DESCRIBED, "only a presentation tells positions apart")
        one, other = heaps_of(first), heaps_of(second)
        if self._word_of(one) == self._word_of(other):
            return None
        for third in thirds(self._said.letters, self._word_of):
            told = self.outcomes([[*one, *third], [*other, *third]])
            if told[0] != told[1]:
                return Apart(third, (told[0], told[1]))
        raise fault(NOT_DESCRIBED, "they are distinguishable, and no position that was tried shows it")

    def describe(self, output: InfiniteOutput = "description") -> str:
        """The generators, relations, portion and words of a presentation, as `misere describe` prints them. `output` is
        "description", "latex" or "json". By a text of a whole game it raises NotDescribed."""
        return self._text(number_of_output(output, OUTPUTS))

    def to_dict(self) -> dict[str, Any]:
        """The same as a dict of values that JSON has."""
        told: dict[str, Any] = json.loads(self.describe("json"))
        return told

    def _repr_html_(self) -> str | None:
        """What a notebook shows."""
        try:
            if self.presented:
                return _shown.presented_html_of(self.to_dict())
            return _shown.whole_html_of(self.code, WholeGame(self._bytes.decode("ascii")))
        except NotOpen:
            return None

    def __repr__(self) -> str:
        without = f" without {' '.join(map(str, self.without))}" if self.without else ""
        heaps = "all heaps" if self.last_heap is None else f"heaps to {self.last_heap}"
        kind = "infinite" if self.order is None else f"presented, of order {self.order},"
        return f"<{kind} misère quotient of {self.code}: {heaps}{without}{', closed' if self.closed else ''}>"

    def __copy__(self) -> InfiniteQuotient:
        other = super().__copy__()
        other._order = self._order
        return other

    def _told_order(self) -> int | None:
        told = ctypes.c_uint64()
        with self._certified.lent() as owner:
            status = self._certified.order(*owner.words, ctypes.addressof(told))
        if status:
            raise fault(status)
        return told.value or None

    def _word_of(self, heaps: Sequence[int]) -> str:
        """The element of a position by a presentation."""
        given = heaps_of(heaps)
        with self._certified.lent() as owner:
            status, told = told_by(USUAL_WORD, self._certified.value, *owner.words, *words_of(given))
        if status:
            raise refusal_of(status, given, self.last_heap, self._left_out)
        return told.decode("ascii")
