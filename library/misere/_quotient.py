"""A certified quotient, and what it is asked."""

from __future__ import annotations

import ctypes
import json
import operator
from collections.abc import Iterable, Sequence
from typing import Any, Literal, get_args, overload

from . import _certificate, _shown
from ._answers import Apart, Outcome, array_of
from ._asked import Asked, Given, number_of_output
from ._bounds import LARGEST_HEAP, LIMIT
from ._certified import Finite
from ._faults import BEYOND, NOT_A_HEAP, NOT_IN_RANGE, NotDescribed, NotOpen, WrongType
from ._given import is_array, no_heap, refusal_of, rows_of
from ._monoids import Monoid, isomorphism_of, tame_of

#: What is told of a quotient. The library numbers them in this order.
Output = Literal["description", "latex", "relations", "json", "singular", "gap"]
OUTPUTS: tuple[Output, ...] = get_args(Output)


class Quotient(Asked):
    """A certified misère quotient. It is made by a check alone, and doesn't change. Any number of threads may ask it.

    The library checks the certificate once, and keeps what it certifies to this object's end, or until it is closed:
    by `close()`, or behind a block of `with`. A copy is closed by itself. What is pickled is checked again where it is
    read. The certificate is the one accepted text of its code and kind."""

    __slots__ = ()
    _calls, _check = Finite, "check"
    _certified: Finite
    _said: _certificate.Certificate

    def __init__(self, certificate: Given, limit: int = LIMIT) -> None:
        super().__init__(certificate, limit)
        self._said = _certificate.read(self._bytes.decode("ascii"))

    @property
    def order(self) -> int:
        """How many elements there are: 0, which is the identity, to one less than the order."""
        return self._said.order

    @property
    def start(self) -> int:
        """From which heap on the elements repeat; of a partial quotient the heap behind the last one."""
        return self._said.start

    @property
    def period(self) -> int:
        """The period with which the elements of the heaps repeat; 0 of a partial quotient."""
        return self._said.period

    @property
    def last_heap(self) -> int | None:
        """The last heap of which a partial certificate speaks; None of a full one, which speaks of all."""
        return None if self.period else self.start - 1

    @property
    def portion(self) -> frozenset[int]:
        """The P-portion: the elements of the positions that the player who has just moved wins."""
        return self._said.portion

    @property
    def table(self) -> tuple[tuple[int, ...], ...]:
        """The products: that of the elements x and y is table[x][y]."""
        return self._said.table

    def phi(self, heap: int) -> int:
        """The element of a heap."""
        try:
            heap = operator.index(heap)
        except TypeError:
            raise WrongType(NOT_A_HEAP, f"a heap is an integer, and not {heap!r}") from None
        if not 1 <= heap <= LARGEST_HEAP:
            raise no_heap(heap, ())
        if heap >= self.start + self.period:
            if not self.period:
                raise refusal_of(BEYOND, [heap], self.last_heap)
            heap = self.start + (heap - self.start) % self.period
        return self._said.phi[heap - 1]

    def value(self, heaps: Iterable[int]) -> int:
        """The element of the quotient that is the position's."""
        return self._number(self._certified.value, heaps)

    @overload
    def values(self, positions: Sequence[Iterable[int]]) -> list[int]:
        ...

    @overload
    def values(self, positions: Iterable[Iterable[int]]) -> Any:
        ...

    def values(self, positions: Iterable[Iterable[int]]) -> Any:
        """The element of each position: a list, or an array for an array, as `outcomes`."""
        told = self._asked_of_all(self._certified.values, rows_of(positions), ctypes.c_uint32)
        return array_of(told) if is_array(positions) else list(told)

    def apart(self, first: Iterable[int], second: Iterable[int]) -> Apart | None:
        """What tells two positions apart: a third one, of as few heaps as can be, beside which just one of them is P. None if
        the two are indistinguishable. It is computed of the table by the module; `misere apart` proves what it prints.
        """
        x, y = (self.table[it] for it in self.values([first, second]))
        for element, (one, other) in enumerate(zip(x, y)):
            if (one in self.portion) != (other in self.portion):
                outcomes = self._outcome_of(one), self._outcome_of(other)
                return Apart(self._said.position_of(element), outcomes)
        return None

    def _outcome_of(self, element: int) -> Outcome:
        return "P" if element in self.portion else "N"

    @property
    def tame(self) -> int | None:
        """The n for which the quotient is T_n, one of Nim's; None of a wild one. `to_dict()["tame"]` has the same, with a
        proof, and takes longer."""
        return tame_of(self._monoid)

    def isomorphism(self, other: Quotient) -> tuple[int, ...] | None:
        """An isomorphism of the bipartite monoids of two quotients: the image of each element, by a bijection that keeps
        products and the portion; None if there is none. It may be another than `misere compare` prints, which proves
        its answer. This takes some seconds above 1,000 elements."""
        if not isinstance(other, Quotient):
            raise WrongType(NOT_IN_RANGE, f"a quotient is compared with another one, and not with {other!r}")
        return isomorphism_of(self._monoid, other._monoid)

    def isomorphic(self, other: Quotient) -> bool:
        """Whether there is one."""
        return self.isomorphism(other) is not None

    @property
    def _monoid(self) -> Monoid:
        return Monoid(self.table, self.portion, frozenset(self._said.phi))

    def describe(self, output: Output = "description", basis: bool = False) -> str:
        """The quotient by generators and relations, with its portion, invariants and heaps; or it raises NotDescribed.

        `output` is "description", "latex", "relations" (one word), "json", "singular" or "gap": what `misere describe`
        prints, without and with one of these words. With `basis` the relations are the reduced Gröbner basis.
        """
        return self._text(number_of_output(output, OUTPUTS), int(bool(basis)))

    def to_dict(self, basis: bool = False) -> dict[str, Any]:
        """The description that `misere describe --json` prints, as a dict: numbers, words such as "ab^2", lists of them,
        and None as the n of a wild quotient; or it raises NotDescribed. "heaps" has the words of the heaps 1, 2, .. to the
        end of the first period, "period" is 0 of a partial quotient."""
        told: dict[str, Any] = json.loads(self.describe("json", basis))
        return told

    def singular(self, basis: bool = False) -> str:
        """Commands of Singular that make the ideal of the relations, as `misere describe --singular` prints them; or it
        raises NotDescribed. Its monomials are ordered as those of `basis` are, so that this is the reduced Gröbner basis
        there too."""
        return self.describe("singular", basis)

    def gap(self, basis: bool = False) -> str:
        """The same for GAP, as `misere describe --gap` prints it."""
        return self.describe("gap", basis)

    def __repr__(self) -> str:
        kind = f"start {self.start}, period {self.period}" if self.period else f"to heap {self.last_heap}"
        return f"<misère quotient of {self.code}: order {self.order}, {kind}{', closed' if self.closed else ''}>"

    def _repr_latex_(self) -> str | None:
        """What a notebook shows as a formula."""
        try:
            return _shown.latex_of(self.describe("latex"))
        except (NotDescribed, NotOpen):
            return None

    def _repr_html_(self) -> str | None:
        """What a notebook shows."""
        try:
            return _shown.html_of(self.to_dict())
        except (NotDescribed, NotOpen):
            return None
