"""A quotient of one's own, in any numbering: the text of its table, as docs/CERTIFYING.md says, and what is wrong with
it. The library numbers it, and checks it."""

from __future__ import annotations

import operator
from collections.abc import Iterable, Sequence

from ._bounds import MOST_BYTES, MOST_ELEMENTS
from ._faults import GAVE_UP, NOT_IN_RANGE, OUTCOME, MisereError, WrongType, fault
from ._library import library, told_by

Table = list[list[int]]

# What may be wrong with a line of the text, beyond what is looked at here
_LINES = {
    2: "the code isn't one",
    4: "there are too many heaps",
    5: "there are too many heaps",
    7: "the portion has no element",
}


def own_certificate(
    code: str, table: Sequence[Sequence[int]], heaps: Iterable[int], portion: Iterable[int], period: int, limit: int
) -> bytes:
    """The text of the certificate of a table in any numbering; or it raises the fault of the table."""
    rows = _rows_of(table)
    order = len(rows)
    elements = [_element(it, order, "a heap's element") for it in heaps]
    p_elements = {_element(it, order, "an element of the portion") for it in portion}
    if not isinstance(code, str):
        raise WrongType(NOT_IN_RANGE, f"a code is a text such as '0.33', and not {code!r}")
    if not elements or not 0 <= (period := _integer(period, "a period")) <= len(elements):
        raise fault(NOT_IN_RANGE, f"of {len(elements)} heaps none has the period {period}")
    if period:
        elements, period = _least_period(elements, period)
    text = _text(code, rows, elements, p_elements, period)
    status, told = told_by(MOST_BYTES, library.misere_certify, text, len(text), limit)
    if status:
        raise _fault_of(status, told.decode("ascii"), rows)
    return told


def _integer(number: int, what: str) -> int:
    try:
        return operator.index(number)
    except TypeError:
        raise WrongType(NOT_IN_RANGE, f"{what} is an integer, and not {number!r}") from None


def _element(number: int, order: int, what: str) -> int:
    if not 0 <= (number := _integer(number, what)) < order:
        raise fault(NOT_IN_RANGE, f"{what} is 0 to {order - 1}, and {number} isn't")
    return number


def _rows_of(table: Sequence[Sequence[int]]) -> Table:
    """The rows of a table: as many as columns, whose entries are elements."""
    order = len(table)
    if not 2 <= order <= MOST_ELEMENTS:
        raise fault(NOT_IN_RANGE, f"a table has 2 to {MOST_ELEMENTS} rows, and this one {order}")
    for at, row in enumerate(table):
        if len(row) != order:
            raise fault(NOT_IN_RANGE, f"the table has {order} rows, and its row {at} {len(row)} entries")
    return [[_element(it, order, f"an entry of row {at}") for it in row] for at, row in enumerate(table)]


def _least_period(elements: list[int], period: int) -> tuple[list[int], int]:
    """The elements of the first heaps, and the period with which the last of them come again: the least period, from the
    earliest heap on."""
    cycle = elements[-period:]
    least = next(p for p in range(1, period + 1) if period % p == 0 and cycle == cycle[:p] * (period // p))
    end = len(elements) - period + least
    while end > least and elements[end - least - 1] == elements[end - 1]:
        end -= 1
    return elements[:end], least


def _text(code: str, rows: Table, elements: list[int], portion: set[int], period: int) -> bytes:
    """The text of a table."""
    lines = [
        "table 1",
        f"code {code}",
        f"order {len(rows)}",
        f"start {len(elements) + 1 - period}",
        f"period {period}",
        _line("heaps", elements),
        _line("portion", sorted(portion)),
        *[_line("row", row) for row in rows],
        "end\n",
    ]
    return "\n".join(lines).encode("utf-8", "surrogatepass")


def _line(name: str, numbers: Iterable[int]) -> str:
    return " ".join([name, *map(str, numbers)])


def _fault_of(status: int, text: str, rows: Table) -> MisereError:
    """The fault that the library's lines say, such as "no 2 Commutes 1 2"."""
    if not text:
        return fault(status)
    lines = text.splitlines()
    _, _, name, *words = lines[0].split(" ")
    if status == GAVE_UP:
        return fault(status, "no fault was found, but its certificate would be too long, or have too many heaps")
    if status == OUTCOME:
        heaps = [int(it) for it in lines[1].split(" ")[3:]]
        return fault(status, position=[it for it in heaps if it])
    stop = fault(status, _said(name, words, rows))
    stop.name = name
    return stop


def _said(name: str, words: list[str], rows: Table) -> str | None:
    """What is wrong with the table."""
    if name == "Text":
        return _LINES.get(int(words[1]), f"it is no table, by the line {words[1]} of its text")
    named = [int(it) for it in words]
    if name == "Identity":
        return "no element of the table is the identity"
    if name == "Commutes":
        x, y = named
        return f"the product {x}·{y} is {rows[x][y]}, and {y}·{x} is {rows[y][x]}"
    if name == "Associates":
        x, y, z = named
        return f"the product ({x}·{y})·{z} is {rows[rows[x][y]][z]}, and {x}·({y}·{z}) is {rows[x][rows[y][z]]}"
    if name == "Unreached":
        return f"no position has the element {named[0]}"
    if name == "Apart":
        return f"no element tells {named[0]} and {named[1]} apart"
    return None
