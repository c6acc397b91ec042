"""Looking for the quotient of a game."""

from __future__ import annotations

from collections.abc import Iterable, Iterator, Sequence

from ._asked import Given, is_infinite
from ._bounds import (
    ELEMENTS,
    FEW_HEAPS,
    HEAPS,
    INFINITE_HEAPS,
    LARGEST_LIMIT,
    LIMIT,
    MOST_BY_FEW,
    MOST_BYTES,
    MOST_ELEMENTS,
    MOST_HEAPS,
    MOST_PART,
    MOST_ROUNDS,
    PART_ELEMENTS,
    ROUNDS,
)
from ._faults import GAVE_UP, NOT_A_CODE, NOT_IN_RANGE, MisereError, NotACode, NotFound, NotInRange, WrongType, fault
from ._given import number_of
from ._infinite import InfiniteQuotient
from ._library import library, told_by
from ._names import NAMES, code_of
from ._own import own_certificate
from ._quotient import Quotient

# Of which heaps a search is to find the quotient
WHOLE, PART, FURTHEST = 0, 1, 2
# Why no quotient of heaps without a move is found: there is nothing to tell apart
ONE_ELEMENT = "one element"


def check(certificate: Given, limit: int = LIMIT) -> Quotient:
    """The quotient that the certificate is of; or it raises Refused. The certificate is its bytes, their text, or the
    path of its file, as pathlib.Path("0.33.mqc"): a str is the text itself."""
    return Quotient(certificate, limit)


def check_infinite(certificate: Given) -> InfiniteQuotient:
    """The infinite quotient that a text of a whole game is of, which begins with mqw 1, or the quotient that a presentation
    is, which begins with mqp 1 and may be finite; or it raises Refused. The text is given as to `check`."""
    return InfiniteQuotient(certificate)


def verify(certificate: Given, limit: int = LIMIT) -> Quotient | InfiniteQuotient:
    """The quotient that the certificate is of, finite or infinite, by its first word: what `check` gives, or of `mqw` and
    `mqp` what `check_infinite` does, which has no limit; or it raises Refused. `misere verify` does so too."""
    return InfiniteQuotient(certificate) if is_infinite(certificate) else Quotient(certificate, limit)


def certify(
    code: str,
    table: Sequence[Sequence[int]],
    heaps: Iterable[int],
    portion: Iterable[int],
    period: int,
    limit: int = LIMIT,
) -> Quotient:
    """The quotient of one's own table, from GAP, say, or a paper; or it raises Refused.

    `table` has a row of products for each element, whatever its number is. `heaps` has the elements of the heaps 1, 2, ..,
    of which the last `period` come again and again; or with the period 0 it is a part of the game, with these heaps alone.
    `portion` has the elements of the P-positions. The code may be a name. Elements and heaps are numbered anew as a certificate wants it, which
    is then checked. What is refused of the table itself is said by its own numbers."""
    return Quotient(own_certificate(code_of(code), table, heaps, portion, period, number_of(limit)), limit)


def solve(
    code: str,
    limit: int = LIMIT,
    rounds: int = ROUNDS,
    heaps: int | None = None,
    order: int | None = None,
    *,
    deep: bool = False,
) -> Quotient:
    """The quotient of the game of a code, such as "0.33", or a name, such as "Kayles"; or it raises NotFound, where the
    search is given up.

    The heaps up to `heaps` are looked at, 2 to 8210, or 24 where none are named; with `deep` all of these, as many as
    the certificate of an octal code can need. The limit is 1 to 1000000, the rounds 1 to 1000, the order 2 to 4096, or
    to 256 where at most 64 heaps are looked at. Where none is named the order is 64, or 256 with `deep`."""
    if deep and heaps is not None:
        raise WrongType(NOT_IN_RANGE, "with deep the heaps aren't named")
    if order is None:
        order = MOST_BY_FEW if deep else ELEMENTS
    return _found(code, WHOLE, limit, rounds, MOST_HEAPS if deep else HEAPS if heaps is None else heaps, order)


def solve_part(code: str, last: int, limit: int = LIMIT, rounds: int = ROUNDS, order: int = PART_ELEMENTS) -> Quotient:
    """The quotient of the positions of a game whose heaps are at most `last`, 1 to 1024; or it raises NotFound.

    The order is 2 to 4096."""
    return _found(code, PART, limit, rounds, last, order)


def solve_furthest(code: str, order: int, limit: int = LIMIT, rounds: int = ROUNDS) -> Quotient:
    """The quotient of the most first heaps of a game of which a search finds one of at most so many elements, 2 to
    4096; or it raises NotFound."""
    return _found(code, FURTHEST, limit, rounds, 0, order)


def solve_any(code: str, order: int = MOST_BY_FEW, limit: int = LIMIT, rounds: int = ROUNDS) -> Quotient:
    """The quotient of the game of a code by a deep search, or if that is given up, what `solve_furthest` finds; or it raises
    NotFound. So does `misere solve CODE --any`. The order is 2 to 4096."""
    try:
        return solve(code, limit, rounds, order=order, deep=True)
    except NotFound:
        return solve_furthest(code, order, limit, rounds)


def solve_infinite(code: str, heaps: int = INFINITE_HEAPS, *, presented: bool = False) -> InfiniteQuotient:
    """An infinite quotient of the game of a code or a name: that of the whole game, if its text is found, or else that of
    some of the heaps 1 to `heaps`, by generators and relations; or it raises NotFound. So does `misere solve CODE
    --infinite`. With `presented` no text of the whole game is looked for, as with `--presented`. Some searches take minutes.

    The heaps are 1 to 1024."""
    code, text = _code_given(code)
    bounds = {"heaps": number_of(heaps)}
    call = library.misere_solve_presented if presented else library.misere_solve_infinite
    status, told = told_by(MOST_BYTES, call, text, len(text), bounds["heaps"])
    if status == GAVE_UP:
        why = told.decode().strip().removeprefix("gave up: ")
        found_none = NotFound(GAVE_UP, f"no infinite quotient of {code} was found; the reason is: {why}")
        found_none.bounds, found_none.why = bounds, why
        raise found_none
    if status:
        raise _explained(fault(status), code, PART, bounds)
    return InfiniteQuotient(told)


def series(code: str, order: int = MOST_BY_FEW, limit: int = LIMIT, rounds: int = ROUNDS) -> Iterator[int]:
    """How many elements the quotients of the heaps 1 to n have, for n = 1, 2, .., as far as a search finds them: each number
    is that of a certificate that was checked, or 1 where no move is possible. So does `misere series CODE`."""
    for last in range(1, MOST_PART + 1):
        try:
            yield solve_part(code, last, limit, rounds, order).order
        except NotFound as stop:
            if stop.why != ONE_ELEMENT:
                return
            yield 1


def _found(code: str, aim: int, limit: int, rounds: int, heaps: int, order: int) -> Quotient:
    code, text = _code_given(code)
    bounds = {
        "limit": number_of(limit),
        "rounds": number_of(rounds),
        "heaps": number_of(heaps),
        "order": number_of(order),
    }
    words = bounds["limit"], bounds["rounds"], aim, bounds["heaps"], bounds["order"]
    status, told = told_by(MOST_BYTES, library.misere_solve_why, text, len(text), *words)
    if status == GAVE_UP:
        raise _not_found(code, aim, bounds, told.decode())
    if status:
        raise _explained(fault(status), code, aim, bounds)
    return Quotient(told, limit)


def _code_given(word: str) -> tuple[str, bytes]:
    """The code of a name, or else the word, and its bytes."""
    if not isinstance(word, str):
        raise WrongType(NOT_A_CODE, f"a code is a text such as '0.33', and not {word!r}")
    code = code_of(word)
    return code, code.encode("utf-8", "surrogatepass")


def _not_found(code: str, aim: int, bounds: dict[str, int], lines: str) -> NotFound:
    """The fault of a search that was given up. The first line says that it was, the second one why."""
    why = lines.splitlines()[1]
    further = " or ".join(_further(code, aim, bounds, why))
    said = f"no certificate of {code} was found, {_reach(aim, bounds)}; the reason is: {why}"
    found_none = NotFound(GAVE_UP, f"{said}; go on by {further}" if further else said)
    found_none.bounds, found_none.why = bounds, why
    return found_none


def _explained(stop: MisereError, code: str, aim: int, bounds: dict[str, int]) -> MisereError:
    """The fault with what it is about."""
    if isinstance(stop, NotACode):
        return fault(NOT_A_CODE, f"{code!r} is none: {stop.said}; names are {', '.join(NAMES)}")
    if isinstance(stop, NotInRange):
        return fault(NOT_IN_RANGE, "; ".join(_out_of_range(aim, bounds)))
    return stop


def _out_of_range(aim: int, bounds: dict[str, int]) -> Iterator[str]:
    most_order = MOST_BY_FEW if aim == WHOLE and bounds["heaps"] <= FEW_HEAPS else MOST_ELEMENTS
    ranges = {"limit": (1, LARGEST_LIMIT), "rounds": (1, MOST_ROUNDS), "order": (2, most_order)}
    if aim != FURTHEST:
        ranges["heaps"] = (2, MOST_HEAPS) if aim == WHOLE else (1, MOST_PART)
    for name, (least, most) in ranges.items():
        if name in bounds and not least <= bounds[name] <= most:
            yield f"{name} is {least} to {most}, and {bounds[name]} isn't"


def _reach(aim: int, bounds: dict[str, int]) -> str:
    """How far the search went."""
    heaps, order = bounds["heaps"], bounds["order"]
    return f"of at most {order} elements" if aim == FURTHEST else f"with heaps to {heaps} and at most {order} elements"


def _further(code: str, aim: int, bounds: dict[str, int], why: str) -> Iterator[str]:
    """The calls that go further, as they can be typed."""
    heaps, order = bounds["heaps"], bounds["order"]
    more = _more(bounds, why)
    if aim == WHOLE and (heaps, order) < (MOST_HEAPS, MOST_BY_FEW):
        yield f'misere.solve("{code}", deep=True{more})'
    elif aim == WHOLE and order < MOST_ELEMENTS:
        yield f'misere.solve("{code}", deep=True, order={MOST_ELEMENTS}{more})'
    elif aim == PART and order < MOST_ELEMENTS:
        yield f'misere.solve_part("{code}", {heaps}, order={MOST_ELEMENTS}{more})'
    elif more:
        last = {WHOLE: f"deep=True, order={order}", PART: f"{heaps}, order={order}", FURTHEST: f"{order}"}[aim]
        yield f'misere.{_NAMES[aim]}("{code}", {last}{more})'
    if aim != FURTHEST:
        yield f'misere.solve_furthest("{code}", {max(order, ELEMENTS)}{more}), which finds a partial one'


_NAMES = {WHOLE: "solve", PART: "solve_part", FURTHEST: "solve_furthest"}


def _more(bounds: dict[str, int], why: str) -> str:
    """The words for a larger limit, or more rounds, where these ended the search."""
    if why == "members" and bounds["limit"] < LARGEST_LIMIT:
        return f", limit={LARGEST_LIMIT}"
    if why == "rounds" and bounds["rounds"] < MOST_ROUNDS:
        return f", rounds={MOST_ROUNDS}"
    return ""
