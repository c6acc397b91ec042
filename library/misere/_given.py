"""What is given to a call, as it takes it: heaps and the ends of positions as numbers of 64 bits, one after another."""

from __future__ import annotations

import array
import bisect
import operator
from collections.abc import Iterable, Sequence
from typing import Any, NamedTuple

from ._bounds import LARGEST_HEAP
from ._faults import BEYOND, NOT_A_HEAP, NOT_IN_RANGE, MisereError, WrongType, fault

# The address of what has no words: that of an empty array may be null, which no call takes
NOWHERE = 8
ROW, ROWS = "a position is a row of heaps, such as [2, 3]", "positions are rows of heaps, such as [[2, 3], [5]]"


class Rows(NamedTuple):
    """Many positions: their heaps one after another, and where each position ends."""

    heaps: array.array[int]
    ends: array.array[int]


def words_of(numbers: array.array[int]) -> tuple[int, int]:
    """The address and the length of an array."""
    address, length = numbers.buffer_info()
    return address or NOWHERE, length


def number_of(number: int) -> int:
    """A number of 32 bits, which ctypes would else cut off."""
    try:
        number = operator.index(number)
    except TypeError:
        raise WrongType(NOT_IN_RANGE, f"a bound is an integer, and not {number!r}") from None
    if not 0 <= number < 1 << 32:
        raise fault(NOT_IN_RANGE, f"{number} is no number of 32 bits")
    return number


def is_array(given: Any) -> bool:
    """Whether it is an array of numpy. (One of objects is taken as a sequence of them.)"""
    return hasattr(given, "dtype") and hasattr(given, "ndim") and given.dtype.kind != "O"


def heaps_of(heaps: Iterable[int], meant: str = ROW, before: tuple[int, ...] = ()) -> array.array[int]:
    """The heaps of a position. Bytes are numbers, as each iterable of integers is. In an array of numpy a 0 is no heap,
    so that a row of an array of positions is a position. Of many positions `before` has the place of this one."""
    listed = heaps
    if not isinstance(listed, (list, tuple)):
        if is_array(heaps):
            return _array_of(heaps, 1, meant, before).heaps
        # (out of bytes an array would be made as out of its memory)
        listed = _listed(heaps, meant)
    try:
        return array.array("Q", listed)
    except OverflowError:
        at = next(at for at, it in enumerate(listed) if not is_heap(it))
        raise no_heap(listed[at], (*before, at)) from None
    except TypeError:
        raise _no_integer(listed, before) from None


def rows_of(positions: Iterable[Iterable[int]]) -> Rows:
    """The heaps of many positions. The rows of an array of numpy are positions; a 0 is no heap there, so that rows of
    one length serve."""
    if is_array(positions):
        return _array_of(positions, 2, ROWS)
    heaps, ends = array.array("Q"), array.array("Q")
    for at, position in enumerate(_listed(positions, ROWS)):
        heaps.extend(heaps_of(position, ROWS, (at,)))
        ends.append(len(heaps))
    return Rows(heaps, ends)


def is_heap(number: int) -> bool:
    return 1 <= number <= LARGEST_HEAP


def no_heap(number: int, place: Sequence[int]) -> MisereError:
    """The fault of a number that is no heap, at its place: its index, behind that of its position among many."""
    more = "; where a 0 is to be no heap, an array of numpy serves" if number == 0 else ""
    at = f", at {list(place)}" if place else ""
    return fault(NOT_A_HEAP, f"a heap is of 1 to 10^18, and {number} isn't{at}{more}")


def _no_integer(listed: Sequence[Any], before: tuple[int, ...]) -> MisereError:
    """The fault of the first entry that is no integer, at its place."""
    for at, it in enumerate(listed):
        try:
            operator.index(it)
        except TypeError:
            return WrongType(NOT_A_HEAP, f"a heap is an integer, and not {it!r}, at {[*before, at]}")
    return WrongType(NOT_A_HEAP, f"heaps are integers, and these aren't: {listed!r}")


def refusal_of(
    status: int,
    heaps: Sequence[int],
    last: int | None,
    left_out: Sequence[int] = (),
    ends: Sequence[int] | None = None,
) -> MisereError:
    """The fault that a status is which was answered of these heaps, with the heap that it is about. Those of many
    positions stand one after another, with the ends of these. The certificate speaks of the heaps up to the last one, but
    for those that it leaves out."""
    if status == NOT_A_HEAP:
        at = next((at for at, it in enumerate(heaps) if not is_heap(it)), None)
        return fault(status) if at is None else no_heap(heaps[at], _place_of(at, ends))
    if status == BEYOND and last is not None:
        wrong = next((it for it in heaps if it > last or it in left_out), "one")
        without = f" without {' '.join(map(str, left_out))}" if left_out else ""
        return fault(status, f"the certificate speaks of heaps to {last}{without} alone, and not of {wrong}")
    return fault(status)


def _place_of(at: int, ends: Sequence[int] | None) -> tuple[int, ...]:
    """The index of a heap in its position, behind that of the position among many."""
    if ends is None:
        return (at,)
    row = bisect.bisect_right(ends, at)
    return (row, at - (ends[row - 1] if row else 0))


def _listed(given: Any, meant: str) -> list[Any]:
    try:
        items = iter(given)
    except TypeError:
        raise WrongType(NOT_A_HEAP, f"{meant}, and {given!r} is none") from None
    return list(items)


def _array_of(given: Any, dimensions: int, meant: str, before: tuple[int, ...] = ()) -> Rows:
    """The rows of an array of numpy, which is there, since this is one of its arrays. What is before its places is that of
    the row among many."""
    import numpy

    table = numpy.asarray(given)
    if table.dtype.kind not in "iu":
        raise WrongType(NOT_A_HEAP, f"a heap is an integer, and no {table.dtype}")
    if table.ndim != dimensions:
        raise WrongType(NOT_A_HEAP, f"{meant}, and an array of {table.ndim} dimensions is none")
    masks: Any = numpy.ma
    if masks.is_masked(given):
        at = [*before, *numpy.argwhere(masks.getmaskarray(given))[0].tolist()]
        raise WrongType(NOT_A_HEAP, f"a masked entry is no heap, as that at {at}; filled(0) makes them none at all")
    if table.size and not 0 <= int(table.min()) <= int(table.max()) <= LARGEST_HEAP:
        wrong = int(table.min()) if table.min() < 0 else int(table.max())
        raise no_heap(wrong, [*before, *numpy.argwhere(table == wrong)[0].tolist()])
    rows = numpy.atleast_2d(table)
    there = rows != 0
    heaps, ends = array.array("Q"), array.array("Q")
    heaps.frombytes(rows[there].astype("u8").tobytes())
    ends.frombytes(there.sum(axis=1).cumsum().astype("u8").tobytes())
    return Rows(heaps, ends)
