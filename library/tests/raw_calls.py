"""The calls of libmisere as they are, for tests of what they answer and write: each room holds 7s before a call, so that
what isn't written is seen to stay."""

from __future__ import annotations

import ctypes
from collections.abc import Sequence
from typing import Any, NamedTuple

from misere._library import Told, library

# What a room and a count hold before a call
UNTOLD, UNCOUNTED = 7, 9
# The address of an empty slice
NOWHERE = 8
NO_MOVE = (UNTOLD,) * 5

Move = tuple[int, int, int, int, int]
Words = ctypes.Array[ctypes.c_uint64]


class Check(NamedTuple):
    """A certificate that is checked with a limit, and the status."""

    name: str
    certificate: bytes
    limit: int
    status: int


def words(numbers: Sequence[int]) -> Words:
    """The numbers as a slice of 64 bits each."""
    return (ctypes.c_uint64 * len(numbers))(*numbers)


def numbers(length: int) -> ctypes.Array[ctypes.c_uint32]:
    """A room for so many numbers."""
    return (ctypes.c_uint32 * length)(*[UNTOLD] * length)


def moves(length: int) -> ctypes.Array[Told]:
    """A room for so many answers."""
    return (Told * length)(*[Told(*NO_MOVE)] * length)


def text(length: int, untold: int = UNTOLD) -> ctypes.Array[ctypes.c_uint8]:
    """A room for so many bytes."""
    return (ctypes.c_uint8 * length)(*[untold] * length)


def front(room: ctypes.Array[Any], length: int) -> ctypes.Array[Any]:
    """The beginning of a room as a shorter one, in the same memory."""
    kind: Any = room._type_ * length
    shorter: ctypes.Array[Any] = kind.from_buffer(room)
    return shorter


def told_in(room: ctypes.Array[Any]) -> list[Any]:
    """What a room holds: its numbers, or its answers, each as five numbers."""
    return [move_of(it) if isinstance(it, Told) else it for it in room]


def move_of(told: Told) -> Move:
    return told.kind, told.heap, told.first, told.second, told.third


def called(name: str, *given: Any) -> int:
    """The status of a call. Bytes and arrays are given as slices, numbers as they are, and anything else by a pointer.
    (The pointer of an empty slice is no null pointer, as misere.h asks.)"""
    passed: list[Any] = []
    for it in given:
        if isinstance(it, bytes):
            passed += [it, len(it)]
        elif isinstance(it, ctypes.Array):
            passed += [ctypes.addressof(it) if len(it) else NOWHERE, len(it)]
        else:
            passed.append(it if isinstance(it, int) else ctypes.addressof(it))
    return int(getattr(library, name)(*passed))
