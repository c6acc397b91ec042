"""The calls of libmisere as they are. `scripts/calls_stand` compares them with the exports."""

from __future__ import annotations

import ctypes
import os
import pathlib
from typing import Any, Callable

from ._faults import NO_ROOM, fault

VERSION = 2
FILE = "libmisere.so.1"

_number, _size = ctypes.c_uint32, ctypes.c_size_t
# Pointers are given as addresses: of a slice's words, of a number, of an answer, of how many, of an owner
_slice = _word = _move = _count = _owner = ctypes.c_void_p
_bytes = [ctypes.c_char_p, _size]


class Told(ctypes.Structure):
    """What to do in a position, as a call tells it."""

    _fields_ = [(name, ctypes.c_uint64) for name in ("kind", "heap", "first", "second", "third")]


class Opened(ctypes.Structure):
    """An owner of an opened quotient, finite or infinite, or of none, as which it begins."""

    _fields_ = [("full", ctypes.c_uint64), ("kept", ctypes.c_void_p)]


# What each call takes. A slice is a pointer and a length.
CALLS: dict[str, list[Any]] = {
    "misere_version": [],
    "misere_check": [*_bytes, _number],
    "misere_outcome": [*_bytes, _number, _slice, _size, _word],
    "misere_value": [*_bytes, _number, _slice, _size, _word],
    "misere_answer": [*_bytes, _number, _slice, _size, _move],
    "misere_outcomes": [*_bytes, _number, _slice, _size, _slice, _size, _slice, _size],
    "misere_values": [*_bytes, _number, _slice, _size, _slice, _size, _slice, _size],
    "misere_answers": [*_bytes, _number, _slice, _size, _slice, _size, _slice, _size],
    "misere_failure": [*_bytes, _number, _slice, _size, _count],
    "misere_solve": [*_bytes, _number, _number, _number, _number, _number, _slice, _size, _count],
    "misere_solve_why": [*_bytes, _number, _number, _number, _number, _number, _slice, _size, _count],
    "misere_solve_infinite": [*_bytes, _number, _slice, _size, _count],
    "misere_solve_presented": [*_bytes, _number, _slice, _size, _count],
    "misere_certify": [*_bytes, _number, _slice, _size, _count],
    "misere_describe": [*_bytes, _number, _number, _number, _slice, _size, _count],
    "misere_open": [*_bytes, _number, _owner],
    "misere_share": [_owner, _owner],
    "misere_close": [_owner],
    "misere_opened_outcome": [_owner, _slice, _size, _word],
    "misere_opened_value": [_owner, _slice, _size, _word],
    "misere_opened_answer": [_owner, _slice, _size, _move],
    "misere_opened_outcomes": [_owner, _slice, _size, _slice, _size, _slice, _size],
    "misere_opened_values": [_owner, _slice, _size, _slice, _size, _slice, _size],
    "misere_opened_answers": [_owner, _slice, _size, _slice, _size, _slice, _size],
    "misere_opened_describe": [_owner, _number, _number, _slice, _size, _count],
    "misere_check_infinite": [*_bytes],
    "misere_infinite_failure": [*_bytes, _slice, _size, _count],
    "misere_infinite_open": [*_bytes, _owner],
    "misere_infinite_share": [_owner, _owner],
    "misere_infinite_close": [_owner],
    "misere_infinite_kind": [_owner, _count],
    "misere_infinite_order": [_owner, _count],
    "misere_infinite_code": [_owner, _slice, _size, _count],
    "misere_infinite_outcome": [_owner, _slice, _size, _word],
    "misere_infinite_answer": [_owner, _slice, _size, _move],
    "misere_infinite_outcomes": [_owner, _slice, _size, _slice, _size, _slice, _size],
    "misere_infinite_answers": [_owner, _slice, _size, _slice, _size, _slice, _size],
    "misere_infinite_describe": [_owner, _number, _slice, _size, _count],
    "misere_infinite_value": [_owner, _slice, _size, _slice, _size, _count],
}

Call = Callable[..., int]


def _places() -> list[pathlib.Path]:
    """Where the library may be: in the package, as in a wheel; beside it, as in library/; and in the `lib` of the
    prefix into which both were installed."""
    package = pathlib.Path(__file__).resolve().parent
    return [it / FILE for it in (package, package.parent, *list(package.parents)[2:3])]


def _load() -> ctypes.CDLL:
    named = os.environ.get("MISERE_LIBRARY") or next((str(it) for it in _places() if it.exists()), FILE)
    try:
        loaded = ctypes.CDLL(named)
    except OSError as stop:
        told = "`make -C library` builds it, and MISERE_LIBRARY names a file elsewhere"
        raise ImportError(f"{named} can't be loaded ({stop}): {told}") from None
    if loaded.misere_version() != VERSION:
        raise ImportError(f"{named} has calls of version {loaded.misere_version()}, and not {VERSION}")
    if lacking := [name for name in CALLS if not hasattr(loaded, name)]:
        raise ImportError(f"{named} is older than this module: it lacks {lacking[0]}")
    for name, words in CALLS.items():
        call = getattr(loaded, name)
        call.argtypes, call.restype = words, _number
    return loaded


library = _load()


def version() -> int:
    """The version of the library's calls."""
    return int(library.misere_version())


def told_by(room: int, call: Call, *words: Any) -> tuple[int, bytes]:
    """The status and the text of a call that takes a room for a text. If that is too small, the call says so, and is
    asked again."""
    told, count = (ctypes.c_uint8 * room)(), ctypes.c_uint64()
    status = call(*words, ctypes.addressof(told), room, ctypes.addressof(count))
    if status == NO_ROOM:
        return told_by(count.value, call, *words)
    return status, ctypes.string_at(told, count.value)


def text_by(room: int, call: Call, *words: Any) -> bytes:
    """What a call tells that takes a room for it."""
    status, text = told_by(room, call, *words)
    if status:
        raise fault(status)
    return text
