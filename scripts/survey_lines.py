"""What scripts/survey prints and other scripts read: lines of JSON, one for each code."""

from __future__ import annotations

import json
import re
from collections.abc import Iterable, Iterator
from typing import Any

# The most heaps of which an entry of a catalogue may tell
MOST_HEAPS = 1024
CUT, NO_JSON, NO_LINE = "is cut short", "is no JSON", "is no survey's line"


def is_line(value: Any) -> bool:
    """Whether a JSON value is a survey's line: of a code that was found or not."""
    if (
        not isinstance(value, dict)
        or not isinstance(value.get("code"), str)
        or not isinstance(value.get("found"), bool)
    ):
        return False
    certificate, heaps = value.get("certificate"), value.get("heaps")
    if not value["found"]:
        return certificate is None and isinstance(value.get("why"), str)
    is_heaps = isinstance(heaps, int) and not isinstance(heaps, bool) and 0 <= heaps <= MOST_HEAPS
    return is_heaps and isinstance(certificate, str) and (certificate + value["code"]).isascii()


def read_line(line: bytes) -> tuple[Any, str | None]:
    """The value of a line, and None; or None, and what is wrong with it."""
    try:
        value = json.loads(line)
    except (ValueError, RecursionError):
        is_cut = not line.endswith(b"\n") or (line.startswith(b"{") and not line.rstrip().endswith(b"}"))
        return None, CUT if is_cut else NO_JSON
    return (value, None) if is_line(value) else (None, NO_LINE)


def lines_of(stream: Iterable[bytes]) -> Iterator[tuple[int, Any, str | None, bytes]]:
    """Of each line that isn't blank its number, its value and None, or None and what is wrong with it, and its first
    bytes."""
    for number, line in enumerate(stream, 1):
        if line.strip():
            yield number, *read_line(line), line[:200]


def code_in(beginning: bytes) -> str:
    """The code that the beginning of a line names, or what it begins with."""
    named = re.match(rb'\s*\{"code": ?"([^"\\]{1,40})"', beginning)
    return named[1].decode(errors="replace") if named else repr(beginning.strip()[:20].decode(errors="replace"))
