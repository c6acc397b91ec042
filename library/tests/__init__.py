"""What the module tells of samples, and what it raises. `python3 -m unittest` runs these, and so does pytest."""

from __future__ import annotations

import pathlib
from collections.abc import Callable

import misere

top = pathlib.Path(__file__).resolve().parent.parent.parent
samples = top / "certificates"


def quotient(name: str) -> misere.Quotient:
    """That of a sample."""
    return misere.check((samples / f"{name}.mqc").read_bytes())


def whole(code: str) -> misere.InfiniteQuotient:
    """That of a sample of a whole game."""
    return misere.check_infinite((samples / f"{code}.mqw").read_bytes())


def presented(name: str) -> misere.InfiniteQuotient:
    """That of a sample of a presentation."""
    return misere.check_infinite((samples / f"{name}.mqp").read_bytes())


def raised(call: Callable[[], object]) -> misere.MisereError | None:
    """What a call raises."""
    try:
        call()
    except misere.MisereError as stop:
        return stop
    return None
