"""The names of games."""

from __future__ import annotations

import re
from typing import Final

#: The codes of games by their names in Winning Ways.
NAMES: Final = {
    "Kayles": "0.77",
    "Dawson's Kayles": "0.07",
    "Dawson's Chess": "0.137",
    "Guiles": "0.15",
    "Officers": "0.6",
}


def code_of(word: str) -> str:
    """The code of a name, whatever its capitals, blanks and marks are; or else the word."""
    return _CODES.get(_plain(word), word) if isinstance(word, str) else word


def _plain(name: str) -> str:
    return re.sub(r"[^a-z]", "", name.lower())


_CODES = {_plain(name): code for name, code in NAMES.items()}
