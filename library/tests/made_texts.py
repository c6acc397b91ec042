"""Texts of large certificates, made by rule. Whether one is right is for a check to say."""

from __future__ import annotations

import sys

from tests import top

sys.path.append(str(top / "scripts"))
from certificate_lines import text_of  # noqa: E402
from made_certificates import Monoid, certificate, part  # noqa: E402


def nim(last: int) -> bytes:
    """0.e8 up to a heap, which is played as Nim: a heap is worth its size less 1. If the last heap is a power of 2, there
    are as many elements as heaps, of which 0 and 1 aren't firm, and then 0 and 1, which are."""
    return text_of(part("0.e8", last)).encode()


def wrong_at(ones: int, order: int) -> bytes:
    """Heaps of 1 in 0.1, where a position of ones is P if they are odd in number: it says so, but of that many."""
    sums = Monoid(0, lambda x, y: (x + y) % order, lambda x: x % 2 == 1 and x != ones)
    return text_of(certificate("0.1", sums, [1, 0], 2, 1)).encode()
