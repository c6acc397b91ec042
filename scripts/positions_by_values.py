"""Whether the rule of misère outcomes fails at a position, by the numbers that a certificate's text has."""

from __future__ import annotations

from collections.abc import Iterator

from certificate_lines import words_of


def element(words: dict[str, str], heap: int) -> int:
    """The element of a heap."""
    phi, start, period = [int(it) for it in words["phi"].split()], int(words["start"]), int(words["period"])
    return phi[heap - 1] if heap <= len(phi) else phi[start - 1 + (heap - start) % period]


def options_of(code: str, heap: int) -> Iterator[list[int]]:
    """What a move may leave of a heap."""
    for taken, digit in enumerate(int(it, 16) for it in code.replace(".", "")):
        left = heap - taken
        if digit & 1 and taken and left == 0:
            yield []
        if digit & 2 and taken and left > 0:
            yield [left]
        if digit & 4:
            yield from ([a, left - a] for a in range(1, left // 2 + 1))
        if digit & 8:
            yield from ([a, b, left - a - b] for a in range(1, left) for b in range(a, left) if left - a - b >= b)


def rule_fails(text: str, heaps: list[int]) -> bool:
    """Whether a position is in the portion though it can't move or can move into it, or isn't though it can move and
    not into it."""
    words = words_of(text)
    rows = [[int(it) for it in line.split()[1:]] for line in text.splitlines() if line.startswith("row ")]
    portion = {int(it) for it in words["portion"].split()}

    def value(of: list[int]) -> int:
        product = 0
        for heap in of:
            product = rows[product][element(words, heap)]
        return product

    can_move = can_win = False
    for at, heap in enumerate(heaps):
        others = heaps[:at] + heaps[at + 1 :]
        for left in options_of(words["code"], heap):
            can_move, can_win = True, can_win or value([*others, *left]) in portion
    return (value(heaps) in portion) != (can_move and not can_win)


def faults_at(text: str, printed: str) -> Iterator[str]:
    """What of a refusal isn't so: its lines, that the certificate speaks of its position, and that the rule fails."""
    lines, words = printed.split("\n"), words_of(text)
    place = lines[1].removeprefix("rule fails at ") if len(lines) == 4 else ""
    if lines[0] != "no 7 Outcome" or not place or lines[2] not in ("outcome P", "outcome N") or lines[3]:
        yield f"prints {printed!r}"
        return
    heaps = [int(it) for it in place.split() if it != "0"]
    if words["period"] == "0" and any(heap >= int(words["start"]) for heap in heaps):
        yield f"doesn't speak of {place}"
    elif not rule_fails(text, heaps):
        yield f"the rule holds at {place}"
