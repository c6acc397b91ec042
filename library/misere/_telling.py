"""What tells two positions apart by a presentation."""

from __future__ import annotations

from collections import deque
from collections.abc import Callable, Iterator, Sequence

# So many positions are tried at most, as `misere apart` does
MOST_TRIED = 16384


def thirds(letters: Sequence[int], word_of: Callable[[Sequence[int]], str]) -> Iterator[tuple[int, ...]]:
    """Positions of the letters' heaps, which rise: one for each element, those of fewer heaps first. (Each standard word
    but 1 is another one with a letter more that is none before its last one.)"""
    known, found = {word_of(())}, deque[tuple[int, ...]]([()])
    for _ in range(MOST_TRIED):
        if not found:
            return
        position = found.popleft()
        yield position
        for heap in letters:
            longer = (*position, heap)
            if position and heap < position[-1] or word_of(longer) in known:
                continue
            known.add(word_of(longer))
            found.append(longer)
