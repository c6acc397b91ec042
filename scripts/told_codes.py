"""Codes in one line: in the literature's order, and of those that follow each other the first and the last."""

from __future__ import annotations

from collections.abc import Iterable, Iterator

from certificate_lines import place_of


def is_next(one: str, other: str) -> bool:
    """Whether two codes differ by 1 in their last digit alone."""
    return one[:-1] == other[:-1] and int(other[-1], 16) == int(one[-1], 16) + 1


def runs_of(codes: Iterable[str]) -> Iterator[list[str]]:
    """The codes in the literature's order, those together that follow each other."""
    run: list[str] = []
    for code in sorted(codes, key=place_of):
        if run and not is_next(run[-1], code):
            yield run
            run = []
        run.append(code)
    if run:
        yield run


def told(codes: Iterable[str]) -> str:
    """The codes, of three or more that follow each other the first and the last."""
    said = [[f"`{run[0]}` to `{run[-1]}`"] if len(run) > 2 else [f"`{it}`" for it in run] for run in runs_of(codes)]
    return ", ".join(word for words in said for word in words)
