"""A quotient as a notebook shows it."""

from __future__ import annotations

import html
import re
from collections.abc import Iterable, Sequence
from typing import Any

from ._triples import WholeGame

# How many heaps stand in a row, if a period doesn't say so
COLUMNS, MOST_COLUMNS = 12, 16
_LISTS = re.compile(r"\\begin\{flushleft\}\n(.*?)\n\\end\{flushleft\}", re.S)
_ARRAYS = re.compile(r"\\begin\{array\}.*?\\end\{array\}", re.S)
_POWER = re.compile(r"([a-z])(?:\^(\d+))?")


def latex_of(description: str) -> str:
    """The description for pdfLaTeX in formulas alone, as MathJax sets it: its lists, its arrays, how it goes on."""
    lists = _LISTS.findall(description)[0].split("\\\\\n")
    *_, last = description.splitlines()
    shown = [*map(_formula, lists), *_ARRAYS.findall(description), _formula(last.removeprefix("\\noindent "))]
    return "\n".join(f"$$\\displaystyle {it}$$" for it in shown)


def _formula(line: str) -> str:
    """A line of words with formulas as one formula."""
    pieces = line.split("$")
    return "".join(piece if at % 2 else f"\\text{{{piece}}}" for at, piece in enumerate(pieces) if piece)


def html_of(told: dict[str, Any]) -> str:
    """The description in lines, with the heaps in a table, of its values in JSON."""
    start, period = told["start"], told["period"]
    index = "" if period else f"<sub>{start - 1}</sub>"
    relations = ", ".join(f"{_word(left)} = {_word(right)}" for left, right in told["relations"])
    tame = "wild" if told["tame"] is None else f"tame {told['tame']}"
    quotient = f"<i>Q</i>{index}(<b>{html.escape(told['code'])}</b>)"
    lines = [
        f"{quotient} = ⟨ {_row(told['generators'])} | {relations} ⟩",
        f"<i>P</i>{index} = {{ {_row(told['portion'])} }}",
        f"order {told['order']}, portion {len(told['portion'])}, {tame}",
        f"units {_row(told['units'])}; idempotents {_row(told['idempotents'])}",
        f"kernel {_row(told['kernel'])}",
    ]
    ending = f"and so on from heap {start}, with period {period}" if period else f"heaps to {start - 1}"
    return "<div>" + "<br>".join(lines) + _table(told["heaps"], _columns(period)) + ending + "</div>"


def presented_html_of(told: dict[str, Any]) -> str:
    """What a presentation says in lines, with the words of the heaps in a table, of its values in JSON."""
    period, heaps = told["period"], told["heaps"]
    index = "" if period else f"<sub>{heaps}</sub>"
    relations = ", ".join(f"{_word(left)} = {_word(right)}" for left, right in told["relations"])
    order = "infinite" if told["order"] is None else f"order {told['order']}"
    quotient = f"<i>Q</i>{index}(<b>{html.escape(told['code'])}</b>)"
    cycles = ", ".join(f"{_word(letter)} {start}:{length}" for letter, (start, length) in told["cycles"].items())
    lines = [
        f"{quotient} = ⟨ {_row(told['generators'])} | {relations} ⟩",
        f"<i>P</i>{index} = {{ {_row(told['portion'])} }}",
        f"along letters the portion repeats: {cycles}",
        f"{order}, relations {len(told['relations'])}, portion {len(told['portion'])}",
        ", ".join(f"{_word(letter)} = Φ({heap})" for letter, heap in told["generators"].items()),
    ]
    words = ["-" if it is None else it for it in told["words"]]
    ending = f"and so on from heap {heaps - period + 1}, with period {period}" if period else f"heaps to {heaps}"
    return "<div>" + "<br>".join(lines) + _table(words, _columns(period)) + ending + "</div>"


def whole_html_of(code: str, game: WholeGame) -> str:
    """The triples of a whole game's heaps in a table, and how they go on."""
    heaps = {str(heap): list(map(str, triple)) for heap, triple in enumerate(game.listed, 1)}
    quotient = f"<i>Q</i>(<b>{html.escape(code)}</b>) is infinite, and positions of equal triples are indistinguishable"
    ending = f"and so on from heap {game.start}, with period {game.period} and rise {game.rise}"
    return f"<div>{quotient}{_rows('heap', ['odd', 'weight', 'lead'], heaps)}{ending}</div>"


def _rows(corner: str, heads: Iterable[str], rows: dict[str, list[str]]) -> str:
    """A table with these heads, and a head before each row."""
    head = "".join(f"<th>{it}</th>" for it in [corner, *heads])
    lines = ["".join([f"<th>{name}</th>", *(f"<td>{it}</td>" for it in cells)]) for name, cells in rows.items()]
    return f"<table>{''.join(f'<tr>{it}</tr>' for it in [head, *lines])}</table>"


def powers_of(word: str) -> list[tuple[str, int]]:
    """The letters of a word with their exponents; none of the word 1."""
    return [(letter, int(exponent or 1)) for letter, exponent in _POWER.findall(word)]


def _word(word: str) -> str:
    if word in ("1", "-"):
        return word
    return "".join(
        f"<i>{letter}</i>" + (f"<sup>{power}</sup>" if power > 1 else "") for letter, power in powers_of(word)
    )


def _row(words: Iterable[str]) -> str:
    return ", ".join(map(_word, words))


def _columns(period: int) -> int:
    """A row is a period, or its least multiple from 8 on, if that isn't too long."""
    columns = period * -(-8 // period) if period else COLUMNS
    return columns if columns <= MOST_COLUMNS else COLUMNS


def _table(words: Sequence[str], columns: int) -> str:
    heads = "".join(f"<th>{column}</th>" for column in range(1, min(columns, len(words)) + 1))
    rows = [f"<tr><th></th>{heads}</tr>"]
    for above in range(0, len(words), columns):
        cells = "".join(f"<td>{_word(word)}</td>" for word in words[above : above + columns])
        rows.append(f"<tr><th>{above}+</th>{cells}</tr>")
    return f"<table>{''.join(rows)}</table>"
