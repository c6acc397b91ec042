"""Certificates by their lines, and codes: what stands in them, and no judgement of it."""

from __future__ import annotations

import itertools
import pathlib
import re
from array import array
from collections.abc import Iterable, Iterator, Sequence
from dataclasses import dataclass, field

from script import root

# The ranges of a certificate's numbers, and of those in the first and the second format
LARGEST_ORDER, LARGEST_SECOND_ORDER, LARGEST_FIRST_ORDER = 4096, 512, 256
MOST_ENTRIES, MOST_SECOND_ENTRIES, LARGEST_PART = 4096, 1024, 1024
# How many bytes a text in the third format has at most
LONGEST_TEXT = 4 << 20
SMALL = (1 << 60) - 1

DIGITS = {"d": "01234567", "h": "0123456789abcdef"}


def codes_of(shape: str) -> Iterator[str]:
    """The codes of a shape such as `0.dd` or `8.h`, where d stands for an octal digit and h for a hexadecimal one; the
    last is not 0."""
    first, places = shape.split(".")
    for digits in itertools.product(*(DIGITS[place] for place in places)):
        if digits[-1] != "0":
            yield f"{first}.{''.join(digits)}"


def place_of(code: str) -> tuple[str, int, str]:
    """Where a code stands in the literature's order: by the digit before the point, then by how many are behind it,
    then by these."""
    first, _, digits = code.partition(".")
    return first, len(digits), digits


def is_hexadecimal(code: str) -> bool:
    """Whether some move leaves three heaps."""
    return max(code) > "7"


def words_of(certificate: str) -> dict[str, str]:
    """The words behind the name of each line of a certificate that has words, the rows left out."""
    lines = (line.split(" ", 1) for line in certificate.splitlines() if " " in line and not line.startswith("row "))
    return {name: words for name, words in lines}


def is_presentation(certificate: str) -> bool:
    """Whether a text says that it is a presentation. Searches of infinite quotients print those of infinite ones."""
    return certificate.startswith("mqp ")


def is_whole(certificate: str) -> bool:
    """Whether a text says that it is one of a whole game with an infinite quotient."""
    return certificate.startswith("mqw ")


def shows_infinite(certificate: str) -> bool:
    """Whether a text is of a kind that shows an infinite quotient, of a part or of the whole game."""
    return is_presentation(certificate) or is_whole(certificate)


def heaps_of(certificate: str) -> int:
    """The last heap of which a certificate speaks, or 0 where it speaks of the whole game."""
    words = words_of(certificate)
    if is_presentation(certificate):
        return int(words["heaps"].split()[0])
    return int(words["start"]) - 1 if words["period"] == "0" else 0


def left_out(presentation: str) -> list[int]:
    """The heaps that a presentation leaves out."""
    return [at for at, word in enumerate(words_of(presentation)["words"].split(), 1) if word == "-"]


def part_name(presentation: str) -> str:
    """How the file of a presentation of some heaps is named, without its ending."""
    words, without = words_of(presentation), [str(heap) for heap in left_out(presentation)]
    return "_".join([words["code"], "heaps", words["heaps"], *["without"] * bool(without), *without])


def letters_of(presentation: str) -> int:
    """How many generators a presentation has."""
    return len(words_of(presentation)["letters"].split())


def relations_of(presentation: str) -> int:
    return sum(line.startswith("relation ") for line in presentation.splitlines())


def bound_of(certificate: str) -> int:
    """B: the heap up to which a check looks at the moves."""
    words = words_of(certificate)
    start, period, last = int(words["start"]), int(words["period"]), len(words["code"].split(".")[1])
    return (3 if is_hexadecimal(words["code"]) else 2) * (start + period) + last if period else start - 1


def samples() -> list[pathlib.Path]:
    """The right certificates of certificates/."""
    return sorted((root / "certificates").glob("*.mqc"))


def format_by(code: str, order: int, start: int, period: int) -> int:
    """The format of a certificate, by its numbers."""
    if order > LARGEST_SECOND_ORDER or start + period > MOST_SECOND_ENTRIES + 1:
        return 3
    return 1 if not is_hexadecimal(code) and order <= LARGEST_FIRST_ORDER and period else 2


Key = tuple[int, int]


@dataclass
class Certificate:
    """The numbers of a certificate, with all rows and separators."""

    code: str
    order: int
    start: int
    period: int
    phi: list[int]
    portion: list[int]
    keys: list[Key]
    rows: list[array[int]] = field(default_factory=list)
    apart: array[int] = field(default_factory=lambda: array("H"))

    @property
    def format(self) -> int:
        return format_by(self.code, self.order, self.start, self.period)


def firsts_of(keys: Sequence[Key]) -> int:
    """How many keys have the element 0, before the first that has another: the last of the first elements."""
    return next((at for at, (element, _) in enumerate(keys) if element), len(keys))


def contexts_of(rows: Sequence[Sequence[int]], portion: Sequence[int]) -> list[int]:
    """Of each element those with which its product is in the portion, a bit each."""
    mark = ["0"] * len(rows)
    for it in portion:
        mark[it] = "1"
    return [int("".join([mark[it] for it in reversed(row)]), 2) for row in rows]


def least_separators(rows: Sequence[Sequence[int]], portion: Sequence[int]) -> array[int]:
    """For each pair of elements the least one that takes exactly one of them into the portion, or 0."""
    contexts, apart = contexts_of(rows, portion), array("H")
    # (what the first elements tell apart takes small numbers alone)
    small = [it & SMALL for it in contexts]
    for at, it in enumerate(contexts):
        differences = [small[at] ^ other for other in small[at + 1 :]]
        for other in [other for other, bits in enumerate(differences) if not bits]:
            differences[other] = it ^ contexts[at + 1 + other]
        apart.extend([(bits & -bits).bit_length() - 1 if bits else 0 for bits in differences])
    return apart


def spaced(name: str, words: Iterable[int | str]) -> str:
    return " ".join([name, *map(str, words)])


def text_of(it: Certificate, form: int = 0) -> str:
    """The text of a certificate: in its own format, or written as if it had another one."""
    form = form or it.format
    said = it.rows[1 : firsts_of(it.keys) + 1] if form == 3 else it.rows
    lines = [f"mqc {form}", f"code {it.code}", f"order {it.order}", f"start {it.start}", f"period {it.period}"]
    lines += [spaced("phi", it.phi), spaced("portion", it.portion)]
    lines += [spaced("words", (f"{element}:{heap}" for element, heap in it.keys))]
    lines += [spaced("row", row) for row in said]
    lines += [] if form == 3 else [spaced("apart", it.apart)]
    return "\n".join([*lines, "end", ""])


class NoCertificate(ValueError):
    """What a text has that no certificate's text has."""


def is_so(it: bool, what: str) -> None:
    if not it:
        raise NoCertificate(what)


class Lines:
    """The lines of a text, read one after another by the grammar of docs/TEXT.md."""

    def __init__(self, text: str) -> None:
        *self.lines, rest = text.split("\n")
        self.at = 0
        is_so(rest == "", "something stands behind the last end of a line")

    def words(self, name: str, count: int | None = None) -> list[str]:
        """The words of the next line, which has this name and, where it is asked, so many words."""
        is_so(self.at < len(self.lines), f"the line {name} is missing")
        first, *words = self.lines[self.at].split(" ")
        self.at += 1
        is_so(first == name, f"line {self.at} is not {name}")
        is_so(count in (None, len(words)), f"line {self.at} has {len(words)} words and not {count}")
        return words

    def number(self, word: str, least: int, most: int) -> int:
        is_so(re.fullmatch("0|[1-9][0-9]{0,9}", word) is not None, f"line {self.at}: {word[:20]} is no number")
        is_so(least <= int(word) <= most, f"line {self.at}: {word} isn't {least} to {most}")
        return int(word)

    def numbers(self, name: str, count: int | None, least: int, most: int) -> list[int]:
        return [self.number(word, least, most) for word in self.words(name, count)]

    def key(self, word: str, order: int, heaps: int) -> Key:
        parts = word.split(":")
        is_so(len(parts) == 2, f"line {self.at}: {word[:20]} is no key")
        return self.number(parts[0], 0, order - 1), self.number(parts[1], 1, heaps)


def expanded(it: Certificate, firsts: list[array[int]]) -> Certificate:
    """The certificate with all rows and separators, as they follow from the rows of the first elements."""
    first, heaps = len(firsts), (0, *it.phi)
    is_so(max(it.phi) <= first, "a heap's element is none of the first ones")
    it.rows = [array("H", range(it.order)), *firsts]
    for element, (of, heap) in enumerate(it.keys[first:], first + 1):
        is_so(of < element, f"the key of {element} doesn't fall")
        row = it.rows[of]
        it.rows.append(array("H", [row[at] for at in it.rows[heaps[heap]]]))
    it.apart = least_separators(it.rows, it.portion)
    return it


def certificate_of(text: str) -> Certificate:
    """The certificate that a text spells, of which each character is a byte; or NoCertificate is raised."""
    lines = Lines(text)
    [form] = lines.numbers("mqc", 1, 1, 3)
    [code] = lines.words("code", 1)
    is_so(re.fullmatch("[048c][.][0-9a-f]{0,15}[1-9a-f]", code) is not None, "no code")
    [order] = lines.numbers("order", 1, 2, LARGEST_ORDER)
    [start] = lines.numbers("start", 1, 1, MOST_ENTRIES + 1)
    is_part = 2 <= start <= LARGEST_PART + 1
    [period] = lines.numbers("period", 1, 0 if is_part else 1, MOST_ENTRIES + 1 - start)
    is_so(form == format_by(code, order, start, period), f"not of the format {form}")
    entries = start + period - 1
    phi = lines.numbers("phi", entries, 0, order - 1)
    portion = lines.numbers("portion", None, 0, order - 1)
    is_so(portion != [] and all(x < y for x, y in zip(portion, portion[1:])), "the portion doesn't rise, or is empty")
    keys = [lines.key(word, order, entries) for word in lines.words("words", order - 1)]
    said = firsts_of(keys) if form == 3 else order
    rows = [array("H", lines.numbers("row", order, 0, order - 1)) for _ in range(said)]
    apart = [] if form == 3 else lines.numbers("apart", order * (order - 1) // 2, 0, order - 1)
    lines.words("end", 0)
    is_so(lines.at == len(lines.lines), "lines behind the end")
    is_so(form < 3 or len(text) <= LONGEST_TEXT, "too long")
    it = Certificate(code, order, start, period, phi, portion, keys, rows, array("H", apart))
    return expanded(it, rows) if form == 3 else it
