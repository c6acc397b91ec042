"""Texts in the third format, right and damaged, for scripts that try them: each with its name, and whether it spells a
certificate."""

from __future__ import annotations

import dataclasses
import functools
import sys
from collections.abc import Iterator

sys.dont_write_bytecode = True
from certificate_lines import LONGEST_TEXT, Certificate, firsts_of, text_of
from made_certificates import certificate, cyclic, letter, part, powers

Named = tuple[str, str, bool]


@functools.cache
def made() -> dict[str, Certificate]:
    """Certificates in the third format: of orders above 512, of more than 1,024 entries, and of both."""
    letters, late = [letter(at, 3) for at in range(3)], powers((10, 20), (29, 1))
    four_heaps = [letter(0, 2), (0, 0), letter(1, 2, 3), letter(1, 2)]
    return {
        "order 513": certificate("0.3", cyclic(513), [1, 0], 1, 2),
        "order 720": certificate("0.3", powers((0, 8), (0, 9), (0, 10)), letters, 1, 3),
        "order 567, powers that begin late": certificate("0.3", powers((2, 7), (5, 4), (4, 3)), letters, 1, 3),
        "order 900, two letters in four heaps": certificate("0.b", late, four_heaps, 5, 0),
        "nim values to 511": part("0.e8", 512),
        "1,025 entries": certificate("0.3", cyclic(3), [1] * 1025, 1025, 1),
        "4,096 entries of order 600": certificate("0.b", cyclic(600), [n % 4 for n in range(4096)], 1, 4096),
    }


def edge() -> Iterator[tuple[str, Certificate]]:
    """Certificates in the second format, at the edge of the third."""
    yield "order 512", certificate("0.3", cyclic(512), [1, 0], 1, 2)
    yield "1,024 entries", certificate("0.b", cyclic(3), [n % 3 for n in range(1024)], 1024, 1)
    yield "a part to heap 1,024", certificate("0.3", cyclic(3), [n % 3 for n in range(1024)], 1025, 0)


def largest() -> Certificate:
    """A certificate of the largest order, of which a short text says all."""
    return certificate("0.3", cyclic(4096), [1, 0], 1, 2, whole=False)


def long(size: int) -> str:
    """A text of the third format of so many bytes: rows to just below, and a portion and a code that fill the rest."""
    it = certificate("0.3", cyclic(4096), range(1, 215), 1, 214, whole=False)
    rest = size - len(text_of(dataclasses.replace(it, portion=[0])))
    # (an element of the portion takes 5 bytes from 1000 on, and a digit of the code one)
    it.code += "0" * (rest % 5 - 1) + "1" if rest % 5 else ""
    it.portion = [0, *range(1000, 1000 + rest // 5)]
    return text_of(it)


def doubled(lines: list[str], at: int) -> list[str]:
    return lines[: at + 1] + lines[at:]


def damages(line: str) -> Iterator[tuple[str, str]]:
    """A line with what no line may have."""
    name, *words = line.split(" ")
    yield "without its name", " ".join(words)
    yield "with another name", " ".join(["x" + name, *words])
    yield "with a space at its end", line + " "
    yield "with CR LF", line + "\r"
    yield "with a word more", f"{line} 0" if name != "portion" else f"{line} {words[-1]}"
    if not words:
        return
    yield "without its words", name
    yield "with two spaces", line.replace(" ", "  ", 1)
    yield "with a tab", line.replace(" ", "\t", 1)
    yield "with another letter", f"{line[:-1]}x"
    if name not in ("code", "portion"):
        yield "with a word less", " ".join([name, *words[:-1]])
    if name != "code":
        yield "with a leading zero", " ".join([name, "0" + words[0], *words[1:]])
        yield "with a number too large", " ".join([name, *words[:-1], "65536" + ":1" * (name == "words")])
        yield "with a number of 30 digits", " ".join([name, *words[:-1], "9" * 30 + ":1" * (name == "words")])
        yield "with a sign", " ".join([name, "-" + words[0], *words[1:]])


def damaged(text: str) -> Iterator[Named]:
    """The text with each line damaged in turn. Of its rows the first, the middle one and the last are."""
    *lines, _ = text.split("\n")
    rows = [at for at, line in enumerate(lines) if line.startswith("row ")]
    left = {*rows[1:-1]} - {rows[len(rows) // 2]}
    for at, line in enumerate(lines):
        if at in left:
            continue
        name = f"{line.split(' ')[0]}, line {at + 1},"
        changed = [(f"{name} {what}", lines[:at] + [new] + lines[at + 1 :]) for what, new in damages(line)]
        changed += [(f"{name} missing", lines[:at] + lines[at + 1 :]), (f"{name} twice", doubled(lines, at))]
        for what, them in changed:
            yield what, "\n".join([*them, ""]), False
    yield "cut behind its end", text[:-1], False
    yield "a byte more", text + "\n", False
    yield "nothing behind its first half", text[: len(text) // 2], False


def other_tables(it: Certificate) -> Iterator[Named]:
    """The certificate with other keys, elements of heaps and rows than a text in the third format may have."""
    first, of = firsts_of(it.keys), dataclasses.replace

    def keys(at: int, key: tuple[int, int]) -> Certificate:
        return of(it, keys=it.keys[:at] + [key] + it.keys[at + 1 :])

    whole = text_of(it, 2).split("\n")
    row = next(at for at, line in enumerate(whole) if line.startswith("row "))
    yield "with row 0 before its rows", text_of(it).replace("\nrow ", f"\n{whole[row]}\nrow ", 1), False
    yield "with all rows", "\n".join([f"mqc {it.format}", *whole[1:-3], "end", ""]), False
    yield "with its separators", text_of(it).replace("end\n", "\n".join(whole[-3:])), False
    heap = it.phi[:-1] + [first + 1]
    yield "a heap's element is above the first ones", text_of(of(it, phi=heap)), False
    yield "a heap's element is the last one", text_of(of(it, phi=it.phi[:-1] + [it.order - 1])), False
    for at in (first, (first + it.order) // 2, it.order - 2):
        yield f"the key of {at + 1} has this element", text_of(keys(at, (at + 1, 1))), False
        yield f"the key of {at + 1} has the last element", text_of(keys(at, (it.order - 1, 1))), False
    yield "the first key has another element", text_of(keys(0, (1, 1))), False
    yield "the last key has the element 0", text_of(keys(it.order - 2, (0, 1))), True
    if it.order > first + 2:
        yield "a key has an earlier element", text_of(keys(first + 1, (1, 1))), True
    yield "another portion", text_of(of(it, portion=[0])), True
    other = [*it.rows]
    other[1] = other[1][::-1]
    yield "the first row turned round", text_of(of(it, rows=other)), True


def of_other_formats() -> Iterator[Named]:
    """Texts at the edge of the third format, each in the format of its numbers and in the others."""
    for name, it in [*edge(), *[(name, it) for name, it in made().items() if it.order < 600]]:
        for form in (1, 2, 3):
            if form != it.format:
                yield f"{name} as mqc {form}", text_of(it, form), False
        for spelled in ("0", "4", "03", "3.0", ""):
            yield f"{name} as mqc {spelled}", text_of(it).replace(f"mqc {it.format}", f"mqc {spelled}", 1), False


def out_of_range() -> Iterator[Named]:
    """Small texts that say more than they have, or than there may be, and texts at the largest length."""
    head = "mqc 3\ncode 0.3\norder 4096\nstart 1\nperiod 2\n"
    yield "nothing behind the numbers of order 4096", head, False
    yield "the numbers of order 4096, and the end", head + "end\n", False
    yield "no rows of order 4096", head + "\n".join(text_of(largest()).split("\n")[5:8]) + "\nend\n", False
    yield "4,096 entries, and none of them", "mqc 3\ncode 0.3\norder 4096\nstart 1\nperiod 4096\nphi\n", False
    yield "order 4097", text_of(certificate("0.3", cyclic(4097), [1, 0], 1, 2, whole=False)), False
    yield "4,097 entries", text_of(certificate("0.3", cyclic(3), [1] * 4097, 2, 4096)), False
    yield "4,096 entries, all before the period", text_of(certificate("0.3", cyclic(3), [1] * 4096, 4096, 1)), True
    yield "a part to heap 1,025", text_of(certificate("0.3", cyclic(3), [1] * 1025, 1026, 0)), False
    yield "a part of order 600 to heap 1,024", text_of(certificate("0.3", cyclic(600), [1] * 1024, 1025, 0)), True


def long_texts() -> Iterator[Named]:
    """Texts of the most bytes, and of one more."""
    yield f"{LONGEST_TEXT} bytes", long(LONGEST_TEXT), True
    yield f"{LONGEST_TEXT + 1} bytes", long(LONGEST_TEXT + 1), False


def small() -> Iterator[str]:
    """Some right texts that aren't long, to change at random. (Of few heaps: with a code of many options the check of
    one of many heaps would take long.)"""
    yield from (text_of(made()[name]) for name in ("order 513", "order 720"))


def accepted() -> str:
    """A text that is accepted: of the first heaps of a tame game, up to the one with which the order is above 512."""
    return text_of(part("c.fedb", 137))


def texts() -> Iterator[Named]:
    """All of them, but for the largest ones."""
    for name, it in made().items():
        yield name, text_of(it), True
        if it.order < 600 or it.format == 3 and len(it.phi) < 10:
            yield from ((f"{name}: {what}", text, good) for what, text, good in other_tables(it))
    for name, it in edge():
        yield name, text_of(it), True
    yield from damaged(text_of(made()["order 720"]))
    yield from damaged(text_of(made()["1,025 entries"]))
    yield from of_other_formats()
    yield from out_of_range()


def large_texts() -> Iterator[Named]:
    """Those that take most time and memory: the largest order, by a short text, and the longest texts."""
    yield "order 4096", text_of(largest()), True
    yield from long_texts()
