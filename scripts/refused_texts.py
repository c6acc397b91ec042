"""Refused texts of certificates: each line changed in turn, and the edges of the third format."""

from __future__ import annotations

import pathlib
from collections.abc import Iterator

from certificate_lines import text_of
from made_certificates import TAME, certificate
from runs import Runs
from script import root

NO_TEXT = b"no 1 Text\n"

# The table of 0.33, and elements of 1,026 heaps
OF_0_33 = (
    f"mqc 3\ncode 0.33\norder 6\nstart 1\nperiod 1026\nphi{342 * ' 1 2 0'}\n"
    "portion 1 4\nwords 0:1 0:2 1:2 2:2 3:2\nrow 1 0 3 2 5 4\nrow 2 3 4 5 2 3\nend\n"
)

# What is in that text, and what is to be there, line for line from the first on: a line is missing, or something in it
# is changed
IN_THE_THIRD = [
    ("mqc 3\n", ""),
    ("mqc 3", "mqc 1"),
    ("mqc 3", "mqc 2"),
    ("mqc 3", "mqc 4"),
    ("mqc 3", "mqc 03"),
    ("mqc 3", " mqc 3"),
    ("code 0.33\n", ""),
    ("code 0.33", "code 0.330"),
    ("code 0.33", "code 0.3B"),
    ("order 6\n", ""),
    ("order 6", "order 1"),
    ("order 6", "order 5"),
    ("order 6", "order 7"),
    ("order 6", "order 06"),
    ("order 6", "order 4097"),
    ("start 1\n", ""),
    ("start 1\n", "start 0\n"),
    ("start 1\n", "start 2\n"),
    ("start 1\n", "start 4097\n"),
    ("period 1026\n", ""),
    ("period 1026", "period 0"),
    ("period 1026", "period 1025"),
    ("period 1026", "period 4097"),
    ("start 1\nperiod 1026", "start 1027\nperiod 0"),
    (" 1 2 0\nportion", " 1 2\nportion"),
    (" 1 2 0\nportion", " 1 2 0 1\nportion"),
    (" 1 2 0\nportion", " 1 2 6\nportion"),
    # the element of a heap is none of the first ones
    (" 1 2 0\nportion", " 1 2 3\nportion"),
    ("\nportion 1 4", ""),
    ("portion 1 4", "portion"),
    ("portion 1 4", "portion 4 1"),
    ("portion 1 4", "portion 1 1"),
    ("portion 1 4", "portion 1 6"),
    ("\nwords 0:1 0:2 1:2 2:2 3:2", ""),
    (" 3:2", ""),
    (" 3:2", " 3:2 4:2"),
    (" 3:2", " 3:0"),
    (" 3:2", " 3:1027"),
    (" 3:2", " 6:2"),
    # a key of the element itself, of a later one, and of the element before which it stands
    (" 3:2", " 5:2"),
    (" 2:2", " 5:2"),
    (" 1:2", " 3:2"),
    # one first element less, and one more
    (" 0:2", " 1:1"),
    (" 1:2", " 0:2"),
    (" 0:1", " 1:1"),
    ("row 1 0 3 2 5 4\n", ""),
    ("row 2 3 4 5 2 3\n", ""),
    ("row 1 0 3 2 5 4\nrow 2 3 4 5 2 3\n", ""),
    ("row 1 0 3 2 5 4", "row 0 1 2 3 4 5\nrow 1 0 3 2 5 4"),
    ("row 2 3 4 5 2 3", "row 2 3 4 5 2 3\nrow 3 2 5 4 3 2"),
    ("row 2 3 4 5 2 3", "row 2 3 4 6 2 3"),
    ("row 2 3 4 5 2 3", "row 2 3 4 65536 2 3"),
    ("row 2 3 4 5 2 3", "row 2 3 4 99999999999999999999 2 3"),
    ("row 2 3 4 5 2 3", "row 2 3 4 05 2 3"),
    ("row 2 3 4 5 2 3", "row 2 3 4  5 2 3"),
    ("row 2 3 4 5 2 3", "row 2 3 4 5 2"),
    ("row 2 3 4 5 2 3", "row 2 3 4 5 2 3 3"),
    ("row 2 3 4 5 2 3", "row 2 3 4 5 2 3 "),
    ("row 2 3 4 5 2 3", "rows 2 3 4 5 2 3"),
    # the separators' line, with them and without
    ("\nend\n", "\napart 0 1 1 0 4 0 0 4 0 2 0 1 0 1 0\nend\n"),
    ("\nend\n", "\napart\nend\n"),
    ("\nend\n", "\n"),
    ("\nend\n", "\nend"),
    ("\nend\n", "\nend \n"),
    ("\nend\n", "\nend\r\n"),
    ("\nend\n", "\nend\n\n"),
]

# The same of the certificates of 0.3, in the first format, and of 0.b, in the second
IN_THE_FIRST = [
    ("mqc 1", " mqc 1"),
    ("mqc 1", "mqc 0"),
    ("phi 1 0", "phi 1  0"),
    ("phi 1 0", "phi 1 0 "),
    ("code 0.3", "code 0.30"),
    ("order 2", "order 257"),
    ("order 2", "order 99999999999999999999999999999999"),
    ("start 1\nperiod 2", "start 1000\nperiod 26"),
    ("mqc 1\ncode 0.3\norder 2\nstart 1\nperiod 2", "mqc 2\ncode 0.3\norder 2\nstart 1026\nperiod 0"),
    ("phi 1 0", "phi 1 2"),
    ("portion 1", "portion 1 1"),
    ("portion 1", "portion"),
    ("words 0:1", "words 0:0"),
    ("row 1 0", "row 1"),
    ("row 1 0\n", ""),
]
IN_THE_SECOND = [("code 0.b", "code 0.b0"), ("start 1\nperiod 2", "start 1000\nperiod 26")]

# One element; and an order with nothing after it
CUT = ["mqc 1\ncode 0.3\norder 1\nstart 1\nperiod 2\nphi 0 0\nportion 0\nwords\nrow 0\napart\nend\n"]
CUT += ["mqc 1\ncode 0.3\norder 256\n"]


def changed_texts() -> Iterator[tuple[str, str]]:
    """The changes, each with the text that it makes."""
    samples = ((root / "certificates" / name).read_text() for name in ("0.3.mqc", "0.b.mqc"))
    for text, changes in zip((OF_0_33, *samples), (IN_THE_THIRD, IN_THE_FIRST, IN_THE_SECOND)):
        for old, new in changes:
            assert text.count(old) == 1, old
            yield f"{new!r} for {old!r}", text.replace(old, new)
    yield from ((text, text) for text in CUT)


def powers(order: int, code: str, start: int, period: int) -> str:
    """A text in the third format: the heap 1 has the element whose powers are all of them, other heaps have 0."""
    phi = f"1{(start + period - 2) * ' 0'}"
    words, row = (" ".join(it) for it in ((f"{n}:1" for n in range(order - 1)), map(str, [*range(1, order), 0])))
    head = f"mqc 3\ncode {code}\norder {order}\nstart {start}\nperiod {period}\nphi {phi}\n"
    return f"{head}portion 1\nwords {words}\nrow {row}\nend\n"


def tame(heaps: int, code: str, start: int, period: int) -> str:
    """The same of a tame quotient: the heaps are worth 1, 2, 4 and so on, and others 0."""
    values = [(1 << n, n > 0) for n in range(heaps)]
    phi = [*values, *(start + period - 1 - heaps) * [TAME.one]]
    return text_of(certificate(code, TAME, phi, start, period, whole=False), 3)


def edges() -> Iterator[tuple[str, str, bool]]:
    """Texts at the edges of the third format, and whether each is a certificate's: the least order; many first
    elements; the largest order, with the most entries; small orders, with the fewest entries and the most; numbers that
    are spelled in another format; too large an order; parts of too many heaps, and of none; and too many entries."""
    for order, code, start, period, is_one in [
        (513, "0.b", 2, 0, True),
        (4096, "4.0000000000000003", 1, 4096, True),
        (512, "0.3", 1, 1025, True),
        (2, "0.3", 1, 1025, True),
        (3000, "0.3", 2, 0, True),
        (4095, "0.3", 2, 0, True),
        (512, "0.3", 1025, 0, False),
        (512, "0.3", 1, 1024, False),
        (2, "0.3", 1024, 1, False),
        (4097, "0.3", 2, 0, False),
        (513, "0.3", 1026, 0, False),
        (2, "0.3", 1026, 0, False),
        (2, "0.3", 1, 4097, False),
        (2, "0.3", 4097, 1, False),
    ]:
        yield f"{order} powers in {code} from {start} by {period}", powers(order, code, start, period), is_one
    for heaps, code, start, period in [
        (9, "0.3", 1025, 0),
        (11, "0.3", 1, 11),
        (2, "0.33", 1025, 1),
        (8, "c.f", 4096, 1),
    ]:
        yield f"{heaps} tame heaps in {code}", tame(heaps, code, start, period), True
    yield from long_texts()


def long_texts() -> Iterator[tuple[str, str, bool]]:
    """The text of the most bytes, and one of a byte more; the most first elements that go into the most bytes; lines of
    the second format, of an order above its largest; and lines of the first, with an entry more than it has at most."""
    head = f"mqc 3\ncode 0.3\norder 1024\nstart 1025\nperiod 0\nphi{1024 * ' 1'}\n"
    head += f"portion 999\nwords{1021 * ' 0:1'}{2 * ' 1:1'}"
    for large, is_one in ((968, True), (969, False)):
        rows = 1019 * f"\nrow{1024 * ' 999'}" + f"\nrow{1024 * ' 1000'}"
        text = f"{head}{rows}\nrow{large * ' 1000'}{(1024 - large) * ' 999'}\nend\n"
        assert len(text) == (4 << 20) + (not is_one)
        yield f"{len(text)} bytes", text, is_one
    head = f"mqc 3\ncode 0.3\norder 1446\nstart 1025\nperiod 0\nphi{1024 * ' 1'}\nportion 1\nwords{1445 * ' 0:1'}"
    row = f"\nrow{1446 * ' 1'}"
    yield "1445 first elements", f"{head}{1445 * row}\nend\n", True
    head = f"mqc 2\ncode 0.3\norder 513\nstart 2\nperiod 0\nphi 512\nportion 512\nwords{512 * ' 512:1'}"
    row = f"\nrow{513 * ' 512'}"
    yield "the second format with 513", f"{head}{513 * row}\napart{131328 * ' 512'}\nend\n", False
    head = f"mqc 1\ncode 0.3\norder 2\nstart 1\nperiod 1025\nphi{1025 * ' 1'}\n"
    yield "1025 entries", f"{head}portion 1\nwords 0:1\nrow 0 1\nrow 1 0\napart 0\nend\n", False


def of_changes(program: str, _: pathlib.Path, runs: Runs) -> Iterator[str]:
    """Each changed text is no certificate's, and none of the beginnings of the text in the third format."""
    beginnings = ((f"{n} bytes", OF_0_33[:n]) for n in range(len(OF_0_33)))
    for name, text in (*changed_texts(), *beginnings):
        if runs.run([program, "check"], text.encode()).printed != NO_TEXT:
            yield name


def of_edges(program: str, _: pathlib.Path, runs: Runs) -> Iterator[str]:
    """Each text at an edge is a certificate's, right or not, or none."""
    for name, text, is_one in edges():
        run = runs.run([program, "check", "--limit", "10"], text.encode())
        if (run.printed != NO_TEXT) != is_one:
            yield f"{name}: {run.line}"
