"""Changed certificates, catalogues and steps, for scripts/fuzz: what somebody might write, right or wrong."""

from __future__ import annotations

import random
import re
import sys
from collections.abc import Sequence

sys.dont_write_bytecode = True
from certificate_lines import format_by, samples

NUMBERS = [
    b"0",
    b"1",
    b"2",
    b"3",
    b"00",
    b"01",
    b"9",
    b"255",
    b"256",
    b"257",
    b"511",
    b"512",
    b"513",
    b"1024",
    b"1025",
    b"1026",
    b"4095",
    b"4096",
    b"4097",
    b"4098",
]
NUMBERS += [b"65535", b"65536", b"18446744073709551616"]
CODES = [
    b"0.1",
    b"0.3",
    b"0.33",
    b"0.75",
    b"0.77",
    b"4.1",
    b"4.07",
    b"0.x",
    b"0.",
    b"0.1111111111111111",
    b"0.77777777777777777",
]
CODES += [
    b"0.8",
    b"0.b",
    b"0.f1",
    b"0.31a",
    b"0.b0b",
    b"0.3b",
    b"8.1",
    b"c.3",
    b"c.f",
    b"0.B",
    b"0.g",
    b"b.0",
    b"0.00000000000000b",
    b"0.ffffffffffffffff",
]
POSITIONS = [
    b"0",
    b"1",
    b"1 1",
    b"2 1000000000000",
    b"01",
    b"1 9 30 7",
    b"1000000000000000001",
    b"1 2 3 4 5 6 7 8 9 10",
    b"1 " * 63 + b"1",
]
POSITIONS += [b"2", b"2 3", b"8", b"2 5", b"9", b"4 4 4"]
PRESENTATIONS = [
    b"a^2=1 b^3=b",
    b"a=1",
    b"a^64=1 b^64=1",
    b"a^2=1  b^2=1",
    b"",
    b"a^3=a b^2=a c^9=b",
    b"a^16=a b^16=b c^16=c d^16=d a=b",
]


def code_of(text: bytes) -> list[bytes]:
    return re.findall(rb"(?m)^code .*$", text)[:1]


def numbers_of(text: bytes) -> list[int]:
    """The order, the start and the period of a certificate."""
    names = (b"order", b"start", b"period")
    return [int(it) for name in names for it in re.findall(rb"(?m)^%s (\d+)$" % name, text)[:1]]


def kind_of(text: bytes) -> tuple[bytes, int]:
    """The code of a certificate, and the last heap of which it speaks, or 0."""
    _, start, period = numbers_of(text)
    return code_of(text)[0], 0 if period else start - 1


def format_of(text: bytes) -> bytes:
    """The first line that a certificate has by its numbers."""
    return b"mqc %d" % format_by(code_of(text)[0][5:].decode(), *numbers_of(text))


# The accepted sample of each code and kind.
ACCEPTED = {kind_of(text): text for text in (path.read_bytes() for path in samples())}


# Steps of two clients, at one of two files.
STEPS = b"""open 1 x.mqc 2048
open 2 x.mqc 4294967295
work 1 1 10
work 2 1 18446744073709551615
work 1 1 1000000
ask 1 1 1 9
play 2 1 2 1000000000000
drop 1 1
open 1 y.mqc 0
work 1 1 5
"""


def part_of(text: bytes, chance: random.Random) -> bytes:
    """The certificate that says the same of the heaps up to a last one alone, where the text has its lines."""
    numbers, phi = numbers_of(text), re.findall(rb"(?m)^phi (.+)$", text)[:1]
    if len(numbers) < 3 or not phi:
        return text
    entries = phi[0].split(b" ")
    if numbers[2]:
        entries += 3 * entries[numbers[1] - 1 :]
    last = chance.randrange(1, len(entries) + 1)
    form = format_by("0.1", numbers[0], last + 1, 0)
    kept = b" ".join(entries[:last])
    lines = (b"mqc", b"%d" % form), (b"start", b"%d" % (last + 1)), (b"period", b"0"), (b"phi", kept)
    for name, words in lines:
        text = re.sub(rb"(?m)^%s .*$" % name, name + b" " + words, text, count=1)
    return text


def changed(text: bytes, chance: random.Random) -> bytes:
    """The text with a byte, a number, a line or the code changed, or made partial."""
    kind = chance.randrange(7)
    if kind == 0 and text:
        at = chance.randrange(len(text))
        return text[:at] + bytes([chance.randrange(256)]) + text[at + 1 :]
    if kind == 1 and text:
        at = chance.randrange(len(text))
        return text[:at] + text[at + chance.randrange(1, 9) :]
    if kind == 2:
        numbers = list(re.finditer(rb"\d+", text))
        if numbers:
            it = chance.choice(numbers)
            return text[: it.start()] + chance.choice(NUMBERS) + text[it.end() :]
    if kind == 3:
        lines = text.splitlines(keepends=True)
        if lines:
            at, other = chance.randrange(len(lines)), chance.randrange(len(lines))
            lines[at : at + chance.randrange(2)] = [lines[other]]
        return b"".join(lines)
    if kind == 4:
        return re.sub(rb"(?m)^code .*$", b"code " + chance.choice(CODES), text, count=1)
    if kind == 5:
        return part_of(text, chance)
    return text[: chance.randrange(len(text) + 1)]


def word(these: Sequence[bytes], chance: random.Random) -> bytes:
    """One of the words, changed or not. No word of a command line holds a zero byte, and none leads to another
    folder."""
    it = chance.choice(these)
    if chance.randrange(2):
        it = changed(it, chance)
    return it.replace(b"\0", b"").replace(b"/", b"")


def heaps_of(text: bytes) -> int:
    """The last heap of which a text speaks, where it reads like a partial certificate, or 0."""
    start = re.search(rb"(?m)^start (\d{1,6})$", text)
    return int(start[1]) - 1 if start and re.search(rb"(?m)^period 0$", text) else 0


def catalogue_of(texts: list[bytes], chance: random.Random) -> bytes:
    """A catalogue of either version of the texts, each with its own code or another one, and with its own heaps, others
    or none."""
    entries, version = [], chance.choice((1, 2, 2))
    for text in texts:
        code = (code_of(text) or [b"code 0.3"])[0][5:] if chance.randrange(4) else chance.choice(CODES)
        inner, outer = (quoted(it) for it in (text, code))
        names = (version == 2) == (chance.randrange(16) > 0)
        heaps = f',"heaps":{heaps_of(text) if chance.randrange(4) else chance.randrange(4)}' if names else ""
        entries.append('{"certificate":"%s","code":"%s"%s}' % (inner, outer, heaps))
    return ('{"entries":[%s],"version":%d}\n' % (",".join(entries), version)).encode()


def quoted(text: bytes) -> str:
    return text.decode("latin-1").replace("\\", "").replace('"', "").replace("\n", "\\n")
