"""Rows whose files are made by a rule: beginnings of a certificate, codes whose certificates can be written by rule,
large certificates, catalogues of many entries, long lines, words that are no text, and devices that fail."""

from __future__ import annotations

import json
import os
import pathlib
import subprocess
from collections.abc import Callable, Iterable, Iterator
from dataclasses import dataclass

from certificate_lines import Certificate, text_of, words_of
from made_certificates import certificate, cyclic, part
from positions_by_values import faults_at
from refused_texts import changed_texts, edges, of_changes, of_edges
from runs import Run, Runs
from script import root

CERTIFICATES = root / "certificates"
# The most bytes of standard input that are read, of positions and of certificates
LARGEST_INPUT = 4 << 20
# The files that a refusal names a position of
REFUTED = sorted((CERTIFICATES / "refused").glob("outcome_*.mqc"))
# What another program, in Python, found in the tables of parts of these games
TAILS = {"0.be": "above heap 2 outside 2", "0.79": "above heap 14 outside 10", "c.7": "above heap 1 outside 2"}


@dataclass
class Made:
    """So many rows, and what of them doesn't hold: a call with the program, an empty folder and the runs."""

    name: str
    count: int
    faults: Callable[[str, pathlib.Path, Runs], Iterable[str]]


def differs(run: Run, status: int, printed: bytes, told: bytes = b"") -> Iterator[str]:
    """What of a run isn't so."""
    if run.status != status:
        yield f"ends with {run.status}, not {status}"
    if run.printed != printed:
        yield f"prints {run.printed[:200]!r}"
    if run.told != told:
        yield f"tells {run.told[:200]!r}"


def sample(name: str) -> bytes:
    return (CERTIFICATES / name).read_bytes()


def beginnings(program: str, _: pathlib.Path, runs: Runs) -> Iterator[str]:
    """Each proper beginning of the certificate of 0.3 is no text, and the whole is accepted."""
    text = sample("0.3.mqc")
    for n in range(len(text)):
        yield from differs(runs.run([program, "check"], text[:n]), 1, b"no 1 Text\n")


def by_rule(number: int) -> tuple[str, str]:
    """A code whose digits after the point are the bits of a number, lowest first, and its certificate: the digits are
    the heaps' elements."""
    digits = f"{number:b}"[::-1]
    phi, first = " ".join([*digits, "0"]), digits.index("1") + 1
    front = f"mqc 1\ncode 0.{digits}\norder 2\nstart {len(digits) + 1}\nperiod 1\nphi {phi}\n"
    return f"0.{digits}", f"{front}portion 1\nwords 0:{first}\nrow 0 1\nrow 1 0\napart 0\nend\n"


def codes_by_rule(program: str, _: pathlib.Path, runs: Runs) -> Iterator[str]:
    """The codes of at most eight digits 0 and 1."""
    made = [by_rule(number) for number in range(1, 256)]
    lines, texts = "".join(f"{code}\n" for code, _ in made), "".join(text for _, text in made)
    yield from differs(runs.run([program, "solve", "-", "--heaps", "12"], lines.encode()), 0, texts.encode())


def many_codes(program: str, _: pathlib.Path, runs: Runs) -> Iterator[str]:
    """400 words that are codes, and as many lines."""
    text = 400 * sample("0.3.mqc")
    yield from differs(runs.run([program, "solve", *400 * ["0.3"], "--heaps", "12"]), 0, text)
    yield from differs(runs.run([program, "solve", "-", "--heaps", "12"], 400 * b"0.3\n"), 0, text)


def tails_of_codes(program: str, _: pathlib.Path, runs: Runs) -> Iterator[str]:
    """The parts that are found of codes alone show beyond which heap their games are normal play."""
    for code, said in TAILS.items():
        found = runs.run([program, "solve", code, "--furthest", "64"])
        yield from differs(runs.run([program, "tail", "-"], found.printed), 0, f"normal {code} {said}\n".encode())


def refuting_positions(program: str, _: pathlib.Path, runs: Runs) -> Iterator[str]:
    """Where a refusal says that the rule fails, it fails by loops over the certificate's own numbers."""
    for file in REFUTED:
        run = runs.run([program, "check", str(file)])
        yield from (f"{file.name}: {it}" for it in faults_at(file.read_text(), run.printed.decode()))


def over_cyclic(order: int) -> Certificate:
    """A certificate for 0.3 over a cyclic group, which is wrong first at positions of many heaps."""
    return certificate("0.3", cyclic(order), [1, 0], 1, 2, whole=order <= 512)


def with_last_but_one(order: int) -> Certificate:
    """The same with all odd elements and the last but one in the portion, so that the rule fails inside it."""
    monoid = cyclic(order)
    monoid.holds = lambda x: x % 2 == 1 or x + 2 == order
    return certificate("0.3", monoid, [1, 0], 1, 2)


# Refused texts of the third format: what stands before the heaps' elements, some of them with how often they stand, and
# what comes after them; and how the verdict begins
FRONT, BACK = "mqc 3\ncode 0.3\norder 2\nstart 1\nperiod 1026\nphi", "\nportion 1\nwords 0:1\nrow 1 0\nend\n"
OF_SIX = "mqc 3\ncode 0.33\norder 6\nstart 1\nperiod 1026\nphi"
OF_FOUR = "mqc 3\ncode 0.3\norder 4\nstart 1\nperiod"
THIRD_FORMAT = [
    (FRONT, " 1 0", 513, BACK, "no 5 Period\n"),
    (FRONT, " 1 0", 512, BACK, "no 1 Text\n"),
    ("mqc 3\ncode 0.3\norder 2\nstart 1\nperiod 1024\nphi", " 1 0", 512, BACK, "no 1 Text\n"),
    ("mqc 3\ncode 0.3\norder 2\nstart 1025\nperiod 2\nphi", " 1 0", 513, BACK, "no 5 Period\n"),
    (FRONT, " 1 0", 513, "\nportion 1\nwords 0:1\nrow 0 1\nend\n", "no 2 Law\n"),
    (
        f"{OF_FOUR} 1026\nphi",
        " 1 0",
        513,
        "\nportion 1\nwords 0:1 0:1 2:1\nrow 1 0 3 2\nrow 2 3 0 1\nend\n",
        "no 3 Word\n",
    ),
    # the elements 4 and 5 exchanged
    (
        OF_SIX,
        " 1 2 0",
        342,
        "\nportion 1 5\nwords 0:1 0:2 1:2 3:2 2:2\nrow 1 0 3 2 5 4\nrow 2 3 5 4 3 2\nend\n",
        "no 4 Order\n",
    ),
    (
        OF_SIX,
        " 1 2 0",
        342,
        "\nportion 1 4\nwords 0:1 0:2 1:2 2:2 3:2\nrow 1 0 3 2 5 4\nrow 2 3 4 5 2 3\nend\n",
        "no 5 Period\n",
    ),
    # nothing separates 0 and 2
    (
        f"{OF_FOUR} 1025\nphi",
        " 1 2",
        512,
        " 1\nportion 1 3\nwords 0:1 0:2 1:2\nrow 1 0 3 2\nrow 2 3 0 1\nend\n",
        "no 6 Apart\n",
    ),
    # two heaps in a row have the element 1, of which the greater has a move to the smaller
    ("mqc 3\ncode 0.3\norder 2\nstart 1\nperiod 1027\nphi 1", " 1 0", 513, BACK, "no 7 Outcome\nrule fails at "),
]


def third_format(program: str, _: pathlib.Path, runs: Runs) -> Iterator[str]:
    """Each fault of a text in the third format, with more than 1,024 entries for heaps."""
    for front, entries, times, back, verdict in THIRD_FORMAT:
        run = runs.run([program, "check"], f"{front}{times * entries}{back}".encode())
        if run.status != 1 or not run.printed.startswith(verdict.encode()):
            yield f"{verdict!r}: {run.line}"


def heaps_at(run: Run) -> int:
    """How many heaps the position has that a refusal names."""
    lines = run.printed.decode().splitlines()
    return len(lines[1].split(" ")) - 3 if lines[:1] == ["no 7 Outcome"] else 0


def large_refusals(program: str, folder: pathlib.Path, runs: Runs) -> Iterator[str]:
    """Orders of each width of the sets, refuted at positions of more than 64 heaps; more members than the limit; the
    longest pretending function and the most digits."""
    made = {f"order {it}": over_cyclic(it) for it in (66, 256, 258, 512, 514, 1026)}
    made["inside the portion"] = with_last_but_one(256)
    for name, it in made.items():
        run = runs.run([program, "check"], text_of(it).encode())
        if run.status != 1 or heaps_at(run) <= 64:
            yield f"{name}: {run.line}"
    for order in (514, 4096):
        run = runs.run([program, "check", "--limit", "10"], text_of(over_cyclic(order)).encode())
        yield from differs(run, 1, b"no 8 Limit\n")
    phi = " ".join(str(n % 2) for n in range(1, 4096))
    front = f"mqc 3\ncode 0.3000000000000003\norder 2\nstart 1\nperiod 4096\nphi {phi} 1\n"
    run = runs.run([program, "check"], f"{front}portion 1\nwords 0:1\nrow 1 0\nend\n".encode())
    if run.line != "no 7 Outcome":
        yield f"the longest: {run.line}"


def large_quotients(program: str, folder: pathlib.Path, runs: Runs) -> Iterator[str]:
    """Parts of games that are played as Nim is, of order 514 and of order 258, and a part of 0.3."""
    nim = runs.run([program, "check"], text_of(part("0.e8", 257)).encode())
    yield from differs(nim, 0, b"yes 0.e8 order 514 heaps 257\n")
    of_0_3 = runs.run([program, "check"], text_of(part("0.3", 100)).encode())
    yield from differs(of_0_3, 0, b"yes 0.3 order 2 heaps 100\n")
    text = text_of(part("0.e8", 256))
    if len(text) != 350680:
        yield f"its text has {len(text)} bytes"
    shown = runs.run([program, "show", "-"], text.encode()).printed.decode()
    if not shown.startswith("code 0.e8\norder 258\nelement 0 N 0\nelement 1 P 2\nelement 2 N 3\n"):
        yield f"shows {shown[:200]!r}"
    if not shown.endswith("\nheap 255 254\nheap 256 255\nheaps to 256\n"):
        yield f"shows at the end {shown[-100:]!r}"
    described = runs.run([program, "describe"], text.encode()).printed.decode()
    if not described.startswith(TAME_8) or not described.endswith("\nheaps to 256\n"):
        yield f"describes {described[:400]!r}"


# How the description of the quotient of order 258 begins: the presentation of T_8
TAME_8 = """\
Q_256(0.e8) = < a,b,c,d,e,f,g,h | a^2=1, b^3=b, b^2c=c, c^2=b^2, b^2d=d, d^2=b^2, \
b^2e=e, e^2=b^2, b^2f=f, f^2=b^2, b^2g=g, g^2=b^2, b^2h=h, h^2=b^2 >
P_256 = { a, b^2 }
order 258 portion 2 tame 8
generators a=2 b=3 c=5 d=9 e=17 f=33 g=65 h=129
units 1 a
idempotents 1 b^2
kernel b c d """


def catalogue_of(texts: Iterable[tuple[str, str, int]], version: int) -> bytes:
    """A catalogue of certificates, with their codes and last heaps, as it is written."""
    entries: list[dict[str, str | int]] = []
    for code, text, last in texts:
        entries.append({"certificate": text, "code": code, **({"heaps": last} if version == 2 else {})})
    return json.dumps({"entries": entries, "version": version}, separators=(",", ":")).encode() + b"\n"


def part_of_0_3(last: int) -> tuple[str, str, int]:
    phi = " ".join(str(n % 2) for n in range(1, last + 1))
    front = f"mqc 2\ncode 0.3\norder 2\nstart {last + 1}\nperiod 0\nphi {phi}\n"
    return "0.3", f"{front}portion 1\nwords 0:1\nrow 0 1\nrow 1 0\napart 0\nend\n", last


class Catalogues:
    """Tasks on the file x.json of a folder."""

    def __init__(self, program: str, folder: pathlib.Path, runs: Runs) -> None:
        self.words, self.folder, self.runs = [program, "catalogue", "x.json"], folder, runs

    def put(self, held: bytes) -> None:
        (self.folder / "x.json").write_bytes(held)

    def does(self, words: str, status: int, printed: str, held: bytes) -> Iterator[str]:
        """What of a task isn't so, nor of the file after it."""
        run = self.runs.run([*self.words, *words.split()], folder=str(self.folder))
        yield from (f"{words}: {it}" for it in differs(run, status, printed.encode()))
        if (self.folder / "x.json").read_bytes() != held:
            yield f"{words}: the file isn't as it should be"


def catalogues_of_many(program: str, folder: pathlib.Path, runs: Runs) -> Iterator[str]:
    """600 parts, listed and kept; 100 codes, of which the first, the last and no other are given; files with each entry
    twice; and files of the first version, made into the second."""
    tasks = Catalogues(program, folder, runs)
    held = catalogue_of(map(part_of_0_3, range(1, 601)), 2)
    lines = "".join(f"0.3 order 2 heaps {n}\n" for n in range(1, 601))
    tasks.put(held)
    for words, printed in (("", lines), ("--salvage", "kept 600\n"), ("", lines)):
        yield from tasks.does(words, 0, printed, held)
    made = [(*by_rule(number), 0) for number in range(1, 102)]
    held = catalogue_of(made[:100], 2)
    tasks.put(held)
    for code, text, _ in (made[0], made[99]):
        yield from tasks.does(f"--get {code}", 0, text, held)
    yield from tasks.does(f"--get {made[100][0]}", 1, "absent\n", held)
    for count in (1, 9, 65):
        once, twice = catalogue_of(made[:count], 2), catalogue_of(2 * made[:count], 2)
        tasks.put(catalogue_of(made[:count], 1))
        yield from tasks.does("--migrate", 0, f"migrated {count}\n", once)
        tasks.put(twice)
        yield from tasks.does("", 1, f"refused 5 Twice {count + 1}\n", twice)
        said = "".join(f"refused 5 Twice {n}\n" for n in range(count + 1, 2 * count + 1))
        yield from tasks.does("--salvage", 0, f"{said}kept {count}\n", once)


def catalogue_that_grows(program: str, folder: pathlib.Path, runs: Runs) -> Iterator[str]:
    """65 entries, added one after another to an empty catalogue."""
    tasks, made = Catalogues(program, folder, runs), [(*by_rule(number), 0) for number in range(1, 66)]
    for count, (code, text, _) in enumerate(made, 1):
        (folder / "a.mqc").write_text(text)
        words = "--add a.mqc" + (" --new" if count == 1 else "")
        yield from tasks.does(words, 0, f"added {code}\n", catalogue_of(made[:count], 2))


def long_lines(program: str, folder: pathlib.Path, runs: Runs) -> Iterator[str]:
    """2,000 steps of a desk; as much standard input as is read, and a byte more; words of 70,000 bytes; many words."""
    (folder / "steps").write_text(2000 * "drop 1 1\n")
    yield from differs(runs.run([program, "desk", "steps"], folder=str(folder)), 0, 2000 * b"refused 21 NoJob\n")
    unread = b"misere: cannot read standard input\n"
    play = [program, "play", str(CERTIFICATES / "0.33.mqc"), "-"]
    yield from differs(runs.run(play, LARGEST_INPUT * b"x"), 1, b"not a position\n")
    yield from differs(runs.run(play, (LARGEST_INPUT + 1) * b"x"), 3, b"", unread)
    yield from differs(runs.run([program, "solve", "-"], (LARGEST_INPUT + 1) * b"\n"), 3, b"", unread)
    word = 7000 * "1000000000"
    yield from differs(runs.run([program, "play", "0.3.mqc", word]), 2, b"", b"misere: not a position\n")
    for count in (300, 5000):
        run = runs.run([program, *count * ["misere"]])
        if run.status != 2 or run.printed or not run.told:
            yield f"{count} words: ends with {run.status}"


def bytes_that_are_no_text(program: str, folder: pathlib.Path, runs: Runs) -> Iterator[str]:
    """A word that isn't UTF-8, and lines of a desk's script that hold such a byte or a carriage return."""
    run = subprocess.run([program.encode(), b"check", b"\xff"], capture_output=True, check=False)
    if (run.returncode, run.stdout, run.stderr) != (2, b"", b"misere: a word isn't UTF-8\n"):
        yield f"a word: ends with {run.returncode}"
    for line in (b"open 1 \xff 8\n", b"drop 1 1\r\n"):
        (folder / "steps").write_bytes(line)
        told = b"misere: line 1 isn't a step\n"
        yield from differs(runs.run([program, "desk", "steps"], folder=str(folder)), 2, b"", told)


# Words with bytes that a line of rows can't hold, and what is wrong with them.
EXPLAINED = [
    ("--code", "0.77\r", "byte 5: a carriage return, which no code has"),
    ("--code", "0.77\n", "byte 5: a line end, which no code has"),
    ("--code", "0.7\t7", "byte 4: a tab, which no code has"),
    ("--code", "0.\u00b7", "byte 3: the byte 194, which no code has"),
    ("--position", "3 5\r", "size 2: a carriage return, which no size has"),
    ("--position", "3\t5", "size 1: a tab, which no size has"),
    ("--position", "\u00bd", "size 1: the byte 194, which no size has"),
    ("--position", "\x7f", "size 1: the byte 127, which no size has"),
]


def explained_words(program: str, _: pathlib.Path, runs: Runs) -> Iterator[str]:
    for option, word, line in EXPLAINED:
        yield from differs(runs.run([program, "explain", option, word]), 1, f"{line}\n".encode())


READING = ["check", "check -", "show -", "describe", "play - 1", "play 0.3.mqc -", "solve -", "infinite -"]
WRITING = ["check 0.3.mqc", "check --help", "show 0.3.mqc", "present a=1"]
OF_FILES = ["check 0.33.mqc", "show 0.33.mqc", "play 0.33.mqc 1", "catalogue 0.33.mqc"]


def failing_devices(program: str, folder: pathlib.Path, _: Runs) -> Iterator[str]:
    """A standard input and files that can't be read, as folders can't; a standard output and a catalogue that can't be
    written."""
    (folder / "0.3.mqc").write_bytes(sample("0.3.mqc"))
    for name in ("0.33.mqc", "x.json"):
        (folder / name).mkdir()
    tried = [(words, "standard input", f"misere: cannot read standard input\n") for words in READING]
    tried += [(words, "standard output", "misere: cannot write\n") for words in WRITING]
    tried += [(words, "", "misere: cannot read 0.33.mqc\n") for words in OF_FILES]
    tried += [("catalogue x.json --new", "", "misere: cannot write\n")]
    for words, device, told in tried:
        run = run_on(program, words, folder, device)
        if (run.returncode, run.stderr) != (3, told.encode()) or run.stdout:
            yield f"{words}: ends with {run.returncode}, tells {run.stderr!r}"


def run_on(program: str, words: str, folder: pathlib.Path, device: str) -> subprocess.CompletedProcess[bytes]:
    """A run whose standard input or standard output fails."""
    given = os.open(folder if device == "standard input" else os.devnull, os.O_RDONLY)
    put = os.open("/dev/full", os.O_WRONLY) if device == "standard output" else subprocess.PIPE
    try:
        return subprocess.run(
            [program, *words.split()], cwd=folder, stdin=given, stdout=put, stderr=subprocess.PIPE, check=False
        )
    finally:
        os.close(given)
        if device == "standard output":
            os.close(put)


# The lines that a text may leave out, and those that go on for as long as numbers or words come
OPTIONAL, OPEN = ("relation",), ("letters", "portion")


def table_of(text: str) -> str:
    """The table of a certificate: its lines without keys and separators."""
    lines = [it for it in text.splitlines() if it.split()[0] not in ("mqc", "words", "apart")]
    return "\n".join(["table 1", *(f"heaps{it[3:]}" if it.startswith("phi") else it for it in lines)]) + "\n"


def texts_of_kinds() -> list[list[str]]:
    """The lines of one text of each kind."""
    names = ("0.33.mqc", "0.354_heaps_5.mqp", "0.734.mqw")
    texts = [sample(it).decode() for it in names]
    return [it.splitlines() for it in (*texts, table_of(texts[0]))]


def wanted_at(lines: list[str], at: int) -> str:
    """The first word of a line, or, of one that may be left out, that of the next line of another kind."""
    words = [it.split()[0] for it in lines]
    while words[at] in OPTIONAL and words[at + 1] == words[at]:
        at += 1
    return f'"{words[at + 1 if words[at] in OPTIONAL else at]}"' if at else "mqc, mqw, mqp or table"


def damaged(lines: list[str], at: int) -> Iterator[tuple[list[str], str]]:
    """A text with another first word in a line, without that line and all after it, and with a word more in it; and how
    the line that is printed begins."""
    word, rest = lines[at].split()[0], lines[at].partition(" ")[2]
    yield [*lines[:at], f"x {rest}", *lines[at + 1 :]], f'line {at + 1}: "x" in place of {wanted_at(lines, at)}\n'
    yield lines[:at], f"line {at + 1}: the end of the text in place of {wanted_at(lines, at)}\n" if at else "no byte\n"
    more = '"X" in place of a ' if word in OPEN else "a space in place of the end of the line\n"
    yield [*lines[:at], f"{lines[at]} X", *lines[at + 1 :]], f"line {at + 1}: {more}"


def damages() -> list[tuple[list[str], str]]:
    return [it for lines in texts_of_kinds() for at in range(len(lines)) for it in damaged(lines, at)]


def explained_texts(program: str, _: pathlib.Path, runs: Runs) -> Iterator[str]:
    """Each line of a text of each kind, damaged in three ways."""
    for lines, begins in damages():
        run = runs.run([program, "explain"], "".join(f"{it}\n" for it in lines).encode())
        if run.status != 1 or not run.printed.startswith(begins.encode()):
            yield f"prints {run.printed!r}, not {begins!r}"


def damaged_tables() -> list[tuple[list[str], int]]:
    """A table with each line damaged in three ways, and that line's number."""
    lines = texts_of_kinds()[-1]
    return [(text, at + 1) for at in range(len(lines)) for text, _ in damaged(lines, at)]


def lines_of_tables(program: str, _: pathlib.Path, runs: Runs) -> Iterator[str]:
    """`certify` names the line at which a text is no table."""
    for lines, line in damaged_tables():
        run = runs.run([program, "certify", "-"], "".join(f"{it}\n" for it in lines).encode())
        yield from differs(run, 1, f"no 1 Text line {line}\n".encode())


def made_rows() -> Iterator[Made]:
    """All of them, those that take longest first."""
    yield Made("large refusals", 10, large_refusals)
    yield Made("large quotients", 4, large_quotients)
    yield Made("edges of the formats", sum(1 for _ in edges()), of_edges)
    yield Made("changed texts", sum(1 for _ in changed_texts()), of_changes)
    yield Made("codes by rule", 255, codes_by_rule)
    yield Made("many codes", 2, many_codes)
    yield Made("catalogues of many entries", 15, catalogues_of_many)
    yield Made("a catalogue that grows", 65, catalogue_that_grows)
    yield Made("tails of codes", len(TAILS), tails_of_codes)
    yield Made("beginnings", len(sample("0.3.mqc")), beginnings)
    yield Made("refuting positions", len(REFUTED), refuting_positions)
    yield Made("the third format", len(THIRD_FORMAT), third_format)
    yield Made("long lines", 7, long_lines)
    yield Made("bytes that are no text", 3, bytes_that_are_no_text)
    yield Made("explained words", len(EXPLAINED), explained_words)
    yield Made("explained texts", len(damages()), explained_texts)
    yield Made("lines of tables", len(damaged_tables()), lines_of_tables)
    yield Made("failing devices", len(READING) + len(WRITING) + len(OF_FILES) + 1, failing_devices)
