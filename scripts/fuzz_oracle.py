"""For scripts/fuzz --oracle: changed certificates, of which misere and the program that is extracted from coq/ say the
same. The second has been proved right by Coq, so what differs is a fault of the first."""

from __future__ import annotations

import json
import os
import pathlib
import random
import re
import resource
import subprocess
import sys
import tempfile
from collections import Counter
from collections.abc import Iterable
from concurrent.futures import ProcessPoolExecutor
from dataclasses import dataclass, replace
from itertools import chain, repeat

sys.dont_write_bytecode = True
import presented
import third_texts
from fuzz_texts import changed
from script import root

CHECKER = root / "coq/out/checker"
SECONDS = 60
BATCH = 25  # so many texts to a run of the program of coq/
LARGEST = 100  # the order above which a text isn't changed
NUMBERED = re.compile(rb"(?m)^(phi|portion|words|row|apart|start|period|rise|odd|weights|leads) .*$")
# Presentations are made of certificates with so many entries of the line phi at most, and one in so many
FEW_HEAPS, STEP = 40, 4
LETTERS = 26
MOST_BYTES = 2500  # the length above which a presentation isn't changed: each one takes seconds
UNDECIDED = "no 33 Undecided"
KINDS = ("of finite quotients", "of whole games", "of presentations")
COMMANDS = ("check", "infinite", "verify")


def are_small(texts: Iterable[bytes]) -> list[bytes]:
    return [it for it in texts if (order := re.search(rb"(?m)^order (\d+)$", it)) and int(order[1]) <= LARGEST]


def of_the_atlas() -> list[bytes]:
    """The certificates of the atlas of small orders."""
    catalogues = [json.loads((root / f"atlas/{name}.json").read_text()) for name in ("octal", "hexadecimal")]
    return are_small(entry["certificate"].encode() for it in catalogues for entry in it["entries"])


def small_finite() -> list[bytes]:
    """The certificates of the atlas of small orders, and now and then one of the third format."""
    texts = of_the_atlas()
    return texts + [text.encode() for text in third_texts.small()] * (len(texts) // 16)


def whole_games() -> list[bytes]:
    """The texts of whole games."""
    files = [*sorted(root.glob("certificates/*.mqw")), *sorted(root.glob("atlas/whole/*.mqw"))]
    return [file.read_bytes() for file in files]


def presentations(program: str) -> list[bytes]:
    """The presentations here, and those of certificates of few heaps, as the program describes them."""
    few = [it.decode() for it in of_the_atlas() if it.split(b"\nphi ")[1].split(b"\n")[0].count(b" ") < FEW_HEAPS]
    given = [presented.presentation_of(presented.described(program, it)) for it in few[::STEP]]
    made = [it.text().encode() for it in given if len(it.letters) <= LETTERS]
    samples = [file.read_bytes() for file in sorted(root.glob("certificates/**/*.mqp"))]
    return made + [it for it in samples if len(it) <= MOST_BYTES]


def nudged(text: bytes, chance: random.Random) -> bytes:
    """The text with one number a little larger or smaller, or as another one of its line, so that most are in range;
    or with two lines exchanged that have one name."""
    named: dict[bytes, list[re.Match[bytes]]] = {}
    for line in NUMBERED.finditer(text):
        named.setdefault(line[1], []).append(line)
    if not named:
        return text
    lines = named[chance.choice(sorted(named))]
    line = chance.choice(lines)
    if len(lines) > 1 and chance.randrange(6) == 0:
        one, two = sorted(chance.sample(lines, 2), key=lambda it: it.start())
        return text[: one.start()] + two[0] + text[one.end() : two.start()] + one[0] + text[two.end() :]
    numbers = list(re.finditer(rb"\d+", line[0]))
    if not numbers:
        return text
    it, at = chance.choice(numbers), line.start()
    number = int(it[0])
    new = chance.choice([b"%d" % (number + 1), b"%d" % max(0, number - 1), chance.choice(numbers)[0]])
    return text[: at + it.start()] + new + text[at + it.end() :]


def damaged(samples: list[bytes], chance: random.Random) -> bytes:
    """A sample with one to three changes, most of them small."""
    text = chance.choice(samples)
    for _ in range(chance.choice((1, 1, 2, 3))):
        text = changed(text, chance) if chance.randrange(4) == 0 else nudged(text, chance)
    return text


def otherwise_presented(text: bytes, chance: random.Random) -> bytes:
    """A presentation with one to three changes, and now and then without the word of a heap."""
    given = presented.parsed(text.decode())
    for _ in range(chance.choice((1, 1, 2, 3))):
        given = presented.changed(chance, given) if given.relations else given
    if chance.randrange(8) == 0:
        at = chance.randrange(len(given.words) - 1) if len(given.words) > 1 else 0
        given = replace(given, words=(*given.words[:at], None, *given.words[at + 1 :]))
    return given.text().encode()


def changed_text(samples: list[bytes], kind: str, chance: random.Random) -> bytes:
    """A changed sample: of presentations most are so that they say something."""
    if kind == KINDS[2] and chance.randrange(4):
        return otherwise_presented(chance.choice(samples), chance)
    return damaged(samples, chance)


def line_of(words: list[str | pathlib.Path]) -> str:
    """The first line that a program prints."""
    try:
        run = subprocess.run(words, capture_output=True, timeout=SECONDS, check=False)
    except subprocess.TimeoutExpired:
        return "no end"
    return (run.stdout.decode(errors="replace").splitlines() or [f"status {run.returncode}"])[0]


def limit() -> None:
    resource.setrlimit(resource.RLIMIT_CPU, (SECONDS, SECONDS + 1))


def checked(files: list[pathlib.Path]) -> dict[pathlib.Path, str]:
    """The line that the program of coq/ prints of each file. A run goes through all of them; of one that has no end
    the next begins behind the file at which it stood."""
    said: dict[pathlib.Path, str] = {}
    while left := files[len(said) :]:
        # (of a single file it doesn't print the name)
        run = subprocess.run([CHECKER, *left, os.devnull], capture_output=True, preexec_fn=limit, check=False)
        lines = dict(line.split("\t", 1) for line in run.stdout.decode(errors="replace").splitlines())
        is_ended = run.returncode < 0
        told = left[: len(lines) + 1] if is_ended else left
        said |= {file: lines.get(str(file), "no end" if is_ended else "status 3") for file in told}
    return said


@dataclass(frozen=True)
class Oracle:
    """Two programs, and the texts that are changed for them."""

    program: str
    samples: dict[str, list[bytes]]

    def look(self, seeds: range, kind: str) -> list[tuple[str, str, int]]:
        """What misere says of changed texts, what the other program says, and the seeds."""
        command = COMMANDS[KINDS.index(kind)]
        with tempfile.TemporaryDirectory() as folder:
            files = {pathlib.Path(folder, str(seed)): seed for seed in seeds}
            for file, seed in files.items():
                file.write_bytes(changed_text(self.samples[kind], kind, random.Random(seed)))
            others = checked(list(files))
            return [(as_told(line_of([self.program, command, it]), others[it]), others[it], files[it]) for it in files]


def is_given_up(said: str, other: str) -> bool:
    return "no end" in (said, other) or said == "no 8 Limit"


def as_told(said: str, other: str) -> str:
    """What misere says, without the position at which a text of a whole game is wrong: the other program seeks none."""
    return other if (said, other) == ("no 7 Outcome", UNDECIDED) else said


def answer_of(line: str) -> str:
    """The line without the certificate of which it tells."""
    return line if line.startswith("no") else line.split(" ")[0]


def oracle(program: str) -> Oracle:
    samples = (small_finite(), whole_games(), presentations(program))
    return Oracle(program, dict(zip(KINDS, samples)))


def is_decided_once(said: str, other: str, kind: str) -> bool:
    """Whether one of the two doesn't decide what the other says of a presentation, which is no contradiction."""
    lines = (said, other)
    return kind == KINDS[2] and UNDECIDED in lines and "no 1 Text" not in lines


def look_at(oracle: Oracle, seed: int, count: int, kind: str, jobs: int | None) -> int:
    """Looks at so many changed texts and tells what was said of them. How many differ.

    A check that is given up at its limit isn't compared, nor one that has no end in a minute: these are counted. So
    are presentations of which one decides nothing.
    """
    answers: Counter[str] = Counter()
    wrong = 0
    with ProcessPoolExecutor(jobs) as pool:
        end = seed + count
        batches = [range(at, min(at + BATCH, end)) for at in range(seed, end, BATCH)]
        looks = pool.map(Oracle.look, repeat(oracle), batches, repeat(kind))
        for said, other, at in chain.from_iterable(looks):
            if is_given_up(said, other):
                answers["not compared"] += 1
            elif said == other:
                answers[answer_of(said)] += 1
            elif is_decided_once(said, other, kind):
                number = other.split()[1] if other.startswith("no ") else answer_of(other)
                answers[f"{answer_of(said)} ({number} by coq/)"] += 1
            else:
                wrong += 1
                print(f"seed {at}: {said!r}, and by coq/ {other!r}", flush=True)
    told = ", ".join(f"{number} {answer}" for answer, number in sorted(answers.items()))
    print(f"{count} changed texts {kind}: {told}; {wrong} differ", flush=True)
    return wrong
