"""The bounds of the calls: each stands once in the crates, and once in each language over them.

A bound that is written by hand in a second place falls behind when the first one changes. So what a language needs of
them has one file there, and whatever else needs it takes it from that file.
"""

from __future__ import annotations

import re
import sys
from collections.abc import Iterator

sys.dont_write_bytecode = True
from script import root

# Where each language has its bounds, and how one is written there
PLACES = {
    "misere.h": ("library/misere.h", r"^#define MISERE_{name} (.+)$"),
    "_bounds.py": ("library/misere/_bounds.py", r"^{name}: Final = (.+)$"),
    "bounds.rs": ("library/rust/src/bounds.rs", r"^pub(?:\(crate\))? const {name}: \w+ = (.+);$"),
    "calls.js": ("web/calls.js", r"^export const {name} = (.+);$"),
}
# Each bound: the constants of the crates that are it, and its name in each language, or none where it isn't needed
BOUNDS: list[tuple[dict[str, str], tuple[str, str, str, str]]] = [
    (
        {
            "certificate_text/src/lib": "LONGEST_TEXT",
            "verdict_texts/src/stream": "MOST_BYTES",
            "command_results/src/lines": "LARGEST_INPUT",
        },
        ("MOST", "MOST_BYTES", "MOST_BYTES", "MOST"),
    ),
    ({"requests/src/ranges": "DEFAULT_LIMIT"}, ("LIMIT", "LIMIT", "LIMIT", "LIMIT")),
    ({"requests/src/ranges": "LARGEST_LIMIT"}, ("", "LARGEST_LIMIT", "", "")),
    ({"requests/src/ranges": "DEFAULT_ROUNDS"}, ("ROUNDS", "ROUNDS", "ROUNDS", "ROUNDS")),
    ({"requests/src/ranges": "MOST_ROUNDS"}, ("", "MOST_ROUNDS", "", "")),
    ({"requests/src/ranges": "DEFAULT_HEAPS"}, ("HEAPS", "HEAPS", "HEAPS", "HEAPS")),
    (
        {"requests/src/ranges": "DEFAULT_SERIES"},
        ("INFINITE_HEAPS", "INFINITE_HEAPS", "INFINITE_HEAPS", "INFINITE_HEAPS"),
    ),
    ({"requests/src/ranges": "MOST_HEAPS"}, ("", "FEW_HEAPS", "", "")),
    ({"quotient_search/src/aim": "DEEPEST"}, ("MOST_HEAPS", "MOST_HEAPS", "MOST_HEAPS", "MOST_HEAPS")),
    ({"requests/src/ranges": "DEFAULT_ORDER"}, ("ELEMENTS", "ELEMENTS", "ELEMENTS", "ELEMENTS")),
    ({"misere_theory/src/lib": "LARGEST_FIRST_ORDER"}, ("", "MOST_BY_FEW", "MOST_BY_FEW", "MOST_BY_FEW")),
    ({"misere_theory/src/lib": "LARGEST_SECOND_ORDER"}, ("", "PART_ELEMENTS", "", "")),
    ({"misere_theory/src/lib": "LARGEST_ORDER"}, ("MOST_ELEMENTS", "MOST_ELEMENTS", "", "MOST_ELEMENTS")),
    ({"misere_theory/src/lib": "LARGEST_PART"}, ("", "MOST_PART", "", "MOST_PART")),
    ({"positions/src/position": "LARGEST_HEAP"}, ("", "LARGEST_HEAP", "LARGEST_HEAP", "LARGEST_HEAP")),
]
IN_CRATES = r"^(?:pub )?const {name}: \w+ = (.+);$"
# A constant's value: a number, or a sum or product of such and of other constants
NUMBER = r"(\d[\d_]*)(?:u|n)?"
SUM = r"[\d+*<() ]+"
# Where no number above this one, of those in the table, stands by hand but in the files above
LEAST_OF_ITS_OWN = 5000
CODE = ("library/*.c", "library/tests/*.c", "library/misere/*.py", "library/rust/src/*.rs", "web/page/**/*.js")
COMMENTS = r'/\*.*?\*/|//[^\n]*|#(?!define)[^\n]*|""".*?"""|"[^"\n]*"'
WRITTEN = r"1u? << \d+|10n? ?\*\* ?\d+n?|\b\d[\d_]*n?\b"


def value_of(text: str, others: str) -> int | None:
    """The value of a constant, of a text in which the other constants stand that it names."""
    for name in re.findall(r"[A-Z_]{3,}", text):
        found = re.search(IN_CRATES.format(name=name), others, re.M)
        if not found:
            return None
        text = re.sub(rf"\b{name}\b", f"({value_of(found[1], others)})", text)
    text = re.sub(r" as \w+", "", re.sub(NUMBER, lambda it: str(it[1]).replace("_", ""), text))
    return int(eval(text)) if re.fullmatch(SUM, text) else None  # (digits and signs alone)


def paired(text: str) -> str:
    """Constants that JavaScript declares together, one by one."""

    def apart(it: re.Match[str]) -> str:
        rows = zip(it[1].split(", "), it[2].split(", "))
        return "\n".join(f"export const {name} = {value};" for name, value in rows)

    return re.sub(r"^export const \[(.+)\] = \[(.+)\];$", apart, text, flags=re.M)


def in_crates(file: str, name: str) -> int | None:
    theory = (root / "crates/misere_theory/src/lib.rt").read_text()
    text = (root / f"crates/{file}.rt").read_text()
    found = re.search(IN_CRATES.format(name=name), text, re.M)
    return value_of(found[1], text + theory) if found else None


def wrong_bounds() -> Iterator[str]:
    """Bounds that aren't the same everywhere, and such as are written by hand in another place."""
    texts = {where: paired((root / file).read_text()) for where, (file, _) in PLACES.items()}
    values = set()
    for crates, names in BOUNDS:
        found = {f"{file}.rt: {name}": in_crates(file, name) for file, name in crates.items()}
        for (where, (_, pattern)), name in zip(PLACES.items(), names):
            if name:
                line = re.search(pattern.format(name=name), texts[where], re.M)
                found[f"{where}: {name}"] = value_of(line[1].strip("()"), "") if line else None
        if None in found.values() or len(set(found.values())) > 1:
            yield "; ".join(f"{where} is {value}" for where, value in found.items())
        values |= set(found.values())
    yield from written({it for it in values if it and it > LEAST_OF_ITS_OWN})


def written(values: set[int]) -> Iterator[str]:
    """Where one of these numbers is written by hand, though a file of bounds has it."""
    own = {root / file for file, _ in PLACES.values()}
    for file in sorted(it for glob in CODE for it in root.glob(glob)):
        if file in own:
            continue
        text = re.sub(COMMENTS, "", file.read_text(), flags=re.S)
        for number in re.findall(WRITTEN, text):
            if value_of(re.sub("n", "", number), "") in values or power_of(number) in values:
                yield f"{file.relative_to(root)} has {number} by hand: it is a bound, and has its one place"


def power_of(text: str) -> int | None:
    found = re.fullmatch(r"10n? ?\*\* ?(\d+)n?", text)
    return 10 ** int(found[1]) if found else None


def wrong_names() -> Iterator[str]:
    """Names of games that Python and the page have otherwise."""
    page = (root / "web/page/codes.js").read_text()
    named = dict(re.findall(r'\["([0-9a-f.]+)", "([^"]+)"\]', page.partition("GAME_NAMES")[2].partition("]);")[0]))
    python = (root / "library/misere/_names.py").read_text().partition("NAMES: Final")[2].partition("}")[0]
    other = {code: name for name, code in re.findall(r'"([^"]+)": "([0-9a-f.]+)"', python)}
    if {code: name.replace("’", "'") for code, name in named.items()} != other:
        yield f"codes.js names the games {named}, and _names.py {other}"
