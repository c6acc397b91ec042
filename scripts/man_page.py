"""The man page, out of what the program prints on --help and of the tables of docs/MESSAGES.md."""

from __future__ import annotations

import re
from collections.abc import Iterator

from help_lines import Command, Commands
from script import root

MESSAGES = root / "docs/MESSAGES.md"
# A heading, or a row of a table that begins with what is printed
HEADING, ROW = re.compile(r"##+ (.+)"), re.compile(r"\| `([^`]+)` \|([^|]+)\|([^|]*)\|?")


def roff(text: str) -> str:
    return text.replace("\\", "\\\\").replace("-", "\\-").replace("'", "\\(aq").replace("è", "\\[`e]")


def from_markdown(text: str) -> str:
    """A cell of a table, without its links, with code and strong words in bold, and with terms in italics."""
    text = re.sub(r"\[([^\]]*)\]\([^)]*\)", r"\1", text).replace("<sup>", "^").replace("</sup>", "")
    text = re.sub(r"`([^`]*)`|\*\*(.*?)\*\*", lambda it: f"\\fB{it[1] or it[2]}\\fR", roff(text))
    return re.sub(r"\*(\w[^*]*)\*", r"\\fI\1\\fR", text)


def sentence(text: str) -> str:
    text = text[0].upper() + text[1:] if text[0].isalpha() else text
    return text if text.endswith(".") else text + "."


def messages() -> Iterator[str]:
    """What the program says, by the rows of the tables that begin with a line."""
    heading = None
    for line in MESSAGES.read_text().splitlines() if MESSAGES.is_file() else []:
        if found := HEADING.fullmatch(line):
            heading = found[1]
        elif found := ROW.fullmatch(line):
            if heading:
                yield f".SS {roff(heading)}"
                heading = None
            means, advice = found[2].strip(), found[3].strip()
            yield from (".TP", f"\\fB{roff(found[1])}\\fR", from_markdown(sentence(means)))
            if advice:
                yield f"To try: {from_markdown(advice)}."


def usage(name: str, command: Command) -> str:
    values = {it.name: f" \\fI{it.value}\\fB" if it.value else "" for it in command.own}
    options = "".join(f" [{roff('--' + name)}{value}]" for name, value in values.items())
    words = "".join(
        (f" \\fI{it}\\fR" if it in command.needs else f" [\\fI{it}\\fR]") + (".." if it in command.repeated else "")
        for it, _ in command.arguments
    )
    return f"\\fB{name}{options}\\fR{words}"


def of_command(name: str, command: Command) -> Iterator[str]:
    yield from (".TP", usage(name, command), roff(command.about) + ".")
    for words, about in command.arguments:
        yield from (".RS", ".TP", f"\\fI{words}\\fR", roff(about) + ".", ".RE")
    for it in command.own:
        value = f" \\fI{it.value}\\fR" if it.value else ""
        yield from (".RS", ".TP", f"\\fB{roff('--' + it.name)}\\fR{value}", roff(it.about) + ".", ".RE")
    if command.notes:
        yield from (".RS", ".PP", ".nf", *(f"\\&{roff(line)}" for line in command.notes.splitlines()), ".fi", ".RE")


# Where things stand once they are installed. (A tarball has share/, and scripts/install the share/ of its prefix, in
# the place of /usr/share/.)
FILES = {
    "/usr/share/misere/certificates": "Certificates of some games, and in the folder refused such as are refused.",
    "/usr/share/misere/atlas": "The catalogues octal.json and hexadecimal.json of small games, and parts.json.",
    "/usr/share/misere/atlas/infinite": "Presentations of infinite quotients, a file each.",
    "/usr/share/misere/scripts": "Scripts that search many codes, survey, merge, codes and survey_table, for Python 3.",
    "/usr/share/doc/misere": "The pages: README.md, docs/TUTORIAL.md to begin with, and the licences.",
}
EXAMPLES = {
    "misere solve 0.33 > own.mqc": "Find the quotient of a game, and keep its certificate.",
    "misere check own.mqc": "Have the certificate checked.",
    "misere solve 0.77 --deep | misere describe": "Find that of Kayles, and print it by generators and relations.",
    'misere play own.mqc "2 1000000000000"': "Print the first winning move in a position.",
    "misere catalogue /usr/share/misere/atlas/octal.json --get 0.77": "Print a certificate of the atlas.",
}
SEE_ALSO = (
    "/usr/share/doc/misere/docs/TUTORIAL.md tells what misère quotients are, MESSAGES.md beside it each printed line.",
    "T. E. Plambeck and A. N. Siegel, Misère quotients for impartial games, "
    "Journal of Combinatorial Theory A 115 (2008).",
)


def paragraphs(rows: dict[str, str]) -> Iterator[str]:
    for name, about in rows.items():
        yield from (".TP", f"\\fB{roff(name)}\\fR", roff(about))


def page(top: Command, commands: Commands, version: str) -> str:
    lines = [
        f'.TH MISERE 1 "" "{version}"',
        ".SH NAME",
        f"misere \\- {roff(top.about[0].lower() + top.about[1:])}",
        ".SH SYNOPSIS",
        "\\fBmisere\\fR \\fICOMMAND\\fR [\\fIWORDS\\fR]",
        ".SH DESCRIPTION",
        "A certificate is a short text of a mis\\[`e]re quotient. Where \\fBmisere check\\fR says yes, its portion",
        "predicts the mis\\[`e]re outcome of every position of the game of which it speaks, of any number of heaps,",
        "and its monoid is the mis\\[`e]re quotient.",
        "This is proved of the program.",
        ".SH COMMANDS",
    ]
    for name, command in commands.items():
        lines += of_command(name, command)
    said = list(messages())
    lines += [".SH WHAT THE PROGRAM SAYS", *said] if said else []
    lines += [".SH EXIT STATUS", "0 for yes or done, 1 for no, 2 for usage, 3 where a device failed or memory ran out."]
    lines += [".SH FILES", *paragraphs(FILES), ".SH EXAMPLES", *paragraphs(EXAMPLES)]
    lines += [".SH SEE ALSO", *(line for text in SEE_ALSO for line in (".PP", roff(text)))]
    return "\n".join(lines) + "\n"
