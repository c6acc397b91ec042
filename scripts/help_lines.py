"""What the program's --help says: commands, their arguments and their options."""

from __future__ import annotations

import re
import subprocess


def help_of(program: str, *words: str) -> str:
    return subprocess.run([program, *words, "--help"], capture_output=True, text=True, check=True).stdout


def section(text: str, name: str) -> list[tuple[str, str]]:
    """The rows of a section, each a name and a text."""
    rows = re.search(rf"^{name}:\n((?:  .*\n?)*)", text, re.M)
    return re.findall(r"^ +(\S.*?)  +(\S.*)$", rows[1], re.M) if rows else []


class Option:
    """An option of a command: its name, its value's and what it is for."""

    def __init__(self, names: str, about: str) -> None:
        found = re.search(r"--(\w[\w-]*)(?: <(\w+)>)?", names)
        assert found, names
        self.about, self.name, self.value = about, found[1], found[2]


class Command:
    """A command, with its arguments and options: what is behind the words in the program's help."""

    def __init__(self, program: str, *words: str) -> None:
        text = help_of(program, *words)
        usage = re.search(r"^Usage: (.*)$", text, re.M)
        self.about = text.partition("\n")[0]
        self.arguments = [(re.sub(r"[<\[\]>]|\.\.\.", "", name), about) for name, about in section(text, "Arguments")]
        self.needs = set(re.findall(r"<(\w+)>", usage[1])) if usage else set()
        self.repeated = set(re.findall(r"<(\w+)>\.\.\.", usage[1])) if usage else set()
        self.options = [Option(*row) for row in section(text, "Options")]
        self.own = [it for it in self.options if it.name not in ("help", "version")]
        self.commands = section(text, "Commands")
        # what stands behind the options: notes and examples
        self.notes = re.split(r"^Options:\n(?:  .*\n)*", text, maxsplit=1, flags=re.M)[-1].strip("\n")


Commands = dict[str, Command]


def commands_of(program: str) -> tuple[Command, Commands]:
    """What the program's own help says, and that of each command."""
    top = Command(program)
    return top, {name: Command(program, name) for name, _ in top.commands if name != "help"}
