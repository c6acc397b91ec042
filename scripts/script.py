"""What the scripts share: where things stand, their options, and how they end."""

from __future__ import annotations

import argparse
import importlib.machinery
import importlib.util
import os
import pathlib
import sys
from collections.abc import Callable
from typing import Any

root = pathlib.Path(__file__).resolve().parent.parent
# The program that is built here; where scripts are installed, as in /usr/share/misere/scripts, that of their prefix
IS_INSTALLED = not (root / "crates").is_dir()
BUILT = root.parent.parent / "bin/misere" if IS_INSTALLED else root / "crates/misere/out/misere"


def parser_of(text: str, name: str, program: bool = True) -> argparse.ArgumentParser:
    """A parser that prints a script's own text for --help, with --program where the script runs the program."""
    parser = argparse.ArgumentParser(
        prog=name,
        description=text.strip(),
        formatter_class=argparse.RawDescriptionHelpFormatter,
        allow_abbrev=False,
    )
    if program:
        which = "installed" if IS_INSTALLED else "built here"
        parser.add_argument("--program", type=pathlib.Path, default=BUILT, help=f"by default the one that is {which}")
    return parser


def program_of(asked: argparse.Namespace) -> str:
    """The program's path, from whatever folder it is run."""
    if not asked.program.is_file():
        sys.exit(f"{asked.program} isn't built: ./misere builds it")
    return str(asked.program.resolve())


def named_page(name: str) -> str:
    """An argument that names a page from the top of the repository."""
    if not (root / name).is_file():
        raise argparse.ArgumentTypeError(f"there is no {name}")
    return name


def load(file: pathlib.Path, name: str) -> Any:
    """A script as a module, for another one that calls what it has."""
    loader = importlib.machinery.SourceFileLoader(name, str(file.resolve()))
    spec = importlib.util.spec_from_loader(name, loader)
    assert spec
    module = importlib.util.module_from_spec(spec)
    sys.modules[name] = module
    loader.exec_module(module)
    return module


class Looks:
    """How often something was looked at, and how often it didn't stand, which is told."""

    def __init__(self) -> None:
        self.count, self.wrong = 0, 0

    def at(self, name: str, stands: bool, *told: object) -> None:
        self.count += 1
        if not stands:
            self.wrong += 1
            print("does not stand so:", name, *told, flush=True)


def begin(main: Callable[[], int | None]) -> None:
    """Ends with the status of main; quietly where nobody reads what is printed, or at an interrupt."""
    try:
        try:
            status = main() or 0
        finally:
            sys.stdout.flush()
    except BrokenPipeError:
        os.dup2(os.open(os.devnull, os.O_WRONLY), sys.stdout.fileno())
        status = 141
    except KeyboardInterrupt:
        status = 130
    sys.exit(status)
