"""The version of all that is built together, which stands in the file VERSION alone."""

from __future__ import annotations

import pathlib


def _read() -> str:
    """An installed package has the file itself; in the sources it is the top's."""
    package = pathlib.Path(__file__).resolve().parent
    files = (folder / "VERSION" for folder in (package, package.parents[1]))
    return next((file.read_text().strip() for file in files if file.is_file()), "unknown")


VERSION = _read()
