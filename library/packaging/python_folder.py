"""Prints the folder of a prefix in which this Python looks for modules: python_folder.py PREFIX.

A prefix in which it doesn't look gets the usual one, and a word on standard error says how it is made to."""

from __future__ import annotations

import os
import site
import sys


def main(prefix: str) -> None:
    version = f"python{sys.version_info.major}.{sys.version_info.minor}"
    folders = [os.path.join(prefix, "lib", version, name) for name in ("site-packages", "dist-packages")]
    looked_in = {os.path.realpath(it) for it in [*sys.path, *site.getsitepackages(), site.getusersitepackages()]}
    folder = next((it for it in folders if os.path.realpath(it) in looked_in), None)
    if folder is None:
        folder = folders[0]
        print(f"{sys.executable} doesn't look for modules there: set PYTHONPATH={folder}", file=sys.stderr)
    print(folder)


main(os.path.abspath(sys.argv[1]))
