"""rt as a module, for scripts that call what it has."""

from __future__ import annotations

import pathlib
import shutil
import sys
from typing import Any

from script import load


def load_rt() -> Any:
    found = shutil.which("rt")
    if not found:
        sys.exit("rt, which proves and builds, is not here; see README.md")
    return load(pathlib.Path(found), "rt_main")
