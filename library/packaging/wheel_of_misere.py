"""Makes the wheel, with the built library in it. pip calls it (`pip install library/`), and so does scripts/dist.

Nothing but Python is needed, and the same files give the same bytes: a wheel is an archive of files with their sums."""

from __future__ import annotations

import base64
import hashlib
import os
import pathlib
import re
import time
import zipfile
from typing import Any, NoReturn

here = pathlib.Path(__file__).resolve().parent.parent
LIBRARY = "libmisere.so.1"
LICENCES = ("LICENSE-MIT", "LICENSE-APACHE")
# The oldest C library for which Debian's pip and others look by this name
OLDEST_GLIBC = 17
EARLIEST_TIME = 315532800

METADATA = """\
Metadata-Version: 2.1
Name: misere
Version: {version}
Summary: Certified misère quotients of octal and hexadecimal games, by a proved library
Keywords: combinatorial games,misère quotients,octal games,formal verification
License: MIT OR Apache-2.0
License-File: LICENSE-MIT
License-File: LICENSE-APACHE
Classifier: License :: OSI Approved :: MIT License
Classifier: License :: OSI Approved :: Apache Software License
Classifier: Intended Audience :: Science/Research
Classifier: Operating System :: POSIX :: Linux
Classifier: Programming Language :: Python :: 3
Classifier: Topic :: Scientific/Engineering :: Mathematics
Classifier: Typing :: Typed
Requires-Python: >=3.9
Description-Content-Type: text/markdown

{description}"""

WHEEL = """\
Wheel-Version: 1.0
Generator: wheel_of_misere
Root-Is-Purelib: false
Tag: {tag}
"""


def build_wheel(wheel_directory: str, config_settings: Any = None, metadata_directory: str | None = None) -> str:
    """Writes the wheel into the folder, and tells its name."""
    if not (here / LIBRARY).is_file():
        raise SystemExit(f"library/{LIBRARY} isn't built: `make -C library` builds it, and wants the Rattle kit")
    version = (here.parent / "VERSION").read_text().strip()
    tag = f"py3-none-manylinux_2_{glibc_of(here / LIBRARY)}_x86_64"
    name = f"misere-{version}-{tag}.whl"
    with zipfile.ZipFile(os.path.join(wheel_directory, name), "w", zipfile.ZIP_DEFLATED) as wheel:
        for place, text in files_of(version, tag).items():
            wheel.writestr(_entry(place), text)
    return name


def build_sdist(sdist_directory: str, config_settings: Any = None) -> NoReturn:
    """There is none: the library is built by the Rattle kit out of the whole repository."""
    raise SystemExit("there is no source distribution of the module alone")


def glibc_of(library: pathlib.Path) -> int:
    """The minor number of the least version of the C library that the library needs, or of the oldest that is named."""
    needed = re.findall(rb"GLIBC_2\.(\d+)", library.read_bytes())
    return max([OLDEST_GLIBC, *map(int, needed)])


def files_of(version: str, tag: str) -> dict[str, bytes]:
    """The files of the wheel, the list of their sums last."""
    files = {f"misere/{it.name}": it.read_bytes() for it in sorted((here / "misere").iterdir()) if it.is_file()}
    files[f"misere/{LIBRARY}"] = (here / LIBRARY).read_bytes()
    files["misere/VERSION"] = (here.parent / "VERSION").read_bytes()
    atlas = here.parent / "atlas"
    certificates = [*sorted(atlas.glob("*.json")), *sorted(atlas.glob("infinite/*.mqp"))]
    files.update({f"misere/atlas/{it.relative_to(atlas)}": it.read_bytes() for it in certificates})
    games = sorted([*atlas.glob("whole/*.mqw"), *(here.parent / "certificates").glob("*.mqw")])
    files.update({f"misere/atlas/whole/{it.name}": it.read_bytes() for it in games})
    about = f"misere-{version}.dist-info"
    metadata = METADATA.format(version=version, description=description())
    files[f"{about}/METADATA"] = metadata.encode()
    files.update({f"{about}/{name}": (here.parent / name).read_bytes() for name in LICENCES})
    files[f"{about}/WHEEL"] = WHEEL.format(tag=tag).encode()
    record = [f"{place},sha256={_sum(text)},{len(text)}\n" for place, text in files.items()]
    files[f"{about}/RECORD"] = "".join([*record, f"{about}/RECORD,,\n"]).encode()
    return files


def description() -> str:
    """What the page of the library says of how it is got and called."""
    page = (here.parent / "docs/LIBRARY.md").read_text()
    return _without_places(page.partition("\n## Opened, or by bytes\n")[0])


def _without_places(page: str) -> str:
    """The page without links to files of the repository, which an index hasn't."""
    return re.sub(r"\[([^\]]*)\]\((?![a-z]+:)[^)]*\)", r"\1", page)


def _sum(text: bytes) -> str:
    return base64.urlsafe_b64encode(hashlib.sha256(text).digest()).rstrip(b"=").decode()


def _entry(place: str) -> zipfile.ZipInfo:
    """A file of the archive, with a fixed time and the rights of a file that is read."""
    seconds = max(EARLIEST_TIME, int(os.environ.get("SOURCE_DATE_EPOCH", EARLIEST_TIME)))
    entry = zipfile.ZipInfo(place, time.gmtime(seconds)[:6])
    entry.compress_type, entry.create_system = zipfile.ZIP_DEFLATED, 3
    entry.external_attr = (0o100755 if place.endswith(LIBRARY) else 0o100644) << 16
    return entry
