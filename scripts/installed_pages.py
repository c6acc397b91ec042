"""The pages as they are installed: links lead to what is installed, and commands name it where it stands."""

from __future__ import annotations

import posixpath
import re
from collections.abc import Iterator, Mapping

LINK = re.compile(r"(!?)\[([^\]]*)\]\(([^()\s]+)\)")
# What commands on the pages name of the repository
SURVEYS = "survey_table|survey|merge|codes"
NAMED = re.compile(rf"(?<![\w/.-])((?:certificates|atlas)/[\w/.]+\.(?:mqc|mqp|mqw|json)|scripts/(?:{SURVEYS}))\b")
HEADING = re.compile(r"^#+ (.+)$", re.M)


def installed(text: str, source: str, places: Mapping[str, str], data: str) -> str:
    """The text of a page of the repository as it is installed. `places` has the place of each file and folder that is,
    by where it stands in the repository, or a heading on a page; `data` is the folder of certificates, the atlas and
    scripts."""

    def linked(it: re.Match[str]) -> str:
        image, name, target = it[1], it[2], it[3]
        if re.match(r"[a-z]+:|#", target):
            return it[0]
        file, mark, heading = target.partition("#")
        place = places.get(posixpath.normpath(posixpath.join(posixpath.dirname(source), file)))
        if place is None:
            return name
        leads = posixpath.relpath(place, posixpath.dirname(places[source]))
        return f"{image}[{name}]({leads})" if "#" in place else f"{image}[{name}]({leads}{mark}{heading})"

    text = LINK.sub(linked, text).replace("./misere ", "misere ")
    text = re.sub(r'src="([^":]+)"', lambda it: f'src="{leading(it[1], source, places)}"', text)
    # (what a command sends to other hosts stands there as in the repository)
    lines = (line if "--pipe" in line else NAMED.sub(lambda it: f"{data}/{it[1]}", line) for line in text.split("\n"))
    return "\n".join(lines)


def leading(target: str, source: str, places: Mapping[str, str]) -> str:
    place = places.get(posixpath.normpath(posixpath.join(posixpath.dirname(source), target)), target)
    return posixpath.relpath(place, posixpath.dirname(places[source]))


def dead_links(pages: Mapping[str, str], places: set[str]) -> Iterator[str]:
    """The links of installed pages, by their places, that lead to nothing that is installed, or to no heading."""
    for page, text in pages.items():
        targets = [it[3] for it in LINK.finditer(text)] + re.findall(r'src="([^":]+)"', text)
        for target in targets:
            if re.match(r"[a-z]+:", target):
                continue
            file, _, heading = target.partition("#")
            place = posixpath.normpath(posixpath.join(posixpath.dirname(page), file)) if file else page
            if place not in places:
                yield f"{page}: {target}"
            elif heading and place in pages and heading not in headings(pages[place]):
                yield f"{page}: {target} is no heading"


def headings(text: str) -> set[str]:
    """The headings of a page as links name them."""
    plain = (re.sub(r"\[([^\]]*)\]\([^)]*\)", r"\1", it) for it in HEADING.findall(text))
    return {re.sub(r"[^\w\- ]", "", it.lower()).replace(" ", "-") for it in plain}
