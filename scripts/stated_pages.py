"""Pages for a browser of what the crates state: `stated` reads it, and here it becomes HTML, with links."""

from __future__ import annotations

import html
import re
from collections.abc import Collection, Iterable, Iterator, Mapping

from crate_headings import HEADINGS, nearest, read_crates, what_it_is
from script import root
from stated import Crate, File, Item, Target, crate_of, lead_of

STYLE = (root / "scripts/stated.css").read_text()
PAGE = """\
<!DOCTYPE html>
<html lang="en"><meta charset="utf-8"><meta name="viewport" content="width=device-width">
<title>{title}</title><link rel="stylesheet" href="style.css">
<nav>{nav}</nav>
{body}
</html>
"""
HOME = '<a href="index.html">All crates</a> · <a href="names.html">All names</a>'
# A text in quotes, a comment, a name that is no link there, or one that may be
TOKEN = re.compile(
    r"(?P<text>\"(?:\\.|[^\"\\])*\")|(?P<note>(?:--|//).*)|(?P<field>^ +pub [a-z][\w'-]*(?= ?:))"
    r"|(?P<clause>\b(?:ensures|requires)\*?(?: [a-z]\w*)?(?= \{))"
    r"|(?<![\w.'◌«-])(?P<name>◌[^\s◌]+◌|[A-Za-z_][\w']*(?:-[A-Za-z_][\w']*)*(?:(?:\.|::)[A-Za-z_][\w']*)*)",
    re.M,
)
BOUND = (re.compile(r"λ ([\w' ]+)\."), re.compile(r"[({]((?:[a-z_]\w*'? )+):"), re.compile(r"\b([a-z_]\w*): "))
CODE = re.compile(r"`([^`]+)`")
PATH = re.compile(r"[\w:]+")
LINK = re.compile(r"\[([^\]]+)\]\(([^)\s]+)\)")
# What is before a name that is defined there
WORDS = r"pub(?:\(\w+\))?|fn|unsafe|extern \"C\"|abbrev|unfoldable|record|data|struct|enum|trait|type|const|static"
HEAD = re.compile(rf"(?:^|\n) *(?:\b(?:{WORDS}) )*$")
KINDS = {"type": "Types", "law": "Laws", "call": "Calls"}
ABOUT_KINDS = {
    "law": "Functions without code: their contracts are statements, and the gate proves them.",
    "call": "Functions that run, with what they promise.",
}


def escaped(text: str) -> str:
    return html.escape(text, quote=False)


def address(target: Target, crate: str) -> str:
    page = "" if target.crate == crate else f"{target.crate}.html"
    return f"{page}#{target.anchor}"


def linked(name: str, file: File, here: Collection[str] = ()) -> str:
    """A name, which leads to where it is defined if that is on a page, and not one of those here."""
    path = name.split("::")
    for at, part in enumerate(path):
        target = lead_of(file, part)
        if target and target.crate == file.crate and target.anchor in here:
            return escaped(name)
        if target and (at == len(path) - 1 or part[0].isupper()):
            shown = part.split(".")[0] if "." in part and part.split(".")[0] not in file.parts else part
            before = "::".join([*path[:at], ""])
            after = name[len(before) + len(shown) :]
            return f'{before}<a href="{address(target, file.crate)}">{escaped(shown)}</a>{escaped(after)}'
    return escaped(name)


def bound_in(item: Item) -> set[str]:
    """The names that are the item's own: what it binds, and the parameters of its equations."""
    text = "\n".join(item.lines)
    bound = {name for form in BOUND for it in form.findall(text) for name in it.split()}
    for line in item.lines:
        first, _, rest = line.strip().partition(" ")
        if first in item.names and " = " in f"{rest} ":
            bound |= set(re.findall(r"(?<![\w.])[a-z]\w*(?![\w.])", rest.partition(" = ")[0]))
    return bound - {item.name}


def anchor_of(item: Item, name: str) -> str:
    return f"{item.file.name}.{name}" if item.kind == "definition" else f"src.{name.replace('::', '.')}"


def code_of(item: Item) -> str:
    """The text of an item, in which names lead to their definitions and its own are targets."""
    bound, placed = bound_in(item), set[str]()
    short = {name.split("::")[-1]: name for name in item.names}

    def marked(it: re.Match[str]) -> str:
        word = it[0]
        if it["note"]:
            return f"<i>{escaped(word)}</i>"
        if it["field"] and (own := word.split()[-1]) in short and own not in placed:
            placed.add(own)
            return f'{word[: -len(own)]}<b id="{anchor_of(item, own)}">{own}</b>'
        if not it["name"]:
            return escaped(word)
        if word in short and item.kind != "model":
            if word in placed:
                return escaped(word)
            if HEAD.search(it.string, max(0, it.start() - 60), it.start()):
                placed.add(word)
                return f'<b id="{anchor_of(item, short[word])}">{escaped(word)}</b>'
        if word.split(".")[0] in bound or re.match(r" = ", it.string[it.end() :]) and "::" not in word:
            return escaped(word)
        return linked(word, item.file, [anchor_of(item, own) for own in item.names])

    parts, lines = [], "\n".join(item.lines)
    at = 0
    for it in TOKEN.finditer(lines):
        parts += [escaped(lines[at : it.start()]), marked(it)]
        at = it.end()
    return "".join([*parts, escaped(lines[at:])])


def sentence(lines: list[str], names: Iterable[str]) -> str:
    """A comment as prose: it begins with a capital letter, if not with a name, and ends with a stop."""
    text = " ".join(lines).strip()
    first = re.match(r"a|[a-z]{2,}\b", text)
    if first and first[0] not in names:
        text = text[0].upper() + text[1:]
    return f"{text}." if text and text[-1].isalnum() else text


def inline(text: str, file: File) -> str:
    """A line of prose: code letters, whose names lead on, and links to other places, which are left out."""
    parts = CODE.split(LINK.sub(lambda it: it[1], text))
    letters = (linked(it, file) if PATH.fullmatch(it) else escaped(it) for it in parts[1::2])
    codes = (f"<code>{it}</code>" for it in letters)
    return "".join(it for pair in zip(map(escaped, parts[::2]), [*codes, ""]) for it in pair)


def listed(items: Iterable[str], tag: str) -> str:
    return "".join(f"<{tag}>{it}" for it in items)


def prose(lines: list[str], file: File) -> Iterator[str]:
    """Paragraphs, lists and tables of what a crate or a call says of itself."""
    text = "\n".join(lines).strip()
    for part in re.split(r"\n\s*\n", text) if text else []:
        if part.startswith("|"):
            rows = [it.strip("| ").split("|") for it in part.splitlines() if not re.match(r"\|[-| ]+$", it)]
            cells = (listed((inline(it.strip(), file) for it in row), "td") for row in rows)
            yield f"<table>{listed(cells, 'tr')}</table>"
        elif part.startswith("```"):
            _, _, shown = part.strip("`").partition("\n")
            yield f"<pre>{escaped(shown)}</pre>"
        elif re.match(r"[-*] |\d+\. ", part):
            items = re.split(r"\n(?=[-*] |\d+\. )", part)
            said = (re.sub(r"^([-*]|\d+\.) ", "", " ".join(it.split())) for it in items)
            yield f"<ul>{listed((inline(it, file) for it in said), 'li')}</ul>"
        else:
            yield f"<p>{inline(' '.join(part.lstrip('# ').split()), file)}</p>"


def definition(item: Item) -> Iterator[str]:
    """A definition of specs/, below what is said of it."""
    if about := sentence(item.about, [*item.names, *bound_in(item)]):
        yield f"<p>{inline(about, item.file)}</p>"
    if item.lines:
        yield f"<pre>{code_of(item)}</pre>"


def definitions(crate: Crate) -> Iterator[str]:
    if not any(file.items for file in crate.specs.values()):
        return
    yield '<h2 id="definitions">Definitions</h2>'
    for file in crate.specs.values():
        yield f'<h3 id="{file.name}">{file.name}</h3>'
        if about := sentence(file.head, ()):
            yield f"<p>{inline(about, file)}</p>"
        for item in file.items:
            yield from definition(item)


def stated(crate: Crate, kind: str) -> Iterator[str]:
    """The laws, the calls, or the types with their models, in the order of the files."""
    kinds = ("type", "constant", "model") if kind == "type" else (kind,)
    if items := crate.items(*kinds):
        yield f'<h2 id="{KINDS[kind].lower()}">{KINDS[kind]}</h2>'
        if kind in ABOUT_KINDS:
            yield f"<p>{ABOUT_KINDS[kind]}</p>"
        for item in sorted(items, key=lambda it: kinds.index(it.kind) == 1):
            yield from prose(item.about, item.file)
            yield f"<pre>{code_of(item)}</pre>"


def of_crates(names: Iterable[str]) -> str:
    return ", ".join(f'<a href="{it}.html">{it}</a>' for it in names)


def handed_on(crate: Crate) -> str:
    """The names of other crates that one hands on."""
    own = File(crate.name, "", False, rust={it: (of, it) for it, of in crate.handed_on.items()})
    names = sorted(it for it in crate.handed_on if lead_of(own, it))
    return ", ".join(linked(it, own) for it in names)


def crate_page(crate: Crate, heading: str, below: list[str], above: list[str]) -> str:
    """A crate's page."""
    parts = [*definitions(crate), *(it for kind in KINDS for it in stated(crate, kind))]
    places = re.findall(r'<h2 id="(\w+)">', "\n".join(parts))
    files = ", ".join(f'<a href="#{it}">{it}</a>' for it in crate.specs)
    sections = [f'<a href="#{it}">{it.capitalize()}</a>' for it in places]
    if files and sections:
        sections[0] += f" ({files})"
    facts = [("Here", "; ".join(sections)), ("Uses", of_crates(below)), ("Used by", of_crates(above))]
    facts.append(("Hands on", handed_on(crate)))
    table = "".join(f"<tr><th>{name}<td>{it}" for name, it in facts if it)
    top = [f"<h1>{crate.name}</h1>", *prose(crate.head, crate.source[0]), f"<table>{table}</table>"]
    nav = f'{HOME} · <a href="index.html#{plain(heading)}">{heading}</a>'
    return PAGE.format(title=f"{crate.name} · misere", nav=nav, body="\n".join([*top, *parts]))


def plain(heading: str) -> str:
    return heading.lower().replace(" ", "-")


def index_page(headings: Mapping[str, list[str]]) -> str:
    """The crates under their headings."""
    body = [
        "<h1>Definitions and contracts</h1>",
        "<p>A page for each crate has its definitions, and what its calls promise. A name leads to where it is "
        "defined; those of the kit have no link. Contracts are proved, definitions are to be read: begin with "
        '<a href="misere_theory.html">misere_theory</a>, then <a href="checker.html">checker</a>.</p>',
    ]
    for heading, names in headings.items():
        rows = "".join(
            f'<tr><td><a href="{it}.html">{it}</a><td>{inline(what_it_is(it), crate_of(it).source[0])}' for it in names
        )
        body.append(f'<h2 id="{plain(heading)}">{heading}</h2><p>{HEADINGS[heading][0].capitalize()}.</p>')
        body.append(f"<table>{rows}</table>")
    return PAGE.format(title="Definitions and contracts · misere", nav=HOME, body="\n".join(body))


def names_page(crates: Iterable[str]) -> str:
    """All names by the alphabet, each with its crate."""
    rows = []
    for name in crates:
        crate = crate_of(name)
        for file in [*crate.specs.values(), *crate.source]:
            for item in (it for it in file.items if it.kind not in ("model", "comment")):
                rows += [(it, name, anchor_of(item, it)) for it in item.names]
    rows.sort(key=lambda it: (it[0].lower(), *it))
    listed = (f'<li><a href="{crate}.html#{place}">{escaped(it)}</a> {crate}' for it, crate, place in rows)
    body = "\n".join(["<h1>All names</h1>", '<ul class="names">', *listed, "</ul>"])
    return PAGE.format(title="All names · misere", nav=HOME, body=body)


def all_pages() -> dict[str, str]:
    """All files, by their names."""
    headings, below = read_crates()
    near = nearest(below)
    made = {"style.css": STYLE, "index.html": index_page(headings), "names.html": names_page(below)}
    for heading, names in headings.items():
        for name in names:
            users = [it for it, used in near.items() if name in used]
            made[f"{name}.html"] = crate_page(crate_of(name), heading, near[name], users)
    return made
