"""What the crates state, read from their sources: the definitions of specs/, and of src/ what others may use, with its
contracts. A crate's items are in the order of its pages; an item knows the names of its file."""

from __future__ import annotations

import functools
import pathlib
import re
from collections.abc import Iterator
from dataclasses import dataclass, field

from script import root

CRATES = root / "crates"
# What begins a definition of specs/, and the name that it defines
DEFINED = re.compile(
    r"^(?: *(?:abbrev|unfoldable|pub record|pub data)(?: pub)?|pub(?! record| data)) ([\w◌][^\s:]*)(?= [:({]| *$)",
    re.M,
)
IN_MODULE = re.compile(r"^  pub ([\w◌][^\s:]*) : ", re.M)
PUBLIC = re.compile(r"^ *(?:(?:abbrev|unfoldable) pub|pub record|pub data) (\S+)", re.M)
USED = re.compile(r"^ *(?:ghost )?(pub )?use Rattle\.(\w+)\.specs\.([\w.]+?)(?:\.\{([^}]*)\}| as (\w+))?;?$", re.M)
RUST_USE = re.compile(r"^(?:pub )?use ([^;]+);", re.M)
CASE = re.compile(r"^  ([A-Z]\w*) : ", re.M)
MODULES = re.compile(r"^pub mod (\w+);?$", re.M)
FUNCTION = re.compile(r"pub (?:const |unsafe |extern \"C\" )*fn (\w+)")
IN_TRAIT = re.compile(r"(?:unsafe )?fn (\w+)")
TYPE = re.compile(r"(?:pub(?:\(\w+\))? )?(?:struct|enum|trait|type) (\w+)")
CONSTANT = re.compile(r"(?:pub(?:\(\w+\))? )?(?:const|static) (\w+)")
HOLDER = re.compile(r"(?:unsafe )?(impl|pub trait)\b(.*)\{$")
# What of a model contracts see
SHOWN_OF_MODEL = ("Value", "view", "invariant")


@dataclass(frozen=True)
class Target:
    """A place on a crate's page."""

    crate: str
    anchor: str


@dataclass
class Item:
    """A definition, a type with what it shows, a constant, a call or a law: its name, what is said of it, its text."""

    kind: str
    name: str
    about: list[str]
    lines: list[str]
    file: File
    # the definitions in it, each of which has a place of its own
    names: list[str] = field(default_factory=list)


@dataclass
class File:
    """A file of specs/ or src/: what it says of itself, its items, and where the names lead that it uses."""

    crate: str
    name: str
    is_specs: bool
    head: list[str] = field(default_factory=list)
    items: list[Item] = field(default_factory=list)
    # names that stand for a file of specs/ or for a type, and of which names are taken by a point
    parts: dict[str, tuple[str, str]] = field(default_factory=dict)
    uses: dict[str, tuple[str, str, str]] = field(default_factory=dict)
    given: dict[str, tuple[str, str, str]] = field(default_factory=dict)
    rust: dict[str, tuple[str, str]] = field(default_factory=dict)

    @functools.cached_property
    def defined(self) -> dict[str, str]:
        """The names that the file defines, and the cases of its types, each with the definition that has it."""
        cases = {case: item.name for item in self.items for case in CASE.findall("\n".join(item.lines))}
        return {**cases, **{name: name for item in self.items for name in item.names}}


@dataclass
class Crate:
    """A crate: what it says of itself, its definitions by file, and what others may use of it."""

    name: str
    head: list[str]
    specs: dict[str, File]
    source: list[File]
    # names that it hands on, and the crates that have them
    handed_on: dict[str, str]

    def items(self, *kinds: str) -> list[Item]:
        return [item for file in self.source for item in file.items if item.kind in kinds]


def stripped(lines: list[str], sign: str) -> list[str]:
    return [it.strip()[len(sign) :].removeprefix(" ") for it in lines]


def uses_of(text: str, file: File) -> None:
    """Notes where the names lead that a file takes of specs/ of any crate."""
    for public, crate, path, names, short in USED.findall(text):
        if not names:
            file.parts[short or path.split(".")[-1]] = crate, path
        for listed in re.findall(r"[^\s,](?:[^,]*[^\s,])?", re.sub("[«»]", "", names)):
            name, _, own = listed.partition(" as ")
            file.uses[own or name] = crate, path, name
            if public:
                file.given[own or name] = crate, path, name


def blocks_of(lines: list[str]) -> Iterator[list[str]]:
    """What stands together: lines up to an empty one, after which none is moved in."""
    block: list[str] = []
    for at, line in enumerate(lines):
        if line or at + 1 < len(lines) and lines[at + 1].startswith(" ") and block:
            block.append(line)
        elif block:
            yield block
            block = []
    if block:
        yield block


def specs_file(crate: str, path: pathlib.Path) -> File:
    """A file of specs/ with its definitions."""
    text, file = path.read_text(), File(crate, path.stem, True)
    uses_of(text, file)
    for block in blocks_of(text.splitlines()):
        code = [it for it in block if not re.match(r"(pub )?(use|mod) ", it)]
        about = [it for at, it in enumerate(code) if all(one.startswith("--") for one in code[: at + 1])]
        code = code[len(about) :]
        said = stripped(about, "--")
        if code:
            names = DEFINED.findall("\n".join(code))
            if code[0].startswith("module "):
                names += IN_MODULE.findall("\n".join(code))
            file.items.append(Item("definition", names[0] if names else "", said, code, file, names))
        elif said and not file.items:
            file.head += said
        elif said:
            file.items.append(Item("comment", "", said, [], file))
    return file


def names_in(tree: str) -> Iterator[tuple[str, str]]:
    """The names of a `use` of Rust, each with the crate or module that it comes from first."""
    tree = re.sub(r"\s+", " ", tree)
    top, _, rest = tree.partition("::")
    for it in re.findall(r"(?:\w+::)*(\w+(?: as \w+)?)(?=[,} ]|$)", rest):
        yield top.strip(), it


def handed_out(top: str) -> tuple[dict[str, str], dict[str, str]]:
    """The names of lib.rt that are its crate's own, with their modules, and those that are of another crate."""
    own, others = dict[str, str](), dict[str, str]()
    modules = set(re.findall(r"^(?:pub )?mod (\w+);", top, re.M))
    for tree in re.findall(r"^pub use ([^;]+);", top, re.M):
        for first, name in names_in(tree):
            last = name.split(" as ")[-1]
            if first in modules or first in ("crate", "self"):
                own[last] = first
            else:
                others[last] = first
    return own, others


def is_without_code(body: list[str]) -> bool:
    """Whether a body only shows what a type keeps, or nothing."""
    return all(re.match(r"\s*(//.*|let _ = [^;]*;|)$", it) for it in body)


class Reader:
    """The public items of a file of src/, line by line as `rt fmt` lays them out."""

    def __init__(
        self, file: File, lines: list[str], is_public: bool, names: dict[str, str], cited: set[str]
    ) -> None:
        self.file, self.lines, self.at = file, lines, 0
        self.is_public, self.names, self.cited = is_public, names, cited
        self.about: list[str] = []
        self.holder = ""
        self.in_trait = False

    def read(self) -> None:
        while self.at < len(self.lines):
            self.turn(self.lines[self.at])

    def turn(self, line: str) -> None:
        """Takes what begins in a line."""
        text = line.strip()
        if text.startswith("///"):
            self.about.append(text)
        elif line.startswith("}"):
            self.holder, self.in_trait, self.about = "", False, []
        elif not line.startswith(" ") and (head := HOLDER.match(line)):
            self.open(head[1], head[2])
            return
        elif (found := (IN_TRAIT if self.in_trait else FUNCTION).match(text)) and line[:4] in ("    ", text[:4]):
            self.function(found[1], len(line) - len(text))
            return
        elif not line.startswith(" ") and (found := TYPE.match(text) or CONSTANT.match(text)):
            self.type(found[1], "constant" if CONSTANT.match(text) else "type")
            return
        elif not text.startswith("#"):
            self.about = []
        self.at += 1

    def is_handed_out(self, name: str) -> bool:
        return self.is_public or name in self.names

    def is_handed_out_here(self, name: str) -> bool:
        """Whether a function or a constant without a holder is: another module may have one of the same name."""
        module = self.file.name.split("/")[0].removesuffix(".rt")
        return self.is_public or self.names.get(name) in (module, "crate", "self")

    def is_shown(self, name: str, line: str) -> bool:
        """Whether a type or a constant is: others may use it, or definitions cite it."""
        return line.startswith("pub ") and self.is_handed_out_here(name) or name in self.cited

    def open(self, word: str, head: str) -> None:
        """Goes into an impl or a trait: of a model what contracts see of the type, of a trait its ghosts."""
        plain = head
        while "<" in plain and (shorter := re.sub(r"<[^<>]*>", "", plain)) != plain:
            plain = shorter
        words = plain.split("where")[0].replace(" for ", " ").split(":")[0].split()
        self.holder, self.in_trait = words[-1].strip("&") if words else "", word == "pub trait"
        of_trait = words[0] if " for " in plain else ""
        if self.in_trait and self.is_handed_out(self.holder):
            ghosts = list(self.ghosts(()))
            self.add("type", self.holder, [self.lines[self.at], *ghosts, "}"])
        elif of_trait == "Model" and (self.is_handed_out(self.holder) or self.holder in self.cited):
            if ghosts := list(self.ghosts(SHOWN_OF_MODEL)):
                self.about = []
                self.add("model", self.holder, [f"impl{head.rstrip()} {{", *ghosts, "}"])
        self.about = []
        if of_trait:
            while not self.lines[self.at].startswith("}"):
                self.at += 1
        else:
            self.at += 1

    def ghosts(self, wanted: tuple[str, ...]) -> Iterator[str]:
        """The ghost members of what begins here, with what is said of them: all, or those of these names."""
        at, about = self.at + 1, list[str]()
        while at < len(self.lines) and not self.lines[at].startswith("}"):
            line = self.lines[at]
            if line.strip().startswith("///"):
                about.append(line)
            elif found := re.match(r"    ghost (\w+)\b(?! Rattle)", line):
                end = at
                while not self.lines[end].endswith(";"):
                    end += 1
                if found[1] != "use" and (not wanted or found[1] in wanted):
                    yield from [*about, *self.lines[at : end + 1]]
                at, about = end, []
            else:
                about = []
            at += 1

    def function(self, name: str, indent: int) -> None:
        """A function with its contract; its body is read over."""
        margin = " " * indent
        head: list[str] = []
        while self.at < len(self.lines):
            line = self.lines[self.at]
            self.at += 1
            if line in (f"{margin}{{", f"{margin}{{}}"):
                break
            has_contract = any(re.match(r"\s*(requires|ensures)\b", it) for it in [*head, line])
            if not has_contract and line.endswith((" {", " {}")):
                head.append(re.sub(r" \{\}?$", "", line))
                break
            head.append(line)
            if line.endswith(";"):
                break
        ended = self.lines[self.at - 1]
        body: list[str] = []
        if not ended.endswith((";", "{}")) and ended.endswith("{"):
            while self.lines[self.at] != f"{margin}}}":
                body.append(self.lines[self.at])
                self.at += 1
            self.at += 1
        kind = "call" if ended.endswith(";") or not is_without_code(body) or self.holder else "law"
        is_for_c = 'extern "C"' in head[0]
        is_out = self.is_handed_out(self.holder) if self.holder else self.is_handed_out_here(name)
        if is_for_c or is_out:
            self.add(kind, f"{self.holder}::{name}" if self.holder else name, [it[indent:] for it in head])
        self.about = []

    def type(self, name: str, kind: str) -> None:
        """A type or a constant, without the fields that are its own."""
        lines = [self.lines[self.at]]
        while not lines[-1].endswith(("}", ";")) or lines[-1].startswith("  "):
            self.at += 1
            lines.append(self.lines[self.at])
        self.at += 1
        if lines[0].startswith("pub struct") and len(lines) > 1 and name not in self.cited - self.names.keys():
            fields = list(open_fields(lines[1:-1]))
            lines = [lines[0], *fields, lines[-1]] if fields else [f"{lines[0]} .. }}"]
        if self.is_shown(name, lines[0]):
            self.add(kind, name, lines)
        self.about = []

    def add(self, kind: str, name: str, lines: list[str]) -> None:
        self.file.items.append(Item(kind, name, stripped(self.about, "///"), lines, self.file, [name]))


def open_fields(lines: list[str]) -> Iterator[str]:
    """The public fields of a struct with what is said of them."""
    about: list[str] = []
    for line in lines:
        if line.strip().startswith("///"):
            about.append(line)
        elif re.match(r" +pub (?!\()", line):
            yield from [*about, line]
            about = []
        else:
            about = []


def source_file(
    crate: str, path: pathlib.Path, is_public: bool, names: dict[str, str], cited: set[str]
) -> File:
    """A file of src/ with what it hands out, and the types that definitions cite."""
    text = path.read_text()
    file = File(crate, str(path.relative_to(CRATES / crate / "src")), False)
    uses_of(text, file)
    for tree in RUST_USE.findall(text):
        for first, name in names_in(tree):
            of, _, own = name.partition(" as ")
            file.rust[own or of] = crate if first in ("crate", "super", "self") else first, of
    lines = text.splitlines()
    file.head = stripped([it for it in lines if it.startswith("//!")], "//!")
    Reader(file, lines, is_public, names, cited).read()
    return file


def cited_in(file: File) -> Iterator[str]:
    """The types and constants of its own crate's src/ that a file of specs/ takes."""
    for crate, path, name in [*file.uses.values(), *((*it, "") for it in file.parts.values())]:
        if crate == file.crate and path.startswith("declared."):
            yield from (it for it in [*path.split(".")[1:], name] if it[:1].isupper())


@functools.cache
def crate_of(name: str) -> Crate:
    """A crate, as its sources are."""
    specs = {
        it.stem: specs_file(name, it) for it in sorted((CRATES / name / "specs").glob("*.antt")) if it.stem != "Lib"
    }
    order = [CRATES / name / "specs/Lib.antt"]
    listed = [it for lib in order if lib.exists() for it in MODULES.findall(lib.read_text())]
    specs = {it: specs[it] for it in [*listed, *sorted(specs)] if it in specs}
    source = CRATES / name / "src"
    top = source / "lib.rt" if (source / "lib.rt").exists() else source / "main.rt"
    names, others = handed_out(top.read_text())
    public = set(MODULES.findall(top.read_text()))
    files = [top, *sorted(it for it in source.rglob("*.rt") if it != top and "tests" not in it.name)]
    cited = {it for file in specs.values() for it in cited_in(file)}
    read = [source_file(name, it, it == top or it.stem in public, names, cited) for it in files]
    return Crate(name, read[0].head, specs, read, others)


@functools.cache
def own_names(crate: str) -> frozenset[str]:
    """The names of what a crate hands out."""
    return frozenset(it.name for file in crate_of(crate).source for it in file.items if it.kind != "model")


def is_crate(name: str) -> bool:
    return (CRATES / name / "src").is_dir()


def rust_target(crate: str, name: str) -> Target | None:
    """Where a type, a constant or a function of a crate is, or of the one from which it comes."""
    if not is_crate(crate):
        return None
    if name in own_names(crate):
        return Target(crate, f"src.{name}")
    if name in (others := crate_of(crate).handed_on) and others[name] != crate:
        return rust_target(others[name], name)
    return None


def declared_target(crate: str, path: list[str], name: str) -> Target | None:
    """Where a type of src/ is, as specs/ name it, or one of its cases."""
    if path[-1] == "TheConstants":
        return rust_target(crate, name)
    types = [it for it in path if it not in ("TheVariants", "TheConstants") and it in own_names(crate)]
    return Target(crate, f"src.{types[-1]}") if types else None


@functools.cache
def target_of(crate: str, path: str, name: str) -> Target | None:
    """Where a definition is that is taken of specs/ of a crate, if it is on a page."""
    first, *others = path.split(".")
    if not is_crate(crate):
        return None
    if first == "declared":
        return declared_target(crate, others, name)
    file = crate_of(crate).specs.get(first)
    if file is None:
        return None
    for it in (*others[:1], name):
        if it in file.defined:
            return Target(crate, f"{first}.{file.defined[it]}")
    if name in file.given:
        return target_of(*file.given[name])
    return None


def lead_of(file: File, name: str) -> Target | None:
    """Where a name leads that a file's text has, with a part before its point if there is one."""
    first, _, rest = name.partition(".")
    if rest and first in file.parts:
        return target_of(*file.parts[first], rest.split(".")[0])
    if file.is_specs and first in file.defined:
        return Target(file.crate, f"{file.name}.{file.defined[first]}")
    if first in file.uses:
        return target_of(*file.uses[first])
    if first in file.rust:
        return rust_target(*file.rust[first])
    if not file.is_specs and first in own_names(file.crate):
        return Target(file.crate, f"src.{first}")
    return None


def leads_nowhere(file: File) -> Iterator[str]:
    """The names that a file takes of the crates' specs/ and that are on no page."""
    for own, used in file.uses.items():
        is_own = is_crate(used[0]) and not used[1].startswith(("declared.", "contracts."))
        if is_own and target_of(*used) is None:
            yield f"{file.crate}/{file.name}: {own} of {used[0]}/{used[1]} is on no page"
