"""The steps of a drive, told one by one; and the program, with which answers are compared."""
import functools
import importlib
import itertools
import pathlib
import subprocess
import sys


class Steps:
    def __init__(self):
        self.where, self.failed, self.done = "", 0, 0

    def expect(self, name, holds, more=""):
        self.done += 1
        self.failed += not holds
        print(f"{'ok  ' if holds else 'FAIL'} {self.where}: {name}", more, flush=True)


class Counts:
    """How many games, certificates and quotients the atlas has, as the program describes them."""

    def __init__(self, program):
        module = program.module("atlas_page")
        page = module.Page(program.root, program.file)
        parts = module.entries_of(program.root, module.PARTS)
        groups = [*page.groups, *module.groups_of(parts)]
        certificate_of = program.module("certificate_lines").certificate_of
        firsts = [certificate_of(group[0].certificate) for group in groups]
        monoids = [([list(row) for row in it.rows], list(it.portion)) for it in firsts]
        full = [it for it in page.entries if not it.heaps]
        self.all, self.quotients = len(page.entries), len(groups)
        self.certificates = len(page.entries) + len(parts)
        self.monoids = len(set(program.module("isomorphism").classes_of(monoids)))
        self.kinds = {name: sum(it.kind.startswith(name) for it in full) for name in ("tame", "wild")}
        self.short = sum(it.kind.startswith("tame") and int(it.words["period"]) < 20 for it in full)


def counted(heaps):
    """Heaps, of which a run of more than four equal ones is counted."""
    for size, run in itertools.groupby(heaps):
        same = list(run)
        yield from [f"{len(same)}·{size}"] if len(same) > 4 else same


class Program:
    def __init__(self, root):
        self.root = pathlib.Path(root).resolve()
        self.file = self.root / "crates/misere/out/misere"

    @functools.cached_property
    def counts(self):
        return Counts(self)

    def module(self, name):
        """A module of scripts/ or of the page."""
        sys.path[:0] = [it for it in (str(self.root / "scripts"), str(self.root / "web/page")) if it not in sys.path]
        return importlib.import_module(name)

    def script(self, name):
        """A script of scripts/ as a module."""
        return self.module("script").load(self.root / "scripts" / name, name)

    def certificate(self, name):
        return self.root / "certificates" / (name if name.endswith((".mqw", ".mqp")) else f"{name}.mqc")

    def samples(self):
        folder = self.root / "certificates"
        return [*sorted(folder.glob("*.mqc")), *sorted(folder.glob("refused/*.mqc"))]

    def presented_samples(self):
        """Presentations whose check takes a second at most."""
        folder = self.root / "certificates"
        quick = [it for it in sorted(folder.glob("*.mqp")) if it.stat().st_size < 2000]
        return [*quick, *sorted(folder.glob("refused/*.mqp"))]

    def told(self, *words):
        """What the program prints."""
        return subprocess.run([self.file, *words], capture_output=True, text=True, check=False).stdout.strip()

    def move(self, name, position):
        """The first winning move in a position, as the page writes it, or `lost`, or `ended`."""
        file = self.certificate(name)
        words = self.told("play" if file.suffix == ".mqc" else "infinite", file, position).split()
        if words[0] != "wins":
            return words[0]
        left = [word for word in words[3:] if word != "0"]
        return f"{words[1]} → {' + '.join(left) or 'nothing'}"

    def verdict(self, file):
        """The line of a verdict, with the failing position behind it as the page writes it."""
        kinds = {b"mqp ": "verify", b"mqw ": "infinite"}
        first, *rest = self.told(kinds.get(file.read_bytes()[:4], "check"), file).splitlines()
        heaps = [word for line in rest for word in line.split()[3:] if word != "0"]
        return f"{first} at [{', '.join(counted(heaps))}]" if first.startswith("no 7") else first
