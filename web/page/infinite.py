#!/usr/bin/env python3
"""Writes what the page holds of the presentations of infinite quotients, atlas/infinite.

    infinite.py ROOT TO.json

Texts that differ in their code alone stand here once. Nothing is believed of them: the page has each text checked.
"""
import collections
import json
import pathlib
import sys

sys.dont_write_bytecode = True


def lines_of(text):
    """The words of the lines that stand once, by their names."""
    return {name: words for name, *words in (line.split(" ") for line in text.splitlines())}


def texts_of(root):
    """Codes, parts and texts, those of small last heaps first. A part is its last heap, and behind a dash each heap
    that is left out, as in `34-33`."""
    found = []
    for file in (root / "atlas/infinite").glob("*.mqp"):
        text = file.read_text()
        lines = lines_of(text)
        [code], [last], words = lines["code"], lines["heaps"], lines["words"]
        left_out = [str(heap) for heap, word in enumerate(words, 1) if word == "-"]
        found.append((code, int(last), words, "-".join([last, *left_out]), text))
    return [(code, part, text) for code, _, _, part, text in sorted(found)]


def names_of(root):
    """The parts of each code."""
    names = collections.defaultdict(list)
    for code, part, _ in texts_of(root):
        names[code].append(part)
    return names


def main():
    root, to = map(pathlib.Path, sys.argv[1:])
    texts = texts_of(root)
    codes = collections.defaultdict(list)
    for code, part, text in texts:
        codes[part, text.split("\n", 2)[2]].append(code)
    # (similar texts stand together, so that they are packed well)
    held = [{"codes": codes[it], "part": it[0], "rest": it[1]} for it in sorted(codes, key=lambda it: (len(it[1]), it))]
    to.write_text(json.dumps(held, separators=(",", ":")))
    print(f"infinite.py: {len(texts)} texts, {len(held)} of them but for their codes", file=sys.stderr)


if __name__ == "__main__":
    main()
