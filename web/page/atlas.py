#!/usr/bin/env python3
"""Writes what the page holds of the atlas.

    atlas.py ROOT TO.json [PROGRAM]

ROOT is the project, with its program built, if no other is named: `misere describe` says which quotients are tame. A
certificate stands here as its heaps, its portion and what multiplication.py leaves of its products, out of which the
page makes all of its lines again (certificate_text.js). Nothing is believed of that: the page has each text checked.

Beside the entries of the catalogues there are further parts of games without a full one: those of atlas/parts.json. A
code stands with each of its quotients. The texts of whole games stand here but for their first two lines, and of tails
the heaps beyond which misère play is normal play, as `misere tail` told it.
"""
import json
import pathlib
import sys

sys.dont_write_bytecode = True
from infinite import names_of
from isomorphism import classes_of
from multiplication import told_of


def numbers(words):
    return [int(word) for word in words.split()]


def rows_of(entry):
    """All rows, also of a text that leaves some out."""
    from certificate_lines import certificate_of

    return [list(row) for row in certificate_of(entry.certificate).rows]


def certified(entry):
    """What the page holds of a certificate, but for its code."""
    rows, phi = rows_of(entry), numbers(entry.words["phi"])
    return {
        "order": entry.order,
        "start": int(entry.words["start"]),
        "period": int(entry.words["period"]),
        "phi": phi,
        "portion": numbers(entry.words["portion"]),
        "products": told_of(rows[1 : max(phi) + 1]),
    }


def quotient(group, number, place):
    """What the page holds of a quotient and its codes, each with its place in the atlas."""
    codes = [[entry.code, place[entry.code]] for entry in group]
    return {**certified(group[0]), "kind": group[0].kind, "class": number, "codes": codes}


def further_of(page):
    """The entries of the further parts by quotient, described."""
    from atlas_page import PARTS, describe, entries_of, groups_of

    groups = groups_of(entries_of(page.root, PARTS))
    describe(page.program, [group[0] for group in groups])
    return groups


def main():
    root, to, *named = map(pathlib.Path, sys.argv[1:])
    sys.path.insert(0, str(root / "scripts"))
    from atlas_page import Page, tails_of, whole_of

    page = Page(root, *(named or [root / "crates/misere/out/misere"]))
    place = {entry.code: at for at, entry in enumerate(page.entries)}
    groups = [*page.groups, *further_of(page)]
    classes = classes_of([(rows_of(group[0]), numbers(group[0].words["portion"])) for group in groups])
    quotients = [quotient(group, number, place) for group, number in zip(groups, classes)]
    whole = {code: text.split("\n", 2)[2] for code, text in whole_of(root).items()}
    held = {"quotients": quotients, "infinite": names_of(root), "whole": whole, "tails": tails_of(root)}
    to.write_text(json.dumps(held, separators=(",", ":")))
    told = f"{len(place)} games, {len(quotients)} quotients, {len(set(classes))} bipartite monoids up to isomorphism"
    print(f"atlas.py: {told}", file=sys.stderr)


main()
