#!/usr/bin/env python3
"""Spells the definitions and lemmas of this repository as today's Rattle does: words in snake case, joined by dashes to lemmas' names.

usage: tools/respell.py [FOLDER]

To be run once, behind the kit's port.py, which leaves most names of the repository's own as they were. A name of which some part begins with a
small letter and has a capital inside is written anew, in the definitions, the proofs, the contracts, the edits and the pages. Functions and
types of the code have no such names and stay. Where the new name would meet another in one file, that other one is renamed first, by LEMMAS.
"""

import glob
import os
import re
import sys

# Names that a file could not tell from a respelled one: file, old name, new name. A lemma that has its function's name ends in `_lem`.
LEMMAS = [
    ("crates/net/proofs/InOrder.antt", "by_place", "back_by_place"),
    ("crates/finish/proofs/Parts.antt", "by_place", "alike_by_place"),
    ("crates/size/proofs/Numbers.antt", "by_place", "alike_by_place"),
    ("crates/place/proofs/Steps.antt", "place_at", "place_at_lem"),
    ("crates/output/proofs/Lines.antt", "line_read", "line_read_lem"),
    ("crates/free/proofs/Placed.antt", "load_at", "load_at_lem"),
]
# Other files that import those lemmas.
USERS = {"place_at_lem": ("place_at", "Rattle.place.proofs.Steps"), "load_at_lem": ("load_at", "Rattle.free.proofs.Placed")}

WORD = r"[^\s(){}\[\].;,:@\"«»`⌜⌝|]+"
TOKEN = re.compile(WORD)


def in_snake_case(part):
    if not re.match(r"[a-z][A-Za-z0-9_]*[A-Z]", part):
        return part
    return re.sub(r"(?<=[a-z0-9])[A-Z]", lambda m: "_" + m[0].lower(), part)


def respelled(name):
    return "-".join(in_snake_case(part) for part in name.split("-"))


def renamed(text, old, new):
    return re.sub(rf"(?<![^\s(){{}}\[\];,:`]){re.escape(old)}(?![^\s(){{}}\[\].;,:`])", new, text)


def files(folder):
    for pattern in ("crates/*/specs/**/*.antt", "crates/*/proofs/**/*.antt", "crates/*/src/**/*.rt", "crates/*/must-fail/*.edit"):
        yield from sorted(glob.glob(os.path.join(folder, pattern), recursive=True))


def pages(folder):
    for pattern in ("README.md", "docs/**/*.md", "examples/*.md", "tests/*.md", "include/*.h"):
        yield from sorted(glob.glob(os.path.join(folder, pattern), recursive=True))


def main():
    folder = sys.argv[1] if len(sys.argv) > 1 else "."
    texts = {f: open(f, encoding="utf-8").read() for f in files(folder)}
    for file, old, new in LEMMAS:
        f = os.path.join(folder, file)
        if f in texts:
            texts[f] = renamed(texts[f], old, new)
    for new, (old, module) in USERS.items():
        for f, text in texts.items():
            if re.search(rf"use {re.escape(module)}\.\{{[^}}]*\b{old}\b", text):
                texts[f] = renamed(text, old, new)
    names = {t for f, text in texts.items() for t in TOKEN.findall(text) if respelled(t) != t}
    for f, text in texts.items():
        new = TOKEN.sub(lambda m: respelled(m[0]), text)
        if new != open(f, encoding="utf-8").read():
            open(f, "w", encoding="utf-8").write(new)
    for f in pages(folder):
        text = open(f, encoding="utf-8").read()
        new = TOKEN.sub(lambda m: respelled(m[0]) if m[0] in names else m[0], text)
        if new != text:
            open(f, "w", encoding="utf-8").write(new)
    print(f"respelled: {len(names)} names")


main()
