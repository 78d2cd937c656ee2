#!/usr/bin/env python3
"""Brings this repository's own names of definitions, fields and lemmas from the spelling of the older Rattle to that of this one:
words in snake case, a dash only between two names, and `_lem` behind a lemma that would have its function's name.

usage: python3 tools/respell.py [FOLDER]     once, at the top of the tree that port.py has turned (FOLDER, or the folder above this one)

The names stand in respell.tsv; respelled-by-port.tsv has those that port.py turned by itself, for what it does not turn: the
must-fail edits and the pages. Functions of src/, exported names, strings, inputs and outputs keep theirs.
"""

import os
import re
import sys

HERE = os.path.dirname(os.path.realpath(__file__))
WORD = re.compile(r"[^\s(){}.;,@\"«»`]+")
STRING = re.compile(r'b?"(?:[^"\\]|\\.)*"')
SPAN = re.compile(r"`[^`\n]*`")

# Lemmas that have, in their file, the name that a definition there gets now.
FIRST = {
    "listing/proofs/Different.antt": ["first_block"],
    "keyed/proofs/Laws.antt": ["front_by"],
    "valid/proofs/Clauses.antt": ["room_in"],
    "rbsp/proofs/Laws.antt": ["no_end"],
    "reader/proofs/Laws.antt": ["no_blocks"],
    "block/proofs/Laws.antt": ["in_order"],
    "sei/proofs/Units.antt": ["none_inside"],
    "cause/proofs/Functions.antt": ["too_many_blocks"],
    "tree/proofs/Stands.antt": ["left_over"],
    "syntax/proofs/Stands.antt": ["left_over"],
    "promises/proofs/Where.antt": ["left_over"],
    "promises/proofs/Why.antt": ["left_over"],
    "track/proofs/fill/Proof.antt": ["bound_of", "right_of"],
}


def table(name):
    with open(os.path.join(HERE, name), encoding="utf-8") as f:
        return dict(line.rstrip("\n").split("\t") for line in f if line[0] != "#")


def turned(text, rows):
    return WORD.sub(lambda m: rows.get(m.group(), m.group()), text)


def outside_strings(text, rows):
    parts, at = [], 0
    for m in STRING.finditer(text):
        parts += [turned(text[at : m.start()], rows), m.group()]
        at = m.end()
    return "".join(parts) + turned(text[at:], rows)


def main(top):
    own = table("respell.tsv")
    pages = table("respelled-by-port.tsv") | own
    count = 0
    for folder, folders, files in os.walk(top):
        folders[:] = sorted(d for d in folders if d not in ("out", ".git", "target", "tools", "second"))
        for name in sorted(files):
            path = os.path.join(folder, name)
            inside = os.path.relpath(path, os.path.join(top, "crates"))
            kind = os.path.splitext(name)[1]
            if kind not in (".antt", ".rt", ".edit", ".md"):
                continue
            with open(path, encoding="utf-8") as f:
                old = new = f.read()
            if kind == ".antt":
                first = {n: n + "_lem" for n in FIRST.get(inside, ())}
                new = turned(turned(new, first), own)
            elif kind == ".rt":
                new = outside_strings(new, own)
            elif kind == ".edit":
                lines = new.splitlines(keepends=True)
                new = "".join(turned(l, pages) if l.startswith(("old: ", "new: ")) else l for l in lines)
            else:
                new = SPAN.sub(lambda m: turned(m.group(), pages), new)
            if new != old:
                count += 1
                with open(path, "w", encoding="utf-8") as f:
                    f.write(new)
    print(f"{count} files respelled")


if __name__ == "__main__":
    main(os.path.realpath(sys.argv[1]) if len(sys.argv) > 1 else os.path.dirname(HERE))
