#!/usr/bin/env python3
"""Brings the repository's own definitions and lemmas to snake case, in .rt, .antt and .edit files; run once at the top, after port.py.

Types, modules and facts keep their capital; parts of a name joined by a dash are turned one by one.
"""
import os
import re

# A string, or a name; what follows a digit, as in 0x01C6, is no name.
WORD = re.compile(r""""(?:[^"\\\n]|\\.)*"|(?<![\w'])[A-Za-z_][\w'\-]*""")
# The bench images, which are lists and no types.
IMAGES = {"E1", "E2", "E3", "E9", "L1"}
HUMP = re.compile(r"([a-z0-9])([A-Z])")
# Lemmas whose name another definition in scope takes by the turning.
MOVED = {
    "crates/catalog/proofs/Asked.antt": {"found_part": "found_part-asked"},
    "crates/catalog/proofs/lookup_part/Proof.antt": {"found_part": "found_part-asked"},
    "crates/replies/proofs/Data.antt": {"part_bytes": "padded-part_bytes"},
    "crates/extents/proofs/Results.antt": {"no_key": "single-no_key"},
}


def part(word):
    return HUMP.sub(lambda m: m.group(1) + "_" + m.group(2).lower(), word) if word[:1].islower() else word


def snake(word):
    if word in IMAGES:
        return word.lower()
    return word if word.startswith('"') else "-".join(part(p) for p in word.split("-"))


def turn(path, text):
    moved = MOVED.get(path, {})
    return WORD.sub(lambda m: snake(moved.get(m.group(), m.group())), text)


def main():
    for folder, folders, files in os.walk("crates"):
        folders[:] = sorted(f for f in folders if f != "out")
        for name in sorted(files):
            if name.endswith((".rt", ".antt", ".edit")):
                path = os.path.join(folder, name)
                with open(path, encoding="utf-8") as f:
                    text = f.read()
                turned = turn(path, text)
                if turned != text:
                    with open(path, "w", encoding="utf-8") as f:
                        f.write(turned)


main()
