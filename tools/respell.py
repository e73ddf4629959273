#!/usr/bin/env python3
"""Brings the repository's own definitions and lemmas to snake case: sumTo becomes sum_to, in specs/, proofs/ and the clauses and comments of src/.

usage: tools/respell.py [FOLDER]    once, at the top of a checkout (or FOLDER), after the toolchain's port.py
Types, modules and constructors keep their capital; names of Rust code are in snake case already. It says which names fall together with one that a file has.
"""
import os
import re
import sys

# getD is the library's old name for get_or; what is left here is in names of our own.
PARTS = {"getD": "get_or"}
WHOLE = {"get_d_tabulate": "get_or-tabulate"}
# Letters of units and of local variables, and names of the library.
KEPT = {"kW", "uint_Lawful", "uint_Makes", "uint_Tells", "shr_Tells", "shr_slice_Tells", "walk_Meets", "not_T"}
WORD = re.compile(r"(?<![A-Za-z0-9_'\\\-])[a-z][A-Za-z0-9_'\-]*")
# Lemmas and local names that would get the name of a definition of the same file, by file: they get another first.
APART = {
    "crates/record_layouts/specs/LayoutLaws.antt": {"bits_most": "bits-most"},
    "crates/record_layouts/specs/QuestionLaws.antt": {"bits_most": "bits-most"},
    "crates/record_layouts/specs/PartLaws.antt": {"fields_in": "fields_within"},
    "crates/year_cells/specs/Regions.antt": {"no_test": "test_none"},
}


def part(word):
    if word in KEPT or word in PARTS:
        return PARTS.get(word, word)
    if not re.fullmatch(r"[a-z][a-zA-Z0-9]*", word) or not re.search(r"[A-Z]", word):
        return word
    return re.sub(r"(?<=[a-z0-9])(?=[A-Z])|(?<=[A-Z])(?=[A-Z][a-z])", "_", word).lower()


def respell(name):
    if name in KEPT or name in WHOLE:
        return WHOLE.get(name, name)
    return "-".join("_".join(part(w) for w in piece.split("_")) if piece not in KEPT else piece for piece in name.split("-"))


def main(root):
    together = set()
    for folder, dirs, files in os.walk(os.path.join(root, "crates")):
        dirs[:] = sorted(d for d in dirs if d not in ("out", "must-fail"))
        for f in sorted(files):
            if not f.endswith((".rt", ".antt")):
                continue
            path = os.path.join(folder, f)
            with open(path, encoding="utf-8") as it:
                text = it.read()
            apart = APART.get(os.path.relpath(path, root), {})
            text = WORD.sub(lambda m: apart.get(m.group(0), m.group(0)), text)
            words = set(WORD.findall(text))
            for w in words:
                if respell(w) != w and respell(w) in words:
                    together.add(f"{path}: {w} and {respell(w)}")
            new = WORD.sub(lambda m: respell(m.group(0)), text)
            if new != text:
                with open(path, "w", encoding="utf-8") as it:
                    it.write(new)
    print("\n".join(sorted(together)))


main(sys.argv[1] if len(sys.argv) > 1 else ".")
