#!/usr/bin/env python3
"""Turns the repository's own lower camel case names of specs/, proofs/ and clauses to snake case.

usage: python3 tools/snake_names.py [--list]     in the repository, once, right after the kit's port.py

Functions of src/ have snake case already, and exported names, strings, inputs and outputs are left as they are: the words of
KEPT are names of the kit, units and text. Where two names would fall together the word of APART is taken in place of the plain one.
With --list it writes nothing and prints each name with its new one, and those that fall together with a name that stands already.
"""

import glob
import os
import re
import sys

KEPT = {"mHz", "x0Acontinuous"}
KIT = re.compile(r"^(mut|shr|uint|walk|not|mut_slice|shr_slice)_[A-Z]")
APART = {"endRead": "read_ended", "goesOn": "going_on"}
# Lemmas whose dash port.py turned, since a function of src/ has the name; the definition takes the name with the underscore.
DASHED = {
    "after_front", "after_line", "is_digit", "last_code", "line_read", "line_step", "lines_after", "no_number", "on_line", "point_at",
    "record_of", "same_bytes", "two_digits",
}
LEMMA = re.compile(r"(?<![\w'.·-])(" + "|".join(sorted(DASHED)) + r")(?![\w'-])")
# The module that today's Rattle makes of the contracts has the name of this file, so the file takes another.
MOVED = {"crates/demands/specs/Contracts.antt": "crates/demands/specs/CodeContracts.antt"}
WORD = re.compile(r"(?<![\w'])[a-z_][\w'-]*")


def turned(word):
    if word in KEPT or KIT.match(word) or not re.search(r"[A-Z]", word):
        return word
    if word in APART:
        return APART[word]
    return re.sub(r"(?<=[a-z0-9])([A-Z])", lambda m: "_" + m.group(1).lower(), word)


def files():
    for shape in ("crates/*/specs/**/*.antt", "crates/*/proofs/**/*.antt", "crates/*/src/**/*.rt"):
        yield from sorted(glob.glob(shape, recursive=True))


def main():
    names = {}
    seen = set()
    for name in files():
        with open(name, encoding="utf-8") as f:
            text = f.read()
        for m in WORD.finditer(text):
            word = m.group(0)
            if turned(word) == word:
                seen.add(word)
            else:
                names[word] = turned(word)
        if "--list" not in sys.argv:
            if name.endswith(".antt"):
                text = LEMMA.sub(lambda m: m.group(1).replace("_", "-"), text)
                text = text.replace("demands.specs.Contracts", "demands.specs.CodeContracts").replace("specs/Contracts.antt", "specs/CodeContracts.antt")
                if name == "crates/demands/specs/Lib.antt":
                    text = text.replace("pub mod Contracts", "pub mod CodeContracts")
            new = WORD.sub(lambda m: turned(m.group(0)), text)
            with open(name, "w", encoding="utf-8") as f:
                f.write(new)
    if "--list" not in sys.argv:
        for old, new in MOVED.items():
            if os.path.exists(old):
                os.rename(old, new)
    if "--list" in sys.argv:
        back = {}
        for word, new in sorted(names.items()):
            back.setdefault(new, []).append(word)
        for new, words in sorted(back.items()):
            mark = " FALLS TOGETHER" if new in seen or len(words) > 1 else ""
            print(f"{', '.join(words)} -> {new}{mark}")
    print(f"{len(names)} names", file=sys.stderr)


main()
