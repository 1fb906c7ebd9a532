#!/usr/bin/env python3
"""Spells the names of definitions, lemmas and variables in snake case, as `trips_at` for `tripsAt` and `arms-on_trips` for `arms-onTrips`.

usage: tools/spelling.py [FOLDER]

Of each crate below FOLDER (the repository's top where it is left out) it rewrites the files of specs/, proofs/ and must-fail/, and src/ but for quoted text.
A word turns that begins with a small letter and has a capital behind a small one: what begins with a capital, as types and modules, stays, and so do the hyphens between words.
A name in APART turns as it stands there: a lemma that would else be spelled like the definition that it speaks of, and a capital behind an underscore.
It prints how many files changed. Run it once, on files in the older spelling.
"""

import os
import re
import sys

# A lemma on `countsUp`, which becomes `counts_up`; a lemma of this repository that has the spelling of none.
APART = {"counts_up": "counts-up", "and_T": "and_t"}
KINDS = (".antt", ".rt", ".edit")
QUOTED = re.compile(r'"(?:\\.|[^"\\\n])*"')
WORD = re.compile(r"(?<![A-Za-z0-9_])[a-z][A-Za-z0-9_']*")
TURNS = re.compile(r"[a-z0-9][A-Z]")
BREAK = re.compile(r"(?<=[a-z0-9])(?=[A-Z])|(?<=[A-Z])(?=[A-Z][a-z])")


def word(name):
    """The name in snake case, where it has a capital behind a small letter."""
    if not TURNS.search(name):
        return APART.get(name, name)
    return BREAK.sub("_", name).lower()


def turned(text):
    """The text with each word turned, but for what stands in quotes."""
    parts, at = [], 0
    for quoted in QUOTED.finditer(text):
        parts.append(WORD.sub(lambda m: word(m[0]), text[at : quoted.start()]))
        parts.append(quoted[0])
        at = quoted.end()
    parts.append(WORD.sub(lambda m: word(m[0]), text[at:]))
    return "".join(parts)


def files(top):
    """The files of the crates below a folder, in order."""
    for folder, folders, names in os.walk(os.path.join(top, "crates")):
        folders[:] = sorted(f for f in folders if f not in ("out", "data"))
        for name in sorted(names):
            if name.endswith(KINDS):
                yield os.path.join(folder, name)


def main(arguments):
    top = arguments[0] if arguments else os.path.dirname(os.path.dirname(os.path.abspath(__file__)))
    changed = 0
    for path in files(top):
        with open(path, encoding="utf-8") as file:
            text = file.read()
        new = turned(text)
        if new != text:
            with open(path, "w", encoding="utf-8") as file:
                file.write(new)
            changed += 1
    print(f"spelling: {changed} files changed")


if __name__ == "__main__":
    main(sys.argv[1:])
