#!/usr/bin/env python3
"""floors.py: that no crate uses one of a floor above its own.

A crate's name begins with its floor (crates.txt, README). What a crate uses is what crates.txt lists for it, and what its files name:
`Rattle.NAME` in specs, proofs and clauses, `NAME::` and `use NAME` in the code. Prints each use of a higher floor, and each crate that
stands on no floor; the status is then 1."""
import os
import re
import sys

FLOORS = (
    ("horner",),
    ("dialect", "refusal"),
    ("code",),
    ("run",),
    ("text", "term", "form", "measure"),
    ("reply", "door"),
    ("call",),
    ("book", "desk", "panel", "printer"),
    ("demands", "trials"),
)


def listed():
    crates = {}
    with open("crates.txt", encoding="utf-8") as file:
        for line in file:
            name, colon, rest = line.split("#")[0].partition(":")
            if colon:
                crates[name.strip()] = set(rest.split())
    return crates


def floor_of(name):
    first = name.split("_")[0]
    return next((number for number, names in enumerate(FLOORS) if first in names), None)


def named_in(crate, crates):
    """Each crate that a file of this one names, with the file."""
    for where, folders, files in os.walk(os.path.join("crates", crate)):
        folders[:] = [folder for folder in folders if folder != "out"]
        for file in files:
            if file.endswith((".rt", ".antt")):
                path = os.path.join(where, file)
                with open(path, encoding="utf-8") as text:
                    words = set(re.findall(r"\bRattle\.([a-z_]+)|\b([a-z_]+)::|^use ([a-z_]+)\b", text.read(), re.M))
                for name in {word for words_of_one in words for word in words_of_one} & set(crates):
                    yield name, path


def main():
    crates, wrong = listed(), []
    for crate in crates:
        own = floor_of(crate)
        if own is None:
            wrong.append("%s stands on no floor" % crate)
            continue
        uses = {(name, "crates.txt") for name in crates[crate] if name in crates} | set(named_in(crate, crates))
        wrong += ["%s uses %s, a floor above (%s)" % (crate, name, path) for name, path in sorted(uses) if (floor_of(name) or 0) > own]
    print("\n".join(wrong + ["floors: %d crates on %d floors, %d uses of a higher one" % (len(crates), len(FLOORS), len(wrong))]))
    return 1 if wrong else 0


sys.exit(main())
