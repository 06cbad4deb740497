#!/usr/bin/env python3
"""Spells the repository's own definitions and lemmas as today's Rattle does: words in snake case, facts and modules in camel case.

usage: python3 tools/respell.py        at the top, once, after port.py of the kit

A name that a text of specs/ or proofs/ declares is cut at its dashes, and each part that begins with a small letter and has a capital
inside becomes words with `_` between them. A dash that joins two names, as in `size-mkpop`, stays: lemmas are called so. The definitions
that are no lemmas and have a dash, and the names that would fall together with others, are listed in OTHERS. It says where two names would fall together, and then writes nothing.
The must-fail edits
and the pages, which port.py leaves, get what it renamed too. Strings, file names, the names of Rust functions and what the programs read and write stay.
"""
import os
import re
import subprocess
import sys

NAME = re.compile(r"[^\s(){}.;,@\"«»`]+")
BARE = re.compile(r"(?<![^\s(){};,])[^\s(){}.;,@\"«»`]+")
DECLARES = re.compile(r"^\s*(?:(?:pub|abbrev|unfoldable|constructor|data|record)\s+)*([^\s(){}:;,.]+)(?:\s+[^\s(){}:;,.]+)*\s*(?:\{[^}]*\}\s*)*:(?:\s|$)")
OTHERS = {
    "left-run": "run_on_left", "right-run": "run_on_right", "length-right": "length_right", "length-field": "length_field",
    "offset-right": "offset_right", "offset-field": "offset_field", "by-P": "by_p", "total-meas": "total_meas", "one-if": "one_if",
    "ℤ-ring": "ℤ_ring", "mod-ring": "mod_ring", "P-ring": "p_ring", "Is-over": "IsOver", "Is-under": "IsUnder",
    # lemmas whose names today's words for the definitions that they speak of would be
    "first_past": "first-past", "in_rest": "in-rest", "only_end": "only-end", "plain_at": "plain-at", "read_int": "read-int",
    "same_of": "same-of",
    # a definition that is called as a field of a record, and a label that is called as a definition
    "inRow": "is_in_row", "point_after": "point_then",
}


def part(word):
    if not re.match(r"[a-zμ]", word) or not re.search(r"[a-z0-9][A-Zℤ]", word):
        return word
    return re.sub(r"(?<=[a-z0-9])([A-Zℤ]+)", lambda m: "_" + m[1].lower(), word)


def respelled(name):
    if name in OTHERS:
        return OTHERS[name]
    return "-".join(part(word) for word in name.split("-"))


def texts():
    for folder, dirs, files in os.walk("crates"):
        dirs[:] = sorted(d for d in dirs if d != "out")
        for file in sorted(files):
            if file.endswith((".antt", ".rt", ".edit")):
                yield os.path.join(folder, file)


def pages():
    yield "README.md"
    for folder, _, files in os.walk("docs"):
        for file in sorted(files):
            if file.endswith(".md") and not file.startswith("PORT"):
                yield os.path.join(folder, file)


def names_in(text):
    return [match[1] for match in map(DECLARES.match, text.split("\n")) if match]


def ported():
    """What port.py renamed: the declarations of a file, before and after it, stand in one order."""
    before, table = {}, {}
    for path in texts():
        shown = subprocess.run(["git", "show", f"HEAD:{path}"], capture_output=True, text=True, check=False)
        if path.endswith(".antt") and "/specs/" in path and shown.returncode == 0:
            with open(path, encoding="utf-8") as file:
                old, new = names_in(shown.stdout), names_in(file.read())
            if len(old) == len(new):
                before.update(zip(old, new))
            else:
                print(f"declarations not in one order: {path}")
    return {old: new for old, new in before.items() if old != new}


def main():
    declared, used = {}, set()
    for path in texts():
        with open(path, encoding="utf-8") as file:
            lines = file.read().split("\n")
        for line in lines:
            # the names of modules and of fields stand behind dots
            if path.endswith(".antt") and not path.endswith("Proof.antt") and not line.startswith("use "):
                used.update(BARE.findall(line.split("--")[0]))
            match = DECLARES.match(line)
            if path.endswith(".antt") and match:
                declared.setdefault(match[1], path)
    table = {name: respelled(name) for name in declared if respelled(name) != name}
    table.update(OTHERS)
    bad = 0
    for name, new in sorted(table.items()):
        others = [other for other, to in table.items() if to == new and other != name]
        if others or new in used and new not in table:
            print(f"falls together: {name} -> {new}", *others)
            bad = 1
    if bad:
        return 1
    by_port = ported()
    for path in [*texts(), *pages()]:
        with open(path, encoding="utf-8") as file:
            text = file.read()
        turned = text
        if path.endswith((".edit", ".md")):
            turned = NAME.sub(lambda m: by_port.get(m[0], m[0]).replace("′", "'"), turned)
        turned = NAME.sub(lambda m: table.get(m[0], m[0]), turned)
        if turned != text:
            with open(path, "w", encoding="utf-8") as file:
                file.write(turned)
    print("\n".join(f"{name} {new}" for name, new in sorted(table.items())))
    print(f"respelled: {len(table)} names")
    return 0


if __name__ == "__main__":
    sys.exit(main())
