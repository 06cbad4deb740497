"""design.py [ROOT] [POINT]: the places in crates/*/src of docs/DESIGN-PASS.md, counted; with a point, its places are printed too."""
import collections
import glob
import re
import sys

import os

sys.path.insert(0, os.path.dirname(os.path.abspath(__file__)))
from source import code_of

ROOT = sys.argv[1] if len(sys.argv) > 1 else "."
FUNCTION = re.compile(r"^( *)((?:pub )?fn (\w+).*?)\n\1\{\n(.*?)\n\1\}$", re.S | re.M)
WORD = re.compile(r"[A-Za-z_]\w*|\d\w*|[^\s\w]")
KEYWORDS = set("as bool break continue else enum false fn for if impl in let loop match mut pub return struct true u8 u16 u32 u64 usize i32 i64 while".split())


class Function:
    def __init__(self, path, line, head, name, body):
        self.path, self.line, self.head, self.name, self.body = path, line, head, name, body
        self.place = f"{path}:{line}: {name}"


def functions(path, text):
    for found in FUNCTION.finditer(text):
        yield Function(path, text.count("\n", 0, found.start()) + 1, found[2], found[3], found[4])


def lines(expression):
    """The lines of code that the expression finds."""
    for path, text in SOURCES.items():
        for number, line in enumerate(code_of(text).split("\n"), 1):
            if re.search(expression, line):
                yield f"{path}:{number}: {line.strip()}"


def shape(function):
    """The words of a body, each name by the order in which it comes, each number as one."""
    names, out = {}, []
    for word in WORD.findall(code_of(function.body)):
        if re.match(r"\d", word):
            word = "0"
        elif re.match(r"[A-Za-z_]", word) and word not in KEYWORDS:
            word = "n%d" % names.setdefault(word, len(names))
        out.append(word)
    return tuple(out)


def twins():
    """Functions of at least 20 words whose bodies differ in names and numbers alone: one place for each but the first."""
    groups = collections.defaultdict(list)
    for function in ALL:
        if len(shape(function)) >= 20:
            groups[shape(function)].append(function)
    for group in groups.values():
        if len(group) > 1:
            yield " = ".join(function.place for function in group)


def enums():
    """Own enums with a variant that says that nothing, or a refusal, is there."""
    for path, text in SOURCES.items():
        for found in re.finditer(r"enum (\w+) \{(.*?)\n\}", text, re.S):
            body = re.sub(r"//[^\n]*", "", found[2])
            if re.search(r"\b(Refused|Wrong|Off|Over|None|Granted|Fine)\b", body):
                yield f"{path}: {found[1]}"


def loops():
    """Loops by while or loop that count an index: a name is added to in the body, and stands in the test or in an index."""
    for function in ALL:
        for found in re.finditer(r"^( *)(while [^\n]*|loop) \{\n(.*?)\n\1\}", code_of(function.body), re.S | re.M):
            counted = re.findall(r"\b(\w+) \+= ", found[3]) + re.findall(r"\blet (\w+) = \w+ \+ 1;", found[3])
            if any(re.search(rf"\b{name}\b", found[2]) or re.search(rf"\[[^\]]*\b{name}\b", found[3]) for name in counted):
                yield f"{function.place}: {found[2]}"


def clauses():
    """Facts that stand in the contracts of three or more functions."""
    stands = collections.defaultdict(set)
    for function in ALL:
        for found in re.finditer(r"(?:requires|ensures)(?: \w+)? \{(.*)\}$", function.head, re.M):
            stands[" ".join(found[1].split())].add(function.place)
    for fact, places in stands.items():
        if len(places) >= 3:
            yield f"{len(places)} functions: {fact}"


def groups():
    """Lists of three parameters or more that stand side by side in three functions or more."""
    stands = collections.defaultdict(set)
    for function in ALL:
        found = re.search(r"\((.*?)\)(?: -> [^\n]*)?(?:\n|$)", function.head, re.S)
        names = re.findall(r"(\w+: [^,]+?)(?:,|$)", " ".join((found[1] if found else "").split()))
        for size in range(3, len(names) + 1):
            for at in range(len(names) - size + 1):
                stands[tuple(names[at : at + size])].add(function.place)
    kept = {names: places for names, places in stands.items() if len(places) >= 3}
    for names, places in kept.items():
        if not any(other != names and places <= kept[other] and ", ".join(names) in ", ".join(other) for other in kept):
            yield f"{len(places)} functions: {', '.join(names)}"


POINTS = {
    "1 own enums of the shape of Option or Result": enums,
    "1 numbers for kinds": lambda: lines(r"\b(kind|tag|g|shape): u(32|size)\b|Fine\(u32|fn (operator_of|limit_of|point_fault)\b|\bkind: \d"),
    "1 first words of nodes looked at by number": lambda: lines(r"\b(if|let)\b.*(\b[hvw] (<|-) (NODE|2147483648|2147483712)|\((w|h|v) - (NODE|2147483648)\)|\btag ==|\bkind (<|==) \d|\bg == \d)"),
    "1 a flag or a number with a value beside it": lambda: lines(r"\bOFF\b|9223372036854775808"),
    "2 functions that differ in names and numbers alone": twins,
    "3 loops that count an index by hand": loops,
    "4 equality, order, copying, conversion, printing by hand": lambda: lines(r"fn (same|copy|shift|expt_of|least|lesser|larger|less|if_zero|one_if|is_digit|is_capital|has|say_\w+|number_of|with_hex|panel_terms)\b"),
    "4 types without derives that they could have": lambda: lines(r"^#\[derive\(Drop\)\]|^#\[derive\(Clone, Copy\)\]"),
    "5 facts in three or more contracts": clauses,
    "5 parameters that travel together": groups,
    "6 a slice with lengths of its parts beside it": lambda: (f.place for f in ALL if re.search(r"(stack|out|s|l|x|a|d): &(mut )?\[u32\],\s+\w+: usize", f.head)),
    "7 switches on which step to run": lambda: lines(r"\bmatch (call|word|\w+\.0)\b"),
}

SOURCES = {path: open(path).read() for path in sorted(glob.glob(ROOT + "/crates/*/src/*.rt"))}
ALL = [function for path, text in SOURCES.items() for function in functions(path, text)]
for name, places in POINTS.items():
    found = list(places())
    print(f"{len(found):4} {name}")
    if sys.argv[2:] and name.startswith(sys.argv[2]):
        for place in found:
            print("    ", place.replace(ROOT + "/crates/", ""))
