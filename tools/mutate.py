#!/usr/bin/env python3
"""mutate.py SEED COUNT [CRATE ..]: puts COUNT small faults into the sources of all crates, or of those named, one at a time, in a copy of
the repository, and says of each whether the prover refuses it, only the tests find it, or it lives. Needs a repository in which every crate
is proved (rt all check), whose work rt takes for the copy. A fault that is no program is passed over and counted apart."""
import os, random, re, shutil, subprocess, sys, tempfile

sys.dont_write_bytecode = True
from source import code_of

# One fault: a comparison, a constant, an operand, a branch or a side.
KINDS = [
    ("comparison", re.compile(r" (<=|<|==|!=) "), {"<": "<=", "<=": "<", "==": "!=", "!=": "=="}),
    ("arithmetic", re.compile(r" (\+|-|\+=|-=) "), {"+": "-", "-": "+", "+=": "-=", "-=": "+="}),
    ("constant", re.compile(r"(?<![\w.\[; ])(\d+)(?![\w\]])|(?<= )(\d+)(?![\w\]])"), None),
    ("operands", re.compile(r"(?<![.\w])(?<!as )([a-z]\w*), ([a-z]\w*)\b(?!['.\[(])"), None),
    ("branch", re.compile(r"\bif (!?)(?=[a-z])"), None),
    ("side", re.compile(r"Side::(Left|Right|Neither)"), {"Left": "Right", "Right": "Left", "Neither": "Left"}),
    ("truth", re.compile(r"\b(true|false)\b"), {"true": "false", "false": "true"}),
]
NO_CODE = re.compile(
    r"\s*(//|use |ghost |requires|ensures|pub fn|fn |mod |pub use|#\[|pub enum|pub struct|pub extern|extern|\)|impl|struct|enum)"
)


def faulty(kind, match, line):
    name, _, swap = kind
    if name == "constant":
        begin, end = match.span()
        return line[:begin] + str(int(match.group()) + 1) + line[end:]
    if name == "operands":
        if match.group(1) == match.group(2):
            return line
        return line[: match.start()] + match.group(2) + ", " + match.group(1) + line[match.end() :]
    if name == "branch":
        return line[: match.start(1)] + ("" if match.group(1) else "!") + line[match.end(1) :]
    return line[: match.start(1)] + swap[match.group(1)] + line[match.end(1) :]


def faults_of(path):
    """All faults of a file: (number of the line, kind, line, faulty line). Only lines that stand once, so that an edit names its place."""
    text = open(path, encoding="utf-8").read()
    lines, code = text.split("\n"), code_of(text).split("\n")
    found = []
    for at, line in enumerate(lines):
        if not code[at].strip() or NO_CODE.match(line) or sum(line in other for other in lines) != 1:
            continue
        for kind in KINDS:
            if kind[0] == "branch" and re.search(r" (<=|<|==|!=) ", line):
                continue
            for match in kind[1].finditer(line):
                new = faulty(kind, match, line)
                if new != line:
                    found.append((at + 1, kind[0], line, new))
    return found


def choose(root, seed, count, only):
    """The crates in turn, each time another fault of the crate, until there are enough."""
    dice = random.Random(seed)
    left = {}
    for crate in sorted(os.listdir(os.path.join(root, "crates"))):
        if crate == "trials" or (only and crate not in only):  # the trials are a test themselves
            continue
        folder = os.path.join(root, "crates", crate, "src")
        files = sorted(os.listdir(folder)) if os.path.isdir(folder) else []
        all_of = [(crate, "src/" + name) + fault for name in files for fault in faults_of(os.path.join(folder, name))]
        dice.shuffle(all_of)
        if all_of:
            left[crate] = all_of
    chosen = []
    while len(chosen) < count and any(left.values()):
        for crate in sorted(left):
            if left[crate] and len(chosen) < count:
                chosen.append(left[crate].pop())
    return chosen


def copy_of(root):
    work = tempfile.mkdtemp(prefix="mutate.")
    tree = os.path.join(work, "tree")
    shutil.copytree(root, tree, symlinks=True, ignore=shutil.ignore_patterns(".git", "must-fail", "out"))
    return work, tree


def prover(tree, chosen):
    """Each fault as a must-fail edit. What the prover says of it: refused, proved, or no program."""
    for number, (crate, name, _, _, old, new) in enumerate(chosen):
        folder = os.path.join(tree, "crates", crate, "must-fail")
        os.makedirs(folder, exist_ok=True)
        with open(os.path.join(folder, "fault_%03d.edit" % number), "w", encoding="utf-8") as edit:
            edit.write("file: %s\nold: %s\nnew: %s\n" % (name, old, new))
    said = subprocess.run(["rt", "must-fail"] + sorted({fault[0] for fault in chosen}), cwd=tree, capture_output=True, text=True).stdout
    for crate in {fault[0] for fault in chosen}:
        shutil.rmtree(os.path.join(tree, "crates", crate, "must-fail"))
    verdicts = {}
    for found in re.finditer(r"must-fail \w+/fault_(\d+)\.edit: (refused|NOT REFUSED|BAD EDIT)", said):
        verdicts[int(found.group(1))] = {"refused": "refused", "NOT REFUSED": "proved", "BAD EDIT": "no program"}[found.group(2)]
    return verdicts


def tests_find(tree, fault):
    """Whether a test finds a fault that the prover let through: the programs' stored output, C, the stored books, or fresh lines through
    the second program."""
    crate, name, _, _, old, new = fault
    path = os.path.join(tree, "crates", crate, name)
    text = open(path, encoding="utf-8").read()
    with open(path, "w", encoding="utf-8") as file:
        file.write(text.replace(old, new, 1))
    tests = ["rt all test", "bash c/test.sh", "bash tools/stored-books.sh", "bash tools/against-second.sh 1 10000"]
    found = [test for test in tests if subprocess.run(test.split(), cwd=tree, capture_output=True).returncode != 0]
    with open(path, "w", encoding="utf-8") as file:
        file.write(text)
    return found[0] if found else None


def main():
    seed, count = int(sys.argv[1]), int(sys.argv[2])
    root = os.path.dirname(os.path.dirname(os.path.abspath(__file__)))
    chosen = choose(root, seed, count, sys.argv[3:])
    work, tree = copy_of(root)
    verdicts = prover(tree, chosen)
    counts = {}
    for number, fault in enumerate(chosen):
        verdict = verdicts.get(number, "not tried")
        if verdict == "proved":
            by = tests_find(tree, fault)
            verdict = "found by " + by if by else "lives"
        key = "found by tests" if verdict.startswith("found") else verdict
        counts[key] = counts.get(key, 0) + 1
        crate, name, at, kind, old, new = fault
        print("%s | %s %s:%d | %s | `%s` | `%s`" % (verdict, crate, name, at, kind, old.strip(), new.strip()), flush=True)
    print(", ".join("%d %s" % (counts[key], key) for key in sorted(counts)))
    shutil.rmtree(work)


main()
