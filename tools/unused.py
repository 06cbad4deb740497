#!/usr/bin/env python3
"""unused.py [PART ..]: lists every function (.rt) and every lemma, definition, record, type and ruleset (.antt, in specs/ and proofs/)
that nothing needs, as FILE:LINE: NAME, and every name that a file imports and does not use, as FILE: use NAME; with PARTs only the lines
that have one of them. The exit status is 1 if there is any.

Something is needed if it is a root, or if something needed names it: in its contract, its signature, a clause or an `unfolding`, by a
name of its own file, by one that the file imports (`use M.{name}`, `name as x`), by `alias.name` or by its full name. An import alone
needs nothing. A function needs what its attributes name too. Roots are `main`, the public calls, what a function's proof answers (in
proofs/F/, of a type `goal.X`), the public statements of crates/demands and of every Theorems.antt, Clauses.antt and Cases.antt, and what
ALLOWED lists. Helpers behind a `where` are not looked at."""
import collections, pathlib, re, sys

# Statements that stand for their own sake, and why.
ALLOWED = {
    ("crates/term_tree/proofs/Codes.antt", "dec-enc"): "the words of a tree show what they are said to show",
    ("crates/text_laws/specs/laws/FormNodes.antt", "wrong-stands"): "`nodes` counts bytes: at the place of a node stands its text",
    ("crates/panel/specs/Laws.antt", "compared_is"): "the struct of the enum that `compare` answers is that of its reply",
    ("crates/panel/specs/Laws.antt", "written_is"): "so it is of what `form` answers",
    ("crates/panel/specs/Laws.antt", "remaindered-is"): "and of what `remainder` answers",
    ("crates/dialect/src/lib.rt", "with_hex"): "the dialect of request 106, which no call reads yet",
    ("crates/dialect/src/lib.rt", "panel_terms"): "the dialect of request 101, which no call reads yet",
}
CALLS = re.compile(r"call_\w+|book_print|panel|panel_c|demands")

ROOT = pathlib.Path(__file__).resolve().parent.parent
NAME = r"[^\s(){}\[\];,.:=]+"
HEAD = re.compile(r"((?:abbrev |unfoldable |pub )*)(?:(record|data|ruleset) (%s)|(%s(?: %s)*) :(?:\s|$))" % (NAME, NAME, NAME))
WORD = re.compile(r"\.?%s(?:\.%s)*" % (NAME, NAME))
ANSWER = re.compile(r"(?:abbrev )?pub (\S+) :\s+goal\.\1$", re.M)
IMPORT = re.compile(r"^(?:pub |ghost )*use [^\s{]+(?:\{[^}]*\})?(?: as \S+)?;?$", re.M)

Thing = collections.namedtuple("Thing", "file crate folder line name is_root words")
things = []  # all that is declared
needed_anyway = []
known = collections.defaultdict(list)  # (file without its ending, name): the things that the name stands for
functions = collections.defaultdict(list)  # name: the functions of that name


def parts(name):
    """The name, and of an operator what stands between its operands."""
    return {name} | set(name.split("◌")) - {""}


def declare(file, line, name, is_root):
    thing = Thing(file, file.split("/")[1], file.split("/")[2], line, name, is_root or (file, name) in ALLOWED, set())
    things.append(thing)
    for part in parts(name):
        known[stem(file), part].append(thing)
    return thing


def stem(file):
    return file.rsplit(".", 1)[0]


def module(path):
    """Of a full name Rattle.CRATE.. the file, without its ending, and the rest of the name."""
    found = re.match(r"Rattle\.(\w+)\.(.+)$", path)
    steps = found.group(2).split(".") if found else []
    for n in range(len(steps), 0, -1):
        file = "crates/%s/%s" % (found.group(1), "/".join(steps[:n]))
        if (ROOT / (file + ".antt")).exists():
            return file, ".".join(steps[n:])
    return None, ""


def imports(text):
    """What a file's imports say: {name: (file, name there)}, {alias: file}."""
    names, aliases = {}, {}
    for path, listed in re.findall(r"\buse (Rattle\.\S+?)\.\{([^}]*)\}", text):
        for item in listed.split(","):
            there, _, here = item.strip().partition(" as ")
            for name in parts(here or there):
                names[name] = (module(path)[0], there)
    for path, alias in re.findall(r"\buse (Rattle\.\S+) as (\S+?);?\s", text):
        aliases[alias] = module(path)[0]
    return names, aliases


def idle(text):
    """The names that a file imports and does not use; of an operator, what stands between its operands."""
    lines = [line for line in IMPORT.sub("", text).split("\n") if not re.match(r"\s*(--|//) ", line)]
    body = "\n".join(lines)
    words = set(re.split(r"[\s(){}\[\];,.|]+", body)) | set(body.split()) | {"[]"}
    for listed in re.findall(r"^(?:pub |ghost )*use \S+?\.\{([^}]*)\}", text, re.M):
        for name in (item.split(" as ")[-1].strip() for item in listed.split(",")):
            if name and name not in words and not ("◌" in name and all(part in body for part in name.split("◌"))):
                yield name


def is_stated(file, public):
    """Whether a file's public declarations are statements."""
    return public and (file.split("/")[1] == "demands" or file.split("/")[-1] in ("Theorems.antt", "Clauses.antt", "Cases.antt"))


def without_imports(text):
    """As many lines as the text, those of its imports empty."""
    return IMPORT.sub(lambda found: "\n" * found.group().count("\n"), text)


def read_antt(file, text):
    here, kind, sections, headers = None, None, [], {}
    text = without_imports(text)
    answers = {found.group(1) for found in ANSWER.finditer(text)} if len(file.split("/")) > 4 and file.split("/")[2] == "proofs" else set()
    for number, line in enumerate(text.split("\n"), 1):
        line = re.sub(r"(^|\s)--(\s.*)?$", "", line)
        if not line.strip() or re.match(r"\s*(pub )?mod ", line):
            continue
        indent = len(line) - len(line.lstrip())
        while sections and sections[-1] >= indent:
            headers.pop(sections.pop())
        level = sections[-1] + 2 if sections else 0
        words = WORD.findall(line)
        head = HEAD.match(line.strip())
        if indent == level and re.match(r"\s*(module _|mutual)", line):  # what its head names, all of the section needs
            here = None
            sections.append(indent)
            headers[indent] = []
        elif line.strip() == "where" and here is None:  # a section whose head takes several lines
            headers[indent] = headers.pop(sections.pop())
            sections.append(indent)
        elif indent == level and head:
            kind = head.group(2)
            for name in (head.group(3) or head.group(4)).split():
                here = declare(file, number, name, name in answers or is_stated(file, "pub" in head.group(1)))
                here.words.update(word for header in headers.values() for word in header)
        elif kind == "data" and indent == level + 2 and head:  # a constructor stands for its type
            known[stem(file), head.group(4)].append(here)
        if here is not None:
            here.words.update(words)
        elif sections:
            headers[sections[-1]].extend(words)


def read_rt(file, text):
    crate = file.split("/")[1]
    # what stands outside of functions, all of the file needs
    around = Thing(file, crate, "src", 0, "", True, set())
    here, before = around, set()
    for number, line in enumerate(without_imports(text).split("\n"), 1):
        line = re.sub(r"//.*", "", line)
        head = re.match(r'\s*(pub(?:\(crate\))? )?(?:const )?(?:extern "C" )?fn (\w+)', line)
        cited = {"Rattle." + path.replace("crate", crate, 1).replace("::", ".") for path in re.findall(r"\bcrate(?:::\w+)+", line)}
        cited |= {"Rattle." + path.replace("::", ".") for path in re.findall(r"\b\w+::(?:specs|proofs)(?:::\w+)+", line)}
        if head:
            here = declare(file, number, head.group(2), head.group(2) == "main" or bool(head.group(1)) and bool(CALLS.fullmatch(crate)))
            functions[here.name].append(here)
            here.words.update(before)
            before = set()
        elif re.match(r"[^\s{})]", line):
            here = around
        if re.match(r"\s*#\[", line):  # it belongs to the function below
            before |= cited
            continue
        here.words.update(WORD.findall(line), re.findall(r"\w+", line), cited)
        here.words.update("%s::%s" % call for call in re.findall(r"(\w*)(?:::|\.)(\w+)(?:::<[^>]*>)?\(", line))
    needed_anyway.append(around)


def named_by(thing):
    """The things that a thing names."""
    names, aliases = scopes[thing.file]
    for word in thing.words:
        if word.startswith("Rattle."):
            yield from known[module(word)]
        elif "::" in word:  # a function of another crate, or a method
            crate, name = word.split("::")
            yield from (f for f in functions[name] if crate == f.crate or crate not in crates)
        else:
            alias, _, name = word.partition(".")
            yield from known[aliases.get(alias), name]
            yield from known[names.get(alias, (stem(thing.file), alias))]
            yield from known[names.get(word, (stem(thing.file), word))]
            if thing.folder == "src":
                yield from (f for f in functions[word] if f.crate == thing.crate)


crates = {path.name for path in (ROOT / "crates").iterdir()}
scopes = {}
for path in sorted((ROOT / "crates").glob("*/*/**/*")):
    file = str(path.relative_to(ROOT))
    if file.split("/")[2] in ("src", "specs", "proofs") and path.suffix in (".antt", ".rt"):
        text = path.read_text(encoding="utf-8")
        scopes[file] = imports(text)
        (read_antt if path.suffix == ".antt" else read_rt)(file, text)

needed, waiting = set(), needed_anyway + [thing for thing in things if thing.is_root]
while waiting:
    thing = waiting.pop()
    if id(thing) not in needed:
        needed.add(id(thing))
        waiting.extend(named_by(thing))
lines = ["%s:%d: %s" % (thing.file, thing.line, thing.name) for thing in things if id(thing) not in needed]
lines += ["%s: use %s" % (file, name) for file in scopes for name in idle((ROOT / file).read_text(encoding="utf-8"))]
lines = [line for line in lines if len(sys.argv) == 1 or any(part in line for part in sys.argv[1:])]
print("\n".join(lines + ["unused: %d of %d functions, statements and definitions" % (len(lines), len(things))]))
sys.exit(1 if lines else 0)
