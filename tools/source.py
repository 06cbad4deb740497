"""source.py: the code of a .rt file, apart from its comments, strings and clauses; for divisions.py and mutate.py."""
import re

TEXTS = re.compile(r"//[^\n]*|b?'(?:\\.|[^'\\\n])'|b?\"(?:\\.|[^\"\\])*\"")
CLAUSE = re.compile(r"\b(?:requires|ensures|ghost)\b[^{};]*(?=\{)|\bghost\b[^{};]*;")


def blank(text):
    """As many line feeds as there were, so that a place keeps its line."""
    return "\n" * text.count("\n")


def code_of(text):
    """The text without comments, strings and clauses; a clause ends where its braces do."""
    text = TEXTS.sub(lambda found: blank(found.group()), text)
    parts, at = [], 0
    for found in CLAUSE.finditer(text):
        if found.start() < at:
            continue
        end, depth = found.end(), 0
        while end < len(text) and text[found.end() : found.end() + 1] == "{":
            depth += (text[end] == "{") - (text[end] == "}")
            end += 1
            if depth == 0:
                break
        parts += [text[at : found.start()], blank(text[found.start() : end])]
        at = end
    return "".join(parts) + text[at:]
