"""Fixes: remedies of `fbr` that are a small change of the text, each offered where its diagnostic is."""
import difflib
import re

from fbrtools.words import TYPES

from .documents import Document
from .faults import Shown
from .names import meaning_of
from .outline import Declaration, Outline

NAME = re.compile(r"[A-Za-z_]\w*\Z", re.ASCII)
MEANT = re.compile(r"did you mean ([A-Za-z_]\w*)\?")
MISSING = re.compile(r"`([^`]+)` is missing here")
MISSING_WORD = re.compile(r"([A-Z_]+) is missing here")
WRITE = re.compile(r"What to do: write ([A-Z_]\w*)\Z")
HERE = re.compile(r"possible here: (.*)")
# What is to be written in the place of a sign or a character, by the words of `fbr`, and the title of that.
INSTEAD = {
    "write `:=` to assign": ("write `:=`, an assignment", ":="),
    "an assignment is written `:=`": ("write `:=`, an assignment", ":="),
    "write `=` to compare": ("write `=`, a comparison", "="),
    "write a space": ("write a space", " "),
    "write `-`": ("write `-`", "-"),
    "save the text without one": ("remove the byte order mark", ""),
}


def sentences(shown: Shown) -> list[str]:
    """What `fbr` found there, in its sentences."""
    return shown.diagnostic["message"].split("\n")


def spelled(outline: Outline, name: str) -> str:
    """A name that `fbr` prints in capitals, as the text declares it."""
    for scope in (*outline.blocks, *outline.resources):
        for it in (scope.head, *scope.by_name.get(name, ())):
            if it.key == name:
                return it.name
    return name


def fixes(document: Document, shown: Shown) -> list[tuple[str, int, int, str]]:
    """The fixes for a diagnostic: what each does, and the text that it puts between two places."""
    if shown.diagnostic["severity"] != 1:
        return note_fixes(document, shown)
    found = []
    for says in sentences(shown):
        found += [it for it in sentence_fixes(document, shown, says) if it[1:] not in [other[1:] for other in found]]
    return found


def sentence_fixes(document: Document, shown: Shown, says: str) -> list[tuple[str, int, int, str]]:
    """The fixes that a sentence of a refusal stands for."""
    token = document.text[shown.start : shown.end]
    meant = MEANT.search(says) or WRITE.match(says)
    if meant and NAME.match(token):
        name = spelled(document.outline, meant[1])
        return [(f"change {token} to {name}", shown.start, shown.end, name)]
    missing = MISSING.match(says) or MISSING_WORD.match(says)
    if missing:
        space = " " if missing[1][0].isalpha() else ""
        return [(f"insert the missing {missing[1]}", shown.start, shown.start, space + missing[1])]
    for words, (title, put) in INSTEAD.items():
        if says.endswith(words):
            return [(title, shown.start, max(shown.end, shown.start + 1), put)]
    here = HERE.search(says)
    if here and NAME.match(token):
        offered = [it for it in here[1].split(", ") if it.isupper()] + (list(TYPES) if "a type" in here[1] else [])
        return [(f"change {token} to {it}", shown.start, shown.end, it) for it in difflib.get_close_matches(token.upper(), offered, 1, 0.75)]
    return []


def note_fixes(document: Document, shown: Shown) -> list[tuple[str, int, int, str]]:
    """The fixes of a note, if it is safe and simple to follow."""
    name, token = shown.said.get("name"), document.text[shown.start : shown.end]
    if name == "never-used":
        return unused(document, shown)
    if name == "time-without-unit" and token.replace("_", "").isdigit():
        span = f"T#{token.replace('_', '')}ms"
        return [(f"write {span}, the same TIME", shown.start, shown.end, span)]
    return []


def unused(document: Document, shown: Shown) -> list[tuple[str, int, int, str]]:
    """Removes an internal variable that nothing in its block type names."""
    outline = document.outline
    found = outline.declaration_at(shown.start)
    if found is None or found[0].kind != "variable":
        return []
    it, scope = found
    if any(used.name == it.key and scope.head.first <= used.start < scope.head.last and names(outline, used, it) for used in outline.references):
        return []
    start, end = removal(document.text, outline, it, [other for other in scope.declared if other.first == it.first])
    return [(f"remove {it.name}, which is never used", start, end, "")]


def names(outline: Outline, used, it: Declaration) -> bool:
    """Whether a name that is used stands for a declaration."""
    meaning = meaning_of(outline, used)
    return meaning is not None and meaning.declaration is it


def removal(text: str, outline: Outline, it: Declaration, together: list[Declaration]) -> tuple[int, int]:
    """What to remove for a variable: its name with a comma if others are declared with it, else its declaration, with the line if nothing else is on it."""
    if len(together) > 1:
        at = together.index(it)
        return (together[at - 1].end, it.end) if at else (it.start, together[1].start)
    start, end = it.first, it.last
    line = text.rfind("\n", 0, start) + 1
    after = re.compile(r"[ \t]*(?:\r\n|\n|\r)").match(text, end)
    if after and not text[line:start].strip():
        return line, after.end()
    return start, end


def overlaps(one: dict, other: dict) -> bool:
    """Whether two ranges have a place in common."""
    ends = [(it["line"], it["character"]) for it in (one["start"], one["end"], other["start"], other["end"])]
    return ends[0] <= ends[3] and ends[2] <= ends[1]


def actions(document: Document, span: dict) -> list[dict]:
    """The code actions for what is shown in a range."""
    found = []
    for shown in document.shown:
        if not overlaps(shown.diagnostic["range"], span):
            continue
        for title, start, end, put in fixes(document, shown):
            edit = {"range": document.span(start, end), "newText": put}
            made = {"title": title, "kind": "quickfix", "diagnostics": [shown.diagnostic], "edit": {"changes": {document.uri: [edit]}}}
            # A client may apply what is preferred unasked, and a sign that is missing can be meant elsewhere.
            found.append(made | ({"isPreferred": True} if title.startswith("change ") else {}))
    return found
