"""Structured Text of other tools, as fbr reads it: comments, literals, and what has no counterpart."""
import re

from .words import INSTEAD, RESERVED, TYPES, comment_text, constant

TOKEN = re.compile(
    r"(?P<space>\s+)|(?P<line>//[^\n]*)|(?P<block>\(\*.*?\*\)|/\*.*?\*/)|(?P<unclosed>(?:\(\*|/\*).*)|(?P<string>'[^'\n]*'|\"[^\"\n]*\")"
    r"|(?P<typed>[A-Za-z_]\w*\#[+-]?[\w.]+(?:\#\w+)?)|(?P<word>[A-Za-z_]\w*)"
    r"|(?P<number>\d[\d_]*(?:\#\w+|\.\d[\d_]*(?:[eE][+-]?\d+)?)?)|(?P<sign>:=|=>|\.\.|<=|>=|<>|\*\*|[()\[\],;:.=<>+\-*/&])|(?P<other>.)",
    re.S,
)
STATEMENTS = {
    "WHILE": "count with a FOR to a fixed bound",
    "REPEAT": "count with a FOR to a fixed bound",
    "RETURN": "put what follows into the ELSE of an IF",
    "EXIT": "test by an IF within the loop",
    "CONTINUE": "put the rest of the loop into an IF",
    "VAR": "declare it among the internal variables of the block",
    "VAR_TEMP": "declare it among the internal variables of the block",
}
FUNCTIONS = frozenset("MIN MAX LIMIT ABS".split()) | {f"{one}_TO_{other}" for one in TYPES for other in TYPES if other != "BOOL"}
# Reserved words that have a place in algorithms; the others belong to declarations.
IN_ALGORITHMS = frozenset("END_IF END_CASE END_FOR OF IF THEN ELSIF ELSE CASE FOR TO BY DO AND OR XOR NOT MOD TRUE FALSE".split())
# Words before a bracket that are no functions.
BEFORE_BRACKETS = frozenset("AND OR XOR NOT MOD IF ELSIF WHILE UNTIL CASE OF TO BY THEN ELSE DO RETURN".split())


class Untranslatable(Exception):
    """What has no counterpart: of each fault what it is, what to do, and its line in the text (from 0)."""

    def __init__(self, problem, remedy, line, faults=None):
        super().__init__(problem)
        self.faults = faults or [(problem, remedy, line)]


def tokens(text):
    """Pairs of a kind and its text, in order; nothing is left out."""
    return [(it.lastgroup, it.group()) for it in TOKEN.finditer(text)]


def algorithm(text):
    """The statements of an algorithm, without the words ALGORITHM NAME .. END_ALGORITHM around them; raises Untranslatable."""
    return translated(unwrapped(tokens(text)))


def expression(text):
    """A guard; raises Untranslatable."""
    return " ".join(translated(tokens(text)).split())


def unwrapped(parts):
    """The tokens without ALGORITHM NAME (and IN ST:) at their begin and END_ALGORITHM at their end, if they have these."""
    at = [number for number, (kind, _) in enumerate(parts) if kind not in ("space", "line", "block")]
    words = [parts[number][1].upper() for number in at]
    if words[:1] != ["ALGORITHM"] or len(words) < 2:
        return parts
    head = 5 if words[2:5] == ["IN", "ST", ":"] else 2
    tail = next((length for length, end in ((1, ["END_ALGORITHM"]), (2, ["END_ALGORITHM", ";"])) if words[-length:] == end), 0)
    dropped = {*at[:head], *at[len(at) - tail :]}
    return [("space", "") if number in dropped else it for number, it in enumerate(parts)]


def translated(parts):
    """The tokens as fbr writes them; raises Untranslatable with all their faults."""
    out, line, faults = [], 0, []
    for at, (kind, word) in enumerate(parts):
        try:
            out.append(one_token(kind, word, line, [it for it in parts[at + 1 : at + 3] if it[0] != "space"][:1]))
        except Untranslatable as found:
            faults += found.faults
        line += word.count("\n")
    if faults:
        raise Untranslatable("", "", 0, faults)
    return "".join(out)


def one_token(kind, word, line, following):
    """A token as fbr writes it; `following` holds the next one."""
    if kind in ("line", "block"):
        inner = comment_text(word[2:] if kind == "line" else word[2:-2])
        return f"(* {inner} *)" if inner else ""
    if kind == "unclosed":
        raise Untranslatable("a comment without an end", "close it", line)
    if kind == "string":
        raise Untranslatable(f"the text {word}", "fbr has no texts in algorithms: use a number", line)
    if kind == "other" or word in ("**", "=>"):
        raise Untranslatable(f"the sign {word!r}", "write it with the operators of docs/LANGUAGE.md", line)
    if word == ".":
        raise Untranslatable("the '.' of a field", "copy it into a variable of its own", line)
    if kind == "number" and "." in word:
        raise Untranslatable(f"the number {word}", INSTEAD["REAL"], line)
    if kind == "typed":
        return typed_literal(word, line)
    if kind == "word":
        return one_word(word, line, following)
    return word


def typed_literal(word, line):
    kind = {"T": "TIME"}.get(word.partition("#")[0].upper(), word.partition("#")[0].upper())
    value = constant(word, kind if kind in TYPES else "INT")
    if value is None:
        raise Untranslatable(f"the literal {word}", INSTEAD.get(kind, "write a number of an integer type, or a TIME of whole milliseconds"), line)
    return value


def one_word(word, line, following):
    upper = word.upper()
    if upper in STATEMENTS or upper in RESERVED - IN_ALGORITHMS:
        raise Untranslatable(f"the word {upper}", STATEMENTS.get(upper, "write statements alone"), line)
    if following == [("sign", "(")] and upper not in BEFORE_BRACKETS and upper not in FUNCTIONS:
        source, mark, _ = upper.partition("_TO_")
        remedy = INSTEAD.get(source, "compare with 0") if mark else "write it as statements, or give it a block of its own"
        raise Untranslatable(f"the function {word}", remedy, line)
    return word


def condition(text, events):
    """The event and the guard of a transition's condition, each None if there is none; raises Untranslatable.

    Known are E, E[g], E & g and E AND g, [g], g alone, 1 and TRUE; `events` are the names of the event inputs."""
    text = text.strip()
    if text.upper() in ("1", "TRUE"):
        return None, None
    if not text:
        raise Untranslatable("an empty condition", "write 1 for one that is always true", 0)
    known = {it.upper(): it for it in events}
    head = re.match(r"[A-Za-z_]\w*", text)
    event = known.get(head.group().upper()) if head else None
    rest = text[head.end() :].strip() if event else text
    if not rest:
        return event, None
    if rest.startswith("[") and rest.endswith("]"):
        return event, guard(rest[1:-1], known)
    if not event:
        return None, guard(rest, known)
    joined = re.match(r"&|AND\b", rest, re.I)
    if not joined:
        raise Untranslatable(f"the condition {text}", "write it as EVENT[guard]", 0)
    rest = rest[joined.end() :].strip()
    if re.search(r"\b(OR|XOR)\b", outside_brackets(rest), re.I):
        raise Untranslatable(f"the condition {text}", "its OR is weaker than the & before it: write it as EVENT[guard], or as two transitions", 0)
    return event, guard(rest, known)


def guard(text, events):
    found = expression(text)
    for kind, word in tokens(found):
        if kind == "word" and word.upper() in events:
            raise Untranslatable(f"the event {word} within a guard", "give each event a transition of its own", 0)
    if not found:
        raise Untranslatable("an empty guard", "leave out the brackets", 0)
    if not is_balanced(found):
        raise Untranslatable(f"the guard {text}", "give each bracket its partner", 0)
    return found


def is_balanced(text):
    """Whether each bracket has its partner."""
    opened = []
    for _, word in tokens(text):
        if word in ("(", "["):
            opened.append(")" if word == "(" else "]")
        elif word in (")", "]") and (not opened or opened.pop() != word):
            return False
    return not opened


def outside_brackets(text):
    out, depth = "", 0
    for it in text:
        depth += {"(": 1, "[": 1, ")": -1, "]": -1}.get(it, 0)
        out += it if depth == 0 else " "
    return out
