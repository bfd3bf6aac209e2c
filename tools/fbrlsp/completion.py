"""Names and words that can stand at a place, by what stands before it in its section."""
import bisect

from fbrtools.words import TYPES

from .documents import Document
from .names import OPPOSITE, SIDES, parameters_of, ports_of
from .outline import VARIABLES, Declaration, Outline, Scope, Section
from .scanner import Token
from .standard import FUNCTIONS, OPERATORS, STATEMENTS, VALUES, conversions, standard

# The numbers that LSP gives to kinds of items.
EVENT, FIELD, VARIABLE, CLASS, MODULE, FUNCTION, KEYWORD, STATE, TYPE = 23, 5, 6, 7, 9, 3, 14, 20, 25
KINDS = {"event input": EVENT, "event output": EVENT, "input": FIELD, "output": FIELD, "variable": VARIABLE, "parameter": FIELD}
KINDS |= {"state": STATE, "algorithm": FUNCTION, "instance": MODULE, "type": CLASS}

# The sections of a block type in their order; what comes after one may follow it.
BASIC = ("EVENT_INPUT", "EVENT_OUTPUT", "VAR_INPUT", "VAR_OUTPUT", "VAR", "EC_STATES", "EC_TRANSITIONS", "ALGORITHM")
COMPOSITE = ("EVENT_INPUT", "EVENT_OUTPUT", "VAR_INPUT", "VAR_OUTPUT", "FBS", "EVENT_CONNECTIONS", "DATA_CONNECTIONS")
NETWORK = ("FBS", "EVENT_CONNECTIONS", "DATA_CONNECTIONS")


def word(text: str, detail: str = "") -> dict:
    """A word of the language."""
    return {"label": text, "kind": KEYWORD, "sortText": f"1{text}", **({"detail": detail} if detail else {})}


def words(*texts: str) -> list[dict]:
    """Words of the language."""
    return [word(it) for it in texts]


def item(it: Declaration, of: str = "") -> dict:
    """A declared name."""
    detail = " ".join(part for part in (it.kind, of, f": {it.of_type}" if it.of_type else "") if part)
    return {"label": it.name, "kind": KINDS[it.kind], "detail": detail, "sortText": f"0{it.name}"}


def items(found: list[Declaration], of: str = "") -> list[dict]:
    """Declared names."""
    return [item(it, of) for it in found if it.name]


class Place:
    """A place in a text: the section around it, and the tokens before it in its statement, without the word that is being typed."""

    def __init__(self, outline: Outline, offset: int) -> None:
        self.outline, self.offset = outline, offset
        index = bisect.bisect_left(outline.tokens, offset, key=lambda it: it.end)
        token = outline.tokens[index] if index < len(outline.tokens) else None
        # A word that ends here is being typed, and one that goes on here will be replaced.
        self.is_in_token = token is not None and token.start < offset
        self.is_literal = self.is_in_token and token.kind in ("literal", "number")
        if self.is_in_token and token.kind == "sign":
            index += 1
        self.index = index
        begin = token.start if self.is_in_token and token.kind != "sign" else offset
        self.scope = outline.scope_at(begin)
        self.section = self.section_at(begin)
        self.before = self.statement()

    def section_at(self, offset: int) -> Section | None:
        """The section around a place; one that was not closed goes on to the next word that begins something."""
        sections = self.scope.sections if self.scope else []
        found = next((it for it in reversed(sections) if it.start < offset), None)
        return None if found is None or (found.is_closed and offset >= found.end) else found

    def statement(self) -> list[Token]:
        """The tokens before the place, from the last semicolon or the beginning of the section on."""
        tokens, at = self.outline.tokens, self.index
        least = self.section.start if self.section else self.scope.head.first if self.scope else 0
        while at and tokens[at - 1].word != ";" and tokens[at - 1].start >= least:
            at -= 1
        found = tokens[at : self.index]
        if self.section and found and found[0].start == self.section.start and self.section.word != "ALGORITHM":
            return found[1:]
        return found

    @property
    def is_in_comment(self) -> bool:
        """Whether it stands in a comment."""
        comments = self.outline.comments
        index = bisect.bisect_right(comments, self.offset, key=lambda it: it[0]) - 1
        return index >= 0 and comments[index][0] < self.offset < comments[index][1]


def depth(tokens: list[Token], opening: str, closing: str) -> bool:
    """Whether a bracket is open behind these tokens."""
    found = [it.word for it in tokens]
    return found.count(opening) > found.count(closing)


def last_word(place: Place) -> str:
    """The token right before the place; empty at the beginning of a statement."""
    return place.before[-1].word if place.before else ""


def in_events(place: Place, scope: Scope) -> list[dict]:
    """In EVENT_INPUT and EVENT_OUTPUT."""
    if any(it.word == "WITH" for it in place.before):
        taken = {it.word for it in place.before}
        kind = "input" if place.section.word == "EVENT_INPUT" else "output"
        return items([it for it in scope.all_of(kind) if it.key not in taken]) if last_word(place) in ("WITH", ",") else []
    return words("WITH") if place.before else words("END_EVENT")


def in_variables(place: Place, scope: Scope) -> list[dict]:
    """In VAR_INPUT, VAR_OUTPUT and VAR."""
    last = last_word(place)
    if not last:
        return words("END_VAR")
    if last == ":":
        return value_types() + (words("ARRAY") if place.section.word == "VAR" else [])
    if last == "OF":
        return value_types()
    if last == "]":
        return words("OF")
    return words("TRUE", "FALSE") if last == ":=" else []


def value_types() -> list[dict]:
    """The types of values."""
    return [{"label": it, "kind": TYPE} for it in TYPES]


def in_states(place: Place, scope: Scope) -> list[dict]:
    """In EC_STATES: algorithms, and event outputs after `->`."""
    last = last_word(place)
    if not last:
        return words("END_STATES")
    if last == "->":
        return items(scope.all_of("event output"))
    return items(scope.all_of("algorithm")) if last in (":", ",") else []


def in_transitions(place: Place, scope: Scope) -> list[dict]:
    """In EC_TRANSITIONS: states, events, and expressions in guards."""
    last = last_word(place)
    if depth(place.before, "[", "]"):
        return values(scope) + words(*OPERATORS)
    if last == ":=":
        return items(scope.all_of("event input")) + [word("1", "always")]
    if last == "TO" or not last:
        return items(scope.all_of("state")) + ([] if last else words("END_TRANSITIONS"))
    return words("TO") if len(place.before) == 1 else []


def values(scope: Scope) -> list[dict]:
    """Variables and functions."""
    there = {**FUNCTIONS, **conversions()}
    # Names of the text come first, then words, then functions.
    functions = [{"label": name, "kind": FUNCTION, "detail": says, "sortText": f"2{name}"} for name, says in there.items()]
    return items(scope.all_of(*VARIABLES)) + functions


def in_algorithm(place: Place, scope: Scope) -> list[dict]:
    """In an algorithm: variables, functions and words."""
    if place.before and place.before[0].word == "ALGORITHM":
        head = [it.word for it in place.before]
        if ":" not in head:
            return words(*{1: (), 2: ("IN",), 3: ("ST",)}.get(len(head), ()))
        if head[-1] == ":":
            return values(scope) + words(*STATEMENTS, *OPERATORS)
    return values(scope) + words(*STATEMENTS, *OPERATORS)


def in_fbs(place: Place, scope: Scope) -> list[dict]:
    """In FBS: types after the colon, types of values in square brackets, parameters in round ones."""
    last = last_word(place)
    if not last:
        return words("END_FBS")
    if depth(place.before, "[", "]"):
        return value_types()
    if depth(place.before, "(", ")"):
        return in_parameters(place, scope)
    return types(place.outline) if last == ":" else []


def in_parameters(place: Place, scope: Scope) -> list[dict]:
    """In the brackets of an instance."""
    last, instance = last_word(place), scope.find(place.before[0].word, "instance")
    if last == ":=":
        return words("TRUE", "FALSE")
    if last not in ("(", ",") or instance is None:
        return []
    taken = {it.word for it in place.before}
    return items([it for it in parameters_of(place.outline, instance) if it.key not in taken])


def types(outline: Outline) -> list[dict]:
    """The block types, those of the text first."""
    own = items([it.head for it in outline.blocks])
    names = {it["label"].upper() for it in own}
    there = [it for it in items([it.head for it in standard().blocks]) if it["label"] not in names]
    for it in there:
        it["detail"] = "service" if it["label"] in VALUES or it["label"] in ("E_DELAY", "E_CYCLE", "E_RESTART") else "event block"
    return own + there


def in_connections(place: Place, scope: Scope) -> list[dict]:
    """In connections: instances, the ports of one after its dot, and a composite's own ports."""
    flow = "event" if place.section.word.startswith("EVENT") else "data"
    reading = [it.word for it in place.before]
    side = "target" if "TO" in reading else "source"
    kind = SIDES[side, flow]
    if reading and reading[-1] == ".":
        instance = scope.find(reading[-2], "instance") if len(reading) > 1 else None
        return items(ports_of(place.outline, instance, kind)) if instance else []
    if not reading or reading[-1] == "TO":
        ports = items(scope.all_of(OPPOSITE[kind]), "of the type") if scope.kind == "block" else []
        return items(scope.all_of("instance")) + ports + ([] if reading else words("END_CONNECTIONS"))
    return words("TO") if side == "source" else []


def between(place: Place) -> list[dict]:
    """Outside of sections: the words that can begin or end something here."""
    scope = place.scope
    if scope is None or (place.before and place.before[-1].word in ("END_FUNCTION_BLOCK", "END_RESOURCE")):
        return around(place)
    there = [it.word for it in scope.sections if it.start < place.offset]
    if scope.kind == "resource":
        return words(*after(there, NETWORK), "END_RESOURCE")
    if any(it in NETWORK for it in there):
        return words(*after(there, COMPOSITE), "END_FUNCTION_BLOCK")
    follow = after(there, BASIC)
    if not any(it in there for it in BASIC[4:]):
        follow += tuple(it for it in COMPOSITE if it in NETWORK)
    return words(*follow, *(("ALGORITHM",) if "ALGORITHM" in there else ()), "END_FUNCTION_BLOCK")


def after(there: list[str], order: tuple[str, ...]) -> tuple[str, ...]:
    """The sections that come after the last of those that are there."""
    last = max((order.index(it) for it in there if it in order), default=-1)
    return order[last + 1 :]


def around(place: Place) -> list[dict]:
    """Outside of block types and resources."""
    for it in reversed(place.outline.tokens[: place.index]):
        if it.word == "DEVICE" or it.word == "END_RESOURCE":
            return words("RESOURCE", "END_DEVICE")
        if it.word in ("SYSTEM", "END_DEVICE"):
            return words("DEVICE", "END_SYSTEM")
        if it.word in ("END_FUNCTION_BLOCK", "END_SYSTEM"):
            break
    return words("FUNCTION_BLOCK", "SYSTEM")


IN_SECTION = {
    "EVENT_INPUT": in_events,
    "EVENT_OUTPUT": in_events,
    "VAR_INPUT": in_variables,
    "VAR_OUTPUT": in_variables,
    "VAR": in_variables,
    "EC_STATES": in_states,
    "EC_TRANSITIONS": in_transitions,
    "ALGORITHM": in_algorithm,
    "FBS": in_fbs,
    "EVENT_CONNECTIONS": in_connections,
    "DATA_CONNECTIONS": in_connections,
}


def completion(document: Document, offset: int) -> list[dict]:
    """What can stand at a place."""
    place = Place(document.outline, offset)
    if place.is_in_comment or place.is_literal:
        return []
    if place.section and place.scope:
        return IN_SECTION[place.section.word](place, place.scope)
    return between(place)
