"""The names of a text that may be broken anywhere: what declares them and what uses them, and where. It never decides whether a text is right."""
import bisect
from dataclasses import dataclass, field
from typing import NamedTuple

from .scanner import Token, scan

SECTIONS = {
    "EVENT_INPUT": "END_EVENT",
    "EVENT_OUTPUT": "END_EVENT",
    "VAR_INPUT": "END_VAR",
    "VAR_OUTPUT": "END_VAR",
    "VAR": "END_VAR",
    "EC_STATES": "END_STATES",
    "EC_TRANSITIONS": "END_TRANSITIONS",
    "ALGORITHM": "END_ALGORITHM",
    "FBS": "END_FBS",
    "EVENT_CONNECTIONS": "END_CONNECTIONS",
    "DATA_CONNECTIONS": "END_CONNECTIONS",
}
HEADS = ("FUNCTION_BLOCK", "SYSTEM", "DEVICE", "RESOURCE")
# A section ends at one of these words at the latest, so that what is not closed ends where the next begins.
BOUNDARIES = frozenset(SECTIONS) | frozenset(SECTIONS.values()) | frozenset(HEADS) | frozenset(f"END_{it}" for it in HEADS)
# What the sections of an interface declare.
DECLARED = {"EVENT_INPUT": "event input", "EVENT_OUTPUT": "event output", "VAR_INPUT": "input", "VAR_OUTPUT": "output", "VAR": "variable"}
VARIABLES = ("input", "output", "variable")


@dataclass(slots=True)
class Declaration:
    """A name that something declares: where the name is, and where all of it is, in characters."""

    kind: str
    name: str
    start: int
    end: int
    first: int
    last: int
    # The type of a variable or an instance, the start value of a variable, the variables that an event is WITH, the values and the parameters of a service.
    of_type: str = ""
    initial: str = ""
    carries: tuple[str, ...] = ()
    values: tuple[str, ...] = ()
    parameters: str = ""

    @property
    def key(self) -> str:
        """The name as `fbr` writes it."""
        return self.name.upper()


@dataclass(slots=True, eq=False)
class Scope:
    """A block type or a resource, with what it declares."""

    kind: str
    head: Declaration
    # The path of a resource, in capitals.
    path: str = ""
    declared: list[Declaration] = field(default_factory=list)
    sections: list["Section"] = field(default_factory=list)
    by_name: dict[str, list[Declaration]] = field(default_factory=dict)

    def add(self, it: Declaration) -> None:
        """Adds a declaration."""
        self.declared.append(it)
        self.by_name.setdefault(it.key, []).append(it)

    def find(self, name: str, *kinds: str) -> Declaration | None:
        """The first declaration of a name, in capitals, of one of these kinds."""
        return next((it for it in self.by_name.get(name, ()) if it.kind in kinds), None)

    def all_of(self, *kinds: str) -> list[Declaration]:
        """All declarations of these kinds."""
        return [it for it in self.declared if it.kind in kinds]

    @property
    def is_composite(self) -> bool:
        """Whether it is made of instances."""
        return any(it.word in ("FBS", "EVENT_CONNECTIONS", "DATA_CONNECTIONS") for it in self.sections)


class Section(NamedTuple):
    """A part of a scope: its first word, where it begins and ends, and whether the word that ends it is there."""

    word: str
    start: int
    end: int
    is_closed: bool


class Reference(NamedTuple):
    """A name that is used. `kind` is that of a declaration, `type`, `own`, `port` (of `owner`) or `parameter` (of `owner`); `side` is `source` or `target`."""

    start: int
    end: int
    name: str
    kind: str
    scope: Scope
    owner: str = ""
    side: str = ""
    flow: str = ""


@dataclass(slots=True)
class Outline:
    """What a text declares and uses."""

    text: str
    tokens: list[Token]
    comments: list[tuple[int, int]]
    blocks: list[Scope] = field(default_factory=list)
    resources: list[Scope] = field(default_factory=list)
    # Systems and devices, in the order of the text.
    heads: list[Declaration] = field(default_factory=list)
    references: list[Reference] = field(default_factory=list)

    def block(self, name: str) -> Scope | None:
        """The block type of a name, in capitals."""
        return next((it for it in self.blocks if it.head.key == name), None)

    def scope_at(self, offset: int) -> Scope | None:
        """The block type or the resource around a place."""
        return next((it for it in (*self.blocks, *self.resources) if it.head.first <= offset <= it.head.last), None)

    def token_index(self, offset: int) -> int:
        """The number of the first token that ends at a place or after it."""
        return bisect.bisect_left(self.tokens, offset, key=lambda it: it.end)

    def reference_at(self, offset: int) -> Reference | None:
        """The name that is used at a place, or ends there."""
        index = bisect.bisect_right(self.references, offset, key=lambda it: it.start) - 1
        found = self.references[index] if index >= 0 else None
        return found if found and found.end >= offset else None

    def declaration_at(self, offset: int) -> tuple[Declaration, Scope | None] | None:
        """The name that is declared at a place, or ends there, and where."""
        for scope in (*self.blocks, *self.resources):
            if scope.head.first <= offset <= scope.head.last:
                for it in (scope.head, *scope.declared):
                    if it.start <= offset <= it.end:
                        return it, scope
        return next(((it, None) for it in self.heads if it.start <= offset <= it.end), None)

    def comment_of(self, it: Declaration) -> str:
        """The comment right before a declaration, or after it on its line."""
        index = bisect.bisect_left(self.comments, it.first, key=lambda comment: comment[1])
        before = self.comments[index - 1] if index and self.comments[index - 1][1] <= it.first else None
        if index < len(self.comments) and self.comments[index][1] == it.first:
            before = self.comments[index]
        after = next((other for other in self.comments[index : index + 2] if other[0] >= it.last), None)
        if after and not self.text[it.last : after[0]].strip(" \t"):
            return words_of(self.text, after)
        # A comment that stands after something on its line belongs to that.
        if before and not self.text[before[1] : it.first].strip() and not self.text[self.text.rfind("\n", 0, before[0]) + 1 : before[0]].strip():
            return words_of(self.text, before)
        return ""


def words_of(text: str, comment: tuple[int, int]) -> str:
    """The words of a comment on one line."""
    return " ".join(text[comment[0] + 2 : comment[1] - 2].split())


def read(text: str) -> Outline:
    """The outline of a text."""
    from .reading import Reader

    return Reader(text, *scan(text)).read()
