"""Makes the outline of tokens. What does not fit is passed over, and a part that is not closed ends where the next one begins."""
from fbrtools.words import TYPES

from .outline import BOUNDARIES, DECLARED, HEADS, SECTIONS, Declaration, Outline, Reference, Scope, Section
from .scanner import Token

END = Token("end", "", 0, 0)
# What ends with a word, besides the scope that is open.
HELD = {"END_DEVICE": ("device",), "END_SYSTEM": ("device", "system"), "END_FUNCTION_BLOCK": ("device", "system")}


class Reader:
    """Reads a text from its first token to its last."""

    def __init__(self, text: str, tokens: list[Token], comments: list[tuple[int, int]]) -> None:
        self.text, self.tokens, self.at = text, tokens, 0
        self.outline = Outline(text, tokens, comments)
        # The system and the device that are open.
        self.open: dict[str, Declaration] = {}
        # What stands in no block type and no resource is read as if it stood in one.
        self.scope = self.nowhere()

    def nowhere(self) -> Scope:
        """A scope without a name, of which nothing is kept but uses."""
        return Scope("nowhere", Declaration("nowhere", "", 0, 0, 0, 0))

    def peek(self, ahead: int = 0) -> Token:
        """A token that comes; one without a word at the end."""
        index = self.at + ahead
        return self.tokens[index] if index < len(self.tokens) else END

    def take(self) -> Token:
        """The next token, which is passed."""
        self.at += 1
        return self.tokens[self.at - 1]

    def accept(self, word: str) -> bool:
        """Whether this word comes, which is passed then."""
        if self.peek().word != word:
            return False
        self.at += 1
        return True

    def spelled(self, token: Token) -> str:
        """A token as it is written."""
        return self.text[token.start : token.end]

    def declare(self, kind: str, name: Token, first: Token | None = None, **rest: object) -> Declaration:
        """Declares a name in the scope; it ends with the token before, or with the semicolon that comes."""
        last = self.peek() if self.peek().word == ";" else self.tokens[self.at - 1]
        it = Declaration(kind, self.spelled(name), name.start, name.end, (first or name).start, last.end, **rest)
        self.scope.add(it)
        return it

    def refer(self, token: Token, kind: str, owner: str = "", side: str = "", flow: str = "") -> None:
        """Notes that a name is used."""
        self.outline.references.append(Reference(token.start, token.end, token.word, kind, self.scope, owner, side, flow))

    def name(self) -> Token | None:
        """The next token if it is a name; it is passed then."""
        return self.take() if self.peek().kind == "word" else None

    def read(self) -> Outline:
        """The outline."""
        while self.at < len(self.tokens):
            word = self.peek().word
            if word in HEADS:
                self.head(self.take())
            elif word in SECTIONS:
                self.section(self.take())
            elif word in BOUNDARIES:
                end = self.take()
                if word.removeprefix("END_") in HEADS:
                    self.close(end.end, *HELD.get(word, ()))
            else:
                self.at += 1
        self.close(len(self.text), "system", "device")
        self.outline.references.sort(key=lambda it: it.start)
        return self.outline

    def close(self, end: int, *kinds: str) -> None:
        """Ends the scope that is open, and the system or the device."""
        self.scope.head.last = max(end, self.scope.head.last)
        self.scope = self.nowhere()
        for kind in kinds:
            if it := self.open.pop(kind, None):
                it.last = end

    def head(self, word: Token) -> None:
        """A block type, a system, a device or a resource begins."""
        self.close(word.start, *HELD.get(f"END_{word.word}", ()))
        token = self.name() or Token("word", "", word.end, word.end)
        kind = {"FUNCTION_BLOCK": "type"}.get(word.word, word.word.lower())
        it = Declaration(kind, self.spelled(token), token.start, token.end, word.start, token.end)
        if kind == "type":
            self.scope = Scope("block", it)
            self.outline.blocks.append(self.scope)
        elif kind == "resource":
            device = self.open.get("device")
            self.scope = Scope("resource", it, f"{device.key if device else ''}.{it.key}")
            self.outline.resources.append(self.scope)
        else:
            self.open[kind] = it
            self.outline.heads.append(it)

    def section(self, word: Token) -> None:
        """A section, to the word that ends it or to one that cannot stand in it."""
        scope = self.scope
        if word.word == "ALGORITHM":
            self.algorithm(word)
        else:
            reader = getattr(self, f"in_{word.word.lower()}", self.in_declared)
            while self.at < len(self.tokens) and self.peek().word not in BOUNDARIES:
                before = self.at
                reader(word.word)
                # What does not fit is passed.
                self.at += self.at == before
        closes = self.peek().word == SECTIONS[word.word]
        following = self.peek()
        end = following.end if closes else following.start if following.kind != "end" else len(self.text)
        self.at += closes
        scope.sections.append(Section(word.word, word.start, end, closes))

    def names(self, kind: str) -> tuple[str, ...]:
        """Names between commas, each of which is used as this kind."""
        found = []
        while token := self.name():
            self.refer(token, kind)
            found.append(self.spelled(token))
            if not self.accept(","):
                break
        return tuple(found)

    def in_declared(self, word: str) -> None:
        """A declaration of events or variables."""
        if word.startswith("EVENT"):
            self.event(DECLARED[word])
        else:
            self.variables(DECLARED[word])

    def event(self, kind: str) -> None:
        """An event, with the variables that it is WITH."""
        name = self.name()
        if name is None:
            return
        if self.accept(":"):
            self.accept("EVENT")
        carries = self.names("variable") if self.accept("WITH") else ()
        self.declare(kind, name, carries=carries)

    def variables(self, kind: str) -> None:
        """Variables of one type; where the type is missing, the names are there without it."""
        names = []
        first = self.peek()
        while token := self.name():
            names.append(token)
            if not self.accept(","):
                break
        if not names:
            return
        of_type, initial = "", ""
        if self.accept(":"):
            of_type = self.until(":=")
            if self.accept(":="):
                initial = self.until()
        for token in names:
            self.declare(kind, token, first, of_type=of_type, initial=initial)

    def until(self, *words: str) -> str:
        """What comes up to one of these words, the end of the declaration or the beginning of the next one."""
        start = self.at
        while self.peek().word not in (*words, ";", "") and self.peek().word not in BOUNDARIES and not self.begins_next():
            self.at += 1
        return self.joined(start)

    def begins_next(self) -> bool:
        """Whether a name comes that begins the next declaration: one with a colon after it."""
        return self.peek().kind == "word" and self.peek(1).word in (":", ",")

    def joined(self, first: int) -> str:
        """The tokens from one on as they are written, on one line."""
        if first >= self.at:
            return ""
        return " ".join(self.text[self.tokens[first].start : self.tokens[self.at - 1].end].split())

    def in_ec_states(self, _: str) -> None:
        """A state with its actions."""
        name = self.name()
        if name is None:
            return
        if self.accept(":"):
            while True:
                if self.peek().kind == "word" and self.peek(1).word != ":":
                    self.refer(self.take(), "algorithm")
                # A name with a colon after it is the next state.
                if self.accept("->") and self.peek(1).word != ":" and (token := self.name()):
                    self.refer(token, "event output")
                if not self.accept(","):
                    break
        self.declare("state", name)

    def in_ec_transitions(self, _: str) -> None:
        """A transition: the names of two states, an event, a guard."""
        source = self.name()
        if source is None:
            return
        self.refer(source, "state")
        if not self.accept("TO"):
            return
        if self.peek(1).word != "TO" and (target := self.name()):
            self.refer(target, "state")
        if self.accept(":="):
            if self.peek(1).word != "TO" and (event := self.name()):
                self.refer(event, "event input")
            elif self.peek().kind == "number":
                self.at += 1
            if self.accept("["):
                self.expression(("]", ";", "TO"))
                self.accept("]")

    def expression(self, ends: tuple[str, ...]) -> None:
        """Notes the names of an expression or of statements."""
        while self.at < len(self.tokens) and self.peek().word not in ends and self.peek().word not in BOUNDARIES:
            token = self.take()
            if token.kind == "word" and self.peek().word != "(":
                self.refer(token, "variable")

    def algorithm(self, word: Token) -> None:
        """An algorithm with its statements."""
        name = self.name() if self.peek().word != "IN" or self.peek(1).word == "IN" else None
        self.accept("IN")
        self.accept("ST")
        self.accept(":")
        self.expression(())
        if name:
            it = self.declare("algorithm", name, word)
            if self.peek().word == "END_ALGORITHM":
                it.last = self.peek().end

    def in_fbs(self, _: str) -> None:
        """An instance."""
        name = self.name()
        if name is None:
            return
        rest = {}
        if self.accept(":") and self.peek().kind in ("word", "reserved") and not self.begins_next():
            token = self.peek()
            if token.word in BOUNDARIES:
                return
            self.refer(self.take(), "type")
            rest["of_type"] = self.spelled(token)
            if self.accept("["):
                rest["values"] = self.value_types()
            if self.peek().word == "(":
                rest["parameters"] = self.given(name)
        self.declare("instance", name, **rest)

    def value_types(self) -> tuple[str, ...]:
        """Types between square brackets."""
        found = []
        while self.peek().word in TYPES:
            found.append(self.take().word)
            if not self.accept(","):
                break
        self.accept("]")
        return tuple(found)

    def given(self, instance: Token) -> str:
        """Parameters between brackets, on one line."""
        first = self.at
        self.accept("(")
        while self.peek().word not in (")", ";", "") and self.peek().word not in BOUNDARIES and not self.begins_next_instance():
            token = self.take()
            if token.kind == "word" and self.tokens[self.at - 2].word in ("(", ","):
                self.refer(token, "parameter", owner=instance.word)
        self.accept(")")
        return self.joined(first)

    def begins_next_instance(self) -> bool:
        """Whether a name comes that begins the next instance."""
        return self.peek().kind == "word" and self.peek(1).word == ":"

    def in_event_connections(self, word: str) -> None:
        """A connection: two ends."""
        flow = "event" if word.startswith("EVENT") else "data"
        if not self.end_of_connection("source", flow):
            return
        if self.accept("TO"):
            self.end_of_connection("target", flow)

    in_data_connections = in_event_connections

    def end_of_connection(self, side: str, flow: str) -> bool:
        """A port of an instance, or one of the block type's own; whether there is one."""
        first = self.name()
        if first is None:
            return False
        if not self.accept("."):
            self.refer(first, "own", side=side, flow=flow)
            return True
        self.refer(first, "instance")
        dot = self.tokens[self.at - 1]
        # What is on the next line belongs to the next connection.
        if self.peek().kind == "word" and "\n" not in self.text[dot.end : self.peek().start]:
            self.refer(self.take(), "port", owner=first.word, side=side, flow=flow)
        return True
