"""Reads the text of an application into the model. It expects a text that the program accepts, and judges nothing itself."""
import re
from dataclasses import dataclass

from . import model

TOKEN = re.compile(
    r"(?P<space>\s+)|(?P<comment>\(\*.*?\*\))"
    r"|(?P<literal>[A-Za-z_]\w*\#-?\w+(?:\#\w+)?)|(?P<word>[A-Za-z_]\w*)|(?P<number>\d+(?:_\d+)*(?:\#\w+)?)"
    r"|(?P<sign>:=|->|\.\.|<=|>=|<>|[()\[\],;:.=<>+\-*/&])",
    re.S,
)


class TextError(Exception):
    """The text has another form than this reader knows; the program has the exact words."""


@dataclass
class Token:
    """A token with its bytes' place in the text, and the comments before it or on its line after it."""

    text: str
    start: int
    end: int
    line: int
    before: str = ""
    after: str = ""

    @property
    def word(self):
        return self.text.upper()


def tokens_of(text):
    """All tokens; a comment belongs to the token before it if that is on its line, else to the one after it."""
    found, at, line, waiting = [], 0, 1, []
    while at < len(text):
        match = TOKEN.match(text, at)
        if not match:
            raise TextError(f"line {line}: no token begins with {text[at]!r}")
        if match.lastgroup == "comment":
            words = " ".join(match.group()[2:-2].split())
            if found and "\n" not in text[found[-1].end : at]:
                found[-1].after = f"{found[-1].after} {words}".strip()
            else:
                waiting.append(words)
        elif match.lastgroup != "space":
            found.append(Token(match.group(), at, match.end(), line, " ".join(waiting)))
            waiting = []
        line += match.group().count("\n")
        at = match.end()
    return found


class Reader:
    def __init__(self, text, file):
        self.text, self.file, self.tokens, self.at = text, file, tokens_of(text), 0

    def peek(self, ahead=0):
        return self.tokens[self.at + ahead].word if self.at + ahead < len(self.tokens) else ""

    def take(self, word=None):
        """The next token, which has to be this word if one is given."""
        if self.at >= len(self.tokens):
            raise TextError("the text ends too soon")
        token = self.tokens[self.at]
        if word is not None and token.word != word:
            raise TextError(f"line {token.line}: {word} expected, and {token.text} found")
        self.at += 1
        return token

    def accept(self, word):
        if self.peek() == word:
            self.at += 1
            return True
        return False

    def end(self, first):
        """Takes the semicolon of a declaration; gives its comment and its place."""
        last = self.take(";")
        return {"comment": f"{first.before} {last.after}".strip(), "place": model.Place(self.file, first.line)}

    def source(self, first, last):
        """The text from one token's begin to another's end."""
        return self.text[self.tokens[first].start : self.tokens[last].end]

    def until(self, *words):
        """The text up to one of these words, which is not taken, outside brackets."""
        first, depth = self.at, 0
        while depth or self.peek() not in words:
            depth += {"(": 1, "[": 1, ")": -1, "]": -1}.get(self.peek(), 0)
            self.take()
        return self.source(first, self.at - 1)

    def names(self):
        found = [self.take().text]
        while self.accept(","):
            found.append(self.take().text)
        return found

    def application(self):
        types = []
        while self.peek() == "FUNCTION_BLOCK":
            types.append(self.block())
        return model.Application(types, self.system())

    def block(self):
        first = self.take("FUNCTION_BLOCK")
        it = model.BlockType(self.take().text, comment=first.before, place=model.Place(self.file, first.line))
        it.event_inputs, it.event_outputs = self.events("EVENT_INPUT"), self.events("EVENT_OUTPUT")
        it.inputs, it.outputs = self.variables("VAR_INPUT"), self.variables("VAR_OUTPUT")
        if self.peek() == "FBS":
            it.network = self.network()
        else:
            it.internals = self.variables("VAR")
            self.chart(it)
        self.take("END_FUNCTION_BLOCK")
        return it

    def events(self, word):
        found = []
        if self.accept(word):
            while not self.accept("END_EVENT"):
                first = self.take()
                if self.accept(":"):
                    self.take("EVENT")
                variables = self.names() if self.accept("WITH") else []
                found.append(model.Event(first.text, variables, **self.end(first)))
        return found

    def variables(self, word):
        found = []
        if self.accept(word):
            while not self.accept("END_VAR"):
                first = self.tokens[self.at]
                names = self.names()
                self.take(":")
                bounds = None
                if self.accept("ARRAY"):
                    self.take("[")
                    low = self.until("..")
                    self.take("..")
                    bounds = (whole_number(low), whole_number(self.until("]")))
                    self.take("]")
                    self.take("OF")
                kind = self.take().word
                start = self.until(";") if self.accept(":=") else None
                rest = self.end(first)
                found += [model.Variable(name, kind, start, bounds, rest["comment"] if name == names[0] else "", rest["place"]) for name in names]
        return found

    def chart(self, it):
        self.take("EC_STATES")
        while not self.accept("END_STATES"):
            first, actions = self.take(), []
            if self.accept(":"):
                actions.append(self.action())
                while self.accept(","):
                    actions.append(self.action())
            it.states.append(model.State(first.text, actions, **self.end(first)))
        self.take("EC_TRANSITIONS")
        while not self.accept("END_TRANSITIONS"):
            it.transitions.append(self.transition())
        while self.peek() == "ALGORITHM":
            it.algorithms.append(self.algorithm())

    def action(self):
        algorithm = None if self.peek() == "->" else self.take().text
        return model.Action(algorithm, self.take().text if self.accept("->") else None)

    def transition(self):
        first = self.take()
        self.take("TO")
        target = self.take().text
        self.take(":=")
        event = guard = None
        if self.peek() != "[" and not self.peek()[0].isdigit():
            event = self.take().text
        elif self.peek() != "[":
            self.take()
        if self.accept("["):
            guard = " ".join(self.until("]").split())
            self.take("]")
        return model.Transition(first.text, target, event, guard, **self.end(first))

    def algorithm(self):
        first = self.take("ALGORITHM")
        name = self.take().text
        for word in ("IN", "ST", ":"):
            colon = self.take(word)
        while self.peek() != "END_ALGORITHM":
            self.take()
        body = self.text[colon.end : self.take("END_ALGORITHM").start]
        return model.Algorithm(name, dedented(body), first.before, model.Place(self.file, first.line))

    def network(self):
        it = model.Network()
        if self.accept("FBS"):
            while not self.accept("END_FBS"):
                it.instances.append(self.instance())
        it.events, it.data = self.connections("EVENT_CONNECTIONS"), self.connections("DATA_CONNECTIONS")
        return it

    def instance(self):
        first = self.take()
        self.take(":")
        it = model.Instance(first.text, self.take().text)
        if self.accept("["):
            it.value_types = [] if self.peek() == "]" else [name.upper() for name in self.names()]
            self.take("]")
        if self.accept("("):
            while True:
                name = self.take().text
                self.take(":=")
                it.parameters[name] = self.until(",", ")")
                if self.take().text == ")":
                    break
        rest = self.end(first)
        it.comment, it.place = rest["comment"], rest["place"]
        return it

    def connections(self, word):
        found = []
        if self.accept(word):
            while not self.accept("END_CONNECTIONS"):
                first = self.tokens[self.at]
                source = self.port()
                self.take("TO")
                found.append(model.Connection(source, self.port(), **self.end(first)))
        return found

    def port(self):
        name = self.take().text
        return model.Port(name, self.take().text) if self.accept(".") else model.Port("", name)

    def system(self):
        first = self.take("SYSTEM")
        it = model.System(self.take().text, comment=first.before, place=model.Place(self.file, first.line))
        while self.peek() == "DEVICE":
            begin = self.take()
            device = model.Device(self.take().text, comment=begin.before, place=model.Place(self.file, begin.line))
            while self.peek() == "RESOURCE":
                begin = self.take()
                name = self.take().text
                device.resources.append(model.Resource(name, self.network(), begin.before, model.Place(self.file, begin.line)))
                self.take("END_RESOURCE")
            self.take("END_DEVICE")
            it.devices.append(device)
        self.take("END_SYSTEM")
        return it


def whole_number(text):
    """The value of an untyped number, with a sign or not."""
    sign = -1 if text.lstrip().startswith("-") else 1
    base, mark, digits = text.replace("_", "").lstrip("- ").partition("#")
    return sign * (int(digits, int(base)) if mark else int(base))


def dedented(body):
    """The lines of a body, without blank ones around them, indented from column 0."""
    lines = body.expandtabs(2).splitlines()
    if lines and lines[0].strip():
        rest = [len(it) - len(it.lstrip()) for it in lines[1:] if it.strip()]
        lines[0] = " " * min(rest, default=0) + lines[0].strip()
    kept = [it.rstrip() for it in lines]
    while kept and not kept[0]:
        kept.pop(0)
    while kept and not kept[-1]:
        kept.pop()
    margin = min((len(it) - len(it.lstrip()) for it in kept if it), default=0)
    return "\n".join(it[margin:] for it in kept)


def read(text, file):
    """The application of a text; raises TextError if the text has another form."""
    reader = Reader(text, file)
    application = reader.application()
    if reader.at < len(reader.tokens):
        raise TextError(f"line {reader.tokens[reader.at].line}: the text goes on after END_SYSTEM")
    return application
