"""Reads a file in XML into a tree of elements with their lines.

A DOCTYPE that only names its DTD is passed over, and the DTD is never read. Declarations within the file itself (entities among them) are refused, so nothing
outside the file is fetched and nothing in it grows."""
import xml.parsers.expat
from dataclasses import dataclass, field

from .model import Place

LONGEST = 33554432
DEEPEST = 100


@dataclass
class Element:
    """An element: `text` is all character data directly within it."""

    tag: str
    attributes: dict[str, str]
    place: Place
    children: list["Element"] = field(default_factory=list)
    text: str = ""

    def get(self, name, default=""):
        return self.attributes.get(name, default)

    def all(self, *tags):
        return [it for it in self.children if it.tag in tags]

    def first(self, *tags):
        return next((it for it in self.children if it.tag in tags), None)

    @property
    def subject(self):
        """How a message names it: its tag and its name, or what it connects."""
        name = self.get("Name") or self.get("Var") or self.get("From")
        if not name and self.get("Source"):
            name = f"{self.get('Source')} to {self.get('Destination')}"
        return f"{self.tag} {name}".rstrip()


class NotXml(Exception):
    """Bytes that are no XML of the kind that is read: its place, what is wrong, and what to do."""

    def __init__(self, place, problem, remedy):
        super().__init__(problem)
        self.place, self.problem, self.remedy = place, problem, remedy


class Builder:
    def __init__(self, file):
        self.file, self.stack, self.root = file, [], None
        self.parser = xml.parsers.expat.ParserCreate()
        self.parser.buffer_text = True
        self.parser.StartElementHandler = self.begin
        self.parser.EndElementHandler = self.end
        self.parser.CharacterDataHandler = self.characters
        self.parser.StartDoctypeDeclHandler = self.doctype
        self.parser.EntityDeclHandler = self.entity

    def place(self):
        return Place(self.file, self.parser.CurrentLineNumber)

    def doctype(self, _name, _system, _public, has_internal_subset):
        if has_internal_subset:
            self.entity()

    def entity(self, *_):
        raise NotXml(self.place(), "its DOCTYPE has declarations of its own", "leave only the name of the DTD there, or no DOCTYPE at all")

    def begin(self, tag, attributes):
        element = Element(tag, attributes, self.place())
        if len(self.stack) == DEEPEST:
            raise NotXml(self.place(), f"elements nest more than {DEEPEST} deep", "flatten the network")
        if self.stack:
            self.stack[-1].children.append(element)
        else:
            self.root = element
        self.stack.append(element)

    def end(self, _tag):
        self.stack.pop()

    def characters(self, text):
        self.stack[-1].text += text


def parse(data, file):
    """The root element of these bytes; raises NotXml."""
    if len(data) > LONGEST:
        raise NotXml(Place(file), f"it has more than {LONGEST} bytes", "split the system")
    builder = Builder(file)
    try:
        builder.parser.Parse(data, True)
    except xml.parsers.expat.ExpatError as error:
        words = xml.parsers.expat.errors.messages[error.code]
        raise NotXml(Place(file, error.lineno), f"it is not XML: {words}", "export it again from the tool that wrote it") from error
    return builder.root
