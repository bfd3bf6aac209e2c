"""Open documents, and places in them: LSP counts lines and UTF-16 code units, `fbr` counts bytes, and Python counts characters."""
import bisect
import re
from itertools import accumulate

from . import outline

# Lines as LSP ends them; `str.splitlines` ends them in more ways.
LINE_END = re.compile(r"(\r\n?|\n)")


class BadPlace(Exception):
    """A place of a message is none."""


def lines_of(text: str) -> list[str]:
    """The lines of a text with their ends; the last one has none, and may be empty."""
    parts = LINE_END.split(text)
    return [line + end for line, end in zip(parts[::2], parts[1::2])] + parts[-1:]


def units_of(text: str) -> int:
    """How many UTF-16 code units a text has."""
    return len(text) if text.isascii() else sum(2 if it > "\uffff" else 1 for it in text)


def index_of(line: str, units: int) -> int:
    """How many characters of a line the first code units are; the end of the line if it has no more, and before a pair if they end in it."""
    bare = line.rstrip("\r\n")
    if bare.isascii():
        return min(units, len(bare))
    for index, character in enumerate(bare):
        units -= 2 if character > "\uffff" else 1
        if units < 0:
            return index
    return len(bare)


def bytes_of(text: str) -> bytes:
    """A text as `fbr` gets it."""
    return text.encode("utf-8", "surrogatepass")


class Document:
    """An open text, its places, its outline, and what `fbr` said of it last."""

    def __init__(self, uri: str, version: int | None, text: str) -> None:
        self.uri, self.version = uri, version
        self.lines = lines_of(text)
        self.forget()
        # What `fbr` said when it last accepted the text, whether that was this text, and what is shown now with the fixes for it.
        self.report: dict | None = None
        self.is_report_of_now = False
        self.shown: list = []

    def forget(self) -> None:
        """Forgets what is known of the text before a change."""
        self.kept_text = self.kept_starts = self.kept_bytes = self.kept_outline = None
        self.is_report_of_now, self.shown = False, []

    @property
    def text(self) -> str:
        """The whole text."""
        if self.kept_text is None:
            self.kept_text = "".join(self.lines)
        return self.kept_text

    @property
    def outline(self) -> "outline.Outline":
        """The names of the text, and where they are."""
        if self.kept_outline is None:
            self.kept_outline = outline.read(self.text)
        return self.kept_outline

    @property
    def starts(self) -> list[int]:
        """Before which character each line begins."""
        if self.kept_starts is None:
            self.kept_starts = [0, *accumulate(map(len, self.lines[:-1]))]
        return self.kept_starts

    @property
    def byte_starts(self) -> list[int]:
        """Before which byte each line begins."""
        if self.kept_bytes is None:
            sizes = (len(it) if it.isascii() else len(bytes_of(it)) for it in self.lines[:-1])
            self.kept_bytes = [0, *accumulate(sizes)]
        return self.kept_bytes

    def place(self, position: object) -> tuple[int, int]:
        """The line and the character in it of a position; one beyond the text is its end. BadPlace if it is none."""
        if not isinstance(position, dict):
            raise BadPlace("a position is an object")
        line, units = position.get("line"), position.get("character")
        if type(line) is not int or type(units) is not int or line < 0 or units < 0:
            raise BadPlace("a position has a line and a character")
        if line >= len(self.lines):
            return len(self.lines) - 1, len(self.lines[-1])
        return line, index_of(self.lines[line], units)

    def replace(self, span: object, text: str) -> None:
        """Puts a text in the place of a range."""
        if not isinstance(span, dict):
            raise BadPlace("a range is an object")
        (first, before), (last, after) = sorted((self.place(span.get("start")), self.place(span.get("end"))))
        # A carriage return that ends the line before may become half of a line end.
        if first and not before and self.lines[first - 1].endswith("\r"):
            first, before = first - 1, len(self.lines[first - 1])
        put = lines_of(self.lines[first][:before] + text + self.lines[last][after:])
        if last < len(self.lines) - 1:
            # What ends with a line end has an empty line after it, which is the next one that is there.
            put.pop()
        self.lines[first : last + 1] = put
        self.forget()

    def replace_all(self, text: str) -> None:
        """Puts a text in the place of the whole one."""
        self.lines = lines_of(text)
        self.forget()

    def offset(self, position: object) -> int:
        """How many characters stand before a position."""
        line, index = self.place(position)
        return self.starts[line] + index

    def position(self, offset: int) -> dict:
        """The position after so many characters."""
        offset = max(0, min(offset, self.starts[-1] + len(self.lines[-1])))
        line = bisect.bisect_right(self.starts, offset) - 1
        return {"line": line, "character": units_of(self.lines[line][: offset - self.starts[line]])}

    def span(self, start: int, end: int) -> dict:
        """The range from a character to another."""
        return {"start": self.position(start), "end": self.position(end)}

    def offset_of_byte(self, byte: int) -> int:
        """How many characters stand before a byte."""
        line = bisect.bisect_right(self.byte_starts, max(0, byte)) - 1
        part = bytes_of(self.lines[line])[: byte - self.byte_starts[line]]
        return self.starts[line] + len(part.decode("utf-8", "ignore"))
