"""Tokens of a text that may be broken anywhere. Whatever begins no token is one of its own, so that what follows it is still found."""
import re
from typing import NamedTuple

from fbrtools.words import RESERVED

TOKEN = re.compile(
    r"(?P<literal>[A-Za-z_]\w*\#-?\w*(?:\#\w+)?)|(?P<word>[A-Za-z_]\w*)|(?P<number>[0-9][\w#]*)|(?P<open>\(\*)|(?P<sign>:=|->|\.\.|<=|>=|<>|\S)",
    re.ASCII,
)


class Token(NamedTuple):
    """A token: its kind (`word`, `reserved`, `literal`, `number` or `sign`), its text in capitals, and where it is, in characters."""

    kind: str
    word: str
    start: int
    end: int


class Scanned(NamedTuple):
    """The tokens of a text, and where its comments are."""

    tokens: list[Token]
    comments: list[tuple[int, int]]


def scan(text: str) -> Scanned:
    """All tokens and comments. A comment that is never closed is two signs, so that the names after it are not lost while it is typed."""
    tokens, comments, at, all_close = [], [], 0, True
    while match := TOKEN.search(text, at):
        kind, start, at = match.lastgroup, match.start(), match.end()
        if kind == "open":
            end = text.find("*)", at) if all_close else -1
            if end >= 0:
                at = end + 2
                comments.append((start, at))
                continue
            all_close, kind, at = False, "sign", start + 1
        word = text[start:at].upper()
        if kind == "word" and word in RESERVED:
            kind = "reserved"
        tokens.append(Token(kind, word, start, at))
    return Scanned(tokens, comments)


def token_end(text: str, offset: int) -> int:
    """Where the token ends that begins at an offset; the offset itself where none begins."""
    match = TOKEN.match(text, offset)
    return match.end() if match else offset
