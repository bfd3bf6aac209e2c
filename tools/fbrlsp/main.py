"""The words of `fbr-lsp`."""
import sys

from .program import Program
from .server import Server

USAGE = """fbr-lsp [--fbr PATH] [--with FILE]..

A language server (LSP 3.17) for texts of fbr, over standard input and output; an editor starts it (docs/EDITORS.md).
--fbr names the program that says what is right; else it is FBR of the environment, out/fbr of this repository, or fbr on the PATH.
--with puts the block types of a file before each text, as fbr does; it may be given again."""


def options(words: list[str]) -> tuple[str | None, list[str]] | None:
    """The program that is named, and the files of block types; None if the words are at fault."""
    named, files, left = None, [], list(words)
    while left:
        if len(left) < 2 or left[0] not in ("--fbr", "--with") or (left[0] == "--fbr" and named is not None):
            return None
        word, value, *left = left
        if word == "--fbr":
            named = value
        else:
            files.append(value)
    return named, files


def main(words: list[str]) -> int:
    """Runs the server until it is told to end; its status: 0 if it was shut down before, 1 if not, 2 if the words are at fault."""
    # Clients add `--stdio` to say which channel they mean; there is no other.
    rest = [it for it in words if it != "--stdio"]
    if rest[:1] in (["--help"], ["-h"]):
        print(USAGE)
        return 0
    found = options(rest)
    if found is None:
        print(f"usage: {USAGE.splitlines()[0]}", file=sys.stderr)
        return 2
    # A reader of its own, which nobody closes: at the end a thread may still wait in it, and Python would wait for that.
    stream = open(sys.stdin.fileno(), "rb", closefd=False)
    return Server(stream, sys.stdout.buffer, Program(*found)).run()
