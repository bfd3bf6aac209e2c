"""Follows a record while it grows, also if it is cut or replaced."""
import os
import stat
from dataclasses import dataclass, field

# The most bytes that are read at a time, and how long a line may be until it is passed on as it is: `replay` refuses it then.
MOST, LONGEST_LINE = 1 << 16, 1 << 14
# How many of the bytes that were read last are compared when the file has changed.
TAIL = 256


@dataclass
class News:
    """What is new in a record: why it begins anew, if it does, its new whole lines, and what is wrong with it."""

    begins: str = ""
    lines: list[bytes] = field(default_factory=list)
    trouble: str = ""


class Follower:
    """Reads the whole lines of a record as they come. Each `poll` reads what is there, and never waits."""

    def __init__(self, path: str) -> None:
        self.path = path
        self.file = -1
        self.forget()

    def forget(self) -> None:
        """Lets the file go, and what was read of it."""
        if self.file >= 0:
            os.close(self.file)
        self.file, self.position = -1, 0
        self.partial, self.head, self.tail = b"", b"", b""
        self.identity: tuple[int, int] = (0, 0)
        self.seen: tuple[int, int] = (-1, -1)

    def poll(self) -> News:
        """What is new since the last time."""
        try:
            return self.look()
        except FileNotFoundError:
            news = News(trouble="there is no record of this name" if self.file < 0 else "the record was removed")
        except OSError as why:
            return News(trouble=f"the record cannot be read: {why.strerror}")
        if self.file >= 0:
            news.lines = self.read()
        return news

    def look(self) -> News:
        """Opens the file of this name if it is another one than before or no longer begins as it did, and reads on."""
        there = os.stat(self.path)
        if not stat.S_ISREG(there.st_mode):
            self.forget()
            return News(trouble="the record is not a file")
        begins = self.change(there)
        if begins:
            self.forget()
            self.file = os.open(self.path, os.O_RDONLY | os.O_NONBLOCK | os.O_CLOEXEC)
            there = os.fstat(self.file)
            self.identity = (there.st_dev, there.st_ino)
        self.seen = (there.st_size, there.st_mtime_ns)
        return News(begins=begins, lines=self.read())

    def change(self, there: os.stat_result) -> str:
        """Why the record begins anew; empty if it goes on."""
        if self.file < 0:
            return "the record was found"
        if (there.st_dev, there.st_ino) != self.identity:
            return "the record was replaced by another file"
        if there.st_size < self.position:
            return "the record was cut"
        if (there.st_size, there.st_mtime_ns) != self.seen and not self.is_same():
            return "the record was overwritten"
        return ""

    def part(self) -> int:
        """How much of the record has been read, in parts of a hundred."""
        return 100 if self.seen[0] - self.position < MOST else self.position * 100 // self.seen[0]

    def is_same(self) -> bool:
        """Whether the file still begins with what was read first, and has what was read last at its place."""
        begins = os.pread(self.file, len(self.head), 0) == self.head
        return begins and os.pread(self.file, len(self.tail), self.position - len(self.tail)) == self.tail

    def read(self) -> list[bytes]:
        """The whole lines that have come. The last line stays here until its line feed is there."""
        piece = os.pread(self.file, MOST, self.position)
        self.position += len(piece)
        self.head = (self.head + piece)[:TAIL] if len(self.head) < TAIL else self.head
        self.tail = (self.tail + piece)[-TAIL:]
        *lines, self.partial = (self.partial + piece).split(b"\n")
        if len(self.partial) > LONGEST_LINE:
            lines.append(self.partial)
            self.partial = b""
        return [it + b"\n" for it in lines]
