"""What `fbr replay --json` says of the turns of a record that is given to it line by line."""
import json
import os
import selectors
import subprocess
from dataclasses import dataclass, field

# The most bytes that are read or written at a time.
PIECE = 1 << 16
# As many lines for people, and of those that are not known, are kept, and as many characters of each.
KEPT, LONGEST = 5, 200


@dataclass
class Unknown:
    """What was not understood: how much of it, and the first of it."""

    count: int = 0
    examples: list[str] = field(default_factory=list)

    def add(self, text: str) -> None:
        """Counts one."""
        self.count += 1
        if len(self.examples) < KEPT:
            self.examples.append(text[:LONGEST])


class Feed:
    """A replay. It answers the line of a turn with objects, the last of which says that the turn has ended; the first line has no answer."""

    def __init__(self, words: list[str], unknown: Unknown) -> None:
        self.unknown = unknown
        self.process = subprocess.Popen(words, stdin=subprocess.PIPE, stdout=subprocess.PIPE, stderr=subprocess.PIPE, bufsize=0)
        self.selector = selectors.DefaultSelector()
        # What has been read of each stream that has not ended, behind its last whole line.
        self.partial: dict = {}
        for stream in (self.process.stdout, self.process.stderr):
            os.set_blocking(stream.fileno(), False)
            self.selector.register(stream, selectors.EVENT_READ)
            self.partial[stream] = b""
        os.set_blocking(self.process.stdin.fileno(), False)
        self.objects: list[dict] = []
        # How many turns were given and have not ended.
        self.open, self.has_head = 0, False
        self.said: list[str] = []
        # The status of the replay, if it has ended.
        self.status: int | None = None

    def give(self, lines: list[bytes]) -> list[dict]:
        """Gives lines, and waits until each turn of them has ended; the objects that came of them. `status` is set if the replay has ended."""
        self.open += len(lines) - (0 if self.has_head else 1)
        self.has_head = True
        self.write(b"".join(lines))
        while self.open > 0 and self.status is None:
            self.read(None)
        return self.taken()

    def poll(self) -> list[dict]:
        """The objects that have come by themselves."""
        if self.status is None:
            self.read(0)
        return self.taken()

    def taken(self) -> list[dict]:
        """The objects that have come and were not taken before."""
        found, self.objects = self.objects, []
        return found

    def write(self, data: bytes) -> None:
        """Writes, and reads meanwhile, so that neither waits for the other."""
        self.selector.register(self.process.stdin, selectors.EVENT_WRITE)
        while data and self.status is None:
            if self.read(None):
                try:
                    data = data[os.write(self.process.stdin.fileno(), data[:PIECE]) :]
                except BrokenPipeError:
                    # It has ended; what it said is still to be read.
                    break
        self.selector.unregister(self.process.stdin)
        while data and self.status is None:
            self.read(None)

    def read(self, wait: float | None) -> bool:
        """Waits until there is something to read or room to write, and reads; whether there is room."""
        has_room = False
        for key, _ in self.selector.select(wait):
            if key.fileobj is self.process.stdin:
                has_room = True
            elif piece := key.fileobj.read(PIECE):
                self.take(key.fileobj, piece)
            elif piece is not None:
                self.selector.unregister(key.fileobj)
                del self.partial[key.fileobj]
        if not self.partial and self.status is None:
            self.status = self.process.wait()
        return has_room

    def take(self, stream, piece: bytes) -> None:
        """Takes what a stream has written, as lines."""
        *lines, self.partial[stream] = (self.partial[stream] + piece).split(b"\n")
        for line in lines:
            if stream is self.process.stderr:
                self.said = [*self.said[1 - KEPT :], line.decode("utf-8", "replace")[:LONGEST]]
            else:
                self.take_object(line)

    def take_object(self, line: bytes) -> None:
        """Takes the object of a line."""
        try:
            found = json.loads(line)
        except ValueError:
            found = None
        if not isinstance(found, dict):
            self.unknown.add(line.decode("utf-8", "replace"))
            return
        if found.get("answer") == "turn":
            self.open -= 1
        self.objects.append(found)

    def kill(self) -> None:
        """Ends the process; also another thread may do that."""
        self.process.kill()

    def close(self) -> None:
        """Ends the process, and gives back what it held."""
        self.process.kill()
        self.process.wait()
        self.selector.close()
        for stream in (self.process.stdin, self.process.stdout, self.process.stderr):
            stream.close()
