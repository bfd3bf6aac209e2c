"""Lines for people and for programs that read on: a thread writes them, so that nobody who does not read them can hold the companion up."""
import queue
import sys
import threading
from typing import TextIO

ROOM = 4096


def counted(count: int, one: str, many: str) -> str:
    """`1 fault`, or `2 faults`."""
    return f"{count} {one if count == 1 else many}"


class Teller:
    """Writes lines to standard output and standard error, as far as these are there. A line that finds 4096 waiting before it is lost, and counted. Its own
    lines begin with the name of the `companion`."""

    def __init__(self, output: TextIO | None = sys.stdout, errors: TextIO | None = sys.stderr, companion: str = "fbr-io") -> None:
        self.output, self.errors, self.companion, self.lost = output, errors, companion, 0
        self.waiting: queue.Queue[tuple[TextIO, str] | None] = queue.Queue(ROOM)
        self.thread = threading.Thread(target=self.run, daemon=True)
        self.thread.start()

    def run(self) -> None:
        """Writes what waits, until `close`. A reader that has gone is not missed."""
        while (item := self.waiting.get()) is not None:
            stream, line = item
            try:
                stream.write(line + "\n")
                if self.waiting.empty():
                    stream.flush()
            except (OSError, ValueError):
                continue

    def put(self, stream: TextIO | None, line: str) -> None:
        """Puts a line behind those that wait."""
        if stream is None:
            return
        try:
            self.waiting.put_nowait((stream, line))
        except queue.Full:
            self.lost += 1

    def write(self, line: str) -> None:
        """A line of standard output."""
        self.put(self.output, line)

    def say(self, line: str) -> None:
        """A line of standard error, as it is."""
        self.put(self.errors, line)

    def tell(self, says: str) -> None:
        """A line of the companion's own."""
        self.say(f"{self.companion}: {says}")

    def close(self, patience: float = 1.0) -> None:
        """Waits until what waits is written, `patience` seconds at most."""
        try:
            self.waiting.put(None, timeout=patience)
        except queue.Full:
            return
        self.thread.join(patience)
