"""When texts are put to `fbr`: a moment after the last change, at the latest so long after the first one, and a run that was overtaken is ended."""
import time
from typing import Callable
from urllib.parse import unquote, urlsplit

from .program import Answer, Program, Run

# In seconds. A text that is typed without a pause is checked in between, too.
QUIET = 0.05
LATEST = 0.3
# So many programs run at a time.
MOST_RUNS = 4


def file_of(uri: str) -> str | None:
    """The file of this name; None if it names none."""
    try:
        parts = urlsplit(uri)
    except ValueError:
        return None
    return unquote(parts.path) if parts.scheme == "file" else None


class Checks:
    """The texts that wait for a check, and those that are checked. `tell` is called from other threads with the name of a text, its version and the answer."""

    def __init__(self, program: Program, tell: Callable[[str, object, Answer], None], clock: Callable[[], float] = time.monotonic) -> None:
        self.program, self.tell, self.clock = program, tell, clock
        # When the first and the last change came of those that no run has seen.
        self.waiting: dict[str, tuple[float, float]] = {}
        self.runs: dict[str, Run] = {}

    def changed(self, uri: str, is_new: bool = False) -> None:
        """A text has changed, or is new and is checked at once."""
        self.stop(uri)
        now = self.clock()
        first, _ = self.waiting.get(uri, (now, now))
        self.waiting[uri] = (now - LATEST, now) if is_new else (first, now)

    def closed(self, uri: str) -> None:
        """Nobody asks about a text any more."""
        self.stop(uri)
        self.waiting.pop(uri, None)

    def stop(self, uri: str) -> None:
        """Ends the run over a text."""
        if run := self.runs.pop(uri, None):
            run.overtake()

    def stop_all(self) -> None:
        """Ends all runs."""
        for uri in list(self.runs):
            self.stop(uri)
        self.waiting.clear()

    def finished(self, uri: str) -> None:
        """A run has told its answer."""
        self.runs.pop(uri, None)

    def due(self, uri: str) -> float:
        """When a text that waits is to be checked."""
        first, last = self.waiting[uri]
        return min(first + LATEST, last + QUIET)

    def wait(self) -> float | None:
        """In how many seconds the next text is to be checked; None if none waits, or too many are checked."""
        if not self.waiting or len(self.runs) >= MOST_RUNS:
            return None
        return max(0.0, min(map(self.due, self.waiting)) - self.clock())

    def start_due(self, text_of: Callable[[str], tuple[object, bytes]]) -> None:
        """Starts a run over each text whose time has come."""
        now = self.clock()
        for uri in sorted(self.waiting, key=self.due):
            if self.due(uri) > now or len(self.runs) >= MOST_RUNS:
                return
            del self.waiting[uri]
            version, text = text_of(uri)
            self.runs[uri] = self.run(uri, version, text)

    def run(self, uri: str, version: object, text: bytes) -> Run:
        """Starts a run over a text."""
        return Run(self.program, text, lambda answer: self.tell(uri, version, answer), file_of(uri))
