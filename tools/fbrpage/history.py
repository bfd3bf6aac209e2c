"""What has happened to a device: the last events, and the state at each of them."""
import json
import threading
import time
from collections import deque
from dataclasses import dataclass, field

from .state import State, apply, copied, first_state

# As many events are kept at most; there is a whole state before each thousand.
LIMIT, EVERY = 100_000, 1_000


@dataclass
class Piece:
    """Some events, as JSON, and the whole state before the first of them."""

    before: State
    events: list[str] = field(default_factory=list)


@dataclass
class View:
    """What a client is given: what the feed is now, and the events behind the last one that it has, if these are all there."""

    generation: int
    revision: int
    first: int
    last: int
    events: list[str]
    is_whole: bool


class History:
    """The last events of a device, as JSON, and its state. Threads may read it while one adds to it.

    It begins anew with a record; then `generation` grows. Its first one is the time, so that no page takes the events of one process for those of another."""

    def __init__(self, limit: int = LIMIT, every: int = EVERY) -> None:
        self.limit, self.every = limit, every
        self.changed = threading.Condition()
        self.generation, self.revision = time.time_ns() // 1_000_000, 0
        self.status: dict = {}
        self.begin_anew(first_state({}, {}, {}))

    def begin_anew(self, state: State) -> None:
        """Forgets all, and begins with a state."""
        with self.changed:
            self.generation += 1
            self.state, self.kept = state, 0
            self.pieces: deque[Piece] = deque([Piece(copied(state))])
            self.changed.notify_all()

    def tell(self, **more) -> None:
        """Changes what is said beside the events."""
        with self.changed:
            if any(self.status.get(name) != value for name, value in more.items()):
                self.status = {**self.status, **more}
                self.revision += 1
                self.changed.notify_all()

    def add(self, events: list[dict]) -> None:
        """Adds events. No client can make it wait longer than it takes to copy a list of them."""
        if not events:
            return
        with self.changed:
            for event in events:
                if len(self.pieces[-1].events) >= self.every:
                    self.pieces.append(Piece(copied(self.state)))
                apply(self.state, event)
                self.pieces[-1].events.append(json.dumps(event, separators=(",", ":")))
                self.kept += 1
                if self.kept > self.limit:
                    self.kept -= len(self.pieces.popleft().events)
            self.changed.notify_all()

    @property
    def first(self) -> int:
        """The number of the earliest event whose state is kept: that before the first event that is."""
        return self.pieces[0].before["number"]

    def wait(self, generation: int, last: int, revision: int, patience: float) -> None:
        """Waits until there is more than this, or so many seconds."""
        with self.changed:
            self.changed.wait_for(lambda: (self.generation, self.state["number"], self.revision) != (generation, last, revision), patience)

    def view(self, generation: int, last: int, most: int, furthest: int) -> View:
        """At most so many events behind the last one that a client has. They are not whole if the client has those of another record, or is further behind."""
        with self.changed:
            now = self.state["number"]
            is_whole = generation == self.generation and self.first <= last <= now and now - last <= furthest
            events = self.behind(last, most) if is_whole else []
            return View(self.generation, self.revision, self.first, now, events, is_whole)

    def behind(self, last: int, most: int) -> list[str]:
        """The events behind one, at most so many."""
        found: list[str] = []
        for piece in reversed(self.pieces):
            before = piece.before["number"]
            found[:0] = piece.events[max(0, last - before) :]
            if before <= last:
                break
        return found[:most]

    def snapshot(self) -> dict:
        """The whole state now, and the event that led to it."""
        with self.changed:
            state, last = copied(self.state), self.pieces[-1].events[-1:]
            event = json.loads(last[0]) if last else None
            return {"generation": self.generation, "first": self.first, "last": state["number"], "state": state, "event": event, "status": self.status}

    def at(self, generation: int, number: int) -> dict | None:
        """The state after the event of a number, and that event; nothing if it is not kept."""
        with self.changed:
            if generation != self.generation or not self.first <= number <= self.state["number"]:
                return None
            piece = next(it for it in reversed(self.pieces) if it.before["number"] <= number)
            events = piece.events[: number - piece.before["number"]]
            first, last = self.first, self.state["number"]
        # A state before a piece and its first events never change, so they are looked at without the lock.
        state, event = copied(piece.before), None
        for text in events:
            event = json.loads(text)
            apply(state, event)
        return {"generation": generation, "first": first, "last": last, "state": state, "event": event}


def clock() -> str:
    """The time of the day."""
    return time.strftime("%H:%M:%S")
