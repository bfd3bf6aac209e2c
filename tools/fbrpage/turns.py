"""Makes events of what a replay says: each arrival, denial and dispatch, with what it has changed."""
import json

from .feed import Unknown
from .plant import Plant, shown

# As many lines are given to a replay at a time.
LINES = 256


def batches(lines: list[bytes]) -> list[list[bytes]]:
    """Lines in pieces that are given at a time."""
    return [lines[at : at + LINES] for at in range(0, len(lines), LINES)]


def source_of(said: dict) -> str:
    """What a datagram was for, in words."""
    for name, word in (("input", "INPUT"), ("channel", "channel")):
        if name in said:
            return f"{word} {said[name]}"
    return "1 byte" if said["bytes"] == 1 else f"{said['bytes']} bytes"


class Merger:
    """Makes events of the objects of a replay, and numbers them. What has changed belongs to the answer before it."""

    def __init__(self, plant: Plant, unknown: Unknown) -> None:
        self.plant, self.unknown = plant, unknown
        self.number, self.clock = 0, 0
        # The causes that have begun and not ended; the queues hold no more of them than they are deep.
        self.open: set[int] = set()
        # What held before the first answer is known.
        self.has_begun = False
        self.event: dict | None = None
        self.made: list[dict] = []
        # The report at the end, which says why there is nothing more.
        self.report: dict = {}

    def events(self, objects: list[dict]) -> list[dict]:
        """The events that come of objects, in order. The last object is that of the end of a turn, or of a replay."""
        for it in objects:
            try:
                self.take(it)
            except (KeyError, TypeError, ValueError):
                self.unknown.add(json.dumps(it))
        found, self.made = self.made, []
        return found

    def take(self, said: dict) -> None:
        """Takes an object."""
        if "command" in said:
            self.report = said
        elif "answer" in said:
            self.has_begun = True
            self.take_answer(said["answer"], said)
        elif self.has_begun:
            self.take_change(said)

    def add(self, said: dict, kind: str, **more) -> dict:
        """Adds an event."""
        self.event = {"kind": kind, "time": said["time"], "number": self.number + 1, **more}
        self.number += 1
        self.made.append(self.event)
        return self.event

    def take_answer(self, what: str, said: dict) -> None:
        """Takes an answer of the device, or that a turn has ended."""
        if what == "turn":
            self.clock, self.event = said["time"], None
        elif what == "cause":
            self.open.add(said["cause"])
            self.add(said, "begins", cause=said["cause"], opens=source_of(said), bound=said["most"])
        elif what == "denied":
            self.add(said, "denied", what=source_of(said), code=said["number"], why=said["says"], count=1)
        elif what == "ran":
            self.take_ran(said, said.get("ended"))
        else:
            raise ValueError(what)

    def take_ran(self, said: dict, ended: dict | None) -> None:
        """Takes a dispatch. A cause that nothing has begun was begun by a timer or by the start: then the first event says by which."""
        name, cause = self.plant.names.get(said["path"], said["path"]), said["cause"]
        event = self.add(said, "ran", at=name, event=said["event"], cause=cause, steps=said["steps"])
        if cause not in self.open:
            self.open.add(cause)
            event["opens"] = f"{name}.{said['event']}"
            event["bound"] = (ended or said)["most"]
        if "output" in said:
            event["wrote"] = [said["output"], " ".join(map(str, said["values"]))]
        if "channel" in said:
            event["sent"] = f"channel {said['channel']}"
        if ended:
            event["ended"] = [ended["steps"], ended["most"]]
            self.open.discard(cause)

    def take_change(self, said: dict) -> None:
        """Takes a state, a value or the length of a queue that has changed."""
        name = said["path"]
        if "state" in said:
            change = ["s", name, said["state"]]
        elif "queue" in said:
            change = ["q", name, said["queue"]]
        else:
            change = ["v", name, shown(said["value"], said["type"])]
        event = self.event or self.add(said, "other")
        event.setdefault("changes", []).append(change)
