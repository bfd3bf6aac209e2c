"""Takes what comes into a record to the history, in a thread of its own."""
import threading

from .feed import Feed, Unknown
from .follower import Follower, News
from .history import History, clock
from .picture import NoPicture, picture_of
from .plant import Plant, Refused, read_plant
from .saying import tell
from .state import first_state
from .turns import Merger, batches

# How long it waits when nothing has come, in seconds.
PAUSE = 0.05
# How long it is waited for its end, in seconds.
PATIENCE = 5
# The time between two signs that the device takes turns, in milliseconds of its clock.
BEAT = 1000


class Pump:
    """Follows a record by a replay, which says what happens in each turn, and what changes."""

    def __init__(self, program: str, app: str, certificate: str, record: str, history: History) -> None:
        self.program, self.app, self.certificate, self.record = program, app, certificate, record
        self.history = history
        self.follower = Follower(record)
        self.picture: dict = {}
        self.unknown = Unknown()
        self.replay: Feed | None = None
        self.merger: Merger | None = None
        self.has_begun, self.has_head = False, False
        # How many bytes of the record have come into the history.
        self.position = 0
        self.trouble = ""
        self.stopping = threading.Event()
        self.thread = threading.Thread(target=self.run, name="record", daemon=True)

    def start(self) -> None:
        """Begins to follow."""
        self.thread.start()

    def stop(self) -> None:
        """Ends it."""
        self.stopping.set()
        if self.replay is not None:
            self.replay.kill()
        self.thread.join(PATIENCE)

    def run(self) -> None:
        """Follows until it is stopped."""
        try:
            while not self.stopping.is_set():
                news = self.follower.poll()
                self.take(news)
                if not news.lines:
                    self.stopping.wait(PAUSE)
        finally:
            self.let_go()
            self.follower.forget()

    def let_go(self) -> None:
        """Ends the replay."""
        if self.replay is not None:
            self.replay.close()
        self.replay, self.merger = None, None

    def take(self, news: News) -> None:
        """Takes what is new."""
        if news.trouble != self.trouble:
            self.trouble = news.trouble
            self.history.tell(trouble=news.trouble)
            if news.trouble:
                tell(f"{self.record}: {news.trouble}")
        if news.begins:
            self.begin(news.begins)
        lines = news.lines
        if lines and not self.has_head:
            self.has_head = True
            self.load(lines[0])
            lines = lines[1:]
        for piece in batches(lines):
            if self.replay is None or self.stopping.is_set():
                return
            self.give(piece)
        if self.replay is not None:
            self.add(self.replay.poll())
        self.history.tell(part=self.follower.part())

    def begin(self, why: str) -> None:
        """Begins anew."""
        is_first, self.has_begun = not self.has_begun, True
        self.let_go()
        self.has_head, self.position, self.unknown, self.picture = False, 0, Unknown(), {}
        self.history.begin_anew(first_state({}, {}, {}))
        notice = "" if is_first else f"{why} at {clock()}; the page began anew"
        self.history.tell(notice=notice, fault="", device="", part=100, clock=0, unknown=0, examples=[])
        if not is_first:
            tell(f"{self.record}: {why}; began anew")

    def load(self, head: bytes) -> None:
        """Reads the plant, and gives the first line of the record to a replay."""
        words = [self.program, "replay", self.app, self.certificate, "-", "--json", "--watch", "*"]
        try:
            plant = read_plant(self.program, self.app, self.certificate, head.decode("utf-8", "replace")) or Plant("", None)
            self.replay = Feed(words, self.unknown)
        except (Refused, OSError, ValueError, KeyError) as why:
            self.fail(f"the plant cannot be read: {why}")
            return
        self.merger = Merger(plant, self.unknown)
        drawn = self.drawn(plant) if plant.device else {}
        instances = {name: [it.what, it.resource] for name, it in plant.instances.items()}
        outputs = {str(number): name for number, name in plant.outputs.items()}
        self.history.begin_anew(first_state(plant.states, plant.values, plant.queues))
        self.picture = {"generation": self.history.generation, "instances": instances, "depths": plant.depths, "outputs": outputs, **drawn}
        self.history.tell(device=plant.device)
        self.give([head])

    def drawn(self, plant: Plant) -> dict:
        """The picture, or why there is none."""
        try:
            return picture_of(plant)
        except (NoPicture, ValueError, KeyError) as why:
            tell(str(why))
            return {"none": str(why)}

    def give(self, lines: list[bytes]) -> None:
        """Gives lines to the replay, and takes what comes of them."""
        self.add(self.replay.give(lines))
        self.position += sum(map(len, lines))

    def add(self, objects: list[dict]) -> None:
        """Adds the events of what the replay has said, and takes its end."""
        self.history.add(self.merger.events(objects))
        self.history.tell(unknown=self.unknown.count, examples=list(self.unknown.examples))
        if self.merger.clock >= self.history.status["clock"] + BEAT:
            self.history.tell(clock=self.merger.clock)
        if self.replay.status is not None and not self.stopping.is_set():
            self.end(self.replay.status, self.merger.report)

    def end(self, status: int, report: dict) -> None:
        """A replay has ended by itself: the record has a fault, or is of another plant."""
        words = [report["line"]] if "line" in report else []
        self.fail(f"the replay has ended with status {status}: {'; '.join([*words, *self.replay.said]) or 'it said nothing'}")

    def fail(self, says: str) -> None:
        """Says that nothing more is shown of this record."""
        self.let_go()
        self.history.tell(fault=says)
        tell(f"{self.record}: {says}")
