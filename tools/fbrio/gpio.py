"""GPIO: lines of a chip through Debian's python3-libgpiod, in the interface of libgpiod 1.

Each INPUT has a thread that waits for its edges, and the OUTPUTs of a chip have one that sets them. A line is opened when its first value is known, and stays
open; where opening or waiting fails, it is opened anew after a wait that grows."""
import threading

from .bus import FIRST_WAIT, LONGEST_WAIT, Ear
from .lines import Gpio, InputLine, OutputLine
from .values import Values
from .waits import Waits

LOOK = 1
CONSUMER = "fbr-io"


def opened(gpiod, chip, at: Gpio, kind: int, **more: object):
    """The lines of a place, as a bulk of gpiod. OSError where one of them is not there, or is taken."""
    flags = gpiod.LINE_REQ_FLAG_ACTIVE_LOW if at.is_active_low else 0
    flags |= {"pull-up": gpiod.LINE_REQ_FLAG_BIAS_PULL_UP, "pull-down": gpiod.LINE_REQ_FLAG_BIAS_PULL_DOWN, "": 0}[at.pull]
    lines = chip.get_lines(list(at.offsets))
    lines.request(consumer=CONSUMER, type=kind, flags=flags, **more)
    return lines


class Watcher:
    """An INPUT of a chip."""

    def __init__(self, gpiod, line: InputLine, ear: Ear, ending: threading.Event) -> None:
        self.gpiod, self.line, self.ear, self.ending = gpiod, line, ear, ending
        self.name = f"{line.name} at {line.at.place}"
        self.kind = {
            "both": gpiod.LINE_REQ_EV_BOTH_EDGES,
            "rising": gpiod.LINE_REQ_EV_RISING_EDGE,
            "falling": gpiod.LINE_REQ_EV_FALLING_EDGE,
        }[line.at.edges]
        self.waits, self.is_failing = Waits(FIRST_WAIT, LONGEST_WAIT), False
        self.thread = threading.Thread(target=self.run, daemon=True)

    def run(self) -> None:
        """Watches until it is to end, and opens the lines anew when that fails."""
        while not self.ending.is_set():
            try:
                with self.gpiod.Chip(self.line.at.chip) as chip:
                    self.watch(opened(self.gpiod, chip, self.line.at, self.kind))
            except OSError as why:
                self.ear.failed(self.name, why.strerror or str(why))
                if not self.is_failing and self.line.lost is not None:
                    self.ear.came(self.line, self.line.lost)
                self.is_failing = True
                self.ending.wait(self.waits.next())

    def watch(self, lines) -> None:
        """Hands on the level that is there at first and each that follows, or each edge."""
        values = lines.get_values()
        if self.line.queue is None:
            self.ear.came(self.line, tuple(values))
        while not self.ending.is_set():
            found = lines.event_wait(sec=LOOK) or ()
            self.works()
            for it in found:
                is_up = it.event_read().type == self.gpiod.LineEvent.RISING_EDGE
                values[self.line.at.offsets.index(it.offset())] = int(is_up)
                if self.line.queue is not None:
                    self.ear.came(self.line, tuple(values) if self.line.types else ())
                else:
                    values = lines.get_values()
                    self.ear.came(self.line, tuple(values))

    def works(self) -> None:
        """Waiting for edges went well."""
        if self.is_failing:
            self.is_failing = False
            self.waits.reset()
            self.ear.works(self.name)


class Setter:
    """The OUTPUTs of a chip."""

    def __init__(self, gpiod, chip: str, ear: Ear) -> None:
        self.gpiod, self.chip_name, self.ear = gpiod, chip, ear
        self.changed = threading.Condition()
        self.wanted: dict[OutputLine, Values] = {}
        self.new: dict[OutputLine, Values] = {}
        self.open_lines: dict[OutputLine, object] = {}
        self.chip = None
        self.is_ending = self.is_failing = False
        self.thread = threading.Thread(target=self.run, daemon=True)

    def put(self, line: OutputLine, values: Values) -> None:
        """The OUTPUT is to have these values."""
        with self.changed:
            self.wanted[line] = self.new[line] = values
            self.changed.notify()

    def finish(self) -> None:
        """Sets what is new, and ends."""
        with self.changed:
            self.is_ending = True
            self.changed.notify()

    def run(self) -> None:
        """Sets what is new until it is to end; where that fails, all is opened and set anew after a wait."""
        waits = Waits(FIRST_WAIT, LONGEST_WAIT)
        while True:
            with self.changed:
                self.changed.wait_for(lambda: self.new or self.is_ending)
                new, self.new, is_last = self.new, {}, self.is_ending
            try:
                for line, values in new.items():
                    self.set(line, values)
                waits.reset()
                if is_last and not self.new:
                    return
            except OSError as why:
                self.is_failing = True
                self.ear.failed(f"gpio {self.chip_name}", why.strerror or str(why))
                self.close()
                if is_last:
                    return
                with self.changed:
                    self.new = dict(self.wanted)
                    self.changed.wait_for(lambda: self.is_ending, waits.next())

    def set(self, line: OutputLine, values: Values) -> None:
        """Sets the lines of an OUTPUT, which are opened with these values the first time."""
        if self.chip is None:
            self.chip = self.gpiod.Chip(self.chip_name)
        if line in self.open_lines:
            self.open_lines[line].set_values(list(values))
        else:
            self.open_lines[line] = opened(self.gpiod, self.chip, line.at, self.gpiod.LINE_REQ_DIR_OUT, default_vals=list(values))
        if self.is_failing:
            self.is_failing = False
            self.ear.works(f"gpio {self.chip_name}")
        self.ear.was_put(line)

    def close(self) -> None:
        """Gives the lines back."""
        if self.chip is not None:
            self.chip.close()
        self.chip, self.open_lines = None, {}


class GpioBus:
    """A chip with its lines."""

    def __init__(self, name: str, lines: list[InputLine | OutputLine], ear: Ear) -> None:
        import gpiod

        self.ending = threading.Event()
        inputs = [it for it in lines if isinstance(it, InputLine)]
        self.watchers = [Watcher(gpiod, it, ear, self.ending) for it in inputs]
        self.setter = Setter(gpiod, lines[0].at.chip, ear)
        self.threads = [it.thread for it in self.watchers] + [self.setter.thread]

    def start(self) -> None:
        """Begins in its threads."""
        for it in self.threads:
            it.start()

    def put(self, line: OutputLine, values: Values) -> None:
        """The OUTPUT is to have these values."""
        self.setter.put(line, values)

    def finish(self) -> None:
        """Sets what is new, and ends."""
        self.ending.set()
        self.setter.finish()

    def join(self, patience: float) -> None:
        """Waits for the OUTPUTs; a thread that waits for edges ends with the process."""
        self.setter.thread.join(patience)
