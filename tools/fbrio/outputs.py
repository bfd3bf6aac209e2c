"""What OUTPUTs are to be, and when they are safe instead.

Until the device has written an OUTPUT, it is to be `safe`. While the device is silent for longer than the watchdog it is `safe` again, and gets the value that
the device wrote last once the device is heard again: the device believes that its OUTPUTs have their values, and may wait for what these bring about."""
from dataclasses import dataclass

from .bus import Bus
from .lines import OutputLine
from .values import Values


@dataclass
class OutputCounts:
    """What the device wrote, and how often the bus has taken a value, that of `safe` and what was put again included."""

    writes: int = 0
    put: int = 0


class Outputs:
    """The OUTPUTs of a table. `buses` is the bus of each line."""

    def __init__(self, buses: dict[OutputLine, Bus]) -> None:
        self.buses = buses
        self.counts = {line: OutputCounts() for line in buses}
        self.written: dict[OutputLine, Values] = {}
        self.is_safe = self.is_over = False

    def begin(self) -> None:
        """Nothing is written yet: all that have a `safe` value get it."""
        for line in self.buses:
            self.put_safe(line)

    def put_safe(self, line: OutputLine) -> None:
        """Puts the safe value, where there is one; without it the OUTPUT stays as it is."""
        if line.safe is not None:
            self.buses[line].put(line, line.safe)

    def write(self, number: int, values: Values) -> None:
        """The device has written these values. While OUTPUTs are safe, the last ones are kept for later."""
        for line, bus in self.buses.items():
            if line.number == number and len(line.types) == len(values):
                self.counts[line].writes += 1
                self.written[line] = values
                if not self.is_safe:
                    bus.put(line, values)

    def go_safe(self) -> None:
        """The device is silent."""
        if not self.is_safe:
            self.is_safe = True
            self.begin()

    def go_back(self) -> None:
        """The device is heard again: what it wrote last is put where `safe` was."""
        if self.is_over or not self.is_safe:
            return
        self.is_safe = False
        for line, values in self.written.items():
            if line.types and line.safe is not None:
                self.buses[line].put(line, values)

    def end(self) -> None:
        """The device has ended, or is to end: nothing that it still writes counts."""
        self.is_over = True
        self.go_safe()
