"""A stand-in for the module gpiod of libgpiod 1, as far as fbr-io uses it: chips whose lines the test moves. It is no chip."""
import queue
import threading

LINE_REQ_DIR_OUT, LINE_REQ_EV_FALLING_EDGE, LINE_REQ_EV_RISING_EDGE, LINE_REQ_EV_BOTH_EDGES = 3, 4, 5, 6
LINE_REQ_FLAG_ACTIVE_LOW, LINE_REQ_FLAG_BIAS_PULL_DOWN, LINE_REQ_FLAG_BIAS_PULL_UP = 4, 16, 32


class LineEvent:
    """An edge."""

    RISING_EDGE, FALLING_EDGE = 1, 2

    def __init__(self, kind: int) -> None:
        self.type = kind


class Wires:
    """What is behind all chips: values by line, who waits for edges, what was asked of each line, and whether the chip is there."""

    def __init__(self) -> None:
        self.lock = threading.Lock()
        self.values: dict[int, int] = {}
        self.bulks: list["LineBulk"] = []
        self.asked: dict[int, tuple[int, int]] = {}
        self.history: list[tuple[int, int]] = []
        self.is_there = True

    def set(self, offset: int, value: int) -> None:
        """Moves a line from outside: who waits for this edge gets it."""
        with self.lock:
            self.values[offset] = value
            for bulk in self.bulks:
                if offset in bulk.offsets and bulk.kind in (LINE_REQ_EV_BOTH_EDGES, LINE_REQ_EV_RISING_EDGE if value else LINE_REQ_EV_FALLING_EDGE):
                    bulk.edges.put((offset, value))

    def break_down(self) -> None:
        """The chip goes."""
        self.is_there = False
        for bulk in self.bulks:
            bulk.edges.put(None)


wires = Wires()


class Line:
    """A line with an edge to read."""

    def __init__(self, at: int, value: int) -> None:
        self.at, self.value = at, value

    def offset(self) -> int:
        """Its number in the chip."""
        return self.at

    def event_read(self) -> LineEvent:
        """Its edge."""
        return LineEvent(LineEvent.RISING_EDGE if self.value else LineEvent.FALLING_EDGE)


class LineBulk:
    """Lines that are opened together."""

    def __init__(self, offsets: list[int]) -> None:
        self.offsets, self.kind, self.edges = offsets, 0, queue.Queue()

    def request(self, consumer: str, type: int, flags: int = 0, default_vals: list[int] | None = None) -> None:  # noqa: A002  (as gpiod names it)
        """Opens them."""
        self.kind = type
        with wires.lock:
            for it in self.offsets:
                wires.asked[it] = (type, flags)
        wires.bulks.append(self)
        if default_vals is not None:
            self.set_values(default_vals)

    def get_values(self) -> list[int]:
        """Their values."""
        with wires.lock:
            return [wires.values.get(it, 0) for it in self.offsets]

    def set_values(self, values: list[int]) -> None:
        """Sets them."""
        if not wires.is_there:
            raise OSError(19, "No such device")
        with wires.lock:
            for offset, value in zip(self.offsets, values):
                wires.values[offset] = value
                wires.history.append((offset, value))

    def event_wait(self, sec: int) -> list[Line] | None:
        """The lines with an edge, after so many seconds at most."""
        try:
            found = self.edges.get(timeout=sec)
        except queue.Empty:
            return None
        if found is None:
            raise OSError(19, "No such device")
        return [Line(*found)]


class Chip:
    """A chip."""

    def __init__(self, name: str) -> None:
        if not wires.is_there:
            raise OSError(2, "No such file or directory")
        self.name = name

    def __enter__(self) -> "Chip":
        return self

    def __exit__(self, *_: object) -> None:
        self.close()

    def get_lines(self, offsets: list[int]) -> LineBulk:
        """Lines of it."""
        return LineBulk(offsets)

    def close(self) -> None:
        """Gives its lines back."""
        wires.bulks.clear()
