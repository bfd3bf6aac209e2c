"""One end of sealed datagrams, with the files that it has."""
import collections
from dataclasses import dataclass, field

from .keys import BadKeys, Keys, read_keys
from .state import LAST, StateFile
from .tags import is_tagged, said_in, seal

WINDOW = 64


class Dropped(Exception):
    """A datagram is dropped; its text is the reason, in the words by which `fbr serve` counts it."""


@dataclass
class Window:
    """Which counters of a peer were taken: none below `low`, and the others by name."""

    low: int
    upto: int
    highest: int = -1
    taken: set[int] = field(default_factory=set)

    def is_fresh(self, counter: int) -> bool:
        """Whether a counter was not taken, and is not 64 or more below the highest one."""
        return counter >= self.low and counter not in self.taken and counter > self.highest - WINDOW

    def take(self, counter: int) -> None:
        """Takes a counter."""
        self.highest = max(self.highest, counter)
        self.taken = {it for it in self.taken | {counter} if it > self.highest - WINDOW}


class Sealer:
    """Seals what this device sends, and opens what its peers sealed, each datagram once. `counts` are the datagrams that were dropped, by the reason."""

    def __init__(self, keys: Keys, state: StateFile) -> None:
        self.keys, self.state = keys, state
        self.windows = {(number, key): Window(state.upto(number, key), state.upto(number, key)) for number, key in keys.others}
        self.counts: collections.Counter[str] = collections.Counter()

    @classmethod
    def of_files(cls, keys: str, state: str) -> "Sealer":
        """That of a file of keys and a state file; BadKeys where one of them cannot be used."""
        return cls(read_keys(keys), StateFile(state))

    def seal(self, datagram: bytes) -> bytes:
        """A datagram, sealed with the next counter; BadKeys where there is none."""
        return seal(self.keys.own_key, self.keys.own, self.state.take(), datagram)

    def open(self, sealed: bytes) -> bytes | None:
        """The datagram that a peer sealed; None where bytes are dropped, which is counted."""
        try:
            return self.opened(sealed)
        except Dropped as why:
            self.counts[str(why)] += 1
            return None

    def opened(self, sealed: bytes) -> bytes:
        """The datagram that a peer sealed, which is taken once; Dropped where bytes are dropped."""
        said = said_in(sealed)
        if said is None:
            raise Dropped("not sealed")
        number, counter, datagram = said
        known = [key for sender, key in self.keys.others if sender == number]
        key = next((it for it in known if is_tagged(it, sealed)), None)
        if key is None:
            raise Dropped("under another key" if known else "of an unknown number")
        window = self.windows[number, key]
        if counter >= window.upto:
            self.allow(window, number, key, counter)
        if not window.is_fresh(counter):
            raise Dropped("taken before or too old")
        window.take(counter)
        return datagram

    def allow(self, window: Window, number: int, key: bytes, counter: int) -> None:
        """Writes down that a peer may use a counter and those behind it; Dropped where that cannot be."""
        upto = min(counter + WINDOW, LAST)
        if counter >= upto:
            raise Dropped("not written down")
        try:
            self.state.allow(number, key, upto)
        except BadKeys as why:
            raise Dropped("not written down") from why
        window.upto = upto
