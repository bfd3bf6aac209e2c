"""The state file: which counters may have been used, written down before they are."""
import os
import re

from .keys import BadKeys
from .tags import tag

STEP = 65_536
LAST = 2**64 - 1
ENTRY = re.compile(r"peer (\d+) ([0-9a-f]{32}) (\d+)")


def mark_of(key: bytes) -> str:
    """What tells a key from others in a state file, and does not give it away."""
    return tag(key, b"fbr-state").hex()


def state_text(own: int, entries: dict[tuple[int, str], int]) -> str:
    """The text of a state: the next own counter, the first counter that was not allowed to each peer under each key, and the tag of all of it."""
    lines = ["fbr-state 1", f"own {own}", *(f"peer {number} {mark} {upto}" for (number, mark), upto in entries.items())]
    body = "".join(f"{line}\n" for line in lines)
    return f"{body}end {tag(bytes(32), body.encode()).hex()}\n"


class StateFile:
    """A state file that is used: it is taken at once, and holds the next state from then on."""

    def __init__(self, path: str) -> None:
        self.path = path
        self.own, self.entries = self.read()
        self.next = self.own
        self.reserve()

    def read(self) -> tuple[int, dict[tuple[int, str], int]]:
        """What the file holds; BadKeys where it is no state, as one that was cut."""
        try:
            with open(self.path, encoding="utf-8", newline="") as file:
                text = file.read()
        except (OSError, UnicodeDecodeError) as why:
            raise BadKeys(f"{self.path}: the state file cannot be read; `fbr key --state FILE` begins one, with the new key that belongs to it") from why
        lines = text.split("\n")
        own = lines[1].removeprefix("own ") if len(lines) > 1 else ""
        found = [ENTRY.fullmatch(line) for line in lines[2:-2]]
        if own.isascii() and own.isdigit() and all(found):
            entries = {(int(it[1]), it[2]): int(it[3]) for it in found}
            if state_text(int(own), entries) == text:
                return int(own), entries
        raise BadKeys(f"{self.path}: the state file is damaged or cut; `fbr key --state FILE`, with another name, begins a new one, with a new key")

    def write(self, own: int, entries: dict[tuple[int, str], int]) -> None:
        """Has a state on the disk, in place of the one before; BadKeys where that cannot be, and then the one before is in force."""
        beside = f"{self.path}.new"
        try:
            with open(beside, "w", encoding="utf-8", newline="") as file:
                file.write(state_text(own, entries))
                file.flush()
                os.fsync(file.fileno())
            os.replace(beside, self.path)
            folder = os.open(os.path.dirname(os.path.abspath(self.path)), os.O_RDONLY)
            try:
                os.fsync(folder)
            finally:
                os.close(folder)
        except OSError as why:
            raise BadKeys(f"{self.path}: the state file cannot be written: {why.strerror}") from why
        self.own, self.entries = own, entries

    def reserve(self) -> None:
        """Writes down the next own counters; BadKeys where none are left, or they cannot be written."""
        if self.own + STEP > LAST:
            raise BadKeys(f"{self.path}: no counters are left")
        self.write(self.own + STEP, self.entries)

    def take(self) -> int:
        """The next own counter, which is written down; BadKeys where it cannot be."""
        if self.next >= self.own:
            self.reserve()
        self.next += 1
        return self.next - 1

    def upto(self, number: int, key: bytes) -> int:
        """The first counter that was not allowed to a peer."""
        return self.entries.get((number, mark_of(key)), 0)

    def allow(self, number: int, key: bytes, upto: int) -> None:
        """Writes down that a peer may use the counters below one; BadKeys where it cannot be."""
        self.write(self.own, {**self.entries, (number, mark_of(key)): max(upto, self.upto(number, key))})
