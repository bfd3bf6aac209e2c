"""Stamps of format 2: a boot, which grows with each start by a file, and sequence numbers of each channel."""
import contextlib
import os

from fbrio.datagrams import Stamp

MOST = 2**32 - 1


class BootError(Exception):
    """No boot can be taken from the file; its text says why."""


def write_whole(name: str, text: str) -> None:
    """Puts a text into a file so that it has the old text or the new one, whatever happens, and is on the disk; OSError where it cannot."""
    beside = f"{name}.new"
    try:
        with open(beside, "w", encoding="ascii") as file:
            file.write(text)
            file.flush()
            os.fsync(file.fileno())
        os.replace(beside, name)
    except OSError:
        with contextlib.suppress(OSError):
            os.unlink(beside)
        raise
    folder = os.open(os.path.dirname(os.path.abspath(name)), os.O_RDONLY)
    try:
        os.fsync(folder)
    finally:
        os.close(folder)


def take_boot(name: str) -> int:
    """The boot in the file. The next one is in the file, and on the disk, when this returns; BootError where that cannot be."""
    try:
        with open(name, "rb") as file:
            text = file.read(64).strip()
        if not (text.isdigit() and int(text) < MOST):
            raise BootError(f"{name}: it has to hold a number below {MOST}")
        write_whole(name, f"{int(text) + 1}\n")
    except OSError as why:
        raise BootError(f"{name}: {why.strerror}") from why
    return int(text)


class Stamps:
    """The stamps that the gateway gives. No stamp is given twice, and each is later than all before it, also those of earlier starts with this file."""

    def __init__(self, file: str) -> None:
        self.file = file
        self.boot = take_boot(file)
        self.last: dict[int, int] = {}

    def next(self, channel: int) -> Stamp:
        """The stamp of the next message of a channel; BootError where the sequence numbers of a boot are used up, and there is no next boot."""
        if self.last.get(channel, 0) == MOST:
            self.boot = take_boot(self.file)
            self.last = {}
        self.last[channel] = self.last.get(channel, 0) + 1
        return self.boot, self.last[channel]
