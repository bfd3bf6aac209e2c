"""Faults of buses: each is told once, when it begins, and once more when it is over."""
from collections.abc import Callable
from dataclasses import dataclass

from .telling import counted


@dataclass
class Trouble:
    """How often something has failed (`faults`), in how many tries, and since when it fails now, in seconds of a clock; None while it works."""

    faults: int = 0
    tries: int = 0
    since: float | None = None
    tries_now: int = 0


class Faults:
    """All faults, by the name of what failed. `tell` tells people, and `now` is a clock in seconds."""

    def __init__(self, tell: Callable[[str], None], now: Callable[[], float]) -> None:
        self.tell, self.now = tell, now
        self.troubles: dict[str, Trouble] = {}

    def failed(self, name: str, why: str) -> None:
        """A try has failed."""
        trouble = self.troubles.setdefault(name, Trouble())
        trouble.tries += 1
        trouble.tries_now += 1
        if trouble.since is None:
            trouble.since = self.now()
            trouble.faults += 1
            trouble.tries_now = 1
            self.tell(f"{name}: {why}; retrying")

    def works(self, name: str) -> None:
        """A try went well."""
        trouble = self.troubles.get(name)
        if trouble is not None and trouble.since is not None:
            seconds = self.now() - trouble.since
            trouble.since = None
            self.tell(f"{name}: works again after {seconds:.1f} s and {counted(trouble.tries_now, 'failed attempt', 'failed attempts')}")
