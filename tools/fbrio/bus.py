"""What each bus is to the companion, and what the companion is to each bus.

A bus works in threads of its own: the loop of the companion calls `start`, `put` and `finish`, which wait for nothing, and the bus calls its `Ear` from its
threads."""
from collections.abc import Callable
from typing import Protocol

from .lines import InputLine, OutputLine
from .values import Values

FIRST_WAIT, LONGEST_WAIT = 0.1, 30.0


class Bus(Protocol):
    """A connection with some lines of the table."""

    def start(self) -> None:
        """Connects, and takes values from then on."""

    def put(self, line: OutputLine, values: Values) -> None:
        """These are the values that the OUTPUT is to have from now on; those before it that are not put yet are left out."""

    def finish(self) -> None:
        """Puts what is still to be put, and ends; it does not wait for that."""

    def join(self, patience: float) -> None:
        """Waits until it has ended, so many seconds at most."""


class Ear(Protocol):
    """What a bus tells, from any thread. A `name` is what has failed: the connection, or a line of the table."""

    def came(self, line: InputLine, values: Values) -> None:
        """These values are for this INPUT."""

    def misfit(self, line: InputLine, why: str) -> None:
        """Something came for this INPUT that is no value of its types."""

    def was_put(self, line: OutputLine) -> None:
        """The bus has taken the values of this OUTPUT."""

    def failed(self, name: str, why: str) -> None:
        """A try has failed, and another one follows."""

    def works(self, name: str) -> None:
        """A try went well."""


MakeBus = Callable[[Ear], Bus]
