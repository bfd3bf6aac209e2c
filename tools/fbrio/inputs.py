"""What waits to be offered to an INPUT, and how it is offered until it is taken.

One offer of an INPUT is under way at a time. `serve --verbose` answers each: `INPUT 1 begins cause 2`, or `INPUT 1 denied 53`. What is denied is offered
again after a wait that grows. An offer without an answer was lost, or denied without a line of its own (`serve` tells ten denials of a number in a second).

If no answer has come after a tenth of a second, a question is sent behind the offer: an offer to an INPUT that the device does not have, which is always
denied. The device takes datagrams and answers them in order, so when the answer to the question is there and that to the offer is not, the offer was not
taken, and is sent again. If the question has no answer either, the offer is sent again once the sums have come twice since, which `serve` tells once a second.
A device that hangs answers nothing and tells no sums, so nothing is sent twice to it. Nothing here is a decision: the device takes or denies."""
import collections
from collections.abc import Callable
from dataclasses import dataclass
from typing import Protocol

from .lines import InputLine
from .values import Values, offer
from .waits import Waits

LEAST_WAIT, MOST_WAIT = 0.01, 1.0
ANSWER_TIME = 0.1
PATIENCE = 2
Later = Callable[[float, Callable[[], None]], "Timer"]


@dataclass
class InputCounts:
    """What came to an INPUT: offers that were sent; those taken and denied, and those without an answer; values that a newer level replaced before they were
    taken, events for which the queue had no room, and values that were none of the type."""

    sent: int = 0
    taken: int = 0
    denied: int = 0
    unanswered: int = 0
    replaced: int = 0
    lost: int = 0
    misfits: int = 0


@dataclass(frozen=True)
class Item:
    """Values that came, each time a new item."""

    serial: int
    values: Values


class Held:
    """A level: the latest item alone."""

    def __init__(self, counts: InputCounts) -> None:
        self.counts, self.item = counts, None

    def add(self, item: Item) -> None:
        """Takes the place of the one before."""
        self.counts.replaced += self.item is not None
        self.item = item

    def first(self) -> Item | None:
        """What is to be offered next."""
        return self.item

    def took(self, item: Item) -> None:
        """This one was taken; a newer one stays."""
        if self.item == item:
            self.item = None
        elif self.item is not None:
            self.counts.replaced -= 1


class Queued:
    """Edges: items in the order in which they came, so many at most; those that find no room are lost."""

    def __init__(self, counts: InputCounts, room: int) -> None:
        self.counts, self.room = counts, room
        self.items: collections.deque[Item] = collections.deque()

    def add(self, item: Item) -> None:
        """Waits behind the others."""
        if len(self.items) < self.room:
            self.items.append(item)
        else:
            self.counts.lost += 1

    def first(self) -> Item | None:
        """What is to be offered next."""
        return self.items[0] if self.items else None

    def took(self, item: Item) -> None:
        """The first one was taken."""
        if self.items and self.items[0] == item:
            self.items.popleft()


class Timer(Protocol):
    """What `later` gives."""

    def cancel(self) -> None:
        """It does not come any more."""


class Input:
    """An INPUT with what waits for it. `send` sends a datagram, `ask` sends the question, and `later(seconds, call)` calls once the time has passed."""

    def __init__(self, line: InputLine, send: Callable[[bytes], None], ask: Callable[["Input"], None], later: Later) -> None:
        self.line, self.send, self.ask, self.later = line, send, ask, later
        self.counts = InputCounts()
        self.waiting = Held(self.counts) if line.queue is None else Queued(self.counts, line.queue)
        self.under_way: Item | None = None
        self.sums_since = 0
        self.timer: Timer | None = None
        self.answer_timer: Timer | None = None
        self.waits = Waits(LEAST_WAIT, MOST_WAIT)
        self.is_open = False
        self.serial = 0

    def open(self) -> None:
        """The device receives from now on."""
        self.is_open = True
        self.go_on()

    def close(self) -> None:
        """Nothing is offered any more."""
        self.is_open = False
        for it in (self.timer, self.answer_timer):
            if it is not None:
                it.cancel()
        self.timer = self.answer_timer = None

    def came(self, values: Values) -> None:
        """The bus brought these values."""
        self.serial += 1
        self.waiting.add(Item(self.serial, values))
        self.go_on()

    def go_on(self) -> None:
        """Offers what waits first, unless an answer or a time is waited for."""
        item = self.waiting.first()
        if not self.is_open or item is None or self.under_way is not None or self.timer is not None:
            return
        self.under_way, self.sums_since = item, 0
        self.counts.sent += 1
        self.send(offer(self.line.number, self.line.types, item.values))
        self.answer_timer = self.later(ANSWER_TIME, self.asks)

    def asks(self) -> None:
        """No answer has come so far."""
        self.answer_timer = None
        self.ask(self)

    def answered(self, is_taken: bool) -> None:
        """The device has answered an offer; one of somebody else if none is under way, and that is nothing to us."""
        item, self.under_way = self.under_way, None
        if item is None:
            return
        if self.answer_timer is not None:
            self.answer_timer.cancel()
            self.answer_timer = None
        if is_taken:
            self.counts.taken += 1
            self.waiting.took(item)
            self.waits.reset()
            self.go_on()
        else:
            self.counts.denied += 1
            self.timer = self.later(self.waits.next(), self.retry)

    def retry(self) -> None:
        """The wait after a denial is over."""
        self.timer = None
        self.go_on()

    def passed(self, sending: int) -> None:
        """The device has answered a question that was sent behind this offer, of those sent so far: if it is still under way, it was not taken."""
        if self.under_way is not None and self.counts.sent == sending:
            self.under_way = None
            self.counts.unanswered += 1
            self.go_on()

    def sums(self) -> None:
        """The device has told its sums: a second has passed, in which it would have answered."""
        if self.under_way is not None:
            self.sums_since += 1
            if self.sums_since >= PATIENCE:
                self.passed(self.counts.sent)
