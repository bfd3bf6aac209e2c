"""What the gateway does with each datagram that comes, and what it counts. It knows no sockets: `running` has them."""
import collections
from collections.abc import Callable, Iterator
from dataclasses import dataclass, field

from fbrio.datagrams import Message, NoMessage, Stamp, decoded, encoded
from fbrio.values import Values, types_text
from fbrio.words import Address
from fbrseal.keys import BadKeys
from fbrseal.sealer import Dropped, Sealer

from . import encoding
from .checking import Plan
from .encoding import Unfit
from .lines import DeviceLine, Route, address_text
from .stamps import BootError, Stamps

STRANGER, NO_MESSAGE, NOT_SENT, NOT_SEALED = "from a stranger", "no message", "could not be sent", "could not be sealed"


@dataclass
class Counts:
    """Datagrams that came, those that went on, and those that were dropped, by the reason. `elsewhere` are those of channels that the table does not have."""

    came: int = 0
    went: int = 0
    elsewhere: int = 0
    dropped: collections.Counter = field(default_factory=collections.Counter)

    @property
    def dropped_text(self) -> str:
        """As `3 dropped (2 REAL, 1 wrong length)`."""
        reasons = ", ".join(f"{count} {reason}" for reason, count in sorted(self.dropped.items()))
        return f"{self.dropped.total()} dropped" + (f" ({reasons})" if reasons else "")


def unlike(message: Message, route: Route) -> tuple[str, str]:
    """Why a message is none of the channel of a route, as a reason and in words; both empty where it is one."""
    if message.format != route.format:
        return "wrong format", f"a message of format {message.format} instead of {route.format}"
    if len(message.types) != len(route.line.types):
        return "wrong number of values", f"{len(message.types)} values instead of {len(route.line.types)}"
    if message.types != route.line.types:
        return "wrong type", f"{types_text(message.types)} instead of {types_text(route.line.types)}"
    return "", ""


class Gateway:
    """The routes of a plan. `tell` tells people, `to_device` and `to_group` send and answer whether the system took it, `stamps` are there if a channel of
    format 2 goes to devices, and `sealer` if what devices send and get is sealed."""

    def __init__(
        self,
        plan: Plan,
        stamps: Stamps | None,
        tell: Callable[[str], None],
        to_device: Callable[[DeviceLine, bytes], bool],
        to_group: Callable[[Address, bytes], bool],
        sealer: Sealer | None = None,
    ) -> None:
        self.sealer = sealer
        self.plan, self.stamps, self.tell, self.to_device, self.to_group = plan, stamps, tell, to_device, to_group
        self.published = {it.line.number: it for it in plan.routes if it.line.is_published}
        self.at_address = {it.address: it for it in plan.table.devices}
        self.of_route = {it: Counts() for it in plan.routes}
        self.of_device = {it: Counts() for it in plan.table.devices}
        self.of_others = Counts()
        self.latest: dict[int, Stamp] = {}

    def drop(self, counts: Counts, reason: str, where: str, says: str) -> None:
        """Counts a datagram that goes nowhere, and tells the first one of a reason."""
        counts.dropped[reason] += 1
        if counts.dropped[reason] == 1:
            self.tell(f"{where}: {says}; dropped, and further ones are only counted ({reason})")

    # From devices to FORTE.

    def hear_device(self, datagram: bytes, sender: Address) -> None:
        """A datagram has come to the gateway's own address."""
        device = self.at_address.get(sender)
        where = address_text(sender)
        if device is None:
            self.of_others.came += 1
            self.drop(self.of_others, STRANGER, where, "no `device` line names this address")
            return
        counts = self.of_device[device]
        counts.came += 1
        try:
            message = decoded(self.sealer.opened(datagram) if self.sealer else datagram)
        except Dropped as why:
            self.drop(counts, str(why), f"{device.name} at {where}", f"sent what does not open{f' ({why.__cause__})' if why.__cause__ else ''}")
            return
        except NoMessage as why:
            self.drop(counts, NO_MESSAGE, f"{device.name} at {where}", f"sent {why}")
            return
        route = self.published.get(message.channel)
        if route is None:
            counts.elsewhere += 1
            return
        self.of_route[route].came += 1
        self.publish(route, device, message)

    def publish(self, route: Route, device: DeviceLine, message: Message) -> None:
        """A message of a channel that goes to a group."""
        counts, where = self.of_route[route], route.line.way
        reason, says = unlike(message, route)
        if device not in route.devices:
            self.drop(counts, "from another device", where, f"{device.name} sent it, and has no PUBLISH of this channel in the text")
        elif reason:
            self.drop(counts, reason, where, f"{device.name} sent {says}")
        elif self.is_stale(message):
            self.drop(counts, "repeated or late", where, f"{device.name} sent {message.stamp}, which is not later than {self.latest[message.channel]}")
        else:
            self.send_to_group(route, message.values)

    def is_stale(self, message: Message) -> bool:
        """Whether a message of format 2 is not later than the last one of its channel; one that is later is the last one from now on."""
        if message.stamp is None:
            return False
        last = self.latest.get(message.channel)
        if last is not None and message.stamp <= last:
            return True
        self.latest[message.channel] = message.stamp
        return False

    def send_to_group(self, route: Route, values: Values) -> None:
        """Publishes values."""
        counts, line = self.of_route[route], route.line
        try:
            datagram = encoding.encode(line.types, values, line.unit, line.has_long_null)
        except Unfit as why:
            self.drop(counts, why.reason, line.way, str(why))
            return
        if self.to_group(line.group, datagram):
            counts.went += 1
        else:
            counts.dropped[NOT_SENT] += 1

    # From FORTE to devices.

    def hear_group(self, route: Route, datagram: bytes, sender: Address) -> None:
        """A datagram has come to a group."""
        counts, where, line = self.of_route[route], route.line.way, route.line
        counts.came += 1
        senders = self.plan.table.senders
        if senders and sender[0] not in senders:
            self.drop(counts, STRANGER, where, f"no `from` line names {sender[0]}")
            return
        try:
            values = encoding.decode(line.types, datagram, line.unit)
        except Unfit as why:
            self.drop(counts, why.reason, where, f"{address_text(sender)} sent {why}")
            return
        self.send_to_devices(route, values)

    def send_to_devices(self, route: Route, values: Values) -> None:
        """Sends values to each device with a SUBSCRIBE of the channel. What was not taken for each of them is dropped, as a PUBLISH of `serve` counts it."""
        counts, line = self.of_route[route], route.line
        try:
            stamp = self.stamps.next(line.number) if route.format == 2 else None
        except BootError as why:
            self.drop(counts, "no stamp", line.way, str(why))
            return
        datagram = encoded(Message(line.number, line.types, values, stamp))
        try:
            datagram = self.sealer.seal(datagram) if self.sealer else datagram
        except BadKeys as why:
            self.drop(counts, NOT_SEALED, line.way, str(why))
            return
        is_taken = True
        for it in route.devices:
            if self.to_device(it, datagram):
                self.of_device[it].went += 1
            else:
                is_taken = False
        if is_taken:
            counts.went += 1
        else:
            counts.dropped[NOT_SENT] += 1

    def sums(self) -> Iterator[str]:
        """What came, went and was dropped so far: a line for each channel, for each device, and for what came from elsewhere if something did."""
        for route, counts in self.of_route.items():
            yield f"{route.line.way}: {counts.came} came, {counts.went} went, {counts.dropped_text}"
        for device, counts in self.of_device.items():
            says = f"{device.name} at {address_text(device.address)}: {counts.came} came, {counts.went} went, {counts.dropped_text}"
            yield says + (f", {counts.elsewhere} of channels that are not in the table" if counts.elsewhere else "")
        if self.of_others.came:
            yield f"other addresses: {self.of_others.came} came, {self.of_others.dropped_text}"
