"""What a table of the gateway says, and what it comes to beside a text."""
from dataclasses import dataclass, field

from fbrio.values import Types, types_text
from fbrio.words import Address


def address_text(address: Address) -> str:
    """An address as people write it."""
    host, port = address
    return f"[{host}]:{port}" if ":" in host else f"{host}:{port}"


@dataclass(frozen=True)
class ChannelLine:
    """A channel and its group. It is published to FORTE, or else subscribed from there. `unit` is that of TIME on the side of FORTE, empty without a TIME."""

    line: int
    number: int
    types: Types
    is_published: bool
    group: Address
    unit: str = ""
    has_long_null: bool = False

    @property
    def name(self) -> str:
        """As `CHANNEL 7`."""
        return f"CHANNEL {self.number}"

    @property
    def way(self) -> str:
        """As `CHANNEL 7 to 239.192.0.2:61499`."""
        return f"{self.name} {'to' if self.is_published else 'from'} {address_text(self.group)}"


@dataclass(frozen=True)
class DeviceLine:
    """A device of the text, by its name in capitals, and where `fbr serve` binds it."""

    line: int
    name: str
    address: Address


@dataclass
class Table:
    """A whole table. `bind` is the gateway's address among the devices, `interface` the one among the FORTEs, `senders` are the FORTEs that are heard, all if
    there are none."""

    name: str
    channels: list[ChannelLine] = field(default_factory=list)
    devices: list[DeviceLine] = field(default_factory=list)
    bind: Address | None = None
    interface: str = ""
    senders: list[str] = field(default_factory=list)


@dataclass(frozen=True)
class Route:
    """A line of a channel beside the text: the format of the channel, and the devices with an end of it that the table names."""

    line: ChannelLine
    format: int
    devices: tuple[DeviceLine, ...]

    @property
    def described(self) -> str:
        """The line as it was understood."""
        names = ", ".join(it.name for it in self.devices)
        group = address_text(self.line.group)
        ends = f"from {names} to {group}" if self.line.is_published else f"from {group} to {names}"
        extra = f", TIME in {self.line.unit}" if self.line.unit else ""
        extra += ", the null with its length" if self.line.has_long_null else ""
        return f"{self.line.name} {types_text(self.line.types)} of format {self.format} {ends}{extra}"
