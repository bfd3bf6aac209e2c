"""Reads the table of the gateway: plain lines of words, with comments from a word that begins with `#` to the end of the line."""
import ipaddress

from fbrio.lines import Fault
from fbrio.table import BadLine, LinesReader, Options, Words, types_of
from fbrio.values import Types
from fbrio.words import Address

from .encoding import UNITS
from .lines import ChannelLine, DeviceLine, Table

WAYS = ("publish", "subscribe")
FORM = "CHANNEL N TYPES publish|subscribe GROUP:PORT [milliseconds|microseconds|nanoseconds] [long-null]"


def is_port(word: str) -> bool:
    """Whether a word is a port."""
    return word.isascii() and word.isdigit() and 1 <= int(word) <= 65535


def endpoint_of(word: str, what: str) -> Address:
    """PORT of 127.0.0.1, ADDRESS:PORT or [ADDRESS]:PORT; else BadLine."""
    host, _, port = word.rpartition(":")
    try:
        found = ipaddress.ip_address(host.removeprefix("[").removesuffix("]") if host else "127.0.0.1")
        if not is_port(port) or (":" in host) != host.startswith("[") or found.is_multicast:
            raise ValueError
        return str(found), int(port)
    except ValueError as why:
        raise BadLine(f"{what} must be PORT, ADDRESS:PORT or [ADDRESS]:PORT, not '{word}'") from why


def group_of(word: str) -> Address:
    """The group and the port of a multicast; else BadLine."""
    host, _, port = word.rpartition(":")
    try:
        group = ipaddress.IPv4Address(host)
        if not group.is_multicast or not is_port(port):
            raise ValueError
        return str(group), int(port)
    except ValueError as why:
        raise BadLine(f"the group must be ADDRESS:PORT with an address from 224.0.0.0 to 239.255.255.255, not '{word}'") from why


def ipv4_of(word: str, what: str) -> str:
    """An address of IPv4 that one machine has; else BadLine."""
    try:
        found = ipaddress.IPv4Address(word)
        if found.is_multicast or found.is_unspecified:
            raise ValueError
        return str(found)
    except ValueError as why:
        raise BadLine(f"{what} must be an address of IPv4, as 10.0.0.5, not '{word}'") from why


def read_types(words: Words) -> Types:
    """The types before `publish` or `subscribe`, with commas or spaces between them."""
    found = [words.next("a type")]
    while words.left and words.left[0] not in WAYS:
        found.append(words.next("a type"))
    return types_of(",".join(found))


def read_channel(line: int, words: Words) -> ChannelLine:
    """The rest of a line that begins with CHANNEL."""
    number = words.number("the number of a channel", 0, 65535)
    types = read_types(words)
    way = words.next("publish or subscribe")
    group = group_of(words.next("GROUP:PORT"))
    options = Options(words, (*UNITS, "long-null"), (), FORM)
    units = [it for it in UNITS if it in options]
    has_time = any(it.name == "TIME" for it in types)
    if len(units) > 1:
        raise BadLine(f"`{units[0]}` and `{units[1]}` exclude each other")
    if units and not has_time:
        raise BadLine(f"`{units[0]}` is for a TIME, and there is none")
    if has_time and not units:
        raise BadLine(f"the unit of TIME is missing: {', '.join(UNITS)}")
    if "long-null" in options and (types or way == "subscribe"):
        raise BadLine("`long-null` is for an EVENT that is published")
    return ChannelLine(line, number, types, way == "publish", group, "".join(units), "long-null" in options)


def unreachable(own: str, other: str) -> str:
    """Why a device at an address cannot be reached from the gateway's; empty where it can."""
    here, there = ipaddress.ip_address(own), ipaddress.ip_address(other)
    if there.is_unspecified:
        return f"{other} is the address of no one machine: give the one from which the device sends"
    if here.version != there.version:
        return "`bind` and the address of the device are of different families (IPv4 and IPv6)"
    if here.is_loopback and not there.is_loopback:
        return f"the device is on another machine, which `bind` with {own} does not reach"
    return ""


class TableReader(LinesReader):
    """Reads a table of the gateway."""

    def __init__(self, name: str) -> None:
        super().__init__()
        self.table = Table(name)
        self.takes = {"CHANNEL": self.channel, "device": self.device, "bind": self.bind, "interface": self.interface, "from": self.sender}

    def take(self, line: int, words: Words) -> None:
        """Takes a line that is not blank."""
        first = words.next("a word")
        if first not in self.takes:
            raise BadLine(f"a line must begin with {', '.join(self.takes)}, not '{first}'")
        self.takes[first](line, words)
        if words.left:
            raise BadLine(f"'{words.left[0]}' is unexpected here; the line ends before it")

    def channel(self, line: int, words: Words) -> None:
        """CHANNEL N TYPES publish|subscribe GROUP:PORT .."""
        found = read_channel(line, words)
        self.once((found.is_published, found.number), line, f"{found.name} is already {'published' if found.is_published else 'subscribed'}")
        self.once(found.group, line, f"{found.group[0]}:{found.group[1]} is already given")
        self.table.channels.append(found)

    def device(self, line: int, words: Words) -> None:
        """device NAME ADDRESS"""
        name = words.next("the name of a device").upper()
        address = endpoint_of(words.next("the address of the device"), "the address of the device")
        self.once(("device", name), line, f"{name} is already given")
        self.once(("address", address), line, "this address is already given")
        self.table.devices.append(DeviceLine(line, name, address))

    def bind(self, line: int, words: Words) -> None:
        """bind ADDRESS"""
        self.once("bind", line, "`bind` is already given")
        self.table.bind = endpoint_of(words.next("the address of the gateway"), "the address of the gateway")
        self.once(("address", self.table.bind), line, "this address is already given")

    def interface(self, line: int, words: Words) -> None:
        """interface ADDRESS"""
        self.once("interface", line, "the interface is already given")
        self.table.interface = ipv4_of(words.next("the address of the interface"), "the interface")

    def sender(self, line: int, words: Words) -> None:
        """from ADDRESS"""
        found = ipv4_of(words.next("the address of a FORTE"), "the address of a FORTE")
        self.once(("from", found), line, f"{found} is already given")
        self.table.senders.append(found)

    def finish(self) -> None:
        """What only the whole table can tell."""
        if self.table.bind is None:
            self.faults.append(Fault(0, "the address of the gateway is missing: add a line `bind ADDRESS:PORT`"))
            return
        self.faults += [Fault(it.line, says) for it in self.table.devices if (says := unreachable(self.table.bind[0], it.address[0]))]
        if not self.table.channels:
            self.faults.append(Fault(0, f"there is no channel: add a line `{FORM}`"))


def read_table(name: str, text: str) -> tuple[Table, list[Fault]]:
    """The table of this text, and all its faults."""
    reader = TableReader(name)
    faults = reader.faults_of(text)
    return reader.table, faults
