"""The sockets of the gateway. A socket that fails is opened again after waits that grow; the fault is told once, and never ends the gateway."""
import asyncio
import errno
import socket
import struct
from collections.abc import Callable

from fbrio.faults import Faults
from fbrio.waits import Waits
from fbrio.words import Address

FIRST_WAIT, LONGEST_WAIT = 0.1, 5.0
LONGEST_DATAGRAM = 65536
AT_ONCE = 64
PROBE = 1.0
# Of Linux, and without names in Python: a socket gets the groups alone that it has joined itself; and it tells how many datagrams found no room in it so far.
IP_MULTICAST_ALL, SO_RXQ_OVFL = 49, 40
Heard = Callable[[bytes, Address], None]


class Link:
    """A socket that is opened again when it has failed. `make` opens it, and `heard` gets its datagrams; without it the socket only sends. Faults are told of
    its `name`. `lost` are the datagrams that the system dropped since they were not read in time, as told with the last one that came."""

    def __init__(self, name: str, make: Callable[[], socket.socket], heard: Heard | None, faults: Faults) -> None:
        self.name, self.make, self.heard, self.faults = name, make, heard, faults
        self.loop = asyncio.get_running_loop()
        self.waits = Waits(FIRST_WAIT, LONGEST_WAIT)
        self.socket: socket.socket | None = None
        self.timer: asyncio.TimerHandle | None = None
        self.lost = self.lost_before = 0

    def open(self) -> None:
        """Opens the socket, or tries again later."""
        self.timer = None
        try:
            self.socket = self.make()
        except OSError as why:
            self.fail(why)
            return
        self.socket.setblocking(False)
        if self.heard is not None:
            self.socket.setsockopt(socket.SOL_SOCKET, SO_RXQ_OVFL, 1)
            self.lost_before = self.lost
            self.waits.reset()
            self.faults.works(self.name)
            self.loop.add_reader(self.socket, self.read)

    def fail(self, why: OSError) -> None:
        """Something has failed: the socket is opened again after a wait."""
        self.shut()
        self.faults.failed(self.name, why.strerror or str(why))
        if self.timer is None:
            self.timer = self.loop.call_later(self.waits.next(), self.open)

    def read(self) -> None:
        """Hands on what has come, 64 datagrams at a time, so that a flood leaves time for the rest."""
        for _ in range(AT_ONCE):
            if self.socket is None:
                return
            try:
                datagram, told, _, sender = self.socket.recvmsg(LONGEST_DATAGRAM, socket.CMSG_SPACE(4))
            except (BlockingIOError, InterruptedError):
                return
            except OSError as why:
                self.fail(why)
                return
            for _, kind, count in told:
                if kind == SO_RXQ_OVFL:
                    self.lost = self.lost_before + struct.unpack("=I", count)[0]
            self.heard(datagram, (sender[0], sender[1]))

    def shut(self) -> None:
        """Closes the socket."""
        if self.socket is not None:
            self.loop.remove_reader(self.socket)
            self.socket.close()
            self.socket = None

    def close(self) -> None:
        """Closes it for good."""
        if self.timer is not None:
            self.timer.cancel()
        self.shut()


class DevicesLink(Link):
    """The gateway's own address: datagrams of devices come to it, and those for devices come from it."""

    def __init__(self, bind: Address, heard: Heard, faults: Faults) -> None:
        super().__init__(f"bind {bind[0]}:{bind[1]}" if ":" not in bind[0] else f"bind [{bind[0]}]:{bind[1]}", lambda: bound_to(bind), heard, faults)

    def send(self, way: str, address: Address, datagram: bytes) -> bool:
        """Sends a datagram; whether the system took it. A fault is told of the `way`, and the next datagram is the next try."""
        if self.socket is None:
            return False
        try:
            self.socket.sendto(datagram, address)
        except OSError as why:
            self.faults.failed(way, why.strerror or str(why))
            return False
        self.faults.works(way)
        return True


class PublishLink(Link):
    """What goes to groups."""

    def __init__(self, interface: str, faults: Faults) -> None:
        super().__init__(f"multicast from {interface or 'this machine'}", lambda: sending_from(interface), None, faults)

    def send(self, group: Address, datagram: bytes) -> bool:
        """Sends a datagram; whether the system took it. After a fault the socket is opened again, since its interface may be another one by then."""
        if self.socket is None:
            return False
        try:
            self.socket.sendto(datagram, group)
        except (BlockingIOError, InterruptedError):
            return False
        except OSError as why:
            self.fail(why)
            return False
        self.waits.reset()
        self.faults.works(self.name)
        return True


class SubscribeLink(Link):
    """A group that is heard. Each second it asks to join the group again: the system says that it has joined already, as long as the interface is the same."""

    def __init__(self, group: Address, interface: str, heard: Heard, faults: Faults) -> None:
        super().__init__(f"group {group[0]}:{group[1]}", lambda: joined(group, interface), heard, faults)
        self.membership = membership_of(group, interface)
        self.watch: asyncio.TimerHandle | None = None

    def open(self) -> None:
        """Joins the group, and goes on to look after it."""
        super().open()
        if self.watch is None:
            self.watch = self.loop.call_later(PROBE, self.probe)

    def probe(self) -> None:
        """Joins the group once more. Where this is not refused since it has joined already, its interface has gone, and maybe come back."""
        self.watch = self.loop.call_later(PROBE, self.probe)
        if self.socket is None:
            return
        try:
            self.socket.setsockopt(socket.IPPROTO_IP, socket.IP_ADD_MEMBERSHIP, self.membership)
        except OSError as why:
            if why.errno != errno.EADDRINUSE:
                self.fail(why)

    def close(self) -> None:
        """Leaves the group for good."""
        if self.watch is not None:
            self.watch.cancel()
        super().close()


def made(family: int, prepare: Callable[[socket.socket], None]) -> socket.socket:
    """A socket for datagrams, as `prepare` has made it ready; OSError where that fails."""
    link = socket.socket(family, socket.SOCK_DGRAM)
    try:
        prepare(link)
    except OSError:
        link.close()
        raise
    return link


def bound_to(bind: Address) -> socket.socket:
    """A socket at an address."""
    return made(socket.AF_INET6 if ":" in bind[0] else socket.AF_INET, lambda link: link.bind(bind))


def sending_from(interface: str) -> socket.socket:
    """A socket whose multicasts leave by the interface with this address, or as the system has it. They are not routed further."""

    def prepare(link: socket.socket) -> None:
        link.setsockopt(socket.IPPROTO_IP, socket.IP_MULTICAST_TTL, 1)
        if interface:
            link.setsockopt(socket.IPPROTO_IP, socket.IP_MULTICAST_IF, socket.inet_aton(interface))

    return made(socket.AF_INET, prepare)


def membership_of(group: Address, interface: str) -> bytes:
    """The group and the interface as the system takes them."""
    return struct.pack("=4s4s", socket.inet_aton(group[0]), socket.inet_aton(interface or "0.0.0.0"))


def joined(group: Address, interface: str) -> socket.socket:
    """A socket that gets what comes to a group. Others on this machine may hear the group too."""

    def prepare(link: socket.socket) -> None:
        link.setsockopt(socket.SOL_SOCKET, socket.SO_REUSEADDR, 1)
        link.setsockopt(socket.IPPROTO_IP, IP_MULTICAST_ALL, 0)
        link.bind(group)
        link.setsockopt(socket.IPPROTO_IP, socket.IP_ADD_MEMBERSHIP, membership_of(group, interface))

    return made(socket.AF_INET, prepare)
