#!/usr/bin/env python3
"""A stand-in for a FORTE: sends and hears datagrams as `docs/FORTE.md` describes them. It was made from that page alone, and shares no code with the gateway.

    forte_peer.py listen GROUP:PORT [SECONDS] [--interface ADDRESS]
    forte_peer.py send GROUP:PORT [TYPE=VALUE ..] [--interface ADDRESS]

`listen` prints each datagram: from whom it came, its bytes, and its values. Without SECONDS it listens until it is stopped. `send` sends one datagram, a BOOL
as 0 or 1 and a TIME as a number of the unit of that FORTE."""
import select
import socket
import sys
import time

# The first table of the page: of each type its tag, the number of bytes, and whether the value has a sign.
TABLE = """
SINT 42 1 signed
INT 43 2 signed
DINT 44 4 signed
LINT 45 8 signed
USINT 46 1 unsigned
UINT 47 2 unsigned
UDINT 48 4 unsigned
TIME 4C 8 signed
"""
ROWS = [(name, int(tag, 16), int(size), sign == "signed") for name, tag, size, sign in (line.split() for line in TABLE.split("\n") if line)]


def spelled(values):
    """The datagram of pairs of a type and a number."""
    if not values:
        return b"\x05"
    out = bytearray()
    for kind, number in values:
        if kind == "BOOL":
            out.append(0x41 if number else 0x40)
            continue
        for name, tag, size, has_sign in ROWS:
            if name == kind:
                out.append(tag)
                out += number.to_bytes(size, "big", signed=has_sign)
                break
        else:
            raise ValueError(f"{kind} is not on the page")
    return bytes(out)


def understood(datagram):
    """The pairs of a type and a number in a datagram; ValueError where it has bytes that the page does not have."""
    if datagram in (b"\x05", b"\x05\x00"):
        return []
    rest, values = bytearray(datagram), []
    while rest:
        tag = rest.pop(0)
        if tag in (0x40, 0x41):
            values.append(("BOOL", tag - 0x40))
            continue
        row = [it for it in ROWS if it[1] == tag]
        if not row or len(rest) < row[0][2]:
            raise ValueError(f"no value of the page begins with {tag:02X} here")
        name, _, size, has_sign = row[0]
        values.append((name, int.from_bytes(rest[:size], "big", signed=has_sign)))
        del rest[:size]
    return values


class Peer:
    """The network of a FORTE: its groups are those of one interface."""

    def __init__(self, interface="0.0.0.0"):
        self.interface = socket.inet_aton(interface)
        self.sender = socket.socket(socket.AF_INET, socket.SOCK_DGRAM)
        if interface != "0.0.0.0":
            self.sender.setsockopt(socket.IPPROTO_IP, socket.IP_MULTICAST_IF, self.interface)
        self.groups = {}

    def join(self, group, port):
        """Hears a group from now on, as a SUBSCRIBE does."""
        link = socket.socket(socket.AF_INET, socket.SOCK_DGRAM)
        link.setsockopt(socket.SOL_SOCKET, socket.SO_REUSEADDR, 1)
        link.bind((group, port))
        link.setsockopt(socket.IPPROTO_IP, socket.IP_ADD_MEMBERSHIP, socket.inet_aton(group) + self.interface)
        self.groups[group, port] = link

    def send(self, group, port, datagram):
        """Sends bytes to a group, as a PUBLISH does."""
        self.sender.sendto(datagram, (group, port))

    def heard(self, patience):
        """What has come to the groups within so many seconds: the group, the bytes, and the sender; None where nothing has."""
        ready, _, _ = select.select(list(self.groups.values()), [], [], patience)
        for at, link in self.groups.items():
            if link in ready:
                datagram, sender = link.recvfrom(65536)
                return at, datagram, sender
        return None

    def close(self):
        """Leaves the network."""
        for link in (self.sender, *self.groups.values()):
            link.close()


def listen(peer, at, seconds):
    """Prints what comes to a group, for so many seconds, or until it is stopped."""
    peer.join(*at)
    end = None if seconds is None else time.monotonic() + seconds
    while end is None or time.monotonic() < end:
        found = peer.heard(1.0 if end is None else max(0.0, end - time.monotonic()))
        if found is None:
            continue
        _, datagram, sender = found
        try:
            says = " ".join(f"{kind}={number}" for kind, number in understood(datagram)) or "no values"
        except ValueError as why:
            says = f"not understood: {why}"
        print(f"{sender[0]}:{sender[1]} {datagram.hex(' ').upper()} {says}", flush=True)


def main(words):
    """Does what the words ask for; the status."""
    interface = "0.0.0.0"
    if "--interface" in words:
        at = words.index("--interface")
        interface = words[at + 1]
        del words[at : at + 2]
    if len(words) < 2 or words[0] not in ("listen", "send"):
        print(__doc__, file=sys.stderr)
        return 2
    group, _, port = words[1].rpartition(":")
    peer = Peer(interface)
    if words[0] == "send":
        peer.send(group, int(port), spelled([(kind, int(number)) for kind, number in (it.split("=") for it in words[2:])]))
    else:
        listen(peer, (group, int(port)), float(words[2]) if words[2:] else None)
    peer.close()
    return 0


if __name__ == "__main__":
    try:
        sys.exit(main(sys.argv[1:]))
    except KeyboardInterrupt:
        sys.exit(0)
