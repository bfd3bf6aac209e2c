"""Datagrams of channels, as `fbr serve` sends and takes them (docs/NETWORK.md)."""
import struct
from dataclasses import dataclass

from .values import TYPES, Misfit, Types, Values, fields, fitting

MAGIC = b"FB"
OF_CHANNEL, OF_INPUT = 1, 2
MOST_VALUES = 16
OF_CODE = {it.code: it for it in TYPES.values()}
Stamp = tuple[int, int]


class NoMessage(Exception):
    """Bytes that are no message of a channel; its text says why."""


@dataclass(frozen=True)
class Message:
    """A message of a channel. The stamp, a boot and a sequence number, is there in format 2 alone."""

    channel: int
    types: Types
    values: Values
    stamp: Stamp | None = None

    @property
    def format(self) -> int:
        """1 without a stamp, 2 with one."""
        return 1 if self.stamp is None else 2


def encoded(message: Message) -> bytes:
    """The datagram of a message."""
    head = struct.pack(">2sBBH", MAGIC, message.format, OF_CHANNEL, message.channel)
    stamp = b"" if message.stamp is None else struct.pack(">II", *message.stamp)
    return head + stamp + fields(message.types, message.values)


def read_value(datagram: bytes, at: int) -> tuple[int, int]:
    """The code of a type and a value, which begin at a byte; NoMessage where they are none."""
    code, value = struct.unpack_from(">Bq", datagram, at)
    if code not in OF_CODE:
        raise NoMessage(f"{code} is the code of no type")
    try:
        return code, fitting(OF_CODE[code], value)
    except Misfit as why:
        raise NoMessage(str(why)) from why


def decoded(datagram: bytes) -> Message:
    """The message of a datagram; NoMessage where it is none, or is for an INPUT."""
    if len(datagram) < 7 or datagram[:2] != MAGIC:
        raise NoMessage(f"{len(datagram)} bytes that do not begin as a message does")
    version, purpose, channel = struct.unpack_from(">BBH", datagram, 2)
    if version not in (1, 2) or purpose not in (OF_CHANNEL, OF_INPUT):
        raise NoMessage(f"version {version}, purpose {purpose}")
    if purpose == OF_INPUT:
        raise NoMessage(f"a message for an INPUT ({channel}), and not for a channel")
    at = 6 if version == 1 else 14
    if len(datagram) <= at or datagram[at] > MOST_VALUES or len(datagram) != at + 1 + 9 * datagram[at]:
        raise NoMessage(f"{len(datagram)} bytes, which is not the length of the values that it announces")
    found = [read_value(datagram, at + 1 + 9 * number) for number in range(datagram[at])]
    stamp = None if version == 1 else struct.unpack_from(">II", datagram, 6)
    return Message(channel, tuple(OF_CODE[code] for code, _ in found), tuple(value for _, value in found), stamp)
