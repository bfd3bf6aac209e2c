"""Values as the compliance profile of IEC 61499 puts them into datagrams, in ASN.1 basic encoding. `docs/FORTE.md` has each byte with its source."""
import struct
from dataclasses import dataclass

from fbrio.telling import counted
from fbrio.values import Types, Values

FALSE_TAG, TRUE_TAG = 0x40, 0x41
SHORT_NULL, LONG_NULL = b"\x05", b"\x05\x00"
# Of each type that fbr has, beside BOOL: its tag, and the form of its value for `struct`.
FORMS = {
    "SINT": (0x42, "b"),
    "INT": (0x43, "h"),
    "DINT": (0x44, "i"),
    "LINT": (0x45, "q"),
    "USINT": (0x46, "B"),
    "UINT": (0x47, "H"),
    "UDINT": (0x48, "I"),
    "TIME": (0x4C, "q"),
}
OF_TAG = {tag: (name, form) for name, (tag, form) in FORMS.items()}
# Tags of values that fbr does not have.
FOREIGN = {
    0x05: "NULL",
    0x49: "ULINT",
    0x4A: "REAL",
    0x4B: "LREAL",
    0x4D: "DATE",
    0x4E: "TIME_OF_DAY",
    0x4F: "DATE_AND_TIME",
    0x50: "STRING",
    0x51: "BYTE",
    0x52: "WORD",
    0x53: "DWORD",
    0x54: "LWORD",
    0x55: "WSTRING",
    0x76: "ARRAY",
    0x7F: "STRUCT",
}
# How many of a unit of TIME are a millisecond.
UNITS = {"milliseconds": 1, "microseconds": 1_000, "nanoseconds": 1_000_000}
MOST = 2**63 - 1


@dataclass(frozen=True)
class Field:
    """A value as it came: the name of its type, and a number."""

    type: str
    value: int


class Unfit(Exception):
    """Values that cannot go on: the `reason` by which they are counted, and a text that says more."""

    def __init__(self, reason: str, says: str) -> None:
        super().__init__(says)
        self.reason = reason


def read_field(datagram: bytes, at: int) -> tuple[Field, int]:
    """The value whose tag is at a byte, and where the next one begins; Unfit where fbr has no such type, or the datagram ends within it."""
    tag = datagram[at]
    if tag in (FALSE_TAG, TRUE_TAG):
        return Field("BOOL", tag - FALSE_TAG), at + 1
    if tag not in OF_TAG:
        name = FOREIGN.get(tag, f"tag 0x{tag:02X}")
        raise Unfit(name, f"{name} at byte {at}, which fbr does not have")
    name, form = OF_TAG[tag]
    end = at + 1 + struct.calcsize(form)
    if end > len(datagram):
        raise Unfit("wrong length", f"{len(datagram)} bytes, which end within the {name} that begins at byte {at}")
    return Field(name, struct.unpack(f">{form}", datagram[at + 1 : end])[0]), end


def read_fields(datagram: bytes) -> list[Field]:
    """All values of a datagram; Unfit where it is none of the profile."""
    if datagram in (SHORT_NULL, LONG_NULL):
        return []
    if not datagram:
        raise Unfit("wrong length", "no bytes")
    found, at = [], 0
    while at < len(datagram):
        one, at = read_field(datagram, at)
        found.append(one)
    return found


def in_milliseconds(value: int, unit: str) -> int:
    """A TIME of the profile in whole milliseconds; what is left of one is cut off."""
    whole = abs(value) // UNITS[unit]
    return whole if value >= 0 else -whole


def in_unit(value: int, unit: str) -> int:
    """A TIME in milliseconds as the profile has it; Unfit where 64 bits do not hold it."""
    found = value * UNITS[unit]
    if not -MOST - 1 <= found <= MOST:
        raise Unfit("TIME too long", f"{value} ms, which is more {unit} than 64 bits hold")
    return found


def decode(types: Types, datagram: bytes, unit: str = "") -> Values:
    """The values of a datagram, if they are of these types; else Unfit. `unit` is that of TIME."""
    found = read_fields(datagram)
    if len(found) != len(types):
        raise Unfit("wrong number of values", f"{counted(len(found), 'value', 'values')} instead of {len(types)}")
    for number, (one, wanted) in enumerate(zip(found, types), start=1):
        if one.type != wanted.name:
            raise Unfit("wrong type", f"{one.type} instead of {wanted.name} as value {number}")
    return tuple(in_milliseconds(it.value, unit) if it.type == "TIME" else it.value for it in found)


def encode(types: Types, values: Values, unit: str = "", has_long_null: bool = False) -> bytes:
    """The datagram with these values; Unfit where a TIME does not fit."""
    if not types:
        return LONG_NULL if has_long_null else SHORT_NULL
    parts = []
    for one, value in zip(types, values):
        if one.name == "BOOL":
            parts.append(bytes([FALSE_TAG + value]))
        else:
            tag, form = FORMS[one.name]
            parts.append(struct.pack(f">B{form}", tag, in_unit(value, unit) if one.name == "TIME" else value))
    return b"".join(parts)
