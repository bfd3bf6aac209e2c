"""The types of values, as texts write them and as datagrams carry them."""
import struct
from dataclasses import dataclass

Values = tuple[int, ...]


class Misfit(Exception):
    """A word or a number that is no value of its type; its text says why."""


@dataclass(frozen=True)
class ValueType:
    """A type: its code in a datagram, its least and greatest value, and how many registers of 16 bits a value takes."""

    name: str
    code: int
    least: int
    most: int
    registers: int


TYPES = {
    it.name: it
    for it in (
        ValueType("BOOL", 0, 0, 1, 1),
        ValueType("SINT", 1, -(2**7), 2**7 - 1, 1),
        ValueType("INT", 2, -(2**15), 2**15 - 1, 1),
        ValueType("DINT", 3, -(2**31), 2**31 - 1, 2),
        ValueType("LINT", 4, -(2**63), 2**63 - 1, 4),
        ValueType("USINT", 5, 0, 2**8 - 1, 1),
        ValueType("UINT", 6, 0, 2**16 - 1, 1),
        ValueType("UDINT", 7, 0, 2**32 - 1, 2),
        ValueType("TIME", 8, -(2**63), 2**63 - 1, 4),
    )
}
Types = tuple[ValueType, ...]
WORDS = {"TRUE": 1, "FALSE": 0}


def types_text(types: Types) -> str:
    """The types as the table writes them: `INT,INT`, or `EVENT` where there are no values."""
    return ",".join(it.name for it in types) or "EVENT"


def fitting(value_type: ValueType, value: int) -> int:
    """The value, if it is one of the type; else Misfit."""
    if not value_type.least <= value <= value_type.most:
        raise Misfit(f"{value} does not fit {value_type.name} ({value_type.least} to {value_type.most})")
    return value


def read_value(value_type: ValueType, word: str) -> int:
    """A value as people write it: a decimal number, of a TIME in milliseconds, or TRUE and FALSE for a BOOL; else Misfit."""
    if value_type.name == "BOOL" and word.upper() in WORDS:
        return WORDS[word.upper()]
    digits = word[1:] if word[:1] in ("-", "+") else word
    if not (digits.isascii() and digits.isdigit() and len(digits) < 30):
        raise Misfit(f"'{word}' is not a value of {value_type.name}")
    return fitting(value_type, int(word))


def read_values(types: Types, words: list[str]) -> Values:
    """One value for each type; else Misfit."""
    if len(words) != len(types):
        raise Misfit(f"{types_text(types)} needs {len(types)} values, not {len(words)}")
    return tuple(read_value(one, word) for one, word in zip(types, words))


def fields(types: Types, values: Values) -> bytes:
    """The end of a datagram: how many values there are, and each with the code of its type."""
    return bytes([len(values)]) + b"".join(struct.pack(">Bq", one.code, value) for one, value in zip(types, values))


def offer(number: int, types: Types, values: Values) -> bytes:
    """The datagram that offers these values to the INPUT of this number (docs/NETWORK.md)."""
    return struct.pack(">2sBBH", b"FB", 1, 2, number) + fields(types, values)
