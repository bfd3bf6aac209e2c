"""Words of the language: types of values, reserved words, names, and constants."""
import re

# The types of values, and the numbers that each can hold; TIME and BOOL widen to no other type.
INTEGERS = {
    "SINT": (-(2**7), 2**7 - 1),
    "INT": (-(2**15), 2**15 - 1),
    "DINT": (-(2**31), 2**31 - 1),
    "LINT": (-(2**63), 2**63 - 1),
    "USINT": (0, 2**8 - 1),
    "UINT": (0, 2**16 - 1),
    "UDINT": (0, 2**32 - 1),
}
TYPES = ("BOOL", *INTEGERS, "TIME")

RESERVED = frozenset(
    """FUNCTION_BLOCK EVENT_INPUT EVENT_OUTPUT VAR_INPUT VAR_OUTPUT VAR EC_STATES EC_TRANSITIONS ALGORITHM FBS EVENT_CONNECTIONS DATA_CONNECTIONS
    SYSTEM DEVICE RESOURCE END_FUNCTION_BLOCK END_EVENT END_VAR END_STATES END_TRANSITIONS END_ALGORITHM END_FBS END_CONNECTIONS END_SYSTEM
    END_DEVICE END_RESOURCE END_IF END_CASE END_FOR WITH TO ARRAY OF IF THEN ELSIF ELSE CASE FOR BY DO AND OR XOR NOT MOD TRUE FALSE""".split()
) | frozenset(TYPES)

NAME = re.compile(r"[A-Za-z_][A-Za-z0-9_]*\Z")
NUMBER = re.compile(r"(?:2#[01](?:_?[01])*|8#[0-7](?:_?[0-7])*|16#[0-9A-Fa-f](?:_?[0-9A-Fa-f])*|\d(?:_?\d)*)\Z")
DURATION = re.compile(r"(-?)(?:(\d+)d)?_?(?:(\d+)h)?_?(?:(\d+)m(?!s))?_?(?:(\d+(?:\.\d+)?)s)?_?(?:(\d+)ms)?\Z")

# The types of other tools that have no counterpart, and what to do instead.
INSTEAD = {
    "REAL": "scale it to a DINT",
    "LREAL": "scale it to a DINT",
    "STRING": "send a number in its place: only ID and PARAMS may be texts",
    "WSTRING": "send a number in its place: only ID and PARAMS may be texts",
    "CHAR": "use USINT",
    "WCHAR": "use UINT",
    "BYTE": "use USINT, or a BOOL for each bit",
    "WORD": "use UINT, or a BOOL for each bit",
    "DWORD": "use UDINT, or a BOOL for each bit",
    "LWORD": "use LINT, or a BOOL for each bit",
    "ULINT": "use LINT",
    "LTIME": "use TIME",
    "DATE": "use LINT",
    "TIME_OF_DAY": "use TIME",
    "TOD": "use TIME",
    "DATE_AND_TIME": "use LINT",
    "DT": "use LINT",
}


def comment_text(words):
    """These words without anything that would end a comment."""
    return re.sub(r"\*+\)", ")", words.replace("(*", "(")).strip()


def widens(source, target):
    """Whether a value of one type goes where another type is."""
    if source == target:
        return True
    if source not in INTEGERS or target not in INTEGERS:
        return False
    (low, high), (least, most) = INTEGERS[source], INTEGERS[target]
    return least <= low and high <= most


def join(types):
    """The smallest type to which all of these widen, or None."""
    fitting = [it for it in TYPES if all(widens(source, it) for source in types)]
    return min(fitting, key=lambda it: INTEGERS[it][1] - INTEGERS[it][0] if it in INTEGERS else 0, default=None)


def free_name(name, taken):
    """This name, or the first of NAME_1, NAME_2 .. that is no reserved word and not among those taken, in whatever case."""
    used = {it.upper() for it in taken}
    found, number = name, 0
    while found.upper() in used or found.upper() in RESERVED:
        number += 1
        found = f"{name}_{number}"
    return found


def duration(text):
    """A TIME of other tools as fbr writes it, fractions of a second in milliseconds; None if it is none."""
    found = DURATION.match(text.lower())
    if not found or not any(found.groups()[1:]):
        return None
    sign, days, hours, minutes, seconds, milliseconds = found.groups()
    whole, _, fraction = (seconds or "").partition(".")
    if len(fraction.rstrip("0")) > 3:
        return None
    if fraction:
        milliseconds = str(int(milliseconds or 0) + int(fraction[:3].ljust(3, "0")))
    parts = [(days, "d"), (hours, "h"), (minutes, "m"), (whole, "s"), (milliseconds, "ms")]
    return "T#" + sign + "_".join(number + unit for number, unit in parts if number)


def constant(text, kind):
    """A constant of other tools for a value of this type, as fbr writes it; None if it is none."""
    text = text.strip()
    head, mark, rest = text.partition("#")
    if kind == "BOOL":
        value = (rest if head.upper() == "BOOL" else text).upper()
        return {"1": "TRUE", "TRUE": "TRUE", "0": "FALSE", "FALSE": "FALSE"}.get(value)
    if kind == "TIME":
        return duration(rest) if mark and head.upper() in ("T", "TIME") else None
    if mark and head.upper() in INTEGERS:
        bare = rest.removeprefix("-")
        return f"{head.upper()}#{rest}" if NUMBER.match(bare) else None
    if mark and head.upper() in ("BYTE", "WORD", "DWORD"):
        return rest if NUMBER.match(rest) else None
    bare = text.removeprefix("+").removeprefix("-").strip()
    return text.removeprefix("+") if NUMBER.match(bare) else None
