"""Types that other tools bring along and fbr has a counterpart of: their interfaces, by the names that files in XML use.

A port of type ANY takes the type that its wires have."""
import re

from . import model
from .words import INTEGERS, TYPES

MOST_VALUES = 16

# Name: event inputs and event outputs, each with the data WITH it; data inputs and data outputs with their types.
EVENT_BLOCKS = {
    "E_SPLIT": ("EI", "EO1; EO2", "", ""),
    "E_MERGE": ("EI1; EI2", "EO", "", ""),
    "E_PERMIT": ("EI PERMIT", "EO", "PERMIT:BOOL", ""),
    "E_SELECT": ("EI0 G; EI1 G", "EO", "G:BOOL", ""),
    "E_SWITCH": ("EI G", "EO0; EO1", "G:BOOL", ""),
    "E_SR": ("S; R", "EO Q", "", "Q:BOOL"),
    "E_CTU": ("CU PV; R", "CUO Q CV; RO Q CV", "PV:UINT", "Q:BOOL CV:UINT"),
}
TIMERS = {
    "E_DELAY": ("START DT; STOP", "EO", "DT:TIME", ""),
    "E_CYCLE": ("START DT; STOP", "EO", "DT:TIME", ""),
    "E_RESTART": ("", "COLD; WARM; STOP", "", ""),
}
# The terminals of 4diac: the name, its direction, and the type of its value in fbr.
TERMINALS = {
    "IX": ("INPUT", "BOOL"),
    "IB": ("INPUT", "USINT"),
    "IW": ("INPUT", "UINT"),
    "ID": ("INPUT", "UDINT"),
    "QX": ("OUTPUT", "BOOL"),
    "QB": ("OUTPUT", "USINT"),
    "QW": ("OUTPUT", "UINT"),
    "QD": ("OUTPUT", "UDINT"),
}
SIGNS = {"ADD": "+", "SUB": "-", "MUL": "*", "DIV": "/", "MOD": "MOD", "AND": "AND", "OR": "OR", "XOR": "XOR"}
COMPARISONS = {"EQ": "=", "NE": "<>", "LT": "<", "LE": "<=", "GT": ">", "GE": ">="}
# Bit strings of conversions, as the integers with which they share their bits.
BITS = {"BYTE": "USINT", "WORD": "UINT", "DWORD": "UDINT", "LWORD": "LINT"}
CONVERSION = re.compile(r"F_([A-Z]+)_TO_([A-Z]+)\Z")
PUBLISHING = re.compile(r"(PUBLISH|SUBSCRIBE)_(\d+)\Z")
WRITTEN_BY_EXPORT = re.compile(r"(INPUT|OUTPUT)((?:_(?:" + "|".join(TYPES) + r"))*)\Z")


def interface(name):
    """The interface of a known type, or None."""
    name = name.upper()
    if name in EVENT_BLOCKS or name in TIMERS:
        return declared(name, *(EVENT_BLOCKS | TIMERS)[name])
    if name in TERMINALS:
        return terminal(name, *TERMINALS[name])
    found = PUBLISHING.match(name)
    if found and int(found[2]) <= MOST_VALUES:
        return publishing(name, found[1], int(found[2]))
    found = WRITTEN_BY_EXPORT.match(name)
    if found:
        return plant_end(name, found[1], found[2].split("_")[1:])
    return function(name)


def declared(name, event_inputs, event_outputs, inputs, outputs):
    """A type from its four lists, as EVENT_BLOCKS writes them."""
    return model.BlockType(
        name,
        [model.Event(it.split()[0], it.split()[1:]) for it in event_inputs.split(";") if it.strip()],
        [model.Event(it.split()[0], it.split()[1:]) for it in event_outputs.split(";") if it.strip()],
        [model.Variable(*it.split(":")) for it in inputs.split()],
        [model.Variable(*it.split(":")) for it in outputs.split()],
    )


def terminal(name, direction, kind):
    if direction == "INPUT":
        events_out = "INITO QO STATUS; CNF QO STATUS IN; IND QO STATUS IN"
        return declared(name, "INIT QI PARAMS; REQ QI", events_out, "QI:BOOL PARAMS:STRING", f"QO:BOOL STATUS:STRING IN:{kind}")
    return declared(name, "INIT QI PARAMS; REQ QI OUT", "INITO QO STATUS; CNF QO STATUS", f"QI:BOOL PARAMS:STRING OUT:{kind}", "QO:BOOL STATUS:STRING")


def publishing(name, direction, count):
    numbers = range(1, count + 1)
    if direction == "PUBLISH":
        values = [f"SD_{it}" for it in numbers]
        inputs = " ".join(["QI:BOOL", "ID:WSTRING", *(f"{it}:ANY" for it in values)])
        return declared(name, f"INIT QI ID; REQ QI {' '.join(values)}", "INITO QO STATUS; CNF QO STATUS", inputs, "QO:BOOL STATUS:WSTRING")
    values = [f"RD_{it}" for it in numbers]
    outputs = " ".join(["QO:BOOL", "STATUS:WSTRING", *(f"{it}:ANY" for it in values)])
    return declared(name, "INIT QI ID; RSP QI", f"INITO QO STATUS; IND QO STATUS {' '.join(values)}", "QI:BOOL ID:WSTRING", outputs)


def plant_end(name, direction, kinds):
    """The types that fbr-export writes for an INPUT or an OUTPUT of these values."""
    values = [(f"{'RD' if direction == 'INPUT' else 'SD'}_{at}", kind) for at, kind in enumerate(kinds, 1)]
    names, typed = " ".join(it for it, _ in values), " ".join(f"{it}:{kind}" for it, kind in values)
    if direction == "INPUT":
        return declared(name, "", f"IND {names}", "ID:UINT", typed)
    return declared(name, f"REQ {names}", "", f"ID:UINT {typed}", "")


def function(name):
    """The interface of F_ADD and its like, or None."""
    parts = operands(name)
    if parts is None:
        return None
    inputs, output, _ = parts
    names = " ".join(it.partition(":")[0] for it in inputs.split())
    return declared(name, f"REQ {names}", "CNF OUT", inputs, f"OUT:{output}")


def operands(name):
    """Of a function block its inputs with types, the type of its output, and the expression of its output; None if it is none.

    The expression of F_SEL is None: it takes an IF."""
    operation = name.removeprefix("F_") if name.startswith("F_") else ""
    two = "IN1:ANY IN2:ANY"
    if operation in SIGNS:
        return two, "ANY", f"IN1 {SIGNS[operation]} IN2"
    if operation in COMPARISONS:
        return two, "BOOL", f"IN1 {COMPARISONS[operation]} IN2"
    if operation in ("MIN", "MAX"):
        return two, "ANY", f"{operation}(IN1, IN2)"
    others = {
        "NOT": ("IN:BOOL", "BOOL", "NOT IN"),
        "ABS": ("IN:ANY", "ANY", "ABS(IN)"),
        "MOVE": ("IN:ANY", "ANY", "IN"),
        "LIMIT": ("MN:ANY IN:ANY MX:ANY", "ANY", "LIMIT(MN, IN, MX)"),
        "SEL": ("G:BOOL IN0:ANY IN1:ANY", "ANY", None),
    }
    return others.get(operation) or conversion(name)


def types_of(operation):
    """The types of values that an operation of ANY has in fbr."""
    if operation in ("AND", "OR", "XOR"):
        return ("BOOL",)
    if operation in ("MUL", "DIV", "MOD", "ABS"):
        return tuple(INTEGERS)
    if operation in ("EQ", "NE", "SEL", "MOVE"):
        return TYPES
    return (*INTEGERS, "TIME")


def conversion(name):
    found = CONVERSION.match(name)
    if not found:
        return None
    source, target = (BITS.get(it, it) for it in found.groups())
    if source not in TYPES or target not in TYPES:
        return None
    if source == target:
        return f"IN:{source}", target, "IN"
    if target == "BOOL":
        return (f"IN:{source}", target, "IN <> 0") if source in INTEGERS else None
    return f"IN:{source}", target, f"{source}_TO_{target}(IN)"
