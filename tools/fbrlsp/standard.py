"""The types that need no declaration: the event blocks and the services of docs/LANGUAGE.md, and words of the language."""
import functools

from fbrtools.words import INTEGERS, TYPES

from . import outline

# Their interfaces, as the tables of docs/LANGUAGE.md have them; the comment says what each does.
# RD_1, SD_1 and so on are made of an instance's square brackets.
TEXT = """
(* an arrival from outside with these values: IND *)
FUNCTION_BLOCK INPUT EVENT_OUTPUT IND; END_EVENT END_FUNCTION_BLOCK
(* writes its values *)
FUNCTION_BLOCK OUTPUT EVENT_INPUT REQ; END_EVENT END_FUNCTION_BLOCK
(* INIT with QI opens; REQ sends a datagram on channel ID *)
FUNCTION_BLOCK PUBLISH
EVENT_INPUT INIT WITH QI; REQ WITH QI; END_EVENT EVENT_OUTPUT INITO WITH QO; CNF WITH QO; END_EVENT
VAR_INPUT QI : BOOL; END_VAR VAR_OUTPUT QO : BOOL; END_VAR END_FUNCTION_BLOCK
(* INIT with QI opens; a datagram on channel ID: IND *)
FUNCTION_BLOCK SUBSCRIBE
EVENT_INPUT INIT WITH QI; RSP WITH QI; END_EVENT EVENT_OUTPUT INITO WITH QO; IND WITH QO; END_EVENT
VAR_INPUT QI : BOOL; END_VAR VAR_OUTPUT QO : BOOL; END_VAR END_FUNCTION_BLOCK
(* EO once, DT after START; a START while it runs does nothing *)
FUNCTION_BLOCK E_DELAY EVENT_INPUT START WITH DT; STOP; END_EVENT EVENT_OUTPUT EO; END_EVENT VAR_INPUT DT : TIME; END_VAR END_FUNCTION_BLOCK
(* EO, then again every DT, until STOP *)
FUNCTION_BLOCK E_CYCLE EVENT_INPUT START WITH DT; STOP; END_EVENT EVENT_OUTPUT EO; END_EVENT VAR_INPUT DT : TIME; END_VAR END_FUNCTION_BLOCK
(* COLD when the device starts *)
FUNCTION_BLOCK E_RESTART EVENT_OUTPUT COLD; END_EVENT END_FUNCTION_BLOCK
(* one event becomes two *)
FUNCTION_BLOCK E_SPLIT EVENT_INPUT EI; END_EVENT EVENT_OUTPUT EO1; EO2; END_EVENT END_FUNCTION_BLOCK
(* either of two *)
FUNCTION_BLOCK E_MERGE EVENT_INPUT EI1; EI2; END_EVENT EVENT_OUTPUT EO; END_EVENT END_FUNCTION_BLOCK
(* lets the event through while PERMIT is TRUE *)
FUNCTION_BLOCK E_PERMIT EVENT_INPUT EI WITH PERMIT; END_EVENT EVENT_OUTPUT EO; END_EVENT VAR_INPUT PERMIT : BOOL; END_VAR END_FUNCTION_BLOCK
(* EI0 while G is FALSE, EI1 while it is TRUE *)
FUNCTION_BLOCK E_SELECT EVENT_INPUT EI0 WITH G; EI1 WITH G; END_EVENT EVENT_OUTPUT EO; END_EVENT VAR_INPUT G : BOOL; END_VAR END_FUNCTION_BLOCK
(* EI comes out as EO0 while G is FALSE, as EO1 while it is TRUE *)
FUNCTION_BLOCK E_SWITCH EVENT_INPUT EI WITH G; END_EVENT EVENT_OUTPUT EO0; EO1; END_EVENT VAR_INPUT G : BOOL; END_VAR END_FUNCTION_BLOCK
(* S sets Q, R clears it; EO when it changes; R does nothing before the first S *)
FUNCTION_BLOCK E_SR EVENT_INPUT S; R; END_EVENT EVENT_OUTPUT EO WITH Q; END_EVENT VAR_OUTPUT Q : BOOL; END_VAR END_FUNCTION_BLOCK
(* counts CU up to 65,535; Q where CV is at least PV; R clears *)
FUNCTION_BLOCK E_CTU
EVENT_INPUT CU WITH PV; R; END_EVENT EVENT_OUTPUT CUO WITH Q, CV; RO WITH Q, CV; END_EVENT
VAR_INPUT PV : UINT; END_VAR VAR_OUTPUT Q : BOOL; CV : UINT; END_VAR END_FUNCTION_BLOCK
"""

# The services whose instances have values in square brackets: how the ports of these are called, of which kind they are, and which event is WITH them.
VALUES = {
    "INPUT": ("RD_", "output", "IND"),
    "OUTPUT": ("SD_", "input", "REQ"),
    "PUBLISH": ("SD_", "input", "REQ"),
    "SUBSCRIBE": ("RD_", "output", "IND"),
}
# Parameters that are no ports.
NUMBERED = {"INPUT": ("ID",), "OUTPUT": ("ID",), "PUBLISH": ("ID", "FORMAT"), "SUBSCRIBE": ("ID", "FORMAT")}
# What comes to an instance from outside, as certificates name it.
ARRIVALS = ("ARRIVE", "EXPIRE", "BEGIN")

OPERATORS = ("AND", "OR", "XOR", "NOT", "MOD", "TRUE", "FALSE")
STATEMENTS = ("IF", "THEN", "ELSIF", "ELSE", "END_IF", "CASE", "OF", "END_CASE", "FOR", "TO", "BY", "DO", "END_FOR", "END_ALGORITHM")
FUNCTIONS = {
    "MIN": "the lesser of two integers or TIMEs",
    "MAX": "the greater of two integers or TIMEs",
    "LIMIT": "LIMIT(least, value, most), of integers and TIME",
    "ABS": "the size of an integer without its sign",
}


@functools.cache
def standard() -> "outline.Outline":
    """The outline of the types that need no declaration."""
    return outline.read(TEXT)


@functools.cache
def conversions() -> dict[str, str]:
    """The functions that convert, and what each does."""
    numbers = [it for it in TYPES if it != "BOOL"]
    found = {f"{it}_TO_{to}": f"a {it} as {to}; what does not fit wraps round" for it in numbers for to in numbers if it != to}
    return found | {f"BOOL_TO_{to}": f"1 for TRUE and 0 for FALSE, as {to}" for to in INTEGERS}


def values_of(of_type: str) -> str:
    """The values that a type has, in words; empty if it is none."""
    if of_type == "BOOL":
        return "FALSE and TRUE"
    if of_type == "TIME":
        return "milliseconds, 64 bits with a sign"
    least, most = INTEGERS.get(of_type, (None, None))
    return "" if least is None else f"{least} to {most}"
