"""The list of micro-blocks: for each primitive two applications that differ in how often it occurs.

The order matters: what two applications differ in besides is known before. Where primitives always come together, they are told apart by a share:
- each statement and operation brings an operand, so operands cannot be told apart from them: CONSTANT takes half of `A := 1`, ASSIGN the rest, and each
  of the others is what comes on top. With another share all sums would be the same;
- a state that is looked through was entered by a crossing: SCAN takes half of both, CROSS the rest;
- an event that is put into the queue is dispatched: PUT takes a tenth, DISPATCH or the service the rest;
- a timer is stopped that was started: STOP is all that both take. START is measured where the timer runs already, which is the dearest. Both move other
  timers of the device in a list, so they are measured among 900 (a resource can have 1,024, and a device more);
- RECEIVE, TAKE and EXPIRE are all that their events take, also for the line of the script that brings them; BEGIN has none."""
from collections.abc import Callable
from dataclasses import dataclass
from functools import partial

from .applications import RESTS, Application, acting, actions, arrived, begun, chained, expired, given, reached, repeated, sampled, taken, tried

COPIES, MANY, WIDE, BLOCKS, TIMERS = 10, 400, 200, 64, 900
PUBLISH = "PUBLISH[LINT](QI := TRUE, ID := 1)"
DELAY = "E_DELAY(DT := T#1h)"
Maker = Callable[[], Application]


@dataclass(frozen=True)
class Micro:
    """A primitive, what it is, the small and the large application, and the share it takes of what comes together with others that are not known yet."""

    word: str
    about: str
    small: Maker | None
    large: Maker
    share: float = 1.0
    beside: str = ""


def of_statements(word: str, about: str, small: str, large: str, share: float = 1.0, beside: str = "") -> Micro:
    """A micro-block of two statements, each of them some times in a FOR."""
    return Micro(word, about, partial(repeated, small * COPIES), partial(repeated, large * COPIES), share, beside)


def counted(word: str, about: str, make: Callable[..., Application], few: int, many: int, *before, share: float = 1.0, beside: str = "", **more) -> Micro:
    """A micro-block of few and of many of the same."""
    return Micro(word, about, partial(make, *before, few, **more), partial(make, *before, many, **more), share, beside)


def branches(count: int) -> str:
    """An IF with so many conditions that do not hold."""
    return "IF F THEN " + "ELSIF F THEN " * (count - 1) + "END_IF; "


def arms(count: int) -> str:
    """A CASE whose last arm has the value."""
    return "CASE K OF " + "".join(f"{number}: A := 1; " for number in range(51 - count, 51)) + "END_CASE; "


LABELS = "CASE K OF 1, 3, 5, 7, 9, 11, 13, 15, 17, 19, 50: A := 1; END_CASE; "
LIST = [
    Micro("ITERATION", "an iteration of a FOR", partial(repeated, ""), partial(repeated, "", 20_000)),
    of_statements("CONSTANT", "a number", "", "A := 1; ", 0.5, "ASSIGN"),
    of_statements("ASSIGN", "a variable gets a value", "", "A := 1; "),
    of_statements("VARIABLE", "a variable is read", "A := 1; ", "A := B; "),
    of_statements("ADD", "+ and -", "A := B; ", "A := B + C; "),
    of_statements("MULTIPLY", "*", "A := B; ", "A := B * C; "),
    of_statements("DIVIDE", "/", "A := B; ", "A := B / C; "),
    of_statements("MODULO", "MOD", "A := B; ", "A := B MOD C; "),
    of_statements("COMPARE", "= <> < > <= >=", "H := F; ", "H := B <= C; "),
    of_statements("LOGIC", "AND, OR and XOR", "H := F; ", "H := G AND G; "),
    of_statements("EXTREME", "MIN, MAX and LIMIT", "A := B; ", "A := MIN(B, C); "),
    of_statements("NEGATE", "unary minus", "A := B; ", "A := -B; "),
    of_statements("NOT", "NOT", "H := F; ", "H := NOT F; "),
    of_statements("ABSOLUTE", "ABS", "A := B; ", "A := ABS(B); "),
    of_statements("CONVERT", "a value in another type", "D := D; ", "D := LINT_TO_DINT(B); "),
    of_statements("ELEMENT", "an element is read", "A := 1; ", "A := T[1]; "),
    of_statements("ASSIGN_ELEMENT", "an element gets a value", "", "T[1] := 1; "),
    of_statements("BRANCH", "a condition of an IF", branches(1), branches(11)),
    of_statements("IF", "an IF is begun", "", branches(1)),
    of_statements("LABEL", "a label of an arm", arms(1), LABELS),
    of_statements("ARM", "an arm of a CASE", arms(1), arms(11)),
    of_statements("CASE", "a CASE is begun", "", arms(1)),
    of_statements("FOR", "a FOR is begun", "", "FOR J := 1 TO 0 DO END_FOR; "),
    counted("SKIP", "a transition of another event", tried, 1, MANY, "IDLE TO RUN := OTHER; "),
    counted("GUARD", "a guard, besides its expression", tried, 1, MANY, "IDLE TO RUN := E [F]; "),
    counted("SCAN", "the transitions of a state are looked through", chained, 1, WIDE, "[G]", share=0.5, beside="CROSS"),
    counted("CROSS", "a transition is crossed", chained, 1, WIDE, "[G]"),
    counted("OPEN", "a transition without a guard", chained, 1, WIDE, "1"),
    Micro("CALL", "an algorithm is called", partial(acting, actions("-> O", MANY)), partial(acting, actions("W -> O", MANY))),
    Micro("ISSUE", "an event output is issued", partial(acting, actions("W", MANY)), partial(acting, actions("W -> O", MANY))),
    Micro("ACT", "an action is done", partial(acting, ""), partial(acting, actions("W -> O", MANY))),
    counted("GIVE", "a data output is issued", given, 1, 60),
    counted("SAMPLE", "a data input is sampled", sampled, 1, 60),
    counted("PUT", "an event is put into the queue", reached, 1, WIDE, "CELL", "E", types=RESTS, share=0.1, beside="DISPATCH"),
    counted("DISPATCH", "a basic block is dispatched", reached, 1, WIDE, "CELL", "E", types=RESTS),
    Micro("VALUE", "a value of a service", partial(reached, PUBLISH, "REQ", BLOCKS, begun="INIT"),
          partial(reached, PUBLISH.replace("LINT", ", ".join(["LINT"] * 16)), "REQ", BLOCKS, begun="INIT")),
    counted("SEND", "REQ of a PUBLISH", reached, 1, BLOCKS, PUBLISH, "REQ", begun="INIT"),
    counted("INITIALIZE", "INIT of a PUBLISH or SUBSCRIBE", reached, 1, BLOCKS, PUBLISH, "INIT"),
    counted("RESPOND", "RSP of a SUBSCRIBE", reached, 1, BLOCKS, "SUBSCRIBE[LINT](QI := TRUE, ID := {})", "RSP", begun="INIT"),
    counted("WRITE", "REQ of an OUTPUT", reached, 1, BLOCKS, "OUTPUT[LINT](ID := {})", "REQ"),
    counted("STOP", "STOP of a timer", reached, 1, TIMERS, DELAY, "START", again="STOP", beside="START"),
    counted("START", "START of a timer", reached, 1, TIMERS, DELAY, "START"),
    Micro("RECEIVE", "ARRIVE of an INPUT", None, arrived),
    Micro("TAKE", "ARRIVE of a SUBSCRIBE", None, taken),
    Micro("BEGIN", "BEGIN of an E_RESTART", None, partial(begun, 1000)),
    Micro("EXPIRE", "EXPIRE of a timer", None, expired),
]
