"""Micro-applications: small texts whose events do one thing many times."""
import re
from dataclasses import dataclass

ITERATIONS, RESOURCES = 2000, 16
# A large number, so that an operation has all its work, and others that do not change.
VALUES = """VAR I, J, D : DINT; A : LINT; B : LINT := 9_123_456_789_012_345_678; C : LINT := 12_345; K : LINT := 50; F, H : BOOL; G : BOOL := TRUE;
T : ARRAY [0..3] OF LINT; END_VAR
"""
RESTS = "FUNCTION_BLOCK CELL\nEVENT_INPUT E; END_EVENT\nEC_STATES IDLE; END_STATES\nEC_TRANSITIONS END_TRANSITIONS\nEND_FUNCTION_BLOCK\n"
BUTTON = "P : INPUT(ID := 1); "


@dataclass(frozen=True)
class Application:
    """Block types and what stands in a resource, the arrival whose events are measured, and what a script of `fbr sim` does.

    It begins an event by a line, and dispatches the resource so often; `setup` comes first, at most `most` events can be, and nothing ever happens `aside`.
    `others` are other resources, `END_DEVICE` and other devices."""

    types: str
    body: str
    dispatches: int = 1
    arrival: str = "P.ARRIVE"
    begins: str = "offer D 1\n"
    setup: str = ""
    most: int = 1_000_000
    aside: str = "D R"
    others: str = "END_DEVICE"

    @property
    def text(self) -> str:
        """The whole text."""
        return f"{self.types}SYSTEM S DEVICE D RESOURCE R\n{self.body}END_RESOURCE\n{self.others} END_SYSTEM\n"

    def script(self, events: int) -> str:
        """So many events."""
        own = "dispatch D R\n" * self.dispatches
        return self.setup + "".join(self.begins.format(number) + own for number in range(1, events + 1))

    def still(self, events: int) -> str:
        """As many dispatches, where nothing is to be dispatched."""
        return self.setup + f"dispatch {self.aside}\n" * (self.dispatches * events)


def together(applications: list[Application]) -> tuple[str, list[str]]:
    """One text of many applications, each in a resource of its own with types and numbers of its own, and the paths of their arrivals."""
    types, devices, paths = "", "", []
    for index, it in enumerate(applications):
        if index % RESOURCES == 0:
            devices += f"{'END_DEVICE' if index else ''} DEVICE D{index // RESOURCES}\n"
        own = [re.sub(r"\b(M|CELL)\b", rf"\1_{index}", part) for part in (it.types, it.body)]
        types += own[0]
        devices += f"RESOURCE R{index}\n{re.sub(r'ID := ([0-9]+)', lambda found: f'ID := {int(found[1]) + 100 * index}', own[1])}END_RESOURCE\n"
        paths.append(f"D{index // RESOURCES}.R{index}.{it.arrival}")
    return f"{types}SYSTEM S{devices}END_DEVICE END_SYSTEM\n", paths


def network(instances: str, events: str = "", data: str = "") -> str:
    """What stands in a resource."""
    lines = f"EVENT_CONNECTIONS {events}END_CONNECTIONS\n" if events else ""
    lines += f"DATA_CONNECTIONS {data}END_CONNECTIONS\n" if data else ""
    return f"FBS {instances}END_FBS\n{lines}"


def block(states: str, transitions: str, head: str = "EVENT_INPUT E; END_EVENT\n", values: str = VALUES, algorithm: str = "") -> str:
    """A block type of a chart and an algorithm W."""
    chart = f"EC_STATES {states}END_STATES\nEC_TRANSITIONS {transitions}END_TRANSITIONS\n"
    return f"FUNCTION_BLOCK M\n{head}{values}{chart}ALGORITHM W IN ST:\n{algorithm}END_ALGORITHM\nEND_FUNCTION_BLOCK\n"


def charted(*words: str, **more: str) -> Application:
    """An application whose event is one of such a block."""
    return Application(block(*words, **more), network(BUTTON + "X : M; ", "P.IND TO X.E; "), 2)


def repeated(statements: str, iterations: int = ITERATIONS) -> Application:
    """These statements in each iteration of a FOR."""
    body = f"FOR I := 1 TO {iterations} DO\n{statements}\nEND_FOR;\n"
    return charted("IDLE; RUN : W; ", "IDLE TO RUN := E; RUN TO IDLE := 1; ", algorithm=body)


def acting(actions: str, outputs: str = "O;", values: str = VALUES) -> Application:
    """A state with these actions."""
    head = f"EVENT_INPUT E; END_EVENT\nEVENT_OUTPUT {outputs} END_EVENT\n"
    return charted(f"IDLE; RUN {actions}; ", "IDLE TO RUN := E; RUN TO IDLE := 1; ", head=head, values=values)


def actions(one: str, count: int) -> str:
    """So many actions that are the same."""
    return ": " + ", ".join([one] * count) if count else ""


def tried(transition: str, count: int) -> Application:
    """A state with so many transitions before the one that is crossed."""
    transitions = transition * count + "IDLE TO RUN := E; RUN TO IDLE := 1; "
    return charted("IDLE; RUN; ", transitions, head="EVENT_INPUT E; OTHER; END_EVENT\n")


def chained(condition: str, count: int) -> Application:
    """So many states that are left at once."""
    states = "".join(f"S{number}; " for number in range(count))
    transitions = "".join(f"S{number} TO S{number + 1} := {condition}; " for number in range(count - 1))
    return charted(f"IDLE; {states}", f"IDLE TO S0 := E; {transitions}S{count - 1} TO IDLE := {condition}; ")


def given(count: int) -> Application:
    """An output that is WITH so many values, issued many times."""
    names = ", ".join(f"V{number}" for number in range(count))
    return acting(actions("-> O", 50), f"O WITH {names};", f"VAR_OUTPUT {names} : LINT; END_VAR\n")


def sampled(count: int) -> Application:
    """An event that several blocks are WITH so many values of another one."""
    names = [f"V{number}" for number in range(count)]
    head = f"EVENT_INPUT E WITH {', '.join(names)}; END_EVENT\nVAR_INPUT {', '.join(names)} : LINT; END_VAR\nVAR_OUTPUT Q : LINT; END_VAR\n"
    blocks = [f"X{number}" for number in range(16)]
    instances = BUTTON + "Y : M; " + "".join(f"{it} : M; " for it in blocks)
    data = "".join(f"Y.Q TO {it}.{name}; " for it in blocks for name in names)
    events = "".join(f"P.IND TO {it}.E; " for it in blocks)
    return Application(block("IDLE; ", "", head, ""), network(instances, events, data), 1 + len(blocks))


def reached(kind: str, event: str, count: int, types: str = "", begun: str = "", again: str = "") -> Application:
    """An event that goes to so many instances, which another has begun at the start, and then to a second input of each, from the middle to the ends."""
    numbers = range(1, count + 1)
    instances = "".join(f"X{number} : {kind.format(number)}; " for number in numbers)
    events = "".join(f"P.IND TO X{number}.{event}; " for number in numbers)
    if again:
        events += "".join(f"P.IND TO X{number}.{again}; " for number in sorted(numbers, key=lambda it: abs(2 * it - count)))
    setup = ""
    if begun:
        instances += "Z : E_RESTART; "
        events += "".join(f"Z.COLD TO X{number}.{begun}; " for number in numbers)
        setup = "dispatch D R\n" * (1 + count)
    return Application(types, network(BUTTON + instances, events), 1 + count * (2 if again else 1), setup=setup)


def arrived(kind: str = "INPUT(ID := 1)") -> Application:
    """An arrival that leads nowhere."""
    return Application("", network(f"P : {kind}; "))


def taken() -> Application:
    """A datagram of another device."""
    other = network("P : INPUT(ID := 1); Z : E_RESTART; X : PUBLISH[LINT](QI := TRUE, ID := 1); ", "Z.COLD TO X.INIT; P.IND TO X.REQ; ")
    own = network("X : SUBSCRIBE[LINT](QI := TRUE, ID := 1); Z : E_RESTART; ", "Z.COLD TO X.INIT; ")
    setup = "dispatch D R\n" * 2 + "dispatch N Q\n" * 2 + "offer N 1\n" + "dispatch N Q\n" * 2
    others = f"END_DEVICE DEVICE N RESOURCE Q\n{other}END_RESOURCE END_DEVICE"
    return Application("", own, 1, "X.ARRIVE", "deliver 1 D\n", setup, others=others)


def begun(count: int) -> Application:
    """Starts, of which there are as many as instances."""
    own = network("".join(f"X{number} : E_RESTART; " for number in range(count)))
    others = f"RESOURCE Q\n{network(BUTTON)}END_RESOURCE END_DEVICE"
    return Application("", own, 1, "X0.BEGIN", "", most=count, aside="D Q", others=others)


def expired() -> Application:
    """A timer that expires at each tick."""
    own = network("X : E_CYCLE(DT := T#1ms); Z : E_RESTART; ", "Z.COLD TO X.START; ")
    return Application("", own, 1, "X.EXPIRE", "tick D {}\n", "dispatch D R\n" * 2)
