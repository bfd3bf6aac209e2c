"""An application as fbr reads it: function block types, and one system of devices, resources, instances and connections.

Names keep the spelling in which they were declared. Numbers, guards and bodies of algorithms are kept as text: only the program judges them."""
from dataclasses import dataclass, field


@dataclass(frozen=True)
class Place:
    """Where something was read: a file as it was named, and a line from 1 (0 if it has none)."""

    file: str
    line: int = 0

    def __str__(self):
        return f"{self.file}:{self.line}" if self.line else self.file


@dataclass(frozen=True)
class Port:
    """A port of an instance; the network's own port if `instance` is empty."""

    instance: str
    name: str

    def __str__(self):
        return f"{self.instance}.{self.name}" if self.instance else self.name


@dataclass
class Event:
    name: str
    variables: list[str] = field(default_factory=list)
    comment: str = ""
    place: Place | None = None


@dataclass
class Variable:
    """A data port or an internal variable; `bounds` are the lowest and the highest index of an array."""

    name: str
    type: str
    start: str | None = None
    bounds: tuple[int, int] | None = None
    comment: str = ""
    place: Place | None = None


@dataclass
class Action:
    algorithm: str | None = None
    output: str | None = None


@dataclass
class State:
    name: str
    actions: list[Action] = field(default_factory=list)
    comment: str = ""
    place: Place | None = None


@dataclass
class Transition:
    """A transition without an event and without a guard is always true, which the text writes as 1."""

    source: str
    target: str
    event: str | None = None
    guard: str | None = None
    comment: str = ""
    place: Place | None = None


@dataclass
class Algorithm:
    """`body` is Structured Text without the words around it, indented from column 0."""

    name: str
    body: str
    comment: str = ""
    place: Place | None = None


@dataclass
class Instance:
    """`value_types` are those in brackets after INPUT, OUTPUT, PUBLISH and SUBSCRIBE; an entry is None until it is found.

    `attributes` are those that a file in XML has beside the parameters."""

    name: str
    type: str
    value_types: list[str | None] = field(default_factory=list)
    parameters: dict[str, str] = field(default_factory=dict)
    attributes: dict[str, str] = field(default_factory=dict)
    comment: str = ""
    place: Place | None = None


@dataclass
class Connection:
    source: Port
    target: Port
    comment: str = ""
    place: Place | None = None


@dataclass
class Network:
    instances: list[Instance] = field(default_factory=list)
    events: list[Connection] = field(default_factory=list)
    data: list[Connection] = field(default_factory=list)

    def instance(self, name):
        """The instance of this name, in whatever case, or None."""
        return named(self.instances, name)

    def by_name(self):
        """The instances by their names in capitals; the first one of a name."""
        return {it.name.upper(): it for it in reversed(self.instances)}


@dataclass
class BlockType:
    """A basic type has states, a composite type has a network, and a service has neither."""

    name: str
    event_inputs: list[Event] = field(default_factory=list)
    event_outputs: list[Event] = field(default_factory=list)
    inputs: list[Variable] = field(default_factory=list)
    outputs: list[Variable] = field(default_factory=list)
    internals: list[Variable] = field(default_factory=list)
    states: list[State] = field(default_factory=list)
    transitions: list[Transition] = field(default_factory=list)
    algorithms: list[Algorithm] = field(default_factory=list)
    network: Network | None = None
    comment: str = ""
    place: Place | None = None

    def input(self, name):
        return named(self.inputs, name)

    def output(self, name):
        return named(self.outputs, name)


def named(declarations, name):
    """The declaration of this name, in whatever case, or None."""
    return next((it for it in declarations if it.name.upper() == name.upper()), None)


@dataclass
class Resource:
    name: str
    network: Network
    comment: str = ""
    place: Place | None = None


@dataclass
class Device:
    name: str
    resources: list[Resource] = field(default_factory=list)
    comment: str = ""
    place: Place | None = None


@dataclass
class System:
    name: str
    devices: list[Device] = field(default_factory=list)
    comment: str = ""
    place: Place | None = None


@dataclass
class Application:
    """A whole text."""

    types: list[BlockType]
    system: System
