"""What a table of inputs and outputs says: a value for each of its lines."""
from dataclasses import dataclass, field

from .values import Types, Values, types_text

BITS = ("coil", "discrete")
AREAS = {"coil": "0", "discrete": "1", "input": "3", "holding": "4"}


@dataclass(frozen=True)
class Modbus:
    """Coils or registers of a unit, from an address of the protocol (from 0) on. `poll` is in seconds, and only INPUTs have it."""

    host: str
    port: int
    area: str
    address: int
    unit: int = 1
    is_low_first: bool = False
    poll: float | None = None
    only_changes: bool = False

    @property
    def bus(self) -> str:
        """The name of the connection, as people read it."""
        return f"modbus {self.host}:{self.port}"

    @property
    def place(self) -> str:
        """The name of the place on the bus."""
        return f"{self.bus} unit {self.unit} {self.area} at address {self.address}"


@dataclass(frozen=True)
class Mqtt:
    """A topic of the broker. Only OUTPUTs retain."""

    topic: str
    is_retained: bool = False
    bus = "mqtt"

    @property
    def place(self) -> str:
        """The name of the place on the bus."""
        return f"mqtt {self.topic}"


@dataclass(frozen=True)
class Gpio:
    """Lines of a chip, one for each BOOL; of an INPUT which edges count: both, rising or falling."""

    chip: str
    offsets: tuple[int, ...]
    edges: str = ""
    is_active_low: bool = False
    pull: str = ""

    @property
    def bus(self) -> str:
        """The name of the chip, as people read it."""
        return f"gpio {self.chip}"

    @property
    def place(self) -> str:
        """The name of the lines."""
        return f"{self.bus} {','.join(map(str, self.offsets))}"


@dataclass(frozen=True)
class InputLine:
    """Where the values of an INPUT come from. `queue` is the N of `edge N`, and None for a level. `lost` is offered while the bus is lost."""

    line: int
    number: int
    types: Types
    at: Modbus | Mqtt | Gpio
    queue: int | None = None
    lost: Values | None = None
    kind = "INPUT"

    @property
    def name(self) -> str:
        """As `INPUT 1`."""
        return f"INPUT {self.number}"


@dataclass(frozen=True)
class OutputLine:
    """Where the values of an OUTPUT go, and what is put there when the device is silent or has ended."""

    line: int
    number: int
    types: Types
    at: Modbus | Mqtt | Gpio
    safe: Values | None = None
    kind = "OUTPUT"

    @property
    def name(self) -> str:
        """As `OUTPUT 1`."""
        return f"OUTPUT {self.number}"


@dataclass(frozen=True)
class Broker:
    """The broker of MQTT, and the user and the file of the password, if it wants them."""

    line: int
    host: str
    port: int = 1883
    user: str = ""
    password_file: str = ""

    @property
    def name(self) -> str:
        """As people read it."""
        return f"mqtt {self.host}:{self.port}"


@dataclass
class Table:
    """A whole table; `watchdog` is in seconds."""

    name: str
    inputs: list[InputLine] = field(default_factory=list)
    outputs: list[OutputLine] = field(default_factory=list)
    broker: Broker | None = None
    watchdog: float = 5.0

    @property
    def ends(self) -> list[InputLine | OutputLine]:
        """All lines of INPUTs and OUTPUTs, in the order of the table."""
        return sorted(self.inputs + self.outputs, key=lambda it: it.line)


@dataclass(frozen=True, order=True)
class Fault:
    """What is wrong in a line of the table."""

    line: int
    says: str


def described(end: InputLine | OutputLine) -> str:
    """A line of the table as it was understood."""
    if isinstance(end, InputLine):
        how = "level" if end.queue is None else f"edges, {end.queue} wait at most"
        return f"{end.name} {types_text(end.types)} from {end.at.place}: {how}"
    return f"{end.name} {types_text(end.types)} to {end.at.place}"
