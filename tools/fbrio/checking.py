"""Holds a table against the application before anything starts."""
import importlib.util
import json
import subprocess
from dataclasses import dataclass

from .ends import End, ends_of
from .lines import Fault, InputLine, OutputLine, Table
from .values import types_text
from .words import ServeWords

PACKAGES = {
    "modbus": (("pymodbus", "python3-pymodbus"), ("serial_asyncio", "python3-serial-asyncio")),
    "mqtt": (("paho.mqtt", "python3-paho-mqtt"),),
    "gpio": (("gpiod", "python3-libgpiod"),),
}


class Refused(Exception):
    """The application or the device is refused: what is said, and the status."""

    def __init__(self, says: str, status: int) -> None:
        super().__init__(says)
        self.status = status


@dataclass(frozen=True)
class DeviceEnds:
    """The name of the device in capitals, and its INPUTs and OUTPUTs."""

    device: str
    ends: list[End]

    @property
    def nobody(self) -> int:
        """The greatest number that no INPUT has."""
        return max(set(range(65536)) - set(self.of("INPUT")))

    def of(self, kind: str) -> dict[int, End]:
        """Those of a kind, by number."""
        return {it.number: it for it in self.ends if it.kind == kind}


def verdict(program: list[str], app: str, certificate: str, companion: str = "fbr-io") -> dict:
    """What `fbr explain --json` says of the application and its certificate; Refused where it does not accept them."""
    command = [*program, "explain", app, certificate, "--json"]
    try:
        done = subprocess.run(command, capture_output=True, text=True, check=False)
        found = json.loads(done.stdout)
    except OSError as why:
        raise Refused(f"{companion}: {program[0]}: {why.strerror}", 3) from why
    except json.JSONDecodeError as why:
        raise Refused(f"{done.stdout}{done.stderr}".strip() or f"{' '.join(command)} said nothing", done.returncode or 3) from why
    if found.get("verdict") != "accepted":
        raise Refused(f"{found.get('line', 'refused')}\n{done.stderr}".strip(), done.returncode or 1)
    return found


def too_old(program: list[str], companion: str) -> Refused:
    """That the program does not say what is asked of it."""
    return Refused(f"{companion}: {program[0]} is too old: its `explain --json` does not say which types there are", 3)


def read_device(words: ServeWords) -> DeviceEnds:
    """The INPUTs and OUTPUTs of the device, as the program says them. Refused where it refuses the text, or the text has no such device."""
    found = verdict(words.program, words.app, words.certificate)
    name = words.device.upper()
    try:
        devices, ends = found["devices"], ends_of(found, name)
    except KeyError as why:
        raise too_old(words.program, "fbr-io") from why
    if name not in devices:
        raise Refused(f"refused 21 {name}\nfbr-io: {words.app} has no device {name}; it has {', '.join(devices)}", 2)
    return DeviceEnds(name, ends)


def check_ends(table: Table, device: DeviceEnds) -> list[Fault]:
    """The lines whose number or types are not those of the text."""
    faults = []
    for line in table.ends:
        known = device.of(line.kind)
        if line.number not in known:
            there = ", ".join(map(str, sorted(known))) or "none"
            faults.append(Fault(line.line, f"{device.device} has no {line.name}; its {line.kind}s are: {there}"))
        elif known[line.number].types != line.types:
            wanted = types_text(known[line.number].types)
            faults.append(Fault(line.line, f"{line.name} ({known[line.number].path}) is {wanted} in the text, not {types_text(line.types)}"))
    return faults


def check_password(table: Table) -> list[Fault]:
    """The file of the broker's password, where it cannot be read."""
    if table.broker is None or not table.broker.password_file:
        return []
    try:
        with open(table.broker.password_file, encoding="utf-8") as file:
            file.read()
    except (OSError, UnicodeDecodeError) as why:
        return [Fault(table.broker.line, f"{table.broker.password_file}: {getattr(why, 'strerror', None) or 'not a text file'}")]
    return []


def unused(table: Table, device: DeviceEnds) -> list[str]:
    """The INPUTs and OUTPUTs of the text for which the table has no line, in words."""
    given = {(it.kind, it.number) for it in table.ends}
    return [f"{it.kind} {it.number} ({it.path})" for it in device.ends if (it.kind, it.number) not in given]


def lacking_packages(lines: list[InputLine | OutputLine]) -> list[str]:
    """Debian's packages that the table needs and that are not installed, each with what needs it."""
    buses = sorted({it.at.bus.split()[0] for it in lines})
    lacking = [(bus, package) for bus in buses for module, package in PACKAGES[bus] if not is_there(module)]
    return [f"{bus} needs {package}: apt-get install {package}" for bus, package in lacking]


def is_there(module: str) -> bool:
    """Whether a module can be imported, without importing it."""
    try:
        return importlib.util.find_spec(module) is not None
    except ModuleNotFoundError:
        return False
