"""What is known of the device of a record before anything has come to it: all of it is asked of `fbr`."""
import json
import re
import subprocess
from dataclasses import dataclass, field

from .drawing import Drawing, Instance, read_drawing

RECORD = re.compile(r"fbr-record [0-9]+ (\S+) ")
CHANNELLED = re.compile(r"OUTPUT ([0-9]+)")


class Refused(Exception):
    """`fbr` refuses the texts, or cannot be asked: its lines, and its status."""

    def __init__(self, says: str, status: int) -> None:
        super().__init__(says)
        self.status = status


@dataclass
class Plant:
    """A device: its instances by their shortest names, the depths of queues, the states of charts, and all values at first."""

    device: str
    drawing: Drawing | None
    instances: dict[str, Instance] = field(default_factory=dict)
    names: dict[str, str] = field(default_factory=dict)
    outputs: dict[int, str] = field(default_factory=dict)
    depths: dict[str, int] = field(default_factory=dict)
    charts: dict[str, list[str]] = field(default_factory=dict)
    states: dict[str, str] = field(default_factory=dict)
    values: dict[str, str] = field(default_factory=dict)
    queues: dict[str, int] = field(default_factory=dict)


def asked(program: str, *words: str) -> str:
    """What the program prints; Refused if it refuses or cannot be run."""
    try:
        done = subprocess.run([program, *words], stdin=subprocess.DEVNULL, capture_output=True, text=True)
    except OSError as why:
        raise Refused(f"{program} cannot be run: {why.strerror}", 3) from why
    if done.returncode != 0:
        raise Refused((done.stderr.strip() or done.stdout.strip())[:2000], done.returncode if done.returncode > 0 else 3)
    return done.stdout


def shortest_names(drawing: Drawing, device: str) -> dict[str, str]:
    """The shortest name within the device of each path of an instance: without the resource, unless another resource has such an instance."""
    paths = [it.path.split(".", 2) for it in drawing.instances.values()]
    behind = [it[2] for it in paths if it[0] == device]
    return {".".join(it): it[2] if behind.count(it[2]) == 1 else f"{it[1]}.{it[2]}" for it in paths if it[0] == device}


def check(program: str, app: str, certificate: str) -> None:
    """Raises Refused, with the words of the program, if it does not accept the two texts."""
    asked(program, "check", app, certificate)


def read_plant(program: str, app: str, certificate: str, head: str) -> Plant | None:
    """The device of the record that begins with this line; nothing if it names no device of the application, which `replay` says too."""
    found = RECORD.match(head)
    drawing = read_drawing(asked(program, "draw", app, certificate))
    device = found[1].upper() if found else ""
    if device not in drawing.devices:
        return None
    plant = Plant(device, drawing)
    plant.names = shortest_names(drawing, device)
    for it in drawing.instances.values():
        if it.path in plant.names:
            plant.instances[plant.names[it.path]] = it
            if number := CHANNELLED.fullmatch(it.what):
                plant.outputs[int(number[1])] = plant.names[it.path]
    read_rows(plant, json.loads(asked(program, "explain", app, certificate, "--json")))
    read_first(plant, asked(program, "sim", app, certificate, "--json", "--watch", "*"))
    return plant


def read_rows(plant: Plant, explained: dict) -> None:
    """Takes the depths of queues and the states of charts from what `explain --json` says."""
    for it in explained["resources"]:
        device, _, resource = it["path"].partition(".")
        if device == plant.device:
            plant.depths[resource] = it["depth"]
    for it in explained["states"]:
        path, _, state = it["path"].rpartition(".")
        plant.charts.setdefault(path, []).append(state)


def shown(value: bool | int, kind: str) -> str:
    """A value as it is written in the text."""
    if isinstance(value, bool):
        return "TRUE" if value else "FALSE"
    return f"T#{value}ms" if kind == "TIME" else str(value)


def read_first(plant: Plant, said: str) -> None:
    """Takes what all holds at first, as `sim --json --watch '*'` tells it for an empty script."""
    for it in map(json.loads, said.splitlines()):
        if it.get("device") != plant.device or "path" not in it:
            continue
        path = it["path"]
        if "state" in it:
            plant.states[path] = it["state"]
        elif "queue" in it:
            plant.queues[path] = it["queue"]
        elif "value" in it:
            plant.values[path] = shown(it["value"], it["type"])
