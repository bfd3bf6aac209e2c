"""Holds the table of the gateway against the text, before anything starts."""
from dataclasses import dataclass, field

from fbrio.lines import Fault
from fbrio.values import types_text

from .ends import End
from .lines import ChannelLine, Route, Table


@dataclass
class Plan:
    """What the gateway does, by a table and a text: its routes, what is wrong, and what is only told."""

    table: Table
    routes: list[Route] = field(default_factory=list)
    faults: list[Fault] = field(default_factory=list)
    notes: list[str] = field(default_factory=list)

    @property
    def is_stamping(self) -> bool:
        """Whether the gateway is the PUBLISH of a channel of format 2."""
        return any(it.format == 2 and not it.line.is_published for it in self.routes)


def no_end(line: ChannelLine, kind: str, ends: list[End]) -> str:
    """That the text has no end of the channel of this kind, and of which channels it has one."""
    there = ", ".join(map(str, sorted({it.channel for it in ends if it.kind == kind}))) or "none"
    return f"the text has no {kind} of channel {line.number}; channels with one: {there}"


def line_fault(line: ChannelLine, ends: list[End], has_boot: bool) -> str:
    """What is wrong with a line, with the ends of its channel; empty where nothing is."""
    first = ends[0]
    publishing = [it.path for it in ends if it.kind == "PUBLISH"]
    if first.types != line.types:
        return f"{line.name} ({first.path}) is {types_text(first.types)} in the text, not {types_text(line.types)}"
    if line.is_published or first.format == 1:
        return ""
    if publishing:
        return f"{line.name} has FORMAT 2, and its one PUBLISH is {publishing[0]}: the gateway cannot be a second one"
    if not has_boot:
        return f"{line.name} has FORMAT 2 in the text: --boot-file FILE is missing, by which its stamps grow over restarts"
    return ""


def plan_line(plan: Plan, line: ChannelLine, ends: list[End], has_boot: bool) -> None:
    """Adds the route of a line to the plan, or what is wrong with it."""
    kind = "PUBLISH" if line.is_published else "SUBSCRIBE"
    of_channel = [it for it in ends if it.channel == line.number]
    wanted = list(dict.fromkeys(it.device for it in of_channel if it.kind == kind))
    if not wanted:
        plan.faults.append(Fault(line.line, no_end(line, kind, ends)))
        return
    if fault := line_fault(line, of_channel, has_boot):
        plan.faults.append(Fault(line.line, fault))
        return
    named = tuple(it for it in plan.table.devices if it.name in wanted)
    if not named:
        plan.faults.append(Fault(line.line, f"{line.name} has its {kind} in {', '.join(wanted)}: add a line `device {wanted[0]} ADDRESS:PORT`"))
        return
    for it in wanted:
        if it not in [device.name for device in named]:
            plan.notes.append(f"{plan.table.name}:{line.line}: {line.name} has a {kind} in {it} too, which no `device` line names")
    plan.routes.append(Route(line, of_channel[0].format, named))


def planned(table: Table, devices: list[str], ends: list[End], has_boot: bool) -> Plan:
    """What the gateway does by this table, with the devices and the ends of the text. `has_boot` is whether a boot file was given."""
    plan = Plan(table)
    for it in table.devices:
        if it.name not in devices:
            plan.faults.append(Fault(it.line, f"the text has no device {it.name}; it has {', '.join(devices)}"))
    for line in table.channels:
        plan_line(plan, line, ends, has_boot)
    if not plan.faults:
        used = {device.name for route in plan.routes for device in route.devices}
        plan.notes += [f"{table.name}:{it.line}: {it.name} has no end of a channel of this table" for it in table.devices if it.name not in used]
    return plan
