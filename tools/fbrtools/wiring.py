"""Looks up what instances and connections name, and refuses what is not there or has no counterpart."""
import re

from . import known_types, model
from .library import is_service

# Types of the standard and of other tools that are often used: why they are not there, and what to do.
MISSING = (
    (re.compile(r"(CLIENT|SERVER)_\d+(_\d+)?\Z"), "CLIENT and SERVER have no counterpart", "use PUBLISH and SUBSCRIBE, one pair for each direction"),
    (re.compile(r"(PUBL|SUBL)_\d+\Z"), "it only works within one device", "connect the blocks in one resource, or use PUBLISH and SUBSCRIBE between devices"),
    (re.compile(r"(PUBLISH|SUBSCRIBE)_\d+\Z"), "it has more than 16 values", "use two channels"),
)
NOT_CONNECTED = {"STATUS": "fbr has no STATUS", "WARM": "fbr has no warm start", "STOP": "fbr has no event when a device stops"}


def check(network, own, library, findings):
    """Keeps the connections whose ends are there, and refuses the others; `own` is the type whose network it is, None of a resource."""
    for it in network.instances:
        check_instance(it, library, findings)
    instances = network.by_name()
    network.events = [it for it in network.events if is_wire(instances, own, library, findings, it, "event")]
    network.data = [it for it in network.data if is_wire(instances, own, library, findings, it, "data")]


def check_instance(it, library, findings):
    kind, subject = library.get(it.type), f"FB {it.name}"
    if kind is None:
        problem, remedy = f"its type {it.type} is not found", f"put {it.type}.fbt beside the file, or name its folder with --library"
        for pattern, words, instead in MISSING:
            if pattern.match(it.type.upper()):
                problem, remedy = f"{words} ({it.type})", instead
        findings.refuse(it.place, subject, problem, remedy)
    elif is_service(kind) and known_types.interface(it.type) is None:
        problem = f"its type {it.type} is a service interface that fbr does not have"
        findings.refuse(it.place, subject, problem, "use IX, QX, PUBLISH or SUBSCRIBE, or write it as a basic type")
    else:
        for name in it.parameters:
            if kind.input(name) is None and not is_profile_parameter(it, name):
                findings.refuse(it.place, subject, f"{it.type} has no data input {name}", "remove the parameter, or mend its name")


def is_profile_parameter(it, name):
    """FORMAT of PUBLISH and SUBSCRIBE is a parameter of fbr alone."""
    return name.upper() == "FORMAT" and known_types.PUBLISHING.match(it.type.upper())


def is_wire(instances, own, library, findings, it, what):
    """Whether both ends of a connection are there; what is not is refused, once for each end."""
    subject = f"Connection {it.source} to {it.target}"
    found = [declared_port(instances, own, library, port, what, leaving) for port, leaving in ((it.source, True), (it.target, False))]
    for answer in found:
        if isinstance(answer, str):
            findings.refuse(it.place, subject, answer, "remove the connection, or mend its name")
    if not all(isinstance(answer, model.Port) for answer in found):
        return False
    it.source, it.target = found
    problem = not_connected(instances, it)
    if problem:
        findings.refuse(it.place, subject, problem, "remove the connection")
    return not problem


def declared_port(instances, own, library, port, what, leaving):
    """The port as it is declared, None if its instance has a type that was refused already, or what is wrong."""
    it = None
    if port.instance:
        it = instances.get(port.instance.upper())
        if it is None:
            return f"there is no instance {port.instance}"
        kind = library.get(it.type)
        if kind is None:
            return None
        inward = not leaving
    elif own is not None:
        kind, inward = own, leaving
    else:
        return f"a resource has no port {port.name}"
    lists = {("event", True): kind.event_inputs, ("event", False): kind.event_outputs, ("data", True): kind.inputs, ("data", False): kind.outputs}
    found = model.named(lists[what, inward], port.name)
    if found is None:
        return f"{port.instance or kind.name} has no {what} {'input' if inward else 'output'} {port.name}"
    return model.Port(it.name if it is not None else "", found.name)


def not_connected(instances, it):
    """Why this output of a known type cannot be connected, or an empty text."""
    source, target = instances.get(it.source.instance.upper()), instances.get(it.target.instance.upper())
    if source is not None and known_types.interface(source.type) is not None and (source.type.upper() == "E_RESTART" or it.source.name.upper() == "STATUS"):
        return NOT_CONNECTED.get(it.source.name.upper(), "")
    if source is not None and source.type.upper() in known_types.TERMINALS and it.source.name.upper() == "QO":
        return f"QO of {source.type} has no counterpart"
    if target is not None and it.target.name.upper() in ("ID", "PARAMS", "QI"):
        if known_types.PUBLISHING.match(target.type.upper()):
            return "an ID has to be a constant" if it.target.name.upper() == "ID" else ""
        if target.type.upper() in known_types.TERMINALS:
            return f"{it.target.name} of {target.type} has to be a constant"
    return ""
