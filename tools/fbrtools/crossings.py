"""Gives each event that an application leads from device to device a PUBLISH, a SUBSCRIBE, and a channel of its own, with the data that are WITH it."""
from . import model
from .system_read import START
from .words import free_name


def add_channels(plant, library, findings):
    """Puts the PUBLISH and SUBSCRIBE blocks for all crossings into the resources; `attributes["wire"]` of both says which event it is."""
    networks = dict(plant.networks())
    carried = {}
    for it in plant.events:
        carried.setdefault((it.source_at, it.source), [])
    for it in plant.data:
        event = event_for(plant, networks, library, findings, it)
        if event is not None:
            carried[event].append(it)
    for (place, port), data in carried.items():
        targets = [it for it in plant.events if (it.source_at, it.source) == (place, port)]
        values = list(dict.fromkeys(it.source.name for it in data))
        refuse_two_resources(findings, port, targets)
        publish(networks[place], place, port, values, targets[0].place)
        for target_at in dict.fromkeys(it.target_at for it in targets):
            events_there = [it for it in targets if it.target_at == target_at]
            data_there = [it for it in data if it.target_at == target_at]
            subscribe(networks[target_at], (place, port), values, events_there, data_there)


def refuse_two_resources(findings, port, targets):
    """A device takes a channel once."""
    first = {}
    for it in targets:
        other = first.setdefault(it.target_at.device, it.target_at)
        if other != it.target_at:
            problem = f"{port} leads to two resources of {other.device}, {other.resource} and {it.target_at.resource}"
            findings.refuse(it.place, f"Connection {it.source} to {it.target}", problem, "map both targets to one resource")


def event_for(plant, networks, library, findings, it):
    """The crossing event that brings this value, or None with a refusal."""
    instance = networks[it.source_at].instance(it.source.instance)
    kind = library.get(instance.type) if instance is not None else None
    if kind is None:
        return None
    found = []
    for event in kind.event_outputs:
        here = (it.source_at, model.Port(it.source.instance, event.name))
        led = any((one.source_at, one.source, one.target_at) == (*here, it.target_at) for one in plant.events)
        if led and any(name.upper() == it.source.name.upper() for name in event.variables):
            found.append(here)
    subject = f"Connection {it.source} to {it.target}"
    if not found:
        problem = f"it leads from {it.source_at} to {it.target_at}, and no event WITH {it.source.name} does"
        findings.refuse(it.place, subject, problem, "connect such an event too, or use PUBLISH and SUBSCRIBE")
    elif len(found) > 1:
        problem = f"two events with {it.source.name} lead to {it.target_at}: {found[0][1]} and {found[1][1]}"
        findings.refuse(it.place, subject, problem, "join them by an E_MERGE, or use PUBLISH and SUBSCRIBE")
    return found[0] if len(found) == 1 else None


def publish(network, place, port, values, line):
    block = service(network, "PUBLISH", (place, port), values, line)
    network.events.append(model.Connection(port, model.Port(block.name, "REQ"), place=line))
    for at, value in enumerate(values, 1):
        network.data.append(model.Connection(model.Port(port.instance, value), model.Port(block.name, f"SD_{at}"), place=line))


def subscribe(network, event, values, targets, data):
    block = service(network, "SUBSCRIBE", event, values, targets[0].place)
    for it in targets:
        network.events.append(model.Connection(model.Port(block.name, "IND"), it.target, place=it.place))
    for it in data:
        source = model.Port(block.name, f"RD_{values.index(it.source.name) + 1}")
        network.data.append(model.Connection(source, it.target, place=it.place))


def service(network, kind, event, values, line):
    """A PUBLISH or SUBSCRIBE that is opened at the start, before whatever else begins there."""
    place, port = event
    taken = [it.name for it in network.instances]
    name = free_name(f"{kind.capitalize()}_{port.instance}_{port.name}", taken)
    it = model.Instance(name, f"{kind}_{len(values)}", parameters={"QI": "1"}, attributes={"wire": f"{place}.{port}"}, place=line)
    start = network.instance(START) or next((one for one in network.instances if one.type.upper() == "E_RESTART"), None)
    if start is None:
        start = model.Instance(START, "E_RESTART", place=line)
        network.instances.insert(0, start)
    network.instances.append(it)
    network.events.insert(0, model.Connection(model.Port(start.name, "COLD"), model.Port(it.name, "INIT"), place=line))
    return it
