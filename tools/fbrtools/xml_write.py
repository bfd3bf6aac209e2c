"""Writes block types and a system as elements of IEC 61499-2."""
import re
import xml.etree.ElementTree as tree

from . import layout
from .known_types import interface as known_interface
from .system_read import START
from .text_read import whole_number

VERSION = {"Organization": "", "Version": "1.0", "Author": "fbr-export", "Date": "2026-01-01"}
# Only comments can have such characters.
NOT_IN_XML = re.compile("[^\\t\\n\\r\\x20-\\ud7ff\\ue000-\\ufffd\\U00010000-\\U0010ffff]")
ADDRESS = "239.192.{}.{}:61499"


def document(root):
    """The text of a file with this root."""
    tree.indent(root)
    return '<?xml version="1.0" encoding="UTF-8"?>\n' + tree.tostring(root, encoding="unicode") + "\n"


def child(parent, tag, comment="", **attributes):
    """A new element; a comment is written where there is one. Characters that XML cannot have become question marks."""
    if comment:
        attributes["Comment"] = comment
    return tree.SubElement(parent, tag, {name: NOT_IN_XML.sub("?", str(value)) for name, value in attributes.items()})


def root_of(tag, it):
    root = tree.Element(tag, {"Name": it.name})
    if it.comment:
        root.set("Comment", NOT_IN_XML.sub("?", it.comment))
    child(root, "Identification", Standard="61499-2")
    child(root, "VersionInfo", **VERSION)
    return root


def block_type(it):
    """The FBType of a basic or a composite type."""
    root = root_of("FBType", it)
    interface(root, it)
    if it.network is not None:
        network(child(root, "FBNetwork"), it.network, implied=False)
    else:
        basic(child(root, "BasicFB"), it)
    return root


def service_type(it):
    """The FBType of a service interface."""
    root = root_of("FBType", it)
    interface(root, it)
    child(root, "Service", LeftInterface="RESOURCE", RightInterface="PLANT")
    return root


def interface(root, it):
    lists = child(root, "InterfaceList")
    for tag, events in (("EventInputs", it.event_inputs), ("EventOutputs", it.event_outputs)):
        if events:
            parent = child(lists, tag)
            for event in events:
                element = child(parent, "Event", event.comment, Name=event.name, Type="Event")
                for name in event.variables:
                    child(element, "With", Var=name)
    for tag, declared in (("InputVars", it.inputs), ("OutputVars", it.outputs)):
        variables(lists, tag, declared)


def variables(parent, tag, declared):
    if not declared:
        return
    element = child(parent, tag)
    for it in declared:
        attributes = {"Name": it.name, "Type": it.type}
        if it.bounds is not None:
            attributes["ArraySize"] = str(it.bounds[1] + 1) if it.bounds[0] == 0 else f"{it.bounds[0]}..{it.bounds[1]}"
        if it.start is not None:
            attributes["InitialValue"] = it.start
        child(element, "VarDeclaration", it.comment, **attributes)


def basic(body, it):
    variables(body, "InternalVars", it.internals)
    chart = child(body, "ECC")
    numbers = {state.name: at for at, state in enumerate(it.states)}
    places = layout.places(len(it.states), [(numbers[one.source], numbers[one.target]) for one in it.transitions])
    for state, (x, y) in zip(it.states, places):
        element = child(chart, "ECState", state.comment, Name=state.name, x=x, y=y)
        for action in state.actions:
            child(element, "ECAction", **{name: value for name, value in (("Algorithm", action.algorithm), ("Output", action.output)) if value})
    for at, one in enumerate(it.transitions):
        (x1, y1), (x2, y2) = places[numbers[one.source]], places[numbers[one.target]]
        where = {"x": (x1 + x2) // 2, "y": (y1 + y2) // 2 + 40 * at}
        child(chart, "ECTransition", one.comment, Source=one.source, Destination=one.target, Condition=condition(one), **where)
    for one in it.algorithms:
        child(child(body, "Algorithm", one.comment, Name=one.name), "ST", Text=one.body + "\n" if one.body else "")


def condition(it):
    guard = f"[{it.guard}]" if it.guard is not None else ""
    return f"{it.event or ''}{guard}" or "1"


def network(element, it, implied):
    """The instances and connections of a network; with `implied` the resource has a START of its own."""
    instances = it.instances[1:] if implied and has_implied_start(it) else it.instances
    numbers = {one.name: at for at, one in enumerate(instances)}
    joined = [(numbers.get(one.source.instance), numbers.get(one.target.instance)) for one in it.events + it.data]
    places = layout.places(len(instances), [edge for edge in dict.fromkeys(joined) if None not in edge])
    for one, (x, y) in zip(instances, places):
        instance(element, one, x, y)
    connections(element, "EventConnections", it.events)
    connections(element, "DataConnections", it.data)


def has_implied_start(it):
    """Whether the first instance is the START that a resource has by itself."""
    first = it.instances[0] if it.instances else None
    return first is not None and first.name.upper() == START and first.type == "E_RESTART" and any(one.source.instance == first.name for one in it.events)


def connections(parent, tag, declared):
    if declared:
        element = child(parent, tag)
        for it in declared:
            child(element, "Connection", it.comment, Source=it.source, Destination=it.target)


def instance(parent, it, x, y):
    kind, given, attributes = written(it)
    element = child(parent, "FB", it.comment, Name=it.name, Type=kind, x=x, y=y)
    for name, value in given.items():
        child(element, "Parameter", Name=name, Value=value)
    for name, value in attributes.items():
        child(element, "Attribute", Name=name, Type="STRING", Value=value)


def written(it):
    """The type of an instance in XML, its parameters, and its attributes."""
    if it.type in ("INPUT", "OUTPUT"):
        return service_name(it), it.parameters, {}
    if it.type in ("PUBLISH", "SUBSCRIBE"):
        given = dict(it.parameters)
        number = whole_number(given.pop("ID"))
        form = given.pop("FORMAT", None)
        kinds = {"FbrTypes": ",".join(it.value_types)} if it.value_types else {}
        given["ID"] = '"' + ADDRESS.format(number // 256, number % 256) + '"'
        return service_name(it), given, kinds | ({"FbrFormat": form} if form is not None else {})
    return it.type, it.parameters, {}


def service_name(it):
    """INPUT_BOOL_INT of an INPUT of these values; PUBLISH_2 of a PUBLISH of two."""
    if it.type in ("INPUT", "OUTPUT"):
        return "_".join([it.type, *it.value_types])
    return f"{it.type}_{len(it.value_types)}"


def services(application, kinds):
    """The names that the services of these kinds have in XML, each once."""
    networks = [it.network for it in application.types if it.network is not None]
    networks += [resource.network for device in application.system.devices for resource in device.resources]
    return sorted({service_name(it) for one in networks for it in one.instances if it.type in kinds})


def service_types(application):
    """The interfaces of the INPUTs and OUTPUTs that the application has, by their names."""
    return {name: known_interface(name) for name in services(application, ("INPUT", "OUTPUT"))}


def system(it):
    """The System, with everything in resources of type EMB_RES on devices of type FORTE_PC."""
    root = root_of("System", it)
    for at, device in enumerate(it.devices):
        element = child(root, "Device", device.comment, Name=device.name, Type="FORTE_PC", x=100 + layout.WIDE * at, y=100)
        for one in device.resources:
            resource = child(element, "Resource", one.comment, Name=one.name, Type="EMB_RES", x=0, y=0)
            network(child(resource, "FBNetwork"), one.network, implied=True)
    return root


def clashes(application):
    """The block types of the text whose names the services take in XML."""
    taken = services(application, ("INPUT", "OUTPUT", "PUBLISH", "SUBSCRIBE"))
    return [it for it in application.types if it.name.upper() in taken]
