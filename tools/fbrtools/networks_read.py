"""Reads networks of instances, with subapplications in them, from their elements."""
from dataclasses import dataclass, field

from . import model


@dataclass
class SubApplication:
    """A subapplication within a network: of a type, or with a network of its own; `defaults` are the start values of its inputs."""

    name: str
    type: str
    network: "Nested | None"
    parameters: dict[str, str]
    defaults: dict[str, str]
    place: model.Place


@dataclass
class Nested(model.Network):
    """A network that may have subapplications in it."""

    subapplications: list[SubApplication] = field(default_factory=list)


def network(element, findings):
    it = Nested()
    for child in element.children:
        if child.tag == "FB":
            it.instances.append(instance(child, findings))
        elif child.tag == "SubApp":
            inner = child.first("SubAppNetwork", "FBNetwork")
            kept = network(inner, findings) if inner is not None else None
            own = defaults(child.first("SubAppInterfaceList", "InterfaceList"))
            it.subapplications.append(SubApplication(child.get("Name"), type_name(child), kept, parameters(child, findings), own, child.place))
        elif child.tag == "EventConnections":
            it.events += [connection(one) for one in child.all("Connection")]
        elif child.tag == "DataConnections":
            it.data += [connection(one) for one in child.all("Connection")]
        elif child.tag == "AdapterConnections":
            for one in child.all("Connection"):
                findings.refuse(one.place, one.subject, "fbr has no adapters", "connect its events and data one by one")
    return it


def defaults(interface):
    """The start values of the inputs of a subapplication's interface."""
    lists = interface.all("InputVars") if interface is not None else []
    return {it.get("Name"): it.get("InitialValue") for one in lists for it in one.all("VarDeclaration") if it.get("InitialValue").strip()}


def type_name(element):
    """The name of a type without the packages that 4diac IDE 2.x and 3.x write before it."""
    return element.get("Type").rpartition("::")[2]


def instance(element, findings):
    attributes = {it.get("Name"): it.get("Value") or it.text for it in element.all("Attribute")}
    given = parameters(element, findings)
    return model.Instance(element.get("Name"), type_name(element), [], given, attributes, element.get("Comment"), element.place)


def parameters(element, findings):
    given = {}
    for it in element.all("Parameter"):
        if it.get("Name") in given:
            findings.refuse(it.place, it.subject, "it is given twice", "leave one")
        if it.get("Value").strip():
            given[it.get("Name")] = it.get("Value").strip()
    return given


def connection(element):
    return model.Connection(port(element.get("Source")), port(element.get("Destination")), element.get("Comment"), element.place)


def port(text):
    """`A.B` is port B of instance A, and `B` the network's own port; of `A.B.C` the last part is the port."""
    instance_name, _, name = text.rpartition(".")
    return model.Port(instance_name, name)
