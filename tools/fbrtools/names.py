"""Refuses names that fbr cannot have: reserved words, other characters, and names that differ in the case of letters alone."""
import re

from .words import NAME, RESERVED, free_name


def check(application, findings):
    """Looks at every name of the application."""
    scope(findings, [(it.name, it.place, "FBType") for it in application.types])
    for it in application.types:
        scope(findings, [(one.name, one.place, "ECState") for one in it.states])
        scope(findings, [(one.name, one.place, "Algorithm") for one in it.algorithms])
        events = [(one.name, one.place, "Event") for one in it.event_inputs + it.event_outputs]
        variables = [(one.name, one.place, "VarDeclaration") for one in it.inputs + it.outputs + it.internals]
        instances = [(one.name, one.place, "FB") for one in it.network.instances] if it.network is not None else []
        scope(findings, events + variables + instances)
    system = application.system
    scope(findings, [(system.name, system.place, "System")])
    scope(findings, [(it.name, it.place, "Device") for it in system.devices])
    for device in system.devices:
        scope(findings, [(it.name, it.place, "Resource") for it in device.resources])
        for resource in device.resources:
            scope(findings, [(it.name, it.place, "FB") for it in resource.network.instances])


def scope(findings, declared):
    """The names of one name space: triples of a name, its place, and the element that declares it."""
    seen = {}
    taken = [name for name, _, _ in declared]
    for name, place, element in declared:
        subject = f"{element} {name}"
        if not NAME.match(name):
            findings.refuse(place, subject, "a name is a letter or _, then letters, digits and _", f"rename it, to {proper(name, taken)} for instance")
        elif name.upper() in RESERVED:
            findings.refuse(place, subject, f"{name.upper()} is a reserved word", f"rename it, to {free_name(name, taken)} for instance")
        elif name.upper() in seen:
            other = seen[name.upper()]
            problem = f"it differs from {other[1]} {other[0]} only in letter case"
            if other[0] == name:
                problem = f"another {other[1]} here is named {name}"
            findings.refuse(place, subject, problem, f"rename it, to {free_name(name, taken)} for instance")
        seen.setdefault(name.upper(), (name, element))


def proper(name, taken):
    """A name like this one that is possible."""
    found = re.sub(r"\W", "_", name, flags=re.ASCII) or "NAME"
    return free_name(found if not found[0].isdigit() else f"_{found}", taken)
