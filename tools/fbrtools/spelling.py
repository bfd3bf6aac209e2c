"""Gives every name the spelling in which it was declared: case has no meaning in a text of fbr, and has one in XML."""
from . import known_types, model

def spell(application):
    """Changes the names that are used in the application into those that are declared."""
    types = {it.name.upper(): it for it in application.types}
    for it in application.types:
        if it.network is not None:
            spell_network(it.network, it, types)
        else:
            spell_chart(it)
        for event in it.event_inputs:
            event.variables = [spelled(it.inputs, name) for name in event.variables]
        for event in it.event_outputs:
            event.variables = [spelled(it.outputs, name) for name in event.variables]
    for device in application.system.devices:
        for resource in device.resources:
            spell_network(resource.network, None, types)


def spelled(declarations, name):
    found = model.named(declarations, name)
    return found.name if found is not None else name.upper()


def spell_chart(it):
    for state in it.states:
        for action in state.actions:
            action.algorithm = spelled(it.algorithms, action.algorithm) if action.algorithm else None
            action.output = spelled(it.event_outputs, action.output) if action.output else None
    for transition in it.transitions:
        transition.source, transition.target = spelled(it.states, transition.source), spelled(it.states, transition.target)
        transition.event = spelled(it.event_inputs, transition.event) if transition.event else None


def spell_network(network, own, types):
    for it in network.instances:
        found = types.get(it.type.upper())
        it.type = found.name if found is not None else it.type.upper()
        interface = interface_of(it, types)
        it.parameters = {spelled(interface.inputs, name): value for name, value in it.parameters.items()}
    instances = {it.name.upper(): it for it in network.instances}
    for connections, what in ((network.events, "event"), (network.data, "data")):
        for it in connections:
            it.source, it.target = spell_port(it.source, instances, own, types, what), spell_port(it.target, instances, own, types, what)


def spell_port(port, instances, own, types, what):
    it = instances.get(port.instance.upper())
    interface = interface_of(it, types) if it is not None else own
    declared = interface.event_inputs + interface.event_outputs if what == "event" else interface.inputs + interface.outputs
    return model.Port(it.name if it is not None else "", spelled(declared, port.name))


def interface_of(it, types):
    """The interface of an instance: of a type of the text, or of one that the program has."""
    name = it.type.upper()
    if name in types:
        return types[name]
    return known_types.interface(name) or model.BlockType(name)
