"""Reads function block types (.fbt) and subapplication types (.sub) from their elements."""
import re

from . import model, networks_read, structured_text
from .text_read import dedented
from .words import INSTEAD, TYPES, constant, free_name

# Events may have a type of their own in 4diac IDE 2.x; EInit is one that is emitted at the start.
EVENT_TYPES = ("", "EVENT", "EINIT")
# What 4diac IDE says of the first state of each new chart.
WRITTEN_BY_ITSELF = "Initial State"
ARRAY_BOUNDS = re.compile(r"(-?\d+)\s*\.\.\s*(-?\d+)\Z")


def block_type(root, findings):
    """The block type of an FBType element. A composite type has a network of `networks_read` in place of its states; a service has neither."""
    it = model.BlockType(root.get("Name"), comment=root.get("Comment"), place=root.place)
    read_interface(it, root.first("InterfaceList"), findings)
    check_with(it, findings)
    basic, simple, network = root.first("BasicFB"), root.first("SimpleFB"), root.first("FBNetwork")
    if basic is not None:
        read_body(it, basic, findings)
        read_chart(it, basic.first("ECC"), findings)
        check_chart(it, findings)
    elif simple is not None:
        read_body(it, simple, findings)
        simple_chart(it, simple, findings)
        check_chart(it, findings)
    elif network is not None:
        it.network = networks_read.network(network, findings)
    return it


def subapplication_type(root, findings):
    """The network of a SubAppType element, and its inputs with start values; a subapplication is wires, so its ports may have any types."""
    it = model.BlockType(root.get("Name"), comment=root.get("Comment"), place=root.place)
    interface = root.first("SubAppInterfaceList", "InterfaceList")
    it.inputs = [model.Variable(name, "ANY", start) for name, start in networks_read.defaults(interface).items()]
    refuse_adapters(interface, findings)
    network = root.first("SubAppNetwork", "FBNetwork")
    it.network = networks_read.network(network, findings) if network is not None else networks_read.Nested()
    return it


def read_interface(it, interface, findings):
    if interface is None:
        return
    for list_element in interface.children:
        if list_element.tag == "EventInputs":
            it.event_inputs += [event(one, findings) for one in list_element.all("Event")]
        elif list_element.tag == "EventOutputs":
            it.event_outputs += [event(one, findings) for one in list_element.all("Event")]
        elif list_element.tag == "InputVars":
            it.inputs += [variable(one, findings, port=True) for one in list_element.all("VarDeclaration")]
        elif list_element.tag == "OutputVars":
            it.outputs += [variable(one, findings, port=True) for one in list_element.all("VarDeclaration")]
    refuse_adapters(interface, findings)


def refuse_adapters(interface, findings):
    """Refuses what an interface has beside events and data."""
    for list_element in interface.children if interface is not None else []:
        for one in list_element.children:
            if list_element.tag in ("Sockets", "Plugs"):
                findings.refuse(one.place, one.subject, "fbr has no adapters", "connect its events and data one by one")
            elif list_element.tag == "InOutVars":
                findings.refuse(one.place, one.subject, "fbr has no in-out variables", "use an input and an output")


def event(element, findings):
    if element.get("Type").upper() not in EVENT_TYPES:
        findings.refuse(element.place, element.subject, f"events of type {element.get('Type')} have no counterpart", "use Event")
    return model.Event(element.get("Name"), [it.get("Var") for it in element.all("With")], element.get("Comment"), element.place)


def check_with(it, findings):
    """Refuses variables of a With that the type does not have on that side."""
    for side, events, variables in (("input", it.event_inputs, it.inputs), ("output", it.event_outputs, it.outputs)):
        for one in events:
            for name in one.variables:
                if model.named(variables, name) is None:
                    findings.refuse(one.place, f"With {name}", f"{it.name} has no {side} variable of this name", "mend its name, or remove it")


def check_chart(it, findings):
    """Refuses states, algorithms and event outputs that the chart names and the type does not have."""
    for state_of in it.states:
        for action in state_of.actions:
            for kind, name, declared in (("algorithm", action.algorithm, it.algorithms), ("event output", action.output, it.event_outputs)):
                if name and model.named(declared, name) is None:
                    findings.refuse(state_of.place, f"ECState {state_of.name}", f"{it.name} has no {kind} {name}", "mend its name, or remove the action")
    for one in it.transitions:
        for name in (one.source, one.target):
            if model.named(it.states, name) is None:
                problem = f"{it.name} has no state {name or '(none is named)'}"
                findings.refuse(one.place, f"ECTransition {one.source} to {one.target}", problem, "mend its name")


def variable(element, findings, port=False):
    """A variable; of a port whose type has no counterpart the refusal is told here, and its type is kept as it is."""
    kind, size = element.get("Type").rpartition("::")[2].upper(), element.get("ArraySize").strip()
    it = model.Variable(element.get("Name"), kind, None, None, element.get("Comment"), element.place)
    if kind not in TYPES:
        remedy = INSTEAD.get(kind, "declare each field of it as a port of its own" if port else "declare each field of it as a variable of its own")
        findings.refuse(element.place, element.subject, f"fbr has no type {kind or '(none is given)'}", remedy)
    if size and size != "0":
        if port:
            remedy = "declare a port for each element, or keep the array within one block"
            findings.refuse(element.place, element.subject, "arrays at ports have no counterpart", remedy)
        else:
            it.bounds = array_bounds(size)
            if it.bounds is None:
                findings.refuse(element.place, element.subject, f"its ArraySize {size} is not a size", "write the number of elements, or LOW..HIGH")
    start = element.get("InitialValue").strip()
    if start:
        it.start = start_value(element, it, start, findings)
    return it


def array_bounds(size):
    """The lowest and the highest index: of a number of elements they are 0 and one less."""
    if size.isdigit():
        return (0, int(size) - 1)
    found = ARRAY_BOUNDS.match(size.strip("[]"))
    return (int(found[1]), int(found[2])) if found else None


def start_value(element, it, start, findings):
    if it.bounds is not None:
        findings.refuse(element.place, element.subject, "arrays have no start values", "set its elements in an algorithm, or leave them at 0")
        return None
    value = constant(start, it.type)
    if value is None and it.type in TYPES:
        findings.refuse(element.place, element.subject, f"its start value {start} is not a constant of type {it.type}", "write one of that type")
    return value


def read_body(it, body, findings):
    """The internal variables and the algorithms of a basic or a simple type."""
    for declarations in body.all("InternalVars", "InternalConstVars"):
        it.internals += [variable(one, findings) for one in declarations.all("VarDeclaration")]
        for one in declarations.all("FB"):
            findings.refuse(one.place, one.subject, "blocks within a basic block have no counterpart", "make it a composite, and connect the block there")
    for one in body.all("InternalFB", "Method"):
        findings.refuse(one.place, one.subject, f"{one.tag} has no counterpart", "write it as a block type, or as part of an algorithm")
    it.algorithms += [algorithm(one, findings) for one in body.all("Algorithm")]


def algorithm(element, findings):
    it = model.Algorithm(element.get("Name"), "", element.get("Comment"), element.place)
    source = element.first("ST")
    if source is None:
        other = element.first("Other", "FBD", "LD")
        language = (other.get("Language") or other.tag) if other is not None else "none"
        findings.refuse(element.place, element.subject, f"its language is {language}", "write it in Structured Text")
        return it
    in_attribute = "Text" in source.attributes
    try:
        it.body = dedented(structured_text.algorithm(source.get("Text") if in_attribute else source.text))
    except structured_text.Untranslatable as found:
        for problem, remedy, line in found.faults:
            place = source.place if in_attribute else model.Place(source.place.file, source.place.line + line)
            findings.refuse(place, element.subject, f"{problem} has no counterpart", remedy)
    return it


def read_chart(it, chart, findings):
    if chart is None or not chart.all("ECState"):
        findings.refuse(it.place, f"FBType {it.name}", "it has no ECState", "give it at least one state")
        it.states = [model.State("START")]
        return
    it.states = [state(one) for one in chart.all("ECState")]
    for element in chart.all("ECTransition"):
        try:
            found, guard = structured_text.condition(element.get("Condition"), [one.name for one in it.event_inputs])
        except structured_text.Untranslatable as fault:
            for problem, remedy, _ in fault.faults:
                findings.refuse(element.place, element.subject, f"{problem} has no counterpart", remedy)
            continue
        it.transitions.append(model.Transition(element.get("Source"), element.get("Destination"), found, guard, element.get("Comment"), element.place))


def state(element):
    actions = [model.Action(one.get("Algorithm") or None, one.get("Output") or None) for one in element.all("ECAction")]
    comment = element.get("Comment") if element.get("Comment") != WRITTEN_BY_ITSELF else ""
    return model.State(element.get("Name"), [one for one in actions if one.algorithm or one.output], comment, element.place)


def simple_chart(it, simple, findings):
    """A state for each event, from a first state in which the block waits."""
    declared = {one.get("Name").upper(): state(one) for one in simple.all("ECState")}
    waiting = free_name("START", [one.name for one in it.event_inputs])
    it.states.append(model.State(waiting))
    back = []
    for one in it.event_inputs:
        found = declared.pop(one.name.upper(), None)
        actions = found.actions if found else [action_for(it, one, findings)]
        entered = model.State(one.name, actions, found.comment if found else "", one.place)
        it.states.append(entered)
        it.transitions.append(model.Transition(waiting, entered.name, one.name, place=one.place))
        back.append(model.Transition(entered.name, waiting, place=one.place))
    it.transitions += back
    for left in declared.values():
        findings.refuse(left.place, f"ECState {left.name}", "no event input has this name", "name it like the event that runs it")


def action_for(it, event_input, findings):
    """What a simple type without states does at an event: the algorithm of its name, or the only one, and the output that answers it."""
    algorithms = {one.name.upper(): one.name for one in it.algorithms}
    outputs = {one.name.upper(): one.name for one in it.event_outputs}
    only = it.algorithms[0].name if len(it.algorithms) == 1 and len(it.event_inputs) == 1 else None
    run = algorithms.get(event_input.name.upper(), only)
    answer = outputs.get({"REQ": "CNF", "INIT": "INITO"}.get(event_input.name.upper(), ""))
    if answer is None and len(outputs) == 1:
        answer = it.event_outputs[0].name
    if run is None and answer is None:
        findings.refuse(event_input.place, f"Event {event_input.name}", "nothing says what it does", "give it an ECState of its name with an ECAction")
    return model.Action(run, answer)
