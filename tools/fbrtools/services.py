"""Makes services of fbr of the blocks that other tools have for them, and blocks of a type of F_ADD and its like."""
from . import channels, known_types, model, wires
from .library import is_service
from .text_read import whole_number
from .words import NUMBER, TYPES, constant, free_name

# Of each terminal the events that are passed on at once, and its ports with the names that they have in fbr.
# INIT to INITO and REQ to CNF are wires: fbr opens terminals by itself, and what an INPUT read last stays there to be asked for.
BRIDGES = {"INIT": "INITO", "REQ": "CNF"}
PORTS = {"IN": "RD_1", "OUT": "SD_1"}


class Translator:
    """`types` are the blocks that were made, by their names; `channel_types` are the ends of each channel, by its ID."""

    def __init__(self, library, numbers, inference, findings):
        self.library, self.numbers, self.inference, self.findings = library, numbers, inference, findings
        self.types, self.channel_types = {}, {}

    def network(self, at, network, terminals):
        """Translates a network in place; `terminals` numbers the terminals of its device, None within a composite."""
        bridges, kept, renamed = {}, set(), {}
        for it in network.instances:
            kind, name = self.library.get(it.type), it.type.upper()
            if kind is None:
                continue
            if not is_service(kind):
                it.type = kind.name
                self.constants(it, kind)
            elif name in known_types.TERMINALS:
                bridges[it.name.upper()] = BRIDGES
                kept |= {(it.name.upper(), "REQ")} if name[0] == "Q" else set()
                renamed[it.name.upper()] = PORTS
                self.terminal(it, terminals)
            elif channels.is_end(it):
                self.publishing(it, kind)
            elif known_types.operands(name):
                self.function(at, it)
            else:
                self.plain(it, kind, name)
        network.events = bridged(network.events, bridges, kept, self.findings)
        sources = {it.source.instance for it in network.events}
        network.instances = [it for it in network.instances if it.name in sources or "implied" not in it.attributes]
        for it in network.data:
            it.source, it.target = renamed_port(it.source, renamed), renamed_port(it.target, renamed)

    def constants(self, it, kind):
        """The parameters of an instance as fbr writes them, with the names that its type declares."""
        given, it.parameters = it.parameters, {}
        for name, value in given.items():
            port = kind.input(name)
            if port is not None and port.type in TYPES:
                it.parameters[port.name] = self.constant(it, name, value, port.type)

    def constant(self, it, name, value, kind):
        """A parameter as fbr writes it; what is none of this type is refused, and kept."""
        found = constant(value, kind)
        if found is None:
            self.findings.refuse(it.place, f"FB {it.name}", f"{name} := {value} is not a constant of type {kind}", "write one of that type")
        return found or value

    def plain(self, it, kind, name):
        """Event blocks, timers, and the INPUT and OUTPUT that fbr-export writes."""
        found = known_types.WRITTEN_BY_EXPORT.match(name)
        it.type = kind.name
        if found:
            it.type, it.value_types = found[1], found[2].split("_")[1:]
        self.constants(it, kind)
        if found and "ID" not in it.parameters:
            self.findings.refuse(it.place, f"FB {it.name}", f"{name} has no ID", "give it the number of its terminal")

    def terminal(self, it, terminals):
        direction, value = known_types.TERMINALS[it.type.upper()]
        subject = f"FB {it.name}"
        if terminals is None:
            self.findings.refuse(it.place, subject, f"{it.type} is within a composite", "put it into the resource, beside the composite")
            return
        opened = it.parameters.get("QI", "").strip()
        if opened and constant(opened, "BOOL") != "TRUE":
            self.findings.refuse(it.place, subject, f"QI := {opened} keeps it closed", "give QI the value 1, or remove the block")
        if not opened:
            self.findings.note(it.place, subject, f"its QI is not given; fbr takes {it.type} to be open")
        number = terminals.give(direction, it.parameters.get("PARAMS", "").strip().strip("\"'"))
        given, it.parameters = it.parameters, {"ID": str(number)}
        if "OUT" in given:
            it.parameters["SD_1"] = self.constant(it, "OUT", given["OUT"], value)
        it.type, it.value_types = direction, [value]

    def publishing(self, it, kind):
        name, count = channels.identifier(it), len(kind.inputs) - 2 if it.type.upper().startswith("PUBLISH") else len(kind.outputs) - 2
        it.value_types = [self.inference.of((name, at)) for at in range(1, count + 1)]
        self.channel_types.setdefault(name, []).append(it)
        given = {"ID": str(self.numbers.get(name, 0))}
        form = it.attributes.get("FbrFormat", it.parameters.get("FORMAT", ""))
        values = {f"SD_{at}": it.value_types[at - 1] for at in range(1, count + 1)} | {"QI": "BOOL"}
        for port in ["QI", *values]:
            text = it.parameters.get(port)
            if text is not None and values[port] is not None:
                given[port] = self.constant(it, port, text, values[port])
        if form:
            given["FORMAT"] = self.constant(it, "FORMAT", form, "USINT")
        if "QI" not in it.parameters:
            self.findings.note(it.place, f"FB {it.name}", "its QI is not given, and is FALSE unless a wire sets it: it opens only with QI := 1")
        it.type, it.parameters = known_types.PUBLISHING.match(it.type.upper())[1], given

    def function(self, at, it):
        """A block of one type for F_ADD and its like, named F_ADD_INT."""
        inputs, output, expression = known_types.operands(it.type.upper())
        generic = "ANY" in (output, *(one.partition(":")[2] for one in inputs.split()))
        kind = self.inference.of((at, it.name.upper())) if generic else None
        if generic and kind is None:
            return
        operation = it.type.upper().removeprefix("F_")
        if generic and kind not in known_types.types_of(operation):
            remedy = f"use it with {' or '.join(known_types.types_of(operation))}"
            self.findings.refuse(it.place, f"FB {it.name}", f"{it.type} of {kind} has no counterpart", remedy)
            return
        name = f"F_{operation}_{kind}" if generic else it.type.upper()
        if name not in self.types:
            self.types[name] = typed_block(name, inputs, output, expression, kind, it.place)
        self.constants(it, self.types[name])
        it.type = name


def typed_block(name, inputs, output, expression, kind, place):
    """A basic type that answers REQ by CNF, with the value of an expression."""
    variables = [model.Variable(one.partition(":")[0], one.partition(":")[2].replace("ANY", kind or "")) for one in inputs.split()]
    body = f"OUT := {expression};" if expression else "IF G THEN\n  OUT := IN1;\nELSE\n  OUT := IN0;\nEND_IF;"
    return model.BlockType(
        name,
        [model.Event("REQ", [it.name for it in variables])],
        [model.Event("CNF", ["OUT"])],
        variables,
        [model.Variable("OUT", output.replace("ANY", kind or ""))],
        states=[model.State("Waits"), model.State("Answers", [model.Action("Calculate", "CNF")])],
        transitions=[model.Transition("Waits", "Answers", "REQ"), model.Transition("Answers", "Waits")],
        algorithms=[model.Algorithm("Calculate", body)],
        place=place,
    )


def passing_block(kind, place):
    """A basic type that passes a value on."""
    it = typed_block(f"PASS_{kind}", f"IN:{kind}", kind, "IN", kind, place)
    it.comment = "Passes a value on: a composite's own input does not go straight to its own output."
    return it


def renamed_port(port, renamed):
    names = renamed.get(port.instance.upper(), {})
    return model.Port(port.instance, names.get(port.name.upper(), port.name))


def bridged(events, bridges, kept, findings):
    """The connections with those of bridged events led on: `bridges` are by the names of instances, `kept` are bridged inputs that stay connected too."""
    leaving = {}
    for it in events:
        leaving.setdefault((it.source.instance.upper(), it.source.name.upper()), []).append(it.target)

    def step(port):
        here = (port.instance.upper(), port.name.upper())
        onward = bridges.get(here[0], {}).get(here[1])
        if onward is None:
            return port, []
        return port if here in kept else None, leaving.get((here[0], onward), [])

    circle = "the event runs in a circle of blocks that pass it on at once", "break the circle, by an E_DELAY for instance"
    follower = wires.Follower(step, circle, findings)
    out = []
    for it in events:
        if it.source.name.upper() not in bridges.get(it.source.instance.upper(), {}).values():
            out += [model.Connection(it.source, end, it.comment, it.place) for end in follower.ends(it.target, it.target, it.place)]
    return out


class Terminals:
    """Numbers the terminals of a device: each INPUT and each OUTPUT gets the lowest number that is free in these networks."""

    def __init__(self, device, networks):
        self.device, self.rows, self.used = device, [], {"INPUT": set(), "OUTPUT": set()}
        for network in networks:
            for it in network.instances:
                found = known_types.WRITTEN_BY_EXPORT.match(it.type.upper())
                if found and NUMBER.match(it.parameters.get("ID", "")):
                    self.used[found[1]].add(whole_number(it.parameters["ID"]))

    def give(self, direction, parameters):
        """The number of one more terminal; `parameters` are its PARAMS, which the table tells beside the number."""
        number = 1
        while number in self.used[direction]:
            number += 1
        self.used[direction].add(number)
        self.rows.append(f"{self.device} {direction} {number} {parameters}".rstrip())
        return number


def pass_through(own, types, findings):
    """Gives a composite a block for each wire from its own input to its own output; the blocks' types are added to `types`."""
    network = own.network
    events = {it.source.name for it in network.events if is_pass(it)}
    data = list(dict.fromkeys(it.source.name for it in network.data if is_pass(it)))
    taken = [it.name for it in network.instances]
    first = []
    for name in data:
        port = own.input(name)
        block = free_name(f"Pass_{name}", taken)
        taken.append(block)
        kind = types.setdefault(f"PASS_{port.type}", passing_block(port.type, own.place)).name
        network.instances.append(model.Instance(block, kind, place=own.place))
        samplers = [it.name for it in own.event_inputs if name.upper() in (one.upper() for one in it.variables)]
        if not samplers:
            findings.refuse(port.place, f"VarDeclaration {name}", "it goes straight to an output, and no event is WITH it", "give it to an event by With")
        first += [model.Connection(model.Port("", it), model.Port(block, "REQ"), place=own.place) for it in samplers]
        lead_through(network.data, name, model.Port(block, "IN"), model.Port(block, "OUT"))
    for name in dict.fromkeys(it.name for it in own.event_inputs if it.name in events):
        block = free_name(f"Pass_{name}", taken)
        taken.append(block)
        network.instances.append(model.Instance(block, "E_MERGE", place=own.place))
        lead_through(network.events, name, model.Port(block, "EI1"), model.Port(block, "EO"))
    network.events[:0] = first


def is_pass(it):
    return not it.source.instance and not it.target.instance


def lead_through(connections, name, entry, leaving):
    """Puts a block into the wires from one own input to own outputs; it is entered where the first of them was."""
    at = next(at for at, it in enumerate(connections) if is_pass(it) and it.source.name == name)
    place = connections[at].place
    for it in connections:
        if is_pass(it) and it.source.name == name:
            it.source = leaving
    connections.insert(at, model.Connection(model.Port("", name), entry, place=place))
