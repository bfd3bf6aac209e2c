"""Makes one network of a network with subapplications in it: they are wires and hold nothing."""
from dataclasses import dataclass, field

from . import model, wires
from .library import Library
from .networks_read import Nested, SubApplication
from .refusals import Findings

DEEPEST = 16
# As many instances as a resource may have; a subapplication without a block in it is of no use.
MOST = 1024


@dataclass
class Scope:
    """A network with the names of the subapplications around it, the outermost first; `parent` is None for the whole.

    `parameters` are the constants of its inputs: parameters, and start values of those that are not connected."""

    network: Nested
    path: tuple[str, ...] = ()
    parent: "Scope | None" = None
    parameters: dict[str, str] = field(default_factory=dict)
    place: model.Place | None = None
    children: dict[str, "Scope"] = field(default_factory=dict)
    events: dict[model.Port, list[model.Connection]] = field(default_factory=dict)
    data: dict[model.Port, list[model.Connection]] = field(default_factory=dict)

    def __post_init__(self):
        for kept, connections in ((self.events, self.network.events), (self.data, self.network.data)):
            for it in connections:
                kept.setdefault(it.source, []).append(it)


@dataclass
class Flat:
    """A network without subapplications; `paths` are the names of its instances as a mapping writes them, by their names in the network."""

    network: model.Network
    paths: dict[str, str]


def flat(network, library, findings):
    """The network with every subapplication's instances in it, named SUBAPPLICATION_INSTANCE."""
    whole = Scope(network)
    Opener(library, findings).open(whole, ())
    by_path = {it.path: it for it in scopes(whole)}
    out, paths = model.Network(), {}
    for scope in by_path.values():
        for it in scope.network.instances:
            out.instances.append(leaf(scope, it))
            paths[out.instances[-1].name] = ".".join((*scope.path, it.name))
    events, data = follower_of(by_path, "events", findings), follower_of(by_path, "data", findings)
    instances = {it.name: it for it in out.instances}
    for scope in by_path.values():
        out.events += connections(scope, scope.network.events, "events", events)
        out.data += connections(scope, scope.network.data, "data", data)
        give_parameters(scope, instances, data)
    return Flat(out, paths)


def scopes(scope):
    yield scope
    for child in scope.children.values():
        yield from scopes(child)


def leaf(scope, it):
    named = "_".join((*scope.path, it.name))
    return model.Instance(named, it.type, [], dict(it.parameters), it.attributes, it.comment, it.place)


@dataclass
class Opener:
    """Opens subapplications, so many at most."""

    library: Library
    findings: Findings
    opened: int = 0

    def open(self, scope, above):
        """Opens each subapplication of the network; `above` are the types that it is within."""
        kept = []
        for it in scope.network.instances:
            if self.library.is_subapplication(it.type):
                self.enter(scope, SubApplication(it.name, it.type, None, it.parameters, {}, it.place), above)
            else:
                kept.append(it)
        scope.network.instances = kept
        for it in scope.network.subapplications:
            self.enter(scope, it, above)

    def enter(self, scope, it, above):
        subject, network, defaults = f"SubApp {it.name}", it.network, it.defaults
        if network is None:
            found = self.library.get(it.type) if it.type else None
            if found is None or found.network is None or not self.library.is_subapplication(it.type):
                problem = f"its type {it.type or '(none is given)'} is not found"
                self.findings.refuse(it.place, subject, problem, "put its .sub beside the file, or name its folder with --library")
                return
            network, defaults = found.network, {one.name: one.start for one in found.inputs} | defaults
        self.opened += 1
        if it.type and it.type.upper() in above or len(scope.path) == DEEPEST:
            self.findings.refuse(it.place, subject, f"it is within itself, or more than {DEEPEST} deep", "flatten it in the tool that wrote it")
        elif self.opened > MOST:
            self.findings.refuse(it.place, subject, f"it and those before it are more than {MOST} subapplications", "split the system")
        else:
            copied = Nested(list(network.instances), network.events, network.data, list(network.subapplications))
            connected = {one.target for one in scope.network.data}
            given = {name: value for name, value in defaults.items() if model.Port(it.name, name) not in connected} | it.parameters
            scope.children[it.name] = Scope(copied, (*scope.path, it.name), scope, given, it.place)
            self.open(scope.children[it.name], (*above, it.type.upper()) if it.type else above)


def connections(scope, declared, what, follower):
    """The connections that leave an instance of this network, or the whole's own inputs, each led on to the instances where it ends."""
    out = []
    for it in declared:
        # What begins at a subapplication's port is followed from the instance that leads there.
        if it.source.instance in scope.children or not it.source.instance and scope.parent is not None:
            continue
        for target in follower.ends((scope.path, it.target), it.target, it.place):
            out.append(model.Connection(named_port(scope.path, it.source), target, it.comment, it.place))
    return out


def named_port(path, port):
    return model.Port("_".join((*path, port.instance)), port.name) if port.instance else port


def follower_of(by_path, what, findings):
    """Follows wires of events or data through subapplications; a node is the path of a scope and a port in it."""

    def step(node):
        path, port = node
        scope = by_path[path]
        if port.instance in scope.children:
            inner = (*path, port.instance)
            return None, [(inner, it.target) for it in getattr(by_path[inner], what).get(model.Port("", port.name), [])]
        if not port.instance and scope.parent is not None:
            outer = getattr(scope.parent, what).get(model.Port(path[-1], port.name), [])
            return None, [(scope.parent.path, it.target) for it in outer]
        return named_port(path, port), []

    return wires.Follower(step, ("it leads in a circle of subapplications without a block", "remove one of its wires"), findings)


def give_parameters(scope, instances, follower):
    """Gives each parameter of a subapplication to the instances to which its port leads; `instances` are by their names in the whole."""
    for name, child in scope.children.items():
        for port, value in child.parameters.items():
            for target in follower.ends((scope.path, model.Port(name, port)), f"{name}.{port}", child.place):
                if target.instance in instances:
                    instances[target.instance].parameters.setdefault(target.name, value)
