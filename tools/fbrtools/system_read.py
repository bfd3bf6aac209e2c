"""Reads a system (.sys) and puts the instances of its applications where they are mapped."""
from dataclasses import dataclass, field

from . import model, networks_read
from .flatten import flat

START = "START"


@dataclass(frozen=True)
class Location:
    """A resource of a device, by their names."""

    device: str
    resource: str

    def __str__(self):
        return f"{self.device}.{self.resource}"


@dataclass
class Crossing:
    """A connection of an application whose ends are in different devices."""

    source_at: Location
    source: model.Port
    target_at: Location
    target: model.Port
    place: model.Place


@dataclass
class Plant:
    """A system in which every instance is in a resource; `events` and `data` lead from device to device."""

    system: model.System
    events: list[Crossing] = field(default_factory=list)
    data: list[Crossing] = field(default_factory=list)

    def networks(self):
        """Every resource's location and its network."""
        return [(Location(device.name, it.name), it.network) for device in self.system.devices for it in device.resources]


class Mapper:
    """Puts instances where they are mapped."""

    def __init__(self, root, library, findings):
        self.root, self.library, self.findings = root, library, findings
        self.system = model.System(root.get("Name"), comment=root.get("Comment"), place=root.place)
        self.plant = Plant(self.system)
        self.mappings = {}
        self.unused = {}

    def plant_of(self):
        for element in self.root.all("Device"):
            self.device(element)
        self.places = dict(self.plant.networks())
        for element in self.root.all("Mapping"):
            self.mapping(element)
        own = {place: (list(network.instances), list(network.events), list(network.data)) for place, network in self.places.items()}
        for network in self.places.values():
            network.instances, network.events, network.data = [], [], []
        for element in self.root.all("Application"):
            self.application(element)
        for name, element in self.unused.items():
            self.findings.refuse(element.place, element.subject, f"no application has an instance {name}", "remove the mapping, or mend its name")
        for place, (instances, events, data) in own.items():
            self.add_own(place, instances, events, data)
        return self.plant

    def device(self, element):
        it = model.Device(element.get("Name"), comment=element.get("Comment"), place=element.place)
        self.tell_parameters(element)
        for one in element.all("FBNetwork"):
            if one.children:
                self.findings.refuse(one.place, element.subject, "blocks of a device outside its resources have no counterpart", "put them into a resource")
        for resource in element.all("Resource"):
            self.tell_parameters(resource)
            network = resource.first("FBNetwork")
            nested = networks_read.network(network, self.findings) if network is not None else networks_read.Nested()
            kept = flat(nested, self.library, self.findings).network
            it.resources.append(model.Resource(resource.get("Name"), kept, resource.get("Comment"), resource.place))
        self.system.devices.append(it)

    def tell_parameters(self, element):
        for one in element.all("Parameter"):
            if one.get("Value").strip():
                self.findings.note(one.place, element.subject, f"its parameter {one.get('Name')} := {one.get('Value')} is left out")

    def mapping(self, element):
        source, parts = element.get("From"), element.get("To").split(".")
        place = Location(*parts[:2]) if len(parts) >= 2 else None
        if place not in self.places:
            self.findings.refuse(element.place, element.subject, f"there is no resource {'.'.join(parts[:2])}", "map it to DEVICE.RESOURCE of this system")
            return
        if source in self.mappings:
            self.findings.refuse(element.place, element.subject, f"{source} is mapped twice", "remove one of the mappings")
        self.mappings[source] = (place, "_".join(parts[2:]) or source.rpartition(".")[2])
        self.unused[source] = element

    def application(self, element):
        network = element.first("SubAppNetwork", "FBNetwork")
        if network is None:
            return
        found = flat(networks_read.network(network, self.findings), self.library, self.findings)
        located = {}
        for it in found.network.instances:
            where = self.where(element.get("Name"), found.paths[it.name], it.name)
            if where is None:
                path = f"{element.get('Name')}.{found.paths[it.name]}"
                self.findings.refuse(it.place, f"FB {it.name}", f"{path} is mapped to no resource", "map it to a resource, or take it out of the application")
                continue
            place, name = located[it.name] = where
            self.places[place].instances.append(model.Instance(name, it.type, [], it.parameters, it.attributes, it.comment, it.place))
        names = {it.name for it in found.network.instances}
        self.connect(found.network.events, located, names, "events")
        self.connect(found.network.data, located, names, "data")

    def where(self, application, path, flat_name):
        """The location of an instance and its name there: by its own mapping, or by that of a subapplication that it is in."""
        parts = f"{application}.{path}".split(".")
        paths = [".".join(parts[:length]) for length in range(len(parts), 1, -1)]
        found = [it for it in paths if it in self.mappings]
        for it in found:
            self.unused.pop(it, None)
        if not found:
            return None
        place, name = self.mappings[found[0]]
        return place, name if found[0] == paths[0] else flat_name

    def connect(self, declared, located, names, what):
        for it in declared:
            for port in (it.source, it.target):
                if port.instance not in names:
                    problem = f"the application has no instance {port.instance or port}"
                    self.findings.refuse(it.place, f"Connection {it.source} to {it.target}", problem, "mend its name")
            if it.source.instance not in located or it.target.instance not in located:
                continue
            (source_at, source_name), (target_at, target_name) = located[it.source.instance], located[it.target.instance]
            source, target = model.Port(source_name, it.source.name), model.Port(target_name, it.target.name)
            if source_at == target_at:
                getattr(self.places[source_at], what).append(model.Connection(source, target, it.comment, it.place))
            elif source_at.device == target_at.device:
                problem = f"it leads from resource {source_at.resource} to {target_at.resource} of one device"
                self.findings.refuse(it.place, f"Connection {it.source} to {it.target}", problem, "map both ends to one resource, or to two devices")
            else:
                getattr(self.plant, what).append(Crossing(source_at, source, target_at, target, it.place))

    def add_own(self, place, instances, events, data):
        """Adds what the resource has itself; what an application brought there is in it once."""
        network = self.places[place]
        from_applications = {it.name: it for it in network.instances}
        for it in instances:
            mapped = from_applications.get(it.name)
            if mapped is None:
                network.instances.append(it)
            elif mapped.type.upper() != it.type.upper():
                problem = f"its type is {it.type} here, and {mapped.type} in the application"
                self.findings.refuse(it.place, f"FB {it.name}", problem, "give one of them another name")
            else:
                self.same_parameters(mapped, it)
        for kept, more in ((network.events, events), (network.data, data)):
            known = {(it.source, it.target) for it in kept}
            kept += [it for it in more if (it.source, it.target) not in known]
        self.imply_start(network)

    def same_parameters(self, mapped, it):
        for name, value in it.parameters.items():
            if mapped.parameters.setdefault(name, value) != value:
                problem = f"{name} is {value} here, and {mapped.parameters[name]} in the application"
                self.findings.refuse(it.place, f"FB {it.name}", problem, "give both the same value")

    def imply_start(self, network):
        """A resource's START is there without a declaration."""
        first = next((it for it in network.events if it.source.instance.upper() == START), None)
        if first is not None and network.instance(START) is None:
            network.instances.insert(0, model.Instance(START, "E_RESTART", attributes={"implied": "1"}, place=first.place))


def plant_of(root, library, findings):
    """The plant of a System element."""
    return Mapper(root, library, findings).plant_of()
