"""Finds the types of ports of type ANY from their wires: of PUBLISH and SUBSCRIBE by their channels, of F_ADD and its like by themselves."""
from . import channels
from .words import INTEGERS, TYPES, join, widens


class Inference:
    """`types` is the type of each unknown that was found. An unknown is (ID, n) for value n of a channel, or (network, instance) for a function block."""

    def __init__(self, networks, library, findings):
        """`networks` are pairs of a network and the type that it belongs to, or None."""
        self.networks, self.library, self.findings = networks, library, findings
        self.types, self.fixed = {}, {}
        self.places, self.backed = {}, set()
        self.into, self.out_of = {}, {}
        self.gather()
        self.settle()

    def gather(self):
        for at, (network, own) in enumerate(self.networks):
            for it in network.instances:
                self.gather_instance(at, it)
            instances = network.by_name()
            for it in network.data:
                source = self.port(at, instances, own, it.source, leaving=True)
                target = self.port(at, instances, own, it.target, leaving=False)
                if source is not None and target is not None:
                    self.wire(source, target)

    def gather_instance(self, at, it):
        given = it.attributes.get("FbrTypes", "")
        for number, kind in enumerate(given.split(",") if given and channels.is_end(it) else [], 1):
            if kind.strip().upper() in TYPES:
                self.fixed[channels.identifier(it), number] = kind.strip().upper()
            else:
                self.findings.refuse(it.place, f"FB {it.name}", f"its Attribute FbrTypes has {kind or 'an empty type'}", "write types of values, as INT,BOOL")
        kind = self.library.get(it.type)
        for one in (kind.inputs + kind.outputs) if kind is not None else []:
            if one.type == "ANY":
                unknown = self.unknown(at, it, one.name)
                self.places.setdefault(unknown, (it.place, f"FB {it.name}", one.name))
                head = it.parameters.get(one.name, "").partition("#")
                if head[1] and head[0].upper() in INTEGERS:
                    self.wire(head[0].upper(), unknown)

    def wire(self, source, target):
        """Notes that a value goes from one to the other; each is a type or an unknown."""
        self.into.setdefault(target, []).append(source)
        self.out_of.setdefault(source, []).append(target)

    def unknown(self, at, it, port):
        if channels.is_end(it):
            return (channels.identifier(it), int(port.rpartition("_")[2]))
        return (at, it.name.upper())

    def port(self, at, instances, own, port, leaving):
        """The type of a port, or the unknown that it has; None if nothing is known of it."""
        it = instances.get(port.instance.upper())
        kind = self.library.get(it.type) if it is not None else own
        if kind is None:
            return None
        found = (kind.output if leaving == (it is not None) else kind.input)(port.name)
        if found is None:
            return None
        return self.unknown(at, it, found.name) if found.type == "ANY" else found.type

    def settle(self):
        """Types go with the wires as far as they reach; then an unknown without one takes what its targets want, and it goes on from there."""
        self.types.update(self.fixed)
        changed = True
        while changed:
            changed = self.forward() or self.backward()

    def forward(self):
        changed = False
        for unknown in self.places:
            if unknown in self.fixed:
                continue
            known = self.sources(unknown)
            found = join(known) if known else None
            if found is not None and self.types.get(unknown) != found and unknown not in self.backed:
                self.types[unknown] = found
                changed = True
        return changed

    def backward(self):
        for unknown in self.places:
            if unknown in self.types:
                continue
            wanted = [self.types.get(it, it) for it in self.out_of.get(unknown, [])]
            wanted = [it for it in wanted if it in TYPES]
            narrow = [it for it in wanted if all(widens(it, other) for other in wanted)]
            if narrow:
                self.types[unknown] = narrow[0]
                self.backed.add(unknown)
                return True
        return False

    def sources(self, unknown):
        """The types that come to an unknown, as far as they are known."""
        found = [self.types.get(it, it) for it in self.into.get(unknown, [])]
        return [it for it in found if isinstance(it, str)]

    def of(self, unknown):
        """The type that was found, or None; then it is refused, with the place of the first port that has it."""
        if unknown in self.types:
            return self.types[unknown]
        place, subject, port = self.places[unknown]
        kinds = sorted(set(self.sources(unknown)))
        if any(it not in TYPES for it in kinds):
            return None
        if len(kinds) > 1:
            self.findings.refuse(place, subject, f"its {port} gets {' and '.join(kinds)}, and no one type holds both", "convert one of them")
        else:
            self.findings.refuse(place, subject, f"no wire says what type its {port} has", "connect it, or remove the block")
        return None
