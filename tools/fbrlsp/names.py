"""What a name stands for, and at which paths a certificate has it."""
from typing import NamedTuple

from .outline import VARIABLES, Declaration, Outline, Reference, Scope
from .standard import NUMBERED, VALUES, standard

# So many paths are looked at, and composites followed so deep: a text that is not accepted may have more, or contain itself.
MOST_PATHS = 2000
MOST_DEEP = 16

SIDES = {
    ("source", "event"): "event output",
    ("target", "event"): "event input",
    ("source", "data"): "output",
    ("target", "data"): "input",
}
OPPOSITE = {"event output": "event input", "event input": "event output", "output": "input", "input": "output"}


class Meaning(NamedTuple):
    """A declaration, where it is declared, and the paths of what it belongs to."""

    declaration: Declaration
    scope: Scope | None
    # The paths of the instances that have it, or of the networks that an instance is in; `more` says that there are others.
    paths: list[str]
    more: bool = False

    @property
    def is_standard(self) -> bool:
        """Whether no text declares it."""
        return self.declaration.first < 0 or self.scope in standard().blocks


def type_of(outline: Outline, name: str) -> Scope | None:
    """The block type of a name in capitals: of the text, or one that needs no declaration."""
    return outline.block(name) or standard().block(name)


def value_ports(instance: Declaration) -> list[Declaration]:
    """The ports that an instance of a service has for the values in its square brackets."""
    prefix, kind, _ = VALUES.get(instance.of_type.upper(), ("", "", ""))
    numbered = enumerate(instance.values if prefix else (), 1)
    return [Declaration(kind, f"{prefix}{number}", -1, -1, -1, -1, of_type=it) for number, it in numbered]


def ports_of(outline: Outline, instance: Declaration, *kinds: str) -> list[Declaration]:
    """The ports of an instance that are of these kinds."""
    block = type_of(outline, instance.of_type.upper())
    if block is None:
        return []
    own = value_ports(instance) if block in standard().blocks else []
    return block.all_of(*kinds) + [it for it in own if it.kind in kinds]


def parameters_of(outline: Outline, instance: Declaration) -> list[Declaration]:
    """What can be given in the brackets of an instance."""
    block = type_of(outline, instance.of_type.upper())
    numbered = NUMBERED.get(instance.of_type.upper(), ()) if block in standard().blocks else ()
    return [Declaration("parameter", it, -1, -1, -1, -1) for it in numbered] + ports_of(outline, instance, "input")


def paths_of(outline: Outline, scope: Scope | None) -> tuple[list[str], bool]:
    """The paths of the instances of a block type, or of a resource; and whether there are more than are followed."""
    if scope is None or scope.kind == "nowhere":
        return [], False
    if scope.kind == "resource":
        return [scope.path], False
    found, followed = [], 0
    waiting = [(it.path, it, 0) for it in outline.resources]
    while waiting:
        path, around, deep = waiting.pop(0)
        for instance in around.all_of("instance"):
            followed += 1
            block = outline.block(instance.of_type.upper())
            if block is scope:
                found.append(f"{path}.{instance.key}")
            elif block is not None and block.is_composite and deep < MOST_DEEP:
                waiting.append((f"{path}.{instance.key}", block, deep + 1))
            if followed == MOST_PATHS:
                return found, True
    return found, False


def within(outline: Outline, scope: Scope | None, name: str) -> tuple[list[str], bool]:
    """The paths of an instance of a scope."""
    paths, more = paths_of(outline, scope)
    return [f"{it}.{name}" for it in paths], more


def of_instance(outline: Outline, scope: Scope, owner: str, kinds: tuple[str, ...], name: str) -> Meaning | None:
    """The port or parameter of an instance of a scope."""
    instance = scope.find(owner, "instance")
    if instance is None:
        return None
    block = type_of(outline, instance.of_type.upper())
    found = next((it for it in ports_of(outline, instance, *kinds) if it.key == name), None)
    if found is None and "input" in kinds:
        found = next((it for it in parameters_of(outline, instance) if it.key == name), None)
    return Meaning(found, block, *within(outline, scope, owner)) if found else None


def meaning_of(outline: Outline, used: Reference) -> Meaning | None:
    """What a name that is used stands for, or None."""
    scope, name = used.scope, used.name
    if used.kind == "type":
        block = type_of(outline, name)
        return Meaning(block.head, block, *paths_of(outline, block)) if block else None
    if used.kind in ("port", "parameter"):
        kinds = (SIDES[used.side, used.flow],) if used.side else ("input",)
        found = of_instance(outline, scope, used.owner, kinds, used.name)
        # While a connection is turned round its ends may be of the other kind.
        return found or of_instance(outline, scope, used.owner, tuple(OPPOSITE), used.name)
    if used.kind == "own":
        own = OPPOSITE[SIDES[used.side, used.flow]]
        found = scope.find(name, own) or scope.find(name, "instance")
    else:
        kinds = VARIABLES if used.kind == "variable" else (used.kind,)
        found = scope.find(name, *kinds)
    return Meaning(found, scope, *paths_of(outline, scope)) if found else None


def meaning_at(outline: Outline, offset: int) -> Meaning | None:
    """What the name at a place stands for, or None."""
    used = outline.reference_at(offset)
    if used:
        return meaning_of(outline, used)
    found = outline.declaration_at(offset)
    return Meaning(*found, *paths_of(outline, found[1])) if found else None


def place_of_path(outline: Outline, path: str) -> Declaration | None:
    """The declaration that a path of `fbr` names: of a resource, or of what is in one, as far as it goes."""
    parts = path.split(".")
    resource = next((it for it in outline.resources if it.path == ".".join(parts[:2])), None)
    if resource is None:
        return next((it for it in outline.heads if it.kind == "device" and it.key == parts[0]), None)
    found, scope = resource.head, resource
    for part in parts[2:]:
        inner = next(iter(scope.by_name.get(part, ())), None) if scope else None
        if inner is None:
            return found
        found = inner
        scope = outline.block(inner.of_type.upper()) if inner.kind == "instance" else None
    return found


def rows_of(report: dict | None, table: str) -> dict[str, dict]:
    """The rows of a table of what `fbr` said, by their paths."""
    rows = report.get(table) if report else None
    return {it["path"]: it for it in rows or () if isinstance(it, dict) and isinstance(it.get("path"), str)}
