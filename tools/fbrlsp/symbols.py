"""The outline of a text as clients show it, and where a name is declared."""
from .documents import Document
from .names import meaning_at
from .outline import Declaration, Scope

# The numbers that LSP gives to kinds of symbols.
KINDS = {
    "type": 5,
    "system": 2,
    "device": 3,
    "resource": 4,
    "event input": 24,
    "event output": 24,
    "input": 8,
    "output": 8,
    "variable": 13,
    "state": 22,
    "algorithm": 12,
    "instance": 19,
}


def symbol(document: Document, it: Declaration, children: list[dict]) -> dict:
    """A symbol with those in it."""
    detail = it.of_type or (f"WITH {', '.join(it.carries)}" if it.carries else "" if it.kind in ("type", "instance") else it.kind)
    return {
        # A name may be missing while it is typed, and LSP wants one.
        "name": it.name or "?",
        "detail": detail,
        "kind": KINDS[it.kind],
        "range": document.span(it.first, max(it.last, it.end)),
        "selectionRange": document.span(it.start, it.end),
        "children": children,
    }


def of_scope(document: Document, scope: Scope) -> dict:
    """A block type or a resource with what it declares."""
    return symbol(document, scope.head, [symbol(document, it, []) for it in scope.declared])


def nested(document: Document, it: Declaration, below: list[tuple[Declaration, dict]]) -> dict:
    """A system or a device with the symbols that stand in it."""
    return symbol(document, it, [made for other, made in below if it.first <= other.first < it.last])


def symbols(document: Document) -> list[dict]:
    """The block types, and the systems with their devices, resources and instances."""
    outline = document.outline
    resources = [(it.head, of_scope(document, it)) for it in outline.resources]
    heads = {kind: [it for it in outline.heads if it.kind == kind] for kind in ("system", "device")}
    devices = [(it, nested(document, it, resources)) for it in heads["device"]]
    systems = [(it, nested(document, it, devices)) for it in heads["system"]]
    blocks = [(it.head, of_scope(document, it)) for it in outline.blocks]
    # What is in nothing while a text is typed stands by itself.
    devices = [it for it in devices if not any(is_in(it[0], other) for other in heads["system"])]
    resources = [it for it in resources if not any(is_in(it[0], other) for other in heads["device"])]
    return [made for _, made in sorted((*blocks, *systems, *devices, *resources), key=lambda it: it[0].first)]


def is_in(inner: Declaration, outer: Declaration) -> bool:
    """Whether a declaration stands in another one."""
    return outer.first <= inner.first < outer.last


def flat(uri: str, nested_symbols: list[dict], container: str = "") -> list[dict]:
    """The same symbols one after the other, for clients that show no trees."""
    found = []
    for it in nested_symbols:
        location = {"uri": uri, "range": it["selectionRange"]}
        found.append({"name": it["name"], "kind": it["kind"], "location": location, "containerName": container})
        found += flat(uri, it["children"], it["name"])
    return found


def definition(document: Document, offset: int) -> dict | None:
    """Where the name at a place is declared; None of a type that needs no declaration, and of what is no name."""
    meaning, used = meaning_at(document.outline, offset), document.outline.reference_at(offset)
    if meaning is None or not meaning.declaration.name:
        return None
    it = meaning.declaration
    if meaning.is_standard:
        # The ports of a service or an event block are declared nowhere: the instance says which it has.
        it = used.scope.find(used.owner, "instance") if used and used.owner else None
    return {"uri": document.uri, "range": document.span(it.start, it.end)} if it else None
