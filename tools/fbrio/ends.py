"""The INPUTs and OUTPUTs of an application, as `fbr explain --json` says them."""
from dataclasses import dataclass

from .values import TYPES, Types


@dataclass(frozen=True)
class End:
    """An INPUT or OUTPUT of a device: its kind, its number, the path of its instance (`D.R.LAMP`) and its types, in capitals."""

    kind: str
    number: int
    path: str
    types: Types


def types_in(names: list[str]) -> Types:
    """The types of these names."""
    return tuple(TYPES[it] for it in names)


def ends_of(found: dict, device: str) -> list[End]:
    """Those of a device, the INPUTs first, each in the order of the text; KeyError where the program says nothing of them."""
    return [
        End(kind, it["number"], it["path"], types_in(it["types"]))
        for kind, name in (("INPUT", "inputs"), ("OUTPUT", "outputs"))
        for it in found[name]
        if it["path"].partition(".")[0] == device
    ]
