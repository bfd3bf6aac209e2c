"""The ends of channels, as `fbr explain --json` says them."""
from dataclasses import dataclass

from fbrio.ends import types_in
from fbrio.values import Types


@dataclass(frozen=True)
class End:
    """A PUBLISH or SUBSCRIBE: the number and the format of its channel, its device, its path, all in capitals, and its types."""

    kind: str
    channel: int
    device: str
    path: str
    types: Types
    format: int


def paths_of(channel: dict) -> list[tuple[str, str]]:
    """The kinds and paths of the ends of a channel, those that send first."""
    received = [("SUBSCRIBE", it["path"].removesuffix(".ARRIVE")) for it in channel["to"]]
    return [("PUBLISH", it) for it in channel["from"]] + received


def ends_of(found: dict) -> list[End]:
    """All ends, channel by channel; KeyError where the program says nothing of types and formats."""
    return [
        End(kind, it["number"], path.partition(".")[0], path, types_in(it["types"]), it["format"])
        for it in found["channels"]
        for kind, path in paths_of(it)
    ]
