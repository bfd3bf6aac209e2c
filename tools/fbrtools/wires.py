"""Follows wires through what only passes them on, to where they end: in order, without recursion, and within a limit."""
from collections.abc import Callable
from dataclasses import dataclass
from typing import Any

from .refusals import Findings

# As many connections as a resource may have.
MOST = 8192


@dataclass
class Follower:
    """`step(node)` gives the end that is at a node, or None, and the nodes to which its wires lead on.

    `circle` is what a refusal says of a circle, and what to do."""

    step: Callable[[Any], tuple[Any, list[Any]]]
    circle: tuple[str, str]
    findings: Findings
    followed: int = 0

    def ends(self, start, name, place):
        """The ends of all wires from this node, each path by itself, the first wire's first; `name` is what a refusal calls the node."""
        found, waiting = [], [(start, ())]
        while waiting:
            node, path = waiting.pop()
            if is_on(path, node):
                self.findings.refuse(place, f"Connection to {name}", *self.circle)
                continue
            self.followed += 1
            if self.followed > MOST:
                self.findings.refuse(place, f"Connection to {name}", f"more than {MOST} connections come of it and those before it", "branch less often")
                return []
            end, onward = self.step(node)
            if end is not None:
                found.append(end)
            waiting += [(it, (node, path)) for it in reversed(onward)]
        return found


def is_on(path, node):
    """Whether a path, a pair of its last node and the path before it, passes a node."""
    while path:
        last, path = path
        if last == node:
            return True
    return False
