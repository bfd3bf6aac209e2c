"""Reads what `fbr draw` writes: which node is which instance, with which ports; and makes room in it for what a page shows."""
import re
from dataclasses import dataclass, field
from html import unescape

CLUSTER = re.compile(r'( *)subgraph "cluster_(\S+)" \{')
NODE = re.compile(r" *(n[0-9]+) \[label=<")
HEAD = re.compile(r'(<TD [^>]*PORT="head"[^>]*><B>)([^<]*)(</B>)(?:(<BR/>)([^<]*))?(</TD>)')
PORT = re.compile(r'(<TD PORT="([dr])_([^"]+)"[^>]*>)(.*?)(</TD>)')
TYPE = re.compile(r'<FONT POINT-SIZE="8" COLOR="gray40">([^<]*)</FONT>')
EDGE = re.compile(r" *([^ :]+)(?::\S+)? -> ([^ :;]+)[^;]*;")
CHANNEL = re.compile(r" *(channel_[0-9]+) \[")
RANKS = re.compile(r" *ranksep=[0-9.]+;")
QUEUE = re.compile(r' *label="([^"]*) · queue of ([0-9]+)";')
# How many characters a value of a type has at most, or is given.
WIDTHS = {"BOOL": 5, "SINT": 5, "INT": 6, "DINT": 11, "LINT": 12, "USINT": 5, "UINT": 5, "UDINT": 10, "TIME": 12}
# As many characters of a state or a value are shown in the picture.
MOST = 16


@dataclass
class Instance:
    """An instance as it is drawn: its node, its path with device and resource, what it is (`SCALE`, `INPUT 1`), and the types of its data ports."""

    node: str
    path: str
    resource: str
    what: str = ""
    types: dict[str, str] = field(default_factory=dict)


@dataclass
class Drawing:
    """The text of a drawing, with its instances by node and its devices."""

    text: str
    instances: dict[str, Instance]
    devices: list[str]


def inner(line: str, clusters: list[tuple[int, str]]) -> None:
    """Keeps the clusters that a line is in, as their indents and names."""
    if found := CLUSTER.match(line):
        clusters.append((len(found[1]), found[2]))
    elif clusters and line.rstrip("\n") == " " * clusters[-1][0] + "}":
        clusters.pop()


def read_drawing(text: str) -> Drawing:
    """What is drawn in the text of `fbr draw`."""
    clusters: list[tuple[int, str]] = []
    drawing, instance = Drawing(text, {}, []), None
    for line in text.splitlines():
        inner(line, clusters)
        if len(clusters) == 1 and clusters[0][1] not in drawing.devices:
            drawing.devices.append(clusters[0][1])
        if (found := NODE.match(line)) and len(clusters) > 1:
            instance = Instance(found[1], clusters[-1][1], clusters[1][1].rpartition(".")[2])
            drawing.instances[found[1]] = instance
        elif instance is not None and (found := HEAD.search(line)):
            instance.path, instance.what = f"{instance.path}.{unescape(found[2])}", unescape(found[5] or "")
        elif instance is not None:
            for _, _, name, cell, _ in PORT.findall(line):
                kind = TYPE.search(cell)
                instance.types[unescape(name)] = unescape(kind[1]) if kind else ""
    return drawing


def of_device(drawing: Drawing, device: str) -> str:
    """The text of a drawing with one of its devices alone."""
    kept = {it.node for it in drawing.instances.values() if it.path.split(".")[0] == device}
    lines, clusters, last_was_out = [], [], False
    for line in drawing.text.splitlines():
        inner(line, clusters)
        is_out = bool(clusters) and clusters[0][1] != device
        if not is_out and not last_was_out:
            lines.append(line)
        last_was_out = is_out
    edges = [EDGE.match(it) for it in lines]
    gone = {it for it in drawing.instances if it not in kept}
    lines = [it for it, edge in zip(lines, edges) if edge is None or not {edge[1], edge[2]} & gone]
    linked = {name for edge in map(EDGE.match, lines) if edge for name in (edge[1], edge[2])}
    return "\n".join(it for it in lines if not (found := CHANNEL.match(it)) or found[1] in linked) + "\n"


class Places:
    """Makes room in a drawing for states, counts and values: texts of its own, each once, which are found again in what `dot` makes of it."""

    def __init__(self, drawing: Drawing, states: dict[str, list[str]]) -> None:
        self.drawing, self.states = drawing, states
        self.instance: Instance | None = None
        # What a text is the place of: the kind, the instance, and the port of a value.
        self.places: dict[str, tuple[str, str, str]] = {}
        # The instances and ports whose values are outputs, on the right side.
        self.outputs: set[tuple[str, str]] = set()

    def place(self, kind: str, width: int, port: str = "") -> str:
        """A new text, about as wide as so many characters, in the words of dot."""
        text = kind + str(len(self.places)).zfill(max(4, width) - 1)
        self.places[text] = (kind, self.instance.path, port)
        return f'<FONT POINT-SIZE="9">{text}</FONT>'

    def head(self, found: re.Match) -> str:
        """The head of an instance, with room for its state and how often it ran."""
        states = self.states.get(self.instance.path, [])
        state = self.place("s", min(MOST, max(map(len, states)) * 5 // 4 + 1)) + " " if states else ""
        return f"{found[1]}{found[2]}{found[3]}{found[4] or ''}{found[5] or ''}<BR/>{state}{self.place('c', 6)}{found[6]}"

    def port(self, found: re.Match) -> str:
        """A port of data, with room for its value in the place of its type."""
        kind = TYPE.search(found[4])
        text = self.place("v", WIDTHS.get(kind[1] if kind else "", 8), found[3])
        name = TYPE.sub("", found[4]).partition(" = ")[0].strip()
        if found[2] == "d":
            return f"{found[1]}{name} {text}{found[5]}"
        self.outputs.add((self.instance.path, found[3]))
        return f"{found[1]}{text} {name}{found[5]}"

    def made(self, text: str) -> str:
        """A text of the drawing with room in it."""
        lines = []
        for line in text.splitlines():
            if found := NODE.match(line):
                self.instance = self.drawing.instances.get(found[1])
            elif self.instance is not None:
                line = PORT.sub(self.port, HEAD.sub(self.head, line))
            lines.append("  ranksep=0.5;" if RANKS.fullmatch(line) else line)
        return "\n".join(lines) + "\n"
