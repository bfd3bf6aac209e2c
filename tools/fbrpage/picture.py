"""The picture of a device: what `dot` makes of its drawing, as shapes that a page puts together, with the places of states, counts and values."""
import re
import shutil
import subprocess
from xml.etree import ElementTree

from .drawing import CLUSTER, MOST, QUEUE, Places, of_device
from .plant import Plant

# How long `dot` may take, in seconds, and how long its picture may be.
PATIENCE, LARGEST = 60, 8_000_000
SVG = "{http://www.w3.org/2000/svg}"
# The attributes that are taken of each kind of shape; each value consists of numbers, or is one of these words.
TAKEN = {
    "polygon": ("points", "stroke-width", "stroke-dasharray"),
    "polyline": ("points", "stroke-width", "stroke-dasharray"),
    "path": ("d", "stroke-width", "stroke-dasharray"),
    "ellipse": ("cx", "cy", "rx", "ry", "stroke-width", "stroke-dasharray"),
    "text": ("x", "y", "text-anchor", "font-size", "font-weight", "font-style"),
}
VALUE = re.compile(r"[-+0-9.,eE MCLSQZmclsqz]*|start|middle|end|bold|italic")
TRANSLATED = re.compile(r"translate\((-?[0-9.]+)[ ,]+(-?[0-9.]+)\)")
# Colours of the drawing, by what they mean; a page has colours of its own.
PALE = {"#666666", "#7f7f7f", "#999999", "gray40", "gray50", "gray60"}
# The width of a digit in parts of the size of its font.
DIGIT = 0.556


class NoPicture(Exception):
    """There is no picture, and why."""


def look(tag: str, attributes: dict[str, str]) -> str:
    """What a shape is, as the name of a class of the page."""
    fill, stroke = attributes.get("fill", ""), attributes.get("stroke", "")
    if tag == "text":
        return "pale" if fill in PALE else "ink"
    if fill == "white":
        return ""
    if fill not in ("none", "") and stroke in ("transparent", "none"):
        return "head"
    ink = "pale" if stroke in PALE else "ink"
    return f"{ink} {'frame' if fill in ('none', '') else 'solid'}"


def shape(element: ElementTree.Element) -> list | None:
    """A shape as its tag, its class, its attributes and its text; nothing if it is none or cannot be seen."""
    tag = element.tag.removeprefix(SVG)
    if tag not in TAKEN:
        return None
    kind = look(tag, element.attrib)
    attributes = {it: element.attrib[it] for it in TAKEN[tag] if VALUE.fullmatch(element.attrib.get(it, "?"))}
    return [tag, kind, attributes, element.text or ""] if kind else None


class Shapes:
    """The shapes of a picture, and what is put into it."""

    def __init__(self, plant: Plant, places: Places) -> None:
        self.plant, self.places = plant, places
        self.shapes: list[list] = []
        self.nodes: dict[str, list[list]] = {}
        self.slots: list[dict] = []

    def slot(self, found: list, kind: str, path: str, port: str) -> None:
        """Notes where a state, a count or a value has its place."""
        attributes, name = found[2], self.plant.names[path]
        size = float(attributes["font-size"])
        is_right = kind == "v" and self.is_output(path, port)
        wide = len(found[3]) * DIGIT * size
        self.slots.append(
            {
                "kind": kind,
                "instance": name,
                "name": f"{name}.{port}" if port else name,
                "x": round(float(attributes["x"]) + (wide if is_right else 0), 1),
                "y": float(attributes["y"]),
                "anchor": "end" if is_right else "start",
                "most": max(len(found[3]), 5) if kind == "v" else MOST,
            }
        )

    def is_output(self, path: str, port: str) -> bool:
        """Whether a port is on the right side."""
        return (path, port) in self.places.outputs

    def add(self, group: ElementTree.Element, to: list[list]) -> None:
        """Adds the shapes of a group, other than those that keep a place."""
        for element in group:
            found = shape(element)
            if found is None:
                continue
            if found[3] in self.places.places and "font-size" in found[2]:
                self.slot(found, *self.places.places[found[3]])
            else:
                to.append(found)

    def cluster(self, group: ElementTree.Element, title: str, queues: dict[str, str]) -> None:
        """Adds the frame of a device, a resource or a composite; at a resource there is the place of its queue."""
        before = len(self.shapes)
        self.add(group, self.shapes)
        resource = queues.get(title)
        for at in range(before, len(self.shapes)):
            tag, _, attributes, text = self.shapes[at]
            if resource is not None and tag == "text" and " · queue of " in text:
                start = {**attributes, "text-anchor": "start"}
                x = float(attributes["x"]) - len(text) * DIGIT * float(attributes["font-size"]) / 2
                self.slots.append({"kind": "q", "instance": "", "name": resource, "x": round(x, 1), "y": float(start["y"]), "anchor": "start", "most": 80})
                del self.shapes[at]
                return

    def read(self, root: ElementTree.Element, queues: dict[str, str]) -> None:
        """Reads the picture."""
        self.add(root, self.shapes)
        for group in root.iter(SVG + "g"):
            title = (group.findtext(SVG + "title") or "").strip()
            kind = group.get("class")
            if kind == "cluster":
                self.cluster(group, title.removeprefix("cluster_"), queues)
            elif kind == "edge":
                self.add(group, self.shapes)
            elif kind == "node":
                instance = self.plant.drawing.instances.get(title)
                self.add(group, self.nodes.setdefault(self.plant.names.get(instance.path, ""), []) if instance else self.shapes)


def queues_of(text: str) -> dict[str, str]:
    """The resources of a drawing that have a queue, by the names of their clusters."""
    found, cluster = {}, ""
    for line in text.splitlines():
        if it := CLUSTER.match(line):
            cluster = it[2]
        elif QUEUE.match(line):
            found[cluster] = cluster.partition(".")[2]
    return found


def laid_out(text: str) -> str:
    """What `dot` makes of a text; NoPicture if it is not there, fails or takes too long."""
    dot = shutil.which("dot")
    if dot is None:
        raise NoPicture("there is no picture, since graphviz is not installed (apt-get install graphviz)")
    try:
        done = subprocess.run([dot, "-Tsvg"], input=text, capture_output=True, text=True, timeout=PATIENCE)
    except subprocess.TimeoutExpired as late:
        raise NoPicture(f"there is no picture, since dot took more than {PATIENCE} seconds") from late
    except OSError as why:
        raise NoPicture(f"there is no picture, since dot cannot be run: {why.strerror}") from why
    if done.returncode != 0 or len(done.stdout) > LARGEST:
        raise NoPicture(f"there is no picture, since dot failed (status {done.returncode}), or it would be too large")
    return done.stdout


def picture_of(plant: Plant) -> dict:
    """The picture of a device, for the page; NoPicture if there is none."""
    places = Places(plant.drawing, plant.charts)
    text = of_device(plant.drawing, plant.device)
    root = ElementTree.fromstring(laid_out(places.made(text)))
    graph = root.find(SVG + "g")
    moved = TRANSLATED.search(graph.get("transform", "")) if graph is not None else None
    box = [float(it) for it in root.get("viewBox", "").split()]
    if moved is None or len(box) != 4:
        raise NoPicture("there is no picture, since dot wrote another form of SVG than is known")
    shapes = Shapes(plant, places)
    shapes.read(graph, queues_of(text))
    return {"box": box, "move": [float(moved[1]), float(moved[2])], "shapes": shapes.shapes, "nodes": shapes.nodes, "slots": shapes.slots}
