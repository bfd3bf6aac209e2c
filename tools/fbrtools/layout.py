"""Places boxes on a drawing: by `dot` of graphviz if it is installed, otherwise on a grid."""
import shutil
import subprocess

COLUMNS = 4
# Units of a drawing to an inch of dot, and the distances of the grid.
SCALE = 400
WIDE, HIGH = 1600, 900
PATIENCE = 30
# Boxes as large as blocks are drawn, in inches, from left to right.
BOXES = "rankdir=LR; ranksep=1; nodesep=0.5; node [shape=box, fixedsize=true, width=2.5, height=1.5];"


def places(count, edges):
    """The (x, y) of each of `count` boxes; `edges` are pairs of their numbers."""
    return by_dot(count, edges) or [(100 + WIDE * (at % COLUMNS), 100 + HIGH * (at // COLUMNS)) for at in range(count)]


def by_dot(count, edges):
    """The places that dot gives, or None if it is not there or fails."""
    dot = shutil.which("dot")
    if dot is None or not count:
        return None
    graph = ["digraph {", BOXES, *(f"{at};" for at in range(count)), *(f"{one} -> {other};" for one, other in edges), "}"]
    try:
        done = subprocess.run([dot, "-Tplain"], input="\n".join(graph), capture_output=True, text=True, timeout=PATIENCE, check=True)
    except (OSError, subprocess.SubprocessError):
        return None
    lines = [it.split() for it in done.stdout.splitlines()]
    height = next((float(it[3]) for it in lines if it and it[0] == "graph"), 0.0)
    found = {int(it[1]): (round(float(it[2]) * SCALE), round((height - float(it[3])) * SCALE)) for it in lines if it and it[0] == "node"}
    return [found[at] for at in range(count)] if len(found) == count else None
