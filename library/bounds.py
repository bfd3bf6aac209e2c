#!/usr/bin/env python3
"""Says whether the library holds what its pages say:  library/bounds.py PROGRAM [--write]

Each block type of library/*.fb, with the types that it names and nothing else, is put between an INPUT at each event input and an OUTPUT at
each event output. PROGRAM (such as out/fbr) has to find bounds for it as it is (`bound`), and to have no note on it (`explain --strict`). Each
type has to have a story, and the stories of each file have to pass. README's example is tried too. The tables between the marks of the pages
have to hold the numbers that were found; with --write they are written there. Types whose names end in _CONTROL are parts of others, and stand
in no table."""
import argparse
import concurrent.futures
import json
import os
import pathlib
import re
import shutil
import subprocess
import sys
import tempfile

HERE = pathlib.Path(__file__).resolve().parent
sys.path.insert(0, str(HERE.parent / "tools"))
sys.dont_write_bytecode = True

from fbrtools import model, text_read  # noqa: E402

FILES = ["events", "timers", "latches", "counters", "control"]
PART = "_CONTROL"
MARKS = "<!-- {} -->", "<!-- end of {} -->"
AT = "D.R."


class Wrong(Exception):
    """What the library does not hold, in words."""


class File:
    """One file of the library: its types in their order, and the text of each."""

    def __init__(self, name):
        self.name, self.path, self.story = name, HERE / f"{name}.fb", HERE / f"{name}.story"
        self.page = HERE / f"{name.upper()}.md"
        text = self.path.read_text()
        self.types = text_read.read(text, self.path.name).types
        self.texts = {it.split()[1]: it for it in re.findall(r"^FUNCTION_BLOCK .*?^END_FUNCTION_BLOCK\n", text, re.M | re.S)}
        # The comment directly before each type; another one may stand before that.
        self.comments = {name: said for said, name in re.findall(r"\(\*((?:(?!\*\)).)*)\*\)\nFUNCTION_BLOCK (\w+)", text, re.S)}

    def needs(self, block):
        """The types of this file that a type is made of, itself last."""
        below = block.network.instances if block.network else []
        parts = [it for it in self.types if any(it.name == made.type for made in below)]
        found = [name for it in parts for name in self.needs(it)]
        return list(dict.fromkeys([*found, block.name]))

    def public(self):
        return [it for it in self.types if not it.name.endswith(PART)]


def service(kind, number, types):
    return f"{kind}[{', '.join(types)}](ID := {number});" if types else f"{kind}(ID := {number});"


def instance_name(block):
    """A name that no port of the type has."""
    return f"{block.name}_1"


def device(block, name):
    """A device in which a type stands alone. Data of several events come with the first of these."""
    own, kinds = instance_name(block), {it.name: it.type for it in block.inputs + block.outputs}
    instances, events, data, given = [f"{own} : {block.name};"], [], [], set()
    for number, event in enumerate(block.event_inputs, 1):
        brought = [it for it in event.variables if it not in given]
        given.update(brought)
        instances.append(f"On_{event.name} : " + service("INPUT", number, [kinds[it] for it in brought]))
        events.append(f"On_{event.name}.IND TO {own}.{event.name};")
        data += [f"On_{event.name}.RD_{place} TO {own}.{it};" for place, it in enumerate(brought, 1)]
    for number, event in enumerate(block.event_outputs, 1):
        instances.append(f"Seen_{event.name} : " + service("OUTPUT", number, [kinds[it] for it in event.variables]))
        events.append(f"{own}.{event.name} TO Seen_{event.name}.REQ;")
        data += [f"{own}.{it} TO Seen_{event.name}.SD_{place};" for place, it in enumerate(event.variables, 1)]
    wires = ["EVENT_CONNECTIONS", *events, "END_CONNECTIONS", *(["DATA_CONNECTIONS", *data, "END_CONNECTIONS"] if data else [])]
    return [f"DEVICE {name}", "RESOURCE R", "FBS", *instances, "END_FBS", *wires, "END_RESOURCE", "END_DEVICE"]


def alone(file, block):
    """The text in which a type stands alone, with the types that it needs and no others."""
    return "\n".join([*(file.texts[it] for it in file.needs(block)), "SYSTEM S", *device(block, "D"), "END_SYSTEM", ""])


def together(file):
    """The text in which each type of a file has a device of its own."""
    devices = [line for it in file.public() for line in device(it, f"With_{it.name}")]
    return "\n".join([*file.texts.values(), "SYSTEM S", *devices, "END_SYSTEM", ""])


def run(program, *words):
    return subprocess.run([program, *map(str, words)], capture_output=True, text=True)


def explained(program, path):
    """What the program says of a text, as values: it has to be accepted by `bound` as well, and without a note."""
    found = run(program, "bound", path)
    if found.returncode != 0:
        raise Wrong(f"fbr bound says {found.stdout.strip()}")
    said = run(program, "explain", path, "--json", "--strict")
    try:
        answer = json.loads(said.stdout)
    except ValueError as fault:
        raise Wrong(f"fbr explain --json prints no object: {said.stdout[:80]!r} {said.stderr[:80]!r}") from fault
    notes = [f"line {it['place']['line']}: {it['says']}" for it in answer.get("notes", [])]
    if said.returncode != 0 or notes:
        raise Wrong(f"fbr explain has notes: {'; '.join(notes) or answer.get('line')}")
    return answer


def measured(program, file, block, folder):
    """What is found of a type that stands alone: of each event input and timer its steps and places, and the ranges that are narrower than their types."""
    path = pathlib.Path(folder) / f"{block.name}.fb"
    path.write_text(alone(file, block))
    answer = explained(program, path)
    rows = {it["path"]: (it["steps"], it["places"]) for it in answer["events"]}
    events = [(it.name, *rows[f"{AT}ON_{it.name.upper()}.ARRIVE"]) for it in block.event_inputs]
    timers = [("time", *cost) for where, cost in sorted(rows.items()) if where.endswith(".EXPIRE")]
    return events + timers, ranges_of(file, block, answer["ranges"])


def ranges_of(file, block, rows):
    """The variables whose range is narrower than their type, by their names within the type."""
    kinds = {}
    enter(file, block, "", kinds)
    found = []
    for row in rows:
        name = row["path"].removeprefix(f"{AT}{instance_name(block).upper()}.")
        limits, kept = text_limits(kinds.get(name)), (row["lowest"], row["highest"])
        if limits and kept != limits:
            found.append((name, *kept))
    return found


def enter(file, block, before, kinds):
    """Notes the types of a basic block's variables, or of those within a composite, by their paths."""
    if block.network is None:
        for it in block.outputs + block.internals:
            kinds[f"{before}{it.name}".upper()] = it.type
        return
    types = {it.name: it for it in file.types}
    for made in block.network.instances:
        if made.type in types:
            enter(file, types[made.type], f"{before}{made.name}.", kinds)


def text_limits(kind):
    """The least and the greatest value of an integer type; None of BOOL and TIME."""
    bits = {"SINT": 8, "INT": 16, "DINT": 32, "LINT": 64}
    if kind in bits:
        return -(2 ** (bits[kind] - 1)), 2 ** (bits[kind] - 1) - 1
    return (0, 2 ** bits[kind[1:]] - 1) if kind and kind[1:] in bits else None


def played(program, file):
    """Plays the stories of a file, and says how many sequences there are of each type."""
    done = run(program, "play", file.path, file.story)
    if done.returncode != 0:
        raise Wrong(f"{file.story.name}: {done.stdout.strip()} {done.stderr.strip()}")
    named = [it.upper() for it in re.findall(r"^SEQUENCE \w+ FOR BLOCK (\w+)", file.story.read_text(), re.M)]
    without = [it.name for it in file.public() if it.name not in named]
    if without:
        raise Wrong(f"{file.story.name} has no sequence of {', '.join(without)}")
    return named


def whole(program, file):
    """The file itself has bounds and no notes, and its stories pass."""
    explained(program, file.path)
    return played(program, file)


def exemplified(program, files, folder):
    """README's example, with the types that it names."""
    lines = [it[4:] for it in (HERE / "README.md").read_text().splitlines() if it.startswith("    ")]
    if "FBS" not in lines or "END_CONNECTIONS" not in lines:
        raise Wrong("README.md has no example")
    shown = lines[lines.index("FBS") : len(lines) - lines[::-1].index("END_CONNECTIONS")]
    named = [(file, it) for file in files for it in file.types if re.search(rf": {it.name}\b", "\n".join(shown))]
    texts = dict.fromkeys(file.texts[name] for file, it in named for name in file.needs(it))
    path = pathlib.Path(folder) / "README.fb"
    path.write_text("\n".join([*texts, "SYSTEM S DEVICE D RESOURCE R", *shown, "END_RESOURCE END_DEVICE END_SYSTEM", ""]))
    explained(program, path)


def number(it):
    return f"{it:,}"


def bounds_table(file, found):
    """The tables of a page: steps and places of each event, and below it the ranges, if there are any."""
    lines = ["| Type | Event | Steps | Places |", "|---|---|---|---|"]
    ranges = []
    for block in file.public():
        events, kept = found[block.name]
        lines += [f"| {block.name if not place else ''} | {name} | {number(steps)} | {number(places)} |" for place, (name, steps, places) in enumerate(events)]
        ranges += [f"| {block.name if not place else ''} | {name} | {number(low)} | {number(high)} |" for place, (name, low, high) in enumerate(kept)]
    if ranges:
        lines += ["", "| Type | Variable | Least | Greatest |", "|---|---|---|---|", *ranges]
    return lines


def first_sentence(comment):
    """What a comment says up to the clause that the type is after."""
    return re.split(r"(?<=\.) (?=After |Needs )", " ".join(comment.split()))[0]


def types_table(files, stories):
    lines = ["| Type | What it does | File | Needs | Sequences |", "|---|---|---|---|---|"]
    for file in files:
        for block in file.public():
            needs = ", ".join(it for it in file.needs(block) if it != block.name)
            says = first_sentence(file.comments[block.name])
            lines.append(f"| {block.name} | {says} | [{file.name}]({file.page.name}) | {needs} | {stories[file.name].count(block.name)} |")
    return lines


def placed(page, name, lines):
    """The text of a page with these lines between its marks of this name."""
    first, last = (it.format(name) for it in MARKS)
    text = page.read_text()
    before, is_there, rest = text.partition(f"{first}\n")
    _, is_ended, after = rest.partition(last)
    if not is_there or not is_ended:
        raise Wrong(f"{page.name} has no marks {first} and {last}")
    return before + f"{first}\n" + "\n".join(lines) + f"\n{last}" + after


def kept(page, name, lines, write):
    """Writes the lines into a page, or says whether it has them."""
    text = placed(page, name, lines)
    if text == page.read_text():
        return
    if not write:
        raise Wrong(f"{page.name}: the table '{name}' has other numbers than are found; library/bounds.py PROGRAM --write writes it")
    page.write_text(text)


def tried(told, label, call, *arguments):
    """The answer of a call; what is wrong is told, with the label before it."""
    try:
        return call(*arguments)
    except Wrong as fault:
        told.append(f"{label}: {fault}")
        return None


def main(words):
    parser = argparse.ArgumentParser(prog="bounds.py", description="Says whether the library holds what its pages say.")
    parser.add_argument("program", metavar="PROGRAM")
    parser.add_argument("--write", action="store_true", help="writes the tables of the pages")
    given = parser.parse_args(words)
    if not shutil.which(given.program):
        parser.error(f"there is no program {given.program}")
    files, told = [File(it) for it in FILES if (HERE / f"{it}.fb").exists()], []
    pairs = [(file, block) for file in files for block in file.types]
    with tempfile.TemporaryDirectory() as folder, concurrent.futures.ThreadPoolExecutor(os.cpu_count()) as pool:
        of_types = [pool.submit(tried, told, block.name, measured, given.program, file, block, folder) for file, block in pairs]
        of_files = [pool.submit(tried, told, file.path.name, whole, given.program, file) for file in files]
        tried(told, "README.md", exemplified, given.program, files, folder)
        found = {block.name: it.result() for (_, block), it in zip(pairs, of_types)}
        stories = {file.name: it.result() for file, it in zip(files, of_files)}
    if not told:
        for file in files:
            tried(told, file.name, kept, file.page, "bounds", bounds_table(file, found), given.write)
        tried(told, "README", kept, HERE / "README.md", "types", types_table(files, stories), given.write)
    for line in told:
        print(f"library/bounds.py: {line}", file=sys.stderr)
    print(f"{len(pairs)} block types, {sum(len(it or []) for it in stories.values())} sequences, {len(told)} faults")
    return 1 if told else 0


if __name__ == "__main__":
    sys.exit(main(sys.argv[1:]))
