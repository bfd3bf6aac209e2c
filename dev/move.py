#!/usr/bin/env python3
"""Moves definitions from crate to crate, and follows them wherever they are used: dev/move.py TO CRATE/MODULE[:NAME,..][=NEW] ..

The definitions of crates/CRATE/specs/MODULE.antt, all of them or those of these names with what is defined in the same block, go to the end of
crates/TO/specs/NEW.antt (without NEW, MODULE), which is made where there is none. Sources, definitions, proofs and edits then name them there, both `Lib.antt` are
mended, and imports that nobody needs any more are gone from both files. It says what has to be looked at by hand: what a moved definition uses that stays behind, a name
that would be brought in twice, and a module that goes by another name and is used for both. `dev/rooms.py --uses` then tells what crates.txt has to list."""
import pathlib
import re
import sys

import chapters

TOP = pathlib.Path(__file__).resolve().parent.parent
KINDS = {".antt", ".rt", ".edit"}
USE = re.compile(r"^(?P<before>\s*(?:ghost )?(?:pub )?)use (?P<module>[\w.+]+?)(?:\.\{(?P<names>[^}]*)\}| as (?P<alias>\w+))(?P<end>;?)$")


def split(names):
    return [it.strip() for it in names.split(",") if it.strip()]


def short(name):
    return name.split(" as ")[-1]


def is_used(name, text):
    """Whether a text names something that is brought in; an operator by the signs between its places."""
    signs = [it for it in short(name).split("◌") if it]
    return all(re.search(rf"(?<![\w'.]){re.escape(it)}(?![\w'])", text) if re.match(r"\w", it) else it in text for it in signs)


class Chapter:
    """A file of definitions that can be written again: its head, what it brings in, and its blocks."""

    def __init__(self, path):
        self.path = path
        lines = path.read_text(encoding="utf-8").splitlines() if path.exists() else []
        count = next((at for at, line in enumerate(lines) if not line.startswith("--")), len(lines))
        self.head = lines[:count]
        self.uses = [it for it in lines if re.match(r"(?:pub )?use ", it)]
        rest = "\n".join(it for it in lines[count:] if it not in self.uses)
        self.blocks = []
        for block in (it for it in re.split(r"\n\s*\n", rest.strip("\n")) if it):
            if self.blocks and block.startswith(" "):
                self.blocks[-1] += "\n\n" + block
            else:
                self.blocks.append(block)

    def defined(self):
        return {name: block for block in self.blocks for name in chapters.named(block)}

    def bring(self, module, name):
        """Brings in a name, beside those of its module."""
        for at, line in enumerate(self.uses):
            use = USE.match(line)
            if use and use["names"] is not None and use["module"] == module:
                self.uses[at] = f"use {module}.{{{', '.join(dict.fromkeys([*split(use['names']), name]))}}}"
                return
            if use and use["names"] is not None and short(name) in map(short, split(use["names"])):
                print(f"{self.path.relative_to(TOP)}: {short(name)} is brought in twice, from {use['module']} and {module}")
        self.uses.append(f"use {module}.{{{name}}}")

    def write(self):
        """Writes it, without what it brings in and does not use."""
        text, uses = "\n\n".join(self.blocks), []
        for line in self.uses:
            use = USE.match(line)
            if use and use["names"] is not None and not line.startswith("pub"):
                names = [it for it in split(use["names"]) if is_used(it, text)]
                line = f"use {use['module']}.{{{', '.join(names)}}}" if names else None
            elif use and use["alias"] and not re.search(rf"(?<![\w'.]){use['alias']}\.", text):
                line = None
            uses += [line] * bool(line)
        self.path.write_text("\n".join([*self.head, *uses, "", text, ""]), encoding="utf-8")


def library(crate, module, added):
    """Adds a module to the list of a crate's definitions, or takes it off."""
    path = TOP / f"crates/{crate}/specs/Lib.antt"
    lines = [it for it in (path.read_text().splitlines() if path.exists() else []) if it != f"pub mod {module}" or added]
    path.write_text("".join(f"{it}\n" for it in dict.fromkeys([*lines, *[f"pub mod {module}"] * added])))


def taken(source, target, old, new, names):
    """Takes blocks from one chapter to another, and gives the names that these define."""
    wanted = set(names) if names else set(source.defined())
    moved = [it for it in source.blocks if chapters.named(it) & wanted or not names]
    gone = set().union(*map(chapters.named, moved)) if moved else set()
    text = "\n\n".join(moved)
    for name in sorted(wanted - gone):
        print(f"{old} has no {name}")
    for name in sorted(set(source.defined()) - gone):
        if is_used(name, text):
            print(f"what was moved from {old} uses {name}, which stays there")
    for line in source.uses:
        use = USE.match(line)
        if use and use["alias"]:
            target.uses += [line] * (line not in target.uses)
        for name in split(use["names"] or "") if use and use["module"] != new else ():
            if is_used(name, text):
                target.bring(use["module"], name)
    source.blocks = [it for it in source.blocks if it not in moved]
    target.blocks += moved
    return gone


def followed(path, old, new, gone):
    """Names what was moved where it is now, in one file."""
    text, lines = path.read_text(encoding="utf-8"), []
    for line in text.split("\n"):
        use = USE.match(line)
        if not use or use["module"] != old:
            lines.append(line)
        elif use["alias"]:
            members = set(re.findall(rf"(?<![\w'.]){use['alias']}\.([\w']+)", text))
            if members & gone and members - gone:
                print(f"{path.relative_to(TOP)}: {use['alias']} is used for what was moved and for what was not")
            lines.append(line.replace(old, new) if members <= gone else line)
        else:
            for module, names in ((old, [it for it in split(use["names"]) if it.split(" as ")[0] not in gone]), (new, [it for it in split(use["names"]) if it.split(" as ")[0] in gone])):
                lines += [f"{use['before']}use {module}.{{{', '.join(names)}}}{use['end']}"] * bool(names)
    return "\n".join(lines)


def move(to, word):
    place, _, name = word.partition("=")
    place, _, names = place.partition(":")
    crate, module = place.split("/")
    name = name or module
    old, new = f"Rattle.{crate}.specs.{module}", f"Rattle.{to}.specs.{name}"
    source, target = (Chapter(TOP / f"crates/{it}/specs/{part}.antt") for it, part in ((crate, module), (to, name)))
    target.head = target.head or list(source.head)
    gone = taken(source, target, old, new, split(names))
    library(to, name, True)
    if source.defined():
        for it in sorted(gone):
            if is_used(it, "\n\n".join(source.blocks)):
                source.bring(new, it)
        source.write()
    else:
        source.path.unlink()
        library(crate, module, False)
    target.uses = [it for it in target.uses if not (USE.match(it) and USE.match(it)["module"] == new)]
    target.write()
    for path in (it for folder in ("crates", "dev/edits") for it in sorted((TOP / folder).rglob("*"))):
        if path.suffix in KINDS and "out" not in path.parts and path != target.path and path != source.path and old in path.read_text(encoding="utf-8"):
            path.write_text(followed(path, old, new, gone), encoding="utf-8")


def main(words):
    if len(words) < 2:
        sys.exit(__doc__)
    for word in words[1:]:
        move(words[0], word)


if __name__ == "__main__":
    main(sys.argv[1:])
