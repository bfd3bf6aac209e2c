"""Files of definitions, read as far as tools need them: which definitions stand there, and which ones of other files they name."""
import functools
import pathlib
import re

CRATES = pathlib.Path(__file__).resolve().parent.parent / "crates"
USE = re.compile(r"^\s*(?:ghost |pub )*use Rattle\.(\w+)\.specs\.([\w.]+?)(?:\.\{([^}]*)\}| as (\w+));?$", re.M)
BEGINS = re.compile(r"^(\s*)(?:abbrev )?(?:pub )?(?:(data|record) ([\w']+)|([\w']+) :)")
WORD = re.compile(r"(?<![\w'.])[\w']+")
MEMBER = re.compile(r"(?<![\w'.])(\w+)\.([\w']+)")


def chapter(crate, module):
    """The file of a module of definitions; none for what the kit makes of types, or brings along."""
    file = CRATES / crate / "specs" / f"{module.replace('.', '/')}.antt"
    return file if file.is_file() else None


def named(block):
    """The names that a block of lines defines: its own, and those of the cases of a data type."""
    names, within = set(), None
    for line in block.splitlines():
        begins = BEGINS.match(line)
        if not begins or line.lstrip().startswith("--"):
            continue
        depth, kind, name, other = len(begins[1]), *begins.groups()[1:]
        if kind:
            names.add(name)
            within = depth, kind
        elif within is None or depth <= within[0]:
            names.add(other)
            within = None
        elif within[1] == "data":
            names.add(other)
    return names


class File:
    """A file of definitions, or of code that names some: its blocks, and what it brings in."""

    def __init__(self, path):
        self.path, text = path, path.read_text(encoding="utf-8")
        self.brought, self.aliases, self.handed = {}, {}, {}
        for crate, module, names, alias in USE.findall(text):
            file = chapter(crate, module)
            if file and alias:
                self.aliases[alias] = file
            for name in (it.strip() for it in names.split(",") if it.strip() and file):
                there, _, here = name.partition(" as ")
                self.brought[here or there] = file, there
        if path.suffix == ".antt":
            self.cut(text)

    def cut(self, text):
        """The blocks between blank lines, each with those that are indented behind it."""
        blocks = []
        for block in re.split(r"\n\s*\n", re.sub(r"^(?:pub )?use .*\n|^(?:--.*\n)+(?=use )", "", text, flags=re.M).strip("\n")):
            if blocks and block.startswith(" "):
                blocks[-1] += "\n\n" + block
            else:
                blocks.append(block)
        self.blocks = blocks
        self.defined = {name: at for at, block in enumerate(blocks) for name in named(block)}

    def reached(self, text):
        """The definitions that a text of this file names, each by its file and the number of its block."""
        text, found = re.sub(r"--[^\n]*", "", text), set()
        for word in set(WORD.findall(text)):
            if word in getattr(self, "defined", ()):
                found.add((self.path, self.defined[word]))
            elif word in self.brought:
                found |= place_of(*self.brought[word])
        for alias, word in set(MEMBER.findall(text)):
            if alias in self.aliases:
                found |= place_of(self.aliases[alias], word)
        return found


@functools.cache
def read(path):
    return File(path)


def place_of(path, name):
    """Where a definition stands: in this file, or where the file has it from."""
    file = read(path)
    if name in file.defined:
        return {(path, file.defined[name])}
    return place_of(*file.brought[name]) if name in file.brought else set()


def behind(places):
    """These definitions, and all that they name, and so on."""
    seen, left = set(), list(places)
    while left:
        place = left.pop()
        if place not in seen:
            seen.add(place)
            file = read(place[0])
            left += file.reached(file.blocks[place[1]])
    return seen


def lines_of(places):
    """How many lines that are not blank these definitions have, with their comments."""
    return sum(bool(line.strip()) for path, at in places for line in read(path).blocks[at].splitlines())
