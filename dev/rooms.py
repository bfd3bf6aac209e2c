#!/usr/bin/env python3
"""The crates by their rooms, from the heads of their sources and crates.txt:

    dev/rooms.py            prints the table of docs/ARCHITECTURE.md: room by room, each crate behind those that it stands on
    dev/rooms.py --write    writes it into that page, between its two marks
    dev/rooms.py --chain    prints the longest chain of crates, and below it those that no other crate stands on
    dev/rooms.py --uses     says which crates sources use that crates.txt does not list, and which it lists that none uses
    dev/rooms.py --promises prints how many definitions stand behind each record of what is promised and the clauses that cite it, with their lines; it fails where
                            these are more than MOST, or where no public call cites a record
    dev/rooms.py --pages    says which crates, names in them, edits and clauses that the pages name are not there, and which edits of the gate none names

The head of a crate is the comment with which src/lib.rt or src/main.rt begins. Its first line says the room, and what the crate is for:
`//! Room: checker. The verdict: ..`."""
import functools
import itertools
import pathlib
import re
import sys

import chapters

TOP = pathlib.Path(__file__).resolve().parent.parent
ROOMS = {
    "book": "what is meant: definitions, and laws over them",
    "language": "texts to typed systems and their leaves",
    "checker": "whether a certificate fits",
    "finder": "the least certificate, or why there is none",
    "device": "one device that runs",
    "network": "datagrams and links",
    "program": "`fbr`",
    "cases": "what the gate asks the product",
}
# The records of what is promised, and the most lines of definitions, without blank ones, that may stand behind them and the clauses that cite them; and behind
# all clauses of the public calls of these crates.
PROMISES = TOP / "crates/fb_model/specs/Promises.antt"
PROMISING = ("fb_verdict", "fb_find", "fb_device", "fb_world")
MOST = 6_000, 7_500
BOOK = ("fb_words", "fb_faults", "fb_model")
MARKS = "<!-- rooms -->", "<!-- end of rooms -->"
PAGES = ["README.md", "CONTRIBUTING.md", "tests/README.md", "examples/README.md", *(f"docs/{it.name}" for it in sorted(TOP.glob("docs/*.md")))]


def lines_listed():
    """The crates by name, each with all that its line names."""
    lines = (line.partition("#")[0].partition(":") for line in (TOP / "crates.txt").read_text().splitlines())
    return {name.split()[0]: rest.split() for name, sign, rest in lines if sign}


def listed():
    """The crates by name, each with the crates of this repository that its line names."""
    told = lines_listed()
    return {name: [it for it in below if it in told] for name, below in told.items()}


def head(name):
    """The room of a crate, and what it is for."""
    sources = (TOP / f"crates/{name}/src/{it}.rt" for it in ("lib", "main"))
    first = next(it for it in sources if it.exists()).read_text().splitlines()[0]
    told = re.match(r"//! Room: (\w+)\. (.+)$", first)
    if not told or told[1] not in ROOMS:
        sys.exit(f"the head of {name} says no room: {first}")
    return told[1], told[2]


def chains(crates):
    """The longest chain from each crate downwards, itself first."""

    @functools.cache
    def below(name):
        return (name, *max(map(below, crates[name]), key=len, default=()))

    return {name: below(name) for name in crates}


def table(crates):
    height = {name: len(chain) for name, chain in chains(crates).items()}
    heads = {name: head(name) for name in crates}
    lines = ["| Crate | What it is for |", "|---|---|"]
    for room, about in ROOMS.items():
        lines.append(f"| **{room}** | *{about}* |")
        inside = [name for name in crates if heads[name][0] == room]
        lines += [f"| `{name}` | {heads[name][1]} |" for name in sorted(inside, key=lambda it: (height[it], it))]
    return "\n".join(lines)


def write(crates):
    page = TOP / "docs/ARCHITECTURE.md"
    before, _, rest = page.read_text().partition(MARKS[0])
    _, _, after = rest.partition(MARKS[1])
    page.write_text(f"{before}{MARKS[0]}\n{table(crates)}\n{MARKS[1]}{after}")


def tell_chain(crates):
    longest = max(chains(crates).values(), key=len)
    print(f"{len(crates)} crates; the longest chain has {len(longest)}:")
    print("  " + " > ".join(longest))
    under = set(itertools.chain(*crates.values()))
    print("on which none stands: " + ", ".join(sorted(set(crates) - under)))


def code_of(file):
    """What stands in a source, without its comments and texts."""
    text = re.sub(r'"(?:[^"\\]|\\.)*"', '""', file.read_text())
    return re.sub(r"//[^\n]*" if file.suffix == ".rt" else r"--[^\n]*", "", text)


def uses_of(name, known):
    """The crates that the sources of a crate use, each with the first file that does: by a path in Rust or in a definition, also through another crate that
    hands one on, as `fb_world::fb_device::load` and `Rattle.fb_world.specs.fb_device.Sessions` use two, and `Rattle.fb_world.proofs.of_fb_device.Lists`."""
    found = {}
    for part in ("src", "specs", "proofs"):
        for file in sorted((TOP / f"crates/{name}/{part}").rglob("*.*")):
            if file.suffix not in (".rt", ".antt"):
                continue
            code = code_of(file)
            words = [it for path in re.findall(r"\bRattle((?:\.\w+)+)", code) for it in path.split(".")[1:2] + path.split(".")[3:]]
            if file.suffix == ".rt":
                words += [it for path in re.findall(r"(?<![\w.])\w+(?:::\w+)+", code) for it in path.split("::")[:-1]]
                words += re.findall(r"(?<![\w.])(\w+)::[{*]", code) + re.findall(r"\buse (\w+)(?:;| as )", code)
            for word in words:
                it = word.removeprefix("of_")
                if it in known and it != name:
                    found.setdefault(it, file.relative_to(TOP))
    return found


def tell_uses(told):
    """Crates that a source uses and its line does not name, and crates of this repository that a line names and no source uses. Of a library of the kit a source
    may use a trait's functions without its name, so that only the first is asked of it."""
    known, wrong = {*told, *itertools.chain(*told.values())}, []
    for name, below in told.items():
        found = uses_of(name, known)
        wrong += [f"{name} uses {it}, which crates.txt does not list for it: {found[it]}" for it in found if it not in below]
        wrong += [f"crates.txt lists {it} for {name}, which does not use it" for it in below if it in told and it not in found]
    print("\n".join(wrong) or "crates.txt lists what each crate uses, and nothing else")
    return bool(wrong)


def clauses_of(path):
    """The clauses of a source's functions, line by line, each with whether its function is public."""
    public = False
    for line in path.read_text().splitlines():
        begins = re.match(r"\s*(?:(pub)(\([^)]*\))? )?fn \w", line)
        if begins:
            public = bool(begins[1]) and not begins[2]
        elif re.match(r"\s+(?:ensures|requires|→) ?", line):
            yield public, line


def promised():
    """The records of what is promised, each with the definitions that it is and that the clauses name which cite it, and with the crates of these; and the
    definitions that any clause of a public call of those who promise names."""
    book = chapters.read(PROMISES)
    named = {it: {(PROMISES, book.defined[it])} for it in re.findall(r"^pub record (\w+)", PROMISES.read_text(), re.M)}
    crates, others = {it: set() for it in named}, set()
    for path in sorted(TOP.glob("crates/*/src/**/*.rt")):
        crate = path.relative_to(TOP / "crates").parts[0]
        for public, line in clauses_of(path):
            reached = chapters.read(path).reached(line) if public else set()
            if public and crate in PROMISING:
                others |= reached
            cited = re.match(r"\s+ensures \w* ?\{ (\w+)", line)
            if public and cited and cited[1] in named:
                named[cited[1]] |= reached
                crates[cited[1]].add(crate)
    return named, crates, others


def parts(places):
    """The lines of the book among definitions, those of the views of values, and the files."""
    book = {it for it in places if it[0].relative_to(TOP / "crates").parts[0] in BOOK}
    return [chapters.lines_of(book), chapters.lines_of(places - book), len({path for path, _ in places})]


def tell_promises():
    named, crates, others = promised()
    print("| Record | Cited by calls of | Lines of the book | Lines of views of values | Files |")
    print("|---|---|---|---|---|")
    behind = {name: chapters.behind(places) for name, places in named.items()}
    rows = [(f"`{name}`", ", ".join(f"`{it}`" for it in sorted(crates[name])), behind[name]) for name in named]
    rows.append(("all five", "", set().union(*behind.values())))
    rows.append(("all clauses of public calls", ", ".join(f"`{it}`" for it in PROMISING), chapters.behind(others)))
    for name, by, places in rows:
        print(f"| {name} | {by} | {' | '.join(f'{it:,}' for it in parts(places))} |")
    wrong = [f"no call cites {name}" for name in named if not crates[name]]
    for (name, _, places), most in zip(rows[-2:], MOST):
        lines = chapters.lines_of(places)
        wrong += [f"{name}: {lines:,} lines of definitions, more than {most:,}"] * (lines > most)
    print("\n".join(wrong) or f"no more lines stand behind them than may: {MOST[0]:,}, and {MOST[1]:,} behind all clauses")
    return bool(wrong)


def plain(text):
    return re.sub(r"\s+", " ", text).strip()


def tell_pages(crates):
    """What pages name that is not there: crates, what is in them as `CRATE::NAME`, edits as `CRATE/NAME`, and the lines of ```clause blocks."""
    texts = {name: "\n".join(it.read_text() for part in ("src", "specs") for it in sorted(TOP.glob(f"crates/{name}/{part}/**/*.*"))) for name in crates}
    code = plain("\n".join(texts.values()))
    wrong = []
    for page in PAGES:
        text = (TOP / page).read_text()
        for word in sorted(set(re.findall(r"`(?:crates/)?((?:fb|st|fbr)_\w+)[`/:.]", text))):
            if word not in crates:
                wrong.append(f"{page}: no crate {word}")
        for crate, name in sorted(set(re.findall(r"\b(\w+)::(\w+)", text))):
            if crate in crates and not re.search(rf"\b{name}\b", texts[crate]):
                wrong.append(f"{page}: no {name} in {crate}")
        for crate, name in sorted(set(re.findall(r"`(\w+)/([a-z0-9_]+)`", text))):
            places = (TOP / f"crates/{crate}/must-fail/{name}.edit", TOP / f"dev/edits/{crate}/{name}.edit")
            if crate in crates and name not in ("src", "specs", "proofs") and not any(it.exists() for it in places):
                wrong.append(f"{page}: no edit {crate}/{name}")
        for block in re.findall(r"```clause\n(.*?)```", text, re.S):
            wrong += [f"{page}: no such clause: {line}" for line in block.splitlines() if line.strip() and plain(line) not in code]
    wrong += unasked(crates, "\n".join((TOP / it).read_text() for it in PAGES))
    print("\n".join(wrong) or "what the pages name is there")
    return bool(wrong)


def unasked(crates, pages):
    """The edits of the gate that no page names, where the crate has another; and crates that have edits, but none in the gate."""
    wrong = []
    for crate in crates:
        edits = sorted(it.stem for it in TOP.glob(f"crates/{crate}/must-fail/*.edit"))
        named = [it for it in edits if f"`{crate}/{it}`" in pages]
        wrong += [f"the gate tries {crate}/{it}, which no page names" for it in edits if it not in named and len(edits) > 1]
        if not edits and list(TOP.glob(f"dev/edits/{crate}/*.edit")):
            wrong.append(f"the gate tries no edit of {crate}")
    return wrong


def main(words):
    crates = listed()
    if words == ["--chain"]:
        return tell_chain(crates)
    if words == ["--uses"]:
        return tell_uses(lines_listed())
    if words == ["--promises"]:
        return tell_promises()
    if words == ["--pages"]:
        return tell_pages(crates)
    if words == ["--write"]:
        return write(crates)
    if words:
        return sys.exit(__doc__)
    return print(table(crates))


if __name__ == "__main__":
    sys.exit(main(sys.argv[1:]))
