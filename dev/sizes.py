#!/usr/bin/env python3
"""Counts lines without blank ones, a row of a table for each crate:  dev/sizes.py

Code is src/ without the modules that hold tests, which stand beside it; definitions are specs/, proofs proofs/. Edits are those that the gate tries, and those
in dev/edits."""
import pathlib

TOP = pathlib.Path(__file__).resolve().parent.parent
HEAD = ("Crate", "Code", "Tests", "Definitions", "Proofs", "Edits", "More edits")


def lines(files):
    return sum(bool(line.strip()) for it in files for line in it.read_text(encoding="utf-8").splitlines())


def shown(number):
    return f"{number:,}" if number else ""


def listed(top):
    """The names of the crates of a checkout, in the order of crates.txt."""
    rows = [row.partition("#")[0] for row in (pathlib.Path(top) / "crates.txt").read_text(encoding="utf-8").splitlines()]
    return [row.split(":")[0].split()[0] for row in rows if ":" in row]


def sizes(top, name):
    """The lines of a crate: code, tests, definitions, proofs."""
    crate = pathlib.Path(top) / "crates" / name
    sources = sorted((crate / "src").rglob("*.rt"))
    tests = [it for it in sources if "#[test]" in it.read_text(encoding="utf-8")]
    counts = [lines(it for it in sources if it not in tests), lines(tests)]
    return counts + [lines((crate / part).rglob("*.antt")) for part in ("specs", "proofs")]


def edits(top, name):
    """How many edits of a crate the gate tries, and how many lie in dev/edits."""
    top = pathlib.Path(top)
    return [len(list(folder.glob("*.edit"))) for folder in (top / "crates" / name / "must-fail", top / "dev" / "edits" / name)]


def main():
    print(f"| {' | '.join(HEAD)} |\n|{'---|' * len(HEAD)}")
    whole = [0] * (len(HEAD) - 1)
    for name in listed(TOP):
        counts = sizes(TOP, name) + edits(TOP, name)
        whole = [one + other for one, other in zip(whole, counts)]
        print(f"| `{name}` | {' | '.join(shown(it) for it in counts)} |")
    print(f"| all | {' | '.join(shown(it) for it in whole)} |")


if __name__ == "__main__":
    main()
