#!/usr/bin/env python3
"""Looks up each name that sources and proofs take from a definition or lemma file of this repository: dev/names.py [FOLDER]

`use Rattle.CRATE.specs.MODULE.{NAME, ..}` needs a file of that module in which the word NAME stands. A name that was changed in one crate and is still used in
another is found in a second, without a proof. Modules that the kit makes (`declared`, `contracts`, `Goals`, `TheLaws`) are not looked at."""
import functools
import pathlib
import re
import sys

TOP = pathlib.Path(__file__).resolve().parent.parent
USE = re.compile(r"use Rattle\.(\w+)\.((?:specs|proofs)(?:\.[\w+]+)*)\.\{([^}]*)\}")
MADE = {"declared", "contracts", "Goals", "TheLaws"}


@functools.cache
def words_of(path):
    """The words of a file; nothing where there is none."""
    return frozenset(re.findall(r"[^\s(){},;.]+", path.read_text(encoding="utf-8"))) if path.is_file() else None


def faults(crates, path):
    """What a file uses that is not there."""
    for crate, module, names in USE.findall(path.read_text(encoding="utf-8")):
        parts = module.split(".")
        if not (crates / crate).is_dir() or MADE & set(parts):
            continue
        words = words_of(crates.joinpath(crate, *parts).with_suffix(".antt"))
        if words is None:
            yield f"there is no {crate}.{module}"
            continue
        for name in (it.split(" as ")[0].strip() for it in names.split(",")):
            if name and name not in words:
                yield f"{crate}.{module} has no {name}"


def main():
    top = pathlib.Path(sys.argv[1]).resolve() if len(sys.argv) > 1 else TOP
    files = [it for kind in ("rt", "antt") for it in sorted((top / "crates").rglob(f"*.{kind}")) if "out" not in it.parts]
    found = [f"{it.relative_to(top)}: {what}" for it in files for what in faults(top / "crates", it)]
    print("\n".join(found) or f"all names that {len(files)} files use are there")
    return 1 if found else 0


if __name__ == "__main__":
    sys.exit(main())
