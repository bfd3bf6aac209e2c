#!/usr/bin/env python3
"""Tells which modules of a crate took the prover longest:

  dev/module_times.py CRATE..     checks each crate from nothing, at one job, and prints what took more than two seconds, the longest first
  dev/module_times.py --last CRATE..     prints the same of the last check, without another one

A module is a lemma file, or a part of what is made of a function: `list.body_fault.Lts` is how the body of `list::body_fault` runs, `.Proof` its proof, and a
name with `+` is of a cycle. A check at one job leaves a file as it ends each module, so what a module took is the time between its file and the one before; of a
check over kept work the answer is worth little. What stands in a lemma file or a contract is checked in the crate's proof and again for each edit alone in it."""
import os
import shutil
import subprocess
import sys

TOP = os.path.dirname(os.path.dirname(os.path.abspath(__file__)))
LEAST = 2.0
MOST = 30


def check(folder):
    """Checks a crate from nothing, and leaves its files."""
    shutil.rmtree(f"{folder}/out/incremental", ignore_errors=True)
    return subprocess.run(["rt", "check", "--jobs", "1"], cwd=folder, stdout=subprocess.DEVNULL, check=False).returncode


def ended(folder):
    """When each module was done, and its name, in that order."""
    found = []
    for at, _, names in os.walk(f"{folder}/out/incremental"):
        found += [(os.stat(f"{at}/{name}").st_mtime, name.removesuffix(".oantt")) for name in names if name.endswith(".oantt")]
    return sorted(found)


def tell(crate, modules):
    if not modules:
        print(f"{crate}: no check has left anything")
        return
    took = [(later[0] - one[0], later[1]) for one, later in zip(modules, modules[1:])]
    whole = modules[-1][0] - modules[0][0]
    slow = sorted((it for it in took if it[0] > LEAST), reverse=True)
    print(f"{crate}: {len(modules)} modules in {whole:.0f} s, {sum(seconds for seconds, _ in slow):.0f} of them in {len(slow)}")
    for seconds, name in slow[:MOST]:
        print(f"  {seconds:6.1f}  {name.removeprefix(f'Rattle-{crate}-')}")


def main(words):
    is_last = words[:1] == ["--last"]
    crates = words[is_last:]
    if not crates:
        sys.exit(__doc__)
    for crate in crates:
        folder = f"{TOP}/crates/{crate}"
        if not os.path.isdir(f"{folder}/src"):
            sys.exit(f"there is no crate {crate}")
        if not is_last and check(folder):
            sys.exit(f"{crate} is not proved")
        tell(crate, ended(folder))


if __name__ == "__main__":
    try:
        main(sys.argv[1:])
    except BrokenPipeError:
        # (who reads it has seen enough)
        os._exit(0)
