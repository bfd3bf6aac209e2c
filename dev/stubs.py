#!/usr/bin/env python3
"""Writes a checkout's crates with assumed bodies, and builds them, so that a crate can be checked in minutes over stand-ins of all that lies below it:

  dev/stubs.py OUT [--of FOLDER] [--real NAME..] [--jobs N] [--only-write | --check [FLAG..]]

OUT gets every crate of FOLDER (a checkout; without it, this one) with its types, contracts, ghost items, specs/ and those lemma files that other crates name;
for each body of a function stands one that promises all. The crates after --real stay as they are, and only what these stand on is built then. N libraries are
built at a time (without it, 2), each in 5 to 60 processor seconds, of which lemma files take the most, and a check takes as many jobs. A second run leaves what is
unchanged, and builds the rest.

  cp -r OUT MINE                                  a tree of your own: while a crate is checked, the folders of all crates below are locked
  dev/stubs.py MINE --of FOLDER --real NAME --check [--only PATH]     puts the real crate there, builds what it stands on, and checks it
  cd MINE/crates/NAME; RT_ALLOW_C=1 rt check      does the same again, but `rt` hashes what lies below along each path through crates.txt: of `fbr` for minutes

Traps:
- What is checked over stand-ins is not proved: it is, where all below it is, which only the gate says.
- A stand-in is as old as its sources. Where a contract, a type or a definition changes, or a proof names another lemma file of a crate below, run this script
  again before crates above are checked.
- A change in a crate makes the stand-ins of all above it stale, also where no contract changed: while several work at crates of one checkout, give FOLDER as
  a copy of it in which the real crate alone is changed.
- Where an enum or a struct gets another case or field, check each crate above that matches or makes it, though its own files are unchanged.
- A function with a promise that no body keeps is let through in the crates that stand in.
- `rt must-fail` and `rt ci` do not run over stand-ins (dev/edits.py tries edits over them), and a program over them stops at the first call.
- `rt check` in a crate whose libraries are not built first reads all their sources, for minutes.
- Of crates after --real none may stand on another one: run the script once for each.
- A crate is checked whole before it is handed in: the functions that changed are not enough, since what calls them may be taken no more.
"""
import argparse
import functools
import hashlib
import importlib.machinery
import importlib.util
import os
import re
import shutil
import sys
import threading
import time
from concurrent.futures import FIRST_COMPLETED, ThreadPoolExecutor, wait

TOP = os.path.dirname(os.path.dirname(os.path.abspath(__file__)))
TOKEN = re.compile(
    r"""//[^\n]*|/\*.*?\*/|[bc]?r(?P<marks>#*)".*?"(?P=marks)|[bc]?"(?:[^"\\]|\\.)*"|'(?:\\(?:x..|u\{[^}]*\}|.)|[^'\\\n])'|'[A-Za-z_]\w*|\w+|\s+|.""",
    re.S,
)
OPEN, CLOSE = "([{", ")]}"
ASSUMED = "assumed_body"
# What stands for a body. A name that no source has.
BODY = f"{{\n    crate::{ASSUMED}::promise();\n    unreachable!()\n}}"
MODULE = """//! Promises all, so that a body that calls it is assumed.

unsafe extern "C" {
    pub(crate) safe fn promise()
        ensures { ⊥ };
}
"""
# The marks of functions that call one another, and of what their proofs use. Types that reach themselves have the first too, and keep it.
MARKS = re.compile(r"#\[(?:cycle|tactic)\([^\n]*\)\]\s*(?=(?:#\[[^\n]*\]\s*|pub(?:\([\w:]+\))?\s+)*fn\b)")
PROOFS = ("Invariants.antt", "Answers.antt", "Proof.antt")


def tokens(text):
    return [it[0] for it in TOKEN.finditer(text)]


def is_plain(token):
    """Whether a token is more than room and comment."""
    return not token.isspace() and not token.startswith(("//", "/*"))


def end_of(parts, at):
    """Behind the bracket that closes the one at a place."""
    depth = 0
    while True:
        depth += (parts[at] in OPEN) - (parts[at] in CLOSE)
        at += 1
        if not depth:
            return at


def is_clause(parts, at):
    """Whether a brace opens a clause of a contract, as in `requires name {`, and no body."""
    before = [it for it in parts[:at] if is_plain(it)][-3:]
    words = {"requires", "ensures", "decreases"}
    return bool(before) and (before[-1] in (*words, "*", "=", ":") or len(before) > 1 and before[-2] in words or len(before) > 2 and before[-3] in words and before[-2] == "*")


def body_of(parts, at):
    """Where the body of the function stands whose `fn` is at a place, or None where it has none."""
    first = at
    while True:
        it = parts[at]
        if it == ";":
            return None
        if it == "{" and not is_clause(parts[first:], at - first):
            return at, end_of(parts, at)
        at = end_of(parts, at) if it in OPEN else at + 1


def without_tests(parts):
    """The tokens without items that only tests have."""
    text = "".join(parts)
    text = re.sub(r"#\[cfg\(test\)\]\s*(pub )?mod \w+;\n", "", text)
    found = re.search(r"#\[cfg\(test\)\]\s*mod \w+ (?=\{)", text)
    while found:
        inner = tokens(text[found.end() :])
        text = text[: found.start()] + "".join(inner[end_of(inner, 0) :])
        found = re.search(r"#\[cfg\(test\)\]\s*mod \w+ (?=\{)", text)
    return tokens(text)


def assumed(text):
    """The source with assumed bodies."""
    parts, out, at = without_tests(tokens(text)), [], 0
    while at < len(parts):
        if parts[at] == "fn" and re.match(r"\w", next((it for it in parts[at + 1 :] if is_plain(it)), "")):
            body = body_of(parts, at)
            if body:
                out += parts[at : body[0]] + [BODY]
                at = body[1]
                continue
        out.append(parts[at])
        at += 1
    return "".join(out)


def with_module(text):
    """The root of a crate with the module that promises, behind the lines that speak of the whole crate."""
    head = re.match(r"((//!|#!).*\n|\s*\n)*", text).end()
    return f"{text[:head]}mod {ASSUMED};\n{text[head:]}"


def write(path, text):
    os.makedirs(os.path.dirname(path), exist_ok=True)
    with open(path, "w", encoding="utf-8") as it:
        it.write(text)


def read(path):
    with open(path, encoding="utf-8") as it:
        return it.read()


def files_below(folder):
    return [os.path.relpath(f"{at}/{name}", folder) for at, _, names in os.walk(folder) for name in sorted(names)]


def is_lemmas(file):
    return file.endswith(".antt") and os.path.basename(file) not in PROOFS


def lemmas_named(folder, crates):
    """The lemma files of each crate that other crates name, and those that these name in their own."""
    named, inside = {name: set() for name in crates}, {name: {} for name in crates}
    for name in crates:
        for file in files_below(f"{folder}/crates/{name}"):
            if not file.endswith((".antt", ".rt")) or file.startswith("out/"):
                continue
            text = read(f"{folder}/crates/{name}/{file}")
            own = set()
            for first, path in re.findall(r"(?:Rattle\.)?\b(\w+)(?:\.|::)proofs((?:(?:\.|::)[^\s.:{},()]+)+)", text):
                at = first
                for part in re.split(r"\.|::", path)[1:]:
                    if not (part.startswith("of_") and part[3:] in crates):
                        (own if at == name else named.get(at, set())).add(part)
                        break
                    at = part[3:]
            if file.startswith("proofs/") and is_lemmas(file):
                inside[name][os.path.basename(file)[: -len(".antt")]] = own
    for name in crates:
        more = list(named[name])
        while more:
            for it in inside[name].get(more.pop(), set()) - named[name]:
                named[name].add(it)
                more.append(it)
    return named


def sum_of(folder):
    total = hashlib.sha256()
    for file in files_below(folder):
        if file.startswith(("src/", "specs/", "proofs/")):
            total.update(f"{file}\n{read(f'{folder}/{file}')}".encode())
    return total.hexdigest()


def stands(one, other, lemmas):
    """Whether a stand-in is there, of these sources and with these lemma files."""
    kept = f"{other}/out/stands_for"
    has = {os.path.basename(it)[: -len(".antt")] for it in files_below(f"{other}/proofs")}
    wanted = {it for it in lemmas if os.path.exists(f"{one}/proofs/{it}.antt")}
    return os.path.exists(kept) and os.path.exists(f"{other}/src/{ASSUMED}.rt") and read(kept) == sum_of(one) and wanted <= has


def write_crate(one, other, is_real, lemmas):
    """Writes a crate, with what an earlier run built of it left in out/. Of its lemma files a stand-in has those that other crates name."""
    if not is_real and stands(one, other, lemmas):
        return
    for name in os.listdir(other) if os.path.isdir(other) else []:
        if name != "out":
            path = f"{other}/{name}"
            (shutil.rmtree if os.path.isdir(path) else os.remove)(path)
    os.makedirs(other, exist_ok=True)
    if is_real:
        shutil.copytree(one, other, dirs_exist_ok=True, ignore=lambda at, names: ["out"] if at == one else [])
        return
    roots = ("src/lib.rt", "src/main.rt")
    texts = {file: read(f"{one}/src/{file}") for file in files_below(f"{one}/src")}
    for_tests = {it[1] for text in texts.values() for it in re.finditer(r"#\[cfg\(test\)\]\s*(?:pub )?mod (\w+);", text)}
    for file, text in texts.items():
        if os.path.basename(file).removesuffix(".rt") not in for_tests and "#[test]" not in text or f"src/{file}" in roots:
            text = assumed(MARKS.sub("", text))
            write(f"{other}/src/{file}", with_module(text) if f"src/{file}" in roots else text)
    write(f"{other}/src/{ASSUMED}.rt", MODULE)
    write(f"{other}/c/{ASSUMED}.c", "void promise(void) { __builtin_trap(); }\n")
    for file in files_below(f"{one}/specs"):
        write(f"{other}/specs/{file}", read(f"{one}/specs/{file}"))
    for file in filter(is_lemmas, files_below(f"{one}/proofs")):
        text = read(f"{one}/proofs/{file}")
        if os.path.basename(file) == "Lib.antt":
            text = re.sub(r"(?m)^(?:pub )?mod (\S+)\n", lambda it: it[0] if it[1] in lemmas else "", text)
        elif file.split("/")[0].removesuffix(".antt") not in lemmas:
            continue
        write(f"{other}/proofs/{file}", text)
    write(f"{other}/out/stands_for", sum_of(one))


def listed(folder):
    """The crates by name, each with the crates right below it."""
    told = [line.partition("#")[0].partition(":") for line in read(f"{folder}/crates.txt").splitlines()]
    found = {name.split()[0]: rest.split() for name, sign, rest in told if sign}
    return {name: [it for it in below if it in found] for name, below in found.items()}


def kit():
    """The library behind `rt`: its own commands lock the crates below, so that two of them cannot build side by side."""
    path = f"{os.path.dirname(os.path.realpath(shutil.which('rt')))}/rtlib.py"
    spec = importlib.util.spec_from_loader("rtlib", importlib.machinery.SourceFileLoader("rtlib", path))
    found = importlib.util.module_from_spec(spec)
    sys.modules["rtlib"] = found
    spec.loader.exec_module(found)
    # It walks every path through crates.txt anew, again and again.
    for name in ("below", "stamp"):
        setattr(found.Crate, name, functools.lru_cache(None)(getattr(found.Crate, name)))
    return found


def build(rtlib, known, wanted, at_once):
    """Builds the libraries, each once those below it are built. Returns those that failed, and those that were not tried."""
    behind = {name: 0 for name in wanted}
    for crate in sorted(known.values(), key=lambda it: -len(it.below())):
        for it in crate.deps:
            if crate.name in behind:
                behind[it.name] = max(behind[it.name], behind[crate.name] + 1)
    # Those with the longest chain of others on them first.
    left = {name: known[name] for name in sorted(wanted, key=lambda it: -behind[it]) if known[name].makes_rlib()}
    locks = rtlib.lock(left.values())
    done, failed, running, whole, began = set(), [], {}, len(left), time.monotonic()
    printing = threading.Lock()

    def work(crate):
        os.makedirs(f"{crate.folder}/out", exist_ok=True)
        start = time.monotonic()
        with open(f"{crate.folder}/out/said", "w+", encoding="utf-8", errors="replace") as crate.out:
            status = crate.build_rlib(["--jobs", "1"], anew=False)
            crate.out.seek(0)
            said = crate.out.read()
        with printing:
            print(f"{crate.name}: {'built' if not status else 'NOT BUILT'} ({time.monotonic() - start:.0f} s; {len(done) + 1} of {whole} after {time.monotonic() - began:.0f} s)", flush=True)
            if status:
                print("\n".join(said.splitlines()[-30:]), flush=True)
        return status

    with ThreadPoolExecutor(at_once) as pool:
        while left or running:
            ready = [name for name, crate in left.items() if all(it.name in done for it in crate.below())]
            for name in ready[: at_once - len(running)]:
                running[pool.submit(work, left.pop(name))] = name
            if not running:
                break
            for ended in wait(running, return_when=FIRST_COMPLETED).done:
                name = running.pop(ended)
                if ended.result():
                    failed.append(name)
                else:
                    done.add(name)
    for it in locks:
        os.close(it)
    return failed, list(left)


def main():
    parser = argparse.ArgumentParser(description=__doc__, formatter_class=argparse.RawDescriptionHelpFormatter, allow_abbrev=False)
    parser.add_argument("out")
    parser.add_argument("--of", default=TOP)
    parser.add_argument("--real", nargs="*", default=[])
    parser.add_argument("--jobs", type=int, default=2)
    parser.add_argument("--only-write", action="store_true")
    parser.add_argument("--check", action="store_true")
    given, flags = parser.parse_known_args()
    if flags and not given.check:
        parser.error(f"{flags[0]} needs --check")
    crates = listed(given.of)
    for name in given.real:
        if name not in crates:
            sys.exit(f"{name} is no crate of crates.txt")
    for name in ("crates.txt", "HANDLES"):
        if os.path.exists(f"{given.of}/{name}"):
            write(f"{given.out}/{name}", read(f"{given.of}/{name}"))
    for name in os.listdir(f"{given.out}/crates") if os.path.isdir(f"{given.out}/crates") else []:
        if name not in crates:
            shutil.rmtree(f"{given.out}/crates/{name}")
    lemmas = lemmas_named(given.of, crates)
    for name in crates:
        write_crate(f"{given.of}/crates/{name}", f"{given.out}/crates/{name}", name in given.real, lemmas[name])
    if given.only_write:
        return 0
    wanted, more = set(), [it for name in given.real for it in crates[name]] if given.real else list(crates)
    while more:
        name = more.pop()
        if name not in wanted:
            wanted.add(name)
            more += crates[name]
    os.environ["RT_ALLOW_C"] = "1"
    os.nice(5)
    rtlib = kit()
    rtlib.guarded()
    known = {it.name: it for it in rtlib.crates_below(os.path.abspath(given.out))}
    failed, left = build(rtlib, known, [it for it in crates if it in wanted and it not in given.real], given.jobs)
    if failed or left:
        sys.exit(f"not built: {' '.join(failed)}; not tried: {' '.join(left) or 'none'}")
    status = 0
    for name in given.real:
        print(f"cd {given.out}/crates/{name} && RT_ALLOW_C=1 rt check {' '.join(flags)}", flush=True)
        if given.check:
            locks = rtlib.lock([*known[name].below(), known[name]])
            os.makedirs(f"{known[name].folder}/out", exist_ok=True)
            status = known[name].check([*flags, "--jobs", str(given.jobs)]) or status
            for it in locks:
                os.close(it)
    return status


if __name__ == "__main__":
    sys.exit(main())
