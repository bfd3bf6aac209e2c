#!/usr/bin/env python3
"""Looks at edits, the wrong bodies that the prover has to refuse: those of the gate in crates/CRATE/must-fail, and further ones in dev/edits/CRATE.

  dev/edits.py --check [NAME..]             proves nothing: is each edit well written, does it fit its crate, and is the result a program?
  dev/edits.py [--over OUT] NAME..          tries edits over the stand-ins that `dev/stubs.py OUT` has built (without --over in out/stubs), and compares
                                            the goals that refuse each with those that it names
  dev/edits.py [--over OUT] --note NAME..   the same, and writes these goals into each edit that falls as it should
  dev/edits.py --whole [CRATE..]            tries all further edits with `rt must-fail`, in a copy, over crates that are proved

NAME is a crate, for all its edits, or CRATE/EDIT. Without a NAME, --check looks at all.

An edit is a file of lines `file: PATH`, then pairs `old: TEXT` and `new: TEXT`, each of one line; TEXT of `old` stands in the file exactly once. Beside these,
which `rt` reads, it has lines

  # goal: FUNCTION: GOAL..      the goals that refuse it, by the names that a check prints: `returns-clause-items` is the clause `ensures items`
  # control: TEXT               a right body in the place of the last `new`, of the same form: it has to be proved

and other lines that begin with `# `. An edit falls as it should if a goal of an `ensures` clause stays open of the function that it turns, and if that comes
of the value: a function with hand-written answers in proofs/ refuses any body of another form, also a right one. So where only such an answer is refused,
the edit changes a value alone (its calls and branches are those of the right body), mends the answer along, or has a control.
"""
import argparse
import collections
import functools
import os
import pathlib
import re
import shutil
import subprocess
import sys
import tempfile
import time

import stubs

TOP = pathlib.Path(__file__).resolve().parent.parent
PARTS = ("src", "specs", "proofs")
KEYS = ("file: ", "old: ", "new: ", "# ")
# What is said of a try.
RIGHT, FORM, WRONG, PROVED, BAD = "right", "by form", "wrong", "PROVED", "bad"
FUNCTION = re.compile(r"^( *)(?:pub(?:\([\w:]+\))? )?(?:const )?(?:unsafe )?fn (\w+)", re.M)
# What gives a body its form: calls and branches. Which variant is made is a value, and so is what is assigned.
FORMS = re.compile(r"\b[a-z]\w*(?=!?\(|::<)|\b(?:if|else|match|for|while|loop|return|break|continue)\b|[?|]|=>|&&")


class Edit:
    """An edit, with what its file says."""

    def __init__(self, crate, path):
        self.crate, self.path, self.name = crate, path, f"{crate}/{path.stem}"
        self.pairs, self.goals, self.controls, self.faults = [], {}, [], []
        file = old = None
        for at, line in enumerate(stubs.read(path).removesuffix("\n").split("\n"), 1):
            if line.startswith("file: "):
                file = line[6:]
            elif line.startswith("old: ") and old is None:
                old = line[5:]
            elif (line.startswith("new: ") or line == "new:") and file and old is not None:
                self.pairs.append((file, old, line[5:]))
                old = None
            elif found := re.fullmatch(r"# goal: (\S+): (\S+(?: \S+)*)", line):
                self.goals[found[1]] = found[2].split()
            elif line.startswith("# control: "):
                self.controls.append(line[11:])
            elif not line.startswith("# ") or line.startswith(("# goal", "# control")):
                self.faults.append(f"line {at} is not read: {line.strip()[:60]}")
        if old is not None or not self.pairs:
            self.faults.append("it has no pair of an `old` and a `new`, or one without the other")

    def texts(self, control=None):
        """The texts of the files that it changes, before and after; with a control this stands for the last `new`."""
        before, after = {}, {}
        for at, (file, old, new) in enumerate(self.pairs):
            source = TOP / "crates" / self.crate / file
            if not file.startswith(PARTS) or not source.is_file():
                raise ValueError(f"there is no file {file}")
            before.setdefault(file, stubs.read(source))
            text = after.get(file, before[file])
            if text.count(old) != 1:
                raise ValueError(f"an `old` is in {file} {text.count(old)} times: {old.strip()[:60]}")
            after[file] = text.replace(old, new if control is None or at + 1 < len(self.pairs) else control)
        if before == after:
            raise ValueError("it changes nothing")
        return before, after

    def turned(self):
        """The functions whose lines it changes, by file."""
        before, after = self.texts()
        return {(file, function_at(file, before[file], line)) for file in before for line in changed(before[file], after[file]) if file.startswith("src/")}

    @functools.cached_property
    def paths(self):
        """The functions or modules that it turns, by their paths."""
        return sorted({path for _, path in self.turned()})

    def meets(self, other):
        """Whether two edits turn one function."""
        if self.crate != other.crate:
            return False
        return any(is_within(it, other.paths) for it in self.paths) or any(is_within(it, self.paths) for it in other.paths)

    def keeps_form(self):
        """Whether it changes values alone, or mends what is written of the proof."""
        mends = any(file.startswith("proofs/") for file, _, _ in self.pairs)
        return mends or all(FORMS.findall(old) == FORMS.findall(new) for _, old, new in self.pairs)


def changed(before, after):
    """The lines, from 1, that differ: an edit keeps how many there are."""
    return [at for at, pair in enumerate(zip(before.split("\n"), after.split("\n")), 1) if pair[0] != pair[1]]


def function_at(file, text, line):
    """The path below the crate of the function on a line, or the end of it that a check knows it by; of its module where there is none."""
    module = file.removeprefix("src/").removesuffix(".rt").removesuffix("/mod").replace("/", "::")
    module = "" if module in ("lib", "main") else module
    lines = text.split("\n")
    before = "\n".join(lines[:line])
    found = list(FUNCTION.finditer(before))
    if not found or re.search(rf"^{found[-1][1]}}}$", "\n".join(lines[before[: found[-1].start()].count("\n") : line - 1]), re.M):
        return module
    owner = ""
    if found[-1][1]:
        owners = re.findall(r"^(?:impl|pub trait|trait)(?:<[^{\n]*?>)? ?([^{\n]*)", before[: found[-1].start()], re.M)
        owner = re.match(r"\w+", owners[-1])[0] if owners and " for " not in owners[-1] else None
    if owner is None:
        return module
    # A method stands below the module of its type, wherever its `impl` is.
    module = "" if owner and not re.search(rf"\b(?:struct|enum|trait) {owner}\b", text) else module
    return "::".join(it for it in (module, owner, found[-1][2]) if it)


def all_edits():
    folders = [(name, TOP / folder / part) for name in stubs.listed(str(TOP)) for folder, part in ((f"crates/{name}", "must-fail"), ("dev/edits", name))]
    return [Edit(name, path) for name, folder in folders for path in sorted(folder.glob("*.edit"))]


def named(names):
    """The edits of these names, or all where there is none."""
    edits = all_edits()
    lost = [name for name in names if not any(name in (it.crate, it.name) for it in edits)]
    if lost:
        sys.exit(f"there is no edit of {', '.join(lost)}")
    return [it for it in edits if not names or it.crate in names or it.name in names]


# ---- without proofs


def look(edits):
    """What is wrong with edits as they are written, by name."""
    faults = collections.defaultdict(list)
    folders = [it for it in (TOP / "dev/edits").iterdir() if it.name not in stubs.listed(str(TOP))]
    for it in folders:
        faults[f"dev/edits/{it.name}"].append("there is no such crate")
    once = collections.Counter(it.name for it in edits)
    for edit in edits:
        faults[edit.name] += edit.faults
        if once[edit.name] > 1:
            faults[edit.name].append("two edits have this name")
        try:
            before, _ = edit.texts()
            for control in edit.controls:
                edit.texts(control)
            faults[edit.name] += [f"there is no function {path}, which has its goal" for path in edit.goals if not has_function(edit.crate, path)]
        except ValueError as why:
            faults[edit.name].append(str(why))
    return {name: told for name, told in faults.items() if told}


def has_function(crate, path):
    """Whether a function of this path, or a module or type, stands in the sources of a crate."""
    sources = TOP / "crates" / crate / "src"
    *_, name = path.split("::")
    return any(re.search(rf"\b(?:fn|struct|enum|mod) {name}\b", stubs.read(it)) or it.stem == name for it in sources.rglob("*.rt"))


def is_within(path, paths):
    """Whether a function is one of these, or stands in one of these modules."""
    return any(path == it or path.startswith(f"{it}::") or path.endswith(f"::{it}") or not it for it in paths)


def batches(edits):
    """Edits in batches, each with at most one for a function, so that one run looks at many and what it says can be told apart."""
    found = []
    for edit in edits:
        for batch in found:
            if not any(edit.meets(other) for other in batch):
                batch.append(edit)
                break
        else:
            found.append([edit])
    return found


def front_end(rtlib, folder, name):
    """What the front end of the compiler says of a crate and all below it, from their sources. It is ended before the proofs begin."""
    known = {it.name: it for it in rtlib.crates_below(folder)}
    stages = f"{folder}/stages"
    open(stages, "w", encoding="utf-8").close()
    words = known[name].words(["--jobs", "1", "--only", "", "--stage-times", stages], as_source=True)
    said = tempfile.TemporaryFile("w+", encoding="utf-8", errors="replace")
    with subprocess.Popen([rtlib.RATTLE, "check", *words], cwd=known[name].folder, stdin=subprocess.DEVNULL, stdout=said, stderr=said) as job:
        while job.poll() is None and "stage front-end" not in stubs.read(stages):
            time.sleep(0.2)
        try:
            # Where it has found errors this stage ends too, and then the process.
            is_over = job.wait(5) == 0
        except subprocess.TimeoutExpired:
            is_over = True
        job.kill()
    said.seek(0)
    return "" if is_over else said.read() or f"the compiler ended with status {job.returncode}"


def at_fault(batch, error):
    """The edit of a batch that an error is of."""
    found = re.match(r"\S*/crates/(\w+)/(src/\S+?):(\d+):", error)
    if not found:
        return None
    crate, file, line = found[1], found[2], int(found[3])
    file = file if (TOP / "crates" / crate / file).exists() else "src/main.rt"
    inside = [it for it in batch if it.crate == crate and file in it.texts()[0]]
    exact = [it for it in inside if function_at(file, it.texts()[1][file], line) in it.paths]
    return next(iter(exact or inside), None)


def no_programs(edits, rtlib):
    """Which edits make no program, by what the compiler says."""
    faults = {}
    for batch in batches(edits):
        errors = True
        while batch and errors:
            began = time.monotonic()
            errors = read_batch(batch, rtlib)
            print(f"{len(batch)} edits read together, in {time.monotonic() - began:.0f} s", file=sys.stderr, flush=True)
            found = {edit.name: error for error in reversed(errors) if (edit := at_fault(batch, error))}
            if errors and not found:
                sys.exit("\n".join(["the compiler stops, and not at an edit:", *errors]))
            faults.update({name: [f"it is no program: {error[:200]}"] for name, error in found.items()})
            batch = [it for it in batch if it.name not in found]
    return faults


def read_batch(batch, rtlib):
    """The errors of the front end on the crates with these edits, all at once."""
    with tempfile.TemporaryDirectory(prefix="edits-") as folder:
        shutil.copytree(TOP / "crates", f"{folder}/crates", symlinks=True, ignore=shutil.ignore_patterns("out", "must-fail", "data"))
        crates = sorted({it.crate for it in batch})
        stubs.write(f"{folder}/crates.txt", f"{stubs.read(TOP / 'crates.txt')}every_edit: {' '.join(crates)}\n")
        stubs.write(f"{folder}/crates/every_edit/src/lib.rt", "//! Stands on all crates with an edit.\n")
        for edit in batch:
            for file, text in edit.texts()[1].items():
                stubs.write(f"{folder}/crates/{edit.crate}/{file}", text)
        for root in (f"{folder}/crates/{name}/src/main.rt" for name in crates):
            # A program is read as a library, which takes less time.
            if os.path.exists(root):
                stubs.write(f"{os.path.dirname(root)}/lib.rt", re.sub(r"\bfn main\(", "fn entry(", stubs.read(root)))
                os.remove(root)
        said = front_end(rtlib, folder, "every_edit").replace(f"{folder}/", f"{TOP}/")
        return [it for it in said.splitlines() if re.search(r"error[\[:]", it)] or said.splitlines()


def check(edits):
    faults = look(edits)
    well = [it for it in edits if it.name not in faults]
    faults.update(no_programs(well, stubs.kit()))
    for name, told in faults.items():
        print("\n".join(f"{name}: {it}" for it in told))
    print(f"{len(edits)} edits, {len(faults)} with a fault; {sum(not it.goals for it in edits)} name no goal")
    return bool(faults)


# ---- over stand-ins


def others_assumed(file, text, kept):
    """A source in which all bodies are assumed but those of the functions that are kept, by their paths or those of their modules."""
    text = "".join(stubs.without_tests(stubs.tokens(text)))

    def is_kept(at):
        return is_within(function_at(file, text, text[:at].count("\n") + 1), kept)

    text = stubs.MARKS.sub(lambda found: found[0] if is_kept(text.index("fn ", found.end())) else "\n" * found[0].count("\n"), text)
    parts, out, at, place = stubs.tokens(text), [], 0, 0
    while at < len(parts):
        named = parts[at] == "fn" and re.match(r"\w", next((it for it in parts[at + 1 :] if stubs.is_plain(it)), ""))
        body = stubs.body_of(parts, at) if named and not is_kept(place) else None
        end = body[1] if body else at + 1
        # With as many lines, so that what is said of the others keeps its line.
        lines = "".join(parts[body[0] : end]).count("\n") if body else 0
        out += parts[at : body[0]] + [" ".join(stubs.BODY.split()).removesuffix("}"), "\n" * lines, "}"] if body else [parts[at]]
        place += len("".join(parts[at:end]))
        at = end
    return "".join(out)


def is_in_cycle(file, text, paths):
    """Whether one of these functions is proved together with others."""
    marked = (function_at(file, text, text[: text.index("fn ", it.end())].count("\n") + 1) for it in stubs.MARKS.finditer(text) if "#[cycle" in it[0])
    return any(is_within(path, paths) for path in marked)


def write_room(room, crate, texts, only):
    """Writes a crate with these texts in the place of its own. Where functions are named, all other bodies are assumed; says whether."""
    own = TOP / "crates" / crate.name
    for part in PARTS:
        if (own / part).is_dir():
            shutil.copytree(own / part, f"{room}/{part}")
    for file, text in texts.items():
        stubs.write(f"{room}/{file}", text)
    sources = {file: stubs.read(f"{room}/src/{file}") for file in stubs.files_below(f"{room}/src")}
    if not only or any(is_in_cycle(f"src/{file}", text, only) for file, text in sources.items()):
        return False
    for_tests = {it[1] for text in sources.values() for it in re.finditer(r"#\[cfg\(test\)\]\s*(?:pub )?mod (\w+);", text)}
    for file, text in sources.items():
        is_root = file in ("lib.rt", "main.rt")
        if not is_root and ("#[test]" in text or os.path.basename(file).removesuffix(".rt") in for_tests):
            os.remove(f"{room}/src/{file}")
            continue
        text = others_assumed(f"src/{file}", text, only)
        stubs.write(f"{room}/src/{file}", stubs.with_module(text).replace(f"mod {stubs.ASSUMED};\n", f"mod {stubs.ASSUMED}; ", 1) if is_root else text)
    stubs.write(f"{room}/src/{stubs.ASSUMED}.rt", stubs.MODULE)
    for file in stubs.files_below(f"{room}/proofs"):
        if os.path.basename(file) in stubs.PROOFS and not is_within(os.path.dirname(file).replace("/", "::"), only):
            os.remove(f"{room}/proofs/{file}")
    return True


def tried(rtlib, crate, texts, only, kept):
    """What a check of functions says with these texts in the place of the crate's own."""
    with tempfile.TemporaryDirectory(prefix="edits-") as room:
        crate.has_c = write_room(room, crate, texts, only)
        flags = ["--allow-holes", "--incremental", kept, *(word for it in only for word in ("--only", it))]
        words = [rtlib.RATTLE, "check", *crate.words(["--jobs", "1"], keeps=False), *flags]
        return subprocess.run(words, cwd=room, stdin=subprocess.DEVNULL, stdout=subprocess.PIPE, stderr=subprocess.STDOUT, text=True, errors="replace").stdout


def goals_open(said, texts):
    """The goals that `search` leaves open, by function; those whose answer is refused; and of these the ones that are refused for a name."""
    opened, refused, unnamed = (collections.defaultdict(list) for _ in range(3))
    for line in said.splitlines():
        if found := re.match(r"note: (src/\S+?):(\d+):\d+: it is not proved that .* \(`([^`]+)`\)", line):
            where = function_at(found[1], texts(found[1]), int(found[2]))
            opened[where].append(found[3])
        elif found := re.match(r"(?:\./)?proofs/(\S+)/(?:Answers|Invariants)\.antt:\d+:\d+: error: (?:`([^`]+)`: )?(.*)", line):
            into = unnamed if re.search(r"is not in scope|has no field|has no `|is no name|no such name", found[3]) else refused
            into[found[1].replace("/", "::")].append(found[2] or "?")
        elif found := re.match(r"fn \w+::(\S+): not proved; it stands on (.*), which antt refuses", line):
            # A lemma of the crate's own, as one that reads a text which the function has.
            for lemma in re.findall(r"`Rattle\.\w+\.proofs\.([^`]+)`", found[2]):
                if ".Answers." not in lemma:
                    refused[found[1]].append(lemma)
    return opened, refused, unnamed


def judged(edit, said, texts):
    """What a try comes to: how it falls, and the goals by function."""
    paths = list(edit.goals) or edit.paths
    if re.search(r"^\S+: error\[", said, re.M) or not re.search(r"^only=\d+ ", said, re.M):
        return BAD, {}
    opened, refused, unnamed = ({named_by(where, paths): names for where, names in it.items() if is_within(where, paths)} for it in goals_open(said, texts))
    goals = {where: list(dict.fromkeys(opened.get(where, []) + refused.get(where, []))) for where in {**opened, **refused}}
    fallen = [it[1] for it in re.finditer(r"^fn \w+::(\S+): (?:not proved|no proof)", said, re.M) if is_within(it[1], paths)]
    if not goals and not unnamed:
        return FORM if fallen else PROVED, {}
    if unnamed and not edit.controls:
        return FORM, goals
    if any(it.startswith("returns") for names in opened.values() for it in names):
        return RIGHT, goals
    if not any(is_promise(it) for names in goals.values() for it in names):
        return WRONG, goals
    return (RIGHT if edit.keeps_form() or edit.controls else FORM), goals


def named_by(where, paths):
    """A function by the path that an edit has for it, which may be the end of its name."""
    return next((it for it in paths if where.endswith(f"::{it}")), where)


def is_promise(goal):
    """Whether a goal is of what a function ensures, or of what its promise is shown by: the invariant of its type, that of a loop, or a lemma."""
    return "." in goal or goal.startswith(("returns", "invariant_of")) or goal.startswith("loop") and goal.endswith(("-init", "-preserved"))


def try_batch(batch, rtlib, crate, kept):
    """Tries edits of a crate that turn different functions, and their controls. Returns for each how it falls, its goals, and what is said."""
    after, only = {}, sorted({path for edit in batch for path in list(edit.goals) or edit.paths})
    for file, old, new in (pair for edit in batch for pair in edit.pairs):
        after[file] = (after.get(file) or stubs.read(TOP / "crates" / crate.name / file)).replace(old, new)

    def texts(file):
        return after.get(file) or stubs.read(TOP / "crates" / crate.name / file)

    said = tried(rtlib, crate, after, [] if "" in only else only, kept)
    found = {edit.name: (*judged(edit, said, texts), said) for edit in batch}
    if len(batch) > 1 and any(how == BAD for how, *_ in found.values()):
        return {name: told for edit in batch for name, told in try_batch([edit], rtlib, crate, kept).items()}
    for edit in batch:
        for control in edit.controls:
            right = tried(rtlib, crate, edit.texts(control)[1], only, kept)
            if not re.search(r"^only=\d+ holes=0$", right, re.M) or re.search(r": error|not proved|no proof", right):
                found[edit.name] = FORM, found[edit.name][1], f"its control is not proved:\n{right}"
    return found


def note(edit, goals):
    """Writes the goals into an edit."""
    lines = [it for it in stubs.read(edit.path).removesuffix("\n").split("\n") if not it.startswith("# goal: ")]
    stubs.write(edit.path, "\n".join([*lines, *(f"# goal: {where}: {' '.join(names)}" for where, names in goals.items())]) + "\n")


def told(edit, how, goals, said, writes):
    """Tells what an edit comes to, and says whether that is as it should be."""
    shown = "; ".join(f"{where}: {' '.join(names)}" for where, names in goals.items())
    others = how == RIGHT and not writes and edit.goals != goals
    print(f"{edit.name}: {how}{', but it names other goals' if others and edit.goals else ', but it names no goal' if others else ''}: {shown}", flush=True)
    if how != RIGHT:
        worth = re.compile(r"\S+: error|note: src|fn .*: (?:not proved|no proof)|its control")
        print("\n".join(f"    {it}" for it in said.splitlines() if worth.match(it)), flush=True)
    elif writes:
        note(edit, goals)
    return how == RIGHT and not others


def try_all(edits, over, writes):
    rtlib = stubs.kit()
    known = {it.name: it for it in rtlib.crates_below(os.path.abspath(over))} if os.path.isdir(over) else {}
    right = 0
    for name in dict.fromkeys(it.crate for it in edits):
        crate = known.get(name)
        lost = [it.name for it in crate.below() if not os.path.isdir(it.rlib)] if crate else [name]
        if lost:
            sys.exit(f"there is no stand-in of {', '.join(lost)} in {over}: dev/stubs.py {over}")
        crate.out = sys.stderr
        with tempfile.TemporaryDirectory(prefix="edits-") as kept:
            for batch in batches([it for it in edits if it.crate == name]):
                found = try_batch(batch, rtlib, crate, kept)
                right += sum(told(edit, *found[edit.name], writes) for edit in batch)
    print(f"{len(edits)} edits, {right} fall as they should" + ("" if writes else ", at the goals that they name"))
    return right != len(edits)


def whole(crates):
    with tempfile.TemporaryDirectory() as folder:
        copy = pathlib.Path(folder) / "copy"
        shutil.copytree(TOP, copy, symlinks=True)
        for edit in copy.glob("crates/*/must-fail/*.edit"):
            edit.unlink()
        for edit in copy.glob("dev/edits/*/*.edit"):
            wanted = copy / "crates" / edit.parent.name / "must-fail"
            wanted.mkdir(exist_ok=True)
            edit.rename(wanted / edit.name)
        return subprocess.run(["rt", "must-fail", *crates], cwd=copy).returncode


def main():
    parser = argparse.ArgumentParser(description=__doc__, formatter_class=argparse.RawDescriptionHelpFormatter, allow_abbrev=False)
    parser.add_argument("names", nargs="*", metavar="NAME")
    for flag in ("--check", "--note", "--whole"):
        parser.add_argument(flag, action="store_true")
    parser.add_argument("--over", metavar="OUT", default=str(TOP / "out/stubs"))
    given = parser.parse_args()
    if given.whole:
        return whole(given.names)
    if given.check:
        return check(named(given.names))
    if not given.names:
        parser.error("name crates, or edits as CRATE/EDIT")
    return try_all(named(given.names), given.over, given.note)


if __name__ == "__main__":
    sys.exit(main())
