#!/usr/bin/env python3
"""Says whether the cases of the gate are the plants of examples/, and whether pages show what is there:  dev/examples.py [--write | PROGRAM]

Each folder of examples/ is one file of cases below crates/fbr_cases/data/commands: `plant_NAME.case`, or `wrong_NAME.case` for those of examples/wrong. With --write the files are
written anew. Texts shown in docs/LANGUAGE.md have to stand in an example or a case, line for line, but for how far lines are indented. With PROGRAM (such as out/fbr) the commands that the pages of the plants show
are run in their folders, as `$ fbr ..`, and have to print what the pages say.

What a case answers comes from the files beside a plant, and these from the rules of the language: NAME.cert is what `fbr bound NAME.fb` prints, NAME.out what `fbr sim` prints for NAME.script. NAME.room.cert
is NAME.cert with the depth that takes each arrival once, and NAME.room.out what `fbr sim` prints with it for NAME.room.script.
Of a wrong plant NAME.out is its refusal by `fbr bound`, or NAME.cert its certificate where each device by itself has one, with NAME.repeats.out its
refusal by `fbr bound --repeats 2` and mended.repeats.cert what that prints of the mended one; mended.out is what `fbr check NAME.fb mended.cert` prints; where it runs, NAME.script.out is what `fbr sim` prints for NAME.script
under NAME.cert, and mended.script.out what it prints of the mended one for mended.script under mended.repeats.cert. Beside the .out of a refusal the .err is what
people are told on standard error; NAME.story and NAME.room.story have sequences that all pass, with the certificate of the same name, and NAME_blocks.story
sequences of block types alone; beside a certificate whose queues do not take each arrival once the .cert.err is what `fbr bound` and `fbr check` tell them, and the .cert.notes how many notes
these count."""
import pathlib
import re
import subprocess
import sys

TOP = pathlib.Path(__file__).resolve().parent.parent
EXAMPLES = TOP / "examples"
CASES = TOP / "crates/fbr_cases/data/commands"
# Codes for which a certificate does not fit, or there is none; the others are faults of a text or of the words.
NONE_FITS = [*range(32, 45), 19]


def status(printed):
    """The status with which the program ends that prints this last."""
    last = printed.splitlines()[-1] if printed else ""
    told = re.match(r"refused (\d+)( \D|$)?", last)
    if not told:
        return 0
    return 1 if int(told[1]) in NONE_FITS and int(told[1]) != 19 or int(told[1]) == 19 and told[2] else 2


class Cases:
    def __init__(self, what):
        self.text = f"{what}\n"
        self.given = {}

    def refused(self, label, words, out, files):
        """A case that is refused: its outcome, and beside it what people are told."""
        self.add(label, words, out.read_text(), files)
        self.text += f"on standard error:\n{out.with_suffix('.err').read_text()}"

    def accepted(self, label, words, printed, cert, files):
        """A case in which this certificate is found or accepted, and beside it what people are told of its queues and notes."""
        self.add(label, words, printed, files)
        told, notes = cert.with_name(f"{cert.name}.err"), cert.with_name(f"{cert.name}.notes")
        said = told.read_text() if told.exists() else ""
        if notes.exists():
            count = int(notes.read_text())
            shown = f"'fbr explain {words.partition(' ')[2]}' shows {'it' if count == 1 else 'them'}"
            said += f"fbr: accepted; {count} note{'' if count == 1 else 's'}: {shown}\n"
        if said:
            self.text += f"on standard error:\n{said}"

    def add(self, label, words, printed, files=(), script=None):
        self.text += f"==== case {label}\n"
        for path in files:
            if self.given.get(path.name) != path:
                self.given[path.name] = path
                self.text += f"==== file {path.name}\n{path.read_text()}\n"
        self.text += f"==== words\n{words}\n"
        if script is not None:
            self.text += f"==== input\n{script}\n"
        self.text += f"==== answer\nstatus {status(printed)}\n{printed}"


def plant(folder):
    """The cases of a plant: its certificate is found and accepted, and it runs."""
    name = folder.name
    app, cert, script, out = (folder / f"{name}.{it}" for it in ("fb", "cert", "script", "out"))
    cases = Cases(f"The plant examples/{name}: its certificate is found, is accepted, its script runs, and its stories pass.")
    cases.accepted("its certificate is found", f"bound {app.name}", cert.read_text(), cert, [app])
    cases.accepted("it is accepted", f"check {app.name} {cert.name}", "accepted\n", cert, [app, cert])
    cases.add("it runs", f"sim {app.name} {cert.name}", out.read_text(), [app, cert], script.read_text())
    for story in sorted(folder.glob("*.story")):
        rows, passed = story.with_suffix(".cert"), len(re.findall(r"^ *SEQUENCE\b", story.read_text(), re.M))
        rows = rows if rows.exists() else cert
        cases.add("its stories pass", f"play {app.name} {rows.name} {story.name}", f"{passed} passed, 0 failed\n", [app, rows, story])
    rows, offers, causes = (folder / f"{name}.room.{it}" for it in ("cert", "script", "out"))
    if rows.exists():
        cases.accepted("with room for each arrival once it is accepted", f"check {app.name} {rows.name}", "accepted\n", rows, [app, rows])
        cases.add("and none denies another", f"sim {app.name} {rows.name}", causes.read_text(), [app, rows], offers.read_text())
    return cases.text


def wrong(folder):
    """The cases of a wrong plant: what is said of it, and that it is mended."""
    name = folder.name
    app, mended, cert = folder / f"{name}.fb", folder / "mended.fb", folder / "mended.cert"
    cases = Cases(f"The wrong plant examples/wrong/{name}: what is said of it, and that it is mended.")
    found = folder / f"{name}.cert"
    network = folder / f"{name}.repeats.out"
    if found.exists():
        cases.accepted("each device by itself has a certificate", f"bound {app.name}", found.read_text(), found, [app])
        cases.accepted("it is accepted", f"check {app.name} {found.name}", "accepted\n", found, [app, found])
    else:
        cases.refused("it has no certificate", f"bound {app.name}", folder / f"{name}.out", [app])
    if network.exists():
        cases.refused("over the network it has none", f"bound {app.name} --repeats 2", network, [app])
        repeated = folder / "mended.repeats.cert"
        cases.accepted("the mended one has one over the network", f"bound {mended.name} --repeats 2", repeated.read_text(), repeated, [mended])
    if (folder / "mended.out").exists():
        cases.refused("the certificate of the mended one does not fit", f"check {app.name} {cert.name}", folder / "mended.out", [app, cert])
    cases.accepted("it is mended", f"bound {mended.name}", cert.read_text(), cert, [mended])
    cases.accepted("the mended one is accepted", f"check {mended.name} {cert.name}", "accepted\n", cert, [mended, cert])
    for label, text, rows in [("it runs", app, found), ("the mended one runs", mended, folder / "mended.repeats.cert")]:
        script = text.with_suffix(".script")
        if script.exists():
            cases.add(label, f"sim {text.name} {rows.name}", text.with_suffix(".script.out").read_text(), [text, rows], script.read_text())
    return cases.text


def copies():
    """The files of cases, by their paths."""
    found = {}
    for folder in sorted(it for it in EXAMPLES.iterdir() if it.is_dir() and it.name != "wrong"):
        found[CASES / f"plant_{folder.name}.case"] = plant(folder)
    for folder in sorted((EXAMPLES / "wrong").iterdir()):
        found[CASES / f"wrong_{folder.name}.case"] = wrong(folder)
    return found


def plain(text):
    """The lines of a text without layout at their ends."""
    return [line.strip() for line in text.strip().splitlines()]


def unknown_texts():
    """The texts of docs/LANGUAGE.md that stand in no example and no case."""
    page = (TOP / "docs/LANGUAGE.md").read_text()
    sources = ["\n".join(["", *plain(path.read_text()), ""]) for path in [*EXAMPLES.rglob("*.fb"), *EXAMPLES.rglob("*.cert"), *CASES.parent.rglob("*.case")]]
    for shown in re.findall(r"^```fb\n(.*?)^```", page, re.M | re.S):
        for part in re.split(r"^ *\.\.\. *\n", shown, flags=re.M):
            lines = "\n".join(["", *plain(part), ""])
            if not any(lines in source for source in sources):
                yield part


def commands(page):
    """The commands that a page shows, each with the lines below it."""
    found = None
    for line in page.splitlines():
        if line.startswith("    $ "):
            if found:
                yield found
            found = line[6:], []
        elif found and line.startswith("    "):
            found[1].append(line[4:])
        elif found:
            yield found
            found = None
    if found:
        yield found


def main():
    words, bad = sys.argv[1:], 0
    for path, text in copies().items():
        if words == ["--write"]:
            path.write_text(text)
        elif not path.exists() or path.read_text() != text:
            bad += 1
            print(f"{path.relative_to(TOP)} is not what {EXAMPLES.name}/ has: dev/examples.py --write")
    for path in [*CASES.glob("plant_*.case"), *CASES.glob("wrong_*.case")]:
        if path not in copies():
            bad += 1
            print(f"{path.relative_to(TOP)} has no plant")
    for part in unknown_texts():
        bad += 1
        print(f"docs/LANGUAGE.md shows a text that stands nowhere:\n{part}")
    if words and words != ["--write"]:
        program = pathlib.Path(words[0]).resolve()
        for page in sorted(EXAMPLES.rglob("*/README.md")):
            for command, below in commands(page.read_text()):
                script = f'fbr() {{ "{program}" "$@"; }}\n{command}'
                ran = subprocess.run(["bash", "-c", script], cwd=page.parent, capture_output=True, text=True).stdout
                if ran.splitlines() != below:
                    bad += 1
                    print(f"{page.relative_to(TOP)}: {command}\nprints\n{ran}and not\n" + "\n".join(below))
    print(f"{bad} faults" if bad else "all is as it stands in examples/")
    sys.exit(1 if bad else 0)


if __name__ == "__main__":
    main()
