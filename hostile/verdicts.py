#!/usr/bin/env python3
"""Whether what a program prints with `--json` has the form of docs/fbr.schema.json, and says what it says without: hostile/verdicts.py PROGRAM

It runs `check`, `bound` and `explain`, also with `--all`, over the examples, over the wrong ones, over texts and certificates that are cut or changed, over each number, and over the files of
the cases; and `sim` and `play` over the scripts and stories of the examples, as they are and with lines that are changed or cut. With python3-jsonschema it also holds its own reading of the schema against that one's."""
import json
import os
import pathlib
import re
import subprocess
import sys
import tempfile

try:
    import jsonschema
except ImportError:
    jsonschema = None

TOP = pathlib.Path(__file__).resolve().parent.parent
SCHEMA = json.loads((TOP / "docs/fbr.schema.json").read_text())
TYPES = {"object": (dict,), "array": (list,), "string": (str,), "integer": (int,), "boolean": (bool,)}


def is_of(value, types):
    """Whether a value is of a type, or of one of several, or none is said."""
    names = types if isinstance(types, list) else [types]
    return types is None or any(type(value) in TYPES[name] for name in names)


def faults(value, schema, where="the output"):
    """What of a value the schema does not allow: the part of JSON Schema that docs/fbr.schema.json has."""
    if schema is True:
        return []
    found = []
    if "$ref" in schema:
        found += faults(value, SCHEMA["$defs"][schema["$ref"].rpartition("/")[2]], where)
    if not is_of(value, schema.get("type")):
        return [f"{where} is no {schema['type']}: {value}"]
    is_out = isinstance(value, int) and not schema.get("minimum", value) <= value <= schema.get("maximum", value)
    if is_out or value != schema.get("const", value) or value not in schema.get("enum", [value]):
        found.append(f"{where} is {value}")
    if "oneOf" in schema:
        each = [faults(value, it, where) for it in schema["oneOf"]]
        if sum(not it for it in each) != 1:
            found.append(f"{where} is none or several of {len(each)}: {each}")
    for name in schema.get("required", []):
        if name not in value:
            found.append(f"{where} has no {name}")
    if isinstance(value, dict):
        known = schema.get("properties", {})
        for name, member in value.items():
            if name in known:
                found += faults(member, known[name], f"{where}.{name}")
            elif schema.get("additionalProperties") is False:
                found.append(f"{where} has {name}")
    if isinstance(value, list):
        for index, item in enumerate(value):
            found += faults(item, schema.get("items", True), f"{where}[{index}]")
    return found


def run(program, *words, script=b""):
    return subprocess.run([program, *words], capture_output=True, timeout=120, input=script)


def byte_in(line):
    """The byte that the line of a fault of a text names."""
    return int(line.split()[-1])


def same_faults(lines, told):
    """Whether these are the lines that people are told, in the order of the text; that of several files, which lines name, is not looked at."""
    if not all(it.split()[-1].isdigit() for it in told):
        return set(lines) == told
    return lines == sorted(told, key=byte_in)


def counted(said):
    """The lines for people of how many dispatches the arrivals cause."""
    for resource in said.get("resources", []):
        for arrival in resource["arrivals"]:
            counts = arrival["dispatches"]
            beside = "no room for others" if counts["alone"] else "others in between"
            told = f"dispatches: {counts['all']} in all, {counts['in_a_row']} in a row, with {beside}; all has ended after {counts['end']} dispatches of {resource['path']}"
            yield rf"^    {re.escape(arrival['path'])}: .*\n        {re.escape(told)}$"


def compared(said, plain):
    """What the report says otherwise than the text for people."""
    first, _, rest = plain.stdout.decode().partition("\n")
    if said["verdict"] == "none":
        return [] if plain.stdout.decode().startswith(f"What it says: {said['says']}\n") else ["another meaning"]
    told = {"accepted": said.get("certificate", "accepted\n").partition("\n")[0], "refused": said.get("line")}[said["verdict"]]
    found = [] if told == first else [f"{told}, and {first}"]
    if said["command"] == "explain":
        found += [f"no note {it['name']}" for it in said.get("notes", []) if f"{it['place']['file']}:{it['place']['line']}:{it['place']['column']}: note: {it['says']} [{it['name']}]\n" not in rest]
        found += [] if len(said.get("notes", [])) == rest.count(": note: ") - (said.get("more_notes", 0) > 0) else ["other notes"]
        lines = list(counted(said))
        found += [f"no line {it}" for it in lines if not re.search(it, rest, re.M)] + ["other counts"] * (len(lines) != rest.count("        dispatches: "))
        if "place" in said and not rest.startswith(f"{said['place']['file']}:{said['place']['line']}:{said['place']['column']}\n"):
            found.append("another place")
    faults = {first, *re.findall(r"^refused .*", rest, re.M)} if "faults" in said else set()
    if said["command"] == "explain" and not same_faults([it["line"] for it in said.get("faults", [])], faults):
        found.append("other faults")
    if said.get("certificate", plain.stdout.decode()) != plain.stdout.decode():
        found.append("another certificate")
    return found


def placed(value):
    """Places whose byte is not that of their line and column."""
    parts = value.values() if isinstance(value, dict) else value if isinstance(value, list) else []
    found = [it for each in parts for it in placed(each)]
    if isinstance(value, dict) and "byte" in value:
        lines = pathlib.Path(value["file"]).read_bytes().decode().split("\n")
        before = "\n".join(lines[: value["line"] - 1] + [lines[value["line"] - 1][: value["column"] - 1]])
        if len(before.encode()) != value["byte"] or lines[value["line"] - 1].rstrip("\r") != value["text"]:
            found.append(f"the byte {value['byte']} of {value['file']}:{value['line']}:{value['column']}")
    return found


def tried(program, *words):
    """What is wrong with a run with `--json` beside one without."""
    report, plain = run(program, words[0], "--json", *words[1:]), run(program, *words)
    if plain.stdout == b"refused 63\n" == report.stdout:
        return []
    if report.stdout.count(b"\n") != 1 or not report.stdout.endswith(b"\n"):
        return [f"{words}: not one line"]
    said = json.loads(report.stdout)
    found = judged(said) + compared(said, plain) + placed(said)
    if (report.returncode, report.stderr) != (plain.returncode, plain.stderr) or said["status"] != report.returncode:
        found.append(f"status {report.returncode} in place of {plain.returncode}, or another standard error")
    return [f"{' '.join(words)}: {it}" for it in found]


def judged(said):
    """What the schema does not allow of a line, and whether jsonschema judges otherwise."""
    found = faults(said, SCHEMA)
    if jsonschema and jsonschema.Draft202012Validator(SCHEMA).is_valid(said) == bool(found):
        found.append("jsonschema judges otherwise")
    return found


def spoken(said):
    """The line for people of an answer, or of the end of a script."""
    if "command" in said:
        return said.get("line")
    ended = said.get("ended")
    return {
        "cause": "cause {cause}",
        "denied": "{line}",
        "fired": "fired {timers}",
        "idle": "idle",
        "root": "root {root} steps {steps}" + (" of {most}" if "most" in said else ""),
        "ran": "ran {path}.{event} steps {steps}"
        + (" write {output}" + "".join(f" {value}" for value in said["values"]) if "output" in said else "")
        + (" send {datagram}" if "datagram" in said else "")
        + (" ended {cause} {steps} of {most}".format(**ended) if ended else ""),
    }[said["answer"]].format(**said)


def is_line_of(line, said):
    """Whether a line for people is that of a change: its moment, and its path with the device or without."""
    moment, _, rest = line.partition(" ")
    return moment == str(said["time"]) and any(rest.startswith(path) for path in (said["path"], f"{said['device']}.{said['path']}"))


def scripted(program, script, *words):
    """What is wrong with a script with `--json` beside one without, both watched."""
    report, plain = (run(program, "sim", *json_word, *words, "--watch", "*", script=script) for json_word in (["--json"], []))
    lines = [json.loads(line) for line in report.stdout.splitlines()]
    found = [it for said in lines for it in judged(said)]
    first = next((at for at, said in enumerate(lines) if "path" not in said or "answer" in said), len(lines))
    told = [said for said in lines[first:] if said.get("verdict") != "done"]
    people = plain.stdout.decode().splitlines()
    if len(told) != len(people):
        found.append(f"{len(told)} lines, and {len(people)}")
    for said, line in zip(told, people):
        if not (is_line_of(line, said) if "time" in said else spoken(said) == line):
            found.append(f"{said}, and {line}")
    if (report.returncode, report.stderr) != (plain.returncode, plain.stderr) or lines[-1]["status"] != report.returncode:
        found.append(f"status {report.returncode} in place of {plain.returncode}, or another standard error")
    return [f"sim {' '.join(words)}: {it}" for it in found]


def played(program, *words):
    """What is wrong with stories with `--json` beside those without."""
    report, plain = run(program, "play", "--json", *words), run(program, "play", *words)
    *sequences, said = [json.loads(line) for line in report.stdout.splitlines()]
    found = [it for line in [*sequences, said] for it in judged(line)]
    text = ""
    for it in sequences:
        if "failure" in it:
            text += "{file}:{failure[line]}: {name}: {failure[step]}\n  wanted  {failure[wanted]}\n  came    {failure[came]}\n".format(**it)
    text += said.get("line", "{passed} passed, {failed} failed".format(**{"passed": 0, "failed": 0, **said})) + "\n"
    if plain.stdout.decode() != text:
        found.append(f"{text}, and {plain.stdout.decode()}")
    if (report.returncode, report.stderr) != (plain.returncode, plain.stderr) or said["status"] != report.returncode:
        found.append(f"status {report.returncode} in place of {plain.returncode}, or another standard error")
    return [f"play {' '.join(words)}: {it}" for it in found]


def changed(folder, texts):
    """Texts that are cut, or have another character, in files of their own."""
    for text in texts:
        bytes_of = text.read_bytes()
        for place in range(7, len(bytes_of), max(97, len(bytes_of) // 12)):
            for kind, held in (("cut", bytes_of[:place]), ("odd", bytes_of[:place] + b"9" + bytes_of[place + 1 :])):
                file = folder / f"{text.stem}_{place}_{kind}{text.suffix}"
                file.write_bytes(held)
                yield file


def cased():
    """The words of the cases with one of the three commands, each behind its files, which are written here."""
    for page in sorted((TOP / "crates/fbr_cases/data/commands").glob("*.case")):
        words = ""
        for name, text in re.findall(r"^==== (.*)\n((?:(?!==== ).*\n?)*)", page.read_text(), re.M):
            if name.startswith("file ") and "/" not in name:
                pathlib.Path(name[5:]).write_text(text[:-1])
            words = text if name == "words" else words
            if name == "answer" and words.split(" ")[0] in ("bound", "check", "explain") and not re.search(r"(^| )(-|-o|--output|--json)(=| |$)", words):
                yield tuple(words.split())


def ran(program, folder):
    """What is wrong with scripts and stories of the examples, as they are, and cut or changed; and how many there were."""
    found, count = [], 0
    for app in sorted(TOP.glob("examples/**/*.fb")):
        certs = sorted(app.parent.glob(f"{app.stem}*.cert"))
        for script in sorted(app.parent.glob(f"{app.stem}*.script")) if certs else []:
            lines = script.read_bytes().splitlines(keepends=True)
            for held in (lines, lines[: len(lines) // 2] + [b"offer 9 9\n", b"bytes D 00\n"], [line.replace(b"1", b"2") for line in lines]):
                found += scripted(program, b"".join(held), str(app), str(certs[0]))
                count += 1
        stories = sorted(app.parent.glob(f"{app.stem}*.story")) if certs else []
        for story in [*stories, *changed(folder, stories)]:
            found += played(program, str(app), str(certs[0]), str(story))
            count += 1
    return found, count


def main(program):
    program = os.path.abspath(program)
    runs = [("explain", str(number)) for number in range(1, 70)]
    apps = sorted(TOP.glob("examples/**/*.fb"))
    for app in apps:
        runs += [("bound", str(app)), ("bound", str(app), "--search"), ("bound", str(app), "--repeats", "2"), ("explain", str(app)), ("explain", str(app), "--strict"), ("bound", str(app), "--strict", "--allow", "never-used,never-read")]
        runs += [(word, str(app), str(cert)) for cert in sorted(app.parent.glob("*.cert")) for word in ("check", "explain")]
    with tempfile.TemporaryDirectory() as folder:
        for app in apps:
            certs = sorted(app.parent.glob(f"{app.stem}*.cert"))
            runs += [words for file in changed(pathlib.Path(folder), [app]) for words in (("explain", str(file)), ("explain", str(file), "--all"), ("bound", str(file), "--all"))]
            runs += [(word, str(app), str(file)) for file in changed(pathlib.Path(folder), certs[:1]) for word in ("check", "explain")]
        found = [it for words in runs for it in tried(program, *words)]
        more, count = ran(program, pathlib.Path(folder))
        found += more
        os.chdir(folder)
        for words in cased():
            runs.append(words)
            found += tried(program, *words)
    print("\n".join([*found, f"{len(runs) + count} runs, {len(found)} faults"]))
    sys.exit(bool(found))


if __name__ == "__main__":
    main(*sys.argv[1:])
