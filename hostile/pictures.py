#!/usr/bin/env python3
"""Whether graphviz can lay out what `fbr draw` writes: hostile/pictures.py PROGRAM [--count N] [--first N] [--jobs N] [--keep FOLDER]

It draws random systems, of several devices that talk in all directions or as tools/tests/random_texts.py makes them, and the texts of hostile/pictures, with boxes and without (`--flat`), and gives
each graph to `dot -Tsvg`, which has to end with 0 and to say nothing. Of those that fail it prints what dot says; with --keep their texts and graphs are kept in this folder. Where there is no dot it says so, and tries nothing."""
import argparse
import concurrent.futures
import pathlib
import random
import shutil
import subprocess
import sys
import tempfile

TOP = pathlib.Path(__file__).resolve().parent.parent
sys.path.insert(0, str(TOP / "tools/tests"))
import random_texts  # noqa: E402

SECONDS = 120

BLOCKS = {"E_SPLIT": ("EI", ["EO1", "EO2"]), "E_MERGE": ("EI1", ["EO"]), "E_PERMIT": ("EI", ["EO"]), "RELAY": ("EI", ["EO"]), "TWICE": ("EI", ["EO1", "EO2"])}
RELAYS = """FUNCTION_BLOCK RELAY EVENT_INPUT EI; END_EVENT EVENT_OUTPUT EO; END_EVENT
EC_STATES START; DONE : -> EO; END_STATES EC_TRANSITIONS START TO DONE := EI; DONE TO START := 1; END_TRANSITIONS END_FUNCTION_BLOCK
FUNCTION_BLOCK TWICE EVENT_INPUT EI; END_EVENT EVENT_OUTPUT EO1; EO2; END_EVENT
EC_STATES START; DONE : -> EO1, -> EO2, -> EO1; END_STATES EC_TRANSITIONS START TO DONE := EI; DONE TO START := 1; END_TRANSITIONS END_FUNCTION_BLOCK
"""


def network(made, channels, heard, may_send, at):
    """A network that receives from some channels and sends on some, by a chain of blocks."""
    sent = made.sample(may_send, made.randint(0, min(3, len(may_send))))
    inner = [(f"B{it}", made.choice(list(BLOCKS))) for it in range(made.randint(0, 4))]
    sources = [f"S{it}.IND" for it in heard] + ["IN.IND"]
    values = [(f"S{it}.RD_1", channels[it]) for it in heard] + [("IN.RD_1", "INT")]
    fbs = ["RST : E_RESTART;", f"IN : INPUT[INT](ID := {at});", f"OUT : OUTPUT[INT](ID := {at});"]
    fbs += [f"S{it} : SUBSCRIBE[{channels[it]}](ID := {it}, QI := TRUE);" for it in heard]
    fbs += [f"P{it} : PUBLISH[{channels[it]}](ID := {it}, QI := TRUE);" for it in sent]
    fbs += [f"{name} : {kind};" for name, kind in inner]
    events = [f"RST.COLD TO {it}.INIT;" for it in [f"S{it}" for it in heard] + [f"P{it}" for it in sent]]
    for name, kind in inner:
        events.append(f"{made.choice(sources)} TO {name}.{BLOCKS[kind][0]};")
        sources += [f"{name}.{it}" for it in BLOCKS[kind][1]]
    targets = [f"P{it}.REQ" for it in sent] + ["OUT.REQ"]
    events += [f"{it} TO {made.choice(targets)};" for it in made.sample(sources, made.randint(1, len(sources)))]
    ports = [(f"P{it}.SD_1", channels[it]) for it in sent] + [("OUT.SD_1", "INT")]
    data = [f"{made.choice(fitting)} TO {port};" for port, kind in ports if (fitting := [it for it, of in values if of == kind])]
    return f"FBS {' '.join(fbs)} END_FBS\nEVENT_CONNECTIONS {' '.join(events)} END_CONNECTIONS\nDATA_CONNECTIONS {' '.join(data)} END_CONNECTIONS\n"


def devices(number):
    """A system of several devices whose resources talk: in all directions, or with an even number so that no datagram comes back to its channel."""
    made = random.Random(number)
    channels = {made.randint(0, 65535): made.choice(["INT", "INT", "BOOL"]) for _ in range(made.randint(1, 5))}
    boxes, text, at = "", "SYSTEM W\n", 0
    for device in range(made.randint(2, 6)):
        text += f"DEVICE D{device}\n"
        heard = [it for it in channels if made.random() < 0.7]
        for resource in range(2 if made.random() < 0.6 else 1):
            own = heard[resource::2]
            later = [it for it in channels if number % 2 or not own or list(channels).index(it) > max(list(channels).index(each) for each in own)]
            inner = network(made, channels, own, later, at)
            if made.random() < 0.4:
                boxes += f"FUNCTION_BLOCK BOX_{at}\n{inner}END_FUNCTION_BLOCK\n"
                inner = f"FBS BX : BOX_{at}; END_FBS\n"
            text += f"RESOURCE R{resource}\n{inner}END_RESOURCE\n"
            at += 1
        text += "END_DEVICE\n"
    return RELAYS + boxes + text + "END_SYSTEM\n"


def texts(first, count):
    """Names and texts: those that are kept, with their certificates, and random ones."""
    for path in sorted((TOP / "hostile/pictures").glob("*.fb")):
        cert = path.with_suffix(".cert")
        yield path.stem, path.read_text(), cert.read_text() if cert.exists() else None
    for number in range(first, first + count):
        yield f"devices_{number}", devices(number), None
        if number % 4 == 0:
            yield f"random_{number}", random_texts.Maker(number).application(), None


def tried(program, name, text, cert, how, keep):
    """What is wrong with the picture of a text, or nothing; and whether there is a picture."""
    with tempfile.TemporaryDirectory() as folder:
        words = ["draw", "app.fb", *(["app.cert"] if cert else ["--repeats", "2"]), *how]
        pathlib.Path(folder, "app.fb").write_text(text)
        if cert:
            pathlib.Path(folder, "app.cert").write_text(cert)
        drawn = subprocess.run([program, *words], cwd=folder, capture_output=True, timeout=SECONDS)
    if drawn.returncode:
        return None, False
    laid = subprocess.run(["dot", "-Tsvg", "-o", "/dev/null"], input=drawn.stdout, capture_output=True, timeout=SECONDS)
    if laid.returncode == 0 and not laid.stderr:
        return None, True
    if keep:
        kept = pathlib.Path(keep, "_".join([name, *how]))
        kept.with_suffix(".fb").write_text(text)
        kept.with_suffix(".dot").write_bytes(drawn.stdout)
    return f"{name} {' '.join(how)}: status {laid.returncode}, {laid.stderr.decode(errors='replace').strip()[:300]}", True


def main():
    words = argparse.ArgumentParser(description=__doc__)
    words.add_argument("program", type=pathlib.Path)
    words.add_argument("--count", type=int, default=100)
    words.add_argument("--first", type=int, default=0)
    words.add_argument("--jobs", type=int, default=2)
    words.add_argument("--keep")
    given = words.parse_args()
    if not shutil.which("dot"):
        return print("pictures: there is no dot of graphviz here, and nothing was tried")
    if given.keep:
        pathlib.Path(given.keep).mkdir(parents=True, exist_ok=True)
    program = str(given.program.resolve())
    with concurrent.futures.ThreadPoolExecutor(given.jobs) as pool:
        each = [pool.submit(tried, program, *it, how, given.keep) for it in texts(given.first, given.count) for how in ([], ["--flat"])]
        ended = [it.result() for it in each]
    wrong = [said for said, _ in ended if said]
    for said in wrong:
        print(said)
    print(f"pictures: {sum(drawn for _, drawn in ended)} laid out, of them {len(wrong)} wrong")
    return 1 if wrong else 0


if __name__ == "__main__":
    sys.exit(main())
