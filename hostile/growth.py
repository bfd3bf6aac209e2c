#!/usr/bin/env python3
"""How processor time and memory grow with the size of what is read: hostile/growth.py PROGRAM [--long] [SHAPE..]

Each shape is a text that a stranger could write: much of one thing. It is doubled until a run takes half a second of the processor or a limit of the language is reached, at
`check`, `bound`, `explain` and `draw`; scripts and stories at `sim` and `play`. Three doublings in a row may not take more than 2.3 times each on average, once a run takes
a tenth of a second. The processor's time depends on what else the machine does, so what is above that is counted in instructions, if there is `valgrind`, over the last
two doublings that take less than an eighth of a second; that decides. And no run may take more than 4 KiB of memory for each byte that it reads, beside 32 MiB. With --long
a run may take eight seconds. A text of 15 kB whose certificate would be too long is refused in half a second."""
import argparse
import os
import re
import resource
import shutil
import subprocess
import sys
import tempfile
import time

LEAST = 0.1
# Runs of less are counted in instructions, in some fifty times their seconds.
COUNTED = 0.12
MOST_GROWTH = 2.3
# Where no instructions are counted: time is not as steady.
MOST_BY_TIME = 2.7
BASE = 32 << 20
FOR_A_BYTE = 4096
# The most that a refusal takes for which nothing is examined.
AT_ONCE = 0.5
# The limit of a text.
LONGEST = 1 << 20
MERGE = "M%d : E_MERGE;"
TAIL = "END_RESOURCE END_DEVICE END_SYSTEM\n"
HEAD = "SYSTEM S DEVICE D RESOURCE R\n"
RELAY = """FUNCTION_BLOCK RELAY
EVENT_INPUT EI WITH X; END_EVENT
EVENT_OUTPUT EO WITH Y; END_EVENT
VAR_INPUT X : INT; END_VAR
VAR_OUTPUT Y : INT; END_VAR
EC_STATES START; ACT : ADD -> EO; END_STATES
EC_TRANSITIONS START TO ACT := EI; ACT TO START := 1; END_TRANSITIONS
ALGORITHM ADD IN ST: Y := X + 1; END_ALGORITHM
END_FUNCTION_BLOCK
"""


def block(declared="", states="START", transitions="", algorithms="", events="E"):
    return (
        f"FUNCTION_BLOCK B\nEVENT_INPUT {events}; END_EVENT\n{declared}\nEC_STATES {states}; END_STATES\n"
        f"EC_TRANSITIONS {transitions} END_TRANSITIONS\n{algorithms}\nEND_FUNCTION_BLOCK\n"
    )


def one(text):
    """A system with one instance of B that an INPUT starts."""
    return text + HEAD + "FBS X : B; IN : INPUT(ID := 1); END_FBS\nEVENT_CONNECTIONS IN.IND TO X.E; END_CONNECTIONS\n" + TAIL


def algorithm(body, declared="VAR I, J : DINT; A : ARRAY [0..99] OF DINT; END_VAR"):
    return one(block(declared, "START; ACT : G", "START TO ACT := E; ACT TO START := 1;", f"ALGORITHM G IN ST:\n{body}\nEND_ALGORITHM"))


def many(count, piece):
    return "\n".join(piece % it if "%" in piece else piece for it in range(count))


def resource_of(instances, connections="", name="R", data=""):
    wires = f"EVENT_CONNECTIONS\n{connections}\nEND_CONNECTIONS\n" if connections else ""
    wires += f"DATA_CONNECTIONS\n{data}\nEND_CONNECTIONS\n" if data else ""
    return f"RESOURCE {name} FBS\n{instances}\nEND_FBS\n{wires}END_RESOURCE\n"


def system_of(*resources):
    return "SYSTEM S DEVICE D\n" + "".join(resources) + "END_DEVICE END_SYSTEM\n"


def unused_variables(n):
    return one(block("VAR\n" + many(n, "UNUSED%d : INT;") + "\nEND_VAR"))


def read_alone(n):
    """Variables that are read and never written, each with a note of its own."""
    sums = "\n".join(f"J := V{it};" for it in range(n))
    return algorithm(sums, "VAR J : INT;\n" + many(n, "V%d : INT;") + "\nEND_VAR")


def block_types(n):
    return many(n, "FUNCTION_BLOCK T%d EVENT_INPUT E; END_EVENT EC_STATES S; END_STATES EC_TRANSITIONS END_TRANSITIONS END_FUNCTION_BLOCK") + "\n" + one(block())


def unconnected(n):
    return system_of(resource_of(many(n, MERGE)))


def merges(n):
    ways = "\n".join(f"M{it}.EO TO M{it + 1}.EI1;" for it in range(n - 1))
    return system_of(resource_of("IN : INPUT(ID := 1);\n" + many(n, MERGE), "IN.IND TO M0.EI1;\n" + ways))


def relays(n):
    ways = "\n".join(f"M{it}.EO TO M{it + 1}.EI;" for it in range(n - 1))
    data = "IN.RD_1 TO M0.X;\n" + "\n".join(f"M{it}.Y TO M{it + 1}.X;" for it in range(n - 1))
    return RELAY + system_of(resource_of("IN : INPUT[INT](ID := 1);\n" + many(n, "M%d : RELAY;"), "IN.IND TO M0.EI;\n" + ways, data=data))


def ring(n):
    ways = "\n".join(f"M{it}.EO TO M{(it + 1) % n}.EI;" for it in range(n))
    return RELAY + system_of(resource_of(many(n, "M%d : RELAY;"), ways, data="\n".join(f"M{it}.Y TO M{(it + 1) % n}.X;" for it in range(n))))


def fan(n):
    ways = "\n".join(f"IN.IND TO M{it}.EI1;" for it in range(n))
    return system_of(resource_of("IN : INPUT(ID := 1);\n" + many(n, MERGE), ways))


def resources(n):
    texts = [resource_of(many(100, MERGE), name=f"R{it}") for it in range(n)]
    devices = [texts[at : at + 16] for at in range(0, n, 16)]
    return "SYSTEM S\n" + "".join(f"DEVICE D{at}\n{''.join(it)}END_DEVICE\n" for at, it in enumerate(devices)) + "END_SYSTEM\n"


def states(n):
    ways = "\n".join(f"S{it} TO S{(it + 1) % n} := E;" for it in range(n))
    return one(block("", ";\n".join(f"S{it}" for it in range(n)), ways))


def transitions(n):
    return one(block("VAR_INPUT V : DINT; END_VAR", "S; T", "\n".join(f"S TO T := E [V = {it}];" for it in range(n)), events="E WITH V"))


def algorithms(n):
    return one(block("VAR X : INT; END_VAR", "START; " + "; ".join(f"A{it} : G{it}" for it in range(n)), "", many(n, "ALGORITHM G%d IN ST: X := 1; END_ALGORITHM")))


def statements(n):
    return algorithm(many(n, "I := J;"))


def wraps(n):
    return algorithm(many(n, "I := I + J;"))


def wraps_of_instances(n):
    uses = "\n".join(f"X{it} : B;" for it in range(n))
    ways = "\n".join(f"IN.IND TO X{it}.E;" for it in range(n))
    body = many(40, "I := I + J;")
    text = block("VAR I, J : DINT; END_VAR", "START; ACT : G", "START TO ACT := E; ACT TO START := 1;", f"ALGORITHM G IN ST:\n{body}\nEND_ALGORITHM")
    return text + system_of(resource_of("IN : INPUT(ID := 1);\n" + uses, ways))


def branches(n):
    return algorithm(many(n, "IF I > %d THEN J := 1; ELSE J := 2; END_IF;"))


def nested_branches(n):
    return algorithm("IF I > 1 THEN " * n + "J := 1;" + " END_IF;" * n)


def else_branches(n):
    return algorithm("IF I = 0 THEN J := 0;\n" + many(n, "ELSIF I = %d THEN J := 1;") + "\nEND_IF;")


def labels(n):
    return algorithm("CASE I OF\n" + many(n, "%d: J := 1;") + "\nEND_CASE;")


def loops(n):
    return algorithm(many(n, "FOR I := 0 TO %d MOD 100 DO A[I] := J; END_FOR;".replace("%d MOD 100", "99")))


def nested_loops(n):
    names = ", ".join(f"I{it}" for it in range(n))
    loop = "".join(f"FOR I{it} := 0 TO 1 DO " for it in range(n))
    return algorithm(loop + "J := 1;" + " END_FOR;" * n, f"VAR {names}, J : DINT; END_VAR")


def sums(n):
    return algorithm("J := I" + " + I" * n + ";")


def parentheses(n):
    return algorithm("J := " + "(" * n + "I" + ")" * n + ";")


def comment(n):
    return "(* " + "* ( " * n + "*)\n" + one(block())


def comments(n):
    return "(* c *)\n" * n + one(block())


def long_name(n):
    return one(block()).replace("X : B;", f"X : {'N' * n};")


def unknown_names(n):
    return algorithm("\n".join(f"WRONG{it} := 1;" for it in range(n)), "VAR\n" + many(n, "VALUE%d : DINT;") + "\nEND_VAR")


def broken_statements(n):
    """Statements that cannot be read, each for itself."""
    return algorithm(many(n, "I := J J;"))


def broken_variables(n):
    """Declarations that cannot be read, whose names are in doubt, and uses of them."""
    return algorithm(many(n, "V%d := J;"), "VAR J : INT;\n" + many(n, "V%d : INTT;") + "\nEND_VAR")


def broken_characters(n):
    return algorithm(many(n, "I := ? J;"))


def broken_branches(n):
    """Faults in an IF that is nested as deep as may be, in each of its branches."""
    return algorithm("IF I > 1 THEN " * 31 + many(n, "WRONG%d := 1;") + " END_IF;" * 31)


def broken_types(n):
    """Block types that cannot be read."""
    return many(n, "FUNCTION_BLOCK T%d EVENT_INPUT E END_EVENT EC_STATES S; END_STATES EC_TRANSITIONS END_TRANSITIONS END_FUNCTION_BLOCK") + "\n" + one(block())


def broken_ends(n):
    """Connections to ports that are not there."""
    ways = "\n".join(f"IN.IND TO M{it % 500}.EI_{it};" for it in range(n))
    return system_of(resource_of("IN : INPUT(ID := 1);\n" + many(500, MERGE), ways))


def nested_types(n):
    """Each type holds two of the type before it."""
    text = RELAY
    depth = max(n.bit_length() - 1, 1)
    for it in range(depth):
        inner = f"W{it - 1}" if it else "RELAY"
        text += (
            f"FUNCTION_BLOCK W{it} EVENT_INPUT EI WITH X; END_EVENT EVENT_OUTPUT EO WITH Y; END_EVENT VAR_INPUT X : INT; END_VAR VAR_OUTPUT Y : INT; END_VAR\n"
            f"FBS A : {inner}; B : {inner}; END_FBS EVENT_CONNECTIONS EI TO A.EI; A.EO TO B.EI; B.EO TO EO; END_CONNECTIONS\n"
            "DATA_CONNECTIONS X TO A.X; A.Y TO B.X; B.Y TO Y; END_CONNECTIONS END_FUNCTION_BLOCK\n"
        )
    return text + system_of(resource_of(f"X : W{depth - 1}; IN : INPUT[INT](ID := 1);", "IN.IND TO X.EI;", data="IN.RD_1 TO X.X;"))


def nested_resources(n):
    """Resources of 64 relays each, in types that hold two of the type before."""
    text = nested_types(64)
    text = text[: text.index("SYSTEM")]
    names = [resource_of("X : W5;", name=f"R{it}") for it in range(n)]
    return text + "SYSTEM S\n" + "".join(f"DEVICE D{at}\n{''.join(names[at : at + 16])}END_DEVICE\n" for at in range(0, n, 16)) + "END_SYSTEM\n"


def channels(n):
    begins = "BEGIN : E_RESTART;\n"
    ends = "\n".join(f"P{it} : PUBLISH[INT](ID := {it}); Q{it} : SUBSCRIBE[INT](ID := {it});" for it in range(n))
    ways = "\n".join(f"BEGIN.COLD TO P{it}.INIT; BEGIN.COLD TO Q{it}.INIT;" for it in range(n))
    return system_of(resource_of(begins + ends, ways))


def timers(n):
    ways = "\n".join(f"IN.IND TO T{it}.START; T{it}.EO TO M{it}.EI1;" for it in range(n))
    return system_of(resource_of("IN : INPUT(ID := 1);\n" + "\n".join(f"T{it} : E_CYCLE(DT := T#1s); M{it} : E_MERGE;" for it in range(n)), ways))


def inputs(n):
    return system_of(resource_of("\n".join(f"I{it} : INPUT[INT](ID := {it}); O{it} : OUTPUT[INT](ID := {it});" for it in range(n)),
                                 "\n".join(f"I{it}.IND TO O{it}.REQ;" for it in range(n)), data="\n".join(f"I{it}.RD_1 TO O{it}.SD_1;" for it in range(n))))


# Each with the size that it begins with, and how far the language lets it go.
SHAPES = {
    unused_variables: (250, 50_000),
    read_alone: (250, 20_000),
    block_types: (250, 8_000),
    unconnected: (64, 1_024),
    merges: (64, 1_000),
    relays: (64, 1_000),
    ring: (32, 1_000),
    fan: (64, 1_000),
    resources: (8, 256),
    states: (32, 256),
    transitions: (64, 1_024),
    algorithms: (16, 255),
    statements: (500, 100_000),
    wraps: (250, 60_000),
    wraps_of_instances: (32, 960),
    branches: (250, 20_000),
    nested_branches: (8, 60),
    else_branches: (100, 20_000),
    labels: (250, 50_000),
    loops: (100, 20_000),
    nested_loops: (4, 60),
    sums: (16, 60),
    parentheses: (8, 60),
    comment: (5_000, 250_000),
    comments: (2_000, 120_000),
    long_name: (5_000, 1_000_000),
    unknown_names: (250, 20_000),
    broken_statements: (250, 50_000),
    broken_variables: (250, 20_000),
    broken_characters: (250, 50_000),
    broken_branches: (100, 20_000),
    broken_types: (100, 8_000),
    broken_ends: (500, 40_000),
    nested_types: (8, 1_024),
    nested_resources: (16, 256),
    channels: (16, 500),
    timers: (32, 500),
    inputs: (32, 500),
}
# What takes more memory than is wanted, and is known: certificates within their limit that are far longer than their texts.
KNOWN = ("nested_resources", "nested_types")


def run(words, stdin=None):
    """Processor seconds, the most memory, and what a run printed. A process begins with the sum of the one that began it, so less memory than this one has is told as 0."""
    own = resource.getrusage(resource.RUSAGE_SELF).ru_maxrss
    with tempfile.TemporaryFile() as out:
        job = subprocess.Popen(words, stdin=stdin, stdout=out, stderr=subprocess.DEVNULL)
        _, status, used = os.wait4(job.pid, 0)
        job.returncode = os.waitstatus_to_exitcode(status)
        out.seek(0)
        return used.ru_utime + used.ru_stime, used.ru_maxrss * 1024 * (used.ru_maxrss > own), job.returncode, out.read(1 << 24)


def commands(program, folder, text, written):
    """What is run on a text: its name, its words, and how many bytes it reads."""
    yield "bound", [program, "bound", text], 0
    yield "explain", [program, "explain", text], 0
    yield "explain --all", [program, "explain", text, "--all"], 0
    yield "draw", [program, "draw", text], 0
    cert = f"{folder}/found.cert"
    with open(cert, "wb") as it:
        it.write(written.get("bound", b"") or b"CERT 1\n")
    size = os.path.getsize(cert)
    yield "check", [program, "check", text, cert], size
    yield "explain CERT", [program, "explain", text, cert], size


def series(program, folder, shape, limit):
    """Runs a shape in sizes that double; for each command its times, and what is over the bound of memory."""
    first, most = SHAPES[shape]
    times, over, done = {}, [], set()
    size = first
    while size <= most:
        source = shape(size)
        if len(source) > LONGEST:
            break
        path = f"{folder}/{shape.__name__}.fb"
        with open(path, "w", encoding="utf-8") as it:
            it.write(source)
        written = {}
        for name, words, more in commands(program, folder, path, written):
            if name in done:
                continue
            seconds, memory, status, said = run(words)
            written[name] = said if status == 0 else b""
            if status not in (0, 1, 2):
                over.append(f"{name} of {shape.__name__} {size}: status {status}")
            if seconds > LEAST / 10:
                seconds = min(seconds, run(words)[0])
            times.setdefault(name, []).append((size, seconds))
            if memory > BASE + FOR_A_BYTE * (len(source) + more):
                over.append(f"{name} of {shape.__name__} {size}: {memory >> 20} MiB for {len(source) + more} bytes")
            if seconds > limit:
                done.add(name)
        size *= 2
    return times, over


def growths(times, start):
    """The greatest growth over three doublings in a row that takes long enough to be told, for one doubling."""
    worst = 0.0, 0
    for (_, before, *_), (size, after, *_) in zip(times, times[3:]):
        if before - start > LEAST / 10 and after - start > LEAST:
            worst = max(worst, (((after - start) / (before - start)) ** (1 / 3), size))
    return worst


def counted(words, given=None):
    """The instructions of a run."""
    told = subprocess.run(["valgrind", "--tool=callgrind", "--callgrind-out-file=/dev/null", *words], stdin=given, stdout=subprocess.DEVNULL, stderr=subprocess.PIPE, text=True).stderr
    return int(re.search(r"Collected : (\d+)", told)[1])


def by_instructions(program, folder, shape, command, times):
    """The growth of a shape at a command for a doubling, in instructions."""
    size = max((size for size, seconds in times if seconds < COUNTED), default=times[0][0])
    base = counted([program, "explain", "43"])
    both = []
    for at in (max(size // 4, 1), size):
        path = f"{folder}/counted.fb"
        with open(path, "w", encoding="utf-8") as it:
            it.write(shape(at))
        written = {"bound": run([program, "bound", path])[3]}
        both.append(next(counted(words) for name, words, _ in commands(program, folder, path, written) if name == command) - base)
    return (both[1] / both[0]) ** 0.5


def too_long(program, folder):
    """What does not refuse at once a text of 15 kB whose certificate would have 30 MB."""
    path = f"{folder}/too_long.fb"
    text = nested_types(512)
    deepest = re.findall(r"FUNCTION_BLOCK (W\d+)", text)[-1]
    names = [resource_of(f"X : {deepest};", name=f"R{it}") for it in range(256)]
    with open(path, "w", encoding="utf-8") as it:
        it.write(text[: text.index("SYSTEM")] + "SYSTEM S\n" + "".join(f"DEVICE D{at}\n{''.join(names[at : at + 16])}END_DEVICE\n" for at in range(0, 256, 16)) + "END_SYSTEM\n")
    for command in ("bound", "explain", "draw"):
        seconds, memory, status, said = run([program, command, path])
        if status != 2 or not said.startswith(b"refused 4\n") or seconds > AT_ONCE or memory > BASE:
            yield f"{command} of a certificate that would be too long: {seconds:.2f} s, {memory >> 20} MiB, status {status}, {said[:40]!r}"


def long_runs(program, folder, top, limit):
    """Scripts and stories of the tank, line after line."""
    tank = f"{top}/examples/tank/tank"
    with open(f"{tank}.script", "rb") as it:
        script = it.read()
    story = b"SEQUENCE S%d\n  Enable_Switch(TRUE) -> ;\n  Level_Sensor(6912) -> Level_Display(250) -> Inlet_Valve(TRUE);\nEND_SEQUENCE\n"
    parts = {
        "sim": (["sim", f"{tank}.fb", f"{tank}.cert"], lambda n: script * n),
        "play": (["play", f"{tank}.fb", f"{tank}.cert"], lambda n: b"".join(story.replace(b"%d", b"%d" % it) for it in range(n))),
    }
    for name, (words, made) in parts.items():
        times, over = [], []
        read = sum(os.path.getsize(it) for it in words[1:])
        size = 25
        while size <= 6_400:
            path = f"{folder}/{name}.lines"
            given = made(size)
            with open(path, "wb") as it:
                it.write(given)
            with open(path, "rb") as it:
                seconds, memory, status, _ = run([program, *words, *([path] if name == "play" else [])], it)
            times.append((size, seconds))
            if memory > BASE + FOR_A_BYTE * (read + len(given)):
                over.append(f"{name} of {size}: {memory >> 20} MiB for {read + len(given)} bytes")
            if status not in (0, 1, 2):
                over.append(f"{name} of {size}: status {status}")
            if seconds > limit:
                break
            size *= 2
        yield name, times, over


def main():
    words = argparse.ArgumentParser(description=__doc__.splitlines()[0])
    words.add_argument("program")
    words.add_argument("shapes", nargs="*")
    words.add_argument("--long", action="store_true", help="runs may take eight seconds of the processor")
    words.add_argument("--show", action="store_true", help="prints the seconds of each size")
    asked = words.parse_intermixed_args()
    program = os.path.abspath(asked.program)
    limit = 8.0 if asked.long else 0.5
    top = os.path.dirname(os.path.dirname(os.path.abspath(__file__)))
    begun = time.monotonic()
    start = min(run([program, "explain", "43"])[0] for _ in range(5))
    faults, known, count, greatest = [], [], 0, (0.0, "")
    with tempfile.TemporaryDirectory() as folder:
        found = [(shape.__name__, shape, *series(program, folder, shape, limit)) for shape in SHAPES if not asked.shapes or shape.__name__ in asked.shapes]
        if not asked.shapes:
            faults.extend(too_long(program, folder))
            found += [(name, None, {name: times}, over) for name, times, over in long_runs(program, folder, top, limit)]
        for name, shape, by_command, over in found:
            (known if name in KNOWN else faults).extend(over)
            for command, times in by_command.items():
                count += len(times)
                growth, size = growths(times, start)
                is_counted = shape and shutil.which("valgrind")
                if growth > MOST_GROWTH and is_counted:
                    growth = by_instructions(program, folder, shape, command, times)
                if asked.show:
                    print(f"{name:20} {command:13} {growth:5.2f}  " + "  ".join(f"{at}: {seconds:.2f}" for at, seconds in times))
                greatest = max(greatest, (growth, f"{command} of {name} {size}"))
                if growth > (MOST_GROWTH if is_counted else MOST_BY_TIME):
                    faults.append(f"{command} of {name}: a doubling to {size} takes {growth:.2f} times")
    for it in known:
        print(f"known: {it}")
    for it in faults:
        print(it)
    print(f"growth: {count} runs in {time.monotonic() - begun:.0f} s, the most for a doubling {greatest[0]:.2f} ({greatest[1]}), {len(faults)} over a bound, {len(known)} known")
    return 1 if faults else 0


if __name__ == "__main__":
    sys.exit(main())
