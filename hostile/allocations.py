#!/usr/bin/env python3
"""Refuses each growth of memory in turn, and counts those of a device that runs: hostile/allocations.py PROGRAM [--short] [--cases FBR_CASES]

hostile/failing.c is built with the C compiler and preloaded. First every command runs on the counter, on a timer and on two devices (without --short also on examples/handover), and `explain` and `draw`
on the cases of tests/commands (with --short on the first of each file): before each growth the process forks, and the child is refused this growth. What the child prints has to be what is printed
with ample memory, or a refusal for want of memory and nothing else, with status 4; of `sim` and `play` it is a beginning of the lines and then this refusal, of `explain` what it tells of 9 stands behind it, and
nothing at all is printed where there is no memory for the words. There is no signal, and no panic. What people are told on standard error may be less then.

Then what scripts of `sim` and turns of `serve` take behind their first answer is counted: how many growths a line of each kind takes, and how many growths a device takes
behind its first write while datagrams come in.

With FBR_CASES, which is the program of that crate, files of cases of each kind run likewise: a case has to answer what is stored, or 9, or the program ends with status 1 where it has
no memory itself."""
import argparse
import collections
import concurrent.futures
import glob
import os
import re
import shutil
import socket
import struct
import subprocess
import sys
import tempfile
import time

TOP = os.path.dirname(os.path.dirname(os.path.abspath(__file__)))
SECONDS = 600
REFUSED = "refused 9\n"
# What `explain` tells of 9.
MEANING = "What it says: memory ran out\nWhat to do: give the process more memory\n"
# What is told of 9 with `--json`, behind the command.
REPORT = ',"line":"refused 9","number":9,"remedies":["give the process more memory"],"says":"memory ran out","schema":1,"status":4,"verdict":"refused"}\n'
TIMER = """SYSTEM S DEVICE D RESOURCE R
FBS GO : INPUT(ID := 1); HALT : INPUT(ID := 2); DLY : E_DELAY(DT := T#50ms); LAMP : OUTPUT(ID := 9); END_FBS
EVENT_CONNECTIONS GO.IND TO DLY.START; HALT.IND TO DLY.STOP; DLY.EO TO LAMP.REQ; END_CONNECTIONS
END_RESOURCE END_DEVICE END_SYSTEM
"""
TIMER_SCRIPT = "tick D 100\noffer D 1\n" + "dispatch D R\n" * 3 + "tick D 150\n" + "dispatch D R\n" * 2 + "offer D 2\ndispatch D R\n"
TIMER_STORY = """SEQUENCE later
  GO() -> ;
  EXPECT QUEUE R = 0;
  AFTER T#50ms -> LAMP();
END_SEQUENCE
SEQUENCE never
  TOGETHER GO(), HALT() -> LAMP() -> DENIED STEPS <= 1;
END_SEQUENCE
"""
NETWORK = """SYSTEM S
DEVICE D1 RESOURCE R
FBS BUTTON : INPUT[INT](ID := 1); RST : E_RESTART; PUB : PUBLISH[INT](ID := 7, QI := TRUE); END_FBS
EVENT_CONNECTIONS BUTTON.IND TO PUB.REQ; RST.COLD TO PUB.INIT; END_CONNECTIONS
DATA_CONNECTIONS BUTTON.RD_1 TO PUB.SD_1; END_CONNECTIONS
END_RESOURCE END_DEVICE
DEVICE D2 RESOURCE R
FBS RST : E_RESTART; SUB : SUBSCRIBE[INT](ID := 7, QI := TRUE); LAMP : OUTPUT[INT](ID := 1); END_FBS
EVENT_CONNECTIONS RST.COLD TO SUB.INIT; SUB.IND TO LAMP.REQ; END_CONNECTIONS
DATA_CONNECTIONS SUB.RD_1 TO LAMP.SD_1; END_CONNECTIONS
END_RESOURCE END_DEVICE END_SYSTEM
"""
# The growths of a sentence of 80 to 160 bytes, which is put together in pieces: to 20 bytes, and then to twice as many three times.
SENTENCE = 4
NETWORK_START = "dispatch D1 R\ndispatch D1 R\ndispatch D2 R\ndispatch D2 R\n"
SEND = "offer D1 1 5\ndispatch D1 R\ndispatch D1 R\n"
NETWORK_SCRIPT = NETWORK_START + SEND + "deliver 1 D2\ndispatch D2 R\ndispatch D2 R\nroot 3\noffer D1 1 70000\n"


def fail(why):
    sys.exit(f"allocations: {why}")


def read(name):
    with open(f"{TOP}/examples/{name}") as it:
        return it.read()


class Plant:
    """An application, its certificates, a script, and perhaps a story, in files."""

    def __init__(self, name, text, script, program, folder, story=None):
        self.name, self.script, self.story = name, script, story and f"{folder}/{name}.story"
        if story:
            with open(self.story, "w") as it:
                it.write(story)
        self.app, self.cert, self.far, self.bad = (f"{folder}/{name}.{it}" for it in ("fb", "cert", "far", "bad"))
        with open(self.app, "w") as it:
            it.write(text)
        for path, option in ((self.cert, []), (self.far, ["--repeats", "2"])):
            with open(path, "w") as it:
                subprocess.run([program, "bound", self.app, *option], stdout=it, check=True)
        with open(self.cert) as it, open(self.bad, "w") as bad:
            bad.write(re.sub(r"^(WEIGHT \S+) \d+", r"\1 1", it.read(), count=1, flags=re.MULTILINE))

    def commands(self):
        """Words with standard input. Those with another certificate than the least show a refusal and REPEATS."""
        app = self.app
        for words in (["check", app, self.cert], ["check", app, self.far], ["check", app, self.bad]):
            yield words, ""
        with open(app) as text, open(self.cert) as cert:
            yield [], f"{text.read()}====\n{cert.read()}"
        for words in (["bound", app], ["bound", app, "--repeats", "2"], ["bound", app, "--room", "2"], ["bound", app, "--search"], ["bound", app, "--ranges", self.cert]):
            yield words, ""
        for words in (["explain", app], ["explain", app, self.bad], ["draw", app], ["draw", app, self.far], ["draw", app, self.far, "--chart", "counter"]):
            yield words, ""
        for words in (["check", "--json", app, self.cert], ["check", "--json", app, self.bad], ["bound", "--json", app, "--repeats", "2"], ["explain", "--json", app, self.far]):
            yield words, ""
        for cert in (self.cert, self.far):
            yield ["sim", app, cert], self.script
        if self.story:
            yield ["play", app, self.cert, self.story], ""
            yield ["play", app, self.story, self.story], ""


def built(folder):
    library = f"{folder}/failing.so"
    compiler = shutil.which("cc") or shutil.which("gcc") or fail("there is no C compiler, which builds hostile/failing.c")
    subprocess.run([compiler, "-O2", "-Wall", "-shared", "-fPIC", "-fno-builtin", "-o", library, f"{TOP}/hostile/failing.c"], check=True)
    return library


def each(command, text, library, folder, where=None):
    """Runs a command in which each growth is refused in turn. Returns its status, what it printed, and for each growth its number, status, what it printed and told."""
    with tempfile.TemporaryDirectory(dir=folder) as own:
        report = f"{own}/report"
        around = dict(os.environ, LD_PRELOAD=library, EACH=report)
        with open(f"{own}/in", "w+") as given, open(f"{own}/out", "w+b") as out:
            given.write(text)
            given.seek(0)
            done = subprocess.run(command, stdin=given, stdout=out, stderr=subprocess.PIPE, env=around, cwd=where, timeout=SECONDS)
            out.seek(0)
            ample = out.read()
        with open(report, "rb") as it:
            return done.returncode, ample.decode(), list(records(it))


def records(file):
    while line := file.readline():
        number, status, printed, told = map(int, line.split())
        yield number, os.waitstatus_to_exitcode(status), file.read(printed).decode(), file.read(told).decode()


def is_refusal(words, ample, told):
    """Is this the refusal for want of memory, of `sim` and `play` behind a beginning of the ample output? It is nothing where there is no memory for the words."""
    word = words[0] if words else ""
    if "--json" in words:
        return told in ("", REFUSED, f'{{"command":"{word}"{REPORT}')
    if word in ("sim", "play"):
        lines, refused, rest = told.partition(REFUSED)
        return not told or refused and not rest and ample.startswith(lines)
    return told in ("", REFUSED) or word == "explain" and told == REFUSED + MEANING


def try_command(words, text, program, library, folder, where=None, expected=(0, 1, 2)):
    """Refuses each growth of a command, which ends with one of these statuses where there is ample memory. Returns how many growths there were, and how many made a difference."""
    status, ample, tried = each([program, *words], text, library, folder, where)
    shown = f"fbr {' '.join(words)}".replace(f"{folder}/", "")
    if status not in expected or not tried:
        fail(f"{shown}: with ample memory status {status}, {len(tried)} growths")
    refused = 0
    for number, ended, printed, told in tried:
        same = ended == status and printed == ample
        honest = same or ended == 4 and is_refusal(words, ample, printed)
        if not honest or "panic" in told:
            fail(f"{shown}: growth {number} of {len(tried)}: status {ended}, {printed[-300:]!r}, {told[-300:]!r}, of {ample!r}")
        refused += not same
    return len(tried), refused


def show_commands(name, done):
    growths, refused = (sum(it[at] for it in done) for at in (0, 1))
    print(f"  {name}: {len(done)} commands, {growths} growths refused in turn: {refused} are told, {growths - refused} change nothing")


def try_commands(plants, program, library, folder):
    jobs = [(plant, words, text) for plant in plants for words, text in plant.commands()]
    with concurrent.futures.ThreadPoolExecutor(2) as pool:
        done = list(pool.map(lambda job: (job[0], try_command(*job[1:], program, library, folder)), jobs))
    for plant in plants:
        show_commands(plant.name, [it for (at, it) in done if at is plant])


def told_cases(word, most):
    """The first cases of each file of tests/commands in which this word tells of files: the words, standard input, the files by their names, and the status that the case has."""
    for path in sorted(glob.glob(f"{TOP}/tests/commands/*.case")):
        with open(path, encoding="utf-8", newline="") as it:
            cases = it.read().split("==== case ")[1:]
        given, count = {}, 0
        for case in cases:
            # A section that a case does not give is that of the case before it.
            given |= {head: text.removesuffix("\n") for head, text in re.findall(r"^==== ([^\n]*)\n(.*?)(?=^==== |\Z)", case, re.MULTILINE | re.DOTALL)}
            words = given.get("words", "").split()
            if words[:1] == [word] and count < most and not given.keys() & {"room", "byte 255"}:
                count += 1
                files = {head.removeprefix("file "): text for head, text in given.items() if head.startswith("file ")}
                yield words, given.get("input", ""), files, int(re.match(r"status (\d)", given["answer"])[1])


def try_told(case, program, library, folder):
    """Refuses each growth of a command over the files of a case, in a folder of their own."""
    words, text, files, status = case
    with tempfile.TemporaryDirectory(dir=folder) as own:
        for name, held in files.items():
            with open(f"{own}/{name}", "w", encoding="utf-8", newline="") as it:
                it.write(held)
        return try_command(words, text, program, library, folder, own, (status,))


def try_telling(program, library, folder, most):
    for word in ("explain", "draw"):
        with concurrent.futures.ThreadPoolExecutor(2) as pool:
            done = list(pool.map(lambda case: try_told(case, program, library, folder), told_cases(word, most)))
        show_commands(f"cases of {word}", done)


def grown(command, text, library, mark):
    """How many growths a run takes in all, and behind its mark."""
    around = dict(os.environ, LD_PRELOAD=library, MARK=mark)
    done = subprocess.run(command, input=text, env=around, capture_output=True, text=True, timeout=SECONDS)
    told = re.search(r"^grown (\d+), behind the mark (-?\d+)$", done.stderr, re.MULTILINE)
    if done.returncode or not told:
        fail(f"{command}: status {done.returncode}, {done.stdout[-200:]!r}, {done.stderr[-200:]!r}")
    return int(told[1]), int(told[2])


def growths_of(count):
    """How many growths a list takes to which so many elements are added: to 4, and then to twice as many."""
    return 0 if count == 0 else 1 + max(0, (count - 1).bit_length() - 2)


def read_by(line):
    """How many growths the reader of scripts takes for a line: for its words, and for the values of an offer."""
    words = line.split()
    return growths_of(len(words)) + growths_of(len(words) - 3 if words[:1] == ["offer"] else 0)


def count_lines(program, plants, library):
    """Growths of a script of N rounds less those of N / 2 rounds: those of the reader, those of the sentence by which people are told of a denied value, a few of the tables of a
    world, which grow to twice their size, and none of the devices."""
    counter, timer, network = plants
    rounds = 2000
    for what, plant, start, piece in (
        ("an empty line", counter, "", "\n"),
        ("an offer, and what it causes", counter, "", "offer D 1\n" + "dispatch D R\n" * 3),
        ("an offer that is denied", counter, "offer D 1\n", "offer D 1\n"),
        ("a tick, and a dispatch of an empty queue", timer, "", "tick D 1\ndispatch D R\n"),
        ("a timer that is started, and fires", timer, "", "offer D 1\ndispatch D R\ndispatch D R\ntick D #\ndispatch D R\ndispatch D R\n"),
        ("an offer with values, denied", network, NETWORK_START, "offer D1 1 70000\noffer D1 1 1 2 3 4 5 6\n"),
        ("a datagram that is sent", network, NETWORK_START, SEND),
        ("a datagram that is delivered, and what it causes", network, NETWORK_START + SEND, "deliver 1 D2\ndispatch D2 R\ndispatch D2 R\n"),
        ("a datagram that is denied", network, NETWORK_START + SEND + "deliver 1 D2\n", "deliver 1 D2\n"),
        ("a question for a root", counter, "offer D 1\n", "root 1\n"),
    ):
        text = [start + "".join(piece.replace("#", str(100 * at)) for at in range(1, count + 1)) for count in (rounds // 2, rounds)]
        half, whole = (grown([program, "sim", plant.app, plant.cert], it, library, "")[0] for it in text)
        reader = sum(map(read_by, piece.splitlines())) * rounds // 2
        told = SENTENCE * piece.count("70000") * rounds // 2
        more = whole - half - reader - told
        print(f"  {what}: of {rounds // 2} rounds the reader takes {reader}, what people are told {told}, all the rest {more}")
        if not 0 <= more <= 5:
            fail(f"{what}: {more} growths in {rounds // 2} rounds beside those of the reader")


def free_port():
    with socket.socket(socket.AF_INET, socket.SOCK_DGRAM) as it:
        it.bind(("127.0.0.1", 0))
        return it.getsockname()[1]


SERVED = """SYSTEM S DEVICE D RESOURCE R
FBS RST : E_RESTART; GO : INPUT[DINT](ID := 1); WAIT : E_DELAY(DT := T#1ms); PUB : PUBLISH[DINT](ID := 7, QI := TRUE, FORMAT := 2); LAMP : OUTPUT[DINT](ID := 1); END_FBS
EVENT_CONNECTIONS RST.COLD TO PUB.INIT; PUB.INITO TO LAMP.REQ; GO.IND TO WAIT.START; WAIT.EO TO PUB.REQ; PUB.CNF TO LAMP.REQ; END_CONNECTIONS
DATA_CONNECTIONS GO.RD_1 TO PUB.SD_1; GO.RD_1 TO LAMP.SD_1; END_CONNECTIONS
END_RESOURCE END_DEVICE END_SYSTEM
"""


def count_turns(program, library, folder, turns):
    """Growths of a device behind its first write: it takes offers, ticks, sends and writes, and denies what is no message."""
    plant = Plant("served", SERVED, "", program, folder)
    port, peer = free_port(), free_port()
    words = [program, "serve", plant.app, plant.cert, "D", "--bind", str(port), "--turns", str(turns), str(peer)]
    around = dict(os.environ, LD_PRELOAD=library, MARK="write ")
    job = subprocess.Popen(words, stdout=subprocess.PIPE, stderr=subprocess.PIPE, env=around, text=True)
    end = time.monotonic() + SECONDS
    with socket.socket(socket.AF_INET, socket.SOCK_DGRAM) as link, concurrent.futures.ThreadPoolExecutor(1) as pool:
        said = pool.submit(job.communicate)
        number = 0
        while not said.done() and time.monotonic() < end:
            number += 1
            link.sendto(struct.pack(">2sBBHBBq", b"FB", 1, 2, 1, 1, 3, number % 1000), ("127.0.0.1", port))
            link.sendto(os.urandom(number % 170), ("127.0.0.1", port))
            time.sleep(0.0002)
        job.kill()
        out, err = said.result()
    told = re.search(r"^grown (\d+), behind the mark (-?\d+)$", err, re.MULTILINE)
    last = (out.splitlines() or [""])[-1]
    if job.returncode or not told or not last.startswith("fired "):
        fail(f"serve: status {job.returncode}, {last!r}, {err[-200:]!r}")
    print(f"  serve: {told[1]} growths before its first write, {told[2]} behind it; {last}, {out.count('write ')} writes")
    fired, received, _, _, sent, _ = map(int, last.split()[1::2])
    if told[2] != "0" or not (fired and received and sent):
        fail("a device that serves took memory behind its first write, or did nothing")


# What a case may answer where memory ran out. The program of cases takes a datagram that it cannot read for an empty one, so that cases whose link holds datagrams are none of these.
HONEST = r"(^|\s)refused 9$|^no bytes$|^denied 55 Short$"
# Kinds of cases: the calls that each shows, and files of it. Of the first one some cases run with --short.
CASES = {
    "tokens": ("lex", ["typed_literals", "comments"]),
    "texts": ("parse", ["small", "algorithms", "a_composite"]),
    "systems": ("resolve", ["many_devices", "parameters", "composites"]),
    "certificates": ("parse_cert, print_cert", ["rows", "first_row"]),
    "walks": ("check_walk", ["states", "network"]),
    "ranges": ("check_algorithm, check_guard, max_steps", ["guards", "rows_of_a_block"]),
    "leaves": ("flatten", ["constants", "in_a_composite"]),
    "services": ("resolve", ["ports", "formats"]),
    "datagrams": ("decode, encode", ["spelled", "at_fault"]),
    "devices": ("load, load_from, load_boot, and a device's calls", ["cell", "stamps", "datagrams"]),
    "turns": ("MemoryLink::new, turn", ["sends"]),
    # A call of a world that was refused for want of memory is made once more, and the world has to answer all as before.
    "worlds": ("World::new, step, run", ["button"]),
}


def first_cases(path, count, most):
    """The first cases of a file of cases which are together no longer than that."""
    with open(path, encoding="utf-8") as it:
        head, *cases = it.read().split("==== case ")
    while count > 1 and sum(map(len, cases[:count])) > most:
        count -= 1
    return "==== case ".join([head, *cases[:count]])


def judged(printed, status, ample):
    """Whether a program of cases that a growth was refused is honest, and how it ended."""
    if status == 0 and printed == ample:
        return "passed"
    answers = re.split(r"^(?=\S+/\S+ .*: answered$)", printed, flags=re.MULTILINE)[1:]
    if status == 1 and all(re.search(HONEST, it, re.MULTILINE) for it in answers):
        return "refused" if answers else "no memory of its own"
    return None


def try_file(kind, name, count, program, library, folder):
    """Refuses each growth of the first cases of a file. Returns how often the program ended how."""
    at = f"{folder}/cases-{name}/{kind}"
    os.makedirs(at)
    with open(f"{at}/{name}.case", "w", encoding="utf-8") as it:
        it.write(first_cases(f"{TOP}/crates/fbr_cases/data/{kind}/{name}.case", count, 4000))
    status, ample, tried = each([program, kind], "", library, folder, os.path.dirname(at))
    if status:
        fail(f"{kind}/{name}: with ample memory status {status}, {ample!r}")
    ends = collections.Counter()
    for number, ended, printed, told in tried:
        how = judged(printed, ended, ample)
        if how is None or "panic" in told:
            fail(f"{kind}/{name}: growth {number} of {len(tried)}: status {ended}, {printed[-400:]!r}, {told[-300:]!r}")
        ends[how] += 1
    return ends


def try_cases(program, library, folder, short):
    jobs = [(kind, name) for kind, (_, names) in CASES.items() for name in (names[:1] if short else names)]
    with concurrent.futures.ThreadPoolExecutor(2) as pool:
        done = list(pool.map(lambda job: try_file(*job, 3 if short else 5, program, library, folder), jobs))
    for kind, (calls, _) in CASES.items():
        ends = sum((it for it, job in zip(done, jobs) if job[0] == kind), collections.Counter())
        told = ", ".join(f"{count} {how}" for how, count in sorted(ends.items()))
        print(f"  {kind} ({calls}): {sum(ends.values())} growths: {told}")


def main():
    words = argparse.ArgumentParser()
    words.add_argument("program")
    words.add_argument("--short", action="store_true")
    words.add_argument("--cases")
    given = words.parse_args()
    program = os.path.abspath(given.program)
    with tempfile.TemporaryDirectory() as folder:
        library = built(folder)
        plants = [
            Plant("counter", read("counter.fb"), read("counter.script"), program, folder),
            Plant("timer", TIMER, TIMER_SCRIPT, program, folder, TIMER_STORY),
            Plant("network", NETWORK, NETWORK_SCRIPT, program, folder),
        ]
        more = [] if given.short else [Plant("handover", read("handover/handover.fb"), read("handover/handover.script"), program, folder)]
        print("each growth refused in turn:")
        try_commands([*plants, *more], program, library, folder)
        try_telling(program, library, folder, 1 if given.short else 1000)
        print("growths of a script's lines:")
        count_lines(program, plants, library)
        print("growths of a device that serves:")
        count_turns(program, library, folder, 2_000 if given.short else 50_000)
        if given.cases:
            print("calls below the commands, by cases:")
            try_cases(os.path.abspath(given.cases), library, folder, given.short)


if __name__ == "__main__":
    main()
