#!/usr/bin/env python3
"""Times datagrams: bench/serving.py PROGRAM

First `PROGRAM serve` over a UDP socket, beside the plain loop bench/serving.rs (built with `rustc -O`), which makes the same calls of its socket: each takes turns
while another process floods its port with offers of a button. What is told is the processor time of one datagram that came in, and of a minute of idling.
Then `PROGRAM sim` with lines `deliver 1 D`, beside blank lines: the time of one delivery with its line read and its answer printed.
"""
import os
import re
import resource
import subprocess
import sys
import tempfile
import time

TOP = os.path.dirname(os.path.dirname(os.path.abspath(__file__)))
TURNS = 100_000
IDLE_TURNS = 2_000
LINES = 250_000

APP = """SYSTEM S DEVICE D RESOURCE R
FBS BUTTON : INPUT(ID := 1); LAMP : OUTPUT(ID := 1); END_FBS
EVENT_CONNECTIONS BUTTON.IND TO LAMP.REQ; END_CONNECTIONS
END_RESOURCE END_DEVICE END_SYSTEM
"""
LOOP = """SYSTEM S DEVICE D RESOURCE R
FBS RST : E_RESTART; PUB : PUBLISH[INT](ID := 7, QI := TRUE); SUB : SUBSCRIBE[INT](ID := 7, QI := TRUE); END_FBS
EVENT_CONNECTIONS RST.COLD TO PUB.INIT; PUB.INITO TO PUB.REQ; PUB.CNF TO SUB.INIT; END_CONNECTIONS
END_RESOURCE END_DEVICE END_SYSTEM
"""


def spent(command, port, seconds):
    """Runs a command while its port is flooded for so long. Returns its processor seconds and what it printed."""
    flood = None
    if seconds:
        flood = subprocess.Popen([PLAIN, "flood", str(port), str(seconds)])
    before = resource.getrusage(resource.RUSAGE_CHILDREN)
    with subprocess.Popen(command, stdout=subprocess.PIPE, text=True) as job:
        said = job.stdout.read()
        _, status, used = os.wait4(job.pid, 0)
        job.returncode = os.waitstatus_to_exitcode(status)
    if flood:
        flood.kill()
        flood.wait()
    if job.returncode:
        sys.exit(f"{command} ended with {job.returncode}: {said}")
    return used.ru_utime + used.ru_stime, said


def a_datagram(command, port):
    """The least processor time of a datagram over three runs, in microseconds."""
    best = None
    for _ in range(3):
        seconds, said = spent(command, port, 60)
        received = int(re.search(r"received (\d+)", said.splitlines()[-1])[1])
        each = seconds / received * 1e6
        print(f"  {received} datagrams, {seconds:.2f} s", flush=True)
        best = each if best is None else min(best, each)
    return best


def least(command, text):
    best = None
    for _ in range(3):
        begun = time.perf_counter()
        subprocess.run(command, input=text, stdout=subprocess.DEVNULL, check=True)
        taken = time.perf_counter() - begun
        best = taken if best is None else min(best, taken)
    return best


def main(program):
    global PLAIN
    with tempfile.TemporaryDirectory() as folder:
        PLAIN = f"{folder}/plain"
        subprocess.run(["rustc", "-O", "-o", PLAIN, f"{TOP}/bench/serving.rs"], check=True)
        for name, text in (("one", APP), ("loop", LOOP)):
            with open(f"{folder}/{name}.fb", "w") as it:
                it.write(text)
            with open(f"{folder}/{name}.cert", "wb") as it:
                subprocess.run([program, "bound", f"{folder}/{name}.fb"], stdout=it, check=True)
        one = [f"{folder}/one.fb", f"{folder}/one.cert"]
        serve = [program, "serve", *one, "D", "--bind", "46210", "--turns"]
        ours = a_datagram([*serve, str(TURNS)], 46210)
        plain = a_datagram([PLAIN, "46211", str(TURNS)], 46211)
        print(f"a datagram: {ours:.2f} us of the processor, plain {plain:.2f} us, ratio {ours / plain:.2f}")
        for name, command in (("serve", [*serve, str(IDLE_TURNS)]), ("plain", [PLAIN, "46211", str(IDLE_TURNS)])):
            begun = time.perf_counter()
            seconds, _ = spent(command, 0, 0)
            clock = time.perf_counter() - begun
            print(f"idle, {name}: {IDLE_TURNS} turns in {clock:.1f} s, {seconds / clock * 60:.2f} s of the processor a minute")
        loop = [program, "sim", f"{folder}/loop.fb", f"{folder}/loop.cert"]
        start = b"dispatch D R\n" * 4
        lines = least(loop, start + b"deliver 1 D\n" * LINES)
        blank = least(loop, start + b"           \n" * LINES)
        print(f"a delivery by a script: {(lines - blank) / LINES * 1e6:.2f} us, of a blank line {blank / LINES * 1e6:.2f} us")


if __name__ == "__main__":
    main(os.path.abspath(sys.argv[1]))
