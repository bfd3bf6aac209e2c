#!/usr/bin/env python3
"""Times `fbr bound`: bench/finding.py PROGRAM

The largest system that is allowed, and an eighth, a quarter and a half of it (as in systems.py, whose certificate is the least one, so that the
program has to print just this); the largest algorithms (as in ranges.py, with no rows of a certificate); and rings of blocks that pass a
number round, each adding 1, which need all rounds, the widening, and then a round for each block. The least of five runs is told.
"""
import subprocess
import sys
import tempfile
import time

import ranges
import systems

RUNS = 5
ADDER = """FUNCTION_BLOCK ADDER
EVENT_INPUT EI WITH X; END_EVENT
EVENT_OUTPUT EO WITH Y; END_EVENT
VAR_INPUT X : INT; END_VAR
VAR_OUTPUT Y : INT; END_VAR
EC_STATES START; ACT : ADD -> EO; END_STATES
EC_TRANSITIONS START TO ACT := EI; ACT TO START := 1; END_TRANSITIONS
ALGORITHM ADD IN ST: Y := X + 1; END_ALGORITHM
END_FUNCTION_BLOCK
"""


def bound(program, text):
    """The least time of some runs, and what is printed."""
    with tempfile.NamedTemporaryFile("w", suffix=".fb") as it:
        it.write(text)
        it.flush()
        best = None
        for _ in range(RUNS):
            began = time.perf_counter()
            done = subprocess.run([program, "bound", it.name], capture_output=True)
            took = time.perf_counter() - began
            best = took if best is None else min(best, took)
        return best, done.stdout.decode()


def ring(blocks):
    """Each block takes the number of the one before it. Events do not go round, so that a certificate is there."""
    text = ADDER + "SYSTEM S DEVICE D RESOURCE R\nFBS GO : INPUT(ID := 1);" + " ".join("B%d : ADDER;" % b for b in range(blocks)) + " END_FBS\n"
    text += "EVENT_CONNECTIONS GO.IND TO B0.EI; " + " ".join("B%d.EO TO B%d.EI;" % (b, b + 1) for b in range(blocks - 1)) + " END_CONNECTIONS\n"
    text += "DATA_CONNECTIONS " + " ".join("B%d.Y TO B%d.X;" % (b, (b + 1) % blocks) for b in range(blocks)) + " END_CONNECTIONS\n"
    return text + "END_RESOURCE END_DEVICE END_SYSTEM\n"


def main():
    program = sys.argv[1]
    for part in (8, 4, 2, 1):
        source, instances, connections, states = systems.system(part)
        text, certificate = source.split("\n====\n")
        took, said = bound(program, text + "\n")
        assert said == certificate, said
        print("%4d instances, %4d connections, %3d states, %6d bytes: %.1f ms" % (instances, connections, states, len(text), took * 1000))
    for name in ("long", "nested", "wide", "branches", "arms"):
        for size in (64, 256, 1000):
            text = getattr(ranges, name)(size * 1024).split("\n====\n")[0] + "\n"
            took, said = bound(program, text)
            assert said.startswith("CERT 1\n"), said
            print("%-8s %7d bytes: %.1f ms, %.0f ns a byte" % (name, len(text), took * 1000, took * 1e9 / len(text)))
    for blocks in (2, 10, 100, 1000):
        text = ring(blocks)
        took, said = bound(program, text)
        assert "RANGE D.R.B0.X -32768 32767\n" in said or "RANGE D.R.B0.X 0 32767\n" in said or "-32768" in said, said
        print("ring of %4d, %6d bytes: %.1f ms" % (blocks, len(text), took * 1000))


if __name__ == "__main__":
    main()
