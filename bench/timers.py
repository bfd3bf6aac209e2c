#!/usr/bin/env python3
"""Times timers that expire in one tick: bench/timers.py PROGRAM [PLAIN]

Runs `PROGRAM sim` on ever more E_DELAYs, which one event starts and one tick fires, again and again, with the certificate that `PROGRAM bound` finds: the first started
is due first, or last, or each waits as long as it was drawn. With PLAIN, a program of the same words, it is run beside it on the same files, and has to answer the same.
Processor seconds, the least of nine runs.
"""
import os
import random
import resource
import subprocess
import sys
import tempfile

LINES = 300_000
RUNS = 9


def text(times):
    names = [f"T{at}" for at in range(len(times))]
    blocks = "".join(f"{name} : E_DELAY(DT := T#{time}ms); " for name, time in zip(names, times))
    wires = "".join(f"BUTTON.IND TO {name}.START; " for name in names)
    return f"SYSTEM S DEVICE D RESOURCE R\nFBS BUTTON : INPUT(ID := 1); {blocks}END_FBS\nEVENT_CONNECTIONS {wires}END_CONNECTIONS\nEND_RESOURCE END_DEVICE END_SYSTEM\n"


def script(count):
    """Rounds of an offer, the dispatches that start the timers, a tick that fires them all, and their dispatches."""
    size = 2 * count + 3
    return "".join("offer D 1\n" + "dispatch D R\n" * (count + 1) + f"tick D {(at + 1) * 10_000}\n" + "dispatch D R\n" * count for at in range(max(1, LINES // size))).encode()


def took(words, lines):
    """What a run said, and the least of its processor seconds."""
    best, said = None, None
    for _ in range(RUNS):
        before = resource.getrusage(resource.RUSAGE_CHILDREN)
        done = subprocess.run(words, input=lines, capture_output=True, check=True)
        after = resource.getrusage(resource.RUSAGE_CHILDREN)
        seconds = after.ru_utime + after.ru_stime - before.ru_utime - before.ru_stime
        assert said in (None, done.stdout)
        said, best = done.stdout, seconds if best is None else min(best, seconds)
    return said, best


def main(program, plain=None):
    draw = random.Random(1)
    orders = [("first started first due", lambda n: range(1, n + 1)), ("first started last due", lambda n: range(n, 0, -1)), ("in any order", lambda n: [draw.randrange(1, 5_000) for _ in range(n)])]
    for label, times in orders:
        for count in (64, 1_000):
            with tempfile.TemporaryDirectory() as folder:
                app, cert = os.path.join(folder, "app.fb"), os.path.join(folder, "app.cert")
                with open(app, "w") as it:
                    it.write(text(list(times(count))))
                with open(cert, "wb") as it:
                    it.write(subprocess.run([program, "bound", app], capture_output=True, check=True).stdout)
                lines = script(count)
                said, own = took([program, "sim", app, cert], lines)
                row = f"| {count:,}, {label} |"
                if plain:
                    other, seconds = took([plain, "sim", app, cert], lines)
                    assert said == other, "they answer otherwise"
                    row += f" {seconds:.2f} s | {own:.2f} s | {own / seconds:.1f} |"
                else:
                    row += f" {own:.2f} s |"
                print(row, flush=True)


if __name__ == "__main__":
    if len(sys.argv) not in (2, 3):
        sys.exit(__doc__)
    main(*map(os.path.abspath, sys.argv[1:]))
