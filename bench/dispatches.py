#!/usr/bin/env python3
"""Times a million dispatches of a device: bench/dispatches.py PROGRAM

Runs `PROGRAM sim` on examples/fork.fb with a script of 250,000 rounds (one offer and four dispatches), and the plain loop
bench/plain.rs, built with `rustc -O`, over the same rounds. What the program takes includes reading the script and printing
the answers; a script of blank lines of the same length, which is read and asks for nothing, is timed beside it.
"""
import os
import subprocess
import sys
import tempfile
import time

ROUNDS = 250_000


def least(command, text, runs=3):
    best = None
    for _ in range(runs):
        begun = time.perf_counter()
        done = subprocess.run(command, input=text, stdout=subprocess.PIPE, check=True)
        taken = time.perf_counter() - begun
        best = taken if best is None else min(best, taken)
    return best, done.stdout


def main():
    program = os.path.abspath(sys.argv[1])
    top = os.path.dirname(os.path.dirname(os.path.abspath(__file__)))
    files = [os.path.join(top, "examples", "fork.fb"), os.path.join(top, "examples", "fork.cert")]
    script = b"offer D 1\n" + b"dispatch D R\n" * 4
    calls, told = least([program, "sim", *files], script * ROUNDS)
    blank, _ = least([program, "sim", *files], b"          \n" * (ROUNDS * 5))
    ends = told.count(b" ended ")
    if ends != ROUNDS:
        sys.exit(f"{ends} causes ended, not {ROUNDS}")
    with tempfile.TemporaryDirectory() as folder:
        plain = os.path.join(folder, "plain")
        subprocess.run(["rustc", "-O", "-o", plain, os.path.join(top, "bench", "plain.rs")], check=True)
        loop, steps = least([plain, str(ROUNDS)], b"")
    million = ROUNDS * 4 / 1e6
    print(f"fbr sim: {calls:.3f} s, {million / calls:.2f} million dispatches a second")
    print(f"blank script of as many lines: {blank:.3f} s")
    print(f"plain loop: {loop:.4f} s, {million / loop:.1f} million dispatches a second, {steps.decode().strip()} steps")


if __name__ == "__main__":
    main()
