"""The least time of some runs of a program on a text, where each run has to say the same."""
import subprocess
import time


def least(program, source, said, runs=9):
    best = None
    for _ in range(runs):
        began = time.perf_counter()
        done = subprocess.run([program], input=source.encode(), capture_output=True)
        took = time.perf_counter() - began
        assert done.stdout.decode() == said, done.stdout
        best = took if best is None else min(best, took)
    return best
