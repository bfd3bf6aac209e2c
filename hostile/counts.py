#!/usr/bin/env python3
"""Floods of offers beside the counts of dispatches that `explain` prints: hostile/counts.py PROGRAM [--seed N] [--lines N] [--show]

Each plant of examples/ is bounded, with the least queues and with --room 2, and simulated with random offers at all INPUTs, ticks and dispatches. For
each offer that is admitted, the dispatches of its resource are counted until its cause has ended. It fails if one took more than `explain` says that
it takes at most, or if fewer than a third of the counts for the least queues are reached exactly by some offer. It prints how many were."""
import argparse
import collections
import glob
import os
import random
import re
import subprocess
import sys
import tempfile

TOP = os.path.dirname(os.path.dirname(os.path.abspath(__file__)))
LINE = re.compile(r"^ +(\S+)\.ARRIVE: .*\n +dispatches: .*; all has ended after (\d+) dispatch", re.M)
INPUT = re.compile(r"(\w+)\s*:\s*INPUT\s*(?:\[([^\]]*)\])?\s*\(\s*ID\s*:=\s*(\d+)", re.I)
ROOMS = [], ["--room", "2"]
# The offers of a trial that are made before a dispatch, and those where a queue is kept full.
FEW, MANY = 1, 8
# The part of the counts for the least queues that has to be reached.
REACHED = 1 / 3


def said(program, *words, given=""):
    return subprocess.run([program, *words], input=given, capture_output=True, text=True, check=True).stdout


class Plant:
    """A plant with a certificate, and what `explain` says of the arrivals at its INPUTs."""

    def __init__(self, program, app, room, folder):
        self.program, self.name = program, os.path.basename(os.path.dirname(app)) + (" with room" if room else "")
        self.words = app, f"{folder}/cert"
        with open(self.words[1], "w", encoding="ascii") as it:
            it.write(said(program, "bound", app, *room))
        with open(app, encoding="utf-8") as it:
            parts = re.split(r"\bRESOURCE\s+(\w+)", it.read(), flags=re.I)
        declared = {
            (home.upper(), name.upper()): (int(number), [of.strip().upper() for of in types.split(",") if of.strip()])
            for home, text in zip(parts[1::2], parts[2::2])
            for name, types, number in INPUT.findall(text)
        }
        self.most, self.inputs = {}, []
        for path, most in LINE.findall(said(program, "explain", *self.words)):
            device, resource, *_, name = path.split(".")
            if (resource, name) in declared:
                self.most[path] = int(most)
                self.inputs.append((path, device, resource, *declared[resource, name]))
        self.resources = sorted({(device, resource) for _, device, resource, *_ in self.inputs})

    def values(self, chosen, types):
        some = [0, 1, 2, 3, 5, 50, 100, 400, 900, -1, 27_648, chosen.randrange(1_000)]
        return [chosen.choice([0, 1] if it == "BOOL" else some) for it in types]

    def script(self, chosen, count):
        """Lines of a script, each with the arrival that it offers and with the resource that it dispatches, where there is one."""
        lines, now, burst = [], 0, FEW
        for device, resource in self.resources * 200:
            lines.append((f"dispatch {device} {resource}", None, (device, resource)))
        while len(lines) < count + 200 * len(self.resources):
            if chosen.random() < 0.02:
                burst = chosen.choice([FEW, FEW, MANY])
            for _ in range(chosen.randint(0, burst)):
                path, device, _, number, types = chosen.choice(self.inputs)
                lines.append((" ".join(map(str, ["offer", device, number, *self.values(chosen, types)])), path, None))
            if chosen.random() < 0.1:
                now += chosen.choice([1, 10, 100, 1_000])
                lines.append((f"tick {chosen.choice(self.resources)[0]} {now}", None, None))
            home = chosen.choice(self.resources)
            lines += [(f"dispatch {home[0]} {home[1]}", None, home)] * chosen.choice([1, 1, 2, 4])
        return lines

    def flood(self, chosen, count):
        """The most dispatches that an offer of each arrival took, and how many offers ended."""
        lines = self.script(chosen, count)
        answers = said(self.program, "sim", *self.words, given="".join(f"{it[0]}\n" for it in lines)).splitlines()
        if len(answers) < len(lines):
            sys.exit(f"{self.name}: {len(answers)} answers to {len(lines)} lines")
        begun, done, worst, ended = {}, collections.Counter(), collections.Counter(), 0
        homes = {path: (device, resource) for path, device, resource, *_ in self.inputs}
        for (_, path, home), answer in zip(lines, answers):
            if path and (admitted := re.match(r"cause (\d+)", answer)):
                begun[homes[path][0], admitted[1]] = path, done[homes[path]]
            if home:
                done[home] += 1
                end = re.search(r" ended (\d+) ", answer)
                if end and (home[0], end[1]) in begun:
                    path, before = begun.pop((home[0], end[1]))
                    worst[path] = max(worst[path], done[home] - before)
                    ended += 1
        return worst, ended


def main():
    words = argparse.ArgumentParser(description=__doc__.splitlines()[0])
    words.add_argument("program")
    words.add_argument("--seed", type=int, default=1)
    words.add_argument("--lines", type=int, default=12_000, help="lines of each script, about")
    words.add_argument("--show", action="store_true", help="prints each arrival")
    asked = words.parse_args()
    chosen, program = random.Random(asked.seed), os.path.abspath(asked.program)
    above, exact, counts, ended = [], collections.Counter(), collections.Counter(), 0
    with tempfile.TemporaryDirectory() as folder:
        for app in sorted(glob.glob(f"{TOP}/examples/*/*.fb")):
            for room in ROOMS:
                plant = Plant(program, app, room, folder)
                if not plant.inputs:
                    continue
                worst, some = plant.flood(chosen, asked.lines)
                ended += some
                for path, most in plant.most.items():
                    counts[bool(room)] += 1
                    exact[bool(room)] += worst[path] == most
                    if worst[path] > most:
                        above.append(f"{plant.name}: {path} took {worst[path]} dispatches, and {most} are the most")
                    if asked.show:
                        print(f"{plant.name:24} {path:44} {worst[path]:4} of {most}")
    for it in above:
        print(it)
    told = f"of {counts[False]} counts for the least queues {exact[False]} were reached exactly, of {counts[True]} with room {exact[True]}"
    print(f"counts: {ended:,} offers ended; {told}; {len(above)} passed")
    return bool(above) or exact[False] < REACHED * counts[False]


if __name__ == "__main__":
    sys.exit(main())
