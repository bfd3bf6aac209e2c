#!/usr/bin/env python3
"""Instructions of random dispatches beside their bounds by `fbr time`: hostile/work.py PROGRAM [--blocks N] [--events N] [--seed N]

Each primitive gets a price in instructions, by the applications of tools/fbr-calibrate, counted by callgrind: only what a device does in a dispatch. Then random
blocks, with deep expressions, guards, IF, CASE and nested FOR, which were not used for that, are offered random numbers, also the least and the greatest of their
types; each dispatch is counted alone. It fails if one took more than its bound. Every second block has one way alone, so that it takes all that its bound says: of
these the median of used over bound has to be at least 0.9. It needs valgrind."""
import argparse
import json
import pathlib
import random
import shutil
import statistics
import subprocess
import sys
import tempfile

TOP = pathlib.Path(__file__).resolve().parent.parent
sys.path.insert(0, str(TOP / "tools"))

from fbrcalibrate.bench import Bench  # noqa: E402  (the path has to be set first)
from fbrcalibrate.calibration import measure, scaled, validate  # noqa: E402
from fbrcalibrate.prices import AROUND, digest_of, listed  # noqa: E402

CALL = "fb_device::device::Device::dispatch"
MEDIAN = 0.9
TYPES = {"SINT": (-128, 127), "INT": (-32768, 32767), "DINT": (-(2**31), 2**31 - 1), "LINT": (-(2**63), 2**63 - 1), "UINT": (0, 65535)}


def counted(program, folder, words, script):
    """The instructions of each dispatch of a script, and what the program prints."""
    out = folder / "callgrind"
    for old in folder.glob("callgrind*"):
        old.unlink()
    how = ["valgrind", "--tool=callgrind", "--combine-dumps=yes", f"--callgrind-out-file={out}", f"--toggle-collect={CALL}", f"--dump-after={CALL}"]
    done = subprocess.run([*how, program, "sim", *words], input=script, capture_output=True, text=True)
    if done.returncode != 0:
        sys.exit(f"valgrind: {done.stderr}")
    totals = [int(line.split()[1]) for line in out.read_text().splitlines() if line.startswith("totals: ")]
    return totals[:-1], done.stdout


class Counting(Bench):
    """Instructions in place of time."""

    def still(self, application):
        return 0.0

    def measured(self, application):
        events = min(3, application.most)
        words = self.certified(application.text)
        base = sum(counted(self.program, self.folder, words, application.script(0))[0])
        return (sum(counted(self.program, self.folder, words, application.script(events))[0]) - base) / events


class Block:
    """A random block type, with an arrival for its event and one that leads nowhere."""

    def __init__(self, number):
        self.random, self.is_straight = random.Random(number), number % 2 == 0
        self.types = [self.random.choice(list(TYPES)) for _ in range(self.random.randint(1, 4))]
        self.loops = 0

    def number(self, kind):
        low, high = TYPES[kind]
        return self.random.choice([low, high, 0, 1, self.random.randint(low, high), self.random.randint(max(low, -9), min(high, 9))])

    def literal(self):
        return str(self.random.randint(0, 99))

    def term(self, depth):
        kind = self.random.random()
        if depth == 0 or kind < 0.2:
            return self.random.choice([self.literal(), "A", "B", f"T[{self.random.randint(0, 7)}]", *(f"TO_L_{at}" for at in range(len(self.types)))])
        if kind < 0.6:
            return f"({self.term(depth - 1)} {self.random.choice('+-*')} {self.term(depth - 1)})"
        if kind < 0.75:
            return f"({self.term(depth - 1)} {self.random.choice(['/', 'MOD'])} {self.random.randint(1, 9)})"
        if kind < 0.9:
            return f"{self.random.choice(['MIN', 'MAX'])}({self.term(depth - 1)}, {self.term(depth - 1)})"
        return self.random.choice(["ABS({})", "(-{})"]).format(self.term(depth - 1))

    def condition(self, depth):
        if depth == 0 or self.random.random() < 0.5:
            return f"({self.term(depth)} {self.random.choice(['<', '>', '=', '<>', '<=', '>='])} {self.term(depth)})"
        if self.random.random() < 0.2:
            return f"NOT {self.condition(depth - 1)}"
        return f"({self.condition(depth - 1)} {self.random.choice(['AND', 'OR', 'XOR'])} {self.condition(depth - 1)})"

    def statement(self, depth):
        kind = self.random.random()
        if depth == 0 or kind < 0.5:
            return f"{self.random.choice(['A', 'B', f'T[{self.random.randint(0, 7)}]'])} := {self.term(3)};\n"
        body = "".join(self.statement(depth - 1) for _ in range(self.random.randint(1, 3)))
        if self.is_straight:
            return self.loop(body)
        if kind < 0.7:
            more = f"ELSIF {self.condition(2)} THEN {self.statement(0)}" if self.random.random() < 0.5 else ""
            return f"IF {self.condition(2)} THEN {body}{more}ELSE {self.statement(0)}END_IF;\n"
        if kind < 0.85:
            labels = ", ".join(str(it) for it in self.random.sample(range(-9, 10), self.random.randint(1, 4)))
            return f"CASE {self.term(1)} OF {labels} : {body}10..99 : {self.statement(0)}ELSE {self.statement(0)}END_CASE;\n"
        return self.loop(body)

    def loop(self, body):
        self.loops += 1
        return f"FOR I{self.loops} := 1 TO {self.random.randint(1, 9)} DO\n{body}END_FOR;\n"

    def text(self):
        states = [f"S{at}" for at in range(1 if self.is_straight else self.random.randint(1, 4))]
        algorithms = {f"W{at}": "".join(self.statement(2) for _ in range(self.random.randint(1, 4))) for at in range(len(states))}
        reads = "".join(f"TO_L_{at} := {f'{kind}_TO_LINT(X{at})' if kind != 'LINT' else f'X{at}'};\n" for at, kind in enumerate(self.types))
        chart = "".join(f"S{at} : READ, W{at}; " for at in range(len(states)))
        moves = ""
        for state in states:
            for _ in range(0 if self.is_straight else self.random.randint(0, 4)):
                moves += f"{state} TO {self.random.choice(states)} := E [{self.condition(2)}]; "
            moves += f"{state} TO {self.random.choice(states)} := E; "
        inputs = " ".join(f"X{at} : {kind};" for at, kind in enumerate(self.types))
        counters = " ".join(f"I{at} : LINT;" for at in range(1, self.loops + 1))
        inner = f"A, B : LINT; {' '.join(f'TO_L_{at} : LINT;' for at in range(len(self.types)))} T : ARRAY [0..7] OF LINT; {counters}"
        parts = "".join(f"ALGORITHM {name} IN ST:\n{body}END_ALGORITHM\n" for name, body in {"READ": reads, **algorithms}.items())
        kinds, names = ", ".join(self.types), ", ".join(f"X{at}" for at in range(len(self.types)))
        data = " ".join(f"P.RD_{at + 1} TO B.X{at};" for at in range(len(self.types)))
        return (
            f"FUNCTION_BLOCK M\nEVENT_INPUT E WITH {names}; END_EVENT\nVAR_INPUT {inputs} END_VAR\nVAR {inner} END_VAR\n"
            f"EC_STATES {chart}END_STATES\nEC_TRANSITIONS {moves}END_TRANSITIONS\n{parts}END_FUNCTION_BLOCK\n"
            f"SYSTEM S DEVICE D RESOURCE R\nFBS P : INPUT[{kinds}](ID := 1); Q : INPUT[{kinds}](ID := 2); B : M; C : NOTHING; END_FBS\n"
            f"EVENT_CONNECTIONS P.IND TO B.E; Q.IND TO C.E; END_CONNECTIONS\nDATA_CONNECTIONS {data} END_CONNECTIONS\n"
            "END_RESOURCE END_DEVICE END_SYSTEM\n"
        ).replace("FUNCTION_BLOCK M\n", NOTHING + "FUNCTION_BLOCK M\n", 1)

    def script(self, events):
        lines = ""
        for _ in range(events):
            lines += f"offer D 1 {' '.join(str(self.number(kind)) for kind in self.types)}\n" + "dispatch D R\n" * 2
        return lines


# Where the second arrival leads: to a block that does nothing, so that the weights of both differ in what the first block does alone.
NOTHING = "FUNCTION_BLOCK NOTHING\nEVENT_INPUT E; END_EVENT\nEC_STATES IDLE; END_STATES\nEC_TRANSITIONS END_TRANSITIONS\nEND_FUNCTION_BLOCK\n"


def main():
    parser = argparse.ArgumentParser()
    parser.add_argument("program")
    parser.add_argument("--blocks", type=int, default=100)
    parser.add_argument("--events", type=int, default=100)
    parser.add_argument("--seed", type=int, default=1)
    words = parser.parse_args()
    if not shutil.which("valgrind"):
        print("work: skipped, for there is no valgrind", file=sys.stderr)
        return 0
    with tempfile.TemporaryDirectory(prefix="fbr-work-") as name:
        folder = pathlib.Path(name)
        bench = Counting(words.program, digest_of(words.program), "callgrind", folder, 0.0)
        prices = measure(bench, 1)
        worst = validate(bench, prices)
        prices = scaled(prices, max(1.0, worst.ratio))
        ratios, refused, above = {True: [], False: []}, 0, []
        for number in range(words.blocks):
            block = Block(words.seed * 100_000 + number)
            text = block.text()
            app, cert = folder / "app.fb", folder / "app.cert"
            app.write_text(text)
            done = subprocess.run([words.program, "bound", str(app), "-o", str(cert)], capture_output=True, text=True)
            if done.returncode != 0:
                refused += 1
                continue
            bound = bound_of(words.program, folder, bench.digest, prices, app, cert)
            used, _ = counted(words.program, folder, [str(app), str(cert)], block.script(words.events))
            for each in used[1::2]:
                ratios[block.is_straight].append(each / bound)
                if each > bound:
                    above.append((number, each, bound))
    return told(ratios, above, words.blocks - refused, worst)


def bound_of(program, folder, digest, prices, app, cert):
    """The most that a dispatch of the block takes: its arrival beside the one that leads to nothing."""
    (folder / "list").write_text(listed(digest, "callgrind", prices, dict.fromkeys(AROUND, 0)))
    done = subprocess.run([program, "time", str(app), str(cert), "--calibration", str(folder / "list"), "--json"], capture_output=True, text=True, check=True)
    most = {row["path"]: row["time_ps"] for row in json.loads(done.stdout)["timed"][0]["arrivals"]}
    return most["D.R.P.ARRIVE"] - most["D.R.Q.ARRIVE"] + prices["DISPATCH"] + prices["SCAN"]


def told(ratios, above, blocks, worst):
    """Says what was seen; the status."""
    straight, branching = ratios[True], ratios[False]
    print(f"work: {len(straight) + len(branching)} dispatches of {blocks} random blocks, {len(above)} above their bound {above[:5] or ''}")
    print(f"  with one way: used over bound median {statistics.median(straight):.3f}, highest {max(straight):.3f}")
    print(f"  with several: used over bound median {statistics.median(branching):.3f}, highest {max(branching):.3f}")
    print(f"  of the applications of the prices the nearest took {worst.ratio:.3f} of its bound ({worst.which})")
    return int(bool(above) or statistics.median(straight) < MEDIAN)


if __name__ == "__main__":
    sys.exit(main())
