#!/usr/bin/env python3
"""Tries the types with a delay in random orders of arrivals, ticks and dispatches: library/orders.py PROGRAM [--runs N] [--seed N]

Stories serve a type until nothing is pending; here its events take turns with what they have caused, as on a device with more to do. Each type
of MODELS stands alone (bounds.py) under `fbr sim`, with room for four arrivals of each kind, and a model of a few lines beside it says what may
not be: a Q that changes too early or too late, an event of a delay that was stopped, a REQ without its CNF, another rest than the last value
asks for. The first order in which that comes is printed as a script."""
import argparse
import concurrent.futures
import json
import os
import pathlib
import random
import shutil
import subprocess
import sys
import tempfile

sys.dont_write_bytecode = True
import bounds  # noqa: E402

STRETCHES, LONGEST = 12, 120
TIMES = [[0], [1], [3], [10], [0, 4, 10], [1, 2, 20]]
LONG_AGO = -1000


class Broken(Exception):
    """What may not be, in words."""


def must(holds, words):
    if not holds:
        raise Broken(words)


class Timer:
    """What TON, TOF, DEBOUNCE and TP share: REQ with IN and PT is answered by one CNF, and Q changes besides that by one CNF of its own."""

    events = {"REQ": 1}
    watched = "Q"

    def __init__(self, times):
        self.times, self.clock, self.value, self.out = times, 0, False, False
        self.since, self.least, self.owed, self.is_asked = LONG_AGO, 0, 0, False

    def arguments(self, chance, event):
        return [chance.randrange(2), chance.choice(self.times)]

    def ran(self, event, given):
        """The chart was dispatched with this event."""
        self.is_asked = event == "REQ"
        if self.is_asked:
            self.owed += 1
            self.ask(bool(given[0]), given[1])

    def changed(self, now):
        """Q has changed in the dispatch before."""
        self.out = now
        if not self.is_asked:
            self.owed += 1
        self.check()

    def seen(self, values):
        self.owed -= 1

    def settled(self):
        """After each dispatch of the chart and what it has changed."""

    def rests(self):
        """Nothing is pending, and no delay runs."""
        must(self.owed == 0, f"{self.owed} CNF are missing")
        must(self.out == self.value, "Q is not IN at rest")

    def begin(self, time):
        """Something new is asked for; a PT that comes with the same value may still count."""
        self.since, self.least = self.clock, time

    def waited(self):
        return self.clock - self.since


class Ton(Timer):
    def ask(self, value, time):
        if value and not self.value:
            self.begin(time)
        self.value, self.least = value, min(self.least, time)

    def check(self):
        if self.out:
            must(self.value and self.waited() >= self.least, f"Q is TRUE {self.waited()} ms after IN")
        else:
            must(self.is_asked, "Q falls by itself")

    def settled(self):
        must(self.value or not self.out, "Q is TRUE though IN is FALSE")


class Tof(Timer):
    def ask(self, value, time):
        if self.value and not value:
            self.begin(time)
        self.value, self.least = value, min(self.least, time)

    def check(self):
        if not self.out:
            must(not self.value and self.waited() >= self.least, f"Q is FALSE {self.waited()} ms after IN")
        else:
            must(self.is_asked, "Q rises by itself")

    def settled(self):
        must(self.out or not self.value, "Q is FALSE though IN is TRUE")


class Debounce(Timer):
    def ask(self, value, time):
        if value != self.out and self.value == self.out:
            self.begin(time)
        self.value, self.least = value, min(self.least, time)

    def check(self):
        must(self.out == self.value and self.waited() >= self.least, f"Q is {self.out} after {self.waited()} ms")


class Tp(Timer):
    """`is_ready`: IN was FALSE at a REQ since the last pulse."""

    def __init__(self, times):
        super().__init__(times)
        self.is_ready, self.is_due = True, False

    def ask(self, value, time):
        self.value, self.is_due = value, value and self.is_ready and not self.out and time > 0
        if self.is_due:
            self.begin(time)
        if not self.out:
            self.is_ready = not value

    def check(self):
        if self.out:
            must(self.is_asked and self.is_due, "a pulse that nothing began")
        else:
            must(not self.is_asked and self.waited() >= self.least, f"a pulse of {self.waited()} ms")
            self.is_ready = not self.value
        self.is_due = False

    def settled(self):
        must(not self.is_due, "no pulse at an edge")

    def rests(self):
        must(self.owed == 0, f"{self.owed} CNF are missing")
        must(not self.out, "a pulse without an end")


class Train:
    """START with DT and N, and STOP. What is watched is the number of the next event."""

    events = {"START": 1, "STOP": 2}
    watched = "Next"

    def __init__(self, times):
        self.times, self.clock, self.least = times, 0, 0
        self.number, self.left, self.since, self.owed, self.event, self.given = 0, 0, LONG_AGO, 0, "", []

    def arguments(self, chance, event):
        return self.data(chance) if event == "START" else []

    def data(self, chance):
        return [chance.choice(self.times), chance.randrange(4)]

    def ran(self, event, given):
        self.event = event
        if event == "STOP" or event == "START" and given[-1] == 0:
            self.left = 0
        elif event == "START":
            # The delay of a train that runs goes on, with the time that it had.
            if self.left == 0:
                self.since, self.least = self.clock, given[0]
            self.left, self.number, self.given = given[-1], 0, given
            self.least = min(self.least, given[0])

    def changed(self, now):
        if self.event != "ELAPSED":
            must(now == 0, "the count goes on without an event")
            return
        waited = self.clock - self.since
        must(self.left > 0, f"event {now - 1} of a train that has ended")
        must(waited >= self.least, f"event {now - 1} after {waited} ms")
        must(now == self.number + 1, f"event {now - 1} in place of {self.number}")
        self.number, self.left, self.since = self.number + 1, self.left - 1, self.clock
        self.least = self.given[min(self.number, len(self.given) - 2)]
        self.owed += 1

    def seen(self, values):
        self.owed -= 1

    def settled(self):
        pass

    def rests(self):
        must(self.owed == 0, f"{self.owed} EO are missing")
        must(self.left == 0, f"{self.left} events have not come")


class Table(Train):
    def data(self, chance):
        return [chance.choice(self.times) for _ in range(4)] + [chance.randrange(6)]

    def ran(self, event, given):
        super().ran(event, [*given[:-1], min(given[-1], 4)] if given else given)


MODELS = {"TON": Ton, "TOF": Tof, "TP": Tp, "DEBOUNCE": Debounce, "E_TRAIN": Train, "E_TABLE": Table}


class Script:
    """Lines for one type: offers, ticks and dispatches at random, and after each stretch of them as many ticks and dispatches as bring all to rest."""

    def __init__(self, chance, model):
        self.lines, self.rests, self.clock, self.longest = [], set(), 0, max(model.times)
        for _ in range(STRETCHES):
            held = chance.choice([1, 2, 6])
            for _ in range(chance.randrange(LONGEST)):
                kind = chance.randrange(4 + 2 * held)
                if kind < 3:
                    event = chance.choice(list(model.events))
                    self.lines.append(["offer", "D", model.events[event], *model.arguments(chance, event)])
                elif kind == 3:
                    self.tick(chance.randrange(self.longest + 2))
                else:
                    self.dispatch(1)
            self.rest()

    def tick(self, time):
        self.clock += time
        self.lines.append(["tick", "D", self.clock])

    def dispatch(self, count):
        self.lines += [["dispatch", "D", "R"]] * count

    def rest(self):
        self.dispatch(80)
        for _ in range(6):
            self.tick(self.longest + 1)
            self.dispatch(16)
        self.rests.add(len(self.lines) - 1)

    def text(self):
        return "".join(" ".join(map(str, it)) + "\n" for it in self.lines)


def answers_of(program, app, cert, text, watched):
    done = subprocess.run([program, "sim", app, cert, "--json", "--watch", watched], input=text, capture_output=True, text=True)
    return [it for it in map(json.loads, done.stdout.splitlines()) if "command" not in it]


def follow(model, script, answers):
    """Leads the model along the answers; raises Broken where it says what may not be."""
    waiting, issued = {event: [] for event in model.events}, {event: [] for event in model.events}
    numbers = {number: event for event, number in model.events.items()}
    at, is_chart = -1, False
    for answer in answers:
        if "answer" not in answer:
            if is_chart:
                model.changed(answer["value"])
            continue
        if is_chart:
            model.settled()
        if at in script.rests:
            model.rests()
        at, is_chart = at + 1, False
        line, path, event = script.lines[at], answer.get("path", ""), answer.get("event", "")
        if line[0] == "tick":
            model.clock = line[2]
        elif answer["answer"] == "cause":
            waiting[numbers[line[2]]].append(line[3:])
        elif event == "ARRIVE":
            source = next(it for it in model.events if path.endswith(f".ON_{it}"))
            issued[source] = waiting[source].pop(0)
        elif path.endswith(".CONTROL"):
            is_chart = True
            model.ran(event, issued.get(event, []))
        elif "output" in answer:
            model.seen(answer["values"])
    must(at + 1 == len(script.lines), "the script was not run to its end")
    model.rests()


def tried(program, name, app, cert, seed):
    """One random order: what is wrong with it in words, and its script; None if nothing is."""
    chance = random.Random(f"{name} {seed}")
    model = MODELS[name](chance.choice(TIMES))
    script = Script(chance, model)
    try:
        follow(model, script, answers_of(program, app, cert, script.text(), f"{name}_1.Control.{model.watched}"))
    except Broken as fault:
        return f"{name}, order {seed}: {fault}", script.text()
    return None


def prepared(program, file, block, folder):
    """The text in which a type stands alone, and a certificate with room."""
    app, cert = (str(pathlib.Path(folder) / f"{block.name}{ending}") for ending in (".fb", ".cert"))
    pathlib.Path(app).write_text(bounds.alone(file, block))
    found = bounds.run(program, "bound", app, "--room", "4", "-o", cert)
    if found.returncode != 0:
        sys.exit(f"library/orders.py: {block.name}: fbr bound says {found.stdout.strip()}")
    return app, cert


def main(words):
    parser = argparse.ArgumentParser(prog="orders.py", description="Tries the types with a delay in random orders.")
    parser.add_argument("program", metavar="PROGRAM")
    parser.add_argument("--runs", type=int, default=40, help="orders of each type (40)")
    parser.add_argument("--seed", type=int, default=1, help="the number of the first order (1)")
    given = parser.parse_args(words)
    if not shutil.which(given.program):
        parser.error(f"there is no program {given.program}")
    wrong = 0
    with tempfile.TemporaryDirectory() as folder, concurrent.futures.ThreadPoolExecutor(os.cpu_count()) as pool:
        for file in map(bounds.File, bounds.FILES):
            for block in (it for it in file.types if it.name in MODELS):
                app, cert = prepared(given.program, file, block, folder)
                seeds = range(given.seed, given.seed + given.runs)
                found = list(filter(None, pool.map(lambda seed: tried(given.program, block.name, app, cert, seed), seeds)))
                wrong += len(found)
                for says, text in found[:1]:
                    print(f"library/orders.py: {says}", file=sys.stderr)
                    print(text, end="")
    print(f"{len(MODELS)} block types, {given.runs} orders of each, {wrong} wrong", file=sys.stderr)
    return 1 if wrong else 0


if __name__ == "__main__":
    sys.exit(main(sys.argv[1:]))
