"""Runs applications under `fbr sim`: what an event takes of the processor, and what it takes at a list of prices."""
import json
import os
import pathlib
import statistics
import subprocess

from .applications import Application, together
from .prices import AROUND, WORDS, Prices, listed

PICO, MILLION, PAIRS = 10**12, 10**6, 15


class Failure(Exception):
    """Something could not be measured; its text says what."""


def processor_time(words: list[str], **streams) -> float:
    """How many seconds of the processor a command takes that ends well."""
    process = subprocess.Popen(words, stderr=subprocess.DEVNULL, **streams)
    _, status, usage = os.wait4(process.pid, 0)
    process.returncode = os.waitstatus_to_exitcode(status)
    if process.returncode != 0:
        raise Failure(f"{' '.join(words)}: status {process.returncode}")
    return usage.ru_utime + usage.ru_stime


class Bench:
    """The program, the machine, the files of applications, and how often their events do each primitive."""

    def __init__(self, program: str, digest: str, machine: str, folder: pathlib.Path, aim: float) -> None:
        self.program, self.digest, self.machine, self.folder, self.aim = program, digest, machine, folder, aim
        self.files: dict[str, tuple[str, str]] = {}
        self.floors: dict[Application, float] = {}
        self.counts: dict[Application, Prices] = {}

    def put(self, name: str, text: str) -> str:
        """Writes a file."""
        path = self.folder / name
        path.write_text(text, encoding="utf-8")
        return str(path)

    def answer(self, *words: str) -> str:
        """What the program prints."""
        done = subprocess.run([self.program, *words], capture_output=True, text=True)
        if done.returncode != 0:
            raise Failure(f"fbr {' '.join(words)}: {done.stdout.strip()} {done.stderr.strip()}")
        return done.stdout

    def certified(self, text: str, *more: str) -> tuple[str, str]:
        """The files of a text and its certificate."""
        if text not in self.files:
            app = self.put(f"{len(self.files)}.fb", text)
            certificate = app.replace(".fb", ".cert")
            self.answer("bound", app, "-o", certificate, *more)
            self.files[text] = app, certificate
        return self.files[text]

    def bounds(self, text: str, prices: Prices) -> Prices:
        """How many picoseconds an event of each arrival takes at most where these primitives have these prices, and others none."""
        file = self.put("prices", listed(self.digest, self.machine, prices, dict.fromkeys(AROUND, 0)))
        report = json.loads(self.answer("time", *self.certified(text), "--calibration", file, "--json"))
        return {row["path"]: row["time_ps"] for resource in report["timed"] for row in resource["arrivals"]}

    def all_bounds(self, applications: list[Application], prices: Prices) -> dict[Application, int]:
        """The same of many applications. They stand in one text, since `fbr time` hashes its own file each time."""
        text, paths = together(applications)
        found = self.bounds(text, prices)
        return {application: found[path] for application, path in zip(applications, paths)}

    def count(self, applications: list[Application]) -> None:
        """Counts: where one primitive has price 1 and all others have none, a time is how often it occurs. Two are counted at once, one in millions."""
        self.counts = {application: {} for application in applications}
        for first, second in zip(WORDS[::2], WORDS[1::2]):
            for application, number in self.all_bounds(applications, {first: 1, second: MILLION}).items():
                self.counts[application][second], self.counts[application][first] = divmod(number, MILLION)

    def known(self, application: Application, prices: Prices) -> int:
        """What an event takes at these prices."""
        return sum(self.counts[application][word] * price for word, price in prices.items())

    def guess(self, application: Application) -> float:
        """About how many seconds an event takes: 5 ns for each primitive, and 500 ns for each dispatch."""
        return sum(self.counts[application].values()) * 5e-9 + application.dispatches * 5e-7

    def events(self, application: Application) -> int:
        """How many events take about as long as is aimed at."""
        return max(1, min(application.most, int(self.aim / self.guess(application))))

    def simulated(self, application: Application, script: str) -> float:
        """The seconds that a script takes."""
        with open(self.put("script", script), encoding="utf-8") as lines:
            return processor_time([self.program, "sim", *self.certified(application.text)], stdin=lines, stdout=subprocess.DEVNULL)

    def still(self, application: Application) -> float:
        """The least seconds of as many dispatches as those of the events, where nothing is in the queue: what reading the script takes, and the start."""
        took = self.simulated(application, application.still(self.events(application)))
        self.floors[application] = min(took, self.floors.get(application, took))
        return self.floors[application]

    def measured(self, application: Application) -> float:
        """The picoseconds of an event. Where there are few, most of a run is its start: then the median of many pairs of runs."""
        events = self.events(application)
        script = application.script(events)
        if events < application.most:
            took = self.simulated(application, script) - (self.floors.get(application) or self.still(application))
        else:
            still = application.still(events)
            took = statistics.median(self.simulated(application, script) - self.simulated(application, still) for _ in range(PAIRS))
        return took / events * PICO
