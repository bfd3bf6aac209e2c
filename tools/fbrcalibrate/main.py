"""The words of `fbr-calibrate`."""
import argparse
import os
import pathlib
import shutil
import sys
import tempfile
from dataclasses import dataclass

from fbrtools.program import NoProgram, find

from . import serving
from .bench import Bench, Failure
from .calibration import measure, rounded, scaled, validate
from .micro import LIST
from .prices import AROUND, WORDS, Prices, digest_of, listed, machine, table

ABOUT = """Measures what each thing that `fbr` does takes on this machine, and writes the list of prices that `fbr time --calibration` reads (docs/TIME.md)."""


@dataclass(frozen=True)
class Effort:
    """How much is measured: how often, for how many seconds at a time, and how many turns and datagrams."""

    times: int
    aim: float
    turns: int
    datagrams: int


QUICK, FULL = Effort(2, 0.005, 20_000, 2_000), Effort(7, 0.05, 200_000, 40_000)


def read_words(words: list[str]) -> argparse.Namespace:
    """The words of the command line."""
    parser = argparse.ArgumentParser(prog="fbr-calibrate", description=ABOUT)
    parser.add_argument("--fbr", metavar="PROGRAM", help="the program `fbr`: that of the PATH or of this repository if not given")
    parser.add_argument("-o", metavar="FILE", dest="output", help="writes the list into this file instead of standard output")
    parser.add_argument("--seconds", metavar="N", type=float, default=60.0, help="how long the longest turn is looked for: 60 if not given")
    parser.add_argument("--quick", action="store_true", help="measures less, for a first look")
    found = parser.parse_args(words)
    if not 0 < found.seconds <= 86400:
        parser.error("--seconds needs a number above 0, at most 86400")
    return found


def tell(what: str) -> None:
    """Says something on standard error."""
    print(f"fbr-calibrate: {what}", file=sys.stderr, flush=True)


def of_turns(bench: Bench, prices: Prices, effort: Effort, seconds: float) -> Prices:
    """What a turn takes besides its dispatches, and the longest one."""
    found = {
        "TURN": serving.of_turn(bench, prices, effort.turns, effort.times),
        "DATAGRAM": max(serving.of_datagram(bench, effort.datagrams) for _ in range(effort.times)),
        "EFFECT": serving.of_effect(bench, effort.turns // 4, effort.times),
        "JITTER": serving.of_jitter(bench, seconds),
    }
    return {word: rounded(price) for word, price in found.items()}


def calibrate(bench: Bench, effort: Effort, seconds: float) -> str:
    """The list; what it says is told to people too."""
    tell(f"measures {len(LIST)} primitives and a turn on {bench.machine}")
    first = prices = measure(bench, effort.times)
    worst = validate(bench, prices)
    tell(f"measured again, an application took at most {worst.ratio:.3f} of its bound ({worst.which})")
    if worst.ratio > 1:
        tell(f"so all prices of primitives are raised to {worst.ratio:.3f} of what was measured first")
        prices = scaled(first, worst.ratio)
    around = of_turns(bench, first, effort, seconds)
    about = {micro.word: micro.about for micro in LIST} | AROUND
    both = prices | around
    print(table([(word, both[word], about[word]) for word in [*WORDS, *AROUND]]), end="", file=sys.stderr)
    return listed(bench.digest, bench.machine, prices, around)


def write(file: str, text: str) -> None:
    """Puts a file in its place at once."""
    new = f"{file}.new"
    pathlib.Path(new).write_text(text, encoding="utf-8")
    os.replace(new, file)


def main(words: list[str]) -> int:
    """The whole of `fbr-calibrate`; its status: 0, 1 if something cannot be measured, 2 for bad words, 3 if the program or the file cannot be used."""
    found = read_words(words)
    effort = QUICK if found.quick else FULL
    beside = os.path.dirname(found.output or "") or "."
    if not os.path.isdir(beside):
        tell(f"there is no folder {beside}")
        return 3
    try:
        named = found.fbr or find()
        program = os.path.realpath(shutil.which(named) or named)
        with tempfile.TemporaryDirectory(prefix="fbr-calibrate-") as folder:
            bench = Bench(program, digest_of(program), machine(), pathlib.Path(folder), effort.aim)
            text = calibrate(bench, effort, found.seconds)
        if found.output:
            write(found.output, text)
        else:
            print(text, end="")
    except (NoProgram, OSError) as why:
        tell(str(why))
        return 3
    except Failure as why:
        tell(str(why))
        return 1
    return 0
