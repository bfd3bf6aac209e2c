"""The words of `fbr-io`, and what is told before anything starts."""
import asyncio
import contextlib
import sys
from dataclasses import dataclass

from fbrseal.keys import BadKeys
from fbrseal.sealer import Sealer

from .buses import make_buses
from .checking import DeviceEnds, Refused, check_ends, check_password, lacking_packages, read_device, unused
from .companion import Companion
from .lines import Table, described
from .starting import NothingStarts, read_file
from .table import read_table
from .telling import Teller
from .words import BadWords, ServeWords, check_sender, read_words

USAGE = """fbr-io [--check] [--keys FILE --state FILE] CONFIG -- fbr serve APP CERT DEVICE --bind ADDRESS ..

Runs `fbr serve`, and takes values from Modbus, MQTT and GPIO to its INPUTs and from its OUTPUTs back to them, as the table CONFIG says (docs/IO.md).
--check holds the table against the text, says how each line was understood, and starts nothing.
--keys and --state are its own, where `fbr serve` has keys (docs/KEYS.md): it seals its offers as the device of the file that `own` names."""


@dataclass(frozen=True)
class Asked:
    """Whether nothing is to be started, the name of the table, the words of `serve`, and the files of keys and of the state, where offers are to be sealed."""

    only_checks: bool
    name: str
    serve: list[str]
    seals: tuple[str, str] | None


def split_words(words: list[str]) -> Asked:
    """What the words ask for."""
    if words[:1] in (["--help"], ["-h"]):
        raise NothingStarts([USAGE], 0)
    before = words[: words.index("--")] if "--" in words else words
    only_checks = "--check" in before
    names = [it for it in before if it != "--check"]
    seals = None
    if len(names) == 5 and names[0] == "--keys" and names[2] == "--state":
        seals, names = (names[1], names[3]), names[4:]
    if len(names) != 1 or "--" not in words:
        raise NothingStarts([f"usage: {USAGE.splitlines()[0]}"], 2)
    return Asked(only_checks, names[0], words[words.index("--") + 1 :], seals)


def opened(asked: Asked) -> Sealer | None:
    """What seals offers, where they are to be; NothingStarts where its files cannot be used."""
    if asked.seals is None or asked.only_checks:
        return None
    try:
        return Sealer.of_files(*asked.seals)
    except BadKeys as why:
        raise NothingStarts([f"fbr-io: {why}"], 3) from why


def checked_words(words: list[str], says: list[str]) -> ServeWords:
    """The words of `serve`; BadWords where they are none. That offers cannot come to it is put to what is said."""
    serve = read_words(words)
    try:
        check_sender(serve)
    except BadWords as why:
        says.append(f"fbr-io: {why}")
    return serve


def checked(name: str, words: list[str]) -> tuple[Table, ServeWords, DeviceEnds]:
    """The table, the words of `serve` and the ends of the device; NothingStarts with all that is wrong in them."""
    table, faults = read_table(name, read_file(name, "fbr-io"))
    says, status = [], 2
    try:
        serve = checked_words(words, says)
        device = read_device(serve)
        faults += check_ends(table, device)
    except BadWords as why:
        says.append(f"fbr-io: {why}")
    except Refused as why:
        says += str(why).splitlines()
        status = why.status
    faults += check_password(table)
    lacking = [f"fbr-io: {it}" for it in lacking_packages(table.ends)]
    if faults or says:
        raise NothingStarts([f"{name}:{it.line}: {it.says}" for it in sorted(faults)] + says + lacking, status)
    if lacking:
        raise NothingStarts(lacking, 3)
    return table, serve, device


async def run(table: Table, words: ServeWords, device: DeviceEnds, teller: Teller, sealer: Sealer | None) -> int:
    """Runs the companion in the loop; the status of `serve`."""
    return await Companion(table, words, device.nobody, teller, make_buses, sealer).run()


def main(words: list[str]) -> int:
    """The whole of `fbr-io`; its status: that of `serve`, or 2 if the table, the text or the words are at fault, 3 if a file or a package is missing."""
    try:
        asked = split_words(words)
        name, only_checks = asked.name, asked.only_checks
        table, serve, device = checked(name, asked.serve)
        sealer = opened(asked)
    except NothingStarts as end:
        with contextlib.suppress(BrokenPipeError):
            print("\n".join(end.lines), file=sys.stderr if end.status else sys.stdout, flush=True)
        return end.status
    teller = Teller()
    for it in unused(table, device):
        teller.tell(f"{name} has no line for {it}")
    if only_checks:
        for it in table.ends:
            teller.write(f"{name}:{it.line}: {described(it)}")
        teller.close()
        return 0
    try:
        return asyncio.run(run(table, serve, device, teller, sealer))
    finally:
        teller.close()
