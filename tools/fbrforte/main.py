"""The words of `fbr-forte`, and what is told before it starts."""
import argparse
import asyncio
import contextlib
import ipaddress
import sys

from fbrio.checking import Refused, too_old, verdict
from fbrio.lines import Fault
from fbrio.starting import NothingStarts, read_file
from fbrio.telling import Teller
from fbrseal.keys import BadKeys
from fbrseal.sealer import Sealer
from fbrtools.program import NoProgram, find

from .checking import Plan, planned
from .ends import End, ends_of
from .lines import address_text
from .running import Running
from .stamps import BootError, Stamps
from .table import read_table

NAME = "fbr-forte"
USAGE = "fbr-forte [--check] [--keys FILE --state FILE] [--boot-file FILE] [--summary SECONDS] TABLE APP CERT"


class Parser(argparse.ArgumentParser):
    """Words that are none end with one line, and status 2."""

    def error(self, message: str) -> None:
        """Says what is wrong with the words."""
        raise NothingStarts([f"{NAME}: {message}", f"usage: {USAGE}"], 2)


def seconds(word: str) -> float:
    """A whole number of seconds; ValueError where it is none."""
    if not (word.isascii() and word.isdigit() and 1 <= int(word) <= 1_000_000):
        raise ValueError(word)
    return float(word)


def read_words(words: list[str]) -> argparse.Namespace:
    """What the words ask for; NothingStarts where they are none."""
    parser = Parser(
        prog=NAME,
        usage=USAGE,
        allow_abbrev=False,
        description="A gateway between PUBLISH_n and SUBSCRIBE_n of FORTE and the channels of `fbr serve` (docs/FORTE.md).",
    )
    parser.add_argument("table", metavar="TABLE", help="which channel has which group, and the addresses of devices")
    parser.add_argument("app", metavar="APP", help="the application")
    parser.add_argument("certificate", metavar="CERT", help="its certificate")
    parser.add_argument("--check", action="store_true", help="holds the table against the text, says how each line was understood, and starts nothing")
    parser.add_argument("--keys", metavar="FILE", help="seals what goes to devices, and takes only what the devices of this file sealed (docs/KEYS.md)")
    parser.add_argument("--state", metavar="FILE", help="with --keys, the counters of sealed datagrams over restarts; without, the same as --boot-file")
    parser.add_argument("--boot-file", metavar="FILE", dest="boot", help="a file with the boot of the next start, for channels of format 2")
    parser.add_argument("--summary", metavar="SECONDS", type=seconds, default=60.0, help="how often the totals are printed: 60 if it is not given")
    found = parser.parse_args(words)
    if found.keys is not None and found.state is None:
        parser.error("--keys needs --state FILE, which holds the counters of sealed datagrams")
    if found.keys is None and found.state is not None:
        if found.boot is not None:
            parser.error("--state without --keys is the boot file, and so is --boot-file")
        found.boot, found.state = found.state, None
    return found


def located(table: str, fault: Fault) -> str:
    """A fault with its place."""
    return f"{table}:{fault.line}: {fault.says}" if fault.line else f"{table}: {fault.says}"


def known(program: list[str], words: argparse.Namespace) -> tuple[list[str], list[End]]:
    """The devices and the ends of channels, as the program says them; Refused where it does not."""
    found = verdict(program, words.app, words.certificate, NAME)
    try:
        return found["devices"], ends_of(found)
    except KeyError as why:
        raise too_old(program, NAME) from why


def checked(words: argparse.Namespace) -> Plan:
    """What the gateway is to do; NothingStarts with all that is wrong."""
    table, faults = read_table(words.table, read_file(words.table, NAME))
    says, status, notes, plan = [], 2, [], Plan(table)
    try:
        plan = planned(table, *known([find()], words), words.boot is not None)
        faults, notes = faults + plan.faults, plan.notes
    except NoProgram as why:
        says, status = [f"{NAME}: {why}"], 3
    except Refused as why:
        says, status = str(why).splitlines(), why.status
    if faults or says:
        raise NothingStarts([located(words.table, it) for it in sorted(faults)] + says, status)
    return plan


def described(plan: Plan, is_sealed: bool) -> list[str]:
    """Each line of the table as it was understood, and what the devices need."""
    table = plan.table
    lines = [f"{table.name}:{it.line.line}: {it.described}" for it in plan.routes]
    host = table.bind[0]
    if ipaddress.ip_address(host).is_unspecified:
        needs = f"needs a peer with an address of this machine and the port {table.bind[1]}, and that address in --from if it has a --from"
    else:
        needs = f"needs the peer {address_text(table.bind)}, and --from {host} if it has a --from"
    needs += "; its file of keys needs a line for the gateway, in which this address may stand instead" if is_sealed else ""
    for it in table.devices:
        lines.append(f"{table.name}:{it.line}: {it.name} is served by --bind {address_text(it.address)}; it {needs}")
    return lines


def start(plan: Plan, words: argparse.Namespace, teller: Teller) -> None:
    """Runs the gateway until it is ended; NothingStarts where it cannot seal as it was asked to, or its stamps would not grow."""
    try:
        sealer = None if words.keys is None else Sealer.of_files(words.keys, words.state)
        stamps = Stamps(words.boot) if plan.is_stamping else None
    except (BadKeys, BootError) as why:
        raise NothingStarts([f"{NAME}: {why}"], 3) from why

    async def run() -> None:
        """Runs it in the loop."""
        await Running(plan, stamps, sealer, teller, words.summary).run()

    asyncio.run(run())


def main(words: list[str]) -> int:
    """The whole of `fbr-forte`; its status: 0 after a signal, 2 if the table or the words are at fault, 3 if a file or the program is missing, and that of
    `fbr` if it refuses the text."""
    teller = Teller(companion=NAME)
    try:
        asked = read_words(words)
        plan = checked(asked)
        for it in plan.notes:
            teller.say(it)
        if asked.check:
            for line in described(plan, asked.keys is not None):
                teller.write(line)
        else:
            start(plan, asked, teller)
    except NothingStarts as end:
        with contextlib.suppress(OSError):
            print("\n".join(end.lines), file=sys.stderr, flush=True)
        return end.status
    finally:
        teller.close()
    return 0
