#!/usr/bin/env python3
"""Measures what a flood leaves of a friend: bench/beside.py PROGRAM [--seconds N] [--offers N] [--senders N]

`PROGRAM serve` runs a device behind seals. One peer, which has a key, offers it a number a hundred times a second, each once, and never again. Beside it processes
send what strangers can send, as fast as they can: bytes that are not sealed, what is sealed under another key, and what is sealed by a number that no key belongs to.
Three times for some seconds each: without strangers; with strangers that send to another socket of the machine, that of a second such device; and with strangers that
send to the same socket. Printed is how many of the offers the device admitted, and which datagrams it dropped or denied. What the system drops before the device
sees it is in no count of the device. The program ends with 1 where fewer than 99 in 100 were admitted without strangers, or beside those of another socket."""
import argparse
import contextlib
import multiprocessing
import os
import re
import socket
import subprocess
import sys
import tempfile
import threading
import time

TOP = os.path.dirname(os.path.dirname(os.path.abspath(__file__)))
sys.path.insert(0, f"{TOP}/tools")

from fbrseal.tags import seal  # noqa: E402  (the path has to be set first)
from sealing import APP, FORGED, KEYS, OWN, PEER, offer  # noqa: E402

NOBODY = 9
WANTED = 99
SUMS = re.compile(r"received (\d+) denied (\d+)")


class Device:
    """A device behind seals, with what it wrote."""

    def __init__(self, program, link):
        self.folder = tempfile.TemporaryDirectory()
        files = [f"{self.folder.name}/{it}" for it in ("app", "cert", "keys", "state", "told")]
        with open(files[0], "w", encoding="utf-8") as it:
            it.write(APP)
        subprocess.run([program, "bound", files[0], "--room", "32", "-o", files[1]], check=True, stdout=subprocess.DEVNULL)
        subprocess.run([program, "key", "--state", files[3]], check=True, stdout=subprocess.DEVNULL)
        lines = f"own {OWN}\n{OWN} - {KEYS[OWN].hex()}\n{PEER} 127.0.0.1:{link.getsockname()[1]} {KEYS[PEER].hex()}\n"
        with open(os.open(files[2], os.O_WRONLY | os.O_CREAT, 0o600), "w", encoding="utf-8") as it:
            it.write(lines)
        with socket.socket(socket.AF_INET, socket.SOCK_DGRAM) as it:
            it.bind(("127.0.0.1", 0))
            self.port = it.getsockname()[1]
        words = [program, "serve", *files[:2], "D", "--bind", str(self.port), "--until-eof", "--keys", files[2], "--state", files[3]]
        self.told = open(files[4], "w+", encoding="utf-8")
        self.job = subprocess.Popen(words, stdin=subprocess.PIPE, stdout=subprocess.PIPE, stderr=self.told, text=True)
        self.last = ""
        self.reader = threading.Thread(target=self.listen)
        self.reader.start()
        while "receives at" not in open(files[4], encoding="utf-8").read():
            time.sleep(0.02)

    def listen(self):
        for line in self.job.stdout:
            self.last = line

    def end(self):
        """How many offers were admitted, by the sums of all turns, and what people were told."""
        self.job.stdin.close()
        self.job.wait()
        self.reader.join()
        self.job.stdout.close()
        self.told.seek(0)
        said = self.told.read()
        self.told.close()
        self.folder.cleanup()
        sums = SUMS.search(self.last)
        if not sums:
            sys.exit(f"the device ended with: {self.last}{said}")
        return int(sums[1]) - int(sums[2]), said


def flood(port, kind, end):
    """Sends what a stranger can, until the moment."""
    link = socket.socket(socket.AF_INET, socket.SOCK_DGRAM)
    sent = [offer(0), seal(FORGED, PEER, 1, offer(0)), seal(KEYS[PEER], NOBODY, 1, offer(0))][kind % 3]
    while time.time() < end:
        for _ in range(64):
            with contextlib.suppress(OSError):
                link.sendto(sent, ("127.0.0.1", port))


def run(program, asked, target):
    """How many of how many offers were admitted while strangers send to a target: None, `another socket` or `the same socket`."""
    with socket.socket(socket.AF_INET, socket.SOCK_DGRAM) as link:
        link.bind(("127.0.0.1", 0))
        device = Device(program, link)
        other = Device(program, link) if target == "another socket" else None
        end = time.time() + asked.seconds
        strangers = []
        if target:
            port = other.port if other else device.port
            strangers = [multiprocessing.Process(target=flood, args=(port, kind, end)) for kind in range(asked.senders)]
        for it in strangers:
            it.start()
        offered = 0
        next_at = time.time()
        while time.time() < end:
            offered += 1
            link.sendto(seal(KEYS[PEER], PEER, offered, offer(offered)), ("127.0.0.1", device.port))
            next_at += 1 / asked.offers
            time.sleep(max(0, next_at - time.time()))
        for it in strangers:
            it.join()
        time.sleep(0.5)
        taken, said = device.end()
        if other:
            other.end()
        return taken, offered, said


def main():
    words = argparse.ArgumentParser(description=__doc__.splitlines()[0])
    words.add_argument("program")
    words.add_argument("--seconds", type=float, default=10, help="how long each of the three takes")
    words.add_argument("--offers", type=int, default=100, help="how many offers a second")
    words.add_argument("--senders", type=int, default=3, help="how many processes are strangers")
    asked = words.parse_args()
    program, few = os.path.abspath(asked.program), 0
    for target in (None, "another socket", "the same socket"):
        taken, offered, said = run(program, asked, target)
        share = 100 * taken / max(1, offered)
        few += target != "the same socket" and share < WANTED
        print(f"{f'{asked.senders} strangers to {target}' if target else 'no strangers'}: {taken} of {offered} offers admitted, {share:.1f} %", flush=True)
        for line in said.splitlines():
            if re.search(r"dropped|denied", line):
                print(f"  {line}")
    return 1 if few else 0


if __name__ == "__main__":
    sys.exit(main())
