#!/usr/bin/env python3
"""Counts what a seal costs: bench/sealing.py PROGRAM

`PROGRAM serve` runs under callgrind and takes datagrams of one peer, each of which begins a cause whose line is printed: plain ones, sealed ones, and sealed ones
with a forged one before each. Each kind is counted over some and over three times as many, so what the device needs to start and to end is in neither. Printed are
the instructions of one datagram of each kind, of the program and its libraries; those of the system's calls are not counted, so other work does not change them."""
import os
import re
import socket
import struct
import subprocess
import sys
import tempfile
import time

TOP = os.path.dirname(os.path.dirname(os.path.abspath(__file__)))
sys.path.insert(0, f"{TOP}/tools")

from fbrseal.tags import seal  # noqa: E402  (the path has to be set first)

APP = """SYSTEM S DEVICE D RESOURCE R
FBS PLACE : INPUT[DINT](ID := 1); LAMP : OUTPUT[DINT](ID := 1); END_FBS
EVENT_CONNECTIONS PLACE.IND TO LAMP.REQ; END_CONNECTIONS
DATA_CONNECTIONS PLACE.RD_1 TO LAMP.SD_1; END_CONNECTIONS
END_RESOURCE END_DEVICE END_SYSTEM
"""
OWN, PEER = 1, 2
KEYS = {OWN: bytes(range(32)), PEER: bytes(range(32, 64))}
FORGED = bytes(32)
FEW = 500
# How many are sent before their lines are waited for.
AT_ONCE = 8
COUNTED = re.compile(r"Collected : (\d+)")
KINDS = "plain", "sealed", "sealed, and a forged one"


def offer(value):
    return b"FB\1\2\0\1\1\3" + struct.pack(">q", value)


def datagrams(kind, value):
    """What is sent for a value, of which the last is taken."""
    if kind == KINDS[0]:
        return [offer(value)]
    sealed = seal(KEYS[PEER], PEER, value, offer(value))
    return [sealed] if kind == KINDS[1] else [seal(FORGED, PEER, value, offer(value)), sealed]


def words_of(program, folder, kind, link):
    """The words of a device, whose files are made."""
    files = [f"{folder}/{it}" for it in ("app", "cert", "keys", "state")]
    with open(files[0], "w", encoding="utf-8") as it:
        it.write(APP)
    subprocess.run([program, "bound", files[0], "--room", "32", "-o", files[1]], check=True, stdout=subprocess.DEVNULL)
    with socket.socket(socket.AF_INET, socket.SOCK_DGRAM) as it:
        it.bind(("127.0.0.1", 0))
        port = it.getsockname()[1]
    words = [program, "serve", *files[:2], "D", "--bind", str(port), "--until-eof"]
    if kind == KINDS[0]:
        return words, port
    subprocess.run([program, "key", "--state", files[3]], check=True, stdout=subprocess.DEVNULL)
    lines = f"own {OWN}\n{OWN} - {KEYS[OWN].hex()}\n{PEER} 127.0.0.1:{link.getsockname()[1]} {KEYS[PEER].hex()}\n"
    with open(os.open(files[2], os.O_WRONLY | os.O_CREAT, 0o600), "w", encoding="utf-8") as it:
        it.write(lines)
    return [*words, "--keys", files[2], "--state", files[3]], port


def counted(program, kind, count):
    """The instructions of a device that takes so many datagrams of a kind."""
    with tempfile.TemporaryDirectory() as folder, socket.socket(socket.AF_INET, socket.SOCK_DGRAM) as link:
        link.bind(("127.0.0.1", 0))
        words, port = words_of(program, folder, kind, link)
        tool = ["valgrind", "--tool=callgrind", f"--callgrind-out-file={folder}/counts"]
        with open(f"{folder}/told", "w+", encoding="utf-8") as told:
            with subprocess.Popen([*tool, *words], stdin=subprocess.PIPE, stdout=subprocess.PIPE, stderr=told) as job:
                while "receives at" not in open(told.name, encoding="utf-8").read():
                    time.sleep(0.05)
                for value in range(1, count + 1):
                    for it in datagrams(kind, value):
                        link.sendto(it, ("127.0.0.1", port))
                    if value % AT_ONCE == 0:
                        for _ in range(AT_ONCE):
                            job.stdout.readline()
                job.stdin.close()
                last = job.stdout.read().decode()
            if f"received {count * len(datagrams(kind, 1)) if kind == KINDS[0] else count} denied 0" not in last:
                sys.exit(f"{kind}: {last}")
            return int(COUNTED.search(open(told.name, encoding="utf-8").read())[1])


def main(program):
    for kind in KINDS:
        one = (counted(program, kind, 3 * FEW * AT_ONCE) - counted(program, kind, FEW * AT_ONCE)) / (2 * FEW * AT_ONCE)
        print(f"{kind}: {one:,.0f} instructions a datagram", flush=True)


if __name__ == "__main__":
    if len(sys.argv) != 2:
        sys.exit(__doc__)
    main(sys.argv[1])
