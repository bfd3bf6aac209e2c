#!/usr/bin/env python3
"""Offers an INPUT of a device that `fbr serve` runs, and prints for two seconds what the device sends here: client.py [--keys FILE --state FILE] MINE DEVICE INPUT [TYPE=VALUE..]

MINE is the address of this client, which hears the device if it is one of its peers, and DEVICE is the device's: PORT, ADDRESS:PORT or [ADDRESS]:PORT. With --keys and
--state, which are those of this client (docs/KEYS.md), what it sends is sealed, and it hears only what was."""
import os
import socket
import struct
import sys
import time

sys.path.insert(0, os.path.join(os.path.dirname(os.path.realpath(__file__)), "../../tools"))

TYPES = ["BOOL", "SINT", "INT", "DINT", "LINT", "USINT", "UINT", "UDINT", "TIME"]


def address(word):
    host, _, port = word.rpartition(":")
    return host.strip("[]") or "127.0.0.1", int(port)


words = sys.argv[1:]
sealer = None
if words[:1] == ["--keys"] and words[2:3] == ["--state"]:
    from fbrseal.sealer import Sealer

    sealer = Sealer.of_files(words[1], words[3])
    words = words[4:]
mine, device, number, *values = words
link = socket.socket(socket.AF_INET6 if "[" in device else socket.AF_INET, socket.SOCK_DGRAM)
link.bind(address(mine))
offer = struct.pack(">2sBBHB", b"FB", 1, 2, int(number), len(values))
for name, value in (it.split("=") for it in values):
    offer += struct.pack(">Bq", TYPES.index(name), int(value))
link.sendto(sealer.seal(offer) if sealer else offer, address(device))
end = time.monotonic() + 2
while (left := end - time.monotonic()) > 0:
    link.settimeout(left)
    try:
        heard = link.recv(188)
    except TimeoutError:
        break
    heard = sealer.open(heard) if sealer else heard
    if heard is None:
        continue
    channel, count = struct.unpack_from(">H", heard, 4)[0], 14 if heard[2] == 2 else 6
    stamp = struct.unpack_from(">II", heard, 6) if heard[2] == 2 else ()
    fields = [struct.unpack_from(">Bq", heard, count + 1 + 9 * at) for at in range(heard[count])]
    print("channel", channel, *stamp, *(f"{TYPES[code]}={value}" for code, value in fields))
