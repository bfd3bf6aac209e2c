#!/usr/bin/env python3
"""Floods a device over loopback: hostile/floods.py PROGRAM [--datagrams N | --seconds N] [--rate N]

`PROGRAM serve` runs one device until it has received at least N datagrams (1,000,000 where none is given), or for N seconds, while three processes send to its port as fast as they can, or N a second each with --rate: valid messages of its
channels, repeated, late and forged; what is no message, cut behind each byte or with a field at fault; messages of other channels, INPUTs, types and formats. Beside them one client offers its
INPUT 1 a number, and the next one as soon as the first was written, again and again where the system has lost the datagram. To INPUT 3 it sends a number every 5 ms, once: which share of them is
written says what a flood leaves of a sender that does not repeat. Nothing is asked of that share, since the system drops what comes faster than it is received.

Asked is that number by number is written, in order, and some dozens of them at least; that nothing else is written on that OUTPUT; that of what was sent once nothing is written twice, late or
never sent, and of a channel of format 2 nothing is taken twice or late; that the sums are those of what was written, but for the one cause that may be open in each of the three resources at the
end; that standard error tells of each denial, at most ten of a kind in a second, and of all that it counts; that the process takes no more memory at its end than in its first tenth; and that it
ends with status 0."""
import argparse
import collections
import multiprocessing
import os
import random
import re
import select
import socket
import struct
import subprocess
import sys
import tempfile
import threading
import time

APP = """SYSTEM S DEVICE D
RESOURCE OWN
FBS BEGIN : E_RESTART; PLACE : INPUT[DINT](ID := 1); LAMP : OUTPUT[DINT](ID := 1); TELL : PUBLISH[DINT](ID := 9, QI := TRUE); END_FBS
EVENT_CONNECTIONS BEGIN.COLD TO TELL.INIT; PLACE.IND TO LAMP.REQ; PLACE.IND TO TELL.REQ; END_CONNECTIONS
DATA_CONNECTIONS PLACE.RD_1 TO LAMP.SD_1; PLACE.RD_1 TO TELL.SD_1; END_CONNECTIONS
END_RESOURCE
RESOURCE NET
FBS BEGIN : E_RESTART; PLAIN : SUBSCRIBE[DINT](ID := 7, QI := TRUE); STAMPED : SUBSCRIBE[DINT](ID := 8, QI := TRUE, FORMAT := 2);
TWO : OUTPUT[DINT](ID := 2); THREE : OUTPUT[DINT](ID := 3); END_FBS
EVENT_CONNECTIONS BEGIN.COLD TO PLAIN.INIT; PLAIN.INITO TO STAMPED.INIT; PLAIN.IND TO TWO.REQ; STAMPED.IND TO THREE.REQ; END_CONNECTIONS
DATA_CONNECTIONS PLAIN.RD_1 TO TWO.SD_1; STAMPED.RD_1 TO THREE.SD_1; END_CONNECTIONS
END_RESOURCE
RESOURCE ONCE
FBS PLACE : INPUT[DINT](ID := 3); LAMP : OUTPUT[DINT](ID := 4); END_FBS
EVENT_CONNECTIONS PLACE.IND TO LAMP.REQ; END_CONNECTIONS
DATA_CONNECTIONS PLACE.RD_1 TO LAMP.SD_1; END_CONNECTIONS
END_RESOURCE END_DEVICE END_SYSTEM
"""
# What the two E_RESTART cause: a BEGIN each, and three INITs.
BEGINS = 5
CHANNEL, INPUT, BOOL, DINT = 1, 2, 0, 3
# How many lines of a kind are told in a second.
TOLD = 10
# What it has asked for. What it has of its own file grows with each part of the program that runs for the first time.
MEMORY = "RssAnon", "VmData"


def message(kind, number, *values, stamp=None, code=DINT):
    head = struct.pack(">2sBBH", b"FB", 2 if stamp else 1, kind, number) + (struct.pack(">II", *stamp) if stamp else b"")
    return head + bytes([len(values)]) + b"".join(struct.pack(">Bq", code, it) for it in values)


def of_channels(rng):
    """Valid messages: of format 1 again and again, of format 2 later ones, and between them some that came already."""
    plain, at = message(CHANNEL, 7, 7), 0

    def stamped(value):
        return message(CHANNEL, 8, value, stamp=(value // 5000, value % 5000))

    while True:
        at += 1
        yield stamped(at)
        yield plain
        yield stamped(at)
        yield stamped(rng.randrange(at))


def of_bytes(rng):
    """What is no message: cut, longer, with a field at fault, or of any bytes."""
    good = [message(INPUT, 1, 666), message(CHANNEL, 7, 666), message(CHANNEL, 8, 666, stamp=(2**32 - 1, 2**32 - 1))]
    faults = [it[:end] for it in good for end in range(len(it))] + [it + b"\0" for it in good]
    faults += [b"X" + it[1:] for it in good] + [it[:2] + b"\3" + it[3:] for it in good] + [it[:3] + b"\3" + it[4:] for it in good]
    faults += [message(INPUT, 1, 2**31), message(INPUT, 1, 1, code=9), message(INPUT, 1, 2, code=BOOL), message(INPUT, 1, 1, stamp=(9, 9))]
    faults += [b"\xff" * 160, good[0] + b"\0" * 144, good[0] + b"\0" * 60_000, b"FB\1\2\0\1\x11"]
    while True:
        yield rng.choice(faults)
        yield b"\0" + rng.randbytes(rng.randrange(200))


def of_others(rng):
    """Messages that are none of this device's: other channels and INPUTs, other types, other formats."""
    while True:
        yield message(CHANNEL, rng.choice([0, 6, 9, 65535]), 666)
        yield message(INPUT, rng.choice([0, 2, 7, 65535]), 666)
        yield rng.choice([message(INPUT, 1), message(INPUT, 1, 666, 666), message(INPUT, 1, 1, code=BOOL)])
        yield rng.choice([message(CHANNEL, 7), message(CHANNEL, 7, *range(16)), message(CHANNEL, 7, 1, code=BOOL)])
        yield message(CHANNEL, 7, 666, stamp=(1, rng.randrange(2**32)))
        yield message(CHANNEL, 8, 666)


def send_until(end, datagrams, port, sent, rate):
    """Sends until it is told to end, so many a second at most where there is a rate, and tells how many it sent."""
    with socket.socket(socket.AF_INET, socket.SOCK_DGRAM) as link:
        count, begun, batch = 0, time.monotonic(), 10 if rate else 100
        while not end.is_set():
            for _ in range(batch):
                link.sendto(next(datagrams), ("127.0.0.1", port))
            count += batch
            if rate:
                end.wait(max(0, begun + count / rate - time.monotonic()))
    sent.value = count


class Flood:
    """Three processes that send."""

    def __init__(self, port, rate):
        self.over, self.jobs, self.sent = multiprocessing.Event(), [], []
        for seed, datagrams in enumerate((of_channels, of_bytes, of_others)):
            sent = multiprocessing.Value("q", 0)
            made = datagrams(random.Random(seed))
            job = multiprocessing.Process(target=send_until, args=(self.over, made, port, sent, rate), daemon=True)
            job.start()
            self.jobs.append(job)
            self.sent.append(sent)

    def end(self):
        self.over.set()
        for job in self.jobs:
            job.join()


class Device:
    """The process under flood, the lines that it has printed, and what it has told people."""

    def __init__(self, command):
        self.errors = tempfile.TemporaryFile()
        self.job = subprocess.Popen(command, stdin=subprocess.PIPE, stdout=subprocess.PIPE, stderr=self.errors, bufsize=0)
        self.lines, self.last, self.memory = {1: [], 2: [], 3: [], 4: []}, "", []
        self.reader = threading.Thread(target=self.read)
        self.reader.start()

    def read(self):
        with os.fdopen(os.dup(self.job.stdout.fileno())) as lines:
            for line in lines:
                words = line.split()
                if words[:1] == ["write"]:
                    self.lines[int(words[1])].append(int(words[2]))
                self.last = line.rstrip("\n")

    def measure(self):
        """Notes how much memory the process has, in kB."""
        try:
            with open(f"/proc/{self.job.pid}/status") as it:
                told = dict(line.split(":", 1) for line in it)
            self.memory.append([int(told[what].split()[0]) for what in MEMORY])
        except (OSError, KeyError):
            pass

    def runs(self):
        return self.job.poll() is None

    def told(self):
        self.errors.seek(0)
        return self.errors.read().decode(errors="replace")


def free_port():
    with socket.socket(socket.AF_INET, socket.SOCK_DGRAM) as it:
        it.bind(("127.0.0.1", 0))
        return it.getsockname()[1]


def offered(device, port, end, pause):
    """Offers INPUT 1 one number behind the other for as long as the device runs, and INPUT 3 a number every 5 ms, once; and answers how many of these."""
    number = singles = next_single = 0
    with socket.socket(socket.AF_INET, socket.SOCK_DGRAM) as link:
        while device.runs() and time.monotonic() < end:
            if number == 0 or device.lines[1] and device.lines[1][-1] == number:
                number, again = number + 1, 0
                device.measure()
            if time.monotonic() >= again:
                link.sendto(message(INPUT, 1, number), ("127.0.0.1", port))
                again = time.monotonic() + 0.01
            if time.monotonic() >= next_single:
                singles += 1
                link.sendto(message(INPUT, 3, singles), ("127.0.0.1", port))
                next_single = time.monotonic() + 0.005
            time.sleep(pause)
    return singles


def heard(link):
    """How many datagrams have come to the peer, each of them a message of its channel."""
    count = 0
    while select.select([link], [], [], 0)[0]:
        datagram = link.recv(200)
        if datagram[:7] != message(CHANNEL, 9, 0)[:7] or len(datagram) != 16:
            sys.exit(f"the device sent {datagram.hex()}")
        count += 1
    return count


def differences(device, least, datagrams, singles):
    """What is not as it has to be."""
    one, two, three, four = (device.lines[at] for at in (1, 2, 3, 4))
    wrong = []
    if one != sorted(one) or set(one) != set(range(1, len(set(one)) + 1)):
        wrong.append("OUTPUT 1 wrote other numbers than were offered, or not in their order")
    if len(set(one)) < least:
        wrong.append(f"{len(set(one))} offers were written, and not {least}")
    if set(two) - {7}:
        wrong.append("OUTPUT 2 wrote what nobody sent on channel 7")
    if three != sorted(set(three)):
        wrong.append("OUTPUT 3 wrote a number twice, or an older one")
    if four != sorted(set(four)) or set(four) - set(range(1, singles + 1)):
        wrong.append("OUTPUT 4 wrote a number twice or late, or one that was not sent")
    told = device.last.split()
    if told[0::2] != ["fired", "received", "denied", "ran", "sent", "lost"]:
        return [*wrong, f"no sums, but {device.last!r}"]
    fired, received, denied, ran, sent, lost = map(int, told[1::2])
    if received < datagrams:
        wrong.append(f"{received} datagrams were received, and not {datagrams}")
    # Of each resource one cause may be open: it has run no block yet or one, or in OWN all but the PUBLISH.
    pending = received - denied - len(one) - len(two) - len(three) - len(four)
    more = ran - BEGINS - 3 * len(one) - 2 * len(two) - 2 * len(three) - 2 * len(four)
    if not (0 <= pending <= 3 and -1 <= more <= 3 and 0 <= len(one) - sent - lost <= 1) or fired:
        wrong.append(f"{device.last}, but {len(one)}, {len(two)}, {len(three)} and {len(four)} numbers were written")
    return [*wrong, *untold(device.told(), device.last, denied)]


def untold(told, last, denied):
    """What standard error does not tell of denials, or tells too often."""
    counted, seconds = collections.Counter(), collections.Counter()
    for second, code in re.findall(r"^(\d+)\.\d{3} s (?:INPUT \d+|channel \d+|\d+ bytes) denied (\d+): ", told, re.M):
        counted[int(code)] += 1
        seconds[second, code] += 1
    for more, code in re.findall(r"^\d+\.\d{3} s (\d+) more denied (\d+) in that second$", told, re.M):
        counted[int(code)] += int(more)
    wrong = [f"in second {second} {count} denials of {code} are told" for (second, code), count in seconds.items() if count > TOLD]
    summary = re.search(rf" s {last}; longest turn \d+ ms, OWN held [12] of 2, NET held [01] of 1, ONCE held [01] of 1, lines lost 0, denied(.*)$", told, re.M)
    if not summary:
        return [*wrong, f"standard error does not tell the sums at its end, but {told[-200:]!r}"]
    sums = {int(code): int(count) for code, count in re.findall(r"(\d+):(\d+)", summary[1])}
    if sums != counted or sum(sums.values()) != denied:
        wrong.append(f"{denied} were denied; by the last line of standard error {sums}, and by all lines {dict(counted)}")
    return wrong


def grown(memory):
    """By how many kB the process grew between the first tenth of what was measured and the last moment."""
    if len(memory) < 10:
        return None
    return max(last - first for first, last in zip(memory[len(memory) // 10], memory[-1]))


def flooded(program, datagrams, seconds, rate, folder):
    files = f"{folder}/app", f"{folder}/cert"
    with open(files[0], "w") as it:
        it.write(APP)
    with open(files[1], "wb") as it:
        subprocess.run([program, "bound", files[0]], stdout=it, check=True)
    port, peer = free_port(), socket.socket(socket.AF_INET, socket.SOCK_DGRAM)
    peer.bind(("127.0.0.1", 0))
    flood = Flood(port, rate)
    end = time.monotonic() + (seconds or 60 + datagrams / 2000)
    # Of two turns one at least receives something, or dispatches what was received: a turn without either waits for a datagram.
    turns = datagrams * 5 // 2
    ends = ["--until-eof"] if seconds else ["--turns", str(turns)]
    words = ["serve", *files, "D", "--bind", str(port), *ends, "--summary", "3600", str(peer.getsockname()[1])]
    device = Device([program, *words])
    try:
        singles = offered(device, port, end, 0.001 if rate else 0.0002)
        flood.end()
        if seconds:
            device.job.stdin.close()
            device.job.wait(10)
        if device.runs():
            return device, flood, [f"{turns} turns are not over in time"], 0, singles
    finally:
        device.job.kill()
        for job in flood.jobs:
            job.kill()
    device.reader.join()
    least = 0 if seconds else datagrams
    wrong = differences(device, 10 + least // 5000, least, singles)
    if device.job.returncode:
        wrong.append(f"status {device.job.returncode}, {device.told()[:300]!r}")
    return device, flood, wrong, heard(peer), singles


def main():
    words = argparse.ArgumentParser()
    words.add_argument("program")
    words.add_argument("--datagrams", type=int, default=1_000_000)
    words.add_argument("--seconds", type=int, default=0, help="ends behind so many seconds, and not behind so many datagrams")
    words.add_argument("--rate", type=int, default=0, help="how many each of the three processes sends a second at most")
    words.add_argument("--grows", type=int, default=0, help="by how many kB the process may grow")
    given = words.parse_args()
    begun = time.monotonic()
    with tempfile.TemporaryDirectory() as folder:
        device, flood, wrong, told, singles = flooded(os.path.abspath(given.program), given.datagrams, given.seconds, given.rate, folder)
    more = grown(device.memory)
    if more is None or more > given.grows:
        wrong.append(f"the process grew by {more} kB, of {MEMORY}: {device.memory[:1]} at first, {device.memory[-1:]} at last")
    for it in wrong:
        print(it)
    sent = sum(it.value for it in flood.sent)
    memory = ", ".join(f"{what} {kilobytes} kB" for what, kilobytes in zip(MEMORY, device.memory[-1] if device.memory else []))
    once = len(device.lines[4])
    print(f"flood: {sent} sent in {time.monotonic() - begun:.0f} s; {device.last}; {len(set(device.lines[1]))} offers written, {told} heard by the peer; {memory}, grown by {more} kB")
    print(f"offers that were sent once: {once} of {singles} written, {100 * once / max(1, singles):.0f} %")
    return 1 if wrong else 0


if __name__ == "__main__":
    sys.exit(main())
