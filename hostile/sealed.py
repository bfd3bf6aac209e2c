#!/usr/bin/env python3
"""Sealed datagrams under attack: hostile/sealed.py PROGRAM [--seed N] [--count N]

A device runs with keys and a state, and gets N datagrams (20,000 without it) that a stranger has: cut, changed in a byte or more, forged under another key,
with another peer's number, sent again, out of order, without a seal, with counters up to 2^64 - 1; and between them those of a friend. Asked is that just the
friend's are taken, each once, that the counts of what was dropped, with what found no room in the socket, add up to what was sent, and that memory stays
flat. Then that friend sends far more than its rate allows, beside another one that keeps to its own: of the first no more than the rate is taken, of the
second all is, and the counts add up. Then the device is killed and started again: nothing that was recorded is taken once more, and what it sends has
counters above all before. At last its state file is cut behind each byte, changed in each, and missing, and its keys are for others to read: it is refused
(61), and told why."""
import argparse
import os
import random
import re
import select
import socket
import struct
import subprocess
import sys
import tempfile
import time

TOP = os.path.dirname(os.path.dirname(os.path.abspath(__file__)))
sys.path.insert(0, f"{TOP}/tools")

from fbrseal.tags import said_in, seal  # noqa: E402  (the path has to be set first)

APP = """SYSTEM S DEVICE D RESOURCE R
FBS BEGIN : E_RESTART; PLACE : INPUT[DINT](ID := 1); LAMP : OUTPUT[DINT](ID := 1); TELL : PUBLISH[DINT](ID := 8, QI := TRUE); END_FBS
EVENT_CONNECTIONS BEGIN.COLD TO TELL.INIT; PLACE.IND TO LAMP.REQ; PLACE.IND TO TELL.REQ; END_CONNECTIONS
DATA_CONNECTIONS PLACE.RD_1 TO LAMP.SD_1; PLACE.RD_1 TO TELL.SD_1; END_CONNECTIONS
END_RESOURCE END_DEVICE END_SYSTEM
"""
OWN, FRIEND, OTHER = 1, 2, 3
WAIT = 5.0
REASONS = "not sealed", "of an unknown number", "under another key", "taken before or too old", "not written down", "above their rate"
DROPPED = re.compile("^fbr: dropped so far: " + ", ".join(rf"{it} (\d+)" for it in REASONS) + "$", re.M)


class Wrong(Exception):
    """What is not as it has to be."""


def offer(value):
    return b"FB\1\2\0\1\1\3" + struct.pack(">q", value)


class Device:
    """A device that runs, a friend that it hears, and all that was sent to it."""

    def __init__(self, program, folder, rng):
        self.program, self.folder, self.rng = program, folder, rng
        self.link = socket.socket(socket.AF_INET, socket.SOCK_DGRAM)
        self.link.bind(("127.0.0.1", 0))
        self.link.settimeout(WAIT)
        self.keys = {it: rng.randbytes(32) for it in (OWN, FRIEND, OTHER)}
        self.counter, self.value, self.heard, self.recorded, self.sent = 0, 0, [], [], 0
        with socket.socket(socket.AF_INET, socket.SOCK_DGRAM) as it:
            it.bind(("127.0.0.1", 0))
            self.port = it.getsockname()[1]
        self.put("app", APP)
        self.run("bound", self.path("app"), "--room", "32", "-o", self.path("cert"))
        self.run("key", "--state", self.path("state"))
        self.put_keys()

    def put_keys(self, friend="", other=""):
        """Writes the file of keys, with these rates of the others."""
        key = {number: it.hex() for number, it in self.keys.items()}
        address = f"127.0.0.1:{self.link.getsockname()[1]}"
        lines = [f"own {OWN}", f"{OWN} - {key[OWN]}", f"{FRIEND} {address} {key[FRIEND]} {friend}", f"{OTHER} - {key[OTHER]} {other}"]
        self.put("keys", "\n".join(lines) + "\n", 0o600)

    def path(self, name):
        return f"{self.folder}/{name}"

    def put(self, name, text, mode=0o644):
        with open(self.path(name), "wb") as it:
            it.write(text if isinstance(text, bytes) else text.encode())
        os.chmod(self.path(name), mode)

    def run(self, *words):
        done = subprocess.run([self.program, *words], capture_output=True, text=True, timeout=60)
        if done.returncode:
            raise Wrong(f"{words}: {done.stdout}{done.stderr}")
        return done.stdout

    @property
    def words(self):
        files = "--keys", self.path("keys"), "--state", self.path("state")
        return [self.program, "serve", self.path("app"), self.path("cert"), "D", "--bind", str(self.port), "--until-eof", "--summary", "1", *files]

    def start(self):
        with open(self.path("told"), "wb") as told, open(self.path("out"), "wb") as out:
            self.job = subprocess.Popen(self.words, stdin=subprocess.PIPE, stdout=out, stderr=told)
        end = time.monotonic() + WAIT
        while b"receives at" not in self.told():
            if self.job.poll() is not None or time.monotonic() > end:
                raise Wrong(f"the device does not start: {self.told()}")
            time.sleep(0.01)
        self.sent, self.taken = 0, []

    def told(self):
        with open(self.path("told"), "rb") as it:
            return it.read()

    def send(self, datagram):
        self.link.sendto(datagram, ("127.0.0.1", self.port))
        self.sent += 1

    def friendly(self):
        """Sends the friend's next datagram, whose value is its own."""
        self.value += 1
        self.counter += 1
        sealed = seal(self.keys[FRIEND], FRIEND, self.counter, offer(self.value))
        self.recorded.append(sealed)
        self.send(sealed)
        return self.value

    def answered(self, value):
        """Waits until the device has told the friend a value; and answers whether it did."""
        end = time.monotonic() + WAIT
        while time.monotonic() < end:
            try:
                sealed = self.link.recv(2048)
            except TimeoutError:
                return False
            number, counter, datagram = said_in(sealed)
            if sealed != seal(self.keys[OWN], OWN, counter, datagram) or number != OWN:
                raise Wrong(f"the device sent {sealed.hex()}")
            self.heard.append(counter)
            if struct.unpack(">q", datagram[-8:])[0] == value:
                return True
        return False

    def friend(self):
        """The friend's next datagram is taken."""
        value = self.friendly()
        if not self.answered(value):
            raise Wrong(f"the friend's datagram {value} was not taken: {self.told()[-500:]}")
        self.taken.append(value)

    def reach(self):
        """Sends the friend's datagrams until one is taken: after a restart the device drops those that it may have taken before, 63 at most."""
        for _ in range(64):
            value = self.friendly()
            if select.select([self.link], [], [], 0.05)[0] and self.answered(value):
                self.taken.append(value)
                return
        raise Wrong(f"64 datagrams of the friend were dropped after a restart: {self.told()[-500:]}")

    def stop(self, is_paced=True):
        """Ends the device; the writes are the friend's values, as many as were taken if they came in a burst, and the counts add up: how many were dropped
        for each reason, and how many found no room in the socket."""
        lost = self.lost()
        self.job.stdin.close()
        if self.job.wait(WAIT):
            raise Wrong(f"the device ended with {self.job.returncode}: {self.told()}")
        with open(self.path("out"), "rb") as it:
            *writes, _ = it.read().decode().splitlines()
        if len(writes) != len(self.taken) or is_paced and writes != [f"write 1 {it}" for it in self.taken]:
            raise Wrong(f"written were {writes[-3:]} and {len(writes)} in all, and taken {self.taken[-3:]} and {len(self.taken)}")
        found = DROPPED.findall(self.told().decode())
        dropped = sum(map(int, found[-1])) if found else 0
        if dropped + len(self.taken) + lost != self.sent:
            raise Wrong(f"{self.sent} were sent, {len(self.taken)} taken, {dropped} dropped and {lost} lost: {found[-1:]}")
        return dict(zip(REASONS, found[-1] if found else ())), lost

    def written(self):
        """The values that were written so far."""
        with open(self.path("out"), "rb") as it:
            return [int(line.split()[2]) for line in it.read().decode().splitlines() if line.startswith("write 1 ")]

    def kill(self):
        self.job.kill()
        self.job.wait(WAIT)

    def lost(self):
        """How many datagrams found no room in the socket of the device, as the system counts them."""
        with open("/proc/net/udp") as it:
            return sum(int(line.split()[-1]) for line in it if line.split()[1].endswith(f":{self.port:04X}"))

    def memory(self):
        with open(f"/proc/{self.job.pid}/status") as it:
            return int(re.search(r"VmRSS:\s+(\d+)", it.read())[1])


def strange(device):
    """A datagram that may not be taken."""
    rng, keys = device.rng, device.keys
    known = rng.choice(device.recorded)
    kind = rng.randrange(10)
    if kind == 0:
        return known
    if kind == 1:
        return known[: rng.randrange(len(known))]
    if kind == 2:
        return known + rng.randbytes(rng.randrange(1, 200))
    if kind == 3:
        return offer(rng.randrange(1000))
    if kind == 4:
        return seal(rng.randbytes(32), FRIEND, device.counter + rng.randrange(1, 100), offer(7))
    if kind == 5:
        return seal(keys[FRIEND], rng.choice((OTHER, OWN, 9)), device.counter + 1, offer(7))
    if kind == 6:
        return seal(keys[rng.choice((FRIEND, OTHER))], rng.choice((FRIEND, OTHER)), 2**64 - 1, offer(7))
    if kind == 7:
        return rng.randbytes(rng.randrange(260))
    changed = bytearray(known)
    for _ in range(rng.choice((1, 1, 1, 2, 5))):
        changed[rng.randrange(len(changed))] ^= 1 << rng.randrange(8)
    return bytes(changed)


def under_attack(device, count):
    """Strangers' datagrams, and a friend's between them."""
    start = time.monotonic()
    device.start()
    for _ in range(20):
        device.friend()
    first = device.memory()
    for at in range(count):
        device.send(strange(device))
        if at % 50 == 49:
            device.friend()
    last = device.memory()
    if last - first > 512:
        raise Wrong(f"memory grew from {first} to {last} KiB")
    dropped, lost = device.stop()
    says = ", ".join(f"{reason} {number}" for reason, number in dropped.items())
    print(f"sealed: {count} strange datagrams and {len(device.taken)} of a friend, which were taken; {says}; lost in the socket {lost}")
    print(f"sealed: memory from {first} to {last} KiB, {time.monotonic() - start:.1f} s")


def overtaken(device):
    """Datagrams of one burst may overtake each other, and each is taken once."""
    device.start()
    device.reach()
    start = device.counter
    burst = [seal(device.keys[FRIEND], FRIEND, start + 1 + it, offer(1000 + it)) for it in range(40)]
    device.counter += len(burst)
    device.rng.shuffle(burst)
    for at in range(0, len(burst), 10):
        for it in burst[at : at + 10] * 2:
            device.send(it)
        time.sleep(0.1)
    device.taken += burst
    device.recorded += burst
    while select.select([device.link], [], [], 0.2)[0]:
        device.heard.append(said_in(device.link.recv(2048))[1])
    device.stop(is_paced=False)


def flooded(device):
    """A friend that sends far above its rate costs another one nothing, which keeps to its own: at most one datagram in ten milliseconds, each sent when the
    one before was answered, so that of any of them in a row at most one comes too soon."""
    device.put_keys("50/s burst 10", "200/s burst 4")
    device.start()
    device.reach()
    start, kept = time.monotonic(), []
    for at in range(200):
        for _ in range(40):
            device.value += 1
            device.counter += 1
            device.send(seal(device.keys[FRIEND], FRIEND, device.counter, offer(device.value)))
        due, value = time.monotonic() + 0.01, 1_000_000 + at
        device.send(seal(device.keys[OTHER], OTHER, at + 1, offer(value)))
        if not device.answered(value):
            raise Wrong(f"a datagram of one within its rate was not taken, the one after {at}: {device.told()[-500:]}")
        kept.append(value)
        time.sleep(max(0, due - time.monotonic()))
    while select.select([device.link], [], [], 0.2)[0]:
        device.heard.append(said_in(device.link.recv(2048))[1])
    seconds = time.monotonic() - start
    device.taken = device.written()
    # Each that was taken is written once, with the value that came last: so one of the friend's may be written in the place of one before it.
    others = list(dict.fromkeys(it for it in device.taken if it >= 1_000_000))
    many = len(device.taken) - len(kept)
    if others != kept or many > 12 + 50 * seconds:
        raise Wrong(f"of one within its rate {len(others)} of {len(kept)} were taken, and of one above it {many} in {seconds:.1f} s")
    dropped, lost = device.stop(is_paced=False)
    if not int(dropped["above their rate"]):
        raise Wrong(f"none was above its rate: {dropped}")
    device.put_keys()
    print(f"sealed: {len(kept)} datagrams within a rate, all taken, beside 8000 above one, of which {many} were taken in {seconds:.1f} s")
    print(f"sealed: {dropped['above their rate']} dropped for their rate, lost in the socket {lost}")


def over_restarts(device):
    """What was recorded is not taken after the device was killed, nor what it may have taken; and the friend goes on. Own counters only grow."""
    for _ in range(3):
        device.start()
        device.reach()
        before = len(device.taken)
        for it in device.recorded:
            device.send(it)
            if device.rng.randrange(50) == 0:
                device.friend()
        device.friend()
        device.kill()
        if device.written() != device.taken:
            raise Wrong(f"after {before} taken there are {len(device.written())} writes and {len(device.taken)} taken")
    if any(one >= two for one, two in zip(device.heard, device.heard[1:])):
        raise Wrong("the device used a counter again")


def refused(device, what, name):
    done = subprocess.run(device.words, stdin=subprocess.DEVNULL, capture_output=True, text=True, timeout=30)
    if (done.returncode, done.stdout) != (3, f"refused 61 {device.path(name)}\n") or "fbr: " not in done.stderr:
        raise Wrong(f"{what}: {done.returncode} {done.stdout}{done.stderr}")


def bad_files(device):
    """States that were cut, changed or lost, and keys that others may read."""
    with open(device.path("state"), "rb") as it:
        whole = it.read()
    for at in range(len(whole)):
        device.put("state", whole[:at])
        refused(device, f"a state of {at} bytes", "state")
        changed = bytearray(whole)
        changed[at] ^= 1 << device.rng.randrange(7)
        device.put("state", bytes(changed))
        refused(device, f"a state that is changed at {at}", "state")
    os.remove(device.path("state"))
    refused(device, "no state", "state")
    device.put("state", whole)
    for mode in (0o640, 0o604, 0o660):
        os.chmod(device.path("keys"), mode)
        refused(device, f"keys of mode {mode:o}", "keys")
    for text in ("", "own 1\n", f"1 - {'0' * 64}\n", f"own 1\n1 - {'0' * 63}\n", f"own 1\n1 x {'0' * 64}\n", f"own 1\n1 - {'0' * 64}\n1 - {'0' * 64}\n", b"\xff"):
        device.put("keys", text, 0o600)
        refused(device, f"keys {text!r}", "keys")
    print(f"sealed: {2 * len(whole)} states that are none, and {10} files of keys")


def main():
    parser = argparse.ArgumentParser(description=__doc__)
    parser.add_argument("program")
    parser.add_argument("--seed", type=int, default=1)
    parser.add_argument("--count", type=int, default=20_000)
    asked = parser.parse_args()
    with tempfile.TemporaryDirectory() as folder:
        device = Device(os.path.abspath(asked.program), folder, random.Random(asked.seed))
        try:
            under_attack(device, asked.count)
            overtaken(device)
            flooded(device)
            over_restarts(device)
            bad_files(device)
        except Wrong as why:
            print(f"sealed: {why}", file=sys.stderr)
            return 1
        finally:
            if device.job.poll() is None:
                device.kill()
    return 0


if __name__ == "__main__":
    sys.exit(main())
