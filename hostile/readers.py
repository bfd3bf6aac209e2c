#!/usr/bin/env python3
"""Devices whose output nobody reads, or not in time: hostile/readers.py PROGRAM

`PROGRAM serve` runs a device that counts, and writes its count sixteen times in a line, over an output that is a pipe nobody reads, a pipe whose reader is gone, a full
file, or a pipe that is read late. Asked is that the device goes on, and ends when its standard input does: with status 3 if lines were lost or are left. What came out is
then a beginning of what it wrote; the first lines that fill 64 KiB were kept, and `lines lost` counts the others. A pipe that is read late gets every line, in order, and
the status is 0. With --stop-on-lost-output the device ends by itself, with status 3."""
import fcntl
import os
import re
import socket
import subprocess
import sys
import tempfile
import time

COUNTS = " ".join(f"COUNT.CV TO LAMP.SD_{at};" for at in range(1, 17))
APP = f"""SYSTEM S DEVICE D RESOURCE R
FBS BEGIN : E_RESTART; PACE : E_CYCLE(DT := T#MILLISms); COUNT : E_CTU(PV := 65535); LAMP : OUTPUT[{", ".join(["UINT"] * 16)}](ID := 1); END_FBS
EVENT_CONNECTIONS BEGIN.COLD TO PACE.START; PACE.EO TO COUNT.CU; COUNT.CUO TO LAMP.REQ; END_CONNECTIONS
DATA_CONNECTIONS {COUNTS} END_CONNECTIONS
END_RESOURCE END_DEVICE END_SYSTEM
"""
SECONDS = 30
# The room for lines that wait, that of a pipe, and more than the longest line.
ROOM, PIPE, LINE = 65_536, 4096, 120


class Fault(Exception):
    """What is not as it has to be."""


def lines(count):
    """The first lines of a device."""
    return b"".join(b"write 1" + b" %d" % at * 16 + b"\n" for at in range(1, count + 1))


class Plant:
    """The program, and a device of each pace."""

    def __init__(self, program, folder):
        self.program, self.folder = program, folder

    def files(self, millis):
        app, cert = f"{self.folder}/{millis}.fb", f"{self.folder}/{millis}.cert"
        with open(app, "w") as it:
            it.write(APP.replace("MILLIS", str(millis)))
        subprocess.run([self.program, "bound", app, "-o", cert], check=True)
        return app, cert


class Device:
    """A device that counts every so many milliseconds over an output."""

    def __init__(self, plant, millis, output, *words):
        with socket.socket(socket.AF_INET, socket.SOCK_DGRAM) as it:
            it.bind(("127.0.0.1", 0))
            port = it.getsockname()[1]
        self.errors = tempfile.TemporaryFile()
        command = [plant.program, "serve", *plant.files(millis), "D", "--bind", str(port), "--until-eof", "--summary", "3600", *words]
        self.job = subprocess.Popen(command, stdin=subprocess.PIPE, stdout=output, stderr=self.errors)

    def goes_on(self, seconds):
        time.sleep(seconds)
        if self.job.poll() is not None:
            raise Fault(f"it has ended with {self.job.returncode}")

    def ends(self):
        """That it ends by itself, with status 3."""
        try:
            if self.job.wait(SECONDS) != 3:
                raise Fault(f"status {self.job.returncode}")
        except subprocess.TimeoutExpired:
            self.job.kill()
            raise Fault("it goes on, though a line was lost") from None

    def end(self):
        """Ends its standard input: its status, how often its timer fired, and the lines that it tells as lost."""
        self.job.stdin.close()
        status = self.job.wait(SECONDS)
        self.errors.seek(0)
        told = self.errors.read().decode()
        sums = re.search(r" s fired (\d+) received 0 denied 0 ran (\d+) sent 0 lost 0; longest turn \d+ ms(?:, \w+ held \d+ of \d+)+, lines lost (\d+), denied none$", told, re.M)
        if not sums:
            raise Fault(f"it does not tell its sums, but {told[-300:]!r}")
        fired, ran, lost = map(int, sums.groups())
        # Two dispatches for the start, and three each time that the timer fires.
        if not 0 <= 2 + 3 * fired - ran <= 2:
            raise Fault(f"sums that do not fit: {sums[0]!r}")
        return status, fired, lost


def pipe():
    """A small pipe."""
    source, sink = os.pipe()
    fcntl.fcntl(sink, fcntl.F_SETPIPE_SZ, PIPE)
    return source, sink


def nobody(plant):
    """A pipe that nobody reads."""
    source, sink = pipe()
    device = Device(plant, 1, sink)
    device.goes_on(2.5)
    status, fired, lost = device.end()
    os.set_blocking(source, False)
    printed = os.read(source, ROOM)
    kept = fired - lost
    if status != 3 or not printed or not lines(fired).startswith(printed):
        raise Fault(f"status {status}, {len(printed)} bytes, which end by {printed[-40:]!r}")
    if lost and not ROOM - LINE < len(lines(kept)) < ROOM + PIPE + LINE:
        raise Fault(f"{lost} of {fired} lines were lost, and {len(lines(kept))} bytes were kept")
    strict = Device(plant, 1, sink, "--stop-on-lost-output")
    strict.ends()
    os.close(source)
    os.close(sink)
    return fired, lost


def failing(plant, output):
    """An output that takes nothing."""
    device = Device(plant, 10, output)
    device.goes_on(1)
    status, fired, lost = device.end()
    if status != 3 or lost or not fired:
        raise Fault(f"status {status}, fired {fired}, lines lost {lost}")
    Device(plant, 10, output, "--stop-on-lost-output").ends()
    return fired, lost


def gone(plant):
    """A pipe whose reader is gone."""
    source, sink = os.pipe()
    os.close(source)
    try:
        return failing(plant, sink)
    finally:
        os.close(sink)


def full(plant):
    """A full file."""
    with open("/dev/full", "wb") as output:
        return failing(plant, output)


def late(plant):
    """A pipe that is read after more has waited than it holds."""
    source, sink = pipe()
    device = Device(plant, 10, sink)
    os.close(sink)
    device.goes_on(1.5)
    printed = b""
    end = time.monotonic() + 1
    while time.monotonic() < end:
        printed += os.read(source, ROOM)
    device.job.stdin.close()
    while some := os.read(source, ROOM):
        printed += some
    os.close(source)
    status, fired, lost = device.end()
    if status or lost or not any(re.fullmatch(rb"fired %d .*\n" % fired, printed.removeprefix(lines(it))) for it in (fired - 1, fired)):
        raise Fault(f"status {status}, fired {fired}, lines lost {lost}, {len(printed)} bytes, which end by {printed[-160:]!r}")
    return fired, lost


def main(program):
    wrong = 0
    with tempfile.TemporaryDirectory() as folder:
        plant = Plant(program, folder)
        for part in (nobody, gone, full, late):
            try:
                fired, lost = part(plant)
                print(f"{part.__doc__} {fired} counts, {lost} lines lost")
            except Fault as fault:
                wrong += 1
                print(f"{part.__doc__} {fault}")
    return 1 if wrong else 0


if __name__ == "__main__":
    sys.exit(main(os.path.abspath(sys.argv[1])))
