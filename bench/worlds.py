#!/usr/bin/env python3
"""Times worlds of several devices: bench/worlds.py PROGRAM

Runs `PROGRAM sim` on two worlds, with the certificates that `PROGRAM bound` finds. The first is a ring of sixteen devices: each sends on what
it receives, so one offer goes round for as long as its datagrams are delivered, a delivery and two dispatches each. The second has one button and
one lamp, and all datagrams stay: offers, each with its root and its datagram, are made first, and the datagrams are delivered behind all of them.
"""
import os
import subprocess
import sys
import tempfile

from dispatches import least

DEVICES = 16
START = """DEVICE D{0} RESOURCE R
FBS RST : E_RESTART; {1}SUB : SUBSCRIBE(ID := {0}, QI := TRUE); PUB : PUBLISH(ID := {2}, QI := TRUE); END_FBS
EVENT_CONNECTIONS RST.COLD TO SUB.INIT; RST.COLD TO PUB.INIT; {3}SUB.IND TO PUB.REQ; END_CONNECTIONS
END_RESOURCE END_DEVICE
"""
BUTTON = """SYSTEM S
DEVICE D0 RESOURCE R
FBS RST : E_RESTART; BUTTON : INPUT(ID := 1); PUB : PUBLISH(ID := 7, QI := TRUE); END_FBS
EVENT_CONNECTIONS RST.COLD TO PUB.INIT; BUTTON.IND TO PUB.REQ; END_CONNECTIONS
END_RESOURCE END_DEVICE
DEVICE D1 RESOURCE R
FBS RST : E_RESTART; SUB : SUBSCRIBE(ID := 7, QI := TRUE); LAMP : OUTPUT(ID := 1); END_FBS
EVENT_CONNECTIONS RST.COLD TO SUB.INIT; SUB.IND TO LAMP.REQ; END_CONNECTIONS
END_RESOURCE END_DEVICE
END_SYSTEM
"""


def ring():
    """The text of the ring, and the script that so many datagrams take."""
    text = "SYSTEM S\n"
    for at in range(DEVICES):
        button = ("BUTTON : INPUT(ID := 1); ", "BUTTON.IND TO PUB.REQ; ") if at == 0 else ("", "")
        text += START.format(at, button[0], (at + 1) % DEVICES, button[1])

    def script(count):
        lines = [f"dispatch D{at} R\n" * 3 for at in range(DEVICES)]
        lines += ["offer D0 1\n", "dispatch D0 R\n" * 2]
        for number in range(1, count):
            at = number % DEVICES
            lines.append(f"deliver {number} D{at}\ndispatch D{at} R\ndispatch D{at} R\n")
        return "".join(lines).encode()

    return text + "END_SYSTEM\n", script, 3


def button():
    """The text of the button and the lamp, and the script of so many offers whose datagrams are delivered in the end."""

    def script(count):
        lines = ["dispatch D0 R\ndispatch D0 R\ndispatch D1 R\ndispatch D1 R\n"]
        lines += ["offer D0 1\ndispatch D0 R\ndispatch D0 R\n" * count]
        lines += [f"deliver {number} D1\ndispatch D1 R\ndispatch D1 R\n" for number in range(1, count + 1)]
        return "".join(lines).encode()

    return BUTTON, script, 6


def told(program, folder, kind, made, counts):
    text, script, events = made
    app, cert = os.path.join(folder, "app.fb"), os.path.join(folder, "app.cert")
    with open(app, "w", encoding="ascii") as it:
        it.write(text)
    found = subprocess.run([program, "bound", app], stdout=subprocess.PIPE, check=True).stdout
    with open(cert, "wb") as it:
        it.write(found)
    for count in counts:
        lines = script(count)
        taken, answers = least([program, "sim", app, cert], lines)
        blank, _ = least([program, "sim", app, cert], b"              \n" * lines.count(b"\n"))
        sent = answers.count(b" send ")
        if sent != count or b"denied" in answers or b"refused" in answers:
            sys.exit(f"{kind}: {sent} datagrams of {count} were sent, or something was denied")
        print(f"{kind}: {count} datagrams, {events * count} events: {taken:.3f} s, {1e6 * (taken - blank) / (events * count):.2f} us an event beside blank lines")


def main():
    program = os.path.abspath(sys.argv[1])
    with tempfile.TemporaryDirectory() as folder:
        told(program, folder, "ring of sixteen devices", ring(), [4_200, 8_400, 16_800, 33_600])
        told(program, folder, "button and lamp, roots and datagrams kept", button(), [5_000, 10_000, 20_000, 40_000])


main()
