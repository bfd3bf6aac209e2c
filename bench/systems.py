#!/usr/bin/env python3
"""Times the whole check of the largest system that is allowed, and of an eighth, a quarter and a half of it: bench/systems.py PROGRAM

The largest: 1,024 instances in one resource, 8,192 connections, and one block of 256 states and 1,024 transitions. A button
leads to one fork and to an instance of the large block; each fork leads to sixteen or seventeen cells. The certificate is the
least one, so that each inequality is tested at its bound. The least of nine runs is told.
"""
import sys

from timing import least

CELL = """FUNCTION_BLOCK CELL
EVENT_INPUT EI; END_EVENT
EC_STATES START; DONE; END_STATES
EC_TRANSITIONS START TO DONE := EI; DONE TO START := 1; END_TRANSITIONS
END_FUNCTION_BLOCK
"""
FORK = """FUNCTION_BLOCK FORK
EVENT_INPUT EI; END_EVENT
EVENT_OUTPUT EO; END_EVENT
EC_STATES START; ACT : -> EO; END_STATES
EC_TRANSITIONS START TO ACT := EI; ACT TO START := 1; END_TRANSITIONS
END_FUNCTION_BLOCK
"""


def large(states):
    lines = ["FUNCTION_BLOCK LARGE", "EVENT_INPUT EI; END_EVENT"]
    lines.append("EC_STATES " + " ".join("S%d;" % s for s in range(states)) + " END_STATES")
    lines.append("EC_TRANSITIONS")
    for s in range(states):
        lines += ["S%d TO S%d := EI;" % (s, (s + step) % states) for step in range(1, 5)]
    lines += ["END_TRANSITIONS", "END_FUNCTION_BLOCK"]
    return "\n".join(lines) + "\n"


def system(part):
    instances, connections, states = 1024 // part, 8192 // part, 256 // part
    forks = (instances - 2) // 2
    cells = instances - 2 - forks
    text = [CELL, FORK, large(states), "SYSTEM S DEVICE D RESOURCE R", "FBS", "BUTTON : INPUT(ID := 1); L : LARGE;"]
    text += ["F%d : FORK;" % f for f in range(forks)] + ["C%d : CELL;" % c for c in range(cells)]
    text += ["END_FBS", "EVENT_CONNECTIONS", "BUTTON.IND TO F0.EI; BUTTON.IND TO L.EI;"]
    targets = [(connections - 2) // forks + (1 if f < (connections - 2) % forks else 0) for f in range(forks)]
    led = 0
    for f in range(forks):
        for _ in range(targets[f]):
            text.append("F%d.EO TO C%d.EI;" % (f, led % cells))
            led += 1
    text.append("END_CONNECTIONS END_RESOURCE END_DEVICE END_SYSTEM\n====\nCERT 1")
    for s in range(states):
        text.append("CHARGE D.R.L.S%d 0 0" % s)
    for f in range(forks):
        text += ["CHARGE D.R.F%d.START 0 0" % f, "CHARGE D.R.F%d.ACT %d %d" % (f, 3 * targets[f] + 1, targets[f])]
    for c in range(cells):
        text += ["CHARGE D.R.C%d.START 0 0" % c, "CHARGE D.R.C%d.DONE 1 0" % c]
    text.append("WEIGHT D.R.BUTTON.ARRIVE %d %d" % (1 + 3 * targets[0] + 3 + 2, targets[0] + 1))
    text.append("WEIGHT D.R.L.EI 2 1")
    text += ["WEIGHT D.R.F%d.EI %d %d" % (f, 3 * targets[f] + 3, targets[f]) for f in range(forks)]
    text += ["WEIGHT D.R.C%d.EI 3 1" % c for c in range(cells)]
    text.append("DEPTH D.R %d\n" % (targets[0] + 1))
    return "\n".join(text), instances, 2 + led, states


def main():
    program = sys.argv[1]
    for part in (8, 4, 2, 1):
        source, instances, connections, states = system(part)
        took = least(program, source, "accepted\n")
        print("%4d instances, %4d connections, %3d states, %4d transitions, %6d bytes: %.1f ms" % (instances, connections, states, 4 * states, len(source), took * 1000))


if __name__ == "__main__":
    main()
