#!/usr/bin/env python3
"""Times reading, typing and wiring of whole texts of 64 KiB, 256 KiB and 1 MiB: bench/front_end.py PROGRAM

Four kinds of text: many instances (resources of 1,000 instances of an event block, two connections from each), nested types
(each holds one of the type before it, 15 deep, again and again), long algorithms (assignments, IF, CASE and FOR), and one network
with as many connections as the text takes, most of which nothing follows. The certificate has no rows, so the program reads,
types and wires the text and then names the first row that is missing, or accepts where no row is needed. The least of three
runs is told.
"""
import sys

from timing import least

SIZES = (64 * 1024, 256 * 1024, 1024 * 1024)
END = "\n====\nCERT 1\n"


def filled(size, begin, part, end):
    """Parts by number between a beginning and an end, as many as the size takes."""
    pieces, length, number = [begin], len(begin) + len(end), 0
    while length + len(part(number)) <= size:
        pieces.append(part(number))
        length += len(pieces[-1])
        number += 1
    return "".join(pieces) + end


def resource(name, count):
    lines = ["RESOURCE %s FBS" % name]
    lines += ["M%d : E_MERGE;" % i for i in range(count)]
    lines.append("END_FBS EVENT_CONNECTIONS")
    for i in range(count - 1):
        lines += ["M%d.EO TO M%d.EI1;" % (i, i + 1), "M%d.EO TO M%d.EI2;" % (i, i + 1)]
    lines.append("END_CONNECTIONS END_RESOURCE")
    return "\n".join(lines) + "\n"


def instances(size):
    most = len(resource("R00", 1000))
    whole, rest = divmod(size - 200, most)
    text = ["SYSTEM S\n"]
    for number in range(whole):
        if number % 16 == 0:
            text.append(("END_DEVICE\n" if number else "") + "DEVICE D%d\n" % (number // 16))
        text.append(resource("R%d" % number, 1000))
    if not whole:
        text.append("DEVICE D0\n")
    text.append(resource("R", max(rest * 1000 // most, 2)))
    return "".join(text) + "END_DEVICE END_SYSTEM", "refused 33 D0.%s.M0.START\n" % ("R0" if whole else "R")


def nested(size):
    def part(number):
        level = number % 15
        inner = "E_MERGE" if level == 0 else "W%d" % (number - 1)
        port = "EI1" if level == 0 else "EI"
        return (
            "FUNCTION_BLOCK W%d EVENT_INPUT EI; END_EVENT EVENT_OUTPUT EO; END_EVENT FBS A : %s; END_FBS\n" % (number, inner)
            + "EVENT_CONNECTIONS EI TO A.%s; A.EO TO EO; END_CONNECTIONS END_FUNCTION_BLOCK\n" % port
        )

    blocks = filled(size - 120, "", part, "")
    last = blocks.count("FUNCTION_BLOCK W") - 1
    end = "SYSTEM S DEVICE D RESOURCE R FBS X : W%d; END_FBS END_RESOURCE END_DEVICE END_SYSTEM" % last
    return blocks + end, "refused 33 D.R.X" + ".A" * (last % 15 + 1) + ".START\n"


def algorithms(size):
    def part(number):
        return (
            "IF X > %d AND Y < 3 THEN Y := X MOD 7 + %d; ELSE CASE X OF 1, 2: Y := 1; 3..9: Y := ABS(X); END_CASE; END_IF;\n" % (number, number % 100)
            + "FOR I := 1 TO LIMIT(0, X, 10) DO A[I] := A[I] + Y * 2; END_FOR;\n"
        )

    begin = "FUNCTION_BLOCK F EVENT_INPUT E WITH X; END_EVENT VAR_INPUT X : DINT; END_VAR VAR_OUTPUT Y : DINT; END_VAR VAR I : DINT; A : ARRAY [0..10] OF DINT; END_VAR\n"
    begin += "EC_STATES S : G; END_STATES EC_TRANSITIONS END_TRANSITIONS ALGORITHM G IN ST:\n"
    return filled(size, begin, part, "END_ALGORITHM END_FUNCTION_BLOCK SYSTEM S END_SYSTEM"), "accepted\n"


def connections(size):
    begin = "SYSTEM S DEVICE D RESOURCE R FBS\n" + "".join("M%d : E_MERGE;\n" % i for i in range(500)) + "N : E_MERGE; END_FBS EVENT_CONNECTIONS\n"
    end = "END_CONNECTIONS END_RESOURCE END_DEVICE END_SYSTEM"

    def part(number):
        return "M%d.EO TO N.EI%d;\n" % (number % 500, number % 2 + 1)

    source = filled(size, begin, part, end)
    many = source.count("TO N")
    return source, "refused 33 D.R.M0.START\n" if many <= 8192 else "refused 19 %d\n" % source.index("R FBS")


def main():
    program = sys.argv[1]
    for kind in (instances, nested, algorithms, connections):
        for size in SIZES:
            source, said = kind(size)
            took = least(program, source + END, said, runs=3)
            print("%-11s %8d bytes: %8.1f ms, %6.1f ns a byte" % (kind.__name__, len(source), took * 1000, took * 1e9 / len(source)))


main()
