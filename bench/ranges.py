#!/usr/bin/env python3
"""Times the check of ranges: bench/ranges.py PROGRAM [SIZES IN KiB]

One block with one algorithm of 64 KiB, 256 KiB and nearly 1 MiB, an instance of it, and a certificate that fits. Five kinds: a few
variables and many assignments, IF, CASE and FOR; IF and FOR nested 30 deep, again and again; as many variables as IFs, each IF with a
variable of its own; and one IF with as many ELSIF, and one CASE with as many arms, as the text takes, each with a variable of its own.
The least of three runs is told, and the cost of a byte.
"""
import sys

from timing import least

END = "\n====\nCERT 1\n"


def whole(declared, body, rows):
    text = "FUNCTION_BLOCK F EVENT_INPUT E WITH X; END_EVENT VAR_INPUT X : DINT; END_VAR VAR %s END_VAR\n" % declared
    text += "EC_STATES START; ACT : G; END_STATES EC_TRANSITIONS START TO ACT := E; ACT TO START := 1; END_TRANSITIONS ALGORITHM G IN ST:\n" + body
    text += "END_ALGORITHM END_FUNCTION_BLOCK SYSTEM S DEVICE D RESOURCE R FBS C : F; END_FBS END_RESOURCE END_DEVICE END_SYSTEM"
    certificate = "RANGE D.R.C.X 0 9\n" + "".join("RANGE D.R.C.%s %s\n" % row for row in rows)
    certificate += "CHARGE D.R.C.START 0 0\nCHARGE D.R.C.ACT 999999999998 0\nWEIGHT D.R.C.E 1000000000000 1\nDEPTH D.R 1\n"
    return text + END + certificate


def repeated(size, part):
    return part * (size // len(part))


def long(size):
    part = "IF X > 3 AND Y < 3 THEN Y := X MOD 7; ELSE CASE X OF 1, 2: Y := 1; 3..9: Y := ABS(X); END_CASE; END_IF;\n"
    part += "FOR I := 1 TO LIMIT(0, X, 10) DO A[I] := MIN(9, Y * 2); END_FOR;\n"
    return whole("Y, I : DINT; A : ARRAY [0..10] OF DINT;", repeated(size, part), [("Y", "0 9"), ("I", "0 10"), ("A", "0 9")])


def nested(size):
    loops = ["I%d" % i for i in range(15)]
    part = "".join("IF X > 3 THEN FOR %s := 1 TO 1 DO " % i for i in loops) + "Y := X; " + "END_FOR; END_IF; " * 15 + "\n"
    return whole("Y, %s : DINT;" % ", ".join(loops), repeated(size, part), [(v, "0 9") for v in ["Y"] + loops])


def wide(size):
    count = size // 48
    return of_its_own(count, "".join("IF X > 3 THEN V%d := X; END_IF;\n" % i for i in range(count)))


def of_its_own(count, body):
    return whole("".join("V%d : DINT;\n" % i for i in range(count)), body, [("V%d" % i, "0 9") for i in range(count)])


def branches(size):
    count = size // 45
    body = "IF X > 8 THEN ; " + "".join("ELSIF X > %d THEN V%d := X;\n" % (i % 8, i) for i in range(count)) + "END_IF;\n"
    return of_its_own(count, body)


def arms(size):
    count = size // 34
    body = "CASE X OF " + "".join("%d: V%d := X;\n" % (i, i) for i in range(count)) + "END_CASE;\n"
    return of_its_own(count, body)


def main():
    program = sys.argv[1]
    sizes = [int(s) * 1024 for s in sys.argv[2:]] or [64 * 1024, 256 * 1024, 1000 * 1024]
    for make in (long, nested, wide, branches, arms):
        for size in sizes:
            text = make(size)
            took = least(program, text, "accepted\n", runs=3)
            print("%s, %d bytes: %.1f ms, %.0f ns a byte" % (make.__name__, len(text), took * 1e3, took * 1e9 / len(text)))


if __name__ == "__main__":
    main()
