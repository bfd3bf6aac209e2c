#!/usr/bin/env python3
"""Times reading of certificates of 1, 4 and 16 MiB: bench/certificates.py PROGRAM

Each certificate has rows of different paths, the last of which is none, so that the program reads the whole text, refuses
it at that line, and does nothing else. The least of five runs is told.
"""
import sys

from timing import least


def certificate(size):
    parts, length, number = ["CERT 1\n"], 7, 0
    while True:
        row = "WEIGHT D.R.CELL%d.EI 3 1\n" % number
        if length + len(row) + 8 > size:
            break
        parts.append(row)
        length += len(row)
        number += 1
    return "".join(parts) + "DEPTH D\n", number + 2


def main():
    program = sys.argv[1]
    for size in (1 << 20, 4 << 20, 16 << 20):
        text, line = certificate(size)
        took = least(program, "SYSTEM S END_SYSTEM\n====\n" + text, "refused 30 %d\n" % line, 5)
        print("%8d bytes, %6d rows: %.1f ms, %.1f ns a byte" % (len(text), line - 1, took * 1000, took / len(text) * 1e9))


main()
