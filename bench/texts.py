#!/usr/bin/env python3
"""Times lexing and parsing of application texts of three sizes: bench/texts.py PROGRAM

Each text is one block after another and then a system whose last word is cut short, so that the program reads the whole
text, refuses it as a syntax fault at that word, and does nothing else. The least of nine runs is told, and the least of
nine runs on a text of one line beside it, which is what starting the program costs.
"""
import sys

from timing import least

BLOCK = """FUNCTION_BLOCK CELL%d
EVENT_INPUT EI; STOP : EVENT; END_EVENT
EVENT_OUTPUT EO; END_EVENT
EC_STATES START; DONE : -> EO; END_STATES (* two states *)
EC_TRANSITIONS START TO DONE := EI; DONE TO START := 1; END_TRANSITIONS
END_FUNCTION_BLOCK
"""
END = "SYSTEM S END_SYSTE"


def text(size):
    parts, length, number = [], len(END), 0
    while True:
        block = BLOCK % number
        if length + len(block) > size:
            break
        parts.append(block)
        length += len(block)
        number += 1
    return "".join(parts) + " " * (size - length) + END


def refusal(source):
    return "refused 2 %d\n" % (len(source) - len("END_SYSTE"))


def main():
    program = sys.argv[1]
    start = least(program, END, refusal(END))
    print("start %.1f ms" % (start * 1000))
    for size in (65536, 262144, 1048576):
        took = least(program, text(size), refusal(text(size)))
        print("%8d bytes %.1f ms, %.1f ns a byte" % (size, took * 1000, (took - start) / size * 1e9))


main()
