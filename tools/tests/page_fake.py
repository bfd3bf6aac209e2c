#!/usr/bin/python3
"""A program that stands in for `fbr` in tests of fbr-page: `replay` answers each turn with the lines that the file LINES has for its moment, and with its end.
All else is done by the program FBR.

LINES is JSON: an array of lines by moment, as {"8748": ["{..}"]}."""
import json
import os
import sys


def replay() -> None:
    """Answers the turns of standard input."""
    with open(os.environ["LINES"], encoding="utf-8") as file:
        lines = json.load(file)
    for turn in sys.stdin:
        kind, now, *_ = turn.split()
        if kind == "turn":
            print(*lines.get(now, []), json.dumps({"answer": "turn", "time": int(now)}), sep="\n", flush=True)


if __name__ == "__main__":
    if sys.argv[1] == "replay":
        replay()
    else:
        os.execv(os.environ["FBR"], [os.environ["FBR"], *sys.argv[1:]])
