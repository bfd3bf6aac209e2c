#!/usr/bin/env python3
"""Stories that pass, that fail where they should, and that are no stories: hostile/stories.py PROGRAM [--seed N] [--count N]

PROGRAM is `fbr`. Each story beside a plant of examples/ passes; with each value that it wants changed in turn it fails, at that line, and tells the value that came.
Then stories are mutated (so many, where a count is given): `play` ends with a status of 0 to 4 and one line of an outcome, whatever they say. At last a story of 100,000 lines is
played: what is asked is how long it takes of the processor, and how much memory."""
import argparse
import os
import pathlib
import random
import re
import resource
import subprocess
import sys
import tempfile

TOP = pathlib.Path(__file__).resolve().parent.parent
SECONDS = 60
# A button, and a lamp.
LAMP = """SYSTEM S DEVICE D RESOURCE R
FBS B : INPUT(ID := 1); L : OUTPUT(ID := 1); END_FBS
EVENT_CONNECTIONS B.IND TO L.REQ; END_CONNECTIONS
END_RESOURCE END_DEVICE END_SYSTEM
"""
# What a story wants to come: a value of an OUTPUT behind an arrow.
WANTED = re.compile(r"-> *(?!DENIED\b)[A-Za-z_][\w.]*\(([^()]*)\)")
VALUE = re.compile(r"TRUE|FALSE|T#\w+|-?\d+", re.I)


def plants():
    """Each story of a plant: the plant's text, the certificate of the story's name or else the plant's, and the story."""
    for folder in sorted(it for it in (TOP / "examples").iterdir() if it.is_dir() and it.name != "wrong"):
        for story in sorted(folder.glob("*.story")):
            cert = story.with_suffix(".cert")
            yield folder / f"{folder.name}.fb", cert if cert.exists() else folder / f"{folder.name}.cert", story


def play(program, *words):
    done = subprocess.run([program, "play", *map(str, words)], capture_output=True, timeout=SECONDS)
    return done.returncode, done.stdout.decode(errors="replace"), done.stderr.decode(errors="replace")


def other(value):
    """Another value of the same type."""
    plain = value.upper()
    if plain in ("TRUE", "FALSE"):
        return "FALSE" if plain == "TRUE" else "TRUE"
    if plain.startswith("T#"):
        return "T#9h" if plain != "T#9H" else "T#8h"
    return str(int(value) - 1) if int(value) > 0 else str(int(value) + 1)


def without_comments(text):
    """The text with blanks in the place of its comments."""
    return re.sub(r"\(\*.*?\*\)", lambda it: re.sub(r"[^\n]", " ", it[0]), text, flags=re.S)


def changed(text):
    """The story with each value that it wants changed in turn, and the number of the line where its step begins."""
    plain = without_comments(text)
    for wanted in WANTED.finditer(plain):
        for value in VALUE.finditer(plain, wanted.start(1), wanted.end(1)):
            start = max(plain.rfind(";", 0, wanted.start()), plain.rfind("SEQUENCE", 0, wanted.start()))
            yield text[: value.start()] + other(value[0]) + text[value.end() :], start, value.start()


def failing(program, folder):
    """Plays the plants' stories as they are, and with each wanted value changed."""
    count, wrong = 0, []
    for app, cert, story in plants():
        status, said, told = play(program, app, cert, story)
        total = re.fullmatch(r"([1-9]\d*) passed, 0 failed\n", said)
        if status or not total:
            wrong.append(f"{story.name}: status {status}, {said[:300]!r}, {told[:300]!r}")
            continue
        for text, start, end in changed(story.read_text()):
            count += 1
            path = pathlib.Path(folder) / story.name
            path.write_text(text)
            first, last = text.count("\n", 0, start) + 1, text.count("\n", 0, end) + 1
            status, said, told = play(program, app, cert, path)
            at = re.match(rf"{re.escape(str(path))}:(\d+): ", said)
            if status != 1 or not at or not first <= int(at[1]) <= last or f"{int(total[1]) - 1} passed, 1 failed" not in said:
                shown = text[start:end].strip()[-60:]
                wrong.append(f"{story.name}: with a value changed behind {shown!r} (lines {first} to {last}): status {status}, {said[:300]!r}, {told[:200]!r}")
    print(f"stories: {count} with one value changed, {len(wrong)} wrong")
    return wrong


def mutated(rng, text):
    """A story that was cut, or has a part doubled, dropped, moved or replaced."""
    words = ["->", ";", "(", ")", ",", "..", "ANY", "DENIED", "STEPS", "<=", "EXPECT", "IN", "=", "AFTER", "T#1ms", "T#9999999h", "TOGETHER", "LOSE", "TWICE", "HOLD", "NEXT", "DROP", "ALL", "FROM", "HEAL"]
    words += ["FOR", "BLOCK", "FOR BLOCK LIMITS", ":=", "QUEUE", "SEQUENCE", "END_SEQUENCE", "x", "-1", "99999999999999999999", "TRUE", "(*", "*)", ".", "\0", "é", "[", "]"]
    for _ in range(rng.randrange(1, 4)):
        at, end = sorted(rng.randrange(len(text) + 1) for _ in range(2))
        part = text[at : min(end, at + 40)]
        text = rng.choice(
            [
                text[:at],
                text[:at] + text[at + len(part) :],
                text[:end] + part + text[end:],
                text[:at] + " " + rng.choice(words) + " " + text[at:],
                text[:at] + rng.choice(words) + text[at + len(part) :],
            ]
        )
    return text


def fuzzed(program, folder, seed, count):
    wrong, ends = [], {}
    known = [(app, cert, story.read_text()) for app, cert, story in plants()]
    for at in range(count):
        rng = random.Random(f"{seed} {at}")
        app, cert, text = rng.choice(known)
        path = pathlib.Path(folder) / f"{at}.story"
        path.write_text(mutated(rng, text), errors="replace")
        status, said, told = play(program, app, cert, path)
        last = said.splitlines()[-1] if said else ""
        ends[status] = ends.get(status, 0) + 1
        told_well = re.fullmatch(r"\d+ passed, 0 failed", last) if status == 0 else re.fullmatch(r"\d+ passed, [1-9]\d* failed", last) if status == 1 else re.match(r"refused (?:60 \d+|61 |4|9)", last)
        if status not in (0, 1, 2, 3) or not told_well:
            wrong.append(f"{path.name} (--seed {seed}): status {status}, {said[-200:]!r}, {told[-200:]!r}")
        path.unlink()
    print(f"stories: {count} mutated, by status {dict(sorted(ends.items()))}, {len(wrong)} wrong")
    return wrong


def long_story(program, folder):
    """A story of 100,000 lines of a button and a lamp. (A story has at most 1,048,576 bytes, as an application.)"""
    app, cert, path = (pathlib.Path(folder) / f"long.{it}" for it in ("fb", "cert", "story"))
    app.write_text(LAMP)
    cert.write_bytes(subprocess.run([program, "bound", app], capture_output=True, check=True).stdout)
    path.write_text("SEQUENCE long\n" + "B() -> L();\n" * 50_000 + "B();\n" * 50_000 + "END_SEQUENCE\n")
    before = resource.getrusage(resource.RUSAGE_CHILDREN)
    status, said, told = play(program, app, cert, path)
    after = resource.getrusage(resource.RUSAGE_CHILDREN)
    spent = after.ru_utime + after.ru_stime - before.ru_utime - before.ru_stime
    print(f"stories: 100,000 lines in {spent:.2f} s of the processor, {after.ru_maxrss // 1024} MB at most")
    return [] if (status, said) == (0, "1 passed, 0 failed\n") else [f"the long story: status {status}, {said[:200]!r}, {told[:200]!r}"]


def main():
    words = argparse.ArgumentParser()
    words.add_argument("program", type=os.path.abspath)
    words.add_argument("--seed", default="1")
    words.add_argument("--count", type=int, default=300)
    given = words.parse_args()
    with tempfile.TemporaryDirectory() as folder:
        wrong = failing(given.program, folder) + fuzzed(given.program, folder, given.seed, given.count) + long_story(given.program, folder)
    for it in wrong:
        print(it)
    return 1 if wrong else 0


if __name__ == "__main__":
    sys.exit(main())
