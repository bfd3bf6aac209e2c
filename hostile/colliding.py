#!/usr/bin/env python3
"""Names that collide in the tables of the program: hostile/colliding.py PROGRAM [--show] [--most NAMES]

The tables of names hash with a fixed seed, so a stranger can choose names that all fall into one place of a table; then each look-up compares with all of them.
hostile/colliding.c, which is built with the C compiler, finds such names. `check` reads 500, 1,000 and so on of them, 4,000 at most without --most: as the variables of one
block with the certificate that fits, as the rows of a certificate, and as block types; and as many names that do not collide. It fails if `check` answers otherwise than
over the latter, or takes longer than five times what was measured for so many names, grown fourfold for each doubling above 4,000. It says by how many times a doubling
grows."""
import argparse
import os
import random
import shutil
import subprocess
import sys
import tempfile

TOP = os.path.dirname(os.path.dirname(os.path.abspath(__file__)))
FIRST, MOST = 500, 4_000
# The most entries of a table for each of its groups.
LOAD = 9
LETTERS = "ABCDEFGHIJKLMNOPQRSTUVWXYZ0123456789"
BLOCK = "FUNCTION_BLOCK B EVENT_INPUT E; END_EVENT\n%sEC_STATES START; END_STATES EC_TRANSITIONS END_TRANSITIONS END_FUNCTION_BLOCK\n"
SYSTEM = "SYSTEM S DEVICE D RESOURCE R FBS X : B; IN : INPUT(ID := 1); END_FBS\nEVENT_CONNECTIONS IN.IND TO X.E; END_CONNECTIONS END_RESOURCE END_DEVICE END_SYSTEM\n"
ROWS = "CHARGE D.R.X.START 0 0\nWEIGHT D.R.X.E 1 1\nWEIGHT D.R.IN.ARRIVE 2 1\nDEPTH D.R 1\n"


def variables(names):
    return BLOCK % f"VAR {','.join(names)} : INT; END_VAR\n" + SYSTEM, "CERT 1\n" + "".join(f"RANGE D.R.X.{name} 0 0\n" for name in names) + ROWS


def rows(names):
    return BLOCK % "" + SYSTEM, "CERT 1\n" + "".join(f"RANGE {name} 0 0\n" for name in names)


def types(names):
    return "".join((BLOCK % "").replace("BLOCK B ", f"BLOCK {name} ") for name in names) + BLOCK % "" + SYSTEM, "CERT 1\n" + ROWS


# The processor seconds that were measured for 4,000 names, and five times as many are the most.
SHAPES = {variables: 0.35, rows: 0.1, types: 0.32}
ROOM = 5


def colliding(count, folder):
    """So many names that collide in each table that has room for them and no more."""
    compiler = shutil.which("cc") or shutil.which("gcc") or sys.exit("there is no C compiler, which builds hostile/colliding.c")
    program = f"{folder}/colliding"
    subprocess.run([compiler, "-O2", "-Wall", "-o", program, f"{TOP}/hostile/colliding.c"], check=True)
    bits = (-(-count // LOAD) - 1).bit_length()
    return subprocess.run([program, str(count), str(bits)], check=True, stdout=subprocess.PIPE, text=True).stdout.split()


def scattered(count):
    """As many names of the same length that do not."""
    chosen = random.Random(1)
    found = set()
    while len(found) < count:
        found.add("Q" + "".join(chosen.choice(LETTERS) for _ in range(7)))
    return sorted(found)


def run(program, folder, texts):
    """The processor seconds of a check, the fewer of two runs, and what it answers."""
    paths = f"{folder}/app", f"{folder}/cert"
    for path, text in zip(paths, texts):
        with open(path, "w", encoding="ascii") as it:
            it.write(text)
    best = None
    for _ in range(2):
        job = subprocess.Popen([program, "check", *paths], stdout=subprocess.PIPE, stderr=subprocess.DEVNULL)
        said = job.stdout.read()
        job.stdout.close()
        _, status, used = os.wait4(job.pid, 0)
        job.returncode = os.waitstatus_to_exitcode(status)
        seconds = used.ru_utime + used.ru_stime
        best = min(seconds, best or seconds)
    return best, (job.returncode, said)


def main():
    words = argparse.ArgumentParser(description=__doc__.splitlines()[0])
    words.add_argument("program")
    words.add_argument("--show", action="store_true", help="prints the seconds of each size")
    words.add_argument("--most", type=int, default=MOST, help="how many names at most")
    asked = words.parse_args()
    program = os.path.abspath(asked.program)
    wrong, told = [], []
    with tempfile.TemporaryDirectory() as folder:
        chosen, plain = colliding(asked.most, folder), scattered(asked.most)
        for shape, measured in SHAPES.items():
            count, before, growth = FIRST, None, 0.0
            while count <= asked.most:
                texts = shape(chosen[:count])
                seconds, answer = run(program, folder, texts)
                usual, expected = run(program, folder, shape(plain[:count]))
                name = f"{shape.__name__} {count}"
                if asked.show:
                    print(f"{name:16} {sum(map(len, texts)):9} bytes  {seconds:7.3f} s, and {usual:6.3f} s where they do not collide")
                if answer != expected:
                    wrong.append(f"{name}: {answer}, and {expected} where they do not collide")
                if seconds > ROOM * measured * max(1, count / MOST) ** 2:
                    wrong.append(f"{name}: {seconds:.2f} s")
                before, growth = seconds, seconds / before if before else growth
                last = seconds, usual
                count *= 2
            told.append(f"{shape.__name__} {last[0]:.2f} s ({last[0] / max(last[1], 0.001):.0f} times as many, {growth:.1f} for the last doubling)")
    for it in wrong:
        print(it)
    print(f"colliding: {asked.most} names: {', '.join(told)}; {len(wrong)} wrong")
    return 1 if wrong else 0


if __name__ == "__main__":
    sys.exit(main())
