#!/usr/bin/env python3
"""Tries what commands do to files, with a program that is there:  hostile/files.py PROGRAM

No file that is read is written, by whatever name; a file that is written is whole at every moment, and keeps its mode; other files stay as they are. A script is
answered line by line, 1,000 lines back and forth."""
import json
import os
import resource
import shutil
import stat
import subprocess
import sys
import tempfile

TOP = os.path.dirname(os.path.dirname(os.path.abspath(__file__)))
PLANT = f"{TOP}/examples/button_and_cell"
TOLD = "fbr: `-o` takes another file than APP and CERT\n"


def run(program, *words, cwd, limit=None, given=""):
    def limited():
        resource.setrlimit(resource.RLIMIT_FSIZE, (limit, limit))

    return subprocess.run([program, *words], cwd=cwd, capture_output=True, text=True, input=given, timeout=60, preexec_fn=limited if limit is not None else None)


def read(path):
    with open(path, "rb") as it:
        return it.read()


def clashes(program, folder):
    """APP and CERT are not written, however they are spelled."""
    os.symlink("a.fb", f"{folder}/link.fb")
    os.link(f"{folder}/a.fb", f"{folder}/hard.fb")
    os.symlink("a.cert", f"{folder}/link.cert")
    os.mkdir(f"{folder}/inner")
    for words in (
        "bound a.fb -o a.fb",
        "bound a.fb -o ./a.fb",
        "bound a.fb -o inner/../a.fb",
        "bound a.fb -o link.fb",
        "bound a.fb -o hard.fb",
        "bound link.fb -o hard.fb",
        "bound a.fb --search --room 2 -o hard.fb",
        "draw a.fb -o hard.fb",
        "draw a.fb a.cert -o a.cert",
        "draw a.fb a.cert -o link.cert",
        "draw a.fb a.cert --chart CELL -o ./a.fb",
    ):
        before = {name: read(f"{folder}/{name}") for name in ("a.fb", "a.cert")}
        ran = run(program, *words.split(), cwd=folder)
        assert (ran.returncode, ran.stdout, ran.stderr) == (2, "refused 63\n", TOLD), (words, ran)
        for name, held in before.items():
            assert read(f"{folder}/{name}") == held, words
    assert os.path.islink(f"{folder}/link.fb") and os.path.islink(f"{folder}/link.cert")


def kept_apart(program, folder):
    """No file that `sim`, `play` or `replay` reads is written, however it is spelled."""
    options = "--vcd", "--csv", "--timeline"
    told = "fbr: what is written would take the place of a file that is read: name another file\n"
    tried = [(f"sim a.fb a.cert {option} {name}", "") for option in options for name in ("./a.fb", "hard.fb", "link.cert")]
    tried += [(f"play a.fb a.cert a.story {option} {name}", "") for option in (*options, "--report") for name in ("hard.fb", "link.cert", "./a.story")]
    tried += [(f"play a.fb a.story {option} a.story", "") for option in (*options, "--report")]
    tried += [(f"replay a.fb a.cert a.record {option} {name}", "") for option in options for name in ("hard.fb", "link.cert", "inner/../a.record")]
    tried.append(("replay a.fb a.cert - --csv a.cert", ""))
    tried += [(f"{words} --json", given) for words, given in tried if words.startswith("replay ")]
    for words, given in tried:
        before = {name: read(f"{folder}/{name}") for name in ("a.fb", "a.cert", "a.story", "a.record")}
        ran = run(program, *words.split(), cwd=folder)
        line = f"{json.loads(ran.stdout)['line']}\n" if "--json" in words else ran.stdout
        assert (ran.returncode, line, ran.stderr) == (2, "refused 63\n", told), (words, ran)
        for name, held in before.items():
            assert read(f"{folder}/{name}") == held, words


def kept_whole(program, folder):
    """What is kept of a run goes into the files that are named, in place of what they held, or leaves them as they were."""
    script = "offer D 1\ndispatch D R\n"
    for limit in (None, 16):
        for option in ("--vcd", "--csv", "--timeline"):
            with open(f"{folder}/kept", "wb") as it:
                it.write(b"what was here before\n")
            ran = run(program, "sim", "a.fb", "a.cert", option, "kept", cwd=folder, limit=limit, given=script)
            held = read(f"{folder}/kept")
            if limit is None:
                assert ran.returncode == 0 and held.startswith({"--vcd": b"$version", "--csv": b"time,", "--timeline": b"<?xml"}[option]), (option, ran)
            else:
                assert ran.returncode != 0 and held == b"what was here before\n", (option, ran, held)


def back_and_forth(program, folder):
    """Each line of a script is answered before the next one is written."""
    with subprocess.Popen([program, "sim", "a.fb", "a.cert"], cwd=folder, stdin=subprocess.PIPE, stdout=subprocess.PIPE, text=True) as it:
        for at in range(1000):
            it.stdin.write(f"tick D {at}\n")
            it.stdin.flush()
            assert it.stdout.readline() == "fired 0\n", at
        it.stdin.write("offer D 1")
        it.stdin.close()
        assert it.stdout.read() == "cause 1\n"
        assert it.wait(60) == 0


def written(program, folder):
    """What is written is whole, keeps its mode, and is what a link leads to."""
    told = run(program, "bound", "a.fb", cwd=folder).stdout.encode()
    assert told
    with open(f"{folder}/out.cert", "w", encoding="utf-8") as it:
        it.write("what was here before\n")
    os.chmod(f"{folder}/out.cert", 0o640)
    os.symlink("out.cert", f"{folder}/to_out")
    for name in ("new.cert", "out.cert", "to_out"):
        ran = run(program, "bound", "a.fb", "-o", name, cwd=folder)
        assert (ran.returncode, ran.stdout, ran.stderr) == (0, "", ""), ran
        assert read(f"{folder}/{name}") == told, name
    assert stat.S_IMODE(os.stat(f"{folder}/out.cert").st_mode) == 0o640
    assert os.path.islink(f"{folder}/to_out")
    # The rows that are kept are read before their file is written.
    assert run(program, "bound", "a.fb", "--ranges", "a.cert", "-o", "a.cert", cwd=folder).returncode == 0
    assert run(program, "check", "a.fb", "a.cert", cwd=folder).stdout == "accepted\n"
    assert run(program, "bound", "a.fb", "-o", "/dev/null", cwd=folder).returncode == 0
    assert stat.S_ISCHR(os.stat("/dev/null").st_mode)


def kept(program, folder):
    """Where writing is cut off or fails, or what is asked for is refused, the file keeps what it held."""
    held = b"what was here before\n"
    for limit, words in ((0, "bound a.fb"), (16, "bound a.fb"), (16, "draw a.fb a.cert"), (None, "bound bad.fb"), (None, "draw a.fb --chart NONE")):
        with open(f"{folder}/kept", "wb") as it:
            it.write(held)
        ran = run(program, *words.split(), "-o", "kept", cwd=folder, limit=limit)
        assert ran.returncode != 0, (words, ran)
        assert read(f"{folder}/kept") == held, words
    for words in ("bound a.fb", "check a.fb a.cert", "sim a.fb a.cert", "explain a.fb", "draw a.fb"):
        before = {name: read(f"{folder}/{name}") for name in os.listdir(folder) if os.path.isfile(f"{folder}/{name}")}
        subprocess.run([program, *words.split()], cwd=folder, capture_output=True, stdin=subprocess.DEVNULL, timeout=60)
        assert before == {name: read(f"{folder}/{name}") for name in os.listdir(folder) if os.path.isfile(f"{folder}/{name}")}, words


def main():
    program = os.path.abspath(sys.argv[1])
    with tempfile.TemporaryDirectory() as folder:
        shutil.copy(f"{PLANT}.fb", f"{folder}/a.fb")
        shutil.copy(f"{PLANT}.cert", f"{folder}/a.cert")
        with open(f"{folder}/bad.fb", "w", encoding="utf-8") as it:
            it.write("SYSTEM S\n")
        with open(f"{folder}/a.story", "w", encoding="utf-8") as it:
            it.write("SEQUENCE pressed\n    D.BUTTON -> ..;\nEND_SEQUENCE\n")
        with open(f"{folder}/a.record", "w", encoding="utf-8") as it:
            it.write("turn 0\n")
        clashes(program, folder)
        kept_apart(program, folder)
        written(program, folder)
        kept(program, folder)
        kept_whole(program, folder)
        back_and_forth(program, folder)
    print("files: what is read is not written, what is written is whole, and scripts are answered line by line")


if __name__ == "__main__":
    main()
