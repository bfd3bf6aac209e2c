"""Runs the program, which alone decides what is right."""
import json
import os
import shutil
import subprocess

TOP = os.path.dirname(os.path.dirname(os.path.dirname(os.path.realpath(__file__))))


class NoProgram(Exception):
    """There is no program to ask."""


def find():
    """The path of the program: FBR in the environment, out/fbr of this repository, `fbr` on the PATH, or its trial build; raises NoProgram."""
    named = os.environ.get("FBR")
    if named:
        return named
    built = [f"{TOP}/out/fbr", shutil.which("fbr"), f"{TOP}/out/trial/fbr_main"]
    for path in built:
        if path and os.path.isfile(path):
            return path
    raise NoProgram("there is no program fbr: build it with ./build or ./trial, or name it by FBR=FILE")


def explained(file):
    """What `fbr explain FILE --json` says, as values; raises NoProgram if it cannot be run or answers something else."""
    path = find()
    try:
        done = subprocess.run([path, "explain", file, "--json"], capture_output=True, text=True)
        return json.loads(done.stdout)
    except (OSError, json.JSONDecodeError) as error:
        raise NoProgram(f"{path} does not answer: {error}") from error
