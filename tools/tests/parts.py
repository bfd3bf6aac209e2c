"""What the tests of tools share: the program, the tools as they are called, and files for a while."""
import functools
import os
import pathlib
import socket
import subprocess
import sys
import tempfile
import time
import unittest

TESTS = pathlib.Path(__file__).resolve().parent
TOOLS = TESTS.parent
TOP = TOOLS.parent
DATA = TESTS / "data"
sys.path.insert(0, str(TOOLS))


@functools.cache
def program():
    """The program: FBR of the environment, the proved one, or a trial build. Which one is said once."""
    if not os.environ.get("FBR"):
        proved = TOP / "out" / "fbr"
        trial = [str(TOP / ".ci" / "trial_of"), "fbr_main"]
        os.environ["FBR"] = str(proved) if proved.is_file() else subprocess.run(trial, stdout=subprocess.PIPE, text=True, check=True).stdout.strip()
    print(f"The tests of tools run {os.environ['FBR']}.", file=sys.stderr)
    return os.environ["FBR"]


def free_port(kind=socket.SOCK_STREAM):
    """A port of 127.0.0.1 that nobody has at the moment."""
    with socket.socket(socket.AF_INET, kind) as it:
        it.bind(("127.0.0.1", 0))
        return it.getsockname()[1]


def waited(holds, patience=30.0, pause=0.02):
    """What `holds` gives as soon as that is something; None after so many seconds."""
    end = time.monotonic() + patience
    while not (found := holds()):
        if time.monotonic() > end:
            return None
        time.sleep(pause)
    return found


def run(*words, input=None, cwd=None, env=None):
    """What a command prints, and its status."""
    return subprocess.run([str(it) for it in words], input=input, cwd=cwd, env=env, capture_output=True, text=True)


def fbr(*words, input=None):
    return run(program(), *words, input=input)


class Folder(unittest.TestCase):
    """A test with a folder of its own, in which the tools are run."""

    maxDiff = None

    def setUp(self):
        kept = tempfile.TemporaryDirectory()
        self.addCleanup(kept.cleanup)
        self.folder = pathlib.Path(kept.name)

    def put(self, name, text):
        (self.folder / name).write_text(text, encoding="utf-8")

    def get(self, name):
        return (self.folder / name).read_text(encoding="utf-8")

    def imported(self, *words):
        return run(sys.executable, TOOLS / "fbr-import", *words, cwd=self.folder)

    def exported(self, *words, on_grid=False):
        """What fbr-export prints; `on_grid` hides dot from it, which takes most of the time."""
        program()
        env = {**os.environ, "PATH": ""} if on_grid else None
        return run(sys.executable, TOOLS / "fbr-export", *words, cwd=self.folder, env=env)
