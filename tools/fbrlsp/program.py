"""Asks `fbr` what it says of a text."""
import json
import os
import re
import shutil
import signal
import subprocess
import threading
from dataclasses import dataclass, field

from fbrtools import program

# A run that takes longer is ended: it is told, and the text is asked about again when it changes.
MOST_SECONDS = 60.0


class NoProgram(Exception):
    """There is no program to ask; the text says what to do."""


@dataclass
class Answer:
    """What came of a run: the objects that `fbr` printed, or what went wrong."""

    objects: list[dict] = field(default_factory=list)
    # It gave no answer: in what way.
    broke: str = ""
    # There is no program.
    missing: str = ""


class Program:
    """The program `fbr`, which alone says what is right."""

    def __init__(self, named: str | None = None, files: list[str] | None = None) -> None:
        self.named = named
        # Files whose block types stand before each text.
        self.files = files or []
        self.lock = threading.Lock()
        self.words: dict[str, list[str]] = {}

    def find(self) -> str:
        """Its path; NoProgram if there is none."""
        try:
            path = self.named or program.find()
        except program.NoProgram:
            path = None
        found = shutil.which(path) if path else None
        if found is None:
            there = f"{path} is no program that can be run. " if path else "There is no program fbr. "
            raise NoProgram(f"{there}Name it by `fbr-lsp --fbr PATH`, by FBR in the environment, or put `fbr` on the PATH; until then no text is checked.")
        return found

    def words_of(self, path: str) -> list[str]:
        """The words that ask for all faults of a text on standard input, as far as this program has them; it is asked once."""
        with self.lock:
            if path not in self.words:
                # Without a standard input: that of the server is its client's.
                how = {"stdin": subprocess.DEVNULL, "capture_output": True, "text": True, "errors": "replace", "timeout": 10}
                done = subprocess.run([path, "explain", "--help"], **how)
                self.words[path] = ["explain", "-", "--json"] + (["--all"] if re.search(r"--all\b", done.stdout) else [])
            return self.words[path]

    def words_with(self, own: str | None) -> list[str]:
        """The words for the files of block types, but for the one that the text is of: its types stand there already."""
        others = [it for it in self.files if own is None or os.path.realpath(it) != os.path.realpath(own)]
        return [word for it in others for word in ("--with", it)]


class Run:
    """One run over a text, in a thread of its own; `tell` is called there with the answer, unless the run was overtaken before. `own` is the file of the text."""

    def __init__(self, asked: Program, text: bytes, tell, own: str | None = None) -> None:
        self.asked, self.text, self.tell, self.own = asked, text, tell, own
        self.job: subprocess.Popen | None = None
        self.lock = threading.Lock()
        self.is_overtaken = False
        threading.Thread(target=self.work, daemon=True).start()

    def overtake(self) -> None:
        """Ends the run: nobody wants its answer any more."""
        with self.lock:
            self.is_overtaken = True
            if self.job and self.job.poll() is None:
                self.job.kill()

    def start(self, words: list[str]) -> subprocess.Popen | None:
        """Starts the program, unless the run was overtaken already."""
        with self.lock:
            if not self.is_overtaken:
                self.job = subprocess.Popen(words, stdin=subprocess.PIPE, stdout=subprocess.PIPE, stderr=subprocess.PIPE)
            return self.job

    def work(self) -> None:
        """Runs the program and tells what it answered."""
        try:
            answer = self.answer()
        except NoProgram as why:
            answer = Answer(missing=str(why))
        except (OSError, subprocess.SubprocessError) as why:
            answer = Answer(broke=f"fbr cannot be run: {why}")
        if answer and not self.is_overtaken:
            self.tell(answer)

    def answer(self) -> Answer | None:
        """What the program answers; None if the run was overtaken."""
        path = self.asked.find()
        job = self.start([path, *self.asked.words_of(path), *self.asked.words_with(self.own)])
        if job is None:
            return None
        try:
            printed, said = job.communicate(self.text, timeout=MOST_SECONDS)
        except subprocess.TimeoutExpired:
            job.kill()
            job.communicate()
            return Answer(broke=f"fbr took more than {MOST_SECONDS:.0f} seconds, and was ended")
        return read_answer(job.returncode, printed, said)


def read_answer(status: int, printed: bytes, said: bytes) -> Answer:
    """The objects of what was printed, a line each; what went wrong if there are none."""
    if status < 0:
        return Answer(broke=f"fbr was ended by {signal_name(-status)}")
    try:
        objects = [json.loads(it) for it in printed.decode("utf-8", "replace").splitlines() if it.strip()]
    except (ValueError, RecursionError):
        objects = []
    if not objects or not all(isinstance(it, dict) and "verdict" in it for it in objects):
        last = said.decode("utf-8", "replace").strip().splitlines()
        return Answer(broke=f"fbr answered no JSON and ended with {status}" + (f": {last[-1]}" if last else ""))
    return Answer(objects)


def signal_name(number: int) -> str:
    """The name of a signal."""
    try:
        return signal.Signals(number).name
    except ValueError:
        return f"signal {number}"
