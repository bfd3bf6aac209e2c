#!/usr/bin/env python3
"""Throws mutated texts, certificates, scripts and words at fbr: hostile/fuzz.py PROGRAM [--seed N] [--count N] [--first N] [--jobs N] [--keep FOLDER]

What is mutated are the texts, certificates and scripts of examples/ and of the cases of tests/. Each trial is made of the seed and its number alone: a pair of texts, in
which bytes or tokens are taken out, repeated, swapped or replaced, and numbers set to edge values. It is given to `check` (by files and by standard input), `bound`, `explain`
and `draw`; where a certificate is found, or the pair is accepted, a random script is given to `sim`, and now and then datagrams to a device that `serve` runs. Every tenth trial is one of random words.

Of each run is asked: it ends in time, by no signal, with the status that belongs to what it printed, without a panic, with one outcome of a documented form whose offset or line is
one of the text; of all together: `explain` begins as `check` does, what `bound` found is accepted, a walk is closed, each line of a script has one answer of a documented form, no entry
takes more steps than its WEIGHT, no cause more than its bound, and no root more than its FAR where no datagram was admitted too often. A trial that fails is kept in a folder."""
import argparse
import concurrent.futures
import itertools
import os
import pathlib
import random
import re
import shutil
import socket
import struct
import subprocess
import sys
import tempfile
import threading

TOP = pathlib.Path(__file__).resolve().parent.parent
SECONDS = 60
EDGES = [0, 1, 2, 15, 16, 17, 63, 64, 127, 128, 255, 256, 1023, 1024, 4095, 4096, 4097, 32767, 32768, 65535, 65536, 10**12, 10**12 + 1]
EDGES += [2**31 - 1, 2**31, 2**32 - 1, 2**32, 2**63 - 1, 2**63, 2**64 - 1, 2**64, 10**30]
TOKEN = re.compile(r"\(\*.*?\*\)|[A-Za-z0-9_#]+|:=|->|\.\.|<=|>=|<>|\s+|.", re.DOTALL)

# What follows `refused`, by the number.
OFFSETS, LINES, PATHS = [1, 2, 3, 5, *range(10, 19), 20], [30, 31, 60], [34, 35, 36, 37, 38, 39, 40, 41, 44]
PATH = r"\w+(\.\w+)*"
PLACES = {code: r" \d+" for code in [*OFFSETS, *LINES, 42, 62]}
PLACES |= {code: f" {PATH}" for code in [*PATHS, 19, 21, 32]} | {4: "", 59: "", 63: "", 33: f"( {PATH})?", 43: f"( {PATH})+", 61: " .+"}
WIRE = "Short|Magic|Version|Kind|Count|TypeCode|Value|Trailing"
DENIED = rf"denied (5[014678]|52 \d+|53 needs (?P<needs>\d+) free (?P<free>\d+)|55 ({WIRE})|64 \d+ \d+)"
ANSWERS = {
    "offer": re.compile(rf"cause \d+|{DENIED}"),
    "deliver": re.compile(rf"(?P<cause>cause \d+)|{DENIED}"),
    "tick": re.compile(r"fired \d+"),
    "dispatch": re.compile(
        rf"idle|ran (?P<path>{PATH}) steps (?P<steps>\d+)( write \d+( -?\d+)*| send \d+)?( ended \d+ (?P<total>\d+) of (?P<bound>\d+))?"
    ),
    "root": re.compile(r"root \d+ steps (?P<steps>\d+)( of (?P<far>\d+))?"),
}
SUMS = re.compile(r"fired (\d+) received (\d+) denied (\d+) ran (\d+) sent (\d+) lost (\d+)")
NONE = b"CERT 1\n"
# An address that sends nothing here, and options with which a device runs.
STRANGER = "10.0.0.1"
OPTIONS = [], ["--verbose"], ["--clock", "--summary", "1"], ["--from", "127.0.0.1"], ["--from", STRANGER, "--verbose"]
WORDS = "check bound sim serve explain draw help --help --version -h -V --repeats --search --ranges --room --strict --allow --all --bind --turns --boot --from --until-eof --boot-file --verbose --summary --clock --stop-on-lost-output --flat --chart -- - 0 1 2 255 256 43 -1 4294967296 D x APP CERT".split()


class Wrong(Exception):
    """What no run may do."""


def ask(holds, why):
    if not holds:
        raise Wrong(why)


def status_of(line):
    """The status that belongs to a first line."""
    words = line.split()
    if words[:1] != ["refused"]:
        return 0
    code = int(words[1])
    if 32 <= code <= 44 or code == 19 and not words[2].isdigit():
        return 1
    return {9: 4, 59: 3, 61: 3, 62: 3}.get(code, 2)


class Corpus:
    """What to begin with: a text, a certificate and a script each; `plants` are those that have more than a text."""

    def __init__(self):
        found = set()
        for path in (TOP / "examples").rglob("*.fb"):
            script = path.with_suffix(".script")
            for cert in path.parent.glob(f"{path.stem}*.cert"):
                found.add((path.read_bytes(), cert.read_bytes(), script.read_bytes() if script.exists() else b""))
            found.add((path.read_bytes(), NONE, b""))
        for path in (TOP / "crates/fbr_cases/data").glob("*/*.case"):
            found.update(of_cases(path.read_bytes()))
        self.all = sorted(found)
        self.plants = [it for it in self.all if it[1] != NONE]
        self.tokens = sorted({token for app, _, _ in self.all for token in tokens_of(app) if not token.isspace()})


def of_cases(cases):
    """Each text of a file of cases, with the certificate and the script that stand behind it."""
    app, cert, script = None, NONE, b""
    for section in re.split(rb"^==== ", cases, flags=re.MULTILINE)[1:]:
        header, _, text = section.partition(b"\n")
        if len(text) > 20_000 or b"\xff" in text:
            continue
        if header.startswith(b"answer") and app:
            yield app, cert, script
        elif b"END_SYSTEM" in text and b"\n====\n" not in text:
            app, cert = text.rstrip(b"\n") + b"\n", NONE
        elif text[:4].upper() == b"CERT":
            cert = text.rstrip(b"\n") + b"\n"
        elif header.startswith(b"input"):
            script = text


def is_text(some):
    try:
        some.decode()
        return True
    except UnicodeDecodeError:
        return False


def tokens_of(text):
    return TOKEN.findall(text.decode("utf-8", "replace"))


def by_bytes(rng, text):
    """A text with one change of its bytes."""
    at = rng.randrange(len(text) + 1)
    to = min(len(text), at + rng.choice([1, 1, 2, 8, 40]))
    return rng.choice(
        [
            lambda: text[:at] + text[to:],
            lambda: text[:to] + text[at:],
            lambda: text[:at],
            lambda: text[:at] + bytes([rng.choice([0, 9, 13, 32, 40, 64, 127, 128, 255, rng.randrange(256)])]) + text[at:],
            lambda: text[:at] + bytes(byte ^ 1 << rng.randrange(8) for byte in text[at : at + 1]) + text[at + 1 :],
            lambda: text[:at] + rng.choice(["é", "∀", "\U0001f600", "\u2028"]).encode() + text[at:],
        ]
    )()


def by_tokens(rng, text, corpus):
    """A text with one change of its tokens."""
    tokens = tokens_of(text)
    words = [at for at, token in enumerate(tokens) if not token.isspace()]
    if not words:
        return text
    at, other = rng.choice(words), rng.choice(words)
    numbers = [it for it in words if tokens[it].isdigit()]
    change = rng.randrange(8)
    if change == 0:
        tokens[at] = ""
    elif change == 1:
        tokens[at] += f" {tokens[at]}"
    elif change == 2:
        tokens[at], tokens[other] = tokens[other], tokens[at]
    elif change == 3:
        tokens[at] = tokens[other]
    elif change == 4:
        tokens[at] = rng.choice(corpus.tokens)
    elif change == 5:
        first, last = sorted((at, other))
        tokens[first:first] = [*tokens[first : min(last, first + 30)], " "]
    elif numbers:
        tokens[rng.choice(numbers)] = str(rng.choice([*EDGES, rng.randrange(100)]))
    return "".join(tokens).encode()


def by_lines(rng, text):
    """A certificate or a script with one change of its lines."""
    lines = text.splitlines(keepends=True)
    if not lines:
        return text
    at, other = rng.randrange(len(lines)), rng.randrange(len(lines))
    change = rng.randrange(4)
    if change == 0:
        del lines[at]
    elif change == 1:
        lines.insert(other, lines[at])
    elif change == 2:
        lines[at], lines[other] = lines[other], lines[at]
    else:
        words = lines[at].split()
        numbers = [it for it, word in enumerate(words) if word.lstrip(b"-").isdigit()]
        if numbers:
            it = rng.choice(numbers)
            words[it] = str(rng.choice([int(words[it]) + 1, int(words[it]) - 1, rng.choice(EDGES)])).encode()
            lines[at] = b" ".join(words) + b"\n"
    return b"".join(lines)


def mutated(rng, text, corpus, lines=False):
    for _ in range(rng.choice([0, 1, 1, 2, 3])):
        ways = [lambda it: by_bytes(rng, it), lambda it: by_tokens(rng, it, corpus)]
        ways += [lambda it: by_lines(rng, it)] * 3 if lines else [ways[1]] * 2
        text = rng.choice(ways)(text)
    return text


def numbers_of(app):
    """The numbers of INPUTs, OUTPUTs and channels that stand in a text."""
    return [int(it) for it in re.findall(rb"(?i)ID\s*:=\s*(\d{1,5})\b", app)] or [1]


def send_all(datagrams, port, ended):
    """Sends datagrams to a port, again and again until it is told to end."""
    with socket.socket(socket.AF_INET, socket.SOCK_DGRAM) as link:
        while not ended.wait(0.002):
            for it in datagrams:
                link.sendto(it, ("127.0.0.1", port))


class Trial:
    """One pair of texts, and all that is asked of it."""

    def __init__(self, program, corpus, seed, number, folder):
        self.program, self.corpus, self.number = program, corpus, number
        self.rng = random.Random(f"{seed} {number}")
        self.folder = folder
        os.makedirs(folder)
        self.runs, self.accepted, self.found, self.played = 0, 0, 0, 0

    def file(self, name, text):
        path = f"{self.folder}/{name}"
        with open(path, "wb") as it:
            it.write(text)
        return path

    def run(self, words, stdin=b"", seconds=SECONDS):
        """Runs the program, and asks what holds of each run."""
        self.runs += 1
        self.said = f"{words}"
        with open(self.file("input", stdin), "rb") as given:
            try:
                done = subprocess.run([self.program, *words], stdin=given, capture_output=True, timeout=seconds)
            except subprocess.TimeoutExpired:
                raise Wrong(f"no end within {seconds} seconds") from None
        self.said = f"{words}: status {done.returncode}, {done.stdout[:300]!r}, {done.stderr[:300]!r}"
        ask(0 <= done.returncode <= 4, "a status that no page knows, or a signal")
        ask(not re.search(rb"panic|Sanitizer|overflow|assert", done.stderr), "a panic")
        try:
            return done.returncode, done.stdout.decode()
        except UnicodeDecodeError:
            raise Wrong("printed what is no UTF-8") from None

    def outcome(self, words, app, cert, stdin=b""):
        """The outcome of a command that prints one line, or that line first."""
        status, said = self.run(words, stdin)
        first = said.partition("\n")[0]
        if first.startswith("refused "):
            self.ask_refusal(first, app, cert)
        ask(status == status_of(first), f"status {status} with {first!r}")
        ask(said.endswith("\n"), "the last line has no end")
        return said

    def ask_refusal(self, line, app, cert):
        told = re.fullmatch(r"refused (\d+)(.*)", line)
        ask(told and re.fullmatch(PLACES.get(int(told[1]), "never"), told[2]), f"{line!r} is no refusal")
        code, place = int(told[1]), told[2].strip()
        ask(code not in (9, 21, 59, 60, 62, 63), "a refusal for which there is no cause")
        ask(code != 61 or not (is_text(app) and is_text(cert)), "what is text is not read")
        if code in OFFSETS or code == 19 and place.isdigit():
            ask(int(place) <= len(app), "an offset past the text")
        if code in (30, 31):
            ask(1 <= int(place) <= cert.count(b"\n") + 1, "a line past the certificate")
        if code == 43:
            walk = place.split()
            # A state and an event may have one name.
            ask(len(walk) > 1 and walk[0] == walk[-1] and max(map(walk[1:].count, walk)) <= 2, "the walk is not closed")

    def pair(self):
        """A pair, mutated, at every command."""
        rng = self.rng
        app, cert, self.example = rng.choice(rng.choice([self.corpus.plants, self.corpus.all]))
        if rng.random() < 0.6:
            app = mutated(rng, app, self.corpus)
        if rng.random() < 0.6:
            cert = mutated(rng, cert, self.corpus, lines=True)
        files = self.file("app", app), self.file("cert", cert)
        verdict = self.outcome(["check", *files], app, cert)
        ask(verdict.count("\n") == 1 and (verdict == "accepted\n" or verdict.startswith("refused ")), "no verdict")
        told = self.outcome(["explain", *files], app, cert)
        ask(told.startswith(verdict), f"explain begins otherwise than {verdict!r}")
        if b"====" not in app and app.endswith(b"\n") and b"\xff" not in app and not verdict.startswith("refused 61"):
            ask(self.outcome([], app, cert, app + b"====\n" + cert) == verdict, f"standard input is judged otherwise than {verdict!r}")
        repeats = rng.choice([None, None, 1, 2, 255])
        self.bound(app, files[0], repeats)
        self.outcome(["draw", *files, *rng.choice([[], ["--flat"]])], app, cert)
        self.chart(app, cert, files)
        if verdict == "accepted\n":
            self.accepted += 1
            self.play(app, files[0], cert.decode(), files[1])

    def chart(self, app, cert, files):
        """A chart is drawn of a basic block type, and other names are refused as words at fault."""
        names = re.findall(rb"(?i)\bFUNCTION_BLOCK\s+([A-Z_]\w*)", app) or [b"none"]
        words = ["draw", *files, "--chart", self.rng.choice(names).decode()]
        if self.run(words) == (2, "refused 63\n"):
            return
        drawn = self.outcome(words, app, cert)
        ask(drawn.startswith("refused ") or drawn.startswith("digraph ") and drawn.endswith("}\n"), "neither a chart nor a refusal")

    def bound(self, app, path, repeats):
        option = ["--repeats", str(repeats)] if repeats else []
        found = self.outcome(["bound", path, *option], app, b"")
        told = self.outcome(["explain", path, *option], app, b"")
        drawn = self.outcome(["draw", path, *option], app, b"")
        self.searched(app, path, option, found)
        if found.startswith("refused"):
            ask(found.count("\n") == 1, "more than one line")
            ask(told.startswith(found), f"explain begins otherwise than {found!r}")
            # Of too many connections `bound` names the resource by its path, and `draw` by its offset.
            alike = drawn == found or drawn.startswith("refused 19 ") and found.startswith("refused 19 ")
            ask(alike or drawn.startswith("digraph ") and drawn.endswith("}\n"), "neither a graph nor a refusal")
            return
        self.found += 1
        ask(found.startswith("CERT 1\n") and ("\nREPEATS " in found) == bool(repeats), "no certificate")
        ask(told.startswith("accepted\n"), "explain does not accept what has a certificate")
        ask(drawn.startswith("digraph ") and drawn.endswith("}\n"), "no graph")
        cert = self.file("found", found.encode())
        ask(self.outcome(["check", path, cert], app, found.encode()) == "accepted\n", "a certificate that was found is refused")
        self.play(app, path, found, cert)
        ask(self.outcome(["bound", path, "--ranges", cert, *option], app, found.encode()) == found, "its own ranges give another certificate")
        self.roomy(app, path, option, found)
        other = mutated(self.rng, found.encode(), self.corpus, lines=True)
        at = self.file("other", other)
        verdict = self.outcome(["check", path, at], app, other)
        if verdict == "accepted\n" and other != found.encode():
            self.accepted += 1
            self.play(app, path, other.decode(), at)

    def searched(self, app, path, option, found):
        """A search answers what is found without one, or where that is 44 perhaps a certificate that is accepted."""
        searched = self.outcome(["bound", path, "--search", *option], app, b"")
        if searched != found:
            ask(found.startswith("refused 44 ") and searched.startswith("CERT 1\n"), f"a search answers otherwise than {found!r}")
            cert = self.file("searched", searched.encode())
            ask(self.outcome(["check", path, cert], app, searched.encode()) == "accepted\n", "a certificate that was searched for is refused")

    def roomy(self, app, path, option, found):
        """With more room only depths differ, and none is less."""
        times = self.rng.choice([1, 2, 3, 255])
        roomy = self.outcome(["bound", path, "--room", str(times), *option], app, b"")
        for one, other in itertools.zip_longest(found.splitlines(), roomy.splitlines()):
            if one != other:
                ask(one and other and one.split()[:2] == other.split()[:2] and one.startswith("DEPTH "), "more room changes another row")
                ask(int(one.split()[2]) < int(other.split()[2]), "more room is less")
        cert = self.file("roomy", roomy.encode())
        ask(self.outcome(["check", path, cert], app, roomy.encode()) == "accepted\n", "a certificate with more room is refused")

    def play(self, app, path, cert, at):
        """A random script over an accepted pair, and now and then some turns."""
        rng = self.rng
        rows = [line.upper().split() for line in cert.splitlines() if line.strip()]
        resources = [row[1].split(".") for row in rows if row[0] == "DEPTH"]
        if not resources:
            return
        self.played += 1
        script = self.script(app, resources)
        status, said = self.run(["sim", path, at], script.encode())
        self.ask_answers(rows, script, status, said)
        if rng.random() < 0.1:
            self.serve(app, path, at, rng.choice(resources)[0])

    def script(self, app, resources):
        """Random lines, some of them of the example's script, and now and then changed."""
        rng = self.rng
        own = self.example.decode("utf-8", "ignore").splitlines() or [""]
        numbers = numbers_of(app)
        values = ["0", "1", "-1", "7", "127", "128", "300", "-32768", "65535", "2147483647", "9223372036854775807", "-9223372036854775808"]
        moment, lines = 0, []
        for _ in range(rng.choice([5, 40, 200])):
            device, resource = rng.choice(resources)
            moment = min(2**64 - 1, moment + rng.choice([0, 1, 10, 100, 1000, 2**40, 2**63] if rng.random() < 0.1 else [0, 1, 10, 100]))
            lines += rng.choice(
                [
                    lambda: [" ".join(["offer", device, str(rng.choice(numbers)), *rng.choices(values, k=rng.choice([0, 0, 1, 1, 2, 3]))])],
                    lambda: [f"tick {device} {rng.choice([moment, moment, moment // 2])}"],
                    lambda: [f"dispatch {device} {resource}"] * rng.choice([1, 2, 5, 20]),
                    lambda: [f"deliver {rng.choice([1, 1, 1, 2, 3])} {device}"],
                    lambda: [f"root {rng.choice([1, 1, 2, 3])}"] if rng.random() < 0.3 else [""],
                    lambda: own[: rng.randrange(len(own) + 1)] if rng.random() < 0.3 else [rng.choice(own)],
                ]
            )()
        script = "\n".join(lines) + "\n"
        return mutated(rng, script.encode(), self.corpus, lines=True).decode("utf-8", "ignore") if rng.random() < 0.2 else script

    def ask_answers(self, rows, script, status, said):
        """One answer a line, each of its form and within its bounds, up to the line that is none."""
        weights = {row[1]: int(row[2]) for row in rows if row[0] == "WEIGHT"}
        repeats = next((int(row[1]) for row in rows if row[0] == "REPEATS"), None)
        calls = [(at, line) for at, line in enumerate(script.split("\n"), 1) if line.strip(" \r")]
        answers = said.splitlines()
        admitted = {}
        for (at, line), answer in zip(calls, answers):
            if answer.startswith("refused "):
                ask(answer == f"refused 60 {at}" and answer == answers[-1] and status == 2, f"line {at}: {answer!r}")
                return
            words = line.split()
            told = ANSWERS.get(words[0], re.compile("never")).fullmatch(answer)
            ask(told, f"line {at}: {line!r} is answered {answer!r}")
            given = told.groupdict()
            if given.get("needs"):
                ask(int(given["needs"]) > int(given["free"]), f"line {at}: denied though there is room")
            if given.get("path"):
                ask(int(given["steps"]) <= weights[given["path"]], f"line {at}: more steps than the WEIGHT")
            if given.get("total"):
                ask(int(given["total"]) <= int(given["bound"]), f"line {at}: more steps than the bound")
            if given.get("cause"):
                key = int(words[1]), words[2].upper()
                admitted[key] = admitted.get(key, 0) + 1
            if given.get("far") and max(admitted.values(), default=0) <= repeats:
                ask(int(given["steps"]) <= int(given["far"]), f"line {at}: a root of more steps than its FAR")
        ask(len(answers) == len(calls) and status == 0, f"{len(calls)} lines, {len(answers)} answers")

    def datagram(self, numbers):
        """A message to an INPUT or a channel of the text, and now and then one with a change of its bytes."""
        rng = self.rng
        values = [(rng.randrange(9), rng.choice([0, 1, 5, -1, 127, 255, 2**31, -(2**63)])) for _ in range(rng.choice([0, 0, 1, 1, 2, 16]))]
        stamp = struct.pack(">II", rng.choice([0, 1, 2**32 - 1]), rng.choice([1, 2, 3, 2**32 - 1])) if rng.random() < 0.3 else b""
        head = struct.pack(">2sBBH", b"FB", 2 if stamp else 1, 1 if stamp else rng.choice([1, 2]), rng.choice(numbers) % 65536) + stamp
        whole = head + bytes([len(values)]) + b"".join(struct.pack(">Bq", *it) for it in values)
        return by_bytes(rng, whole) if rng.random() < 0.3 else whole

    def serve(self, app, path, cert, device):
        """Some turns of a device, to which datagrams are sent."""
        with socket.socket(socket.AF_INET, socket.SOCK_DGRAM) as it:
            it.bind(("127.0.0.1", 0))
            port = it.getsockname()[1]
        datagrams = [self.datagram(numbers_of(app)) for _ in range(50)]
        ended = threading.Event()
        sender = threading.Thread(target=send_all, args=(datagrams, port, ended))
        sender.start()
        try:
            turns = str(self.rng.choice([0, 1, 3, 40]))
            options = self.rng.choice(OPTIONS)
            status, said = self.run(["serve", path, cert, device, "--bind", str(port), "--turns", turns, *options, str(port)])
        finally:
            ended.set()
            sender.join()
        *writes, last = said.splitlines() or [""]
        clock = r"\d+ " if "--clock" in options else ""
        ask(all(re.fullmatch(clock + r"write \d+( -?\d+)*", line) for line in writes), "a line that is no write")
        sums = SUMS.fullmatch(last)
        ask(status == 0 and sums or status == 3 and last == f"refused 62 {port}", "no sums")
        if sums:
            _, received, denied, ran, sent, lost = map(int, sums.groups())
            ask(denied <= received and len(writes) + sent + lost <= ran, "sums that do not add up")
            ask(received == 0 or STRANGER not in options, "a datagram of a stranger that was received")

    def words(self):
        """Random words, none of which serves for long."""
        words = [self.rng.choice(WORDS) for _ in range(self.rng.randrange(6))]
        if "serve" in words:
            words += ["--bind", "0"]
        status, said = self.run(words)
        refused = re.search(r"^refused (\d+)", said, re.MULTILINE)
        if refused:
            ask(status == status_of(refused[0] + " x"), f"status {status}")
        else:
            ask(status == 0 and said, "neither an outcome nor help")


def tried(program, corpus, seed, number, folder, keep):
    """Runs a trial. Returns it, and what was wrong."""
    trial = Trial(program, corpus, seed, number, f"{folder}/{number}")
    wrong = None
    try:
        trial.words() if number % 10 == 0 else trial.pair()
    except Wrong as it:
        wrong = f"seed {seed}, trial {number}: {it}\n    fbr {trial.said}"
        kept = f"{keep}/fuzz-{seed}-{number}"
        shutil.rmtree(kept, ignore_errors=True)
        shutil.copytree(trial.folder, kept)
        with open(f"{kept}/wrong", "w") as it:
            it.write(f"{wrong}\n")
        wrong += f"\n    kept in {kept}"
    shutil.rmtree(trial.folder)
    return trial, wrong


def main():
    words = argparse.ArgumentParser()
    words.add_argument("program")
    for name, value in (("--seed", 1), ("--count", 300), ("--first", 0), ("--jobs", 2)):
        words.add_argument(name, type=int, default=value)
    words.add_argument("--keep", default=tempfile.gettempdir())
    given = words.parse_args()
    program, corpus = os.path.abspath(given.program), Corpus()
    with tempfile.TemporaryDirectory() as folder, concurrent.futures.ThreadPoolExecutor(given.jobs) as pool:
        numbers = range(given.first, given.first + given.count)
        trials = list(pool.map(lambda it: tried(program, corpus, given.seed, it, folder, given.keep), numbers))
    wrong = [it for _, it in trials if it]
    for it in wrong:
        print(it)
    sums = [sum(getattr(trial, what) for trial, _ in trials) for what in ("runs", "accepted", "found", "played")]
    if given.count >= 100 and not all(sums):
        wrong.append("nothing was accepted, or nothing found")
        print(wrong[-1])
    print("fuzz: seed {}, {} trials, {} runs, {} accepted, {} found, {} scripts, {} wrong".format(given.seed, len(trials), *sums, len(wrong)))
    return 1 if wrong else 0


if __name__ == "__main__":
    sys.exit(main())
