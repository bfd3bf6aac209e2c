#!/usr/bin/env python3
"""Both sides of each edge of texts, certificates and words: hostile/edges.py PROGRAM

PROGRAM is `fbr`. Each row is an input with the line that the rules of the language demand of it, and not one that a program has printed: in an application a
mark (`¦`) stands where it is to be refused. What is accepted is accepted by `check`, with a certificate that stands here or that `bound` finds; what is refused is
refused alike by `check`, `bound` and `explain`, with the status of its number. Then the button and cell is cut behind each byte of its text, and of its certificate.
Ends with 0 where every row came as it has to."""
import collections
import concurrent.futures
import os
import re
import shutil
import socket
import subprocess
import sys
import tempfile

TOP = os.path.dirname(os.path.dirname(os.path.abspath(__file__)))
MARK = "¦"
MOST_TEXT, MOST_CERT, MOST_FILE, MOST_LINE = 1_048_576, 16_777_216, 33_554_432, 1_048_576
SECONDS = 60


def example(name):
    with open(f"{TOP}/examples/{name}") as it:
        return it.read()


CELL, CELL_CERT = example("button_and_cell.fb"), example("button_and_cell.cert")
CELL_TYPE = CELL[: CELL.index("SYSTEM")]


def status_of(line):
    """The status that belongs to a first line. 19 at a path, and not at an offset, is the finder's."""
    words = line.split()
    if not words or words[0] != "refused":
        return 0
    code = int(words[1])
    if 32 <= code <= 44 or code == 19 and not words[2].isdigit():
        return 1
    return {9: 4, 59: 3, 61: 3, 62: 3}.get(code, 2)


# `wanted` are the lines of which one has to be printed: as the only one where `whole`, else as the first. What is printed is a certificate of the text `then`, where that is given.
Row = collections.namedtuple("Row", "label words wanted whole stdin then")


class Table:
    """The rows, and the files that they name."""

    def __init__(self, folder):
        self.folder, self.rows, self.files = folder, [], 0

    def file(self, text):
        self.files += 1
        path = f"{self.folder}/{self.files}"
        with open(path, "wb") as it:
            it.write(text if isinstance(text, bytes) else text.encode())
        return path

    def add(self, label, words, wanted, whole=True, stdin=b"", then=None):
        self.rows.append(Row(label, words, [wanted] if isinstance(wanted, str) else wanted, whole, stdin, then))

    def refused_text(self, label, code, marked):
        """A text that is refused at its mark, or without a place where it has none, by every command."""
        at = marked.find(MARK)
        text = marked.replace(MARK, "")
        line = f"refused {code}" + (f" {len(marked[:at].encode())}" if at >= 0 else "")
        app, cert = self.file(text), self.file("CERT 1\n")
        self.add(label, ["check", app, cert], line)
        self.add(label, ["bound", app], line)
        self.add(label, ["explain", app], line, whole=False)

    def accepted_text(self, label, text, cert=None):
        """A text that is accepted, with this certificate or with one that is found."""
        app = self.file(text)
        if cert is None:
            self.add(label, ["bound", app], "CERT 1", whole=False, then=app)
        else:
            self.accepted_cert(label, app, cert)

    def accepted_cert(self, label, app, cert):
        path = self.file(cert)
        self.add(label, ["check", app, path], "accepted")
        self.add(label, ["explain", app, path], "accepted", whole=False)

    def refused_cert(self, label, app, cert, line):
        path = self.file(cert)
        self.add(label, ["check", app, path], line)
        self.add(label, ["explain", app, path], line, whole=False)


def answered(program, words, stdin):
    with tempfile.TemporaryFile() as given:
        given.write(stdin)
        given.seek(0)
        done = subprocess.run([program, *words], stdin=given, capture_output=True, timeout=SECONDS)
    return done.returncode, done.stdout.decode(errors="surrogateescape"), done.stderr.decode(errors="replace")


def differs(program, row):
    """What is wrong with a row, or nothing."""
    shown = f"{row.label}: fbr {' '.join(row.words)[:300]}"
    try:
        status, said, told = answered(program, row.words, row.stdin)
    except subprocess.TimeoutExpired:
        return f"{shown}\n    no answer within {SECONDS} seconds"
    first = said.split("\n")[0]
    fits = said in [f"{line}\n" if line else "" for line in row.wanted] if row.whole else first in row.wanted
    if not fits or status != status_of(first) or "panic" in told:
        return f"{shown}\n    has to print {' or '.join(map(repr, row.wanted))}, and printed {said[:200]!r}, status {status}, {told[:200]!r}"
    if row.then is None:
        return None
    with open(f"{row.then}.found", "w") as it:
        it.write(said)
    return differs(program, Row(row.label, ["check", row.then, f"{row.then}.found"], ["accepted"], True, b"", None))


def block(statement, variables="X : LINT;"):
    """A block that runs a statement at each press of a button."""
    return f"""FUNCTION_BLOCK B
EVENT_INPUT GO; END_EVENT
VAR {variables} END_VAR
EC_STATES IDLE; ACT : DO_IT; END_STATES
EC_TRANSITIONS IDLE TO ACT := GO; ACT TO IDLE := 1; END_TRANSITIONS
ALGORITHM DO_IT IN ST: {statement} END_ALGORITHM
END_FUNCTION_BLOCK
SYSTEM S DEVICE D RESOURCE R
FBS BUTTON : INPUT(ID := 1); C : B; END_FBS
EVENT_CONNECTIONS BUTTON.IND TO C.GO; END_CONNECTIONS
END_RESOURCE END_DEVICE END_SYSTEM
"""


def nested(opening, middle, closing, count, most):
    """So many openings in one another. What opens stands behind a `^`; the first that is one too many is marked."""
    marked = [opening.replace("^", MARK if at == most else "").replace("#", str(at)) for at in range(count)]
    return "".join(marked) + middle + closing * count


def nesting(table):
    number, array = "X : LINT;", "X : LINT; A : ARRAY [0..0] OF LINT;"
    counters = number + "".join(f" I{at} : INT;" for at in range(33))
    for what, most, before, opening, middle, closing, variables in (
        ("parentheses", 64, "X := ", "^(", "1", ")", number),
        ("signs", 64, "X := ", "^- ", "1", "", number),
        ("NOT", 64, "Y := ", "^NOT ", "TRUE", "", "Y : BOOL;"),
        ("indices", 64, "X := ", "A^[", "0", "]", array),
        ("IF", 32, "", "^IF X < 5 THEN ", "X := 1;", " END_IF;", number),
        ("CASE", 32, "", "^CASE X OF 0: ", "X := 1;", " END_CASE;", number),
        ("FOR", 32, "", "^FOR I# := 1 TO 1 DO ", "X := 1;", " END_FOR;", counters),
    ):
        for count in (most, most + 1):
            text = block(before + nested(opening, middle, closing, count, most) + ";", variables)
            label = f"{count} {what} in one another"
            if count == most:
                table.accepted_text(label, text)
            else:
                table.refused_text(label, 3, text)


def numbers(table):
    table.accepted_text("the last number of LINT", block("X := 9223372036854775807;"))
    table.accepted_text("the first number of LINT", block("X := -9223372036854775808;"))
    table.refused_text("one above LINT", 13, block(f"X := {MARK}9223372036854775808;"))
    table.refused_text("the last number of all", 13, block(f"X := {MARK}18446744073709551615;"))
    table.refused_text("one more", 5, block(f"X := {MARK}18446744073709551616;"))
    table.refused_text("a hexadecimal one more", 5, block(f"X := {MARK}16#1_0000_0000_0000_0000;"))
    table.refused_text("2,000 digits", 5, block(f"X := {MARK}{'9' * 2000};"))
    table.accepted_text("2,000 zeros and a 7", block(f"X := {'0' * 2000}7;"))
    time = "X : TIME;"
    table.accepted_text("the longest TIME", block("X := T#9223372036854775807ms;", time))
    table.refused_text("one millisecond more", 5, block(f"X := {MARK}T#9223372036854775808ms;", time))
    table.accepted_text("an ARRAY of 1,024", block("A[1023] := 1;", "A : ARRAY [0..1023] OF LINT;"))
    table.refused_text("an ARRAY of 1,025", 19, block("A[1023] := 1;", f"{MARK}A : ARRAY [0..1024] OF LINT;"))


def named(form, count, most):
    """So many declarations. A name stands behind a `^`; the first that is one too many is marked."""
    return " ".join(form.replace("^", MARK if at == most else "").replace("#", str(at)) for at in range(count))


def sizes(table):
    def both(label, most, text, code=19, cert=None):
        table.accepted_text(f"{most} {label}", text(most), cert(most) if cert else None)
        table.refused_text(f"{most + 1} {label}", code, text(most + 1))

    def filled(count):
        return CELL + " " * (count - len(CELL))

    both("bytes of a text", MOST_TEXT, filled, code=4, cert=lambda _: CELL_CERT)
    both("devices", 16, lambda n: f"SYSTEM S {named('DEVICE ^D# END_DEVICE', n, 16)} END_SYSTEM", cert=lambda _: "CERT 1\n")
    both(
        "resources of a device",
        16,
        lambda n: f"SYSTEM S DEVICE D {named('RESOURCE ^R# END_RESOURCE', n, 16)} END_DEVICE END_SYSTEM",
        cert=lambda n: "CERT 1\n" + "".join(f"DEPTH D.R{at} 1\n" for at in range(n)),
    )
    both("instances through composites", 1024, instances)
    both("value types of an OUTPUT", 16, lambda n: placed(f"{MARK if n > 16 else ''}L : OUTPUT[{', '.join(['INT'] * n)}](ID := 1);"))
    both("event inputs", 64, lambda n: of_type(f"EVENT_INPUT {named('^E#;', n, 64)} END_EVENT"))
    both("event outputs", 64, lambda n: of_type(f"EVENT_OUTPUT {named('^E#;', n, 64)} END_EVENT"))
    both("data inputs", 64, lambda n: of_type(f"VAR_INPUT {named('^V# : INT;', n, 64)} END_VAR"))
    both("data outputs", 64, lambda n: of_type(f"VAR_OUTPUT {named('^V# : INT;', n, 64)} END_VAR"))
    both("states", 256, lambda n: of_type("", states=named("^S#;", n, 256)))
    both("transitions", 1024, lambda n: of_type("EVENT_INPUT E; END_EVENT", transitions=named("^S0 TO S0 := E;", n, 1024)))
    both("composites in one another", 16, composites, cert=lambda _: "CERT 1\n")
    both("algorithms", 256, lambda n: of_type("", algorithms=named("ALGORITHM ^A# IN ST: END_ALGORITHM", n, 256)))


def composites(count):
    """Types of which each holds the next one. The first that nests too deep is named."""
    types = [f"FUNCTION_BLOCK {MARK if at + 16 < count else ''}T{at} FBS X : T{at + 1}; END_FBS END_FUNCTION_BLOCK\n" for at in range(count - 1)]
    return "".join(types) + f"FUNCTION_BLOCK T{count - 1} FBS END_FBS END_FUNCTION_BLOCK\nSYSTEM S END_SYSTEM\n"


def of_type(interface, states="S0;", transitions="", algorithms=""):
    """A text of one type, of which a device has an instance."""
    return f"""FUNCTION_BLOCK B {interface}
EC_STATES {states} END_STATES EC_TRANSITIONS {transitions} END_TRANSITIONS {algorithms}
END_FUNCTION_BLOCK {placed("C : B;")}"""


def placed(instances, connections=""):
    return f"""SYSTEM S DEVICE D RESOURCE R FBS {instances} END_FBS
EVENT_CONNECTIONS {connections} END_CONNECTIONS END_RESOURCE END_DEVICE END_SYSTEM
"""


def instances(count):
    """32 composites of 31 cells each, and further cells."""
    inner = " ".join(f"C{at} : CELL;" for at in range(31))
    further = " ".join(f"{MARK if at == 0 else ''}MORE{at} : CELL;" for at in range(count - 1024))
    outer = " ".join(f"G{at} : GROUP;" for at in range(32))
    return f"{CELL_TYPE}FUNCTION_BLOCK GROUP FBS {inner} END_FBS END_FUNCTION_BLOCK {placed(f'{outer} {further}')}"


def followed(table):
    """Four buttons, each led to one lamp 2,048 times, or the first of them once more."""
    buttons = " ".join(f"B{at} : INPUT(ID := {at});" for at in range(1, 5))
    for more in (0, 1):
        times = [2048 + more, 2048, 2048, 2048]
        wires = " ".join(f"B{at}.IND TO L.REQ;" * count for at, count in enumerate(times, 1))
        cert = "CERT 1\n" + "".join(f"WEIGHT D.R.B{at}.ARRIVE {1 + count} {count}\n" for at, count in enumerate(times, 1))
        cert += f"WEIGHT D.R.L.REQ 1 1\nDEPTH D.R {max(times)}\n"
        text = placed(f"{buttons} L : OUTPUT(ID := 1);", wires)
        app = table.file(text)
        label = f"{sum(times)} followed connections"
        if more:
            table.refused_cert(label, app, cert, f"refused 19 {text.index('R FBS')}")
            table.add(label, ["bound", app], "refused 19 D.R")
        else:
            table.accepted_cert(label, app, cert)
            table.add(label, ["bound", app], cert.rstrip("\n"))


def rows(table):
    """Edges of the rows of a certificate, of which the row at fault is the last one unless told."""
    app = table.file(CELL)
    arrive, depth = "WEIGHT D.R.BUTTON.ARRIVE 4 1", "DEPTH D.R 1"
    for label, old, new, line in (
        ("10^12 steps", arrive, "WEIGHT D.R.BUTTON.ARRIVE 1000000000000 1", None),
        ("10^12 + 1 steps", arrive, "WEIGHT D.R.BUTTON.ARRIVE 1000000000001 1", 4),
        ("10^30 steps", arrive, f"WEIGHT D.R.BUTTON.ARRIVE 1{'0' * 30} 1", 4),
        ("leading zeros", arrive, f"WEIGHT D.R.BUTTON.ARRIVE {'0' * 2000}4 01", None),
        ("4,097 places", arrive, "WEIGHT D.R.BUTTON.ARRIVE 4 4097", 4),
        ("10^12 + 1 steps of a state", "START 0 0", "START 1000000000001 0", 2),
        ("4,097 places of a state", "START 0 0", "START 0 4097", 2),
        ("depth 0", depth, "DEPTH D.R 0", 6),
        ("depth 1", depth, "DEPTH D.R 1", None),
        ("depth 4,096", depth, "DEPTH D.R 4096", None),
        ("depth 4,097", depth, "DEPTH D.R 4097", 6),
        ("a row below 0", depth, "DEPTH D.R -1", 6),
        ("CERT 2", "CERT 1", "CERT 2", 1),
    ):
        cert = CELL_CERT.replace(old, new)
        if line:
            table.refused_cert(label, app, cert, f"refused 30 {line}")
        else:
            table.accepted_cert(label, app, cert)
    cert = CELL_CERT.replace(arrive, "WEIGHT D.R.BUTTON.ARRIVE 4 4096").replace(depth, "DEPTH D.R 4096")
    table.accepted_cert("4,096 places", app, cert)
    table.refused_cert("places above the depth", app, cert.replace("R 4096", "R 4095"), "refused 40 D.R")
    table.accepted_cert(f"{MOST_CERT} bytes of a certificate", app, CELL_CERT + " " * (MOST_CERT - len(CELL_CERT)))
    table.refused_cert("one byte more", app, CELL_CERT + " " * (MOST_CERT + 1 - len(CELL_CERT)), "refused 4")
    counter, found = table.file(example("counter.fb")), example("counter.cert")
    for label, low, high, line in (
        ("RANGE to the last number of LINT", "0", "9223372036854775807", "refused 34 D.R.COUNT.CV"),
        ("RANGE to one above LINT", "0", "9223372036854775808", "refused 30 2"),
        ("RANGE from the first number of LINT", "-9223372036854775808", "9", "refused 34 D.R.COUNT.CV"),
        ("RANGE from one below LINT", "-9223372036854775809", "9", "refused 30 2"),
        ("RANGE of the whole type", "0", "65535", None),
        ("RANGE one above the type", "0", "65536", "refused 34 D.R.COUNT.CV"),
        ("RANGE low above high", "1", "0", "refused 30 2"),
    ):
        cert = found.replace("RANGE D.R.COUNT.CV 0 9", f"RANGE D.R.COUNT.CV {low} {high}")
        if line:
            table.refused_cert(label, counter, cert, line)
        else:
            table.accepted_cert(label, counter, cert)


NETWORK = """SYSTEM S
DEVICE D1 RESOURCE R
FBS BUTTON : INPUT(ID := 1); RST : E_RESTART; PUB : PUBLISH(ID := 65535, QI := TRUE); END_FBS
EVENT_CONNECTIONS BUTTON.IND TO PUB.REQ; RST.COLD TO PUB.INIT; END_CONNECTIONS
END_RESOURCE END_DEVICE
DEVICE D2 RESOURCE R
FBS RST : E_RESTART; SUB : SUBSCRIBE(ID := 65535, QI := TRUE); LAMP : OUTPUT(ID := 1); END_FBS
EVENT_CONNECTIONS RST.COLD TO SUB.INIT; SUB.IND TO LAMP.REQ; END_CONNECTIONS
END_RESOURCE END_DEVICE END_SYSTEM
"""


def network_cert(repeats):
    """The least certificate: a datagram causes 2 steps, as often as it may be delivered."""
    weights = {"D1.R.BUTTON.ARRIVE": 2, "D1.R.RST.BEGIN": 2, "D1.R.PUB.INIT": 1, "D1.R.PUB.REQ": 1}
    weights |= {"D2.R.RST.BEGIN": 2, "D2.R.SUB.INIT": 1, "D2.R.SUB.RSP": 1, "D2.R.SUB.ARRIVE": 2, "D2.R.LAMP.REQ": 1}
    channel = 2 * repeats
    far = weights | {"D1.R.BUTTON.ARRIVE": 2 + channel, "D1.R.PUB.REQ": 1 + channel}
    lines = ["CERT 1", f"REPEATS {repeats}"]
    lines += [f"WEIGHT {path} {steps} 1" for path, steps in weights.items()]
    lines += ["DEPTH D1.R 1", "DEPTH D2.R 1"]
    lines += [f"FAR {path} {steps}" for path, steps in far.items()]
    return "\n".join([*lines, f"CHANNEL 65535 {channel}"]) + "\n"


def repeats(table):
    app = table.file(NETWORK)
    for count in (1, 2, 255):
        table.accepted_cert(f"REPEATS {count}", app, network_cert(count))
        table.add(f"--repeats {count}", ["bound", app, "--repeats", str(count)], network_cert(count).rstrip("\n"))
        table.add(f"--room {count}", ["bound", app, "--room", str(count)], "CERT 1", whole=False)
    for count in (0, 256, 18446744073709551616):
        table.add(f"--room {count}", ["bound", app, "--room", str(count)], "refused 63")
        table.refused_cert(f"REPEATS {count}", app, network_cert(count), "refused 30 2")
        table.add(f"--repeats {count}", ["bound", app, "--repeats", str(count)], "refused 63")
    last = network_cert(1).count("\n")
    above = network_cert(1).replace("CHANNEL 65535", "CHANNEL 65536")
    table.refused_cert("CHANNEL 65536", app, above, f"refused 30 {last}")
    one = NETWORK.replace("ID := 65535", "ID := 65536", 1)
    table.refused_text("PUBLISH 65536", 17, one.replace("PUB :", f"{MARK}PUB :"))


def free_port():
    with socket.socket(socket.AF_INET, socket.SOCK_DGRAM) as it:
        it.bind(("127.0.0.1", 0))
        return it.getsockname()[1]


def has_ipv6():
    try:
        with socket.socket(socket.AF_INET6, socket.SOCK_DGRAM) as it:
            it.bind(("::1", 0))
            return True
    except OSError:
        return False


def served(table, app, cert):
    """The words of `serve`. Standard input has ended, so that --until-eof ends a device before its first turn."""
    sums, at_fault = "fired 0 received 0 denied 0 ran 0 sent 0 lost 0", "refused 63"
    brief = ["--turns", "0"]
    rows = [
        ("64 peers", [*brief, *["65535"] * 64], sums),
        ("65 peers", [*brief, *["65535"] * 65], at_fault),
        ("64 senders", [*brief, *["--from", "10.0.0.1"] * 64], sums),
        ("65 senders", [*brief, *["--from", "10.0.0.1"] * 65], at_fault),
        ("boot 4294967295", [*brief, "--boot", "4294967295"], sums),
        ("boot 4294967296", [*brief, "--boot", "4294967296"], at_fault),
        ("turns 18446744073709551615", ["--turns", "18446744073709551615", "--until-eof"], sums),
        ("turns 18446744073709551616", ["--turns", "18446744073709551616", "--until-eof"], at_fault),
        ("no turns", ["--until-eof"], sums),
        ("summary 4294967295", [*brief, "--summary", "4294967295"], sums),
        ("summary 4294967296", [*brief, "--summary", "4294967296"], at_fault),
        ("summary 0", [*brief, "--summary", "0"], at_fault),
    ]
    for word, line in (("::ffff:10.0.0.1", sums), ("fe80::1", sums), ("10.0.0.1:1", at_fault), ("[::1]", at_fault), ("10.0.0.0/8", at_fault), ("localhost", at_fault), ("", at_fault)):
        rows.append((f"--from {word}", [*brief, "--from", word], line))
    for word, line in (("10.0.0.1:65535", sums), ("[fd00::1]:1", sums), ("10.0.0.1:65536", at_fault), ("10.0.0.1:0", at_fault), ("10.0.0.1", at_fault), ("fd00::1:1", at_fault)):
        rows.append((f"peer {word}", [*brief, word], line))
    for label, options, line in rows:
        table.add(label, ["serve", app, cert, "D", "--bind", str(free_port()), *options], line)
    for bind in ("0", "65536", "127.0.0.1:0", "127.0.0.1:65536", "[::1]:0", "::1:24001", "127.0.0.1", "localhost:24001"):
        table.add(f"--bind {bind}", ["serve", app, cert, "D", "--bind", bind, *brief], at_fault)
    for bind in ["127.0.0.1:{}", "127.1.2.3:{}"] + (["[::1]:{}"] if has_ipv6() else []):
        table.add(f"--bind {bind}", ["serve", app, cert, "D", "--bind", bind.format(free_port()), *brief], sums)
    # Others reach these: it has to be said that nothing is checked.
    for bind in ["0.0.0.0:{}"] + (["[::]:{}"] if has_ipv6() else []):
        table.add(f"--bind {bind} --unsealed", ["serve", app, cert, "D", "--bind", bind.format(free_port()), *brief, "--unsealed"], sums)
        table.add(f"--bind {bind}", ["serve", app, cert, "D", "--bind", bind.format(free_port()), *brief], at_fault)
    for options in (["--keys", "k"], ["--state", "s"], ["--keys", "k", "--state", "s", "--unsealed"]):
        table.add(" ".join(options), ["serve", app, cert, "D", "--bind", str(free_port()), *brief, *options], at_fault)
    table.add("no file of keys", ["serve", app, cert, "D", "--bind", str(free_port()), *brief, "--keys", "/k", "--state", "/s"], "refused 61 /k")
    # Of these two no address of this machine is one.
    for bind in ("192.0.2.1:24001", "[2001:db8::1]:24001"):
        table.add(f"--bind {bind}", ["serve", app, cert, "D", "--bind", bind, *brief, "--unsealed"], "refused 62 24001")
    for text in ("4294967294", "0", " 5 \n"):
        table.add(f"a boot file with {text!r}", ["serve", app, cert, "D", "--bind", str(free_port()), *brief, "--boot-file", table.file(text)], sums)
    for path in (*map(table.file, ("4294967295", "", "-1", "5 6", "five", b"\xff")), f"{table.folder}/none", table.folder):
        table.add(f"no boot in {path}", ["serve", app, cert, "D", "--bind", str(free_port()), *brief, "--boot-file", path], f"refused 61 {path}")
    table.add("two boots", ["serve", app, cert, "D", "--bind", str(free_port()), *brief, "--boot", "1", "--boot-file", table.file("1")], at_fault)


def words(table):
    app, cert = table.file(CELL), table.file(CELL_CERT)
    served(table, app, cert)
    full, fuller = table.file(b" " * MOST_FILE), table.file(b" " * (MOST_FILE + 1))
    table.add(f"a file of {MOST_FILE} bytes", ["check", full, cert], "refused 4")
    table.add("a file of one byte more", ["check", fuller, cert], f"refused 61 {fuller}")
    bytes_ = table.file(b"SYSTEM S END_SYSTEM \xff")
    table.add("a file that is no UTF-8", ["check", bytes_, cert], f"refused 61 {bytes_}")
    table.add("a file whose name is no UTF-8", ["check", "hall\udcff.fb", cert], "refused 61 hall\udcff.fb")
    table.add("a file without end", ["check", "/dev/zero", cert], "refused 61 /dev/zero")
    table.add("a folder", ["check", table.folder, cert], f"refused 61 {table.folder}")
    line = b" " * (MOST_LINE - 1)
    table.add(f"lines of a script of {MOST_LINE} bytes", ["sim", app, cert], "", stdin=(line + b"\n") * 2 + line)
    table.add("a line of one byte more", ["sim", app, cert], "refused 61 -", stdin=line + b" \n")
    table.add("a last line of as many", ["sim", app, cert], "refused 61 -", stdin=line + b" ")
    table.add("a script that is longer than a file may be", ["sim", app, cert], "", stdin=b"\n" * (MOST_FILE + 1))


# A name may stand where these end a list of names; in place of any other word it may not.
ENDS = {"END_EVENT", "END_STATES", "END_TRANSITIONS", "END_FBS", "END_CONNECTIONS"}
NAMES = {"CELL", "EI", "START", "DONE", "S", "D", "R", "BUTTON", "INPUT", "C", "IND", "ID"}


def line_of_cut(text, end):
    """What `check` has to say of the button and cell cut behind `end` bytes.

    Where its last token is whole, tokens run out: 2 at the text's length. So they do where the last word is cut and what is left is a name that may stand there. Else
    it is at fault itself; DO, of DONE, is no name."""
    tokens = [it.span() for it in re.finditer(r"\w+|:=|\S", text)]
    if end >= tokens[-1][1]:
        return "accepted"
    last = [span for span in tokens if span[0] < end][-1:]
    if not last or last[0][1] <= end:
        return f"refused 2 {end}"
    first, behind = last[0]
    may_stand = text[first:behind] in ENDS | NAMES and text[first:end] != "DO"
    return f"refused 2 {end if may_stand else first}"


def lines_of_cert_cut(cert, end):
    """What `check` may say of its certificate cut behind `end` bytes: a line that is no whole row is 30, and any place whose row is gone may be 33."""
    whole, _, rest = cert[:end].rpartition("\n")
    lines = cert.split("\n")
    at = whole.count("\n") + 1 if whole else 0
    if end == 0 or rest and rest != lines[at]:
        return [f"refused 30 {at + 1}"]
    left = [line.split()[1] for line in lines[at + bool(rest) :] if line]
    return [f"refused 33 {path}" for path in left] or ["accepted"]


def cuts(table):
    app, cert = table.file(CELL), table.file(CELL_CERT)
    for end in range(len(CELL) + 1):
        line = line_of_cut(CELL, end)
        table.add(f"the text's first {end} bytes", ["check", table.file(CELL[:end]), cert], line)
    for end in range(len(CELL_CERT) + 1):
        lines = lines_of_cert_cut(CELL_CERT, end)
        table.add(f"the certificate's first {end} bytes", ["check", app, table.file(CELL_CERT[:end])], lines)


def main(program):
    folder = tempfile.mkdtemp(prefix="edges-")
    table = Table(folder)
    for part in (nesting, numbers, sizes, followed, rows, repeats, words, cuts):
        part(table)
    with concurrent.futures.ThreadPoolExecutor(4) as pool:
        wrong = [it for it in pool.map(lambda row: differs(program, row), table.rows) if it]
    for it in wrong:
        print(it)
    print(f"edges: {len(table.rows)} runs, {len(wrong)} other than the rules{f', in {folder}' if wrong else ''}")
    if not wrong:
        shutil.rmtree(folder)
    return 1 if wrong else 0


if __name__ == "__main__":
    sys.exit(main(os.path.abspath(sys.argv[1])))
