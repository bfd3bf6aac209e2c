#!/usr/bin/env python3
"""Tells what each crate of a gate cost, in processor seconds, as a table beside its sizes:

  dev/gate_times.py [FOLDER]          runs the gate in a checkout (without it, this one), and prints the table; what the gate says goes to standard error
  dev/gate_times.py --lines [FOLDER]  the same with a line for each crate in place of the table, as `.ci/run` has it: as soon as it is proved, and at the
                                      end again, if its edits were tried or its machine code was made since
  dev/gate_times.py --told LOG.. [FOLDER]         prints the table from such lines, wherever they are in one LOG; or in several, of
                                                  one gate that was cut off and begun again: of each crate its most seconds, and the minutes of all
  dev/gate_times.py --watch PID FILE  keeps in FILE, as JSON, what the processes below a gate that runs already have taken, until it ends
  dev/gate_times.py --table FILE LOG [FOLDER]     prints the table from such a record and from what that gate said

The seconds are those of the proof, of the proof of the tests, and of the edits, of which the number refused stands beside them; a program's proof is without
its machine code, which the line below the table tells. What a watched gate had ended before the watch began is in the whole, and in no line."""
import json
import os
import re
import subprocess
import sys
import threading
import time

import sizes

TOP = os.path.dirname(os.path.dirname(os.path.abspath(__file__)))
TICK = os.sysconf("SC_CLK_TCK")
PAUSE = 0.5
LAST = 900
LINE = re.compile(r"gate: (\w+) (?:passed|failed): (\d+) functions, proof (\d+) s, tests (\d+) s, (\d+) mutants refused (\d+) s, machine code (\d+) s")
WHOLE = re.compile(r"gate: (?:passed|failed) in (\d+) processor minutes, (\d+) minutes by the clock")
HEAD = ("Crate", "Functions", "Proof, s", "Tests, s", "Edits", "Edits, s", "Code", "Definitions", "Proofs")


def words_of(pid):
    with open(f"/proc/{pid}/cmdline", "rb") as it:
        return it.read().decode(errors="replace").split("\0")


def stat_of(pid):
    """What the system tells of a process, behind its name."""
    with open(f"/proc/{pid}/stat", encoding="utf-8", errors="replace") as it:
        return it.read().rpartition(")")[2].split()


def kind_of(pid, words):
    """What a process of the prover works at: a crate, and what of it. None for any other process."""
    if os.path.basename(words[0]) != "rattle" or "--crate-name" not in words:
        return None
    crate = words[words.index("--crate-name") + 1]
    if "/rt-edit-" in os.readlink(f"/proc/{pid}/cwd"):
        return crate, "edits"
    if "--crate-checked" in words:
        return crate, "machine code"
    return crate, "tests" if "--test" in words else "proof"


def work_of(pid, gate):
    """What a process works at, or the one that began it; None where the gate did not begin it."""
    found = None
    while pid not in ("0", "1", str(gate)):
        found = found or kind_of(pid, words_of(pid))
        pid = stat_of(pid)[1]
    return found if pid == str(gate) else None


def look(seen, gate):
    """Notes the processor seconds that each process of the gate has taken by itself so far, and gives the crates that it works at now."""
    now = set()
    for pid in filter(str.isdigit, os.listdir("/proc")):
        try:
            work = work_of(pid, gate)
            if work:
                parts = stat_of(pid)
                seen[pid, parts[19]] = work, (int(parts[11]) + int(parts[12])) / TICK
                now.add(work)
        except (OSError, ValueError, IndexError):
            pass
    return now


def whole_of(gate):
    """The processor seconds of the gate and of all that it began and that has ended, and how long it has run."""
    parts = stat_of(gate)
    with open("/proc/uptime", encoding="utf-8") as it:
        clock = float(it.read().split()[0]) - int(parts[19]) / TICK
    return {"processor": sum(map(int, parts[11:15])) / TICK, "clock": clock}


def lanes_of(lanes):
    """How many works the gate did at once, on the mean of its last quarter of an hour, and which one it did alone at its end, for how many seconds."""
    if not lanes:
        return {"last": 0, "alone": 0, "of": ""}
    end = lanes[-1][0]
    last = [len(works) for clock, works in lanes if clock > end - LAST]
    alone = next((clock for clock, works in reversed(lanes) if len(works) > 1), lanes[0][0])
    names = {f"{crate}'s {kind}" for clock, works in lanes if clock > alone for crate, kind in works}
    return {"last": sum(last) / len(last), "alone": end - alone, "of": ", ".join(sorted(names))}


def record_of(seen, whole, lanes):
    spent = {}
    for (crate, kind), seconds in seen.values():
        spent.setdefault(crate, {}).setdefault(kind, 0)
        spent[crate][kind] += seconds
    return {"whole": whole, "crates": spent, "lanes": lanes_of(lanes)}


def watch(gate, file=None, tell=None):
    """Looks at a gate until it ends, and returns the record. It is kept in a file on the way, or told."""
    seen, whole, kept, lanes = {}, {}, 0, []
    while True:
        try:
            if stat_of(gate)[0] == "Z":
                break
            whole = whole_of(gate)
        except OSError:
            break
        lanes.append((time.monotonic(), frozenset(look(seen, gate))))
        if file and time.monotonic() > kept + 10:
            keep(file, record_of(seen, whole, lanes))
            kept = time.monotonic()
        if tell and time.monotonic() > kept + 10:
            tell(record_of(seen, whole, lanes))
            kept = time.monotonic()
        time.sleep(PAUSE)
    if file:
        keep(file, record_of(seen, whole, lanes))
    return record_of(seen, whole, lanes)


def keep(file, record):
    with open(f"{file}.new", "w", encoding="utf-8") as it:
        json.dump(record, it, indent=1)
    os.replace(f"{file}.new", file)


def told(said):
    """How many functions of each crate a gate says are proved, and how many of its edits are refused."""
    functions, refused, crate = {}, {}, None
    for line in said:
        begun = re.match(r"== (\w+)$", line)
        crate = begun[1] if begun else None if line.startswith("== ") else crate
        proved = re.match(r"logic=proved functions=(\d+)", line)
        edit = re.match(r"rt: must-fail (\w+)/\S+: refused", line)
        if proved and crate:
            functions[crate] = int(proved[1])
        if edit:
            refused[edit[1]] = refused.get(edit[1], 0) + 1
    return functions, refused


def rows_of(record, said, folder):
    """For each crate that the gate passed: functions, seconds of its proof and of its tests, edits that are refused, and seconds of these and of its machine code."""
    functions, refused = told(said)
    for crate in sizes.listed(folder):
        spent = {kind: round(seconds) for kind, seconds in record["crates"].get(crate, {}).items()}
        if spent or crate in functions:
            yield crate, functions.get(crate, 0), spent.get("proof", 0), spent.get("tests", 0), refused.get(crate, 0), spent.get("edits", 0), spent.get("machine code", 0)


def table(rows, whole, folder):
    print(f"| {' | '.join(HEAD)} |\n|{'---|' * len(HEAD)}")
    total, built = [0] * (len(HEAD) - 1), []
    for crate, *spent, machine in rows:
        code, _, *definitions_and_proofs = sizes.sizes(folder, crate)
        row = [*spent, code, *definitions_and_proofs]
        total = [one + other for one, other in zip(total, row)]
        built += [f"`{crate}` {machine} s"] if machine else []
        print(f"| `{crate}` | {' | '.join(sizes.shown(it) for it in row)} |")
    print(f"| all | {' | '.join(sizes.shown(it) for it in total)} |")
    print(f"\n{whole[0]} processor minutes in all, {whole[1]} minutes by the clock. Machine code, by two compilers: {', '.join(built) or 'none'}.")


def minutes(record):
    return [round(record["whole"][kind] / 60) for kind in ("processor", "clock")]


def line_of(row, failed):
    crate, functions, proof, tests, mutants, edits, machine = row
    return f"gate: {crate} {'failed' if crate in failed else 'passed'}: {functions} functions, proof {proof} s, tests {tests} s, {mutants} mutants refused {edits} s, machine code {machine} s"


def proved_by(said):
    """The crates that a gate has proved so far, and did not find kept."""
    return {it[1] for it in map(re.compile(r"rt: (\w+) proved$").match, said) if it}


def lines_so_far(said, folder, shown):
    """What tells the line of each crate as soon as it is proved: a gate that is cut off has told what it did."""
    def tell(record):
        proved = proved_by(list(said)) - set(shown)
        for row in rows_of(record, list(said), folder) if proved else []:
            if row[0] in proved:
                shown[row[0]] = line_of(row, ())
                print(shown[row[0]], flush=True)

    return tell


def lines(record, said, folder, passed, shown):
    failed = {crate for line in said if line.startswith("rt: FAILED:") for crate in line.split()[2:]}
    for row in rows_of(record, said, folder):
        if shown.get(row[0]) != line_of(row, failed):
            print(line_of(row, failed))
    processor, clock = minutes(record)
    lanes = record["lanes"]
    print(f"gate: {'passed' if passed else 'failed'} in {processor} processor minutes, {clock} minutes by the clock", end="; ")
    print(f"passed {lanes['last']:.1f} at once on the mean of its last quarter of an hour, and at its end {lanes['of'] or 'nothing'} alone for {lanes['alone']:.0f} s")


def told_rows(runs, folder):
    """The rows and the whole of gates that told their lines: of each crate the greatest seconds of each kind, since what one run has kept the next one does not do."""
    rows, whole = {}, [0, 0]
    for said in runs:
        for it in filter(None, map(LINE.search, said)):
            before = rows.get(it[1], (0,) * (len(it.groups()) - 1))
            rows[it[1]] = tuple(map(max, before, map(int, it.groups()[1:])))
        for it in filter(None, map(WHOLE.search, said)):
            whole = [one + int(other) for one, other in zip(whole, it.groups())]
    return [(crate, *rows[crate]) for crate in sizes.listed(folder) if crate in rows], whole


def gate(folder, in_lines):
    said, shown = [], {}
    job = subprocess.Popen([".ci/rt", "ci"], cwd=folder, stdin=subprocess.DEVNULL, stdout=subprocess.PIPE, stderr=subprocess.STDOUT, text=True, errors="replace")

    def listen():
        for line in job.stdout:
            said.append(line)
            print(line, end="", file=sys.stderr, flush=True)

    listener = threading.Thread(target=listen)
    listener.start()
    record = watch(job.pid, tell=lines_so_far(said, folder, shown) if in_lines else None)
    listener.join()
    status = job.wait()
    if in_lines:
        lines(record, said, folder, not status, shown)
    else:
        table(rows_of(record, said, folder), minutes(record), folder)
    return status


def read(file):
    with open(file, encoding="utf-8", errors="replace") as it:
        return it.read()


def main(words):
    if words[:1] == ["--watch"] and len(words) == 3:
        watch(int(words[1]), words[2])
        return 0
    folder = words[-1] if words and os.path.isdir(words[-1]) else TOP
    match words[: len(words) - (folder != TOP)]:
        case ["--table", file, log]:
            record = json.loads(read(file))
            table(rows_of(record, read(log).splitlines(), folder), minutes(record), folder)
            return 0
        case ["--told", _, *_] as asked:
            table(*told_rows([read(log).splitlines() for log in asked[1:]], folder), folder)
            return 0
        case ["--lines"] | [] as asked:
            return gate(folder, bool(asked))
    sys.exit(__doc__)


if __name__ == "__main__":
    sys.exit(main(sys.argv[1:]))
