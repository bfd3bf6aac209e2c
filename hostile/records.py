#!/usr/bin/env python3
"""Records of devices, and their replays: hostile/records.py PROGRAM [--seconds N]

Two devices run under load for N seconds (6 without it), and each records what comes to it: offers to their INPUTs, what they send each other, messages of format 2, and
bytes that are no message, some of them none at all and some longer than a datagram may be. Asked is that a replay of each record prints the same bytes as the device did, that the record of a
replay of a cut file is a beginning of the whole one's, wherever it is cut, that changed lines are refused with their number or replayed, and never more, that other texts, another device and what
is no record are refused, that a record is never written over what is there, that a device goes on when its record cannot be written any more, that a replay with `--json` says what one without
says, in the form of docs/fbr.schema.json, and that all of a turn is there before the next one is given."""
import argparse
import json
import os
import random
import re
import resource
import select
import signal
import socket
import subprocess
import sys
import tempfile
import time

from verdicts import judged

TOP = os.path.dirname(os.path.dirname(os.path.abspath(__file__)))
# Two devices: each writes what is offered to it, sends it to the other one, which writes it too, and writes every 20 ms.
DEVICE = """DEVICE {name} RESOURCE R
FBS BEGIN : E_RESTART; PLACE : INPUT[DINT](ID := 1); LAMP : OUTPUT[DINT](ID := 1); TELL : PUBLISH[DINT](ID := {to}, QI := TRUE{sent}); HEAR : SUBSCRIBE[DINT](ID := {own}, QI := TRUE{heard});
TWO : OUTPUT[DINT](ID := 2); CLOCK : E_CYCLE(DT := T#20ms); BEAT : OUTPUT(ID := 3); END_FBS
EVENT_CONNECTIONS BEGIN.COLD TO TELL.INIT; TELL.INITO TO HEAR.INIT; HEAR.INITO TO CLOCK.START; CLOCK.EO TO BEAT.REQ;
PLACE.IND TO LAMP.REQ; PLACE.IND TO TELL.REQ; HEAR.IND TO TWO.REQ; END_CONNECTIONS
DATA_CONNECTIONS PLACE.RD_1 TO LAMP.SD_1; PLACE.RD_1 TO TELL.SD_1; HEAR.RD_1 TO TWO.SD_1; END_CONNECTIONS
END_RESOURCE END_DEVICE
"""
STAMPED = ", FORMAT := 2"
NAMES = "ROBOT", "MACHINE"
APP = f"SYSTEM S {DEVICE.format(name=NAMES[0], to=8, own=9, sent='', heard=STAMPED)}{DEVICE.format(name=NAMES[1], to=9, own=8, sent=STAMPED, heard='')} END_SYSTEM"
TEXTS = []


def free_ports(count):
    links = [socket.socket(socket.AF_INET, socket.SOCK_DGRAM) for _ in range(count)]
    for it in links:
        it.bind(("127.0.0.1", 0))
    ports = [it.getsockname()[1] for it in links]
    for it in links:
        it.close()
    return ports


def served(program, device, port, peer, *words, **how):
    job = [program, "serve", *TEXTS, device, "--bind", str(port), "--until-eof", "--boot", "3", *words, str(peer)]
    return subprocess.Popen(job, **{"stdin": subprocess.PIPE, "stdout": subprocess.PIPE, "stderr": subprocess.PIPE} | how)


def datagrams(rng):
    """What is sent to the devices: offers, most of them lawful, and bytes of any kind."""
    while True:
        kind = rng.randrange(8)
        if kind < 5:
            yield b"FB\1\2\0\1\1\3" + rng.randrange(2**31).to_bytes(8, "big")
        elif kind == 5:
            yield b"FB\1\1\0\x08\1\3" + rng.randrange(2**31).to_bytes(8, "big")
        elif kind == 6:
            yield rng.randbytes(rng.randrange(40))
        else:
            yield rng.choice((b"", b"FB" + bytes(200), b"FB\2\1\0\1\0\0\0\3\0\0\0\1\0"))


def replayed(program, record, *words, texts=TEXTS, **how):
    done = subprocess.run([program, "replay", *texts, record, *words], capture_output=True, timeout=120, **how)
    return done.returncode, done.stdout, done.stderr


def check(wrong, what, found, wanted):
    if found != wanted:
        wrong.append(f"{what}: {str(found)[:300]}, and not {str(wanted)[:300]}")


def under_load(program, folder, seconds, rng, wrong):
    """Runs the two devices, and compares what they printed with the replays of their records."""
    ports, names = free_ports(2), NAMES
    records = [f"{folder}/{it}.record" for it in names]
    outputs = [f"{folder}/{it}.out" for it in names]
    jobs = []
    for at in (0, 1):
        with open(outputs[at], "wb") as out, open(f"{folder}/{names[at]}.told", "wb") as told:
            jobs.append(served(program, names[at], ports[at], ports[1 - at], "--clock", "--record", records[at], stdout=out, stderr=told))
    time.sleep(0.3)
    sent, source = 0, datagrams(rng)
    with socket.socket(socket.AF_INET, socket.SOCK_DGRAM) as link:
        end = time.monotonic() + seconds
        while time.monotonic() < end:
            link.sendto(next(source), ("127.0.0.1", rng.choice(ports)))
            sent += 1
            time.sleep(rng.choice((0, 0, 0.001, 0.01)))
    said = []
    for at in (0, 1):
        jobs[at].communicate(timeout=30)
        with open(outputs[at], "rb") as it:
            said.append(it.read())
    for at in (0, 1):
        check(wrong, f"{names[at]} ended", jobs[at].returncode, 0)
        status, out, _ = replayed(program, records[at], "--clock")
        check(wrong, f"the replay of {names[at]}", (status, out.splitlines()[:-1]), (0, said[at].splitlines()[:-1]))
        check(wrong, f"the sums of {names[at]}", out.splitlines()[-1:], said[at].splitlines()[-1:])
    writes = sum(it.count(b"write") for it in said)
    print(f"records: {sent} datagrams in {seconds} s, {writes} writes, {sum(os.path.getsize(it) for it in records)} bytes of records")
    if not writes:
        wrong.append("nothing was written")
    return records[0], said[0]


def moment(said):
    """The moment of an object, as people read it."""
    return f"{said['time'] // 1000}.{said['time'] % 1000:03} s"


def source(said):
    """For whom a datagram was, as people read it."""
    names = [f"{word} {said[name]}" for name, word in (("input", "INPUT"), ("channel", "channel")) if name in said]
    return names[0] if names else f"{said['bytes']} bytes"


def steps(count):
    return "1 step" if count == 1 else f"{count} steps"


def spoken(said):
    """The lines that `--verbose` tells of an answer."""
    at = moment(said)
    if said["answer"] == "cause":
        return [f"{at} {source(said)} begins cause {said['cause']}, of at most {steps(said['most'])}"]
    if said["answer"] == "denied":
        return [f"{at} {source(said)} denied {said['number']}: {said['says']}"]
    lines = [f"{at} {said['path']}.{said['event']} of cause {said['cause']}: {steps(said['steps'])}"]
    lines += [f"{at} sent to channel {said['channel']}"] if "channel" in said else []
    return lines + ([f"{at} cause {said['cause']} has ended after {said['ended']['steps']} of {steps(said['ended']['most'])}"] if "ended" in said else [])


def in_objects(program, record, wrong):
    """With `--json` a replay says what it says without: what was written and has changed, each answer, and the sums."""
    status, out, errors = replayed(program, record, "--json", "--watch", "*")
    *said, report = [json.loads(line) for line in out.splitlines()]
    check(wrong, "the form of objects", [fault for it in [*said, report] for fault in judged(it)][:3], [])
    names = ("fired", "received", "denied", "ran", "sent", "lost")
    sums = {name: sum(it[name] for it in said if it.get("answer") == "turn") for name in names}
    check(wrong, "the sums of objects", ({name: report[name] for name in names}, status, report["verdict"]), (sums, 0, "done"))
    begun = next(at for at, it in enumerate(said) if "answer" in it)
    lines, shown = [], {(it["device"], it["path"]): it for it in said[:begun]}
    for it in said[begun:]:
        if "output" in it:
            lines.append(f"{it['time']} write {it['output']}" + "".join(f" {value}" for value in it["values"]))
        elif "answer" not in it:
            wrong.extend(["a change of nothing"] if shown.get((it["device"], it["path"]), {}).get("device") is None else [])
            value = {True: "TRUE", False: "FALSE"}.get(it.get("value"), it.get("value")) if isinstance(it.get("value"), bool) else it.get("value")
            value = f"T#{value}ms" if it.get("type") == "TIME" else value
            rest = f" IN {it['state']}" if "state" in it else f" QUEUE {it['queue']}" if "queue" in it else f" = {value}"
            lines.append(f"{it['time']} {it['device']}.{it['path']}{rest}")
    plain = replayed(program, record, "--clock", "--watch", "*")[1].decode().splitlines()[:-1]
    check(wrong, "what objects say of values", lines, [it if " write " in it else it for it in plain])
    told = replayed(program, record, "--verbose")[2].decode().splitlines()
    seconds = re.compile(r"[0-9]+\.999 s [0-9]+ more denied .*")
    people = [it for it in told if not it.startswith("fbr: ") and not seconds.fullmatch(it)]
    answers = [line for it in said[begun:] if it.get("answer") in ("cause", "denied", "ran") for line in spoken(it)]
    # A replay lists ten denials of a number in a second, and objects all.
    check(wrong, "what objects say of answers", [it for it in answers if " denied " not in it], [it for it in people if " denied " not in it])
    wrong.extend([f"no object says {it}" for it in set(people) - set(answers)][:3])
    check(wrong, "denials in objects", sum(" denied " in it for it in answers), report["denied"])
    print(f"records: {len(said)} objects, {errors.count(10)} lines for people")


def taken(job, streams, wanted):
    """What streams have within ten seconds, once each has as many lines as wanted."""
    found, end = [b"" for _ in streams], time.monotonic() + 10
    while any(it.count(b"\n") < count for it, count in zip(found, wanted)) and time.monotonic() < end:
        for it in select.select(streams, [], [], 0.1)[0]:
            found[streams.index(it)] += os.read(it.fileno(), 65536)
    return found


def growing(program, record, wrong):
    """All that comes of a turn is there before the next one is given."""
    with open(record, "rb") as it:
        head = it.readline()
    turn = b"turn %d 46420102000101030000000000000005 -\n"
    watched = ["--verbose", "--watch", "*"]
    for words, wanted in ((["--json"], (4, 1)), (["--json", *watched], (4, 3)), (["--verbose"], (0, 3)), (watched, (1, 3))):
        job = subprocess.Popen([program, "replay", *TEXTS, "-", *words], stdin=subprocess.PIPE, stdout=subprocess.PIPE, stderr=subprocess.PIPE, bufsize=0)
        job.stdin.write(head)
        taken(job, [job.stdout, job.stderr], (0, 0))
        for at in range(1, 4):
            job.stdin.write(turn % (1000 * at))
            found = taken(job, [job.stdout, job.stderr], wanted)
            lines = [it.count(b"\n") >= count for it, count in zip(found, wanted)]
            check(wrong, f"turn {at} of a record that grows, with {' '.join(words)}", lines, [True, True])
        job.kill()
        job.communicate()


def cut(program, folder, record, rng, wrong):
    """A record that was cut anywhere replays up to the cut."""
    with open(record, "rb") as it:
        whole = it.read()
    full = replayed(program, record)[1].splitlines()[:-1]
    head = whole.index(b"\n") + 1
    places = sorted(rng.sample(range(head, len(whole)), 40))
    for place in places:
        with open(f"{folder}/cut", "wb") as it:
            it.write(whole[:place])
        status, out, _ = replayed(program, f"{folder}/cut")
        lines = out.splitlines()
        check(wrong, f"cut at {place}", (status, lines[:-1]), (0, full[: len(lines) - 1]))
    for place in rng.sample(range(head), 8):
        with open(f"{folder}/cut", "wb") as it:
            it.write(whole[:place])
        check(wrong, f"cut at {place}", replayed(program, f"{folder}/cut")[:2], (2, b"refused 60 1\n"))
    piped = subprocess.run([program, "replay", *TEXTS, "-"], input=whole, capture_output=True, timeout=120)
    check(wrong, "from standard input", piped.stdout, replayed(program, record)[1])


def changed(program, folder, record, rng, wrong):
    """Lines that say no turn are refused with their number, behind the turns before them."""
    with open(record, "rb") as it:
        lines = it.read().splitlines(keepends=True)
    wrongs = [b"\n", b"turn\n", b"turn x\n", b"turn 18446744073709551616\n", b"turn -1\n", b"turn 5 0\n", b"turn 5 0g\n", b"turn 5 down down\n", b"tick D 5\n", b"turn 5 " + b"00" * 161 + b"\n"]
    wrongs += [b"turn 5" + b" 00" * 17 + b"\n", b"turn 5" + b" 00" * 16 + b" down\n", b"turn 5 \xff\n", b"turn 5 " + b"0" * 9000 + b"\n"]
    for line in wrongs:
        at = rng.randrange(1, len(lines))
        with open(f"{folder}/changed", "wb") as it:
            it.writelines(lines[:at] + [line] + lines[at:])
        status, out, _ = replayed(program, f"{folder}/changed")
        check(wrong, f"the line {line[:40]}", (status, out.splitlines()[-1:]), (2, [f"refused 60 {at + 1}".encode()]))
    for line in (b"turn 5  -  00\n", b"turn 0005 FfFf\n", b"turn 5" + b" 00" * 16 + b"\n", b"turn 5 " + b"00" * 160 + b"\n"):
        with open(f"{folder}/changed", "wb") as it:
            it.writelines(lines[:1] + [line])
        check(wrong, f"the line {line[:40]}", replayed(program, f"{folder}/changed")[0], 0)
    with open(f"{folder}/changed", "wb") as it:
        it.writelines(lines[:1] + [b"turn 5 00 down\n", b"no line\n"])
    check(wrong, "a receive that failed", replayed(program, f"{folder}/changed")[:2], (3, b"refused 59\n"))
    for _ in range(150):
        text = bytearray(b"".join(lines[:200]))
        for _ in range(rng.randrange(1, 4)):
            text[rng.randrange(len(text))] = rng.choice(b"turn down0123456789abcdefFB -\n\0\xff")
        with open(f"{folder}/changed", "wb") as it:
            it.write(text)
        status, _, told = replayed(program, f"{folder}/changed")
        if status not in (0, 2, 3) or b"panic" in told:
            wrong.append(f"a changed record: status {status}, {told[:200]!r}")


def others(program, folder, record, wrong):
    """Other texts, another device, what is no record, and a file that is there."""
    tank = f"{TOP}/examples/tank/tank"
    status, out, told = replayed(program, record, texts=(f"{tank}.fb", f"{tank}.cert"))
    check(wrong, "other texts", (status, out, b"application" in told), (2, b"refused 60 1\n", True))
    with open(f"{folder}/other.cert", "w", encoding="utf-8") as it:
        subprocess.run([program, "bound", "--room", "9", TEXTS[0]], stdout=it, check=True)
    status, out, told = replayed(program, record, texts=(TEXTS[0], f"{folder}/other.cert"))
    check(wrong, "another certificate", (status, out, b"certificate" in told), (2, b"refused 60 1\n", True))
    with open(record, "rb") as it:
        lines = it.read().splitlines(keepends=True)
    with open(f"{folder}/renamed", "wb") as it:
        it.writelines([lines[0].replace(b"ROBOT", b"NOBODY"), *lines[1:]])
    check(wrong, "another device", replayed(program, f"{folder}/renamed")[:2], (2, b"refused 21 NOBODY\n"))
    check(wrong, "no record", replayed(program, TEXTS[0])[:2], (2, b"refused 60 1\n"))
    check(wrong, "no file", replayed(program, f"{folder}/nothing")[0], 3)
    job = served(program, NAMES[0], *free_ports(2), "--record", record)
    out, _ = job.communicate(timeout=30)
    with open(record, "rb") as it:
        check(wrong, "a record that is there", (job.returncode, out, it.read()), (3, f"refused 61 {record}\n".encode(), b"".join(lines)))


def limited():
    signal.signal(signal.SIGXFSZ, signal.SIG_IGN)
    resource.setrlimit(resource.RLIMIT_FSIZE, (4096, 4096))


def full_disk(program, folder, wrong):
    """A device goes on when its record cannot be written any more, says so once, and the record replays."""
    port, peer = free_ports(2)
    record = f"{folder}/full.record"
    job = served(program, NAMES[0], port, peer, "--record", record, "--sync", preexec_fn=limited)
    time.sleep(0.3)
    with socket.socket(socket.AF_INET, socket.SOCK_DGRAM) as link:
        for at in range(400):
            link.sendto(b"FB\1\2\0\1\1\3" + at.to_bytes(8, "big"), ("127.0.0.1", port))
            time.sleep(0.003)
    out, told = job.communicate(timeout=30)
    check(wrong, "a full disk", (job.returncode, told.count(b"the record ends here")), (0, 1))
    lines = replayed(program, record)[1].splitlines()
    check(wrong, "the record of a full disk", lines[:-1], out.splitlines()[: len(lines) - 1])


def main():
    words = argparse.ArgumentParser()
    words.add_argument("program")
    words.add_argument("--seconds", type=float, default=6)
    words.add_argument("--seed", type=int, default=1)
    given = words.parse_args()
    program, rng, wrong = os.path.abspath(given.program), random.Random(given.seed), []
    with tempfile.TemporaryDirectory() as folder:
        TEXTS.extend((f"{folder}/two.fb", f"{folder}/two.cert"))
        with open(TEXTS[0], "w", encoding="utf-8") as it:
            it.write(APP)
        subprocess.run([program, "bound", "--room", "3", TEXTS[0], "-o", TEXTS[1]], check=True)
        record, _ = under_load(program, folder, given.seconds, rng, wrong)
        in_objects(program, record, wrong)
        growing(program, record, wrong)
        cut(program, folder, record, rng, wrong)
        changed(program, folder, record, rng, wrong)
        others(program, folder, record, wrong)
        full_disk(program, folder, wrong)
    for it in wrong:
        print(it)
    print(f"records: {len(wrong)} faults")
    return 1 if wrong else 0


if __name__ == "__main__":
    sys.exit(main())
