#!/usr/bin/env python3
"""How late timers are under `fbr serve`, and what an idle device takes:  bench/lateness.py PROGRAM [SECONDS]

Runs a device whose E_CYCLE has a period of 1 ms, and one of 20 ms, for SECONDS each (without it, 10), and prints the time between two of its lines: mean, median
and worst. The moments are the device's own (`--clock`), in whole milliseconds. Then an idle device, and the seconds of the processor that it took."""
import os
import resource
import socket
import statistics
import subprocess
import sys
import tempfile
import time

TEXT = """FUNCTION_BLOCK COUNT
EVENT_INPUT TICK; END_EVENT
EVENT_OUTPUT CHANGED WITH ODD; END_EVENT
VAR_OUTPUT ODD : BOOL; END_VAR
EC_STATES IDLE; UP : TURN -> CHANGED; END_STATES
EC_TRANSITIONS IDLE TO UP := TICK; UP TO IDLE := 1; END_TRANSITIONS
ALGORITHM TURN IN ST: ODD := NOT ODD; END_ALGORITHM
END_FUNCTION_BLOCK
SYSTEM S DEVICE D RESOURCE R
FBS begin : E_RESTART; clock : E_CYCLE(DT := {}); count : COUNT; lamp : OUTPUT[BOOL](ID := 1); END_FBS
EVENT_CONNECTIONS begin.COLD TO clock.START; clock.EO TO count.TICK; count.CHANGED TO lamp.REQ; END_CONNECTIONS
DATA_CONNECTIONS count.ODD TO lamp.SD_1; END_CONNECTIONS
END_RESOURCE END_DEVICE END_SYSTEM
"""


def free_port():
    with socket.socket(socket.AF_INET, socket.SOCK_DGRAM) as it:
        it.bind(("127.0.0.1", 0))
        return it.getsockname()[1]


def run(program, folder, period, seconds):
    """What a device with this period prints in so many seconds, and the seconds of the processor that it takes."""
    app, cert = f"{folder}/app.fb", f"{folder}/app.cert"
    with open(app, "w", encoding="utf-8") as it:
        it.write(TEXT.format(period))
    subprocess.run([program, "bound", app, "-o", cert], check=True, stderr=subprocess.DEVNULL)
    before = resource.getrusage(resource.RUSAGE_CHILDREN)
    words = [program, "serve", app, cert, "D", "--bind", str(free_port()), "--until-eof", "--clock"]
    with open(f"{folder}/out", "wb") as out, subprocess.Popen(words, stdin=subprocess.PIPE, stdout=out, stderr=subprocess.DEVNULL) as job:
        time.sleep(seconds)
        job.stdin.close()
        if job.wait():
            sys.exit(f"the device ended with {job.returncode}")
    after = resource.getrusage(resource.RUSAGE_CHILDREN)
    with open(f"{folder}/out", "rb") as lines:
        moments = [int(line.split()[0]) for line in lines if b" write " in line]
    return moments, after.ru_utime + after.ru_stime - before.ru_utime - before.ru_stime


def main(program, seconds):
    program = os.path.abspath(program)
    with tempfile.TemporaryDirectory() as folder:
        for period in ("T#1ms", "T#20ms"):
            moments, took = run(program, folder, period, seconds)
            gaps = [one - other for one, other in zip(moments[1:], moments)]
            print(f"{period}: {len(gaps)} periods, mean {statistics.fmean(gaps):.2f} ms, median {statistics.median(gaps):.0f}, worst {max(gaps)}; {took:.2f} s of the processor in {seconds} s")
        _, took = run(program, folder, "T#1h", seconds)
        print(f"idle: {took:.3f} s of the processor in {seconds} s")


if __name__ == "__main__":
    if len(sys.argv) not in (2, 3):
        sys.exit(__doc__)
    main(sys.argv[1], int(sys.argv[2]) if len(sys.argv) == 3 else 10)
