#!/usr/bin/python3
"""Kills and stops the parts of a running tank at random, by hand: FBR=PROGRAM io_chaos.py [SEED [SECONDS]]

For SECONDS (60 if none are given) the broker and the unit of Modbus are killed and started anew, and `serve` is stopped and goes on. Then, within 40 seconds,
each OUTPUT has to be on its bus as the device wrote it last. The status is 1 if one is not."""
import os
import random
import signal
import subprocess
import sys
import time

import io_parts as parts

TABLE = """mqtt 127.0.0.1:{broker}
watchdog 2s
INPUT 1 INT modbus 127.0.0.1:{unit} holding 40001 poll 50ms lost -1000
INPUT 2 INT,INT mqtt limits
INPUT 3 BOOL modbus 127.0.0.1:{unit} discrete 10001 poll 100ms changes
OUTPUT 1 BOOL modbus 127.0.0.1:{unit} coil 3 safe FALSE
OUTPUT 1 BOOL mqtt valve retain safe FALSE
OUTPUT 2 INT modbus 127.0.0.1:{unit} holding 10
OUTPUT 4 BOOL,INT,INT mqtt taken retain safe FALSE,0,0
"""
PATIENCE = 40.0


class Chaos(parts.Folder):
    """The tank and its parts; it is no test."""

    def runTest(self) -> None:  # noqa: N802  (as unittest names it)
        """Nothing: the folder and the device of a test are what is wanted here."""

    def begin(self) -> None:
        """Starts all parts."""
        self.at, self.unit = self.broker(), self.plant("1", "400")
        self.running = self.run_with(TABLE.format(broker=self.at.port, unit=self.unit.port))

    def act(self) -> None:
        """Does one thing at random."""
        kind = random.choice(["broker", "unit", "serve", "limits", "limits"])
        if kind == "limits":
            parts.publish(self.at.port, "limits", f"{random.randrange(100, 300)} {random.randrange(600, 900)}")
        elif kind == "serve":
            device = self.running.device_process()
            os.kill(device, signal.SIGSTOP)
            time.sleep(random.uniform(0, 4))
            os.kill(device, signal.SIGCONT)
        else:
            part = self.at if kind == "broker" else self.unit
            part.kill()
            time.sleep(random.uniform(0, 2))
            part.start()
        time.sleep(random.uniform(0, 1))

    def written(self, number: int) -> str:
        """The values that the device wrote last to an OUTPUT."""
        return next((it.split(maxsplit=2)[2] for it in reversed(self.running.output) if it.startswith(f"write {number} ")), "")

    def retained(self, topic: str) -> str:
        """What the broker keeps of a topic."""
        words = [parts.broker_path("mosquitto_sub"), "-p", str(self.at.port), "-t", topic, "-C", "1", "-W", "1"]
        return subprocess.run(words, capture_output=True, text=True, check=False).stdout.strip()

    def coil(self) -> str:
        """The valve of the unit."""
        from pymodbus.client import ModbusTcpClient

        client = ModbusTcpClient("127.0.0.1", port=self.unit.port)
        client.connect()
        found = client.read_coils(3, 1, slave=1)
        client.close()
        return str(int(found.bits[0]))

    def is_right(self) -> bool:
        """Whether all OUTPUTs are as the device wrote them, and other limits are taken."""
        parts.publish(self.at.port, "limits", "400 600")
        valve = self.written(1)
        return self.written(4) == self.retained("taken") == "1 400 600" and self.coil() == self.retained("valve") == valve


def main(seed: str = "1", seconds: str = "60") -> int:
    """Runs it; its status."""
    random.seed(int(seed))
    chaos = Chaos()
    chaos.setUp()
    try:
        chaos.begin()
        acts, end = 0, time.monotonic() + float(seconds)
        while time.monotonic() < end:
            chaos.act()
            acts += 1
        is_right = parts.waited(chaos.is_right, PATIENCE)
        status = chaos.running.end()
        print(f"after {acts} acts all OUTPUTs are {'as' if is_right else 'NOT as'} the device wrote them; status {status}")
        print("\n".join(it for it in chaos.running.errors if "fault" in it or ": " in it and it.startswith(("fbr-io: INPUT", "fbr-io: OUTPUT"))))
        return 0 if is_right and status == 0 else 1
    finally:
        chaos.doCleanups()


if __name__ == "__main__":
    sys.exit(main(*sys.argv[1:]))
