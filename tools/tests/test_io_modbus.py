"""fbr-io with a unit of Modbus."""
import json
import os
import signal
import subprocess
import time
import unittest

import io_parts as parts

# How long the tank is run, at ten times its speed; by hand FBR_IO_SECONDS=600.
SECONDS = float(os.environ.get("FBR_IO_SECONDS", "18"))
TABLE = """
INPUT 1 INT modbus 127.0.0.1:{port} holding 40001 poll 50ms lost -1000
INPUT 3 BOOL modbus 127.0.0.1:{port} discrete 10001 poll 100ms changes
OUTPUT 1 BOOL modbus 127.0.0.1:{port} coil 3 safe FALSE
OUTPUT 2 INT modbus 127.0.0.1:{port} holding 10
OUTPUT 3 BOOL,BOOL,BOOL modbus 127.0.0.1:{port} coil 20 safe FALSE,FALSE,TRUE
"""
# The same, where each level that the unit gets is offered once.
STEPPED = TABLE.replace("poll 50ms lost -1000", "poll 5ms changes")
# The sensor at 1000 thousandths; the time between two levels of the tank that waits, in its own seconds; and its rates.
FULL, STEP, FILLS, EMPTIES = 27648, 0.5, 20, -10
LOW, HIGH = 300, 700


class Model:
    """What the tank of examples/tank does with each level, written down from its text: the mean of four levels, and a valve that opens below 300, and closes
    from 700 on or where the sensor is broken."""

    def __init__(self) -> None:
        self.last: list[int] = []
        self.is_enabled, self.is_open = False, False
        self.shown: list[int] = []
        self.moved: list[int] = []

    def take(self, raw: int) -> None:
        """A level of the sensor."""
        if not -500 <= raw <= 28_000:
            if self.is_open:
                self.move(False)
            return
        level = raw * 1000 // FULL
        self.last = [*self.last, level][-4:] if self.last else [level] * 4
        self.shown.append(sum(self.last) // 4)
        if not self.is_open and self.is_enabled and self.shown[-1] < LOW:
            self.move(True)
        elif self.is_open and self.shown[-1] >= HIGH:
            self.move(False)

    def came(self, datagram: str) -> None:
        """What came to an INPUT."""
        if is_level(datagram):
            self.take(value_of(datagram))
        elif datagram.startswith("464201020003"):
            self.is_enabled = value_of(datagram) == 1

    def move(self, is_open: bool) -> None:
        """The valve moves."""
        self.is_open = is_open
        self.moved.append(int(is_open))


def is_level(datagram: str) -> bool:
    """Whether a datagram of a record is for INPUT 1."""
    return datagram.startswith("464201020001")


def value_of(datagram: str) -> int:
    """The last value of a datagram of a record."""
    return int.from_bytes(bytes.fromhex(datagram[-16:]), "big", signed=True)


class Record:
    """The record of a device that runs, read as it grows: what came to it, and when."""

    def __init__(self, path: str) -> None:
        self.file = open(path, encoding="ascii")
        self.partial = ""
        self.came: list[str] = []
        # The levels that came, with their moments.
        self.levels: list[tuple[int, int]] = []

    def read(self) -> None:
        """Reads on."""
        *lines, self.partial = (self.partial + self.file.read()).split("\n")
        for kind, now, *datagrams in map(str.split, lines):
            if kind == "turn":
                self.came += datagrams
                self.levels += [(int(now), value_of(it)) for it in datagrams if is_level(it)]

    def longest_gap(self) -> int:
        """The longest time between two levels, in milliseconds of the device's clock."""
        moments = [now for now, _ in self.levels]
        return max(later - earlier for earlier, later in zip(moments, moments[1:]))


class Written:
    """What the device wrote to its OUTPUTs of one value, read as it comes."""

    def __init__(self, running: parts.Running) -> None:
        self.running, self.position = running, 0
        self.values: dict[str, list[int]] = {"1": [], "2": []}

    def read(self) -> None:
        """Reads on."""
        while self.position < len(self.running.output):
            word, number, *values = self.running.output[self.position].split()
            self.position += 1
            if word == "write" and number in self.values:
                self.values[number].append(int(values[0]))

    @property
    def moved(self) -> list[int]:
        """Where the valve was moved, each time."""
        return self.values["1"]

    @property
    def shown(self) -> list[int]:
        """The levels that were shown."""
        return self.values["2"]


@parts.needs("pymodbus", "serial_asyncio")
class ByModbus(parts.Folder):
    """The tank by Modbus alone."""

    def unit(self, port: int):
        """A client of the unit."""
        from pymodbus.client import ModbusTcpClient

        client = ModbusTcpClient("127.0.0.1", port=port)
        client.connect()
        self.addCleanup(client.close)
        return client

    def coils(self, client, address: int, count: int = 1) -> list[int]:
        """Coils of the unit."""
        return [int(it) for it in client.read_coils(address, count, slave=1).bits[:count]]

    def record_of(self, name: str) -> Record:
        """The record of the device, which is there."""
        found = Record(name)
        self.addCleanup(found.file.close)
        return found

    def is_answered(self, written: Written, record: Record, client, raw: int) -> bool:
        """Whether the device has taken this level and shown it, and the valve is where it wrote it."""
        written.read()
        record.read()
        is_taken = bool(record.levels) and record.levels[-1][1] == raw and len(written.shown) == len(record.levels)
        return is_taken and self.coils(client, 3) == (written.moved[-1:] or [0])

    def test_the_tank_is_kept_between_its_limits(self) -> None:
        """The time of this tank goes on by half a second when the valve is where the device wants it for the level before, and stands still until then.
        So what is asserted is about the tank's time, however busy the machine is."""
        plant = self.plant("0", "250")
        client, name = self.unit(plant.port), f"{self.folder}/tank.record"
        running = self.run_with(STEPPED.format(port=plant.port), "--record", name)
        record, written, level, levels = self.record_of(name), Written(running), 250.0, []
        for _ in range(round(10 * SECONDS / STEP)):
            raw = round(level * FULL / 1000)
            client.write_register(0, raw, slave=1)
            self.assertTrue(parts.waited(lambda: self.is_answered(written, record, client, raw)), (raw, record.levels[-3:], running.errors))
            levels.append(level)
            level += (FILLS if self.coils(client, 3) == [1] else EMPTIES) * STEP
        self.assertEqual(running.end(), 0, running.errors)
        self.check_model(written, record)
        within = levels[next(at for at, it in enumerate(levels) if it > LOW) :]
        openings = written.moved.count(1)
        print(f"the tank that waits: levels {min(within):.0f} to {max(within):.0f}, {openings} openings in {10 * SECONDS:.0f} s of its own")
        # Its mean lags behind by one and a half levels, and a level later the valve has moved: 10 up or 5 down each time.
        self.assertGreaterEqual(min(within), LOW - 8 - 2 * 5)
        self.assertLessEqual(max(within), HIGH + 15 + 2 * 10)
        self.assertGreaterEqual(openings, SECONDS / 8)
        self.check_ends_safe(client)

    def test_a_tank_that_does_not_wait(self) -> None:
        """This tank has the time of the machine: its level runs on while the machine is busy with something else. What the device does with each level that
        comes is asserted, and that the valve of the plant follows; how far the level went is only told."""
        plant = self.plant("10", "250")
        client, name = self.unit(plant.port), f"{self.folder}/tank.record"
        running = self.run_with(TABLE.format(port=plant.port), "--record", name)
        written = Written(running)
        self.assertTrue(running.prints("write 1 1"), running.errors)
        self.assertTrue(parts.waited(lambda: self.level(client) > LOW))
        levels, looks, end = [], [], time.monotonic() + SECONDS
        while time.monotonic() < end:
            levels.append(self.level(client))
            looks.append(time.monotonic())
            time.sleep(0.02)
        # It was filled, and runs empty again: with the model that says how high and how low it went.
        self.assertTrue(parts.waited(lambda: written.read() or written.moved.count(1) >= 2, 60), running.errors)
        self.assertTrue(parts.waited(lambda: written.read() or self.coils(client, 3) == written.moved[-1:]), running.errors)
        record = self.record_of(name)
        self.assertEqual(running.end(), 0, running.errors)
        record.read()
        written.read()
        openings = written.moved.count(1)
        says = f"the tank that does not wait: levels {min(levels):.0f} to {max(levels):.0f}, {openings} openings in {SECONDS:.0f} s"
        says += f"; longest time without a level {record.longest_gap()} ms"
        says += f" (the test itself paused for {1000 * max(later - earlier for earlier, later in zip(looks, looks[1:])):.0f} ms)"
        says += f"; {sum('retrying' in it for it in running.errors)} faults; {next(it for it in running.errors if 'INPUT 1: ' in it)}"
        print(says)
        self.check_model(written, record)
        self.check_ends_safe(client)

    def level(self, client) -> float:
        """The level of the unit, in thousandths."""
        return client.read_holding_registers(0, 1, slave=1).registers[0] * 1000 / FULL

    def check_model(self, written: Written, record: Record) -> None:
        """The device has shown and moved what the model does with the levels that it took. Which these were, and which of their causes had come to an end when
        it was ended itself, a replay says."""
        record.read()
        written.read()
        words = [parts.program(), "replay", self.APP, self.certificate, record.file.name, "--json"]
        said = [json.loads(it) for it in subprocess.run(words, capture_output=True, text=True, check=True).stdout.splitlines()]
        causes = [it.get("cause") for it in said if it.get("answer") in ("cause", "denied")]
        ended = {it["ended"]["cause"] for it in said if "ended" in it}
        self.assertEqual(len(causes), len(record.came))
        model = Model()
        for datagram, cause in zip(record.came, causes):
            if cause in ended:
                model.came(datagram)
        more = sum(it is not None and it not in ended for it in causes)
        self.assertLessEqual(more, 3)
        for found, wanted in ((written.shown, model.shown), (written.moved, model.moved)):
            self.assertEqual(found[: len(wanted)], wanted, written.running.errors)
            self.assertLessEqual(len(found), len(wanted) + more)

    def check_ends_safe(self, client) -> None:
        """The OUTPUTs are as they are to be without a device."""
        self.assertEqual((self.coils(client, 3), self.coils(client, 20, 3)), ([0], [0, 0, 1]))

    def test_the_unit_is_killed(self) -> None:
        plant = self.plant("0", "180")
        running = self.run_with(TABLE.format(port=plant.port))
        self.assertTrue(running.prints("write 1 1"), running.errors)
        client = self.unit(plant.port)
        self.assertTrue(parts.waited(lambda: self.coils(client, 3) == [1]))
        plant.kill()
        self.assertTrue(running.says(f"fbr-io: modbus 127.0.0.1:{plant.port}: connection lost; retrying"), running.errors)
        self.assertTrue(running.prints("write 1 0"), running.errors)
        self.assertTrue(running.prints("write 3 0 0 1"), running.errors)
        plant.start()
        client = self.unit(plant.port)
        self.assertTrue(parts.waited(lambda: self.coils(client, 3) == [1]), running.errors)
        self.assertTrue(running.says(f"fbr-io: modbus 127.0.0.1:{plant.port}: works again after "), running.errors)
        self.assertEqual(sum("retrying" in it for it in running.errors), 1, running.errors)

    def test_serve_is_killed(self) -> None:
        plant = self.plant("0", "180")
        running = self.run_with(TABLE.format(port=plant.port))
        client = self.unit(plant.port)
        self.assertTrue(parts.waited(lambda: self.coils(client, 3) == [1]), running.errors)
        os.kill(running.device_process(), signal.SIGKILL)
        self.assertEqual(running.end(0), 128 + signal.SIGKILL)
        self.assertEqual((self.coils(client, 3), self.coils(client, 20, 3)), ([0], [0, 0, 1]))

    def test_a_unit_that_has_lost_its_values_gets_them_back(self) -> None:
        plant = self.plant("0", "180")
        running = self.run_with(TABLE.format(port=plant.port))
        client = self.unit(plant.port)
        self.assertTrue(parts.waited(lambda: self.coils(client, 3) == [1]), running.errors)
        client.write_coil(3, False, slave=1)
        self.assertTrue(parts.waited(lambda: self.coils(client, 3) == [1], 3), running.errors)

    def test_a_place_that_the_unit_does_not_have(self) -> None:
        plant = self.plant("0", "180")
        text = f"INPUT 1 INT modbus 127.0.0.1:{plant.port} holding 500 poll 50ms lost -1000\nOUTPUT 2 INT modbus 127.0.0.1:{plant.port} holding 10\n"
        running = self.run_with(text)
        says = f"fbr-io: INPUT 1 at modbus 127.0.0.1:{plant.port} unit 1 holding at address 500: the unit answered with exception 2; retrying"
        self.assertTrue(running.says(says), running.errors)
        self.assertTrue(running.prints("write 3 0 0 1"), running.errors)
        self.assertEqual(running.end(), 0)
        self.assertEqual(sum("retrying" in it for it in running.errors), 1, running.errors)

    def test_changes_and_edges(self) -> None:
        plant = self.plant("0", "180")
        client = self.unit(plant.port)
        client.write_coil(30, True, slave=1)
        text = f"INPUT 1 INT modbus 127.0.0.1:{plant.port} holding 11 poll 10ms changes\nINPUT 3 BOOL modbus 127.0.0.1:{plant.port} coil 30 poll 10ms edge 8\n"
        running = self.run_with(text)
        time.sleep(0.3)
        for value in (0, 1):
            client.write_coil(30, bool(value), slave=1)
            time.sleep(0.1)
        client.write_register(11, 5000, slave=1)
        self.assertTrue(running.prints("write 2 90") or running.prints("write 2 45"), running.output)
        self.assertEqual(running.end(), 0)
        taken = [it.split(",")[1] for it in running.errors if it.startswith("fbr-io: INPUT")]
        self.assertEqual(taken, [" 2 taken", " 2 taken"], running.errors)


if __name__ == "__main__":
    unittest.main()
