#!/usr/bin/python3
"""Measures how long a value takes from outside through `serve` and back, by hand: FBR=PROGRAM io_latency.py [COUNT]

The tank gets COUNT pairs of limits (500 if none is given), each after the one before has come back on its display. Printed is the median, the 99th of 100 and
the longest, in milliseconds: of a message that goes through the broker alone, of limits by MQTT, and of limits by Modbus with a poll of 10 ms."""
import queue
import statistics
import sys
import time

import io_parts as parts

TABLES = {
    "mqtt": "mqtt 127.0.0.1:{port}\nINPUT 2 INT,INT mqtt limits\nOUTPUT 4 BOOL,INT,INT mqtt taken\n",
    "modbus": "INPUT 2 INT,INT modbus 127.0.0.1:{port} holding 11 poll 10ms changes\nOUTPUT 4 BOOL,INT,INT modbus 127.0.0.1:{port} holding 20\n",
}


class Measured(parts.Folder):
    """What is measured; it is no test."""

    def runTest(self) -> None:  # noqa: N802  (as unittest names it)
        """Nothing: the folder and the device of a test are what is wanted here."""

    def limits(self, count: int) -> list[tuple[int, int]]:
        """Pairs that the tank takes, each another one than that before it."""
        return [(50 + at % 700, 800 + at % 2) for at in range(count)]

    def through_the_broker(self, count: int, topic: str, heard_topic: str, values: list[tuple[int, int]], port: int) -> list[float]:
        """The seconds from each message to the next one that is heard."""
        from paho.mqtt import client as paho

        heard: queue.Queue[float] = queue.Queue()
        client = paho.Client()
        client.on_message = lambda *_: heard.put(time.perf_counter())
        client.connect("127.0.0.1", port)
        client.subscribe(heard_topic)
        client.loop_start()
        time.sleep(0.5)
        found = []
        for value in values:
            begun = time.perf_counter()
            client.publish(topic, "{} {}".format(*value))
            found.append(heard.get(timeout=5) - begun)
            time.sleep(0.003)
        client.disconnect()
        client.loop_stop()
        return found

    def by_modbus(self, values: list[tuple[int, int]], port: int) -> list[float]:
        """The seconds from each pair to the display that follows."""
        from pymodbus.client import ModbusTcpClient

        client = ModbusTcpClient("127.0.0.1", port=port)
        client.connect()
        found = []
        for value in values:
            begun = time.perf_counter()
            client.write_registers(11, list(value), slave=1)
            while client.read_holding_registers(21, 2, slave=1).registers != list(value):
                continue
            found.append(time.perf_counter() - begun)
        return found


def told(name: str, seconds: list[float]) -> None:
    """Prints a row."""
    cut = statistics.quantiles(seconds, n=100)
    print(f"{name}: median {1000 * statistics.median(seconds):.1f} ms, 99 of 100 within {1000 * cut[98]:.1f} ms, longest {1000 * max(seconds):.1f} ms")


def main(count: int = 500) -> None:
    """Measures all three."""
    measured = Measured()
    measured.setUp()
    try:
        broker, plant = measured.broker(), measured.plant("0", "0")
        told("the broker alone", measured.through_the_broker(count, "echo", "echo", measured.limits(count), broker.port))
        running = measured.run_with(TABLES["mqtt"].format(port=broker.port))
        told("MQTT to MQTT", measured.through_the_broker(count, "limits", "taken", measured.limits(count), broker.port))
        running.end()
        running = measured.run_with(TABLES["modbus"].format(port=plant.port))
        told("Modbus to Modbus, poll 10ms", measured.by_modbus(measured.limits(count), plant.port))
        running.end()
    finally:
        measured.doCleanups()


if __name__ == "__main__":
    main(*map(int, sys.argv[1:]))
