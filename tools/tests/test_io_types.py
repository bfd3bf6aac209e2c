"""Values of all types, and none, through `serve` and back: by MQTT and by Modbus."""
import shutil
import struct
import tempfile
import unittest

import io_parts as parts

TYPES = "BOOL,SINT,INT,DINT,LINT,USINT,UINT,UDINT,TIME"
LEAST = (0, -128, -(2**15), -(2**31), -(2**63), 0, 0, 0, -(2**63))
MOST = (1, 127, 2**15 - 1, 2**31 - 1, 2**63 - 1, 255, 2**16 - 1, 2**32 - 1, 2**63 - 1)
LAYOUT = ">hhhiqHHIq"
TABLE = """
mqtt 127.0.0.1:{broker}
INPUT 1 EVENT mqtt bell/in edge 4
INPUT 2 {types} mqtt all/in
INPUT 3 {types} modbus 127.0.0.1:{unit} holding 0 poll 20ms changes
OUTPUT 1 EVENT mqtt bell/out
OUTPUT 2 {types} mqtt all/out retain
OUTPUT 3 {types} modbus 127.0.0.1:{unit} holding 30 low-first
OUTPUT 3 {types} modbus 127.0.0.1:{unit} holding 60
"""


def echo() -> str:
    """A text in which each OUTPUT writes what the INPUT of its number brings."""
    names, count = TYPES.replace(",", ", "), TYPES.count(",") + 1
    values = "\n".join(f"I{it}.RD_{at} TO O{it}.SD_{at};" for it in (2, 3) for at in range(1, count + 1))
    return f"""SYSTEM Echo DEVICE D RESOURCE R
FBS I1 : INPUT(ID := 1); O1 : OUTPUT(ID := 1); I2 : INPUT[{names}](ID := 2); O2 : OUTPUT[{names}](ID := 2);
I3 : INPUT[{names}](ID := 3); O3 : OUTPUT[{names}](ID := 3); END_FBS
EVENT_CONNECTIONS I1.IND TO O1.REQ; I2.IND TO O2.REQ; I3.IND TO O3.REQ; END_CONNECTIONS
DATA_CONNECTIONS
{values}
END_CONNECTIONS END_RESOURCE END_DEVICE END_SYSTEM
"""


def registers(values: tuple[int, ...]) -> list[int]:
    """Values as registers, each with its high one first."""
    raw = struct.pack(LAYOUT, *values)
    return list(struct.unpack(f">{len(raw) // 2}H", raw))


@parts.needs("mosquitto", "mosquitto_sub", "mosquitto_pub", "paho.mqtt", "pymodbus", "serial_asyncio")
class OfAllTypes(parts.Folder):
    """A device that hands on what it gets."""

    DEVICE = "D"

    def setUp(self) -> None:
        folder = tempfile.mkdtemp(prefix="fbr-io-")
        self.addCleanup(shutil.rmtree, folder, True)
        self.APP = f"{folder}/echo.fb"
        with open(self.APP, "w", encoding="utf-8") as file:
            file.write(echo())
        super().setUp()
        self.at, self.unit = self.broker(), self.plant("0")
        self.topics = self.messages(self.at.port)
        self.running = self.run_with(TABLE.format(broker=self.at.port, unit=self.unit.port, types=TYPES))
        self.assertTrue(self.at.logs(" all/in\n"))

    def test_by_mqtt(self) -> None:
        for values in (LEAST, MOST):
            payload = " ".join(map(str, values))
            parts.publish(self.at.port, "all/in", payload)
            self.assertTrue(parts.waited(lambda: f"all/out {payload}" in self.topics.heard), self.topics.heard)
        later = self.messages(self.at.port)
        self.assertTrue(parts.waited(lambda: f"all/out {payload}" in later.heard), later.heard)

    def test_by_modbus(self) -> None:
        from pymodbus.client import ModbusTcpClient

        client = ModbusTcpClient("127.0.0.1", port=self.unit.port)
        client.connect()
        self.addCleanup(client.close)
        for values in (LEAST, MOST, (1, -1, -2, -3, -4, 5, 6, 7, 8)):
            raw = registers(values)
            client.write_registers(0, raw, slave=1)
            self.assertTrue(parts.waited(lambda: client.read_holding_registers(60, len(raw), slave=1).registers == raw), (values, self.running.errors))
        # The same with the low register of each value first.
        low = client.read_holding_registers(30, len(raw), slave=1).registers
        self.assertEqual(low, [1, 0xFFFF, 0xFFFE, 0xFFFD, 0xFFFF, 0xFFFC, 0xFFFF, 0xFFFF, 0xFFFF, 5, 6, 7, 0, 8, 0, 0, 0])

    def test_events_come_and_go_once(self) -> None:
        for _ in range(3):
            parts.publish(self.at.port, "bell/in", "ignored")
        self.assertTrue(parts.waited(lambda: self.topics.heard.count("bell/out ") == 3), self.topics.heard)
        self.at.kill()
        self.assertTrue(self.running.says("connection lost; retrying"))
        self.at.start()
        again = self.messages(self.at.port)
        self.assertTrue(self.at.logs(" bell/in\n", 2), self.running.errors)
        parts.publish(self.at.port, "bell/in", "")
        self.assertTrue(parts.waited(lambda: "bell/out " in again.heard), again.heard)
        self.assertEqual(again.heard.count("bell/out "), 1)


if __name__ == "__main__":
    unittest.main()
