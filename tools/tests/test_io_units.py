"""The bus of Modbus alone, with units that behave badly."""
import os
import socket
import struct
import sys
import threading
import time
import unittest

import io_parts as parts

sys.path.insert(0, os.path.dirname(os.path.dirname(os.path.abspath(__file__))))

from fbrio.modbus import ModbusBus  # noqa: E402
from fbrio.table import read_table  # noqa: E402


class Gateway:
    """A gateway of Modbus TCP whose units are written here: `answer` gets a unit and a request, and gives the answer, or None for silence.

    With `answer` None it closes each connection at once. `accepted` are the moments of connections."""

    def __init__(self, answer) -> None:
        self.answer, self.accepted = answer, []
        self.listener = socket.create_server(("127.0.0.1", 0))
        self.port = self.listener.getsockname()[1]
        threading.Thread(target=self.run, daemon=True).start()

    def run(self) -> None:
        """Takes connections until it is closed."""
        while True:
            try:
                link, _ = self.listener.accept()
            except OSError:
                return
            self.accepted.append(time.monotonic())
            if self.answer is None:
                link.close()
            else:
                threading.Thread(target=self.serve, args=(link,), daemon=True).start()

    def serve(self, link: socket.socket) -> None:
        """Answers the requests of a connection."""
        with link:
            while len(head := link.recv(7, socket.MSG_WAITALL)) == 7:
                number, _, length, unit = struct.unpack(">HHHB", head)
                answer = self.answer(unit, link.recv(length - 1, socket.MSG_WAITALL))
                if answer is not None:
                    link.sendall(struct.pack(">HHHB", number, 0, len(answer) + 1, unit) + answer)

    def close(self) -> None:
        """Takes no more connections."""
        self.listener.close()


@parts.needs("pymodbus", "serial_asyncio")
class BadUnits(unittest.TestCase):
    """A bus with a gateway of the test's own."""

    def begin(self, answer, text: str):
        """The gateway, the bus with these lines, which has begun, and the lines."""
        gateway = Gateway(answer)
        self.addCleanup(gateway.close)
        table, faults = read_table("t", text.format(port=gateway.port))
        self.assertEqual(faults, [])
        self.ear = parts.Heard()
        bus = ModbusBus(f"modbus 127.0.0.1:{gateway.port}", table.ends, self.ear)
        self.addCleanup(bus.join, 5.0)
        self.addCleanup(bus.finish)
        bus.start()
        return gateway, bus, table.ends

    def test_a_gateway_that_closes_each_connection(self) -> None:
        gateway, bus, _ = self.begin(None, "INPUT 1 INT modbus 127.0.0.1:{port} holding 0 poll 10ms lost 7")
        time.sleep(2.0)
        waits = [later - earlier for earlier, later in zip(gateway.accepted, gateway.accepted[1:])]
        self.assertLess(len(waits), 8, waits)
        self.assertGreater(waits[-1], 0.7, waits)
        self.assertEqual(set(self.ear.troubles), {(bus.name, "connection lost")})
        self.assertEqual(self.ear.values, [(1, (7,))])

    def test_a_silent_unit_holds_up_no_other(self) -> None:
        text = "INPUT 1 INT modbus 127.0.0.1:{port} unit 2 holding 0 poll 20ms lost 7\nINPUT 2 INT modbus 127.0.0.1:{port} unit 1 holding 0 poll 20ms"
        text = text.replace("unit 2 holding 0", "holding 0 unit 2").replace("unit 1 holding 0", "holding 0 unit 1")
        _, bus, lines = self.begin(lambda unit, request: b"\x03\x02\x00\x05" if unit == 1 else None, text)
        time.sleep(4.5)
        of_others = self.ear.values.count((2, (5,)))
        self.assertGreater(of_others, 20, self.ear.values[-5:])
        self.assertEqual(self.ear.values.count((1, (7,))), 1)
        name = f"INPUT 1 at modbus {lines[0].at.host}:{lines[0].at.port} unit 2 holding at address 0"
        self.assertEqual(set(self.ear.troubles), {(name, "no answer")}, self.ear.troubles)

    def test_a_unit_that_declines(self) -> None:
        answers = iter([b"\x83\x02", b"\x83\x02"])
        _, bus, lines = self.begin(lambda unit, request: next(answers, b"\x03\x02\x00\x05"), "INPUT 1 INT modbus 127.0.0.1:{port} holding 0 poll 20ms lost 7")
        self.assertTrue(parts.waited(lambda: self.ear.values[:2] == [(1, (7,)), (1, (5,))]), self.ear.values)
        name = f"INPUT 1 at modbus 127.0.0.1:{lines[0].at.port} unit 1 holding at address 0"
        self.assertEqual(self.ear.troubles, [(name, "the unit answered with exception 2")] * 2 + [(name, "works")])

    def test_an_output_that_changes_all_the_time_holds_up_no_input(self) -> None:
        def answer(unit: int, request: bytes) -> bytes:
            time.sleep(0.005)
            return b"\x03\x02\x00\x05" if request[0] == 3 else request[:5]

        text = "OUTPUT 1 INT modbus 127.0.0.1:{port} holding 7\nINPUT 1 INT modbus 127.0.0.1:{port} holding 0 poll 20ms"
        _, bus, lines = self.begin(answer, text)
        end, value = time.monotonic() + 1.5, 0
        while time.monotonic() < end:
            value += 1
            bus.put(lines[0], (value,))
            time.sleep(0.001)
        self.assertGreater(len(self.ear.values), 20)
        self.assertGreater(len(self.ear.puts), 20)

    def test_values_go_out_by_one_request(self) -> None:
        seen = []
        text = (
            "OUTPUT 1 BOOL modbus 127.0.0.1:{port} coil 3\nOUTPUT 2 BOOL,BOOL modbus 127.0.0.1:{port} coil 5\n"
            "OUTPUT 3 INT modbus 127.0.0.1:{port} holding 7\nOUTPUT 4 BOOL,DINT modbus 127.0.0.1:{port} holding 9"
        )
        _, bus, lines = self.begin(lambda unit, request: seen.append(request.hex(" ")) or request[:5], text)
        for line, values in zip(lines, ((1,), (1, 0), (-2,), (1, -2))):
            bus.put(line, values)
            self.assertTrue(parts.waited(lambda: self.ear.puts[-1:] == [line.number]))
        self.assertEqual(seen, ["05 00 03 ff 00", "0f 00 05 00 02 01 01", "06 00 07 ff fe", "10 00 09 00 03 06 00 01 ff ff ff fe"])


if __name__ == "__main__":
    unittest.main()
