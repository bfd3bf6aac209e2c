"""fbr-io and the answers of `serve`: denials, offers without an answer, events that wait, other senders, and what is handed on."""
import os
import signal
import socket
import subprocess
import sys
import time
import unittest

import io_parts as parts

sys.path.insert(0, os.path.dirname(os.path.dirname(os.path.abspath(__file__))))

from fbrio.values import TYPES, offer  # noqa: E402

INT = TYPES["INT"]
TANK = """
mqtt 127.0.0.1:{port}
INPUT 1 INT mqtt plant/level
INPUT 2 INT,INT mqtt plant/limits
INPUT 3 BOOL mqtt plant/enable
OUTPUT 1 BOOL mqtt plant/valve
OUTPUT 4 BOOL,INT,INT mqtt plant/taken
"""
MACHINE = """
mqtt 127.0.0.1:{port}
INPUT 1 EVENT mqtt machine/gripped edge 8
INPUT 2 EVENT mqtt machine/done edge 8
OUTPUT 1 BOOL mqtt machine/gripper safe FALSE
"""


class Stopped(parts.Folder):
    """A device that is stopped for a while, so that offers come to it together."""

    def begin(self, text: str, *more: str) -> None:
        """A broker, and a companion that has subscribed to all that it hears."""
        self.at = self.broker()
        self.running = self.run_with(text.format(port=self.at.port), *more)
        self.wait_for_subscriptions(text)

    def wait_for_subscriptions(self, text: str) -> None:
        """Waits until the broker knows all topics of INPUTs."""
        for line in text.splitlines():
            if line.startswith("INPUT"):
                self.assertTrue(self.at.logs(f" {line.split()[4]}\n"), line)

    def publish(self, topic: str, message: str) -> None:
        """A message from outside."""
        parts.publish(self.at.port, topic, message)

    def counts(self, name: str) -> str:
        """The sums of an INPUT, after the end."""
        return [it for it in self.running.errors if it.startswith(f"fbr-io: {name}: ")][-1].partition(": ")[2].partition(": ")[2]


@parts.needs("mosquitto", "mosquitto_pub", "paho.mqtt")
class OfTheTank(Stopped):
    """A tank whose queue takes one level at a time."""

    def setUp(self) -> None:
        super().setUp()
        subprocess.run([parts.program(), "bound", self.APP, "-o", self.certificate], check=True, capture_output=True)
        self.begin(TANK)

    def test_what_is_denied_is_offered_until_it_is_taken(self) -> None:
        device = self.running.device_process()
        os.kill(device, signal.SIGSTOP)
        self.publish("plant/level", "2000")
        self.publish("plant/limits", "100 150")
        self.publish("plant/enable", "1")
        time.sleep(0.2)
        os.kill(device, signal.SIGCONT)
        self.assertTrue(self.running.says("INPUT 2 denied 53: 1 places needed, 0 free"), self.running.errors)
        self.assertTrue(self.running.prints("write 4 1 100 150"), self.running.output)
        self.assertTrue(parts.waited(lambda: sum("denied" in it for it in self.running.errors) == 2))
        time.sleep(0.2)
        self.publish("plant/level", "2000")
        self.assertTrue(self.running.prints("write 1 1"), (self.running.output, self.running.errors))
        self.assertEqual(self.running.end(), 0)
        self.assertEqual(self.counts("INPUT 2"), "2 offers sent, 1 taken, 1 denied, 0 unanswered, 0 replaced")
        self.assertEqual(self.counts("INPUT 3"), "2 offers sent, 1 taken, 1 denied, 0 unanswered, 0 replaced")

    def test_an_offer_without_an_answer_is_offered_again(self) -> None:
        device = self.running.device_process()
        os.kill(device, signal.SIGSTOP)
        with socket.socket(socket.AF_INET, socket.SOCK_DGRAM) as other:
            for _ in range(24):
                other.sendto(offer(2, (INT, INT), (300, 700)), ("127.0.0.1", self.port))
        self.publish("plant/level", "5000")
        time.sleep(0.3)
        os.kill(device, signal.SIGCONT)
        self.assertTrue(self.running.prints("write 2 180", 1.5), self.running.errors)
        self.assertEqual([it for it in self.running.errors if "denied 50" in it], [])
        self.assertEqual(self.running.end(), 0)
        # It may be denied again in the same second, and again without a line of its own.
        self.assertRegex(self.counts("INPUT 1"), "^([2-9]|1[01]) offers sent, 1 taken, 0 denied, ([1-9]|10) unanswered, 0 replaced$")

    def test_an_offer_that_the_system_drops_is_offered_again(self) -> None:
        device = self.running.device_process()
        os.kill(device, signal.SIGSTOP)
        with socket.socket(socket.AF_INET, socket.SOCK_DGRAM) as other:
            for _ in range(20000):
                other.sendto(b"x" * 160, ("127.0.0.1", self.port))
        self.assertGreater(self.dropped(), 0)
        self.publish("plant/level", "5000")
        time.sleep(0.2)
        os.kill(device, signal.SIGCONT)
        self.assertTrue(self.running.prints("write 2 180"), self.running.errors[-5:])
        self.assertEqual(self.running.end(), 0)
        self.assertEqual(self.counts("INPUT 1"), "2 offers sent, 1 taken, 0 denied, 1 unanswered, 0 replaced")

    def test_lines_that_are_lost_are_reported(self) -> None:
        self.running.process.send_signal(signal.SIGSTOP)
        with socket.socket(socket.AF_INET, socket.SOCK_DGRAM) as other:
            for _ in range(20000):
                other.sendto(offer(1, (INT,), (5000,)), ("127.0.0.1", self.port))
                time.sleep(0.0001)
        self.running.process.send_signal(signal.SIGCONT)
        self.assertTrue(self.running.says(" lines of OUTPUTs got lost, since they were read too late: an OUTPUT may not be as the device wrote it"))
        self.assertEqual(self.running.end(), 3)

    def dropped(self) -> int:
        """How many datagrams the system has dropped that were for the device."""
        with open("/proc/net/udp", encoding="ascii") as file:
            return sum(int(it.split()[-1]) for it in file if f":{self.port:04X} " in it)

    def test_a_level_that_changes_while_it_is_under_way_comes_last(self) -> None:
        device = self.running.device_process()
        os.kill(device, signal.SIGSTOP)
        for it in (100, 5000, 200, 6912):
            self.publish("plant/level", str(it))
        time.sleep(0.2)
        os.kill(device, signal.SIGCONT)
        # The first level stands for all four of which the mean is taken, and the last one is 250 of 1000: (3 * 3 + 250) / 4.
        self.assertTrue(self.running.prints("write 2 64"), self.running.output)
        self.assertEqual(self.running.end(), 0)
        # The second may be denied once, while the first is still under way.
        self.assertRegex(self.counts("INPUT 1"), "[23] offers sent, 2 taken, [01] denied, 0 unanswered, 2 replaced")


@parts.needs("mosquitto", "mosquitto_pub", "paho.mqtt")
class OfTheMachine(Stopped):
    """The machine of examples/handover, whose INPUTs have no values."""

    APP = f"{parts.TOP}/examples/handover/handover.fb"
    DEVICE = "Machine"

    def test_events_wait_and_those_without_room_are_lost(self) -> None:
        self.begin(MACHINE)
        device = self.running.device_process()
        os.kill(device, signal.SIGSTOP)
        for _ in range(20):
            self.publish("machine/done", "")
        time.sleep(0.2)
        os.kill(device, signal.SIGCONT)
        time.sleep(0.5)
        self.assertEqual(self.running.end(), 0)
        self.assertEqual(self.counts("INPUT 2"), "8 offers sent, 8 taken, 0 denied, 0 unanswered, 12 lost")

    def test_a_retained_message_is_no_event(self) -> None:
        self.at = self.broker()
        parts.publish(self.at.port, "machine/done", "", "-r")
        parts.publish(self.at.port, "machine/gripped", "x", "-r")
        self.running = self.run_with(MACHINE.format(port=self.at.port))
        self.wait_for_subscriptions(MACHINE)
        parts.publish(self.at.port, "machine/gripped", "anything")
        time.sleep(0.3)
        self.assertEqual(self.running.end(), 0)
        self.assertEqual(self.counts("INPUT 1"), "1 offer sent, 1 taken, 0 denied, 0 unanswered, 0 lost")

    def test_what_people_asked_for_is_handed_on(self) -> None:
        self.begin(MACHINE, "--verbose", "--summary", "1", "--clock", "--until-eof")
        self.publish("machine/done", "")
        self.assertTrue(self.running.says("s INPUT 2 begins cause 2, of at most 5 steps"), self.running.errors)
        self.assertTrue(self.running.says("s cause 2 has ended after 2 of 5 steps"), self.running.errors)
        self.assertTrue(parts.waited(lambda: sum(" s fired " in it for it in self.running.errors) >= 2), self.running.errors)
        self.running.process.stdin.close()
        self.assertTrue(parts.waited(lambda: self.running.process.poll() == 0), self.running.errors)

    def test_what_nobody_asked_for_is_not_handed_on(self) -> None:
        self.begin(MACHINE)
        self.publish("machine/done", "")
        time.sleep(1.5)
        self.assertEqual(self.running.end(), 0)
        self.assertEqual([it for it in self.running.errors if " s " in it], [])

    def test_the_status_of_serve_is_handed_on(self) -> None:
        with socket.socket(socket.AF_INET, socket.SOCK_DGRAM) as other:
            other.bind(("127.0.0.1", self.port))
            running = parts.Running(self.words(self.table("mqtt 127.0.0.1:1\nINPUT 2 EVENT mqtt a edge 1\n")))
            self.assertEqual(running.end(0), 3, (running.output, running.errors))
            self.assertEqual(running.output, [f"refused 62 {self.port}"])
        running = parts.Running(self.words(self.table("mqtt 127.0.0.1:1\nINPUT 2 EVENT mqtt a edge 1\n"), "--turns", "10"))
        self.assertEqual(running.end(0), 0, running.errors)
        self.assertTrue(running.says("fbr-io: mqtt 127.0.0.1:1: cannot connect; retrying"), running.errors)


if __name__ == "__main__":
    unittest.main()
