"""GPIO of fbr-io, against a stand-in of the module gpiod: it was not tried on a chip."""
import asyncio
import io
import os
import signal
import sys
import time
import unittest
from unittest import mock

import io_gpiod
import io_parts as parts

sys.path.insert(0, os.path.dirname(os.path.dirname(os.path.abspath(__file__))))

from fbrio.buses import make_buses  # noqa: E402
from fbrio.companion import Companion  # noqa: E402
from fbrio.gpio import GpioBus  # noqa: E402
from fbrio.table import read_table  # noqa: E402
from fbrio.telling import Teller  # noqa: E402
from fbrio.words import read_words  # noqa: E402


class ByGpio(unittest.TestCase):
    """A chip of the stand-in."""

    def setUp(self) -> None:
        io_gpiod.wires.__init__()
        patch = mock.patch.dict(sys.modules, {"gpiod": io_gpiod})
        patch.start()
        self.addCleanup(patch.stop)
        self.ear = parts.Heard()

    def bus(self, text: str):
        """A bus with the lines of this table, which is ended with the test, and these lines."""
        table, faults = read_table("t", text)
        self.assertEqual(faults, [])
        bus = GpioBus("gpio gpiochip0", table.ends, self.ear)
        self.addCleanup(bus.join, 3.0)
        self.addCleanup(bus.finish)
        return bus, table.ends

    def begin(self, text: str):
        """The same, begun, with its lines open."""
        bus, lines = self.bus(text)
        bus.start()
        watched = [it for it in lines if it.kind == "INPUT"]
        self.assertTrue(parts.waited(lambda: len(io_gpiod.wires.bulks) == len(watched)))
        return bus, lines

    def came(self, *values) -> None:
        """These values come, in this order."""
        self.assertTrue(parts.waited(lambda: self.ear.values == list(values), 5), self.ear.values)

    @parts.needs("gpiod")
    def test_the_stand_in_is_like_gpiod(self) -> None:
        import importlib

        with mock.patch.dict(sys.modules):
            sys.modules.pop("gpiod")
            real = importlib.import_module("gpiod")
        for name in (it for it in vars(io_gpiod) if it.startswith("LINE_REQ")):
            self.assertEqual(getattr(io_gpiod, name), getattr(real, name), name)
        for name in ("LineEvent", "Line", "LineBulk", "Chip"):
            methods = [it for it in vars(getattr(io_gpiod, name)) if not it.startswith("__") and it != "type"]
            self.assertEqual([it for it in methods if not hasattr(getattr(real, name), it)], [], name)

    def test_a_level_comes_at_first_and_at_each_change(self) -> None:
        io_gpiod.wires.set(17, 1)
        self.begin("INPUT 2 BOOL gpio chip0 17 both pull-up active-low")
        self.came((2, (1,)))
        for value in (0, 1):
            io_gpiod.wires.set(17, value)
            self.came(*[(2, (it,)) for it in (1, 0, 1)[: 2 + value]])
        flags = io_gpiod.LINE_REQ_FLAG_ACTIVE_LOW | io_gpiod.LINE_REQ_FLAG_BIAS_PULL_UP
        self.assertEqual(io_gpiod.wires.asked, {17: (io_gpiod.LINE_REQ_EV_BOTH_EDGES, flags)})

    def test_levels_of_two_lines_come_together(self) -> None:
        self.begin("INPUT 2 BOOL,BOOL gpio chip0 17,4 both")
        self.came((2, (0, 0)))
        io_gpiod.wires.set(4, 1)
        self.came((2, (0, 0)), (2, (0, 1)))

    def test_edges_come_without_the_first_level(self) -> None:
        io_gpiod.wires.set(5, 1)
        self.begin("INPUT 3 EVENT gpio chip0 5 rising edge 8\nINPUT 4 BOOL gpio chip0 6 both edge 8")
        for value in (0, 1, 0, 1):
            io_gpiod.wires.set(5, value)
        self.came((3, ()), (3, ()))
        for value in (1, 0):
            io_gpiod.wires.set(6, value)
        self.came((3, ()), (3, ()), (4, (1,)), (4, (0,)))
        self.assertEqual(io_gpiod.wires.asked[5], (io_gpiod.LINE_REQ_EV_RISING_EDGE, 0))

    def test_outputs_are_opened_with_their_first_value(self) -> None:
        bus, lines = self.begin("OUTPUT 1 BOOL gpio chip0 27 safe TRUE\nOUTPUT 2 BOOL,BOOL gpio chip0 1,2 active-low")
        self.assertEqual(io_gpiod.wires.asked, {})
        bus.put(lines[0], (1,))
        self.assertTrue(parts.waited(lambda: self.ear.puts == [1]))
        bus.put(lines[1], (0, 1))
        self.assertTrue(parts.waited(lambda: self.ear.puts == [1, 2]))
        bus.put(lines[0], (0,))
        self.assertTrue(parts.waited(lambda: self.ear.puts == [1, 2, 1]))
        self.assertEqual(io_gpiod.wires.history, [(27, 1), (1, 0), (2, 1), (27, 0)])
        self.assertEqual(io_gpiod.wires.asked[1], (io_gpiod.LINE_REQ_DIR_OUT, io_gpiod.LINE_REQ_FLAG_ACTIVE_LOW))

    def test_what_is_put_last_is_set_before_the_end(self) -> None:
        bus, lines = self.begin("OUTPUT 1 BOOL gpio chip0 27 safe FALSE")
        bus.put(lines[0], (1,))
        bus.put(lines[0], (0,))
        bus.finish()
        bus.join(3.0)
        self.assertEqual(io_gpiod.wires.values[27], 0)

    def test_a_chip_that_goes_and_comes_back(self) -> None:
        bus, lines = self.begin("INPUT 2 BOOL gpio chip0 17 both lost TRUE\nOUTPUT 1 BOOL gpio chip0 27 safe FALSE")
        bus.put(lines[1], (1,))
        self.assertTrue(parts.waited(lambda: self.ear.puts == [1]))
        io_gpiod.wires.break_down()
        bus.put(lines[1], (0,))
        self.assertTrue(parts.waited(lambda: {it[0] for it in self.ear.troubles} == {"gpio gpiochip0", "INPUT 2 at gpio gpiochip0 17"}), self.ear.troubles)
        self.assertTrue(parts.waited(lambda: self.ear.values[:2] == [(2, (0,)), (2, (1,))]), self.ear.values)
        io_gpiod.wires.is_there = True
        self.assertTrue(parts.waited(lambda: io_gpiod.wires.values[27] == 0))
        self.assertTrue(parts.waited(lambda: self.ear.values == [(2, (0,)), (2, (1,)), (2, (0,))]), self.ear.values)

STARTER = """
INPUT 1 EVENT gpio chip0 1 rising edge 8
INPUT 3 EVENT gpio chip0 3 falling edge 8 active-low
INPUT 4 BOOL gpio chip0 4 both
INPUT 6 BOOL,BOOL gpio chip0 5,6 both
OUTPUT 1 BOOL,BOOL gpio chip0 21,22 safe FALSE,FALSE
OUTPUT 2 BOOL gpio chip0 23 safe TRUE
"""


class AStarter(parts.Folder):
    """The motor starter of examples/ with all its ends at the chip of the stand-in, in a companion in this process."""

    APP = f"{parts.TOP}/examples/motor_starter/motor_starter.fb"
    DEVICE = "Cabinet"

    def press(self, offset: int) -> None:
        """A button is pressed and let go."""
        io_gpiod.wires.set(offset, 1)
        io_gpiod.wires.set(offset, 0)

    def shows(self, *values: int) -> None:
        """The coils forward and reverse, and the lamp, come to have these values."""
        found = lambda: tuple(io_gpiod.wires.values.get(it) for it in (21, 22, 23))  # noqa: E731
        self.assertTrue(parts.waited(lambda: found() == values), (values, found()))

    def story(self, companion) -> None:
        """What is done from outside while the companion runs, and at last the device is killed."""
        self.shows(0, 0, 1)
        self.assertTrue(parts.waited(lambda: companion.inputs[6].counts.taken == 1 and len(io_gpiod.wires.bulks) == 6))
        self.press(1)
        self.shows(1, 0, 1)
        io_gpiod.wires.set(5, 1)
        self.press(3)
        self.shows(0, 0, 1)
        io_gpiod.wires.set(5, 0)
        self.press(1)
        self.shows(1, 0, 1)
        io_gpiod.wires.set(4, 1)
        self.shows(0, 0, 1)
        self.assertTrue(parts.waited(lambda: companion.outputs.counts[companion.table.outputs[1]].writes == 1))
        os.kill(companion.device.process.pid, signal.SIGKILL)

    def story_of_a_loss(self, companion) -> None:
        """The first offer of the button is lost on its way."""
        self.shows(0, 0, 1)
        self.assertTrue(parts.waited(lambda: companion.inputs[6].counts.taken == 1 and len(io_gpiod.wires.bulks) == 6))
        send, lost = companion.send, []
        companion.inputs[1].send = lambda it: send(it) if lost else lost.append(it)
        begun = time.monotonic()
        self.press(1)
        self.shows(1, 0, 1)
        self.seconds = time.monotonic() - begun
        companion.from_thread(companion.stop)

    async def run_companion(self, story, table, words) -> tuple[int, Companion]:
        """Runs the companion, with a story in a thread of its own; its status."""
        companion = Companion(table, words, 65535, Teller(io.StringIO(), io.StringIO()), make_buses)
        told = asyncio.get_running_loop().run_in_executor(None, story, companion)
        status = await companion.run()
        await told
        return status, companion

    def run_story(self, story) -> tuple[int, Companion]:
        """The status of a companion that runs while this story is played."""
        io_gpiod.wires.__init__()
        table, faults = read_table("t", STARTER)
        self.assertEqual(faults, [])
        words = [parts.program(), "serve", self.APP, self.certificate, self.DEVICE, "--bind", str(self.port)]
        with mock.patch.dict(sys.modules, {"gpiod": io_gpiod}):
            return asyncio.run(self.run_companion(story, table, read_words(words)))

    def test_a_lost_offer_is_sent_again_at_once(self) -> None:
        status, companion = self.run_story(self.story_of_a_loss)
        self.assertEqual((status, companion.inputs[1].counts.unanswered, companion.inputs[1].counts.taken), (0, 1, 1))
        self.assertGreater(self.seconds, 0.1)
        self.assertLess(self.seconds, 0.9)

    def test_the_whole_starter(self) -> None:
        status, companion = self.run_story(self.story)
        self.assertEqual(status, 128 + signal.SIGKILL)
        self.assertEqual([io_gpiod.wires.values[it] for it in (21, 22, 23)], [0, 0, 1])
        self.assertEqual([companion.inputs[it].counts.taken for it in (1, 3, 4, 6)], [2, 1, 2, 3])


if __name__ == "__main__":
    unittest.main()
