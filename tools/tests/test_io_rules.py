"""The rules of fbr-io, one by one, with a clock of the test's own: levels, edges, answers, waits, safe values, faults."""
import os
import sys
import unittest

sys.path.insert(0, os.path.dirname(os.path.dirname(os.path.abspath(__file__))))

from fbrio.faults import Faults  # noqa: E402
from fbrio.heard import Answered, Wanted, Written, is_sums, lost_lines, read_answer, read_write, says_that_it_runs  # noqa: E402
from fbrio.inputs import Input  # noqa: E402
from fbrio.lines import InputLine, Mqtt, OutputLine  # noqa: E402
from fbrio.modbus import from_registers, to_registers  # noqa: E402
from fbrio.outputs import Outputs  # noqa: E402
from fbrio.values import TYPES, Misfit, offer, read_values  # noqa: E402
from fbrio.waits import Waits  # noqa: E402

INT, BOOL = (TYPES["INT"],), (TYPES["BOOL"],)
SUMS = "3600.004 s fired 4 received 3 denied 1 ran 27 sent 5 lost 0; longest turn 4 ms, MAIN held 4 of 4, lines lost 0, denied 53:1"


class Clock:
    """Timers that come when the test says so."""

    def __init__(self) -> None:
        self.timers: list[list] = []

    def later(self, seconds: float, call):
        """A timer."""
        timer = [seconds, call]
        self.timers.append(timer)
        clock = self

        class Handle:
            """What cancels it."""

            def cancel(self) -> None:
                """Takes it away."""
                clock.timers.remove(timer)

        return Handle()

    def come(self) -> float:
        """The timer that was set first comes; its time."""
        seconds, call = self.timers.pop(0)
        call()
        return seconds


class OfAnInput(unittest.TestCase):
    """What is offered, and when."""

    def an_input(self, queue: int | None = None, types=INT) -> Input:
        """An INPUT whose device receives; what is sent is in `self.sent`."""
        self.sent, self.clock = [], Clock()
        self.asked = 0
        found = Input(InputLine(1, 7, types, Mqtt("t"), queue), self.sent.append, self.ask, self.clock.later)
        found.open()
        return found

    def ask(self, _: Input) -> None:
        """A question."""
        self.asked += 1

    def was_sent(self, *values: int) -> None:
        """These are the values of all offers, in order."""
        self.assertEqual(self.sent, [offer(7, INT, (it,)) for it in values])

    def test_an_offer_byte_by_byte(self) -> None:
        self.assertEqual(offer(1, BOOL, (1,)).hex(" "), "46 42 01 02 00 01 01 00 00 00 00 00 00 00 00 01")
        self.assertEqual(offer(258, (), ()).hex(" "), "46 42 01 02 01 02 00")
        self.assertEqual(offer(1, INT, (-2,)).hex(" "), "46 42 01 02 00 01 01 02 ff ff ff ff ff ff ff fe")

    def test_nothing_is_offered_before_the_device_receives(self) -> None:
        it = self.an_input()
        it.is_open = False
        it.came((1,))
        it.came((2,))
        self.was_sent()
        it.open()
        self.was_sent(2)

    def test_one_offer_at_a_time_and_the_latest_level_next(self) -> None:
        it = self.an_input()
        for value in (1, 2, 3):
            it.came((value,))
        self.was_sent(1)
        it.answered(True)
        self.was_sent(1, 3)
        it.answered(True)
        self.assertEqual((it.counts.sent, it.counts.taken, it.counts.replaced), (2, 2, 1))

    def test_a_denied_level_is_offered_until_it_is_taken(self) -> None:
        it = self.an_input()
        it.came((5,))
        waits = []
        for _ in range(9):
            it.answered(False)
            waits.append(self.clock.come())
        self.assertEqual(waits, [0.01, 0.02, 0.04, 0.08, 0.16, 0.32, 0.64, 1.0, 1.0])
        it.answered(True)
        self.was_sent(*[5] * 10)
        self.assertEqual((it.counts.denied, it.counts.taken, it.counts.replaced), (9, 1, 0))
        it.came((6,))
        it.answered(False)
        self.assertEqual(self.clock.come(), 0.01)

    def test_a_newer_level_replaces_a_denied_one(self) -> None:
        it = self.an_input()
        it.came((5,))
        it.answered(False)
        it.came((6,))
        self.was_sent(5)
        self.clock.come()
        self.was_sent(5, 6)
        it.answered(True)
        self.assertEqual((it.counts.taken, it.counts.replaced), (1, 1))

    def test_an_offer_without_an_answer_is_offered_again_after_two_sums(self) -> None:
        it = self.an_input()
        it.came((5,))
        it.sums()
        self.was_sent(5)
        it.sums()
        self.was_sent(5, 5)
        it.answered(True)
        it.sums()
        it.sums()
        self.was_sent(5, 5)
        self.assertEqual((it.counts.sent, it.counts.unanswered, it.counts.taken), (2, 1, 1))

    def test_an_offer_that_a_question_has_passed_is_offered_again(self) -> None:
        it = self.an_input()
        it.came((5,))
        self.assertEqual((self.clock.come(), self.asked), (0.1, 1))
        it.came((6,))
        it.passed(1)
        self.was_sent(5, 6)
        it.passed(1)
        self.was_sent(5, 6)
        it.answered(True)
        self.assertEqual((it.counts.unanswered, it.counts.taken, self.clock.timers), (1, 1, []))

    def test_an_answer_in_time_needs_no_question(self) -> None:
        it = self.an_input(queue=4)
        it.came((5,))
        it.answered(True)
        self.assertEqual((self.clock.timers, self.asked), ([], 0))

    def test_an_answer_to_somebody_elses_offer_is_nothing(self) -> None:
        it = self.an_input()
        it.answered(True)
        it.answered(False)
        self.assertEqual((it.counts.taken, it.counts.denied, self.clock.timers), (0, 0, []))

    def test_edges_queue_in_order_and_what_finds_no_room_is_counted(self) -> None:
        it = self.an_input(queue=3)
        for value in (1, 2, 3, 4, 5):
            it.came((value,))
        self.assertEqual(it.counts.lost, 2)
        for _ in range(3):
            it.answered(True)
        self.was_sent(1, 2, 3)
        it.came((6,))
        self.was_sent(1, 2, 3, 6)

    def test_a_denied_edge_stays_the_first(self) -> None:
        it = self.an_input(queue=3)
        it.came((1,))
        it.answered(False)
        it.came((2,))
        self.clock.come()
        it.answered(True)
        self.was_sent(1, 1, 2)

    def test_equal_edges_are_two(self) -> None:
        it = self.an_input(queue=3, types=())
        it.came(())
        it.came(())
        it.answered(True)
        it.answered(True)
        self.assertEqual((len(self.sent), it.counts.taken), (2, 2))

    def test_nothing_is_offered_after_the_end(self) -> None:
        it = self.an_input()
        it.came((1,))
        it.answered(False)
        it.close()
        it.came((2,))
        self.assertEqual(self.clock.timers, [])
        self.was_sent(1)


class Kept:
    """A bus that keeps what is put."""

    def __init__(self) -> None:
        self.puts: list[tuple[int, tuple[int, ...]]] = []

    def put(self, line: OutputLine, values: tuple[int, ...]) -> None:
        """Keeps it."""
        self.puts.append((line.number, values))


class OfOutputs(unittest.TestCase):
    """What is put, and when."""

    def setUp(self) -> None:
        self.bus = Kept()
        lines = [OutputLine(1, 1, BOOL, Mqtt("a"), (0,)), OutputLine(2, 2, INT, Mqtt("b")), OutputLine(3, 3, (), Mqtt("c"))]
        self.outputs = Outputs({it: self.bus for it in lines})
        self.outputs.begin()

    def test_outputs_are_safe_until_they_are_written(self) -> None:
        self.assertEqual(self.bus.puts, [(1, (0,))])
        self.outputs.write(1, (1,))
        self.outputs.write(2, (5,))
        self.assertEqual(self.bus.puts[1:], [(1, (1,)), (2, (5,))])

    def test_a_silent_device_makes_them_safe_and_they_come_back(self) -> None:
        self.outputs.write(1, (1,))
        self.outputs.write(2, (5,))
        self.outputs.write(3, ())
        self.bus.puts.clear()
        self.outputs.go_safe()
        self.outputs.go_safe()
        self.assertEqual(self.bus.puts, [(1, (0,))])
        self.outputs.go_back()
        self.assertEqual(self.bus.puts, [(1, (0,)), (1, (1,))])

    def test_after_the_end_nothing_that_is_written_counts(self) -> None:
        self.outputs.write(1, (1,))
        self.outputs.end()
        self.bus.puts.clear()
        self.outputs.write(1, (1,))
        self.outputs.go_back()
        self.outputs.end()
        self.assertEqual(self.bus.puts, [])

    def test_a_line_of_another_output_is_nobodys(self) -> None:
        self.outputs.write(9, (1,))
        self.outputs.write(1, (1, 2))
        self.assertEqual(self.bus.puts, [(1, (0,))])


class OfLines(unittest.TestCase):
    """What lines of `serve` say."""

    def test_lines_of_outputs(self) -> None:
        self.assertEqual(read_write("write 1 1"), Written(1, (1,)))
        self.assertEqual(read_write("12304 write 7 0 -17"), Written(7, (0, -17)))
        self.assertEqual(read_write("write 3"), Written(3, ()))
        for line in ("write", "fired 4 received 3 denied 0 ran 27 sent 5 lost 0", "write 1 x", " write 1 1"):
            self.assertIsNone(read_write(line), line)

    def test_answers(self) -> None:
        self.assertEqual(read_answer("0.601 s INPUT 1 begins cause 2, of at most 8 steps"), Answered(1, True))
        self.assertEqual(read_answer("12.304 s INPUT 12 denied 53: 4 places needed, 0 free"), Answered(12, False))
        for line in ("0.601 s channel 1 begins cause 2, of at most 8 steps", "12.999 s 65 more denied 53 in that second", "12.304 s 23 bytes denied 55: x"):
            self.assertIsNone(read_answer(line), line)

    def test_signs(self) -> None:
        self.assertTrue(is_sums(SUMS))
        self.assertFalse(is_sums("fired 4 received 3 denied 0 ran 27 sent 5 lost 0"))
        self.assertEqual((lost_lines(SUMS), lost_lines(SUMS.replace("lost 0, denied", "lost 17, denied"))), (0, 17))
        self.assertTrue(says_that_it_runs("fbr: ROBOT receives at 10.0.0.1:24001 from 10.0.0.2, sends to 10.0.0.2:24001"))

    def test_people_get_what_they_asked_for(self) -> None:
        details = [
            "0.601 s INPUT 1 begins cause 2, of at most 8 steps",
            "0.601 s ROBOT.CELL.GIVER.TABLE of cause 2: 4 steps",
            "0.601 s sent to channel 1",
            "0.601 s cause 2 has ended after 8 of 8 steps",
        ]
        others = [
            "0.601 s INPUT 1 denied 53: 4 places needed, 0 free",
            "12.304 s sent to channel 1: not every peer took it",
            "12.999 s 65 more denied 53 in that second",
            "fbr: 3 lines could not be written",
        ]
        bare, verbose = Wanted(False, 0), Wanted(True, 0)
        self.assertEqual([bare.passes(it) for it in details + others + [SUMS]], [False] * 4 + [True] * 4 + [False])
        self.assertEqual([verbose.passes(it) for it in details + others], [True] * 8)

    def test_sums_come_as_often_as_people_asked(self) -> None:
        wanted = Wanted(False, 3)
        at = [f"{second}.004 s fired 0 received 0 denied 0" for second in range(1, 9)]
        self.assertEqual([it.split(".")[0] for it in at if wanted.passes(it)], ["3", "6"])
        self.assertEqual(wanted.last(), at[-1])


class OfFaults(unittest.TestCase):
    """Faults of buses and the waits between tries."""

    def test_waits_grow_to_the_longest(self) -> None:
        waits = Waits(0.1, 30.0)
        self.assertEqual([round(waits.next(), 1) for _ in range(11)], [0.1, 0.2, 0.4, 0.8, 1.6, 3.2, 6.4, 12.8, 25.6, 30.0, 30.0])
        waits.reset()
        self.assertEqual(waits.next(), 0.1)

    def test_a_fault_is_told_once_and_once_more_when_it_is_over(self) -> None:
        told, times = [], iter([10.0, 13.25, 20.0, 20.5])
        faults = Faults(told.append, lambda: next(times))
        faults.works("modbus a:502")
        for _ in range(3):
            faults.failed("modbus a:502", "cannot connect")
        faults.works("modbus a:502")
        faults.works("modbus a:502")
        faults.failed("modbus a:502", "no answer")
        faults.works("modbus a:502")
        self.assertEqual(
            told,
            [
                "modbus a:502: cannot connect; retrying",
                "modbus a:502: works again after 3.2 s and 3 failed attempts",
                "modbus a:502: no answer; retrying",
                "modbus a:502: works again after 0.5 s and 1 failed attempt",
            ],
        )
        self.assertEqual((faults.troubles["modbus a:502"].faults, faults.troubles["modbus a:502"].tries), (2, 4))


class OfValues(unittest.TestCase):
    """Values as words and as registers."""

    def test_words(self) -> None:
        types = (TYPES["BOOL"], TYPES["INT"], TYPES["TIME"])
        self.assertEqual(read_values(types, ["true", "-32768", "500"]), (1, -32768, 500))
        for words, why in (
            (["TRUE", "32768", "0"], "32768 does not fit INT (-32768 to 32767)"),
            (["2", "0", "0"], "2 does not fit BOOL (0 to 1)"),
            (["ON", "0", "0"], "'ON' is not a value of BOOL"),
            (["1", "1.5", "0"], "'1.5' is not a value of INT"),
            (["1", "1"], "BOOL,INT,TIME needs 3 values, not 2"),
        ):
            with self.assertRaises(Misfit) as found:
                read_values(types, words)
            self.assertEqual(str(found.exception), why)

    def test_registers_and_back(self) -> None:
        types = (TYPES["INT"], TYPES["UDINT"], TYPES["LINT"])
        values = (-2, 0x12345678, -1)
        high, low = [0xFFFE, 0x1234, 0x5678] + [0xFFFF] * 4, [0xFFFE, 0x5678, 0x1234] + [0xFFFF] * 4
        self.assertEqual((to_registers(types, values, False), to_registers(types, values, True)), (high, low))
        self.assertEqual((from_registers(types, high, False), from_registers(types, low, True)), (values, values))
        self.assertEqual(from_registers((TYPES["UINT"], TYPES["SINT"]), [65535, 0xFF80], False), (65535, -128))
        for types, registers, why in (
            ((TYPES["SINT"],), [255], "255 does not fit SINT (-128 to 127)"),
            ((TYPES["USINT"],), [300], "300 does not fit USINT (0 to 255)"),
            ((TYPES["BOOL"],), [2], "2 does not fit BOOL (0 to 1)"),
        ):
            with self.assertRaises(Misfit) as found:
                from_registers(types, registers, False)
            self.assertEqual(str(found.exception), why)


if __name__ == "__main__":
    unittest.main()
