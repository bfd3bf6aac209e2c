"""The table of fbr-io, its check against the text, and what is told of each fault."""
import os
import subprocess
import sys
import unittest
from unittest import mock

import io_parts as parts

sys.path.insert(0, os.path.dirname(os.path.dirname(os.path.abspath(__file__))))

from fbrio.checking import Refused, lacking_packages, read_device  # noqa: E402
from fbrio.ends import End  # noqa: E402
from fbrio.lines import Broker, Fault, Gpio, InputLine, Modbus, Mqtt, OutputLine, described  # noqa: E402
from fbrio.table import read_table  # noqa: E402
from fbrio.values import TYPES  # noqa: E402
from fbrio.words import BadWords, check_sender, read_words  # noqa: E402

INT, BOOL = TYPES["INT"], TYPES["BOOL"]
WHOLE = """# The plant.
mqtt 10.0.0.7 user plant password-file /etc/fbr/password
watchdog 3s   # of the device

INPUT 1 INT modbus 10.0.0.5:502 holding 40001 poll 100ms lost -1000
INPUT 2 BOOL gpio chip0 17 both pull-up active-low
INPUT 3 INT,INT mqtt plant/limits
INPUT 4 EVENT gpio /dev/gpiochip1 4 rising edge 8
INPUT 5 UDINT modbus [fd00::5] input 300007 poll 2s unit 7 low-first changes
INPUT 6 BOOL modbus plc discrete 10002 poll 1s edge 4
OUTPUT 1 BOOL gpio chip0 27 safe FALSE
OUTPUT 1 BOOL mqtt plant/valve/1 retain safe FALSE
OUTPUT 2 BOOL,BOOL modbus 10.0.0.5 coil 3 safe TRUE,0
OUTPUT 3 EVENT mqtt plant/bell
"""
MODBUS = "modbus HOST[:PORT] coil|discrete|input|holding ADDRESS poll TIME [unit U] [low-first] [changes] [edge N] [lost VALUES]"
# A line of a table, and what is told of it.
FAULTS = [
    ("INPUTS 1 INT", "a line must begin with INPUT, OUTPUT, mqtt or watchdog, not 'INPUTS'"),
    ("INPUT", "the number of an INPUT is missing"),
    ("INPUT x INT mqtt a", "the number of an INPUT must be a number from 0 to 65535, not 'x'"),
    ("OUTPUT 65536 INT mqtt a", "the number of an OUTPUT must be a number from 0 to 65535, not '65536'"),
    ("INPUT 1", "a type is missing"),
    (
        "INPUT 1 REAL mqtt a",
        "'REAL' is not a type; types are BOOL, SINT, INT, DINT, LINT, USINT, UINT, UDINT, TIME, and EVENT where there are no values",
    ),
    ("INPUT 1 INT", "modbus, mqtt or gpio is missing"),
    ("INPUT 1 INT can 5", "'can' is not a bus; buses are modbus, mqtt and gpio"),
    ("INPUT 1 INT mqtt", "TOPIC is missing"),
    ("INPUT 1 INT mqtt plant/#", "'plant/#' names many topics; one is needed"),
    ("INPUT 1 INT mqtt a retain", "'retain' is unexpected here; expected: mqtt TOPIC [edge N] [lost VALUES]"),
    ("INPUT 1 INT mqtt a edge", "the value of edge is missing"),
    ("INPUT 1 INT mqtt a edge 0", "edge must be a number from 1 to 100000, not '0'"),
    ("INPUT 1 INT mqtt a edge 1 edge 2", "'edge' is given twice"),
    ("INPUT 1 INT mqtt a edge 1 lost 5", "`lost` is for a level, not for `edge`"),
    ("INPUT 1 EVENT mqtt a", "an EVENT needs `edge N`: how many of them may wait"),
    ("INPUT 1 INT mqtt a lost 40000", "40000 does not fit INT (-32768 to 32767)"),
    ("INPUT 1 INT,INT mqtt a lost 4", "INT,INT needs 2 values, not 1"),
    ("OUTPUT 1 BOOL mqtt a safe 2", "2 does not fit BOOL (0 to 1)"),
    ("OUTPUT 1 BOOL mqtt a safe off", "'off' is not a value of BOOL"),
    ("OUTPUT 1 EVENT mqtt a retain", "an EVENT cannot be retained"),
    ("INPUT 1 INT modbus :502 holding 0 poll 1s", "the address must be HOST, HOST:PORT or [ADDRESS]:PORT, not ':502'"),
    ("INPUT 1 INT modbus a:70000 holding 0 poll 1s", "the address must be HOST, HOST:PORT or [ADDRESS]:PORT, not 'a:70000'"),
    (
        "INPUT 1 INT modbus a register 0 poll 1s",
        f"'register' is unexpected here; expected: {MODBUS}",
    ),
    ("OUTPUT 1 INT modbus a input 0", "'input' is unexpected here; expected: modbus HOST[:PORT] coil|holding ADDRESS [unit U] [low-first] [safe VALUES]"),
    ("INPUT 1 INT modbus a holding 65536 poll 1s", "ADDRESS must be a number from 0 to 65535, not '65536'"),
    ("INPUT 1 INT modbus a holding 40000 poll 1s", "holding 40000: what follows the 4 must be a number from 1 to 65536, not '0000'"),
    ("INPUT 1 INT modbus a coil 0 poll 1s", "a coil is a BOOL, not INT"),
    ("INPUT 1 EVENT modbus a coil 0 poll 1s edge 4", "Modbus carries values; an EVENT comes by mqtt or gpio"),
    (
        "INPUT 1 INT modbus a holding 0",
        f"`poll TIME` is missing; expected: {MODBUS}",
    ),
    ("INPUT 1 INT modbus a holding 0 poll 100", "poll must be a time such as 100ms, 5s or 1m, not '100'"),
    ("INPUT 1 INT modbus a holding 0 poll 0s", "poll must be a time such as 100ms, 5s or 1m, not '0s'"),
    ("INPUT 1 INT modbus a holding 0 poll 1s unit 256", "unit must be a number from 0 to 255, not '256'"),
    ("INPUT 1 BOOL gpio chip0 x both", "a line of a chip must be a number from 0 to 65535, not 'x'"),
    (
        "INPUT 1 BOOL gpio chip0 1 up",
        "'up' is unexpected here; expected: gpio CHIP LINES both|rising|falling [active-low] [pull-up|pull-down] [edge N] [lost VALUES]",
    ),
    ("INPUT 1 BOOL gpio chip0 1,2 both", "each line of a chip is a BOOL; an EVENT has one line"),
    ("INPUT 1 INT gpio chip0 1 both", "each line of a chip is a BOOL; an EVENT has one line"),
    ("INPUT 1 BOOL gpio chip0 1 rising", "a level needs `both`; use `edge N` for rising edges"),
    ("OUTPUT 1 EVENT gpio chip0 1", "an EVENT can only go out by mqtt"),
    ("OUTPUT 1 BOOL gpio chip0 1 pull-up", "'pull-up' is unexpected here; expected: gpio CHIP LINES [active-low] [safe VALUES]"),
    ("watchdog", "the time of the watchdog is missing"),
    ("watchdog 1s", "watchdog must be at least 2s: `serve` prints its totals once a second"),
    ("watchdog 5s x", "'x' is unexpected here; expected: watchdog TIME"),
    ("mqtt", "the broker is missing"),
    ("mqtt a:0", "the broker must be HOST, HOST:PORT or [ADDRESS]:PORT, not 'a:0'"),
    ("mqtt a user u", "`user` and `password-file` belong together"),
    ("mqtt a x", "'x' is unexpected here; expected: mqtt HOST[:PORT] [user NAME password-file FILE]"),
]


class OfTables(unittest.TestCase):
    """What a table says."""

    def test_a_whole_table(self) -> None:
        table, faults = read_table("plant.io", WHOLE)
        self.assertEqual(faults, [])
        self.assertEqual((table.broker, table.watchdog), (Broker(2, "10.0.0.7", 1883, "plant", "/etc/fbr/password"), 3.0))
        self.assertEqual(
            table.inputs,
            [
                InputLine(5, 1, (INT,), Modbus("10.0.0.5", 502, "holding", 0, poll=0.1), lost=(-1000,)),
                InputLine(6, 2, (BOOL,), Gpio("gpiochip0", (17,), "both", True, "pull-up")),
                InputLine(7, 3, (INT, INT), Mqtt("plant/limits")),
                InputLine(8, 4, (), Gpio("/dev/gpiochip1", (4,), "rising"), queue=8),
                InputLine(9, 5, (TYPES["UDINT"],), Modbus("fd00::5", 502, "input", 6, 7, True, 2.0, True)),
                InputLine(10, 6, (BOOL,), Modbus("plc", 502, "discrete", 1, poll=1.0, only_changes=True), queue=4),
            ],
        )
        self.assertEqual(
            table.outputs,
            [
                OutputLine(11, 1, (BOOL,), Gpio("gpiochip0", (27,)), (0,)),
                OutputLine(12, 1, (BOOL,), Mqtt("plant/valve/1", True), (0,)),
                OutputLine(13, 2, (BOOL, BOOL), Modbus("10.0.0.5", 502, "coil", 3), (1, 0)),
                OutputLine(14, 3, (), Mqtt("plant/bell")),
            ],
        )
        self.assertEqual(described(table.inputs[0]), "INPUT 1 INT from modbus 10.0.0.5:502 unit 1 holding at address 0: level")
        self.assertEqual(described(table.inputs[3]), "INPUT 4 EVENT from gpio /dev/gpiochip1 4: edges, 8 wait at most")

    def test_addresses_of_manuals_and_of_the_protocol(self) -> None:
        for written, address in (
            ("holding 40001", 0),
            ("holding 49999", 9998),
            ("holding 400001", 0),
            ("holding 465536", 65535),
            ("holding 0", 0),
            ("holding 7", 7),
            ("holding 30001", 30001),
            ("input 30001", 0),
        ):
            table, faults = read_table("t", f"INPUT 1 INT modbus a {written} poll 1s")
            self.assertEqual(([it.at.address for it in table.inputs], faults), ([address], []), written)

    def test_each_fault_of_a_line(self) -> None:
        for line, says in FAULTS:
            self.assertEqual(read_table("t", f"\n{line}\n")[1], [Fault(2, says)], line)

    def test_what_is_there_twice(self) -> None:
        text = "mqtt a\nmqtt b\nwatchdog 2s\nwatchdog 3s\nINPUT 1 INT mqtt a\nINPUT 1 INT mqtt b\n"
        text += "OUTPUT 1 INT mqtt c\nOUTPUT 2 INT mqtt c\nOUTPUT 1 INT mqtt d"
        self.assertEqual(
            read_table("t", text)[1],
            [
                Fault(2, "the broker is already given in line 1"),
                Fault(4, "the watchdog is already given in line 3"),
                Fault(6, "INPUT 1 is already given in line 5"),
                Fault(8, "mqtt c is already written in line 7"),
            ],
        )

    def test_a_broker_that_is_missing(self) -> None:
        self.assertEqual(read_table("t", "OUTPUT 1 INT mqtt c")[1], [Fault(1, "the broker is missing: add a line `mqtt HOST[:PORT]`")])


class OfTexts(parts.Folder):
    """INPUTs and OUTPUTs, as the program says them."""

    TEXT = """(* DEVICE X RESOURCE Y FBS a : INPUT(ID := 9); END_FBS *)
FUNCTION_BLOCK Inner EVENT_INPUT X; END_EVENT EVENT_OUTPUT Y; END_EVENT
FBS I : input[Bool , tIme](ID := 16#1F); o : OUTPUT(ID := 1_0); END_FBS
EVENT_CONNECTIONS X TO o.REQ; I.IND TO Y; END_CONNECTIONS
END_FUNCTION_BLOCK
SYSTEM S DEVICE D RESOURCE R FBS A : Inner; B : INPUT(id:=2); END_FBS EVENT_CONNECTIONS B.IND TO A.X; END_CONNECTIONS END_RESOURCE
RESOURCE Q FBS L : OUTPUT[INT](ID := 0); END_FBS END_RESOURCE END_DEVICE
DEVICE E RESOURCE R FBS L : OUTPUT[UDINT](ID := 0); END_FBS END_RESOURCE END_DEVICE END_SYSTEM
"""

    def device(self, name: str, program: str = "") -> list[End]:
        """Those of a device."""
        files = [f"{self.folder}/ends.fb", f"{self.folder}/ends.cert"]
        return read_device(read_words([program or parts.program(), "serve", *files, name, "--bind", "5"])).ends

    def setUp(self) -> None:
        super().setUp()
        with open(f"{self.folder}/ends.fb", "w", encoding="utf-8") as file:
            file.write(self.TEXT)
        subprocess.run([parts.program(), "bound", f"{self.folder}/ends.fb", "-o", f"{self.folder}/ends.cert"], check=True, capture_output=True)

    def test_numbers_types_and_composites(self) -> None:
        self.assertEqual(
            self.device("d"),
            [
                End("INPUT", 31, "D.R.A.I", (BOOL, TYPES["TIME"])),
                End("INPUT", 2, "D.R.B", ()),
                End("OUTPUT", 10, "D.R.A.O", ()),
                End("OUTPUT", 0, "D.Q.L", (INT,)),
            ],
        )
        self.assertEqual(self.device("E"), [End("OUTPUT", 0, "E.R.L", (TYPES["UDINT"],))])

    def test_a_program_that_does_not_say_them(self) -> None:
        old = f"{self.folder}/old"
        with open(old, "w", encoding="utf-8") as file:
            file.write("""#!/bin/sh\necho '{"verdict": "accepted"}'\n""")
        os.chmod(old, 0o755)
        with self.assertRaises(Refused) as found:
            self.device("D", old)
        says = f"fbr-io: {old} is too old: its `explain --json` does not say which types there are"
        self.assertEqual((str(found.exception), found.exception.status), (says, 3))


class OfWords(unittest.TestCase):
    """The words of `serve`."""

    def test_what_is_read_and_what_is_added(self) -> None:
        words = "fbr serve a.fb --bind 10.0.0.1:24001 a.cert D --from=10.0.0.2 --from 10.0.0.1 --summary 60 10.0.0.2:24001"
        found = read_words(words.split())
        self.assertEqual((found.app, found.certificate, found.device, found.address), ("a.fb", "a.cert", "D", ("10.0.0.1", 24001)))
        self.assertEqual((found.senders, found.summary, found.is_verbose), (["10.0.0.2", "10.0.0.1"], 60, False))
        self.assertEqual(
            found.command,
            ["fbr", "serve", "a.fb", "--bind", "10.0.0.1:24001", "a.cert", "D", "--from", "10.0.0.2", "--from", "10.0.0.1", "10.0.0.2:24001"]
            + ["--summary", "1", "--verbose", "--until-eof"],
        )
        for bind, address in (("24001", ("127.0.0.1", 24001)), ("0.0.0.0:5", ("127.0.0.1", 5)), ("[::]:5", ("::1", 5)), ("[fd00::1]:5", ("fd00::1", 5))):
            self.assertEqual(read_words(["fbr", "serve", "a", "b", "D", "--bind", bind]).address, address)

    def test_faults(self) -> None:
        for words, says in (
            ("fbr", "the words of `fbr serve` must follow --"),
            ("fbr check a b", "the words of `fbr serve` must follow --"),
            ("fbr serve a b --bind 5", "APP, CERT, DEVICE or --bind is missing in the words of `fbr serve`"),
            ("fbr serve a b D", "APP, CERT, DEVICE or --bind is missing in the words of `fbr serve`"),
            ("fbr serve a b D --bind", "the value of --bind is missing"),
            ("fbr serve a b D --bind 5 --summary x", "--summary x is not a number of seconds"),
        ):
            with self.assertRaises(BadWords) as found:
                read_words(words.split())
            self.assertEqual(str(found.exception), says)

    def test_senders(self) -> None:
        check_sender(read_words("fbr serve a b D --bind 24001 --from 10.0.0.1 --from ::ffff:127.0.0.1".split()))
        for words, says in (
            ("--bind 24001 --from 10.0.0.1", "offers would come from 127.0.0.1, which no --from names: add --from 127.0.0.1"),
            ("--bind 70000", "--bind 70000 is not an address"),
        ):
            with self.assertRaises(BadWords) as found:
                check_sender(read_words(["fbr", "serve", "a", "b", "D", *words.split()]))
            self.assertEqual(str(found.exception), says)


class Started(parts.Folder):
    """What the companion says before it starts anything."""

    def answer(self, *words: str) -> tuple[int, list[str], list[str]]:
        """Its status, and the lines of its streams."""
        done = subprocess.run([parts.COMPANION, *words], capture_output=True, text=True, check=False, timeout=parts.LONGEST)
        return done.returncode, done.stdout.splitlines(), done.stderr.splitlines()

    def test_all_faults_are_told_at_once(self) -> None:
        text = "INPUT 1 BOOL modbus a coil 0 poll 1s\nINPUT 7 INT modbus a holding 0 poll 1s\nfoo\nOUTPUT 3 BOOL modbus a coil 1\nOUTPUT 9 INT mqtt c\n"
        name = self.table(text)
        status, output, errors = self.answer(*self.words(name, "--from", "10.0.0.9"))
        # Where a bus has no package, that is told too.
        self.assertEqual(
            (status, output, [it for it in errors if " needs python3-" not in it]),
            (
                2,
                [],
                [
                    f"{name}:1: INPUT 1 (CONTROLLER.LEVEL.LEVEL_SENSOR) is INT in the text, not BOOL",
                    f"{name}:2: CONTROLLER has no INPUT 7; its INPUTs are: 1, 2, 3",
                    f"{name}:3: a line must begin with INPUT, OUTPUT, mqtt or watchdog, not 'foo'",
                    f"{name}:4: OUTPUT 3 (CONTROLLER.LEVEL.ALARM_LAMPS) is BOOL,BOOL,BOOL in the text, not BOOL",
                    f"{name}:5: CONTROLLER has no OUTPUT 9; its OUTPUTs are: 1, 2, 3, 4",
                    "fbr-io: offers would come from 127.0.0.1, which no --from names: add --from 127.0.0.1",
                ],
            ),
        )

    def test_a_text_that_is_refused(self) -> None:
        name = self.table("INPUT 1 INT mqtt a\nmqtt b\n")
        with open(self.certificate, "a", encoding="utf-8") as file:
            file.write("DEPTH D.R 1\n")
        status, output, errors = self.answer(*self.words(name))
        self.assertEqual((status, output, errors[0].split()[0]), (1, [], "refused"), errors)

    def test_a_device_that_is_not_there(self) -> None:
        name = self.table("")
        words = [it if it != self.DEVICE else "Panel" for it in self.words(name)]
        self.assertEqual(self.answer(*words), (2, [], ["refused 21 PANEL", f"fbr-io: {self.APP} has no device PANEL; it has CONTROLLER"]))

    def test_words_that_are_none(self) -> None:
        usage = ["usage: fbr-io [--check] [--keys FILE --state FILE] CONFIG -- fbr serve APP CERT DEVICE --bind ADDRESS .."]
        self.assertEqual(self.answer(), (2, [], usage))
        self.assertEqual(self.answer("a", "b", "--", "fbr"), (2, [], usage))
        self.assertEqual(self.answer(*self.words(f"{self.folder}/none")), (3, [], [f"fbr-io: {self.folder}/none: No such file or directory"]))

    def test_a_password_that_is_not_there(self) -> None:
        name = self.table(f"mqtt b user u password-file {self.folder}/none\n")
        self.assertEqual(self.answer(*self.words(name)), (2, [], [f"{name}:1: {self.folder}/none: No such file or directory"]))

    def test_packages_that_are_missing(self) -> None:
        table, _ = read_table("t", WHOLE)
        with mock.patch("importlib.util.find_spec", return_value=None):
            self.assertEqual(
                lacking_packages(table.ends),
                [
                    "gpio needs python3-libgpiod: apt-get install python3-libgpiod",
                    "modbus needs python3-pymodbus: apt-get install python3-pymodbus",
                    "modbus needs python3-serial-asyncio: apt-get install python3-serial-asyncio",
                    "mqtt needs python3-paho-mqtt: apt-get install python3-paho-mqtt",
                ],
            )

    @parts.needs("paho.mqtt")
    def test_a_check_starts_nothing(self) -> None:
        name = self.table("mqtt b\nINPUT 2 INT,INT mqtt plant/limits\nOUTPUT 1 BOOL mqtt plant/valve safe FALSE\n")
        self.assertEqual(
            self.answer("--check", *self.words(name)),
            (
                0,
                [f"{name}:2: INPUT 2 INT,INT from mqtt plant/limits: level", f"{name}:3: OUTPUT 1 BOOL to mqtt plant/valve"],
                [
                    f"fbr-io: {name} has no line for INPUT 1 (CONTROLLER.LEVEL.LEVEL_SENSOR)",
                    f"fbr-io: {name} has no line for INPUT 3 (CONTROLLER.LEVEL.ENABLE_SWITCH)",
                    f"fbr-io: {name} has no line for OUTPUT 2 (CONTROLLER.LEVEL.LEVEL_DISPLAY)",
                    f"fbr-io: {name} has no line for OUTPUT 3 (CONTROLLER.LEVEL.ALARM_LAMPS)",
                    f"fbr-io: {name} has no line for OUTPUT 4 (CONTROLLER.LEVEL.LIMIT_DISPLAY)",
                ],
            ),
        )


if __name__ == "__main__":
    unittest.main()
