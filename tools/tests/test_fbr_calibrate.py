"""fbr-calibrate: its list of micro-blocks, a quick calibration that `fbr time` takes, and lists that it refuses."""
import contextlib
import io
import json
import pathlib
import re
import subprocess
import sys
import tempfile
import unittest

from parts import TOOLS, TOP, fbr, program, run

from fbrcalibrate import calibration
from fbrcalibrate import main as calibrate_main
from fbrcalibrate.bench import Failure
from fbrcalibrate.micro import LIST
from fbrcalibrate.prices import AROUND, WORDS, digest_of, listed

TANK = TOP / "examples" / "tank" / "tank.fb"
PRIMITIVES = TOP / "crates" / "fb_prices" / "src" / "primitive.rt"
PRICES = dict.fromkeys(WORDS, 2000)
NO_LINE = "is not understood: write a word and a number of picoseconds"


class OfMicroBlocks(unittest.TestCase):
    """The list of micro-blocks."""

    def test_each_primitive_once(self) -> None:
        words = re.findall(r'Primitive::\w+ => "([A-Z_]+)"', PRIMITIVES.read_text(encoding="utf-8"))
        self.assertEqual(WORDS, words)
        self.assertEqual(sorted(micro.word for micro in LIST), sorted(words))

    def test_prices_are_rounded_up(self) -> None:
        self.assertEqual([calibration.rounded(price) for price in (-7.0, 0.2, 1.0, 1.2)], [1, 1, 1, 2])
        self.assertEqual(calibration.scaled({"ADD": 10, "NOT": 1}, 1.01), {"ADD": 11, "NOT": 2})

    def test_the_order_is_checked(self) -> None:
        class Fake:
            """A bench whose small and large application differ in two primitives."""

            def known(self, application, prices):
                return len(application.types) * sum(prices.get(word, 0) for word in ("ADD", "VARIABLE"))

        add = next(micro for micro in LIST if micro.word == "ADD")
        with self.assertRaisesRegex(Failure, "the applications of ADD differ in VARIABLE, whose price is not known"):
            calibration.price_of(Fake(), add, {}, len)


class OfLists(unittest.TestCase):
    """A quick calibration, and lists that are refused."""

    @classmethod
    def setUpClass(cls) -> None:
        kept = tempfile.TemporaryDirectory(prefix="fbr-calibrate-test-")
        cls.addClassCleanup(kept.cleanup)
        cls.folder = pathlib.Path(kept.name)
        cls.certificate = cls.folder / "tank.cert"
        subprocess.run([program(), "bound", TANK, "-o", cls.certificate], check=True, capture_output=True)

    def timed(self, text: str, *words: str) -> subprocess.CompletedProcess:
        """What `fbr time` answers with this list."""
        file = self.folder / "list"
        file.write_text(text, encoding="utf-8")
        return fbr("time", TANK, self.certificate, "--calibration", file, *words)

    def list_with(self, old: str, new: str) -> str:
        """A list of this program in which something is changed."""
        text = listed(digest_of(program()), "a machine", PRICES, dict.fromkeys(AROUND, 1000))
        self.assertIn(old, text)
        return text.replace(old, new)

    def is_refused(self, old: str, new: str, why: str) -> None:
        """Whether it is refused, and why is said."""
        done = self.timed(self.list_with(old, new))
        self.assertEqual((done.stdout, done.returncode), ("refused 63\n", 2), done.stderr)
        self.assertIn(why, done.stderr)

    def test_a_quick_calibration(self) -> None:
        file = self.folder / "prices"
        done = run(sys.executable, TOOLS / "fbr-calibrate", "--fbr", program(), "-o", file, "--seconds", "1", "--quick")
        self.assertEqual((done.stdout, done.returncode), ("", 0), done.stderr)
        self.assertEqual(sorted(it.name for it in self.folder.glob("prices*")), ["prices"])
        text = file.read_text(encoding="utf-8")
        numbers = dict(line.split(" ", 1) for line in text.splitlines()[3:])
        self.assertEqual(list(numbers), [*WORDS, *AROUND])
        self.assertGreater(min(map(int, numbers.values())), 0)
        for word in numbers:
            self.assertRegex(done.stderr, rf"(?m)^{word} +[\d,]+\.\d{{3}}  \S")
        self.assertRegex(done.stderr, r"an application took at most \d+\.\d{3} of its bound")
        told = self.timed(text)
        self.assertEqual(told.returncode, 0, told.stderr)
        self.assertRegex(told.stdout, r"LEVEL_SENSOR\.ARRIVE .* [\d.]+ (ns|us|ms) +[\d.]+ (ns|us|ms)\n")
        for resource in json.loads(self.timed(text, "--json").stdout)["timed"]:
            for row in resource["arrivals"]:
                self.assertGreater(row["response_ps"], row["time_ps"])
                self.assertGreater(row["time_ps"], row["work"])

    def test_a_whole_list(self) -> None:
        done = self.timed(self.list_with("\nSCAN 2000\n", "\n\n# a remark\n  SCAN   2000 \n"))
        self.assertEqual(done.returncode, 0, done.stderr)

    def test_of_another_program(self) -> None:
        self.is_refused(digest_of(program()), "0" * 64, "these prices were measured with another program")

    def test_a_word_is_missing(self) -> None:
        self.is_refused("SCAN 2000\n", "", "the prices have no line `SCAN ..`")
        self.is_refused("JITTER 1000\n", "", "the prices have no line `JITTER ..`")

    def test_a_word_stands_twice(self) -> None:
        self.is_refused("SAMPLE 2000\n", "SAMPLE 2000\nDISPATCH 1\n", "line 6 of the prices has the word of an earlier line")

    def test_a_number_that_is_none(self) -> None:
        self.is_refused("DISPATCH 2000\n", "DISPATCH -1\n", f"line 4 of the prices {NO_LINE}")
        self.is_refused("DISPATCH 2000\n", "DISPATCH 1.5\n", f"line 4 of the prices {NO_LINE}")

    def test_another_first_line(self) -> None:
        self.is_refused("fbr prices 1\n", "fbr prices 2\n", "a list of prices begins with the line `fbr prices 1`")


class OfWords(unittest.TestCase):
    """What the tool itself refuses."""

    def answer(self, *words: str) -> tuple[int, str]:
        """The status, and what is said."""
        with contextlib.redirect_stderr(io.StringIO()) as says:
            try:
                status = calibrate_main.main(list(words))
            except SystemExit as end:
                status = end.code
        return status, says.getvalue()

    def test_what_it_refuses(self) -> None:
        for words, wanted, why in (
            (["--seconds", "-1"], 2, "--seconds needs a number above 0"),
            (["--seconds", "nan"], 2, "--seconds needs a number above 0"),
            (["--fbr", "/nowhere/fbr"], 3, "No such file"),
            (["--fbr", program(), "-o", "/nowhere/prices"], 3, "there is no folder /nowhere"),
            (["--fbr", "/bin/false", "--quick"], 1, "fbr bound"),
        ):
            status, says = self.answer(*words)
            self.assertEqual((status, why in says), (wanted, True), says)


if __name__ == "__main__":
    unittest.main()
