"""What lines of `fbr serve` say (docs/NETWORK.md)."""
import re
from dataclasses import dataclass

from .values import Values

WRITE = re.compile(r"(?:[0-9]+ )?write ([0-9]+)((?: -?[0-9]+)*)")
MOMENT = r"([0-9]+)\.[0-9]{3} s "
ANSWER = re.compile(MOMENT + r"INPUT ([0-9]+) (begins cause [0-9]+|denied [0-9]+)\b.*")
SUMS = re.compile(MOMENT + r"fired [0-9]+ received .*")
LOST = re.compile(r", lines lost ([0-9]+),")
RUNS = re.compile(r"fbr: \S+ receives at .*")
DETAIL = re.compile(
    MOMENT + r"(?:(?:INPUT|channel) [0-9]+ begins cause .*|\S+ of cause [0-9]+: .*|sent to (?:channel|INPUT) [0-9]+|cause [0-9]+ has ended .*)"
)


@dataclass(frozen=True)
class Written:
    """An OUTPUT has written these values."""

    number: int
    values: Values


@dataclass(frozen=True)
class Answered:
    """An offer to an INPUT was taken or denied."""

    number: int
    is_taken: bool


def read_write(line: str) -> Written | None:
    """What a line of standard output says, if it is one of an OUTPUT."""
    found = WRITE.fullmatch(line)
    return Written(int(found[1]), tuple(map(int, found[2].split()))) if found else None


def read_answer(line: str) -> Answered | None:
    """What a line of standard error says of an offer, if it is the answer to one."""
    found = ANSWER.fullmatch(line)
    return Answered(int(found[2]), found[3].startswith("begins")) if found else None


def is_sums(line: str) -> bool:
    """Whether the device tells its sums."""
    return SUMS.fullmatch(line) is not None


def lost_lines(line: str) -> int:
    """How many lines of OUTPUTs were lost so far, of the line of the sums; they found no room since they were not read in time."""
    found = LOST.search(line)
    return int(found[1]) if found else 0


def says_that_it_runs(line: str) -> bool:
    """Whether the device tells that it receives from now on."""
    return RUNS.fullmatch(line) is not None


class Wanted:
    """Which lines of standard error people have asked for: details with --verbose, with --summary the sums every so many seconds and the last ones, and all
    others."""

    def __init__(self, is_verbose: bool, summary: int) -> None:
        self.is_verbose, self.summary = is_verbose, summary
        self.next_sums = summary
        self.held = ""

    def passes(self, line: str) -> bool:
        """Whether people want this line."""
        if found := SUMS.fullmatch(line):
            self.held = line
            if self.summary and int(found[1]) >= self.next_sums:
                self.next_sums, self.held = int(found[1]) + self.summary, ""
                return True
            return False
        return self.is_verbose or not DETAIL.fullmatch(line)

    def last(self) -> str:
        """The last sums, if they were asked for and not passed; otherwise nothing."""
        return self.held if self.summary else ""
