"""Reads the table of inputs and outputs: plain lines of words, with comments from a word that begins with `#` to the end of the line."""
import re

from .lines import AREAS, BITS, Broker, Fault, Gpio, InputLine, Modbus, Mqtt, OutputLine, Table
from .values import TYPES, Misfit, Types, Values, read_values

UNITS = {"ms": 0.001, "s": 1.0, "m": 60.0}
LEAST_WATCHDOG = 2.0
FORMS = {
    ("INPUT", "modbus"): "modbus HOST[:PORT] coil|discrete|input|holding ADDRESS poll TIME [unit U] [low-first] [changes] [edge N] [lost VALUES]",
    ("INPUT", "mqtt"): "mqtt TOPIC [edge N] [lost VALUES]",
    ("INPUT", "gpio"): "gpio CHIP LINES both|rising|falling [active-low] [pull-up|pull-down] [edge N] [lost VALUES]",
    ("OUTPUT", "modbus"): "modbus HOST[:PORT] coil|holding ADDRESS [unit U] [low-first] [safe VALUES]",
    ("OUTPUT", "mqtt"): "mqtt TOPIC [retain] [safe VALUES]",
    ("OUTPUT", "gpio"): "gpio CHIP LINES [active-low] [safe VALUES]",
}


class BadLine(Exception):
    """A line that says nothing; its text says why."""


class Words:
    """The words of a line, taken one after another."""

    def __init__(self, words: list[str]) -> None:
        self.left = words

    def next(self, what: str) -> str:
        """The next word, which is `what`; BadLine if the line has ended."""
        if not self.left:
            raise BadLine(f"{what} is missing")
        return self.left.pop(0)

    def number(self, what: str, least: int, most: int) -> int:
        """The next word as a number from `least` to `most`."""
        return number_of(self.next(what), what, least, most)


def number_of(word: str, what: str, least: int, most: int) -> int:
    """A decimal number from `least` to `most`; else BadLine."""
    if not (word.isascii() and word.isdigit() and len(word) < 10 and least <= int(word) <= most):
        raise BadLine(f"{what} must be a number from {least} to {most}, not '{word}'")
    return int(word)


def time_of(word: str, what: str) -> float:
    """A time in seconds, of `100ms`, `5s` or `1m`; else BadLine."""
    found = re.fullmatch(r"([0-9]{1,6})(ms|s|m)", word)
    if not found or int(found[1]) == 0:
        raise BadLine(f"{what} must be a time such as 100ms, 5s or 1m, not '{word}'")
    return int(found[1]) * UNITS[found[2]]


def address_of(word: str, what: str, port: int) -> tuple[str, int]:
    """HOST, HOST:PORT or [ADDRESS]:PORT; else BadLine."""
    found = re.fullmatch(r"(?:\[([0-9A-Fa-f:.]+)\]|([^:\[\]]+))(?::([0-9]{1,5}))?", word)
    if not found or (found[3] and not 1 <= int(found[3]) <= 65535):
        raise BadLine(f"{what} must be HOST, HOST:PORT or [ADDRESS]:PORT, not '{word}'")
    return found[1] or found[2], int(found[3] or port)


def types_of(word: str) -> Types:
    """The types of `INT,INT`; none for `EVENT`. Else BadLine."""
    if word.upper() == "EVENT":
        return ()
    for name in word.upper().split(","):
        if name not in TYPES:
            raise BadLine(f"'{name}' is not a type; types are {', '.join(TYPES)}, and EVENT where there are no values")
    return tuple(TYPES[name] for name in word.upper().split(","))


def values_of(types: Types, word: str) -> Values:
    """The values of `TRUE,0,17`; else BadLine."""
    try:
        return read_values(types, word.split(","))
    except Misfit as why:
        raise BadLine(str(why)) from why


def modbus_address(area: str, word: str) -> int:
    """An address of the protocol, from 0 on. Five or six digits that begin with the digit of their area count from 1, as manuals do: `holding 40001` is 0."""
    digit = AREAS[area]
    if word.isascii() and word.isdigit() and len(word) in (5, 6) and word.startswith(digit):
        return number_of(word[1:], f"{area} {word}: what follows the {digit}", 1, 65536) - 1
    return number_of(word, "ADDRESS", 0, 65535)


class Options:
    """The options of a line, in any order: flags, and words with a value. Each stands once."""

    def __init__(self, words: Words, flags: tuple[str, ...], valued: tuple[str, ...], form: str) -> None:
        self.found: dict[str, str] = {}
        while words.left:
            name = words.next("an option")
            if name not in flags + valued:
                raise BadLine(f"'{name}' is unexpected here; expected: {form}")
            if name in self.found:
                raise BadLine(f"'{name}' is given twice")
            self.found[name] = words.next(f"the value of {name}") if name in valued else ""

    def __contains__(self, name: str) -> bool:
        return name in self.found

    def get(self, name: str) -> str | None:
        """The value of an option, None where it is not there."""
        return self.found.get(name)


class LineReader:
    """Reads a line that begins with INPUT or OUTPUT."""

    def __init__(self, line: int, words: Words) -> None:
        self.line, self.words = line, words
        self.kind = words.next("INPUT or OUTPUT")
        self.number = words.number(f"the number of an {self.kind}", 0, 65535)
        self.types = types_of(words.next("a type"))
        bus = words.next("modbus, mqtt or gpio")
        if (self.kind, bus) not in FORMS:
            raise BadLine(f"'{bus}' is not a bus; buses are modbus, mqtt and gpio")
        self.form = FORMS[(self.kind, bus)]
        self.read = {"modbus": self.modbus, "mqtt": self.mqtt, "gpio": self.gpio}[bus]

    def options(self, flags: tuple[str, ...], valued: tuple[str, ...]) -> Options:
        """The options of this line, with those that all lines of its kind take."""
        return Options(self.words, flags, valued + (("edge", "lost") if self.kind == "INPUT" else ("safe",)), self.form)

    def result(self, at: Modbus | Mqtt | Gpio, options: Options) -> InputLine | OutputLine:
        """The line, with its place and its options."""
        if self.kind == "OUTPUT":
            safe = options.get("safe")
            return OutputLine(self.line, self.number, self.types, at, None if safe is None else values_of(self.types, safe))
        queue = None if "edge" not in options else number_of(options.get("edge"), "edge", 1, 100000)
        lost = None if "lost" not in options else values_of(self.types, options.get("lost"))
        if queue is None and not self.types:
            raise BadLine("an EVENT needs `edge N`: how many of them may wait")
        if queue is not None and lost is not None:
            raise BadLine("`lost` is for a level, not for `edge`")
        return InputLine(self.line, self.number, self.types, at, queue, lost)

    def modbus(self) -> InputLine | OutputLine:
        """A line of Modbus."""
        host, port = address_of(self.words.next("HOST"), "the address", 502)
        area = self.words.next("coil or holding" if self.kind == "OUTPUT" else "coil, discrete, input or holding")
        if area not in (("coil", "holding") if self.kind == "OUTPUT" else AREAS):
            raise BadLine(f"'{area}' is unexpected here; expected: {self.form}")
        address = modbus_address(area, self.words.next("ADDRESS"))
        inputs = self.kind == "INPUT"
        options = self.options(("low-first", *(("changes",) if inputs else ())), ("unit", *(("poll",) if inputs else ())))
        if not self.types:
            raise BadLine("Modbus carries values; an EVENT comes by mqtt or gpio")
        if area in BITS and any(it.name != "BOOL" for it in self.types):
            raise BadLine(f"a {area} is a BOOL, not {', '.join(it.name for it in self.types if it.name != 'BOOL')}")
        if inputs and "poll" not in options:
            raise BadLine(f"`poll TIME` is missing; expected: {self.form}")
        at = Modbus(
            host,
            port,
            area,
            address,
            unit=number_of(options.get("unit") or "1", "unit", 0, 255),
            is_low_first="low-first" in options,
            poll=time_of(options.get("poll"), "poll") if inputs else None,
            only_changes="changes" in options or "edge" in options,
        )
        return self.result(at, options)

    def mqtt(self) -> InputLine | OutputLine:
        """A line of MQTT."""
        topic = self.words.next("TOPIC")
        if "#" in topic or "+" in topic:
            raise BadLine(f"'{topic}' names many topics; one is needed")
        options = self.options(("retain",) if self.kind == "OUTPUT" else (), ())
        if "retain" in options and not self.types:
            raise BadLine("an EVENT cannot be retained")
        return self.result(Mqtt(topic, "retain" in options), options)

    def gpio(self) -> InputLine | OutputLine:
        """A line of GPIO."""
        chip = re.sub(r"^chip(?=[0-9]+$)", "gpiochip", self.words.next("CHIP"))
        offsets = tuple(number_of(it, "a line of a chip", 0, 65535) for it in self.words.next("LINES").split(","))
        inputs = self.kind == "INPUT"
        edges = self.words.next("both, rising or falling") if inputs else ""
        if inputs and edges not in ("both", "rising", "falling"):
            raise BadLine(f"'{edges}' is unexpected here; expected: {self.form}")
        options = self.options(("active-low", *(("pull-up", "pull-down") if inputs else ())), ())
        if any(it.name != "BOOL" for it in self.types) or len(offsets) != max(1, len(self.types)):
            raise BadLine("each line of a chip is a BOOL; an EVENT has one line")
        if not inputs and not self.types:
            raise BadLine("an EVENT can only go out by mqtt")
        if inputs and edges != "both" and "edge" not in options:
            raise BadLine(f"a level needs `both`; use `edge N` for {edges} edges")
        pull = "".join(it for it in ("pull-up", "pull-down") if it in options)
        return self.result(Gpio(chip, offsets, edges, "active-low" in options, pull), options)


def read_broker(line: int, words: Words) -> Broker:
    """mqtt HOST[:PORT] [user NAME password-file FILE]"""
    host, port = address_of(words.next("the broker"), "the broker", 1883)
    options = Options(words, (), ("user", "password-file"), "mqtt HOST[:PORT] [user NAME password-file FILE]")
    if ("user" in options) != ("password-file" in options):
        raise BadLine("`user` and `password-file` belong together")
    return Broker(line, host, port, options.get("user") or "", options.get("password-file") or "")


class LinesReader:
    """Reads a table line by line, and goes on behind faults, so that all are told at once. What a line says is up to `take`, which raises BadLine."""

    def __init__(self) -> None:
        self.faults: list[Fault] = []
        self.first: dict[object, int] = {}

    def once(self, what: object, line: int, says: str) -> None:
        """BadLine if a line before has said the same."""
        if what in self.first:
            raise BadLine(f"{says} in line {self.first[what]}")
        self.first[what] = line

    def take(self, line: int, words: Words) -> None:
        """Takes a line that is not blank."""
        raise NotImplementedError

    def read(self, text: str) -> None:
        """Takes all lines of a text that are not blank, and keeps their faults."""
        for line, written in enumerate(text.split("\n"), start=1):
            words = words_of(written)
            if words:
                try:
                    self.take(line, Words(words))
                except BadLine as why:
                    self.faults.append(Fault(line, str(why)))

    def finish(self) -> None:
        """What only the whole table can tell."""
        raise NotImplementedError

    def faults_of(self, text: str) -> list[Fault]:
        """All faults of a text: those of its lines, or if it has none, those of the whole table."""
        self.read(text)
        if not self.faults:
            self.finish()
        return self.faults


class TableReader(LinesReader):
    """Reads a table of INPUTs and OUTPUTs."""

    def __init__(self, name: str) -> None:
        super().__init__()
        self.table = Table(name)

    def take(self, line: int, words: Words) -> None:
        """Takes a line that is not blank."""
        first = words.left[0]
        if first in ("INPUT", "OUTPUT"):
            end = LineReader(line, words).read()
            if isinstance(end, InputLine):
                self.once(("INPUT", end.number), line, f"{end.name} is already given")
                self.table.inputs.append(end)
            else:
                self.once(("to", end.at.place), line, f"{end.at.place} is already written")
                self.table.outputs.append(end)
        elif first == "mqtt":
            words.next("mqtt")
            self.once("mqtt", line, "the broker is already given")
            self.table.broker = read_broker(line, words)
        elif first == "watchdog":
            words.next("watchdog")
            self.once("watchdog", line, "the watchdog is already given")
            self.table.watchdog = time_of(words.next("the time of the watchdog"), "watchdog")
            if self.table.watchdog < LEAST_WATCHDOG:
                raise BadLine("watchdog must be at least 2s: `serve` prints its totals once a second")
            if words.left:
                raise BadLine(f"'{words.left[0]}' is unexpected here; expected: watchdog TIME")
        else:
            raise BadLine(f"a line must begin with INPUT, OUTPUT, mqtt or watchdog, not '{first}'")

    def finish(self) -> None:
        """What only the whole table can tell."""
        for end in self.table.ends:
            if isinstance(end.at, Mqtt) and self.table.broker is None:
                self.faults.append(Fault(end.line, "the broker is missing: add a line `mqtt HOST[:PORT]`"))
                return


def words_of(line: str) -> list[str]:
    """The words of a line without its comment, which begins with a word that begins with `#`."""
    return re.sub(r"(^|\s)#.*", "", line).split()


def read_table(name: str, text: str) -> tuple[Table, list[Fault]]:
    """The table of this text, and all its faults."""
    reader = TableReader(name)
    faults = reader.faults_of(text)
    return reader.table, faults
