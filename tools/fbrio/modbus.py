"""Modbus TCP: one connection for each HOST:PORT of the table, with a thread that does one request after another, through Debian's python3-pymodbus.

An INPUT is read each `poll`. An OUTPUT is written when it changes, and again each second: so a unit that has lost its values gets them back, its own watchdog
is fed, and a lost connection is noticed though nothing changes."""
import logging
import threading
import time
from dataclasses import dataclass, field

from .bus import FIRST_WAIT, LONGEST_WAIT, Ear
from .lines import BITS, InputLine, OutputLine
from .values import Misfit, Types, Values, fitting
from .waits import Waits

TIMEOUT = 1
REFRESH = 1.0


class Lost(Exception):
    """The connection is lost; its text says why."""


class Declined(Exception):
    """The unit has answered by an exception of Modbus: the connection is sound, and the request is not."""


class Silent(Declined):
    """The unit does not answer this request. Others may: behind a gateway stand many units."""


def to_registers(types: Types, values: Values, is_low_first: bool) -> list[int]:
    """The registers of values, each value with its high register first unless `is_low_first`."""
    registers = []
    for one, value in zip(types, values):
        words = [value >> 16 * place & 0xFFFF for place in range(one.registers)]
        registers += words if is_low_first else words[::-1]
    return registers


def from_registers(types: Types, registers: list[int], is_low_first: bool) -> Values:
    """The values of registers; Misfit where one is none of its type."""
    values, at = [], 0
    for one in types:
        words = registers[at : at + one.registers]
        at += one.registers
        raw = sum(word << 16 * place for place, word in enumerate(words if is_low_first else words[::-1]))
        is_negative = one.least < 0 and raw >> 16 * one.registers - 1
        values.append(fitting(one, raw - (1 << 16 * one.registers) if is_negative else raw))
    return tuple(values)


@dataclass
class Duty:
    """What is to be done for a line at a moment (`due`, of time.monotonic). `wanted` and `is_new` are of an OUTPUT, `last` of an INPUT."""

    line: InputLine | OutputLine
    due: float = 0.0
    wanted: Values | None = None
    is_new: bool = False
    last: Values | None = None
    is_failing: bool = False
    waits: Waits = field(default_factory=lambda: Waits(FIRST_WAIT, LONGEST_WAIT))

    @property
    def name(self) -> str:
        """The line, as people read it."""
        return f"{self.line.name} at {self.line.at.place}"


class Client:
    """The requests of the table, over one connection. Each connection has a client of its own: one of pymodbus that once had no answer waits for the next one
    until its time has run out, even if it has come."""

    def __init__(self, host: str, port: int) -> None:
        logging.getLogger("pymodbus").setLevel(logging.CRITICAL + 1)
        self.host, self.port = host, port
        self.client = self.new_client()

    def new_client(self):
        """A client of pymodbus."""
        from pymodbus.client import ModbusTcpClient

        return ModbusTcpClient(self.host, port=self.port, timeout=TIMEOUT, retries=1)

    def connect(self) -> None:
        """Connects; Lost where that fails."""
        if not self.client.connect():
            raise Lost("cannot connect")

    def close(self) -> None:
        """Ends the connection."""
        self.client.close()
        self.client = self.new_client()

    def answer(self, request: str, *arguments: object, unit: int):
        """The answer to a request; Lost, Silent or Declined where there is none. A connection that was closed is opened anew by pymodbus."""
        from pymodbus.exceptions import ModbusException
        from pymodbus.pdu import ExceptionResponse

        try:
            found = getattr(self.client, request)(*arguments, slave=unit)
        except (ModbusException, OSError) as why:
            raise Lost("connection lost") from why
        if isinstance(found, ExceptionResponse):
            raise Declined(f"the unit answered with exception {found.exception_code}")
        if found.isError():
            # pymodbus says so of a time that has run out, and gives the error of the socket otherwise.
            raise Silent("no answer") if "no response" in str(found).lower() else Lost("connection lost")
        return found

    def read(self, line: InputLine) -> Values:
        """The values of an INPUT; Misfit where they are none of its types."""
        at = line.at
        request = {"coil": "read_coils", "discrete": "read_discrete_inputs", "holding": "read_holding_registers", "input": "read_input_registers"}[at.area]
        if at.area in BITS:
            found = self.answer(request, at.address, len(line.types), unit=at.unit)
            return tuple(int(it) for it in found.bits[: len(line.types)])
        found = self.answer(request, at.address, sum(it.registers for it in line.types), unit=at.unit)
        return from_registers(line.types, found.registers, at.is_low_first)

    def write(self, line: OutputLine, values: Values) -> None:
        """Writes the values of an OUTPUT, all by one request."""
        at = line.at
        raw = list(map(bool, values)) if at.area in BITS else to_registers(line.types, values, at.is_low_first)
        what = "coil" if at.area in BITS else "register"
        if len(raw) == 1:
            self.answer(f"write_{what}", at.address, raw[0], unit=at.unit)
        else:
            self.answer(f"write_{what}s", at.address, raw, unit=at.unit)


class ModbusBus:
    """A connection with its lines."""

    def __init__(self, name: str, lines: list[InputLine | OutputLine], ear: Ear) -> None:
        self.name, self.ear = name, ear
        self.duties = [Duty(it) for it in lines]
        self.changed = threading.Condition()
        self.is_ending = self.is_failing = False
        self.client = Client(lines[0].at.host, lines[0].at.port)
        self.thread = threading.Thread(target=self.run, daemon=True)

    def start(self) -> None:
        """Begins in its thread."""
        self.thread.start()

    def put(self, line: OutputLine, values: Values) -> None:
        """The OUTPUT is to have these values: they are due now, behind what was due before. Those of a line that fails wait for its next try."""
        with self.changed:
            for duty in self.duties:
                if duty.line == line:
                    duty.wanted, duty.is_new = values, True
                    duty.due = duty.due if duty.is_failing else min(duty.due, time.monotonic())
            self.changed.notify()

    def finish(self) -> None:
        """Writes what is new, and ends."""
        with self.changed:
            self.is_ending = True
            self.changed.notify()

    def join(self, patience: float) -> None:
        """Waits for its end."""
        self.thread.join(patience)

    def run(self) -> None:
        """Works until it is to end. Where the connection is lost it is opened anew after a wait that grows until something was done; at the end, one more try
        is made if something is still to be written."""
        waits, is_last = Waits(FIRST_WAIT, LONGEST_WAIT), False
        while not is_last:
            with self.changed:
                is_last = self.is_ending
                if is_last and not any(it.is_new for it in self.duties):
                    break
            try:
                self.work(waits)
                break
            except Lost as why:
                self.client.close()
                self.lose(str(why))
            with self.changed:
                self.changed.wait_for(lambda: self.is_ending, waits.next())
        self.client.close()

    def work(self, waits: Waits) -> None:
        """Connects, and does what is due until it is to end; Lost where the connection fails."""
        self.client.connect()
        while (duty := self.next_duty()) is not None:
            if self.do(duty):
                waits.reset()
                if self.is_failing:
                    self.is_failing = False
                    self.ear.works(self.name)

    def lose(self, why: str) -> None:
        """The connection is lost: OUTPUTs are written anew once it is back, and INPUTs get what they are to have meanwhile."""
        self.is_failing = True
        self.ear.failed(self.name, why)
        with self.changed:
            for duty in self.duties:
                duty.is_new = duty.wanted is not None
                duty.due = 0.0
        for duty in self.duties:
            self.offer_lost(duty)

    def offer_lost(self, duty: Duty) -> None:
        """Offers `lost`, unless it was offered last."""
        lost = getattr(duty.line, "lost", None)
        if lost is not None and duty.last != lost:
            duty.last = lost
            self.ear.came(duty.line, lost)

    def next_duty(self) -> Duty | None:
        """Waits for what is due first; None where it is to end and nothing new is to be written."""
        with self.changed:
            while True:
                open_duties = [it for it in self.duties if it.is_new or not self.is_ending and (it.wanted is not None or isinstance(it.line, InputLine))]
                first = min(open_duties, key=lambda it: it.due, default=None)
                if first is None and self.is_ending:
                    return None
                wait = None if first is None else first.due - time.monotonic()
                if wait is not None and (wait <= 0 or self.is_ending):
                    return first
                self.changed.wait(wait)

    def do(self, duty: Duty) -> bool:
        """Does what is due, and says whether that was done; Lost where the connection fails."""
        begun = time.monotonic()
        try:
            if isinstance(duty.line, InputLine):
                self.read(duty)
                duty.due = max(duty.due + duty.line.at.poll, begun)
            else:
                self.write(duty, begun)
        except Declined as why:
            if isinstance(why, Silent):
                # A late answer must not be taken for that of the next request.
                self.client.close()
            duty.is_failing = True
            self.ear.failed(duty.name, str(why))
            with self.changed:
                duty.due, duty.is_new = time.monotonic() + duty.waits.next(), duty.wanted is not None and not self.is_ending
            self.offer_lost(duty)
            return False
        if duty.is_failing:
            duty.is_failing = False
            duty.waits.reset()
            self.ear.works(duty.name)
        return True

    def read(self, duty: Duty) -> None:
        """Reads an INPUT, and hands on what came: each time, or what has changed. The first value of edges is what they begin from."""
        line = duty.line
        try:
            values = self.client.read(line)
        except Misfit as why:
            self.ear.misfit(line, str(why))
            return
        before, duty.last = duty.last, values
        if line.queue is not None and before is None:
            return
        if not line.at.only_changes or values != before:
            self.ear.came(line, values)

    def write(self, duty: Duty, begun: float) -> None:
        """Writes an OUTPUT. What comes meanwhile is written behind it."""
        with self.changed:
            values, is_new, duty.is_new = duty.wanted, duty.is_new, False
            duty.due = begun + REFRESH
        try:
            self.client.write(duty.line, values)
        except Lost:
            with self.changed:
                duty.is_new = True
            raise
        if is_new:
            self.ear.was_put(duty.line)
