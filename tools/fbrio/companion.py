"""Brings everything together: one loop of asyncio that reads `serve`, offers to its INPUTs and watches the time, with the buses in threads of their own.

The loop waits for nothing but its events: a bus is told by `put`, which returns at once, and lines for people are written by a thread. So the lines of `serve`
are read whatever a bus or a reader does."""
import asyncio
import collections
import signal
import socket
import threading
from collections.abc import Callable

from fbrseal.keys import BadKeys
from fbrseal.sealer import Sealer

from .bus import Bus, Ear
from .device import Device
from .faults import Faults
from .heard import Answered, Wanted, is_sums, lost_lines, read_answer, read_write, says_that_it_runs
from .inputs import Input
from .lines import InputLine, OutputLine, Table
from .outputs import Outputs
from .summary import summary_lines
from .telling import Teller
from .values import Values, offer
from .words import ServeWords, link_to

BUS_PATIENCE = 3.0
LATE = 0.5
MakeBuses = Callable[[Table, Ear], tuple[list[Bus], dict[OutputLine, Bus]]]


class Companion:
    """A table, and the `serve` that it is the companion of. It is made in a running loop, and is the `Ear` of its buses. `nobody` is a number that no INPUT of
    the device has."""

    def __init__(self, table: Table, words: ServeWords, nobody: int, teller: Teller, make_buses: MakeBuses, sealer: Sealer | None = None) -> None:
        self.sealer = sealer
        self.table, self.words, self.nobody, self.teller = table, words, nobody, teller
        self.loop = asyncio.get_running_loop()
        self.link: socket.socket = link_to(words.address)
        self.way = f"serve at --bind {words.bind}"
        self.faults = Faults(teller.tell, self.loop.time)
        self.inputs = {line.number: Input(line, self.send, self.ask, self.loop.call_later) for line in table.inputs}
        self.buses, of_outputs = make_buses(table, self)
        self.outputs = Outputs(of_outputs)
        self.wanted = Wanted(words.is_verbose, words.summary)
        self.device = Device(words.command, self.hear_output, self.hear_errors)
        self.questions: collections.deque[list[tuple[Input, int]]] = collections.deque()
        self.last_sign: float | None = None
        self.lost_lines = 0

    # What buses tell, from their threads.

    def from_thread(self, call: Callable[..., None], *arguments: object) -> None:
        """Has the loop make a call, unless it has ended."""
        try:
            self.loop.call_soon_threadsafe(call, *arguments)
        except RuntimeError:
            return

    def came(self, line: InputLine, values: Values) -> None:
        """A bus brought values for an INPUT."""
        self.from_thread(self.inputs[line.number].came, values)

    def misfit(self, line: InputLine, why: str) -> None:
        """A bus brought something for an INPUT that is no value of its types."""
        self.from_thread(self.tell_misfit, line, why)

    def was_put(self, line: OutputLine) -> None:
        """A bus has taken the values of an OUTPUT."""
        self.from_thread(self.count_put, line)

    def failed(self, name: str, why: str) -> None:
        """A try of a bus has failed."""
        self.from_thread(self.faults.failed, name, why)

    def works(self, name: str) -> None:
        """A try of a bus went well."""
        self.from_thread(self.faults.works, name)

    # What the loop does with it.

    def tell_misfit(self, line: InputLine, why: str) -> None:
        """Counts it, and tells the first one of each INPUT."""
        counts = self.inputs[line.number].counts
        counts.misfits += 1
        if counts.misfits == 1:
            self.teller.tell(f"{line.name} from {line.at.place}: {why}; ignored, and further ones are only counted")

    def count_put(self, line: OutputLine) -> None:
        """Counts what a bus has taken."""
        self.outputs.counts[line].put += 1

    def send(self, datagram: bytes) -> None:
        """Sends an offer. One that the system does not take is one without an answer, and a fault."""
        try:
            self.link.send(self.sealer.seal(datagram) if self.sealer else datagram)
        except BadKeys as why:
            self.faults.failed(self.way, f"an offer could not be sealed: {why}")
        except OSError as why:
            self.faults.failed(self.way, f"an offer could not be sent: {why.strerror}")
        else:
            self.faults.works(self.way)

    def ask(self, one: Input) -> None:
        """Sends the question behind all offers that are under way, unless the last one was sent behind that of this INPUT too."""
        if self.questions and (one, one.counts.sent) in self.questions[-1]:
            return
        self.questions.append([(it, it.counts.sent) for it in self.inputs.values() if it.under_way is not None])
        self.send(offer(self.nobody, (), ()))

    def hear_answer(self, answer: Answered) -> None:
        """An answer to an offer, or to a question: then the offers that were sent before it were passed."""
        if answer.number in self.inputs:
            self.inputs[answer.number].answered(answer.is_taken)
        elif answer.number == self.nobody and self.questions:
            for it, sending in self.questions.popleft():
                it.passed(sending)

    # What the device tells.

    def hear_output(self, line: str) -> None:
        """A line of standard output: it is handed on, and an OUTPUT that it is of is put."""
        self.sign()
        self.teller.write(line)
        written = read_write(line)
        if written is not None:
            self.outputs.write(written.number, written.values)

    def hear_errors(self, line: str) -> None:
        """A line of standard error: it is handed on if people have asked for it, and an INPUT that it answers goes on."""
        self.sign()
        answer = read_answer(line)
        if self.wanted.passes(line) and (answer is None or answer.number != self.nobody):
            self.teller.say(line)
        if says_that_it_runs(line):
            for it in self.inputs.values():
                it.open()
            self.watch()
        elif is_sums(line):
            self.hear_sums(line)
        elif answer is not None:
            self.hear_answer(answer)

    def hear_sums(self, line: str) -> None:
        """The sums: a second has passed. A line of an OUTPUT that was lost is reported at once."""
        for it in self.inputs.values():
            it.sums()
        lost = lost_lines(line)
        if lost > self.lost_lines:
            self.teller.tell(f"{lost - self.lost_lines} lines of OUTPUTs got lost, since they were read too late: an OUTPUT may not be as the device wrote it")
            self.lost_lines = lost

    # The watchdog: with --summary 1 a device that takes turns tells its sums every second, so a silent one takes none.

    def sign(self) -> None:
        """The device lives."""
        self.last_sign = self.loop.time()
        if self.outputs.is_safe and not self.outputs.is_over:
            self.teller.tell("the device responds again: OUTPUTs are set to what it wrote last")
            self.outputs.go_back()

    def watch(self, due: float = 0.0) -> None:
        """Looks whether the device was silent for too long, and looks again when it could be next. A look that comes long after it was `due` says nothing: the
        companion itself stood still, and has lines to read."""
        silent = self.loop.time() - self.last_sign
        is_late = self.loop.time() > due + LATE if due else False
        if silent >= self.table.watchdog and not self.outputs.is_safe and not is_late:
            self.teller.tell(f"no line from the device for {self.table.watchdog:g} s: OUTPUTs are set to their safe values")
            self.outputs.go_safe()
        wait = self.table.watchdog - silent
        due = self.loop.time() + (wait if wait > 0 else 0.1)
        self.loop.call_at(due, self.watch, due)

    # The end.

    def end(self) -> None:
        """OUTPUTs are safe from now on, and nothing is offered any more."""
        self.outputs.end()
        for it in self.inputs.values():
            it.close()

    def stop(self) -> None:
        """The device is to end."""
        self.end()
        self.device.close()

    def stop_with_input(self) -> None:
        """Where `--until-eof` was asked for, the end of standard input is the end."""

        def wait() -> None:
            """Reads to the end."""
            with open(0, "rb", closefd=False) as stdin:
                while stdin.read1(4096):
                    continue
            self.from_thread(self.stop)

        threading.Thread(target=wait, daemon=True).start()

    async def finish(self) -> None:
        """Has the buses put what is safe, and waits for them, three seconds at most."""
        self.end()
        for bus in self.buses:
            bus.finish()
        end = self.loop.time() + BUS_PATIENCE
        for bus in self.buses:
            await self.loop.run_in_executor(None, bus.join, max(0.0, end - self.loop.time()))
        self.link.close()

    async def tell_sums(self) -> None:
        """Tells the sums of all, once the loop has taken what the buses told last."""
        await asyncio.sleep(0)
        if last := self.wanted.last():
            self.teller.say(last)
        for line in summary_lines(list(self.inputs.values()), self.outputs, self.faults):
            self.teller.tell(line)
        if self.teller.lost:
            self.teller.tell(f"{self.teller.lost} lines could not be written, since nobody read them")

    async def serve(self) -> int:
        """Runs the device until it has ended, and reads its last lines; its status."""
        await self.device.start()
        for it in (signal.SIGTERM, signal.SIGINT, signal.SIGHUP):
            self.loop.add_signal_handler(it, self.stop)
        if self.words.ends_with_input:
            self.stop_with_input()
        status = await self.device.ended()
        self.end()
        await self.device.drained()
        return status

    async def run(self) -> int:
        """Runs until the device has ended; its status."""
        self.outputs.begin()
        for bus in self.buses:
            bus.start()
        try:
            status = await self.serve()
        finally:
            await self.finish()
        await self.tell_sums()
        return status
