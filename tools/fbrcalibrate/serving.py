"""What a turn of `fbr serve` takes besides its dispatch, at this machine's loopback."""
import re
import resource
import socket
import struct
import subprocess
import threading
import time

from .applications import Application, network
from .bench import PICO, Bench, Failure, processor_time
from .prices import Prices

RELAY = """FUNCTION_BLOCK RELAY
EVENT_INPUT E; END_EVENT
EVENT_OUTPUT O; END_EVENT
EC_STATES IDLE; RUN : -> O; END_STATES
EC_TRANSITIONS IDLE TO RUN := E; RUN TO IDLE := 1; END_TRANSITIONS
END_FUNCTION_BLOCK
"""
HOST = "127.0.0.1"
RELAYS, ENDS, MOST_VALUES, LARGEST = 16, 32, 16, 2**63 - 1
LINTS = ", ".join(["LINT"] * MOST_VALUES)
FILLED = "".join(f", SD_{number} := {LARGEST}" for number in range(1, MOST_VALUES + 1))
LOOP = "Z : E_RESTART; X : E_DELAY(DT := T#0ms); "
BURST = 64


def looped(relays: int) -> str:
    """A timer that starts itself again at once, behind so many blocks."""
    names = [f"Y{number}" for number in range(relays)]
    ends = ["X.EO", *(f"{name}.O" for name in names)]
    events = "".join(f"{source} TO {target}; " for source, target in zip(ends, [*(f"{name}.E" for name in names), "X.START"]))
    return Application(RELAY, network(LOOP + "".join(f"{name} : RELAY; " for name in names), "Z.COLD TO X.START; " + events)).text


def with_effects(kind: str, begun: bool) -> str:
    """The same timer, with services that do something outside at each round."""
    names = [f"Y{number}" for number in range(1, ENDS + 1)]
    events = "Z.COLD TO X.START; X.EO TO X.START; " + "".join(f"X.EO TO {name}.REQ; " for name in names)
    events += "".join(f"Z.COLD TO {name}.INIT; " for name in names) if begun else ""
    return Application("", network(LOOP + "".join(f"{name} : {kind.format(name[1:])}; " for name in names), events)).text


def free_socket() -> socket.socket:
    """A socket at a port that nobody else has."""
    link = socket.socket(socket.AF_INET, socket.SOCK_DGRAM)
    link.bind((HOST, 0))
    return link


def free_port() -> int:
    """A port that nobody has at the moment."""
    with free_socket() as link:
        return link.getsockname()[1]


def serve(bench: Bench, text: str, *words: str) -> list[str]:
    """The words of a command that serves a text."""
    return [bench.program, "serve", *bench.certified(text, "--room", "255"), "D", "--bind", str(free_port()), *words]


def turned(bench: Bench, text: str, turns: int, *peers: str, stdout=subprocess.DEVNULL) -> float:
    """How many picoseconds a turn of a device takes."""
    took = [processor_time(serve(bench, text, "--turns", str(it), *peers), stdin=subprocess.DEVNULL, stdout=stdout) for it in (0, turns)]
    return (took[1] - took[0]) / turns * PICO


def of_turn(bench: Bench, prices: Prices, turns: int, times: int) -> float:
    """A turn, minus what its dispatch takes at these prices: the most of a timer alone and of one with blocks behind it."""
    found = []
    for relays in (0, RELAYS):
        text = looped(relays)
        dispatches = bench.bounds(text, prices)["D.R.X.EXPIRE"] / (relays + 2)
        found += [turned(bench, text, turns) - dispatches for _ in range(times)]
    return max(found)


def drain(link: socket.socket) -> None:
    """Takes what comes, until that is nothing."""
    while link.recv(2048):
        pass


def of_effect(bench: Bench, turns: int, times: int) -> float:
    """The most of a message with 16 values to a peer and of a line with them, each with the turn that it is done in."""
    part = (ENDS + 2) / ENDS
    line = with_effects(f"OUTPUT[{LINTS}](ID := {{}}{FILLED})", False)
    message = with_effects(f"PUBLISH[{LINTS}](QI := TRUE, ID := 1{FILLED})", True)
    found = []
    with free_socket() as peer:
        drained = threading.Thread(target=drain, args=[peer], daemon=True)
        drained.start()
        for _ in range(times):
            with open(bench.folder / "lines", "wb") as lines:
                found.append(turned(bench, line, turns, stdout=lines) * part)
            found.append(turned(bench, message, turns, str(peer.getsockname()[1])) * part)
        while drained.is_alive():
            peer.sendto(b"", peer.getsockname())
            drained.join(0.1)
    return max(found)


class Served:
    """A device that runs until its standard input ends."""

    def __init__(self, bench: Bench, text: str, *words: str) -> None:
        command = serve(bench, text, "--until-eof", *words)
        self.address = HOST, int(command[command.index("--bind") + 1])
        self.errors = open(bench.folder / "errors", "w+", encoding="utf-8")
        self.process = subprocess.Popen(command, stdin=subprocess.PIPE, stdout=subprocess.PIPE, stderr=self.errors, text=True)
        end = time.monotonic() + 30
        while "receives at" not in self.told():
            if self.process.poll() is not None or time.monotonic() > end:
                raise Failure(f"fbr serve does not start: {self.told()}")
            time.sleep(0.01)

    def told(self) -> str:
        """What it has said on standard error."""
        self.errors.seek(0)
        return self.errors.read()

    def end(self) -> str:
        """Ends it; what it has printed and said."""
        printed, _ = self.process.communicate()
        with self.errors:
            return printed + self.told()


def children_time() -> float:
    """How many seconds of the processor the processes took that have ended."""
    usage = resource.getrusage(resource.RUSAGE_CHILDREN)
    return usage.ru_utime + usage.ru_stime


def number_in(pattern: str, text: str) -> int:
    """The last number that stands so in a text."""
    found = re.findall(pattern, text)
    if not found:
        raise Failure(f"fbr serve says nothing of '{pattern}': {text}")
    return int(found[-1])


def of_datagram(bench: Bench, count: int) -> float:
    """A datagram with 16 values that is admitted, with the turn that it comes in and its dispatch."""
    offer = struct.pack(">2sBBHB", b"FB", 1, 2, 1, MOST_VALUES) + struct.pack(">Bq", 4, LARGEST) * MOST_VALUES
    text = Application("", network(f"P : INPUT[{LINTS}](ID := 1); ")).text
    start = processor_time(serve(bench, text, "--turns", "0"), stdin=subprocess.DEVNULL, stdout=subprocess.DEVNULL)
    before = children_time()
    device = Served(bench, text)
    with free_socket() as link:
        for number in range(count):
            link.sendto(offer, device.address)
            if number % BURST == 0:
                time.sleep(0.001)
    time.sleep(0.2)
    received = number_in(r"received (\d+)", device.end())
    if received < count // 2:
        raise Failure(f"{received} of {count} datagrams were received")
    return (children_time() - before - start) / received * PICO


def of_jitter(bench: Bench, seconds: float) -> float:
    """The longest turn of a device that is busy for so long; it is told in whole milliseconds."""
    device = Served(bench, looped(0), "--summary", "1")
    time.sleep(seconds)
    return (number_in(r"longest turn (\d+) ms", device.end()) + 1) * PICO / 1000
