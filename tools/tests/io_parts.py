"""Parts of the tests of fbr-io: the program, a broker, messages from outside, a unit of Modbus, and a companion that runs."""
import contextlib
import importlib.util
import os
import shutil
import signal
import socket
import subprocess
import sys
import tempfile
import threading
import unittest

from parts import free_port, program, waited

TOP = os.path.dirname(os.path.dirname(os.path.dirname(os.path.abspath(__file__))))
COMPANION = f"{TOP}/tools/fbr-io"
PLANT = f"{TOP}/tools/tests/io_plant.py"
PYTHON = "/usr/bin/python3"
LONGEST = 15.0


def lacks(*what: str) -> str:
    """What is missing of programs and of modules (`paho.mqtt`), in words; empty where nothing is."""
    programs = [it for it in what if "." not in it and it.startswith("mosquitto")]
    missing = [it for it in programs if broker_path(it) is None]
    for it in sorted(set(what) - set(programs)):
        try:
            found = importlib.util.find_spec(it)
        except ModuleNotFoundError:
            found = None
        missing += [] if found else [it]
    return f"{', '.join(missing)} missing" if missing else ""


def broker_path(name: str) -> str | None:
    """Where a program is; Debian's broker is in /usr/sbin."""
    return shutil.which(name) or shutil.which(name, path="/usr/sbin:/usr/bin")


def needs(*what: str):
    """Skips a test where something is missing, and prints so."""
    missing = lacks(*what)
    if missing:
        print(f"skipped: {missing}", file=sys.stderr)
    return unittest.skipIf(bool(missing), missing)


def answers_at(port: int) -> bool:
    """Whether somebody takes connections at a port."""
    with socket.socket() as it:
        return it.connect_ex(("127.0.0.1", port)) == 0


class Part:
    """A process that is started, killed and started anew."""

    def __init__(self, words: list[str], port: int, log: str = os.devnull) -> None:
        self.words, self.port, self.log = words, port, log
        self.process: subprocess.Popen | None = None

    def start(self) -> None:
        """Starts it, and waits until it takes connections."""
        with open(self.log, "ab") as log:
            self.process = subprocess.Popen(self.words, stdin=subprocess.DEVNULL, stdout=log, stderr=log)
        if not waited(lambda: answers_at(self.port)):
            raise AssertionError(f"{self.words} takes no connections")

    def kill(self) -> None:
        """Kills it, as by kill -9."""
        if self.process is not None:
            self.process.kill()
            self.process.wait()

    def logs(self, what: str, times: int = 1) -> bool:
        """Whether its log says this so many times, or will."""

        def says() -> bool:
            """Whether it does now."""
            with open(self.log, encoding="utf-8") as file:
                return file.read().count(what) >= times

        return waited(says)


class Messages:
    """What a client of mosquitto hears of all topics, as `TOPIC PAYLOAD`."""

    def __init__(self, port: int) -> None:
        self.heard: list[str] = []
        words = [broker_path("mosquitto_sub"), "-p", str(port), "-t", "#", "-F", "%t %p"]
        self.process = subprocess.Popen(words, stdout=subprocess.PIPE, text=True, bufsize=1)
        self.thread = threading.Thread(target=self.read, daemon=True)
        self.thread.start()

    def read(self) -> None:
        """Reads until it ends."""
        for line in self.process.stdout:
            self.heard.append(line.rstrip("\n"))

    def close(self) -> None:
        """Ends it."""
        self.process.kill()
        self.process.wait()
        self.thread.join()
        self.process.stdout.close()


def publish(port: int, topic: str, message: str, *more: str) -> None:
    """A message from outside."""
    subprocess.run([broker_path("mosquitto_pub"), "-p", str(port), "-t", topic, "-m", message, *more], check=True)


class Running:
    """A companion that runs, with the lines of its two streams so far."""

    def __init__(self, words: list[str], **more) -> None:
        self.output: list[str] = []
        self.errors: list[str] = []
        self.process = subprocess.Popen(
            [COMPANION, *words], stdin=subprocess.PIPE, stdout=subprocess.PIPE, stderr=subprocess.PIPE, text=True, bufsize=1, **more
        )
        self.threads = [
            threading.Thread(target=self.read, args=it, daemon=True) for it in ((self.process.stdout, self.output), (self.process.stderr, self.errors))
        ]
        for it in self.threads:
            it.start()

    def read(self, stream, lines: list[str]) -> None:
        """Reads a stream to its end."""
        for line in stream:
            lines.append(line.rstrip("\n"))

    def says(self, what: str, patience: float = LONGEST) -> bool:
        """Whether a line of standard error has this in it, or will have."""
        return waited(lambda: any(what in it for it in self.errors), patience)

    def prints(self, line: str, patience: float = LONGEST) -> bool:
        """Whether standard output has this line, or will have."""
        return waited(lambda: line in self.output, patience)

    def device_process(self) -> int:
        """The process of `serve`."""
        with open(f"/proc/{self.process.pid}/task/{self.process.pid}/children", encoding="ascii") as file:
            return int(file.read().split()[0])

    def end(self, how: int = signal.SIGTERM) -> int:
        """Ends it by a signal; its status."""
        if self.process.poll() is None:
            self.process.send_signal(how)
        try:
            status = self.process.wait(LONGEST)
        finally:
            self.process.kill()
        for it in self.threads:
            it.join()
        for it in (self.process.stdin, self.process.stdout, self.process.stderr):
            it.close()
        return status


class Heard:
    """An ear that keeps what it is told."""

    def __init__(self) -> None:
        self.values: list[tuple[int, tuple[int, ...]]] = []
        self.puts: list[int] = []
        self.troubles: list[tuple[str, str]] = []

    def came(self, line, values) -> None:
        """Values for an INPUT."""
        self.values.append((line.number, values))

    def misfit(self, line, why) -> None:
        """What is no value of its types."""
        self.troubles.append((line.name, why))

    def was_put(self, line) -> None:
        """An OUTPUT was set."""
        self.puts.append(line.number)

    def failed(self, name, why) -> None:
        """A try has failed."""
        self.troubles.append((name, why))

    def works(self, name) -> None:
        """A try went well."""
        self.troubles.append((name, "works"))


class Folder(unittest.TestCase):
    """A test with a folder of its own, and a device in it."""

    APP = f"{TOP}/examples/tank/tank.fb"
    DEVICE = "Controller"

    def setUp(self) -> None:
        self.folder = tempfile.mkdtemp(prefix="fbr-io-")
        self.addCleanup(shutil.rmtree, self.folder, True)
        self.certificate = f"{self.folder}/plant.cert"
        self.port = free_port(socket.SOCK_DGRAM)
        subprocess.run([program(), "bound", self.APP, "--room", "2", "-o", self.certificate], check=True, capture_output=True)

    def table(self, text: str) -> str:
        """A table with this text."""
        name = f"{self.folder}/plant.io"
        with open(name, "w", encoding="utf-8") as file:
            file.write(text)
        return name

    def words(self, table: str, *more: str) -> list[str]:
        """The words of a companion of the device."""
        return [table, "--", program(), "serve", self.APP, self.certificate, self.DEVICE, "--bind", str(self.port), *more]

    def run_with(self, text: str, *more: str) -> Running:
        """A companion that runs with this table, and is ended with the test."""
        running = Running(self.words(self.table(text), *more))
        self.addCleanup(running.end)
        self.assertTrue(running.says("receives at"), running.errors)
        return running

    def broker(self, *access: str) -> Part:
        """A broker that runs, and is ended with the test. Anybody has access, if these lines of its settings do not say otherwise."""
        port = free_port()
        name = f"{self.folder}/mosquitto.conf"
        with open(name, "w", encoding="utf-8") as file:
            lines = (f"listener {port} 127.0.0.1", "log_type subscribe", "log_dest stderr", *(access or ("allow_anonymous true",)))
            file.write("\n".join(lines) + "\n")
        part = Part([broker_path("mosquitto"), "-c", name], port, f"{self.folder}/broker.log")
        self.addCleanup(part.kill)
        part.start()
        return part

    def plant(self, *words: str) -> Part:
        """A unit of Modbus that runs, and is ended with the test."""
        port = free_port()
        part = Part([PYTHON, PLANT, str(port), *words], port)
        self.addCleanup(part.kill)
        part.start()
        return part

    def messages(self, port: int) -> Messages:
        """What is published at a broker, until the test ends."""
        found = Messages(port)
        self.addCleanup(found.close)
        with contextlib.suppress(subprocess.CalledProcessError):
            waited(lambda: publish(port, "probe", "1") or found.heard)
        return found
