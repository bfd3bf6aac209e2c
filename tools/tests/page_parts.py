"""Parts of the tests of fbr-page: the program, records, a device that runs, the page as a process, and a browser."""
import base64
import contextlib
import functools
import http.client
import json
import pathlib
import shutil
import signal
import socket
import struct
import subprocess
import sys
import tempfile
import threading
import unittest
import urllib.request

from parts import free_port, program, waited

TOP = pathlib.Path(__file__).resolve().parent.parent.parent
sys.path.insert(0, str(TOP / "tools"))
PAGE = TOP / "tools" / "fbr-page"
FAKE = TOP / "tools" / "tests" / "page_fake.py"
TANK = TOP / "examples" / "tank" / "tank.fb"
CODES = {"BOOL": 0, "INT": 2}
PATIENCE = 30.0


def offer(number: int, *values: tuple[str, int]) -> bytes:
    """The datagram that offers values to an INPUT."""
    return struct.pack(">2sBBHB", b"FB", 1, 2, number, len(values)) + b"".join(struct.pack(">Bq", CODES[kind], value) for kind, value in values)


def turn(now: int, *datagrams: bytes) -> str:
    """A line of a record."""
    return " ".join([f"turn {now}", *(it.hex() or "-" for it in datagrams)]) + "\n"


def head_of(folder: pathlib.Path, app: pathlib.Path, certificate: pathlib.Path, device: str) -> str:
    """The first line of a record of a device, as `serve` writes it."""
    record = folder / f"{device}.head"
    words = [program(), "serve", app, certificate, device, "--bind", str(free_port(socket.SOCK_DGRAM)), "--record", record, "--turns", "1"]
    subprocess.run(words, check=True, capture_output=True)
    return record.read_text(encoding="utf-8").splitlines()[0] + "\n"


class Folder(unittest.TestCase):
    """A test with a folder of its own, in which there is the certificate of the tank."""

    maxDiff = None

    def setUp(self) -> None:
        self.folder = pathlib.Path(tempfile.mkdtemp(prefix="fbr-page-"))
        self.addCleanup(shutil.rmtree, self.folder, True)
        self.record = self.folder / "tank.record"
        self.certificate = self.folder / "tank.cert"
        subprocess.run([program(), "bound", TANK, "--room", "2", "-o", self.certificate], check=True, capture_output=True)

    def put(self, text: str, name: str = "tank.record") -> None:
        """Writes a file anew."""
        (self.folder / name).write_text(text, encoding="utf-8")

    def append(self, text: str) -> None:
        """Adds to the record."""
        with open(self.record, "a", encoding="utf-8") as file:
            file.write(text)

    @functools.cached_property
    def head(self) -> str:
        """The first line of a record of the tank, as `serve` writes it."""
        return head_of(self.folder, TANK, self.certificate, "Controller")


class Device:
    """A tank that `fbr serve` runs, and records."""

    def __init__(self, certificate: pathlib.Path, record: pathlib.Path) -> None:
        self.port = free_port(socket.SOCK_DGRAM)
        words = [program(), "serve", TANK, certificate, "Controller", "--bind", str(self.port), "--record", record, "--until-eof"]
        self.process = subprocess.Popen([str(it) for it in words], stdin=subprocess.PIPE, stdout=subprocess.DEVNULL, stderr=subprocess.DEVNULL)
        self.link = socket.socket(socket.AF_INET, socket.SOCK_DGRAM)
        # It receives before its first turn.
        if not waited(lambda: record.exists() and record.read_bytes().count(b"\n") > 1):
            raise AssertionError("the device takes no turns")

    def offer(self, number: int, *values: tuple[str, int]) -> None:
        """Offers values to an INPUT."""
        self.send(offer(number, *values))

    def send(self, datagram: bytes) -> None:
        """Sends a datagram."""
        self.link.sendto(datagram, ("127.0.0.1", self.port))

    def end(self) -> None:
        """Ends it."""
        self.link.close()
        self.process.stdin.close()
        try:
            self.process.wait(PATIENCE)
        finally:
            self.process.kill()


class Running:
    """The page as a process."""

    def __init__(self, *words, fbr: str | None = None, host: str = "127.0.0.1", port: int = 0) -> None:
        self.host, self.port, self.errors = host, port or free_port(), []
        command = [sys.executable, PAGE, *words, "--listen", f"{host}:{self.port}", "--fbr", fbr or program()]
        self.process = subprocess.Popen([str(it) for it in command], stderr=subprocess.PIPE, text=True)
        self.thread = threading.Thread(target=self.read, daemon=True)
        self.thread.start()
        if not waited(lambda: self.says("shows") or self.process.poll() is not None):
            raise AssertionError(f"the page does not start: {self.errors}")

    def read(self) -> None:
        """Reads standard error."""
        for line in self.process.stderr:
            self.errors.append(line.rstrip("\n"))

    def says(self, what: str) -> bool:
        """Whether a line of standard error has this in it."""
        return any(what in it for it in self.errors)

    def asks(self, path: str = "/", method: str = "GET", **headers: str) -> tuple[int, dict, bytes]:
        """What is answered: the status, the headers and the body."""
        link = http.client.HTTPConnection("127.0.0.1", self.port, timeout=PATIENCE)
        with contextlib.closing(link):
            link.request(method, path, headers={it.replace("_", "-"): value for it, value in headers.items()})
            answer = link.getresponse()
            return answer.status, {name.lower(): value for name, value in answer.getheaders()}, answer.read()

    def snapshot(self) -> dict:
        """The state now, as a client is given it."""
        with contextlib.closing(Client(self.port)) as client:
            return client.until("snapshot")

    def comes(self, holds):
        """What `holds` gives of the state and the status as soon as that is something."""

        def gives():
            """What it gives now."""
            found = self.snapshot()
            return holds(found["state"], found["status"])

        return waited(gives, pause=0.25)

    def end(self) -> int:
        """Ends it; its status."""
        self.process.send_signal(signal.SIGTERM)
        try:
            status = self.process.wait(PATIENCE)
        finally:
            self.process.kill()
        self.thread.join()
        self.process.stderr.close()
        return status


class Client:
    """A client of the events of a page."""

    def __init__(self, port: int) -> None:
        self.link = http.client.HTTPConnection("127.0.0.1", port, timeout=PATIENCE)
        self.link.request("GET", "/events")
        self.answer = self.link.getresponse()

    def message(self) -> tuple[str, dict | None]:
        """The next message: its kind and its values; nothing and an empty kind if it is a sign of life."""
        lines = []
        while line := self.answer.readline().decode().rstrip("\n"):
            lines.append(line)
        fields = dict(it.split(": ", 1) for it in lines if not it.startswith(":"))
        return fields.get("event", ""), json.loads(fields["data"]) if "data" in fields else None

    def until(self, kind: str) -> dict:
        """The values of the next message of a kind."""
        while True:
            found, values = self.message()
            if found == kind:
                return values

    def close(self) -> None:
        """Goes."""
        self.answer.close()
        self.link.close()


class Browser:
    """Chromium without a window, driven by WebDriver (W3C) over HTTP."""

    def __init__(self, folder: pathlib.Path) -> None:
        self.port = free_port()
        words = ["chromedriver", f"--port={self.port}", "--log-level=OFF"]
        self.process = subprocess.Popen(words, stdout=subprocess.DEVNULL, stderr=subprocess.DEVNULL)
        waited(lambda: self.is_there())
        arguments = ["--headless=new", "--no-sandbox", "--disable-gpu", "--disable-dev-shm-usage", "--hide-scrollbars"]
        arguments += [f"--user-data-dir={folder / 'chromium'}", "--enable-precise-memory-info"]
        options = {"args": arguments, "binary": shutil.which("chromium")}
        wanted = {"browserName": "chrome", "goog:chromeOptions": options, "goog:loggingPrefs": {"browser": "ALL"}}
        self.session = ""
        self.session = "/session/" + self.ask("POST", "/session", {"capabilities": {"alwaysMatch": wanted}})["sessionId"]

    def size(self, width: int, height: int) -> None:
        """Sets how large the page is."""
        self.devtools("Emulation.setDeviceMetricsOverride", width=width, height=height, deviceScaleFactor=1, mobile=False)

    def is_there(self) -> bool:
        """Whether the driver answers."""
        with contextlib.suppress(OSError, ValueError):
            return self.ask("GET", "/status")["ready"]
        return False

    def ask(self, method: str, path: str, values: dict | None = None):
        """What the driver answers."""
        data = None if values is None else json.dumps(values).encode()
        request = urllib.request.Request(f"http://127.0.0.1:{self.port}{path}", data, {"Content-Type": "application/json"}, method=method)
        with urllib.request.urlopen(request, timeout=120) as answer:
            return json.load(answer)["value"]

    def open(self, url: str) -> None:
        """Opens a page."""
        self.ask("POST", f"{self.session}/url", {"url": url})

    def run(self, script: str, *arguments):
        """What a script gives."""
        return self.ask("POST", f"{self.session}/execute/sync", {"script": script, "args": list(arguments)})

    def text(self, name: str) -> str:
        """The text of the element of a name."""
        return self.run("return document.getElementById(arguments[0]).textContent", name)

    def devtools(self, command: str, **parameters):
        """What a command of the tools of developers gives."""
        return self.ask("POST", f"{self.session}/goog/cdp/execute", {"cmd": command, "params": parameters})

    def press(self, key: str) -> None:
        """Presses a key, and lets it go."""
        keys = [{"type": "keyDown", "value": key}, {"type": "keyUp", "value": key}]
        self.ask("POST", f"{self.session}/actions", {"actions": [{"type": "key", "id": "keys", "actions": keys}]})

    def errors(self) -> list[str]:
        """What the page has complained of since the last time."""
        return [it["message"] for it in self.ask("POST", f"{self.session}/se/log", {"type": "browser"}) if it["level"] == "SEVERE"]

    def colours(self, which: str) -> None:
        """Sets the browser to `light` or `dark`."""
        self.devtools("Emulation.setEmulatedMedia", features=[{"name": "prefers-color-scheme", "value": which}])

    def screenshot(self) -> bytes:
        """A picture of the page, as PNG."""
        return base64.b64decode(self.ask("GET", f"{self.session}/screenshot"))

    def heap(self) -> int:
        """How many bytes JavaScript holds."""
        self.devtools("HeapProfiler.collectGarbage")
        self.devtools("Performance.enable")
        return int({it["name"]: it["value"] for it in self.devtools("Performance.getMetrics")["metrics"]}["JSHeapUsedSize"])

    def elements(self) -> int:
        """How many elements the page has, other than the rows of what was denied, of which there are at most 50, and notices."""
        return self.run("return document.querySelectorAll('*').length - document.querySelectorAll('#denials *, #notices *').length")

    def end(self) -> None:
        """Ends it."""
        with contextlib.suppress(OSError, ValueError):
            if self.session:
                self.ask("DELETE", self.session)
        self.process.terminate()
        self.process.wait(PATIENCE)
