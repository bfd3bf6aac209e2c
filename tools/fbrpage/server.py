"""Serves the page: its files, the picture, states, and events as they come. It reads nothing from the disk for a request, and takes GET alone."""
import contextlib
import ipaddress
import json
import os
import select
import socket
import threading
import time
from http import HTTPStatus
from http.server import BaseHTTPRequestHandler, ThreadingHTTPServer
from urllib.parse import parse_qs, urlsplit

from .history import History, View

FILES = {
    "/": ("index.html", "text/html; charset=utf-8"),
    "/page.css": ("page.css", "text/css; charset=utf-8"),
    "/page.js": ("page.js", "text/javascript; charset=utf-8"),
    "/icon.svg": ("icon.svg", "image/svg+xml"),
    "/state.js": ("state.js", "text/javascript; charset=utf-8"),
    "/picture.js": ("picture.js", "text/javascript; charset=utf-8"),
    "/tables.js": ("tables.js", "text/javascript; charset=utf-8"),
}
OWN = "; ".join(f"{it} 'self'" for it in ("script-src", "style-src", "connect-src", "img-src"))
POLICY = f"default-src 'none'; {OWN}; base-uri 'none'; form-action 'none'; frame-ancestors 'none'"
HEADERS = {
    "Content-Security-Policy": POLICY,
    "X-Content-Type-Options": "nosniff",
    "X-Frame-Options": "DENY",
    "Referrer-Policy": "no-referrer",
    "Cross-Origin-Resource-Policy": "same-origin",
    "Cross-Origin-Opener-Policy": "same-origin",
    "Cache-Control": "no-store",
    "Connection": "close",
}
# How many connections there are at most, and how many of them for events.
CONNECTIONS, STREAMS = 48, 16
# How long a client may take, in seconds, and how many bytes wait for it in the system.
PATIENCE, WAITING = 10.0, 1 << 18
# How many events go into a message, how far behind a client may be until it is given a new state instead, and the time between two messages in seconds.
MESSAGE, FURTHEST, PAUSE = 500, 5_000, 0.1
# How long nothing is sent at most, and how often it is looked whether a client has gone, in seconds.
SILENCE, LOOK = 5.0, 0.5


def page_files() -> dict[str, tuple[str, bytes]]:
    """The files of the page, by their names in a request."""
    folder, found = os.path.join(os.path.dirname(os.path.abspath(__file__)), "page"), {}
    for path, (name, kind) in FILES.items():
        with open(os.path.join(folder, name), "rb") as file:
            found[path] = (kind, file.read())
    return found


def is_own_host(named: str, local: tuple) -> bool:
    """Whether a Host names the address that a connection has come to. A name of the network does not, so that none can be led here by its owner."""
    host, port = local[0], local[1]
    written = f"[{host}]" if ":" in host else host
    names = [written, "localhost"] if ipaddress.ip_address(host.partition("%")[0]).is_loopback else [written]
    return named.lower() in [f"{it}:{port}" for it in names] + (names if port == 80 else [])


class Handler(BaseHTTPRequestHandler):
    """Answers one request, and closes the connection."""

    protocol_version = "HTTP/1.1"
    server_version, sys_version = "fbr-page", ""
    timeout = PATIENCE
    server: "Server"

    def handle(self) -> None:
        """Reads a request and answers it. One that is not whole in time is cut off, however slowly it comes."""
        self.limit = threading.Timer(self.timeout, self.cut_off)
        self.limit.daemon = True
        self.limit.start()
        try:
            super().handle()
        finally:
            self.limit.cancel()

    def cut_off(self) -> None:
        """Reads no more of the request."""
        with contextlib.suppress(OSError):
            self.connection.shutdown(socket.SHUT_RD)

    def log_message(self, format: str, *args) -> None:
        """Requests are not told."""

    def refuse(self, status: HTTPStatus, says: str, **headers: str) -> None:
        """Answers that something is not done."""
        self.answer("text/plain; charset=utf-8", (says + "\n").encode(), status, **headers)

    def answer(self, kind: str, body: bytes, status: HTTPStatus = HTTPStatus.OK, **headers: str) -> None:
        """Answers with a body."""
        self.begin(status, kind, {"Content-Length": str(len(body)), **headers})
        if self.command != "HEAD":
            self.wfile.write(body)

    def begin(self, status: HTTPStatus, kind: str, headers: dict[str, str]) -> None:
        """Sends the head of an answer."""
        self.close_connection = True
        self.limit.cancel()
        # Also what is no request gets an answer with a head.
        self.request_version = self.protocol_version
        self.send_response(status)
        for name, value in {"Content-Type": kind, **HEADERS, **headers}.items():
            self.send_header(name, value)
        self.end_headers()

    def send_error(self, code, message=None, explain=None) -> None:
        """Answers to what is no request."""
        self.refuse(HTTPStatus(code), message or HTTPStatus(code).phrase)

    def refuse_method(self) -> None:
        """Answers to another method than GET."""
        self.refuse(HTTPStatus.METHOD_NOT_ALLOWED, "only GET is answered here", Allow="GET")

    do_HEAD = do_POST = do_PUT = do_DELETE = do_PATCH = do_OPTIONS = do_TRACE = do_CONNECT = refuse_method

    def is_welcome(self, path: str) -> bool:
        """Whether the request names this server, and comes from the page or from no page; otherwise it is refused."""
        hosts = self.headers.get_all("Host") or []
        if len(hosts) != 1 or not is_own_host(hosts[0].strip(), self.connection.getsockname()):
            self.refuse(HTTPStatus.MISDIRECTED_REQUEST, "the Host of the request is not the address of this server; open the page by its address and port")
            return False
        if path not in self.server.files and self.headers.get("Sec-Fetch-Site", "none") not in ("same-origin", "none"):
            self.refuse(HTTPStatus.FORBIDDEN, "this is for the page alone")
            return False
        return True

    def do_GET(self) -> None:
        """Answers a request."""
        parts = urlsplit(self.path)
        if not self.is_welcome(parts.path):
            return
        if found := self.server.files.get(parts.path):
            self.answer(*found)
        elif parts.path == "/picture":
            self.answer_json(self.server.picture())
        elif parts.path == "/state":
            self.answer_state(parse_qs(parts.query))
        elif parts.path == "/events":
            self.answer_events()
        else:
            self.refuse(HTTPStatus.NOT_FOUND, "there is nothing of this name")

    def answer_json(self, values) -> None:
        """Answers with values."""
        self.answer("application/json", json.dumps(values, separators=(",", ":")).encode())

    def answer_state(self, query: dict[str, list[str]]) -> None:
        """Answers with the state at an event."""
        wanted = [query.get(it, [""])[0] for it in ("generation", "at")]
        if not all(it.isascii() and it.isdigit() and len(it) <= 15 for it in wanted):
            self.refuse(HTTPStatus.BAD_REQUEST, "a state needs the numbers `generation` and `at`")
            return
        found = self.server.history.at(*map(int, wanted))
        if found is None:
            self.refuse(HTTPStatus.GONE, "this event is not kept")
            return
        self.answer_json(found)

    def answer_events(self) -> None:
        """Sends events as they come, until the client has gone."""
        if not self.server.streams.acquire(blocking=False):
            self.refuse(HTTPStatus.SERVICE_UNAVAILABLE, "too many pages are open", **{"Retry-After": "10"})
            return
        try:
            self.connection.setsockopt(socket.SOL_SOCKET, socket.SO_SNDBUF, WAITING)
            self.begin(HTTPStatus.OK, "text/event-stream", {})
            Stream(self.server, self.send, self.has_gone).run()
        finally:
            self.server.streams.release()

    def has_gone(self) -> bool:
        """Whether the client has closed the connection."""
        can_read = select.select([self.connection], [], [], 0)[0]
        return bool(can_read) and self.connection.recv(1, socket.MSG_PEEK) == b""

    def send(self, kind: str, body: str) -> None:
        """Sends one message. It waits for the client `timeout` seconds at most, and then the client has gone."""
        self.wfile.write(f"event: {kind}\ndata: {body}\n\n".encode() if kind else b": still here\n\n")


class Stream:
    """Takes one client through the history, at its own pace. What is kept of it is the number of the event that it has last."""

    def __init__(self, server: "Server", send, has_gone) -> None:
        self.server, self.history, self.send, self.has_gone = server, server.history, send, has_gone
        self.generation, self.last, self.revision = 0, 0, -1
        self.sent = time.monotonic()

    def run(self) -> None:
        """Sends until the client has gone, sending fails, or the server ends."""
        while not self.server.stopping.is_set() and not self.has_gone():
            view = self.history.view(self.generation, self.last, MESSAGE, FURTHEST)
            if not view.is_whole:
                self.send_snapshot(view)
            elif view.revision != self.revision:
                self.revision = view.revision
                self.send("status", json.dumps(self.history.status))
            elif view.events:
                self.last += len(view.events)
                self.send("events", f'{{"first":{view.first},"last":{view.last},"events":[{",".join(view.events)}]}}')
            else:
                self.history.wait(self.generation, self.last, self.revision, min(LOOK, SILENCE))
                if time.monotonic() - self.sent < SILENCE:
                    continue
                self.send("", "")
            self.sent = time.monotonic()
            self.server.stopping.wait(PAUSE)

    def send_snapshot(self, view: View) -> None:
        """Sends a whole state, and how many events the client has missed of those of its record."""
        if self.generation == view.generation:
            self.send("missed", json.dumps({"missed": view.last - self.last}))
        snapshot = self.history.snapshot()
        self.generation, self.last = snapshot["generation"], snapshot["last"]
        self.send("snapshot", json.dumps(snapshot, separators=(",", ":")))


class Server(ThreadingHTTPServer):
    """The server of a page, on one address."""

    daemon_threads = True
    allow_reuse_address = True
    request_queue_size = 64

    def __init__(self, address: tuple[str, int], history: History, picture) -> None:
        self.address_family = socket.AF_INET6 if ":" in address[0] else socket.AF_INET
        self.history, self.picture = history, picture
        self.files = page_files()
        self.connections = threading.BoundedSemaphore(CONNECTIONS)
        self.streams = threading.BoundedSemaphore(STREAMS)
        self.stopping = threading.Event()
        super().__init__(address, Handler)

    def server_bind(self) -> None:
        """Binds, without asking for the name of this machine."""
        self.socket.setsockopt(socket.SOL_SOCKET, socket.SO_REUSEADDR, 1)
        if self.address_family == socket.AF_INET6:
            self.socket.setsockopt(socket.IPPROTO_IPV6, socket.IPV6_V6ONLY, 1)
        self.socket.bind(self.server_address)
        self.server_address = self.socket.getsockname()
        self.server_name, self.server_port = self.server_address[:2]

    def process_request(self, request, client_address) -> None:
        """Answers in a thread, if there are not too many; otherwise the connection is closed."""
        if not self.connections.acquire(blocking=False):
            self.shutdown_request(request)
            return
        super().process_request(request, client_address)

    def process_request_thread(self, request, client_address) -> None:
        """Answers, and lets the next one in."""
        try:
            super().process_request_thread(request, client_address)
        finally:
            self.connections.release()

    def handle_error(self, request, client_address) -> None:
        """A client that has gone, or takes too long, is no fault of anybody here."""

    def stop(self) -> None:
        """Ends all streams."""
        self.stopping.set()
        with contextlib.suppress(OSError):
            self.shutdown()
        self.server_close()
