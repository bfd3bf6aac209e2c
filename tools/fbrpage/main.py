"""The words of `fbr-page`."""
import argparse
import ipaddress
import signal
import sys
import threading

from fbrtools.program import NoProgram, find

from .history import History
from .plant import Refused, check
from .pump import Pump
from .server import Server
from .saying import tell

ABOUT = """Shows a device in the browser: its picture with states, values and queues as they change, its last causes, and what was denied. It follows the
record that `fbr serve --record RECORD` writes, and can wind it back (docs/PAGE.md)."""


def address_of(word: str) -> tuple[str, int]:
    """An address as ADDRESS:PORT or [ADDRESS]:PORT; ValueError if it is none."""
    host, colon, port = word.rpartition(":")
    host = host[1:-1] if host.startswith("[") and host.endswith("]") else host
    if not colon or not (port.isascii() and port.isdigit()) or int(port) > 65535 or (":" in host) != word.startswith("["):
        raise ValueError
    return str(ipaddress.ip_address(host)), int(port)


def read_words(words: list[str]) -> argparse.Namespace:
    """The words of the command line."""
    parser = argparse.ArgumentParser(prog="fbr-page", description=ABOUT)
    parser.add_argument("app", metavar="APP", help="the text of the application")
    parser.add_argument("certificate", metavar="CERT", help="the text of the certificate")
    parser.add_argument("record", metavar="RECORD", help="the record of the device, which may come later")
    listen = "where the page is: 127.0.0.1:8420 if not given; [::1]:8420 is one of IPv6"
    parser.add_argument("--listen", metavar="ADDRESS:PORT", default="127.0.0.1:8420", help=listen)
    parser.add_argument("--fbr", metavar="PROGRAM", help="the program `fbr`: that of the PATH or of this repository if not given")
    found = parser.parse_args(words)
    try:
        found.address = address_of(found.listen)
    except ValueError:
        parser.error(f"--listen needs ADDRESS:PORT or [ADDRESS]:PORT, not '{found.listen}'")
    return found


def serve(words: argparse.Namespace, program: str) -> int:
    """Serves the page until a signal comes; the status."""
    history = History()
    pump = Pump(program, words.app, words.certificate, words.record, history)
    try:
        server = Server(words.address, history, lambda: pump.picture)
    except OSError as why:
        tell(f"{words.listen}: {why.strerror}")
        return 3
    end = threading.Event()
    for it in (signal.SIGINT, signal.SIGTERM, signal.SIGHUP):
        signal.signal(it, lambda *_: end.set())
    history.tell(record=words.record.rpartition("/")[2], app=words.app.rpartition("/")[2], limit=history.limit)
    host, port = server.server_address[:2]
    if not ipaddress.ip_address(host).is_loopback:
        tell(f"listens at {host}: anybody who reaches this address and port sees the plant")
    tell(f"http://{f'[{host}]' if ':' in host else host}:{port}/ shows {words.record}")
    threading.Thread(target=server.serve_forever, name="server", daemon=True).start()
    pump.start()
    end.wait()
    server.stop()
    pump.stop()
    return 0


def main(words: list[str]) -> int:
    """The whole of `fbr-page`; its status: 0, or that of `fbr` if it refuses the texts, 2 for bad words, 3 if the program or the address cannot be used."""
    found = read_words(words)
    try:
        program = found.fbr or find()
        check(program, found.app, found.certificate)
    except NoProgram as why:
        tell(str(why))
        return 3
    except Refused as refused:
        print(refused, file=sys.stderr)
        return refused.status
    return serve(found, program)
