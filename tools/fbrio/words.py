"""The words of `fbr serve`: what the companion reads in them, and what it adds."""
import ipaddress
import socket
from dataclasses import dataclass, field

VALUED = ("--bind", "--from", "--turns", "--boot", "--boot-file", "--summary", "--record", "--keys", "--state")
Address = tuple[str, int]


class BadWords(Exception):
    """The words after `--` are at fault; its text says why."""


@dataclass
class ServeWords:
    """What was asked of `serve`. `words` are all words from the program on, without `--summary N`, whose N is `summary`, 0 where it is not there."""

    words: list[str]
    program: list[str] = field(default_factory=list)
    files: list[str] = field(default_factory=list)
    bind: str = ""
    senders: list[str] = field(default_factory=list)
    summary: int = 0
    is_verbose: bool = False
    ends_with_input: bool = False

    @property
    def app(self) -> str:
        """The file of the application."""
        return self.files[0]

    @property
    def certificate(self) -> str:
        """The file of its certificate."""
        return self.files[1]

    @property
    def device(self) -> str:
        """The name of the device."""
        return self.files[2]

    @property
    def address(self) -> Address:
        """Where offers go: the address that `serve` binds, or this machine's own where it binds all."""
        host, _, port = self.bind.rpartition(":")
        host = host.strip("[]") or "127.0.0.1"
        if not port.isdigit() or not 1 <= int(port) <= 65535:
            raise BadWords(f"--bind {self.bind} is not an address")
        return {"0.0.0.0": "127.0.0.1", "::": "::1"}.get(host, host), int(port)

    @property
    def command(self) -> list[str]:
        """The words that are run: the sums come once a second, each arrival is told, and the end of standard input ends the device."""
        added = ["--summary", "1"]
        if not self.is_verbose:
            added.append("--verbose")
        if not self.ends_with_input:
            added.append("--until-eof")
        return self.words + added


def read_option(found: ServeWords, name: str, value: str) -> None:
    """Takes an option that the companion has to know."""
    if name == "--bind":
        found.bind = value
    elif name == "--from":
        found.senders.append(value)
    elif name == "--summary":
        if not value.isdigit() or int(value) == 0:
            raise BadWords(f"--summary {value} is not a number of seconds")
        found.summary = int(value)


def read_words(words: list[str]) -> ServeWords:
    """What the words `fbr serve ..` ask for; else BadWords."""
    if "serve" not in words[1:]:
        raise BadWords("the words of `fbr serve` must follow --")
    at = words.index("serve", 1) + 1
    found = ServeWords(words[:at], program=words[: at - 1])
    rest = words[at:]
    while rest:
        word = rest.pop(0)
        name, equals, value = word.partition("=")
        if name in VALUED:
            if not equals and not rest:
                raise BadWords(f"the value of {name} is missing")
            value = value if equals else rest.pop(0)
            read_option(found, name, value)
            found.words += [] if name == "--summary" else [name, value]
            continue
        found.words.append(word)
        found.is_verbose |= word == "--verbose"
        found.ends_with_input |= word == "--until-eof"
        if not word.startswith("-"):
            found.files.append(word)
    if len(found.files) < 3 or not found.bind:
        raise BadWords("APP, CERT, DEVICE or --bind is missing in the words of `fbr serve`")
    return found


def link_to(address: Address) -> socket.socket:
    """A socket that sends datagrams to this address and waits for nothing. OSError where there is no such address."""
    family, kind, protocol, _, target = socket.getaddrinfo(*address, type=socket.SOCK_DGRAM, flags=socket.AI_NUMERICHOST)[0]
    link = socket.socket(family, kind, protocol)
    try:
        link.connect(target)
    except OSError:
        link.close()
        raise
    link.setblocking(False)
    return link


def same_address(one: str, other: str) -> bool:
    """Whether both are the same IP address, in whatever spelling."""
    try:
        first, second = ipaddress.ip_address(one), ipaddress.ip_address(other)
    except ValueError:
        return False
    return (getattr(first, "ipv4_mapped", None) or first) == (getattr(second, "ipv4_mapped", None) or second)


def check_sender(found: ServeWords) -> None:
    """BadWords where offers would come from an address that `--from` does not name, or could not be sent."""
    try:
        with link_to(found.address) as link:
            own = link.getsockname()[0]
    except OSError as why:
        raise BadWords(f"nothing can be sent to --bind {found.bind}: {why}") from why
    if found.senders and not any(same_address(own, it) for it in found.senders):
        raise BadWords(f"offers would come from {own}, which no --from names: add --from {own}")
