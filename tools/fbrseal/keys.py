"""The file of keys: which devices a plant has, and which of them this one is."""
import os
import stat
import string
from dataclasses import dataclass

MOST = 64
MOST_A_SECOND = 1_000_000
# What stands in the place of a key is not told, since it may be a key with a slip.
NO_KEY = "a key is neither 64 hexadecimal digits nor the name of a file that holds them and that nobody but its owner may read or write (chmod 600)"


class BadKeys(Exception):
    """A file of keys, or of a state, cannot be used; its text says why."""


@dataclass(frozen=True)
class Peer:
    """A device: its number, where it receives (None where nothing is sent there), and its keys, of which the first one is that under which it seals.
    How often it may send is read, and is not used here."""

    number: int
    address: str | None
    keys: tuple[bytes, ...]


@dataclass(frozen=True)
class Keys:
    """The number of this device, and all devices, itself among them."""

    own: int
    peers: tuple[Peer, ...]

    @property
    def own_key(self) -> bytes:
        """The key under which this device seals."""
        return next(it.keys[0] for it in self.peers if it.number == self.own)

    @property
    def others(self) -> list[tuple[int, bytes]]:
        """The number and a key of each other device, a pair for each key."""
        return [(it.number, key) for it in self.peers if it.number != self.own for key in it.keys]


def read_private(path: str) -> str:
    """The text of a file that nobody but its owner may read or write; else BadKeys."""
    try:
        mode = stat.S_IMODE(os.stat(path).st_mode)
        if mode & 0o077:
            raise BadKeys(f"{path} holds keys: nobody but its owner may read or write it (chmod 600)")
        with open(path, encoding="utf-8") as file:
            return file.read()
    except (OSError, UnicodeDecodeError) as why:
        raise BadKeys(f"{path}: {getattr(why, 'strerror', None) or 'not a text file'}") from why


def is_key(word: str) -> bool:
    """Whether a word is a key of 64 hexadecimal digits."""
    return len(word) == 64 and set(word) <= set(string.hexdigits)


def read_key(word: str) -> bytes:
    """The key that a word says: 64 hexadecimal digits, or the name of the file that holds them."""
    try:
        text = word if is_key(word) else read_private(word).strip()
    except BadKeys as why:
        raise BadKeys(NO_KEY) from why
    if not is_key(text):
        raise BadKeys(NO_KEY)
    return bytes.fromhex(text)


def number_in(word: str) -> int | None:
    """The number of 16 bits that a word says."""
    return int(word) if word.isascii() and word.isdigit() and int(word) < 65536 else None


def per_second(word: str) -> int | None:
    """How many datagrams a second a word says, as `100/s`."""
    front = word.removesuffix("/s")
    return int(front) if front != word and front.isascii() and front.isdigit() and int(front) < 2**32 else None


def is_rate(words: list[str]) -> bool:
    """Whether words are a rate: `100/s`, perhaps with `burst 20` behind it, or none at all."""
    if not words:
        return True
    burst = 1 if len(words) == 1 else number_in(words[2]) if len(words) == 3 and words[1] == "burst" else None
    return 1 <= (per_second(words[0]) or 0) <= MOST_A_SECOND and bool(burst)


def keys_of(words: list[str]) -> list[str] | None:
    """The one or two words of keys behind a number and an address, where a rate or nothing stands behind these."""
    many = 1 if len(words) == 1 or per_second(words[1]) is not None else 2
    return words[:many] if is_rate(words[many:]) else None


def read_keys(path: str) -> Keys:
    """What a file of keys says; else BadKeys, with the line that is at fault."""
    own: int | None = None
    peers: dict[int, Peer] = {}
    for at, line in enumerate(read_private(path).split("\n"), 1):
        words = [it for it in line.removesuffix("\r").split(" ") if it]
        if not words or words[0].startswith("#"):
            continue
        number = number_in(words[1] if words[0] == "own" and len(words) == 2 else words[0])
        found = keys_of(words[2:]) if len(words) > 2 else None
        if number is None or words[0] != "own" and found is None:
            raise BadKeys(f"{path}, line {at}: a line is `own NUMBER`, or `NUMBER ADDRESS KEY`, perhaps with a second key and a rate behind it")
        if words[0] == "own":
            if own is not None:
                raise BadKeys(f"{path}, line {at}: `own` stands in a line before")
            own = number
            continue
        if number in peers:
            raise BadKeys(f"{path}, line {at}: this number stands in a line before")
        if len(peers) == MOST:
            raise BadKeys(f"{path}, line {at}: at most {MOST} devices have a line")
        peers[number] = Peer(number, None if words[1] == "-" else words[1], tuple(read_key(it) for it in found or ()))
    if own is None or own not in peers:
        raise BadKeys(f"{path}: a line `own NUMBER` says which of the devices this one is")
    return Keys(own, tuple(peers.values()))
