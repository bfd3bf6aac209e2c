"""Sealed datagrams as bytes."""
import hashlib
import hmac
import struct

HEAD = struct.Struct(">2sHQ")
MARK = b"S\x01"
TAG = 16


def tag(key: bytes, message: bytes) -> bytes:
    """The first 16 bytes of the HMAC-SHA-256 of a message."""
    return hmac.new(key, message, hashlib.sha256).digest()[:TAG]


def seal(key: bytes, number: int, counter: int, datagram: bytes) -> bytes:
    """A datagram, sealed under a key by the device of a number."""
    body = HEAD.pack(MARK, number, counter) + datagram
    return body + tag(key, body)


def said_in(sealed: bytes) -> tuple[int, int, bytes] | None:
    """The number, the counter and the datagram that bytes say, whoever wrote them; None where they have not the form."""
    if len(sealed) < HEAD.size + TAG or sealed[:2] != MARK:
        return None
    _, number, counter = HEAD.unpack_from(sealed)
    return number, counter, sealed[HEAD.size : -TAG]


def is_tagged(key: bytes, sealed: bytes) -> bool:
    """Whether the last bytes are the tag of all before them."""
    return hmac.compare_digest(tag(key, sealed[:-TAG]), sealed[-TAG:])
