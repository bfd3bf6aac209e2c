"""Messages of JSON-RPC as LSP frames them: headers, an empty line, and so many bytes of JSON."""
import json
from typing import BinaryIO

# A message has at most so many bytes, and a line of a header so many.
MOST_BYTES = 256 * 1024 * 1024
MOST_HEADER = 8192
CHUNK = 1024 * 1024

PARSE_ERROR = -32700
INVALID_REQUEST = -32600
METHOD_NOT_FOUND = -32601
INVALID_PARAMS = -32602
INTERNAL_ERROR = -32603
NOT_INITIALIZED = -32002


class Malformed(Exception):
    """What came is no message; what follows it can still be read."""

    def __init__(self, code: int, says: str) -> None:
        super().__init__(says)
        self.code, self.says = code, says


def length_in(header: bytes) -> int | None:
    """The length that a line of the header gives, or None if it is another line; Malformed if it is no number."""
    # Whatever stands before the name on the line is left of a message that could not be read.
    name, colon, value = header.rpartition(b":")
    if not colon or not name.rstrip().lower().endswith(b"content-length"):
        return None
    if not value.strip().isdigit():
        raise Malformed(PARSE_ERROR, "Content-Length is no number")
    return int(value)


def read_headers(stream: BinaryIO) -> int:
    """The length of the message that comes next; EOFError at the end of the stream, Malformed if no header gives one."""
    length, lines, fault = None, 0, None
    while True:
        line = stream.readline(MOST_HEADER)
        if not line:
            raise EOFError
        if not line.strip():
            if fault:
                raise fault
            if length is not None:
                return length
            if lines:
                raise Malformed(PARSE_ERROR, "no header gives Content-Length")
            continue
        lines += 1
        try:
            found = length_in(line)
        except Malformed as why:
            fault, found = why, None
        length = found if found is not None else length


def read_exactly(stream: BinaryIO, length: int) -> bytes:
    """So many bytes; EOFError if there are fewer."""
    parts = []
    while length:
        part = stream.read(min(length, CHUNK))
        if not part:
            raise EOFError
        parts.append(part)
        length -= len(part)
    return b"".join(parts)


def read_message(stream: BinaryIO) -> dict:
    """The next message; EOFError at the end of the stream, Malformed if what came is none."""
    length = read_headers(stream)
    if length > MOST_BYTES:
        while length:
            length -= len(read_exactly(stream, min(length, CHUNK)))
        raise Malformed(INVALID_REQUEST, f"a message has at most {MOST_BYTES} bytes")
    try:
        message = json.loads(read_exactly(stream, length))
    except (ValueError, RecursionError) as why:
        raise Malformed(PARSE_ERROR, f"this is no JSON: {why}") from why
    if not isinstance(message, dict):
        raise Malformed(INVALID_REQUEST, "a message is an object")
    return message


def write_message(stream: BinaryIO, message: dict) -> None:
    """Writes a message with its header."""
    # ASCII alone, so that half of a surrogate pair that a client sent goes back as it came.
    body = json.dumps({"jsonrpc": "2.0", **message}, separators=(",", ":")).encode("ascii")
    stream.write(b"Content-Length: %d\r\n\r\n" % len(body) + body)
    stream.flush()
