"""The process of `fbr serve`: its lines are read as they come, whatever else is under way."""
import asyncio
import os
import signal
from collections.abc import Callable

LONGEST_LINE = 1 << 24
PATIENCE = 5.0


class Device:
    """A running `serve`. `on_output` and `on_errors` get each line of its two streams, in the loop of the companion.

    It has a session of its own, so that Ctrl-C in a terminal ends it by way of the companion alone. If the companion is killed, the standard input of `serve`
    ends, and so does it."""

    def __init__(self, command: list[str], on_output: Callable[[str], None], on_errors: Callable[[str], None]) -> None:
        self.command, self.on_output, self.on_errors = command, on_output, on_errors
        self.process: asyncio.subprocess.Process | None = None
        self.readers: list[asyncio.Task] = []

    async def start(self) -> None:
        """Starts it. OSError where there is no such program."""
        pipe = asyncio.subprocess.PIPE
        self.process = await asyncio.create_subprocess_exec(
            *self.command, stdin=pipe, stdout=pipe, stderr=pipe, limit=LONGEST_LINE, start_new_session=True
        )
        self.readers = [
            asyncio.create_task(self.read(self.process.stdout, self.on_output)),
            asyncio.create_task(self.read(self.process.stderr, self.on_errors)),
        ]

    async def read(self, stream: asyncio.StreamReader, on_line: Callable[[str], None]) -> None:
        """Reads a stream to its end."""
        while line := await stream.readline():
            on_line(line.decode("utf-8", "replace").rstrip("\n"))

    async def ended(self) -> int:
        """Waits until it has ended; its status, or 128 and the number of the signal that killed it."""
        status = await self.process.wait()
        return status if status >= 0 else 128 - status

    async def drained(self) -> None:
        """Waits until its last lines are read, a second at most: somebody else may hold its streams."""
        await asyncio.wait(self.readers, timeout=1.0)

    def close(self) -> None:
        """Ends its standard input, which ends it; one that is still there 5 seconds later is killed."""
        if not self.process.stdin.is_closing():
            self.process.stdin.close()
            asyncio.get_running_loop().call_later(PATIENCE, self.kill)

    def kill(self) -> None:
        """Kills it, if it is still there."""
        if self.process.returncode is None:
            os.kill(self.process.pid, signal.SIGKILL)
