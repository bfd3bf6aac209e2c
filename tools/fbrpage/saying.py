"""Lines for the one who started it."""
import contextlib
import sys


def tell(says: str) -> None:
    """A line of standard error; a reader that has gone is not missed."""
    with contextlib.suppress(OSError, ValueError):
        print(f"fbr-page: {says}", file=sys.stderr, flush=True)
