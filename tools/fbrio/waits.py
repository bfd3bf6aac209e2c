"""Waits that grow from one try to the next."""


class Waits:
    """Waits in seconds: the first is `least`, each further one is twice as long, and none is longer than `most`."""

    def __init__(self, least: float, most: float) -> None:
        self.least, self.most = least, most
        self.wait = least

    def next(self) -> float:
        """The wait before the next try."""
        wait, self.wait = self.wait, min(2 * self.wait, self.most)
        return wait

    def reset(self) -> None:
        """A try went well."""
        self.wait = self.least
