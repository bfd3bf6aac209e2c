"""What a companion does before anything starts: it reads files, and ends with lines and a status where something is wrong."""


class NothingStarts(Exception):
    """Nothing is started: the lines of standard error, and the status."""

    def __init__(self, lines: list[str], status: int) -> None:
        super().__init__("\n".join(lines))
        self.lines, self.status = lines, status


def read_file(name: str, companion: str) -> str:
    """The text of a file; NothingStarts where there is none."""
    try:
        with open(name, encoding="utf-8") as file:
            return file.read()
    except (OSError, UnicodeDecodeError) as why:
        raise NothingStarts([f"{companion}: {name}: {getattr(why, 'strerror', None) or 'not a text file'}"], 3) from why
