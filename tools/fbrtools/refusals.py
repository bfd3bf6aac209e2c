"""What is refused, and what is only told: collected, so that one run tells all of it."""


class Findings:
    """Refusals and notes with their places, in the order of files and lines."""

    def __init__(self):
        self.refusals, self.notes = [], []

    def refuse(self, place, subject, problem, remedy):
        """One refusal: what the element at this place has, and what to do. The same one is told once."""
        line = (place, f"{subject}: {problem}; {remedy}")
        if line not in self.refusals:
            self.refusals.append(line)

    def note(self, place, subject, words):
        line = (place, f"note: {subject}: {words}")
        if line not in self.notes:
            self.notes.append(line)

    def lines(self, program):
        """The lines for standard error: the refusals, or the notes if nothing is refused."""
        told = self.refusals or self.notes
        return [f"{program}: {place}: {words}" for place, words in sorted(told, key=lambda it: (it[0].file, it[0].line))]


class Unreadable(Exception):
    """A file that cannot be read at all: the message names it."""
