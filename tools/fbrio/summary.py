"""The sums of the companion, told at the end."""
from collections.abc import Iterator

from .faults import Faults
from .inputs import Input
from .outputs import Outputs
from .telling import counted


def summary_lines(inputs: list[Input], outputs: Outputs, faults: Faults) -> Iterator[str]:
    """A line for each INPUT and OUTPUT of the table, and for each thing that has failed."""
    for it in inputs:
        counts = it.counts
        says = f"{it.line.name}: {counted(counts.sent, 'offer', 'offers')} sent, {counts.taken} taken, {counts.denied} denied, {counts.unanswered} unanswered"
        says += f", {counts.replaced} replaced" if it.line.queue is None else f", {counts.lost} lost"
        yield says + (f", {counts.misfits} unfit" if counts.misfits else "")
    for line, counts in outputs.counts.items():
        yield f"{line.name} to {line.at.place}: {counted(counts.writes, 'write', 'writes')}, {counts.put} put"
    for name, trouble in sorted(faults.troubles.items()):
        yield f"{name}: {counted(trouble.faults, 'fault', 'faults')}, {counted(trouble.tries, 'failed attempt', 'failed attempts')}"
