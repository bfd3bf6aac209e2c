"""Makes diagnostics of what `fbr` said."""
from dataclasses import dataclass, field

from .documents import Document
from .names import place_of_path
from .scanner import token_end

ERROR, HINT = 1, 4
SOURCE = "fbr"
UNNECESSARY = ("never-used", "algorithm-never-run", "state-never-entered")


@dataclass
class Shown:
    """A diagnostic, the place of it in characters, and what it is made of."""

    diagnostic: dict
    start: int
    end: int
    said: dict = field(default_factory=dict)


def refusals_of(objects: list[dict]) -> list[dict]:
    """The refusals among some objects: each that is one, or those that it lists as its `faults`."""
    found = []
    for it in objects:
        listed = it.get("faults")
        if isinstance(listed, list) and listed:
            found += [each for each in listed if isinstance(each, dict)]
        elif it.get("verdict") == "refused":
            found.append(it)
    return found


def steps_of(said: dict) -> list[dict]:
    """The steps of a walk, those with a place."""
    finding = said.get("finding")
    steps = finding.get("steps") if isinstance(finding, dict) else None
    return [it for it in steps or () if isinstance(it, dict) and isinstance(it.get("place"), dict)]


def elsewhere(said: dict) -> str | None:
    """The file and the line of a place in a file of block types; None if it is in the text itself."""
    place = said.get("place")
    if not isinstance(place, dict) or not isinstance(place.get("file"), str) or place["file"] == "-":
        return None
    return f"{place['file']}:{place.get('line')}:{place.get('column')}"


def place_of(document: Document, said: dict) -> tuple[int, int]:
    """Where something is that was said: from its byte to the end of the token there; else where its path leads, else the beginning."""
    place = said.get("place")
    if elsewhere(said):
        return (0, 0)
    if not isinstance(place, dict):
        steps = steps_of(said)
        place = steps[0]["place"] if steps else None
    if isinstance(place, dict) and type(place.get("byte")) is int:
        start = document.offset_of_byte(place["byte"])
        return start, token_end(document.text, start)
    path = said.get("path") or said.get("subject")
    found = place_of_path(document.outline, path) if isinstance(path, str) and "." in path else None
    return (found.start, found.end) if found else (0, 0)


def code_of(said: dict) -> str:
    """The number of a refusal and its place: the byte, or the path, of a walk its first place."""
    subject = str(said.get("subject", ""))
    return f"{said.get('number')} {subject.split(' ')[0]}".strip()


def message_of(said: dict) -> str:
    """A refusal in the words of `fbr`: what was found, what the number means, what to do."""
    finding = said.get("finding") if isinstance(said.get("finding"), dict) else {}
    found = [said["found"]] if said.get("found") else []
    sentences = finding.get("sentences")
    if isinstance(sentences, list):
        found = [str(it) for it in sentences] or found
    lines = [*found, str(said.get("says", ""))]
    lines += [f"What to do: {it}" for it in said.get("remedies") or ()]
    return "\n".join(it for it in lines if it)


def step_words(step: dict) -> str:
    """How a step of a walk leads to the next one."""
    path, following = step.get("path") or f"channel {step.get('channel')}", step.get("next")
    if not isinstance(following, dict):
        return f"{path}: the first again"
    to = following.get("event") or following.get("state") or following.get("path") or following.get("channel")
    by = {"emits": f"emits {following.get('output')}, which leads to", "transition": "has a transition to"}.get(following.get("by"), "leads to")
    return f"{path} {by} {to}" if to is not None else str(path)


def related_of(document: Document, said: dict) -> list[dict]:
    """The places of a walk."""
    found = []
    for step in steps_of(said):
        if elsewhere(step):
            continue
        span = document.span(*place_of(document, step))
        found.append({"location": {"uri": document.uri, "range": span}, "message": step_words(step)})
    return found


def diagnostic_of(document: Document, said: dict, severity: int, code: str, message: str) -> Shown:
    """A diagnostic of something that was said."""
    start, end = place_of(document, said)
    diagnostic = {"range": document.span(start, end), "severity": severity, "code": code, "source": SOURCE, "message": message}
    return Shown(diagnostic, start, end, said)


def refused(document: Document, said: dict, client: dict) -> Shown:
    """The diagnostic of a refusal; the places of a walk stand beside it, or in its words for a client that shows none beside."""
    message, related = message_of(said), related_of(document, said)
    if there := elsewhere(said):
        message = f"{there}: {message}"
    shows_related = client.get("relatedInformation") is True
    if related and not shows_related:
        message += "".join(f"\nline {it['location']['range']['start']['line'] + 1}: {it['message']}" for it in related)
    shown = diagnostic_of(document, said, ERROR, code_of(said), message)
    if related and shows_related:
        shown.diagnostic["relatedInformation"] = related
    return shown


def noted(document: Document, said: dict, client: dict) -> Shown:
    """The diagnostic of a note or a warning; what is of no use is tagged so for a client that can show it in gray."""
    shown = diagnostic_of(document, said, HINT, str(said.get("name")), str(said.get("says", "")))
    if client.get("tagSupport") and said.get("name") in UNNECESSARY:
        shown.diagnostic["tags"] = [1]
    return shown


def shown_of(document: Document, objects: list[dict], client: dict) -> list[Shown]:
    """All that is shown of what `fbr` said of a text, to a client that says of diagnostics what it can show."""
    found = [refused(document, it, client) for it in refusals_of(objects)]
    for said in objects:
        for table in ("notes", "warnings"):
            found += [noted(document, it, client) for it in said.get(table) or () if isinstance(it, dict) and not elsewhere(it)]
        if isinstance(more := said.get("more_notes"), int) and more > 0:
            last = said["notes"][-1] if said.get("notes") else {}
            found.append(diagnostic_of(document, last, HINT, "arithmetic-may-wrap", f"there are {more} more places at which arithmetic may wrap"))
    return found


def broken(document: Document, why: str) -> Shown:
    """The diagnostic of a text of which nothing is known, as `fbr` gave no answer."""
    says = f"{why}: nothing is known of this text"
    return diagnostic_of(document, {}, ERROR, "no-answer", says)
