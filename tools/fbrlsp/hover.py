"""What is shown of a name: its declaration, and the numbers of the certificate that `fbr` finds."""
from .documents import Document
from .names import Meaning, meaning_at, rows_of, type_of, value_ports
from .outline import Declaration, Scope
from .standard import ARRIVALS, FUNCTIONS, VALUES, conversions, standard, values_of

# Of so many instances the numbers are shown.
MOST_ROWS = 5

KINDS = {"input": "data input", "output": "data output", "variable": "internal variable", "type": "block type"}
INTERFACE = (("event input", "events in"), ("event output", "events out"), ("input", "data in"), ("output", "data out"))


def counted(number: object, one: str) -> str:
    """A number of things."""
    return f"{number} {one}" if number == 1 else f"{number} {one}s"


def cost(row: dict) -> str:
    """The steps and places of a row."""
    far = f", on all devices {counted(row['far'], 'step')}" if "far" in row else ""
    return f"at most {counted(row.get('steps'), 'step')}, {counted(row.get('places'), 'place')}{far}"


def range_words(row: dict) -> str:
    """The range of a row."""
    return f"{row.get('lowest')} to {row.get('highest')}" if row.get("lowest") != row.get("highest") else f"always {row.get('lowest')}"


def listed(lines: list[str], more: bool) -> list[str]:
    """The first lines, and how many more there are."""
    shown = [f"- {it}" for it in lines[:MOST_ROWS]]
    rest = len(lines) - MOST_ROWS
    if rest > 0 or more:
        shown.append(f"- and {max(rest, 1)} more{' at least' if more else ''}")
    return shown


def rows_at(document: Document, meaning: Meaning, table: str, name: str, words) -> list[str]:
    """A line for each instance that has a row of a name; which text they are of is said if it is not this one."""
    rows = rows_of(document.report, table)
    paths = [f"{it}.{name}" for it in meaning.paths]
    lines = listed([f"{it}: {words(rows[it])}" for it in paths if it in rows], meaning.more and bool(rows))
    if not lines:
        return []
    return lines if document.is_report_of_now else ["When the text was last accepted:", *lines]


def declared(it: Declaration, name: str) -> str:
    """A declaration on one line, as it is written."""
    of_type = f" : {it.of_type}" if it.of_type else ""
    values = f"[{', '.join(it.values)}]" if it.values else ""
    initial = f" := {it.initial}" if it.initial else ""
    carries = f" WITH {', '.join(it.carries)}" if it.carries else ""
    return f"{name}{of_type}{values}{it.parameters}{initial}{carries}"


def carried(block: Scope, it: Declaration, of_type: str, own: list[Declaration]) -> str:
    """An event with what it is WITH; of a service its values, too."""
    names = list(it.carries)
    if own and VALUES.get(of_type, ("", "", ""))[2] == it.key:
        names += [port.name for port in own]
    return it.name + (f" WITH {', '.join(names)}" if names else "")


def interface(block: Scope, own: list[Declaration] | None = None) -> list[str]:
    """The ports of a block type, a line for each kind; `own` are those of an instance's values."""
    of_type, lines, own = block.head.key, [], own or []
    is_open = own == [] and block in standard().blocks and of_type in VALUES
    for kind, words in INTERFACE:
        ports = block.all_of(kind) + [it for it in own if it.kind == kind]
        if kind.startswith("event"):
            shown = [carried(block, it, of_type, own) for it in ports]
        else:
            shown = [f"{it.name} : {it.of_type}" for it in ports]
        if is_open and kind == VALUES[of_type][1]:
            shown.append(f"{VALUES[of_type][0]}1 and so on, one for each type in square brackets")
        if shown:
            lines.append(f"{words}: {'; '.join(shown)}  ")
    return lines


def of_type(document: Document, meaning: Meaning) -> list[str]:
    """A block type: its ports, and where its instances are."""
    lines = interface(meaning.scope)
    if not meaning.is_standard:
        count = f"{len(meaning.paths)}{' at least' if meaning.more else ''}"
        lines += [f"instances: {count}", *listed(meaning.paths, meaning.more)] if meaning.paths else ["no instance"]
    return lines


def of_instance(document: Document, meaning: Meaning) -> list[str]:
    """An instance: its type's ports, and what comes to it from outside."""
    it = meaning.declaration
    block = type_of(document.outline, it.of_type.upper())
    if block is None:
        return []
    is_standard = block in standard().blocks
    said = (standard() if is_standard else document.outline).comment_of(block.head)
    lines = [said + "  "] if said else []
    lines += interface(block, value_ports(it) if is_standard else None)
    for arrival in ARRIVALS if is_standard else ():
        lines += rows_at(document, meaning, "events", f"{it.key}.{arrival}", cost)
    return lines


def of_variable(document: Document, meaning: Meaning) -> list[str]:
    """A variable: its start value, and its range in each instance."""
    it = meaning.declaration
    bare = it.of_type.upper()
    lines = []
    if not meaning.is_standard and not it.initial:
        first = "FALSE" if bare.endswith("BOOL") else "T#0ms" if bare.endswith("TIME") else "0"
        lines.append(f"{'each element ' if bare.startswith('ARRAY') else ''}starts at {first}  ")
    rows = rows_at(document, meaning, "ranges", it.key, range_words)
    return lines + (rows or ([f"values of {bare}: {values_of(bare)}"] if values_of(bare) else []))


def details(document: Document, meaning: Meaning) -> list[str]:
    """What there is to say of a meaning beside its declaration."""
    it = meaning.declaration
    if it.kind == "type":
        return of_type(document, meaning)
    if it.kind == "instance":
        return of_instance(document, meaning)
    if it.kind in ("input", "output", "variable"):
        return of_variable(document, meaning)
    if it.kind == "event input":
        return rows_at(document, meaning, "events", it.key, cost)
    if it.kind == "state":
        return rows_at(document, meaning, "states", it.key, lambda row: f"entering it costs {cost(row)}")
    if it.kind == "resource":
        return resource_rows(document, meaning)
    return []


def resource_rows(document: Document, meaning: Meaning) -> list[str]:
    """The queue of a resource."""
    row = rows_of(document.report, "resources").get(meaning.scope.path if meaning.scope else "")
    if row is None:
        return []
    says = f"depth of the queue {row.get('depth')}; {row.get('each_once')} takes each arrival once"
    return [says if document.is_report_of_now else f"When the text was last accepted: {says}"]


def head_of(document: Document, meaning: Meaning) -> tuple[str, str]:
    """The declaration of a meaning, and what it is."""
    it, scope = meaning.declaration, meaning.scope
    kind = KINDS.get(it.kind, it.kind)
    if it.kind == "type":
        return f"FUNCTION_BLOCK {it.name}", "standard block" if meaning.is_standard else kind
    if it.kind in ("system", "device", "resource"):
        return f"{it.kind.upper()} {it.name}", kind
    around = f" of {scope.head.name}" if scope and scope.head.name else ""
    return declared(it, it.name), kind + around


def word_at(document: Document, offset: int) -> tuple[str, str, int, int] | None:
    """What a word of the language is, and where it is."""
    outline = document.outline
    index = outline.token_index(offset)
    token = outline.tokens[index] if index < len(outline.tokens) else None
    if token is None or token.start > offset:
        return None
    says = FUNCTIONS.get(token.word) or conversions().get(token.word) or values_of(token.word)
    return (token.word, says, token.start, token.end) if says else None


def content(document: Document, code: str, kind: str, lines: list[str], is_markdown: bool) -> dict:
    """The words as the client takes them."""
    if is_markdown:
        value = "\n".join([f"```fb\n{code}\n```", kind, "", *lines]).rstrip()
        return {"kind": "markdown", "value": value}
    return {"kind": "plaintext", "value": "\n".join([code, kind, *(it.rstrip() for it in lines)]).rstrip()}


def hover(document: Document, offset: int, is_markdown: bool) -> dict | None:
    """What is shown of the name at a place, or None."""
    outline = document.outline
    meaning = meaning_at(outline, offset)
    if meaning is None or not meaning.declaration.name:
        word = word_at(document, offset)
        if word is None or outline.reference_at(offset):
            return None
        code, says, start, end = word
        return {"contents": content(document, code, says, [], is_markdown), "range": document.span(start, end)}
    code, kind = head_of(document, meaning)
    comment = (standard() if meaning.is_standard else outline).comment_of(meaning.declaration) if meaning.declaration.first >= 0 else ""
    lines = ([comment, ""] if comment else []) + details(document, meaning)
    found = outline.reference_at(offset) or meaning.declaration
    return {"contents": content(document, code, kind, lines, is_markdown), "range": document.span(found.start, found.end)}
