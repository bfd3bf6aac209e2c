"""Writes an application as the text that fbr reads, laid out like the texts of examples/."""
import textwrap

from .words import comment_text

WIDTH = 150


def text_of(application):
    """The text of a whole application."""
    parts = [block(it) for it in application.types]
    return "\n".join([*parts, system(application.system)])


def comment(words, indent=""):
    """A comment of its own lines, or nothing."""
    words = " ".join(comment_text(words).split())
    if not words:
        return ""
    return textwrap.fill(f"(* {words} *)", WIDTH, initial_indent=indent, subsequent_indent=indent + "   ", break_long_words=False) + "\n"


def block(it):
    out = comment(it.comment) + f"FUNCTION_BLOCK {it.name}\n"
    out += events("EVENT_INPUT", it.event_inputs) + events("EVENT_OUTPUT", it.event_outputs)
    out += variables("VAR_INPUT", it.inputs) + variables("VAR_OUTPUT", it.outputs)
    out += network(it.network, required=True) if it.network is not None else basic(it)
    return out + "END_FUNCTION_BLOCK\n"


def events(word, declared):
    if not declared:
        return ""
    lines = [comment(it.comment, "  ") + f"  {it.name}{' WITH ' if it.variables else ''}{', '.join(it.variables)};\n" for it in declared]
    return f"{word}\n{''.join(lines)}END_EVENT\n"


def variables(word, declared):
    if not declared:
        return ""
    return f"{word}\n{''.join(variable_lines(declared))}END_VAR\n"


def variable_lines(declared):
    """Neighbours of one type without start values share a line."""
    lines, at = [], 0
    while at < len(declared):
        first = declared[at]
        group = [first]
        while at + len(group) < len(declared) and shares_line(first, declared[at + len(group)]) and len(group) < 8:
            group.append(declared[at + len(group)])
        kind = f"ARRAY [{first.bounds[0]}..{first.bounds[1]}] OF {first.type}" if first.bounds else first.type
        start = f" := {first.start}" if first.start is not None else ""
        lines.append(comment(first.comment, "  ") + f"  {', '.join(it.name for it in group)} : {kind}{start};\n")
        at += len(group)
    return lines


def shares_line(one, other):
    plain = one.start is None and other.start is None and not one.comment and not other.comment
    return plain and one.type == other.type and one.bounds == other.bounds


def basic(it):
    out = variables("VAR", it.internals) + "EC_STATES\n"
    for state in it.states:
        actions = ", ".join(action_text(action) for action in state.actions)
        out += comment(state.comment, "  ") + f"  {state.name}{' : ' if actions else ''}{actions};\n"
    out += "END_STATES\nEC_TRANSITIONS\n"
    for transition in it.transitions:
        out += comment(transition.comment, "  ") + f"  {transition.source} TO {transition.target} := {condition(transition)};\n"
    out += "END_TRANSITIONS\n"
    for algorithm in it.algorithms:
        body = textwrap.indent(algorithm.body.rstrip() + "\n", "  ") if algorithm.body.strip() else ""
        out += f"ALGORITHM {algorithm.name} IN ST:\n{comment(algorithm.comment, '  ')}{body}END_ALGORITHM\n"
    return out


def action_text(action):
    arrow = f"-> {action.output}" if action.output else ""
    return " ".join(it for it in (action.algorithm, arrow) if it)


def condition(transition):
    guard = f"[{transition.guard}]" if transition.guard is not None else ""
    return " ".join(it for it in (transition.event, guard) if it) or "1"


def network(it, required=False):
    """The instances and connections of a network; with `required` an empty list of instances is written too, which makes a type a composite."""
    out = ""
    if it.instances or required:
        out += "FBS\n" + "".join(comment(one.comment, "  ") + f"  {instance(one)};\n" for one in it.instances) + "END_FBS\n"
    return out + connections("EVENT_CONNECTIONS", it.events) + connections("DATA_CONNECTIONS", it.data)


def instance(it):
    kinds = f"[{', '.join(it.value_types)}]" if it.value_types else ""
    given = ", ".join(f"{name} := {value}" for name, value in it.parameters.items())
    return f"{it.name} : {it.type}{kinds}{f'({given})' if given else ''}"


def connections(word, declared):
    if not declared:
        return ""
    lines = [comment(it.comment, "  ") + f"  {it.source} TO {it.target};\n" for it in declared]
    return f"{word}\n{''.join(lines)}END_CONNECTIONS\n"


def system(it):
    out = comment(it.comment) + f"SYSTEM {it.name}\n"
    out += "\n".join(device(one) for one in it.devices)
    return out + "END_SYSTEM\n"


def device(it):
    out = comment(it.comment) + f"DEVICE {it.name}\n"
    for one in it.resources:
        out += comment(one.comment) + f"RESOURCE {one.name}\n{network(one.network)}END_RESOURCE\n"
    return out + "END_DEVICE\n"
