"""The state of a device as a page shows it, and how an event changes it. `page/state.js` does the same in the browser."""
import copy

# How many causes and how many kinds of denials are kept.
CAUSES, DENIALS = 50, 50

State = dict


def first_state(states: dict[str, str], values: dict[str, str], queues: dict[str, int]) -> State:
    """The state before anything has happened."""
    return {
        "number": 0,
        "time": 0,
        "states": dict(states),
        "values": dict(values),
        "queues": dict(queues),
        "counts": {},
        "last": None,
        "wrote": {},
        "causes": [],
        "denials": [],
        "denied": 0,
        "forgotten": 0,
    }


def copied(state: State) -> State:
    """A copy that does not change with it. What is in its tables of names is never changed in place."""
    causes, denials = copy.deepcopy(state["causes"]), copy.deepcopy(state["denials"])
    tables = {it: dict(state[it]) for it in ("states", "values", "queues", "counts", "wrote")}
    return {**state, **tables, "causes": causes, "denials": denials}


def deny(state: State, event: dict) -> None:
    """Counts a denial under its kind. Beyond 50 kinds the one that is longest ago is forgotten, other than in the sums."""
    count = event["count"]
    state["denied"] += count
    for it in state["denials"]:
        if (it["what"], it["code"], it["why"]) == (event["what"], event["code"], event["why"]):
            it["count"] += count
            it["time"] = event["time"]
            return
    state["denials"].append({"what": event["what"], "code": event["code"], "why": event["why"], "count": count, "time": event["time"]})
    if len(state["denials"]) > DENIALS:
        oldest = min(state["denials"], key=lambda it: it["time"])
        state["denials"].remove(oldest)
        state["forgotten"] += oldest["count"]


def follow_cause(state: State, event: dict) -> None:
    """Takes what an event says of its cause."""
    if "opens" in event:
        opened = {"cause": event["cause"], "source": event["opens"], "bound": event["bound"], "time": event["time"]}
        state["causes"].append({**opened, "steps": 0, "ran": 0, "last": "", "ended": None})
        del state["causes"][:-CAUSES]
    for it in reversed(state["causes"]):
        if it["cause"] != event.get("cause"):
            continue
        if event["kind"] == "ran":
            it["steps"] += event["steps"]
            it["ran"] += 1
            it["last"] = f"{event['at']}.{event['event']}"
        if "ended" in event:
            it["steps"], it["bound"] = event["ended"]
            it["ended"] = event["time"]
        return


def apply(state: State, event: dict) -> None:
    """Changes a state as an event does."""
    state["number"], state["time"] = event["number"], event["time"]
    for kind, name, value in event.get("changes", ()):
        state[{"s": "states", "v": "values", "q": "queues"}[kind]][name] = value
    if event["kind"] == "denied":
        deny(state, event)
    if event["kind"] == "ran":
        state["counts"][event["at"]] = state["counts"].get(event["at"], 0) + 1
        state["last"] = [event["at"], event["event"]]
    if "wrote" in event:
        number, values = event["wrote"]
        state["wrote"][str(number)] = [values, event["time"]]
    follow_cause(state, event)
