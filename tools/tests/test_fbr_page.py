"""fbr-page without a browser: objects of a replay, records that grow and change, events and history against a plain replay, the server, the whole with a
device."""
import contextlib
import io
import json
import os
import random
import re
import socket
import subprocess
import threading
import unittest
from unittest import mock

import page_parts as parts
from page_parts import TANK, TOP, Device, Running, offer, program, turn, waited

from fbrpage import main as page_main
from fbrpage import server as page_server
from fbrpage.drawing import Places, of_device, read_drawing
from fbrpage.feed import Feed, Unknown
from fbrpage.follower import LONGEST_LINE, Follower
from fbrpage.history import History
from fbrpage.plant import Plant, read_plant
from fbrpage.pump import Pump
from fbrpage.state import DENIALS, apply, first_state
from fbrpage.turns import LINES, Merger, batches

HANDOVER = TOP / "examples" / "handover" / "handover.fb"
# Two resources whose instances have the same names, with timers.
TWO = """FUNCTION_BLOCK TOGGLE
EVENT_INPUT PRESS; END_EVENT
EVENT_OUTPUT CHANGED WITH ON; END_EVENT
VAR_OUTPUT ON : BOOL; END_VAR
VAR N, M : INT; END_VAR
EC_STATES IDLE; TURN : SWITCH -> CHANGED; END_STATES
EC_TRANSITIONS IDLE TO TURN := PRESS; TURN TO IDLE := 1; END_TRANSITIONS
ALGORITHM SWITCH IN ST: ON := NOT ON; IF ON THEN N := (N + 1) MOD 9; ELSE M := (M + 1) MOD 9; END_IF; END_ALGORITHM
END_FUNCTION_BLOCK
SYSTEM HALL DEVICE D
RESOURCE R
FBS button : INPUT(ID := 1); light : TOGGLE; lamp : OUTPUT[BOOL](ID := 1); cyc : E_CYCLE(DT := T#40ms); st : E_RESTART; END_FBS
EVENT_CONNECTIONS button.IND TO light.PRESS; light.CHANGED TO lamp.REQ; st.COLD TO cyc.START; cyc.EO TO light.PRESS; END_CONNECTIONS
DATA_CONNECTIONS light.ON TO lamp.SD_1; END_CONNECTIONS
END_RESOURCE
RESOURCE Q
FBS button2 : INPUT(ID := 2); light : TOGGLE; lamp : OUTPUT[BOOL](ID := 2); END_FBS
EVENT_CONNECTIONS button2.IND TO light.PRESS; light.CHANGED TO lamp.REQ; END_CONNECTIONS
DATA_CONNECTIONS light.ON TO lamp.SD_1; END_CONNECTIONS
END_RESOURCE
END_DEVICE END_SYSTEM
"""
# What a replay says, and the events that come of it.
SAID = [
    ({"answer": "cause", "cause": 1, "input": 3, "most": 5, "time": 7}, {"kind": "begins", "cause": 1, "opens": "INPUT 3", "bound": 5}),
    ({"answer": "cause", "cause": 2, "channel": 2, "most": 1, "time": 7}, {"kind": "begins", "cause": 2, "opens": "channel 2", "bound": 1}),
    (
        {"answer": "denied", "input": 9, "line": "denied 50", "number": 50, "says": "there is no such INPUT", "time": 7},
        {"kind": "denied", "what": "INPUT 9", "code": 50, "why": "there is no such INPUT", "count": 1},
    ),
    (
        {"answer": "denied", "bytes": 1, "line": "denied 55", "number": 55, "says": "it is no message (Short)", "time": 7},
        {"kind": "denied", "what": "1 byte", "code": 55, "why": "it is no message (Short)", "count": 1},
    ),
    (
        {"answer": "denied", "bytes": 0, "line": "denied 55", "number": 55, "says": "it is no message (Short)", "time": 7},
        {"kind": "denied", "what": "0 bytes", "code": 55, "why": "it is no message (Short)", "count": 1},
    ),
    (
        {"answer": "ran", "cause": 1, "event": "E", "path": "D.Q.A", "steps": 3, "most": 5, "time": 7},
        {"kind": "ran", "at": "A", "event": "E", "cause": 1, "steps": 3},
    ),
    (
        {"answer": "ran", "cause": 1, "ended": {"cause": 1, "most": 5, "steps": 4}, "event": "E", "path": "D.Q.B", "steps": 1, "time": 7},
        {"kind": "ran", "at": "B", "event": "E", "cause": 1, "steps": 1, "ended": [4, 5]},
    ),
    (
        {"answer": "ran", "cause": 7, "event": "E", "most": 9, "output": 4, "path": "D.R.C", "steps": 1, "time": 7, "values": [1, -400]},
        {"kind": "ran", "at": "C", "event": "E", "cause": 7, "steps": 1, "opens": "C.E", "bound": 9, "wrote": [4, "1 -400"]},
    ),
    (
        {"answer": "ran", "cause": 8, "channel": 3, "ended": {"cause": 8, "most": 2, "steps": 2}, "event": "E", "path": "D.R.C", "steps": 2, "time": 7},
        {"kind": "ran", "at": "C", "event": "E", "cause": 8, "steps": 2, "opens": "C.E", "bound": 2, "sent": "channel 3", "ended": [2, 2]},
    ),
]
# What has changed, and what an event says of it.
CHANGED = [
    ({"device": "D", "path": "CONTROL", "state": "OPENED", "time": 7}, ["s", "CONTROL", "OPENED"]),
    ({"device": "D", "path": "CONTROL.VALVE_OPEN", "time": 7, "type": "BOOL", "value": True}, ["v", "CONTROL.VALVE_OPEN", "TRUE"]),
    ({"device": "D", "path": "R.LIGHT.D", "time": 7, "type": "TIME", "value": -1}, ["v", "R.LIGHT.D", "T#-1ms"]),
    ({"device": "D", "path": "SMOOTHING.LAST[0]", "time": 7, "type": "INT", "value": -5}, ["v", "SMOOTHING.LAST[0]", "-5"]),
    ({"device": "D", "path": "LEVEL", "queue": 2, "time": 7}, ["q", "LEVEL", 2]),
    ({"device": "D", "path": "<b>A</b>", "state": "<i>B</i>", "time": 7}, ["s", "<b>A</b>", "<i>B</i>"]),
]
END = {"answer": "turn", "denied": 0, "fired": 0, "lost": 0, "ran": 1, "received": 0, "sent": 0, "time": 7}


def plant() -> Plant:
    """A device with two resources, Q and R."""
    found = Plant("D", None)
    for path in ("D.Q.A", "D.Q.B", "D.R.C"):
        found.names[path] = path.rpartition(".")[2]
    return found


class OfObjects(unittest.TestCase):
    """The objects of a replay, and the events that come of them."""

    def test_each_form(self) -> None:
        unknown = Unknown()
        merger = Merger(plant(), unknown)
        wanted = [{**event, "time": 7, "number": number} for number, (_, event) in enumerate(SAID, 1)]
        self.assertEqual(merger.events([*(it for it, _ in SAID), END]), wanted)
        self.assertEqual((unknown.count, merger.clock, merger.open), (0, 7, {2, 7}))

    def test_what_has_changed_belongs_to_the_answer_before(self) -> None:
        merger = Merger(plant(), Unknown())
        found = merger.events([SAID[0][0], CHANGED[4][0], SAID[5][0], *(it for it, _ in CHANGED), END])
        self.assertEqual([it["changes"] for it in found], [[CHANGED[4][1]], [it for _, it in CHANGED]])

    def test_what_holds_at_first_is_no_event(self) -> None:
        merger = Merger(plant(), Unknown())
        self.assertEqual(merger.events([*(it for it, _ in CHANGED), END]), [])
        self.assertEqual([it["kind"] for it in merger.events([CHANGED[0][0], SAID[0][0], END])], ["other", "begins"])

    def test_what_is_not_known_is_counted(self) -> None:
        unknown = Unknown()
        merger = Merger(plant(), unknown)
        strange = [{"answer": "sings", "time": 7}, {"answer": "ran", "time": 7}, {"answer": "cause", "cause": 1, "most": 1, "time": 7}, {"path": "A"}, {}]
        strange += [{"answer": "cause", "cause": [], "input": 1, "most": 1, "time": 7}, {"answer": "denied", "number": 5, "input": 1, "time": 7}]
        self.assertEqual(merger.events([*strange, END]), [])
        self.assertEqual((unknown.count, len(unknown.examples), unknown.examples[0]), (len(strange), 5, json.dumps(strange[0])))
        unknown.add("x" * 1000)
        other = Unknown()
        other.add("x" * 1000)
        self.assertEqual((unknown.count, other.examples), (len(strange) + 1, ["x" * 200]))

    def test_pieces(self) -> None:
        lines = [b"turn %d\n" % it for it in range(2 * LINES + 1)]
        self.assertEqual([len(it) for it in batches(lines)], [LINES, LINES, 1])
        self.assertEqual((b"".join(sum(batches(lines), [])), batches([])), (b"".join(lines), []))

    def test_kinds_of_denials_are_bounded(self) -> None:
        state = first_state({}, {}, {})
        for number in range(2 * DENIALS):
            apply(state, {"kind": "denied", "time": number, "number": number + 1, "what": f"INPUT {number}", "code": 50, "why": "no", "count": 2})
        self.assertEqual((len(state["denials"]), state["denied"], state["forgotten"]), (DENIALS, 4 * DENIALS, 2 * DENIALS))
        self.assertEqual(state["denials"][0]["what"], f"INPUT {DENIALS}")

    def test_the_last_fifty_causes(self) -> None:
        state = first_state({}, {}, {})
        for number in range(1, 61):
            apply(state, {"kind": "begins", "time": number, "number": 2 * number, "cause": number, "opens": "INPUT 1", "bound": 5})
        apply(state, {"kind": "ran", "time": 61, "number": 121, "cause": 60, "at": "A", "event": "E", "steps": 3, "ended": [3, 5]})
        apply(state, {"kind": "ran", "time": 61, "number": 122, "cause": 3, "at": "A", "event": "E", "steps": 3})
        self.assertEqual([it["cause"] for it in state["causes"]], list(range(11, 61)))
        wanted = {"cause": 60, "source": "INPUT 1", "bound": 5, "time": 60, "steps": 3, "ran": 1, "last": "A.E", "ended": 61}
        self.assertEqual(state["causes"][-1], wanted)
        self.assertEqual((state["counts"], state["last"]), ({"A": 2}, ["A", "E"]))


class OfRecords(parts.Folder):
    """A record that grows, and one that changes otherwise."""

    def setUp(self) -> None:
        super().setUp()
        self.follower = Follower(str(self.record))
        self.addCleanup(self.follower.forget)

    def polled(self) -> tuple[str, bytes, str]:
        """What is new."""
        news = self.follower.poll()
        return news.begins, b"".join(news.lines), news.trouble

    def test_it_grows(self) -> None:
        self.assertEqual(self.polled(), ("", b"", "there is no record of this name"))
        self.put("head\nturn 1\ntur")
        self.assertEqual(self.polled(), ("the record was found", b"head\nturn 1\n", ""))
        self.assertEqual(self.polled(), ("", b"", ""))
        self.append("n 2")
        self.assertEqual(self.polled(), ("", b"", ""))
        self.append("\nturn 3\n")
        self.assertEqual(self.polled(), ("", b"turn 2\nturn 3\n", ""))

    def test_it_is_cut(self) -> None:
        self.put("head\nturn 1\nturn 2\n")
        self.polled()
        os.truncate(self.record, 5)
        self.assertEqual(self.polled(), ("the record was cut", b"head\n", ""))
        self.append("turn 9\n")
        self.assertEqual(self.polled(), ("", b"turn 9\n", ""))

    def test_it_is_replaced(self) -> None:
        self.put("head\nturn 1\n")
        self.polled()
        self.put("head\nturn 1\nturn 2\n", "new")
        os.replace(self.folder / "new", self.record)
        self.assertEqual(self.polled(), ("the record was replaced by another file", b"head\nturn 1\nturn 2\n", ""))

    def test_it_is_overwritten_in_its_place(self) -> None:
        self.put("head\nturn 1\nturn 2\n")
        self.polled()
        self.put("head\nturn 1\nturn 3\n")
        os.utime(self.record, ns=(1, 1))
        self.assertEqual(self.polled(), ("the record was overwritten", b"head\nturn 1\nturn 3\n", ""))
        self.put("HEAD\nturn 1\nturn 3\nturn 4\n")
        self.assertEqual(self.polled(), ("the record was overwritten", b"HEAD\nturn 1\nturn 3\nturn 4\n", ""))

    def test_it_is_removed_and_read_on(self) -> None:
        self.put("head\n")
        self.polled()
        with open(self.record, "a", encoding="utf-8") as device:
            self.record.unlink()
            device.write("turn 1\n")
            device.flush()
            self.assertEqual(self.polled(), ("", b"turn 1\n", "the record was removed"))
        self.put("other\n")
        self.assertEqual(self.polled(), ("the record was replaced by another file", b"other\n", ""))

    def test_it_is_no_file(self) -> None:
        os.mkfifo(self.record)
        self.assertEqual(self.polled(), ("", b"", "the record is not a file"))

    def test_a_line_without_end_is_passed_on(self) -> None:
        self.put("x" * (LONGEST_LINE + 1))
        self.assertEqual(self.polled()[1], b"x" * (LONGEST_LINE + 1) + b"\n")


class OfDrawings(unittest.TestCase):
    """What is read in the text of `fbr draw`."""

    @classmethod
    def setUpClass(cls) -> None:
        cls.text = subprocess.run([program(), "draw", HANDOVER], capture_output=True, text=True, check=True).stdout
        cls.drawing = read_drawing(cls.text)

    def test_nodes_are_instances(self) -> None:
        self.assertEqual(self.drawing.devices, ["ROBOT", "MACHINE"])
        robot = {it.path: (it.what, it.types) for it in self.drawing.instances.values() if it.path.startswith("ROBOT.")}
        self.assertEqual(robot["ROBOT.CELL.TABLE_SENSOR"], ("INPUT 1", {"RD_1": "BOOL"}))
        self.assertEqual(robot["ROBOT.CELL.REPEATER"], ("E_CYCLE", {"DT": "TIME"}))
        self.assertEqual(len(self.drawing.instances), self.text.count('PORT="head"'))

    def test_instances_in_composites(self) -> None:
        tank = read_drawing(subprocess.run([program(), "draw", TANK], capture_output=True, text=True, check=True).stdout)
        paths = {it.path: it.resource for it in tank.instances.values()}
        self.assertEqual(paths["CONTROLLER.LEVEL.MEASURING.SCALING"], "LEVEL")
        self.assertEqual(paths["CONTROLLER.LEVEL.CONTROL"], "LEVEL")

    def test_one_device_alone(self) -> None:
        text = of_device(self.drawing, "ROBOT")
        self.assertIn('"cluster_ROBOT.CELL"', text)
        self.assertNotIn("MACHINE", text)
        nodes = set(re.findall(r"^ *(n[0-9]+) \[", text, re.MULTILINE))
        ends = set(re.findall(r"\b(n[0-9]+)\b", "\n".join(it for it in text.splitlines() if " -> " in it)))
        self.assertEqual((nodes, ends - nodes), ({it for it, at in self.drawing.instances.items() if at.path.startswith("ROBOT.")}, set()))
        self.assertEqual(text.count("{"), text.count("}"))

    def test_places_for_what_changes(self) -> None:
        states = {"ROBOT.CELL.GIVER": ["EMPTY", "OFFERS"]}
        places = Places(self.drawing, states)
        text = places.made(of_device(self.drawing, "ROBOT"))
        self.assertEqual([text.count(f">{it}<") for it in places.places], [1] * len(places.places))
        of_giver = [(kind, port) for kind, path, port in places.places.values() if path == "ROBOT.CELL.GIVER"]
        self.assertEqual(of_giver, [("s", ""), ("c", ""), ("v", "OCCUPIED"), ("v", "NUMBER"), ("v", "TAKEN_NUMBER"), ("v", "TABLE_FREE")])
        self.assertIn(("ROBOT.CELL.GIVER", "NUMBER"), places.outputs)


class OfReplays(parts.Folder):
    """A replay that is given lines of a record."""

    def feed(self) -> Feed:
        """A replay of the tank."""
        feed = Feed([program(), "replay", str(TANK), str(self.certificate), "-", "--json", "--watch", "*"], Unknown())
        self.addCleanup(feed.close)
        return feed

    def test_all_of_a_turn_is_there_when_it_was_given(self) -> None:
        feed = self.feed()
        first = feed.give([self.head.encode(), b"turn 1\n"])
        self.assertEqual(({it.get("time") for it in first[:-1]}, first[-1]), ({0}, {**END, "ran": 0, "time": 1}))
        came = feed.give([turn(5, offer(3, ("BOOL", 1))).encode()])
        self.assertEqual([it.get("answer", it.get("path")) for it in came], ["cause", "LEVEL", "ran", "ENABLE_SWITCH.RD_1", "turn"])
        self.assertEqual((came[0]["input"], came[0]["most"], came[-1]), (3, 5, {**END, "received": 1, "time": 5}))
        came = feed.give([b"turn 5\n", b"turn 6\n"])
        self.assertEqual([it.get("answer", it.get("path")) for it in came], ["ran", "CONTROL.ENABLED", "LEVEL", "turn", "turn"])
        self.assertEqual((feed.poll(), feed.status), ([], None))
        said = feed.give([b"turn 7 x\n", b"turn 8\n"])
        self.assertEqual(([it["line"] for it in said], feed.status, feed.unknown.count), (["refused 60 6"], 2, 0))
        self.assertEqual((feed.give([b"turn 9\n"]), feed.poll()), ([], []))

    def test_a_first_line_that_is_none(self) -> None:
        feed = self.feed()
        said = feed.give([b"no record\n"])
        self.assertTrue(waited(lambda: said.extend(feed.poll()) or feed.status is not None))
        self.assertEqual(([it["line"] for it in said], feed.status), (["refused 60 1"], 2))
        self.assertIn("fbr: this is no record of a device", feed.said)

    def test_more_than_pipes_hold(self) -> None:
        """Many turns at once, whose answers are longer than a pipe."""
        feed = self.feed()
        turns = [turn(it, *[offer(1, ("INT", it))] * 3).encode() for it in range(2000)]
        said = feed.give([self.head.encode(), *turns])
        self.assertEqual((sum(it.get("answer") == "turn" for it in said), feed.status, feed.unknown.count), (2000, None, 0))


WATCHED = re.compile(r"([0-9]+) (?:(\S+) IN (\S+)|(\S+) QUEUE ([0-9]+)|(\S+) = (.+))")


def plain_state(lines: list[str], state: dict, until: int) -> dict:
    """States, values and queues after the turns up to a moment, as the lines of a plain replay say."""
    found = {it: dict(state[it]) for it in ("states", "values", "queues")}
    for line in lines:
        changed = WATCHED.fullmatch(line)
        if changed and int(changed[1]) <= until:
            if changed[2]:
                found["states"][changed[2]] = changed[3]
            elif changed[4]:
                found["queues"][changed[4]] = int(changed[5])
            else:
                found["values"][changed[6]] = changed[7]
    return found


def simulated(said, names: dict[str, str]) -> list[dict]:
    """The events of a simulation, as its answers and what has changed after each say; `names` are the shortest ones of instances."""
    events = [{"kind": "idle"}]
    for it in said:
        if it.get("answer") == "ran":
            event = {"kind": "ran", "at": names[it["path"]], "event": it["event"], "cause": it["cause"], "steps": it["steps"]}
            event |= {"ended": [it["ended"]["steps"], it["ended"]["most"]]} if "ended" in it else {}
            events.append(event | ({"wrote": [it["output"], " ".join(map(str, it["values"]))]} if "output" in it else {}))
        elif it.get("answer") == "cause":
            events.append({"kind": "begins", "cause": it["cause"]})
        elif "answer" in it:
            events.append({"kind": it["answer"]} | ({"code": it["number"]} if "number" in it else {}))
        elif it.get("time"):
            kind, value = next((kind, it[word]) for kind, word in (("s", "state"), ("v", "value"), ("q", "queue")) if word in it)
            value = {True: "TRUE", False: "FALSE"}[value] if isinstance(value, bool) else value
            events[-1].setdefault("changes", []).append([kind, it["path"], value if kind == "q" else str(value)])
    return [it for it in events if it["kind"] not in ("fired", "idle")]


def without_queues(events: list[dict]) -> list[dict]:
    """Events without the lengths of queues. A simulation looks at them after a tick too, and a replay does not."""
    kept = [{**it, "changes": [at for at in it.get("changes", ()) if at[0] != "q"]} for it in events]
    return [it if it["changes"] else {name: value for name, value in it.items() if name != "changes"} for it in kept]


class OfHistory(parts.Folder):
    """The history of a record that a device wrote, against a plain replay of it."""

    def recorded(self) -> str:
        """A record of a device that was offered values, some of them too fast."""
        device = Device(self.certificate, self.record)
        device.offer(3, ("BOOL", 1))
        for value in (6000, 26000, -9000, 12000, 3000):
            for _ in range(3):
                device.offer(1, ("INT", value))
            waited(lambda: False, 0.05)
        device.offer(2, ("INT", 400), ("INT", 600))
        device.send(b"hello")
        for _ in range(40):
            device.offer(1, ("INT", 1000))
        waited(lambda: self.record.read_text(encoding="utf-8").count("4642") >= 57 and False, 0.5)
        device.end()
        return self.record.read_text(encoding="utf-8")

    def shown(self, limit: int, every: int, app=TANK) -> History:
        """The history of the record, as far as it is written."""
        history = History(limit, every)
        pump = Pump(program(), str(app), str(self.certificate), str(self.record), history)
        size = self.record.stat().st_size
        with mock.patch("fbrpage.picture.shutil.which", return_value=None), contextlib.redirect_stderr(io.StringIO()):
            pump.start()
            self.assertTrue(waited(lambda: pump.position == size))
            pump.stop()
        return history

    def test_each_state_is_that_of_a_plain_replay(self) -> None:
        record = self.recorded()
        words = [program(), "replay", TANK, self.certificate, self.record, "--clock"]
        plain = subprocess.run([*words, "--watch", "*"], capture_output=True, text=True, check=True).stdout.splitlines()
        told = subprocess.run([*words, "--verbose"], capture_output=True, text=True, check=True).stderr.splitlines()
        history = self.shown(100_000, 7)
        last = history.snapshot()
        self.assertEqual((last["status"]["unknown"], last["status"]["fault"], last["first"]), (0, "", 0))
        # The sums: each dispatch, each cause, each datagram that was denied, and each value that was written.
        sums = dict(zip(plain[-1].split()[::2], map(int, plain[-1].split()[1::2])))
        self.assertEqual((sum(last["state"]["counts"].values()), last["state"]["denied"]), (sums["ran"], sums["denied"]))
        self.assertGreater(sums["denied"], 10)
        events = [json.loads(it) for piece in history.pieces for it in piece.events]
        self.assertEqual(sum("opens" in it for it in events), sum("begins cause" in it for it in told))
        self.assertEqual([it["wrote"] for it in events if "wrote" in it], [[int(n), v] for n, v in re.findall(r"write (\d+) (.*)", "\n".join(plain))])
        self.assertEqual({it["kind"] for it in events}, {"begins", "ran", "denied"})
        self.assertEqual([it["number"] for it in events], list(range(1, len(events) + 1)))
        ends = {it["time"]: it["number"] for it in events}
        first = history.at(last["generation"], 0)["state"]
        for moment, number in ends.items():
            state = history.at(last["generation"], number)["state"]
            self.assertEqual({it: state[it] for it in ("states", "values", "queues")}, plain_state(plain, first, moment), moment)
        whole = first
        for event in events:
            apply(whole, event)
            self.assertEqual(history.at(last["generation"], event["number"])["state"], whole)
        self.assertEqual(record, self.record.read_text(encoding="utf-8"))

    def compare(self, app, device: str, resources: tuple[str, ...], offers: list[tuple[str, bytes]], fix) -> list[dict]:
        """Random bursts of these offers, each as words of a script and as a datagram, in a record and for `fbr sim`; `fix` is done to the events of both."""
        chance = random.Random(65)
        record, script, now = [self.head], [], 0
        for _ in range(40):
            now += chance.choice((1, 7, 1000))
            for at in range(chance.randrange(4, 14)):
                came = chance.sample(offers, chance.randrange(3) if at < 3 else 0)
                record.append(turn(now, *(it for _, it in came)))
                script += [f"tick {device} {now}", *(f"offer {device} {it}" for it, _ in came), *(f"dispatch {device} {it}" for it in resources)]
        self.put("".join(record))
        words = [program(), "sim", app, self.certificate, "--json", "--watch", "*"]
        said = subprocess.run(words, input="\n".join(script) + "\n", capture_output=True, text=True, check=True).stdout
        names = read_plant(program(), str(app), str(self.certificate), self.head).names
        events = [json.loads(it) for piece in self.shown(100_000, 7, app).pieces for it in piece.events]
        taken = ("kind", "at", "event", "cause", "steps", "code", "changes", "wrote", "ended")
        shown = [{name: it[name] for name in taken if name in it} for it in events]
        self.assertEqual(fix(shown), fix(simulated(map(json.loads, said.splitlines()), names)))
        return events

    def test_each_event_is_that_of_a_simulation(self) -> None:
        """What came is offered to `fbr sim` too, which says after each line what that has changed."""
        offers = [(f"1 {it}", offer(1, ("INT", it))) for it in (-9000, 0, 2000, 9000, 26000)]
        events = self.compare(TANK, "Controller", ("Level",), offers, list)
        self.assertGreater(len([it for it in events if it["kind"] == "denied"]), 3)

    def test_each_event_of_two_resources_with_timers_is_that_of_a_simulation(self) -> None:
        self.put(TWO, "two.fb")
        app = self.folder / "two.fb"
        subprocess.run([program(), "bound", app, "--room", "2", "-o", self.certificate], check=True, capture_output=True)
        self.head = parts.head_of(self.folder, app, self.certificate, "D")
        events = self.compare(app, "D", ("R", "Q"), [(str(it), offer(it)) for it in (1, 2)], without_queues)
        self.assertGreater(len({it["at"] for it in events if it["kind"] == "ran"}), 6)
        self.assertGreater(len([it for it in events if it.get("opens") == "CYC.EXPIRE"]), 5)

    def test_what_is_long_ago_is_forgotten(self) -> None:
        self.put(self.head + "".join(turn(it * 10, offer(1, ("INT", 100 * it))) + turn(it * 10 + 1) * 8 for it in range(1, 40)))
        history = self.shown(60, 10)
        snapshot = history.snapshot()
        first, last, now = snapshot["first"], snapshot["last"], snapshot["generation"]
        self.assertEqual((last - first <= 60, last - first > 45, first % 10), (True, True, 0))
        self.assertIsNone(history.at(now, first - 1))
        self.assertIsNone(history.at(now, last + 1))
        self.assertIsNone(history.at(now - 1, last))
        self.assertEqual([history.at(now, last)[it] for it in ("state", "event")], [snapshot["state"], snapshot["event"]])
        self.assertEqual(history.at(now, first)["event"], None)
        state = history.at(now, first)["state"]
        for text in history.view(now, first, 1000, 1000).events:
            apply(state, json.loads(text))
        self.assertEqual(state, snapshot["state"])

    def test_what_a_client_is_given(self) -> None:
        history = History(100, 10)
        history.add([{"kind": "other", "time": it, "number": it} for it in range(1, 51)])
        now = history.generation
        numbers = [json.loads(it)["number"] for it in history.view(now, 25, 7, 100).events]
        self.assertEqual(numbers, list(range(26, 33)))
        self.assertEqual(history.view(now, 50, 7, 100).events, [])
        asked = ((now, 25, 7, 25), (now, 25, 7, 24), (now + 1, 25, 7, 100), (now, 51, 7, 100))
        self.assertEqual([history.view(*it).is_whole for it in asked], [True, False, False, False])


class OfSeveralDevices(parts.Folder):
    """A device among others, with timers and channels."""

    def test_a_robot(self) -> None:
        certificate, record = self.folder / "handover.cert", self.folder / "robot.record"
        subprocess.run([program(), "bound", HANDOVER, "--room", "2", "-o", certificate], check=True, capture_output=True)
        words = [program(), "serve", HANDOVER, certificate, "Robot", "--bind", str(parts.free_port(socket.SOCK_DGRAM)), "--record", record, "--turns", "8"]
        subprocess.run(words, check=True, capture_output=True)
        with open(record, "a", encoding="utf-8") as file:
            file.write(turn(100_000, offer(1, ("BOOL", 1))) + turn(100_000) * 6 + turn(100_600) * 4 + turn(101_200, b"") * 4)
        history = History()
        pump = Pump(program(), str(HANDOVER), str(certificate), str(record), history)
        with contextlib.redirect_stderr(io.StringIO()):
            pump.start()
            self.assertTrue(waited(lambda: history.snapshot()["state"]["denied"] == 4), history.status)
            pump.stop()
        state = history.snapshot()["state"]
        self.assertEqual((state["states"]["GIVER"], state["values"]["GIVER.NUMBER"], state["values"]["REPEATER.DT"]), ("OFFERS_AGAIN", "1", "T#500ms"))
        self.assertEqual([it["source"] for it in state["causes"]], ["BEGIN.BEGIN", "INPUT 1", "REPEATER.EXPIRE", "REPEATER.EXPIRE"])
        self.assertEqual({it["bound"] is not None and it["ended"] is not None for it in state["causes"]}, {True})
        self.assertNotIn("MACHINE", json.dumps(state))
        events = [json.loads(it) for piece in history.pieces for it in piece.events]
        self.assertEqual({it["kind"] for it in events}, {"begins", "ran", "denied"})
        self.assertEqual(sum(it.get("sent") == "channel 1" for it in events), 3)


class OfServer(unittest.TestCase):
    """The server: what it answers, and to whom."""

    def setUp(self) -> None:
        self.history = History()
        self.server = page_server.Server(("127.0.0.1", 0), self.history, lambda: {"none": "no picture"})
        self.port = self.server.server_address[1]
        thread = threading.Thread(target=lambda: self.server.serve_forever(0.05))
        thread.start()
        self.addCleanup(thread.join)
        self.addCleanup(self.server.stop)

    def asks(self, head: str) -> tuple[int, dict[str, str], bytes]:
        """What is answered to the bytes of a request: the status, the headers and the body."""
        with socket.create_connection(("127.0.0.1", self.port), 30) as link:
            link.sendall(head.format(port=self.port).encode())
            answer = b""
            while piece := link.recv(65536):
                answer += piece
        top, _, body = answer.partition(b"\r\n\r\n")
        first, *lines = top.decode().split("\r\n")
        return int(first.split()[1]), {name.lower(): value for name, value in (it.split(": ", 1) for it in lines)}, body

    def get(self, path: str, host: str = "127.0.0.1:{port}", more: str = "") -> tuple[int, dict[str, str], bytes]:
        """What is answered to GET."""
        return self.asks(f"GET {path} HTTP/1.1\r\nHost: {host}\r\n{more}\r\n")

    def add(self, count: int, size: int = 0) -> None:
        """Adds events."""
        last = self.history.state["number"]
        self.history.add([{"kind": "other", "time": it, "number": it, "more": "x" * size} for it in range(last + 1, last + count + 1)])

    def test_its_files_and_no_others(self) -> None:
        for path in page_server.FILES:
            status, headers, body = self.get(path)
            self.assertEqual((status, len(body) > 50), (200, True), path)
            self.assertEqual({name: headers.get(name.lower()) for name in page_server.HEADERS}, page_server.HEADERS)
            self.assertNotIn("access-control-allow-origin", headers)
        for path in ("/index.html", "/../main.py", "/page/page.js", "/%2e%2e/main.py", "//etc/passwd", "/etc/passwd", "/page.js/", "/?/../x/..", "*"):
            self.assertEqual(self.get(path)[0], 200 if path.startswith("/?") else 404, path)

    def test_the_page_names_nothing_elsewhere(self) -> None:
        """No script, style or address within the page itself, and none of another host."""
        for path in page_server.FILES:
            text = self.get(path)[2].decode()
            forbidden = r"https?://(?!www\.w3\.org/2000/svg)|innerHTML|outerHTML|insertAdjacent|document\.write|\beval\b|Function\("
            self.assertEqual(re.findall(forbidden, text), [], path)
        page = self.get("/")[2].decode()
        self.assertEqual(re.findall(r"<script(?! type=\"module\" src=\"page\.js\"></script>)|<style|\bstyle=|\bon[a-z]+=", page), [])

    def test_only_get(self) -> None:
        for method in ("POST", "PUT", "DELETE", "PATCH", "OPTIONS", "TRACE", "CONNECT"):
            status, headers, _ = self.asks(f"{method} / HTTP/1.1\r\nHost: 127.0.0.1:{{port}}\r\nContent-Length: 0\r\n\r\n")
            self.assertEqual((status, headers["allow"]), (405, "GET"), method)
        self.assertEqual(self.asks("HEAD / HTTP/1.1\r\nHost: 127.0.0.1:{port}\r\n\r\n")[::2], (405, b""))
        self.assertEqual(self.asks("BREW / HTTP/1.1\r\nHost: 127.0.0.1:{port}\r\n\r\n")[0], 501)
        self.assertEqual(self.asks("GET / HTTP/x\r\n\r\n")[0], 400)
        self.assertEqual(self.asks("GET /" + "a" * 70_000 + " HTTP/1.1\r\n\r\n")[0], 414)

    def test_its_own_hosts_alone(self) -> None:
        for host in ("127.0.0.1:{port}", "localhost:{port}", "LOCALHOST:{port}"):
            self.assertEqual(self.get("/", host)[0], 200, host)
        others = ("plant.example:{port}", "127.0.0.1", "127.0.0.1:1", "localhost", "127.0.0.2:{port}", "[::1]:{port}")
        others += ("127.0.0.1:{port}:{port}", "", "x@127.0.0.1:{port}")
        for path in ("/", "/events", "/state?generation=1&at=0", "/picture", "/page.js"):
            self.assertEqual([self.get(path, it)[0] for it in others], [421] * len(others), path)
        self.assertEqual(self.asks("GET / HTTP/1.1\r\n\r\n")[0], 421)
        self.assertEqual(self.get("/", more="Host: 127.0.0.1:{port}\r\n")[0], 421)

    def test_hosts_of_other_addresses(self) -> None:
        own = page_server.is_own_host
        self.assertTrue(own("[::1]:80", ("::1", 80, 0, 0)) and own("[::1]", ("::1", 80, 0, 0)) and own("localhost", ("::1", 80, 0, 0)))
        self.assertTrue(own("10.0.0.7:8420", ("10.0.0.7", 8420)))
        self.assertFalse(own("localhost:8420", ("10.0.0.7", 8420)) or own("10.0.0.7", ("10.0.0.7", 8420)) or own("[::1]", ("::1", 81, 0, 0)))

    def test_other_pages_are_not_answered(self) -> None:
        for site, wanted in (("cross-site", 403), ("same-site", 403), ("same-origin", 200), ("none", 200)):
            self.assertEqual(self.get("/picture", more=f"Sec-Fetch-Site: {site}\r\n")[0], wanted)
            self.assertEqual(self.get("/", more=f"Sec-Fetch-Site: {site}\r\n")[0], 200)

    def test_states(self) -> None:
        self.add(5)
        now = self.history.generation
        status, headers, body = self.get(f"/state?generation={now}&at=3")
        self.assertEqual((status, headers["content-type"], json.loads(body)["state"]["number"]), (200, "application/json", 3))
        self.assertEqual([self.get(it)[0] for it in (f"/state?generation={now}&at=6", f"/state?generation={now - 1}&at=3")], [410, 410])
        bad = ["/state", "/state?at=3", *(f"/state?generation=1&at={it}" for it in ("", "-1", "1e3", "9" * 16, "%C2%B2"))]
        self.assertEqual([self.get(it)[0] for it in bad], [400] * len(bad))
        self.assertEqual(json.loads(self.get("/picture")[2]), {"none": "no picture"})

    def client(self) -> parts.Client:
        """A client of events."""
        client = parts.Client(self.port)
        self.addCleanup(client.close)
        return client

    def test_events_come_in_order(self) -> None:
        client = self.client()
        first = client.until("snapshot")
        self.assertEqual(first["last"], 0)
        self.add(1200)
        numbers = []
        while len(numbers) < 1200:
            message = client.until("events")
            self.assertLessEqual(len(message["events"]), page_server.MESSAGE)
            numbers += [it["number"] for it in message["events"]]
        self.assertEqual(numbers, list(range(1, 1201)))
        self.history.tell(fault="it ended")
        self.assertTrue(waited(lambda: client.until("status").get("fault") == "it ended"))
        self.history.begin_anew(first_state({}, {}, {}))
        self.assertEqual(client.until("snapshot")["generation"], first["generation"] + 1)

    def test_one_who_is_far_behind_is_told(self) -> None:
        client = self.client()
        client.until("snapshot")
        self.add(page_server.FURTHEST + 100)
        kind, values = "", None
        while kind != "missed":
            kind, values = client.message()
            self.assertIn(kind, ("status", "missed"))
        self.assertEqual(values, {"missed": page_server.FURTHEST + 100})
        self.assertEqual(client.until("snapshot")["last"], page_server.FURTHEST + 100)

    def test_one_who_does_not_read(self) -> None:
        """Nobody waits for a client that does not read, nothing is kept for it, and it is let go."""
        with mock.patch.object(page_server.Handler, "timeout", 0.5), socket.socket() as deaf:
            deaf.setsockopt(socket.SOL_SOCKET, socket.SO_RCVBUF, 4096)
            deaf.connect(("127.0.0.1", self.port))
            deaf.sendall(f"GET /events HTTP/1.1\r\nHost: 127.0.0.1:{self.port}\r\n\r\n".encode())
            self.assertTrue(waited(lambda: self.server.streams._value == page_server.STREAMS - 1))
            other = self.client()
            other.until("snapshot")
            heard = 0
            while self.server.streams._value < page_server.STREAMS - 1:
                self.add(100, 1000)
                message = other.until("events")
                heard = message["events"][-1]["number"]
            self.assertGreater(heard, 100)

    def test_one_who_has_gone(self) -> None:
        with mock.patch.object(page_server, "SILENCE", 0.05):
            client = parts.Client(self.port)
            client.until("snapshot")
            self.assertEqual(client.until(""), None)
            self.assertEqual(self.server.streams._value, page_server.STREAMS - 1)
            client.close()
            self.assertTrue(waited(lambda: self.server.streams._value == page_server.STREAMS))

    def test_one_who_asks_slowly(self) -> None:
        """A request that does not come to its end is cut off, also if some of it comes all the time."""
        with mock.patch.object(page_server.Handler, "timeout", 0.3), socket.create_connection(("127.0.0.1", self.port), 30) as slow:
            slow.sendall(b"GET / HTTP/1.1\r\nX: ")

            def is_cut_off() -> bool:
                """Whether the connection is closed; if it is not, some more is sent."""
                with contextlib.suppress(ConnectionError):
                    slow.sendall(b"x")
                    return False
                return True

            self.assertTrue(waited(is_cut_off))
            self.assertTrue(waited(lambda: self.server.connections._value == page_server.CONNECTIONS))

    def test_not_too_many(self) -> None:
        clients = [self.client() for _ in range(page_server.STREAMS)]
        for it in clients:
            it.until("snapshot")
        self.assertEqual(self.get("/events")[0], 503)
        self.assertEqual(self.get("/")[0], 200)
        idle = [socket.create_connection(("127.0.0.1", self.port), 30) for _ in range(page_server.CONNECTIONS)]
        self.assertTrue(waited(lambda: self.server.connections._value == 0))
        with socket.create_connection(("127.0.0.1", self.port), 30) as link:
            self.assertEqual(link.recv(1), b"")
        for it in idle:
            it.close()
        self.assertTrue(waited(lambda: self.server.connections._value == page_server.CONNECTIONS - page_server.STREAMS))


class OfTheWhole(parts.Folder):
    """The program, with a device that runs."""

    def page(self, *more, fbr: str | None = None) -> Running:
        """A page that runs, and is ended with the test."""
        running = Running(TANK, self.certificate, self.record, *more, fbr=fbr)
        self.addCleanup(running.process.kill)
        return running

    def test_a_device_that_runs_and_records_that_change(self) -> None:
        page = self.page()
        self.assertEqual(page.comes(lambda state, status: status.get("trouble")), "there is no record of this name")
        device = Device(self.certificate, self.record)
        self.addCleanup(device.end)
        device.offer(3, ("BOOL", 1))
        device.offer(1, ("INT", 6000))
        device.offer(9)
        self.assertTrue(page.comes(lambda state, status: state["denied"] == 1))
        found = page.snapshot()
        state = found["state"]
        self.assertEqual((state["states"]["CONTROL"], state["values"]["CONTROL.LEVEL"], state["wrote"]["1"][0]), ("OPENED", "217", "1"))
        self.assertEqual([(it["source"], it["steps"], it["bound"]) for it in state["causes"]], [("INPUT 3", 2, 5), ("INPUT 1", 38, 43)])
        self.assertEqual((found["status"]["device"], found["status"]["trouble"], found["status"]["fault"]), ("CONTROLLER", "", ""))
        status, headers, body = page.asks("/picture")
        picture = json.loads(body)
        self.assertEqual((status, picture["depths"], picture["outputs"]["1"]), (200, {"LEVEL": 10}, "INLET_VALVE"))
        self.assertEqual(page.asks("/", Host=f"plant.example:{page.port}")[0], 421)
        self.change_records(page, found["generation"])
        self.assertEqual(page.end(), 0)

    def change_records(self, page: Running, generation: int) -> None:
        """Replaces the record by one of now, by one with a fault, and by one of another plant; each is told."""
        self.put(self.head + turn(0, offer(1, ("INT", 26000))) + turn(1) * 9, "new")
        os.replace(self.folder / "new", self.record)
        self.assertTrue(page.comes(lambda state, status: state["values"].get("MEASURING.SCALING.LEVEL") == "940"))
        self.assertGreater(page.snapshot()["generation"], generation)
        self.assertIn("the record was replaced by another file", page.snapshot()["status"]["notice"])
        self.put(self.head + turn(0, offer(1, ("INT", 13824))) + turn(1) * 9 + "turn 2 xx\n" + turn(3))
        fault = page.comes(lambda state, status: status["fault"])
        self.assertIn("refused 60 12", fault)
        self.assertEqual(page.snapshot()["state"]["values"]["MEASURING.SCALING.LEVEL"], "500")
        self.put(re.sub(r" [0-9a-f]{64}", " " + "0" * 64, self.head) + turn(0))
        self.assertTrue(page.comes(lambda state, status: "the record was made with another text" in status["fault"]))
        self.assertTrue(page.says("the record was overwritten; began anew") or page.says("the record was cut; began anew"))

    def test_what_is_not_understood(self) -> None:
        """Lines that are no object, and objects that are not known, are counted."""
        said = [SAID[0][0], {"device": "D", "path": "LEVEL", "queue": 1, "time": 7}, {"device": "D", "path": "CONTROL", "state": "OPENED", "time": 7}]
        said += [{"answer": "ran", "cause": 1, "event": "MEASURED", "most": 5, "path": "CONTROLLER.LEVEL.CONTROL", "steps": 3, "time": 7}]
        lines = {"8748": [*map(json.dumps, said), "a word", "[1]", '{"answer":"sings"}']}
        self.put(json.dumps(lines), "lines.json")
        self.put(self.head + turn(8748, b"x"))
        with mock.patch.dict(os.environ, {"LINES": str(self.folder / "lines.json"), "FBR": program()}):
            page = self.page(fbr=str(parts.FAKE))
        self.assertTrue(page.comes(lambda state, status: state["number"] == 2))
        found = page.snapshot()
        state = found["state"]
        self.assertEqual((state["states"]["CONTROL"], state["last"], state["queues"]), ("OPENED", ["CONTROL", "MEASURED"], {"LEVEL": 1}))
        self.assertEqual((found["status"]["unknown"], found["status"]["examples"]), (3, ["a word", "[1]", '{"answer": "sings"}']))
        self.append(turn(8748, b"x") + turn(8748, b"x"))
        self.assertTrue(page.comes(lambda state, status: state["number"] == 6))
        self.assertEqual(page.end(), 0)

    def test_without_dot(self) -> None:
        self.put(self.head + turn(0))
        (self.folder / "empty").mkdir()
        with mock.patch.dict(os.environ, {"PATH": str(self.folder / "empty")}):
            page = self.page()
        self.assertTrue(page.comes(lambda state, status: status.get("device")))
        picture = json.loads(page.asks("/picture")[2])
        self.assertIn("graphviz is not installed", picture["none"])
        self.assertEqual(picture["instances"]["CONTROL"], ["HYSTERESIS", "LEVEL"])
        self.assertEqual(page.end(), 0)

    def test_an_address_that_others_reach(self) -> None:
        page = Running(TANK, self.certificate, self.record, host="0.0.0.0")
        self.addCleanup(page.process.kill)
        self.assertTrue(page.says("anybody who reaches this address and port sees the plant"), page.errors)
        self.assertEqual(page.asks("/")[0], 200)
        self.assertEqual(page.asks("/", Host=f"0.0.0.0:{page.port}")[0], 421)
        self.assertEqual(page.end(), 0)

    def answer(self, *words: str) -> tuple[int, str]:
        """The status of the program with bad words, and what it says."""
        with contextlib.redirect_stderr(io.StringIO()) as says:
            try:
                status = page_main.main(list(words))
            except SystemExit as end:
                status = end.code
        return status, says.getvalue()

    def test_what_it_refuses(self) -> None:
        words = [str(TANK), str(self.certificate), str(self.record), "--fbr", program()]
        for it in ("8420", "localhost:8420", "127.0.0.1", "::1:8420", "127.0.0.1:70000", "[127.0.0.1]:x"):
            status, says = self.answer(*words, "--listen", it)
            self.assertEqual((status, f"--listen needs ADDRESS:PORT or [ADDRESS]:PORT, not '{it}'" in says), (2, True), says)
        self.put("CERT 1\n", "empty.cert")
        status, says = self.answer(str(TANK), str(self.folder / "empty.cert"), *words[2:])
        self.assertEqual((status, "refused 33 " in says), (1, True), says)
        with socket.create_server(("127.0.0.1", 0)) as taken:
            status, says = self.answer(*words, "--listen", f"127.0.0.1:{taken.getsockname()[1]}")
        self.assertEqual((status, "Address already in use" in says), (3, True), says)
        status, says = self.answer(*words[:3], "--fbr", str(self.folder / "none"))
        self.assertEqual((status, "cannot be run" in says), (3, True), says)

    def test_addresses(self) -> None:
        self.assertEqual(page_main.address_of("[::1]:8420"), ("::1", 8420))
        self.assertEqual(page_main.address_of("10.0.0.7:0"), ("10.0.0.7", 0))


if __name__ == "__main__":
    unittest.main()
