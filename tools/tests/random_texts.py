"""Random texts of applications, each made of its number alone: types with charts, composites, event blocks, services, and devices that talk by channels.

Most have a certificate; some are refused by `fbr bound` for a walk or a range, which is compared as well."""
import random

INTEGERS = ("SINT", "INT", "DINT", "LINT", "USINT", "UINT", "UDINT")
TYPES = ("BOOL", *INTEGERS, "TIME")
EVENT_BLOCKS = {
    "E_SPLIT": (["EI"], ["EO1", "EO2"], {}, {}),
    "E_MERGE": (["EI1", "EI2"], ["EO"], {}, {}),
    "E_PERMIT": (["EI"], ["EO"], {"PERMIT": "BOOL"}, {}),
    "E_SWITCH": (["EI"], ["EO0", "EO1"], {"G": "BOOL"}, {}),
    "E_SELECT": (["EI0", "EI1"], ["EO"], {"G": "BOOL"}, {}),
    "E_SR": (["S", "R"], ["EO"], {}, {"Q": "BOOL"}),
    "E_CTU": (["CU", "R"], ["CUO", "RO"], {"PV": "UINT"}, {"Q": "BOOL", "CV": "UINT"}),
    "E_DELAY": (["START", "STOP"], ["EO"], {"DT": "TIME"}, {}),
    "E_CYCLE": (["START", "STOP"], ["EO"], {"DT": "TIME"}, {}),
}


class Maker:
    """Types by their names: event inputs, event outputs, data inputs and data outputs with their types."""

    def __init__(self, number):
        self.random = random.Random(number)
        self.types, self.parts = dict(EVENT_BLOCKS), []

    def chance(self, part):
        return self.random.random() < part

    def some(self, things, least=0):
        things = list(things)
        return self.random.sample(things, self.random.randint(min(least, len(things)), len(things)))

    def number_of(self, kind):
        if kind == "BOOL":
            return self.random.choice(["TRUE", "FALSE"])
        if kind == "TIME":
            return self.random.choice(["T#5ms", "T#2s", "T#1m_30s", "TIME#1h", "t#0ms"])
        return self.random.choice(["0", "1", "7", "100", "16#1F", "1_0", f"{kind}#3", "2#101"] + (["-3", f"{kind}#-2"] if kind[0] != "U" else []))

    def cased(self, name):
        """The name in another spelling now and then, which means the same."""
        return self.random.choice([name, name, name, name.lower(), name.upper()])

    def application(self):
        for at in range(self.random.randint(1, 4)):
            self.basic(f"Basic_{at}")
        for at in range(self.random.randint(0, 3)):
            self.composite(f"Composite_{at}")
        system = "(* A random system. *)\nSYSTEM Random\n" + "".join(self.device(at) for at in range(self.random.randint(1, 3))) + "END_SYSTEM\n"
        return "".join(self.parts) + system

    def names(self, prefix, least, most):
        return [f"{prefix}{at}" for at in range(self.random.randint(least, most))]

    def interface(self, name):
        events_in, events_out = self.names("Ei", 1, 3), self.names("Eo", 0, 3)
        data_in = {it: self.random.choice(TYPES) for it in self.names("Di", 0, 4)}
        data_out = {it: self.random.choice(TYPES) for it in self.names("Do", 0, 3)}
        self.types[name] = (events_in, events_out, data_in, data_out)
        out = f"FUNCTION_BLOCK {name}\n"
        for word, events, data in (("EVENT_INPUT", events_in, data_in), ("EVENT_OUTPUT", events_out, data_out)):
            declared = ""
            for event in events:
                chosen = self.some(data)
                with_ = f" WITH {', '.join(self.cased(it) for it in chosen)}" if chosen else ""
                declared += f"  {event}{self.random.choice(['', ' : EVENT'])}{with_};\n"
            out += f"{word}\n{declared}END_EVENT\n" if declared else ""
        for word, data in (("VAR_INPUT", data_in), ("VAR_OUTPUT", data_out)):
            declared = "".join(f"  {it} : {kind}{f' := {self.number_of(kind)}' if self.chance(0.3) else ''};\n" for it, kind in data.items())
            out += f"{word}\n{declared}END_VAR\n" if declared else ""
        return out

    def basic(self, name):
        out = f"(* {name}: a chart. *)\n" + self.interface(name)
        events_in, events_out, data_in, data_out = self.types[name]
        out += "VAR\n  Count : INT; Flag : BOOL := TRUE;\n  Row : ARRAY [1..5] OF UINT;\nEND_VAR\n"
        states = [f"S{at}" for at in range(self.random.randint(1, 4))]
        algorithms = [f"A{at}" for at in range(self.random.randint(0, 2))]
        out += "EC_STATES\n"
        for at, state in enumerate(states):
            actions = [self.action(algorithms, events_out) for _ in range(self.random.randint(0, 2))] if at else []
            out += f"  {state}{' : ' if any(actions) else ''}{', '.join(it for it in actions if it)};\n"
        out += "END_STATES\nEC_TRANSITIONS\n"
        for at, state in enumerate(states):
            for event in self.some(events_in, 1):
                guard = self.random.choice(["", "", " [Flag]", " [Count < 5]", " [NOT Flag AND Count <> 3]"])
                out += f"  {self.cased(state)} TO {self.random.choice(states)} := {self.cased(event)}{guard};\n"
            if at and self.chance(0.5):
                out += f"  {state} TO {states[0]} := {self.random.choice(['1', '[Flag]'])};\n"
        out += "END_TRANSITIONS\n" + "".join(self.algorithm(it, data_in, data_out) for it in algorithms)
        self.parts.append(out + "END_FUNCTION_BLOCK\n\n")

    def action(self, algorithms, events_out):
        algorithm = self.random.choice([*algorithms, ""])
        output = self.random.choice([*events_out, ""])
        return " ".join(it for it in (algorithm, f"-> {output}" if output else "") if it)

    def algorithm(self, name, data_in, data_out):
        lines = []
        for target, kind in self.some(data_out.items()):
            sources = [it for it, other in data_in.items() if other == kind]
            lines.append(f"{target} := {self.random.choice([*sources, self.number_of(kind)])};")
        lines += self.some([
            "Count := MIN(Count + 1, 20);",
            "IF Count > 3 THEN\n    Flag := NOT Flag; (* over 3 *)\n  ELSE Count := 4;\n  END_IF;",
            "FOR Count := 1 TO 5 DO Row[Count] := INT_TO_UINT(Count) * 2; END_FOR;",
            "CASE Count OF\n  0, 3..5: Flag := FALSE;\n  ELSE\n    Flag := Count >= 7;\n  END_CASE;",
        ])
        return f"ALGORITHM {name} IN ST:\n  " + "\n  ".join(lines) + "\nEND_ALGORITHM\n"

    def composite(self, name):
        out = self.interface(name)
        own = self.types.pop(name)
        kinds = [it for it in self.types if it not in ("E_DELAY", "E_CYCLE")]
        inner = {f"I{at}": self.random.choice(kinds) for at in range(self.random.randint(1, 4))}
        given = {(it, port) for it, kind in inner.items() for port in self.types[kind][2] if self.chance(0.2)}
        out += "FBS\n" + "".join(f"  {it} : {self.cased(kind)}{self.parameters(it, kind, given)};\n" for it, kind in inner.items()) + "END_FBS\n"
        events = [(it, self.input_of(inner)) for it in own[0]]
        events += self.forward(inner)
        events += [(source, it) for it in own[1] for source in [self.output_of(inner)] if source]
        sources = [(it, kind) for it, kind in own[2].items()]
        data = self.data(inner, sources, given)
        for port, kind in own[3].items():
            fitting = [f"{it}.{one}" for it, of in inner.items() for one, other in self.types[of][3].items() if other == kind]
            data += [(self.random.choice(fitting), port)] if fitting else []
        self.parts.append(out + self.connections(events, data) + "END_FUNCTION_BLOCK\n\n")
        self.types[name] = own

    def parameters(self, name, kind, given):
        listed = [f"{it} := {self.number_of(of)}" for it, of in self.types[kind][2].items() if (name, it) in given]
        return f"({', '.join(listed)})" if listed else ""

    def input_of(self, inner):
        name = self.random.choice(list(inner))
        return f"{name}.{self.random.choice(self.types[inner[name]][0])}"

    def output_of(self, inner):
        found = [f"{it}.{one}" for it, kind in inner.items() for one in self.types[kind][1]]
        return self.random.choice(found) if found else None

    def forward(self, inner):
        """Event connections from each instance to later ones, so that most have an end, and now and then one back."""
        names, found = [it for it in inner if self.types[inner[it]][0]], []
        for at, name in enumerate(inner):
            for event in self.types[inner[name]][1]:
                later = [it for it in names if list(inner).index(it) > at or self.chance(0.02)]
                for target in self.random.sample(later, min(len(later), self.random.randint(0, 2))):
                    found.append((f"{name}.{event}", f"{target}.{self.random.choice(self.types[inner[target]][0])}"))
        return list(dict.fromkeys(found))

    def data(self, inner, sources, given):
        """A connection into some data inputs that no parameter sets, from outputs of the same type."""
        sources = sources + [(f"{it}.{one}", of) for it, kind in inner.items() for one, of in self.types[kind][3].items()]
        found = []
        for name, kind in inner.items():
            for port, of in self.types[kind][2].items():
                fitting = [it for it, other in sources if other == of]
                if fitting and self.chance(0.6) and (name, port) not in given:
                    found.append((self.random.choice(fitting), f"{name}.{port}"))
        return found

    def connections(self, events, data):
        out = ""
        for word, declared in (("EVENT_CONNECTIONS", events), ("DATA_CONNECTIONS", data)):
            lines = "".join(f"  {self.cased(one)} TO {self.cased(other)};\n" for one, other in declared)
            out += f"{word}\n{lines}END_CONNECTIONS\n" if declared else ""
        return out

    def device(self, at):
        resources = "".join(self.resource(at, number) for number in range(self.random.randint(1, 2)))
        return f"DEVICE Device_{at}\n{resources}END_DEVICE\n"

    def resource(self, device, number):
        declared, kinds = [], {}
        for it in range(self.random.randint(1, 3)):
            values = [self.random.choice(TYPES) for _ in range(self.random.randint(0, 3))]
            declared.append(f"Sensor_{it} : INPUT{self.listed(values)}(ID := {number * 10 + it});")
            kinds[f"Sensor_{it}"] = ([], ["IND"], {}, {f"RD_{at}": kind for at, kind in enumerate(values, 1)})
        if self.chance(0.6):
            declared.append(f"{self.random.choice(['Begin', 'START'])} : E_RESTART;")
        for it in range(self.random.randint(1, 5)):
            kind = self.random.choice(list(self.types))
            declared.append(f"Block_{it} : {self.cased(kind)};")
            kinds[f"Block_{it}"] = self.types[kind]
        if self.chance(0.5):
            self.channel_end(device, number, declared, kinds)
        for it in range(self.random.randint(0, 2)):
            values = [self.random.choice(TYPES) for _ in range(self.random.randint(0, 2))]
            declared.append(f"Lamp_{it} : OUTPUT{self.listed(values)}(ID := {number * 10 + it});")
            kinds[f"Lamp_{it}"] = (["REQ"], [], {f"SD_{at}": kind for at, kind in enumerate(values, 1)}, {})
        types, self.types = self.types, {**self.types, **{f":{it}": kind for it, kind in kinds.items()}}
        inner = {it: f":{it}" for it in kinds if kinds[it][0] or kinds[it][1]}
        events = self.forward(inner)
        begin = next((it.split(" :")[0] for it in declared if it.endswith(": E_RESTART;")), None)
        targets = [it for it in inner if self.types[inner[it]][0]]
        if begin and targets:
            target = self.random.choice(targets)
            events.append((f"{begin}.COLD", f"{target}.{self.types[inner[target]][0][0]}"))
        data = self.data(inner, [], set())
        self.types = types
        listed = "".join(f"  {it}\n" for it in declared)
        return f"RESOURCE Resource_{number}\nFBS\n{listed}END_FBS\n{self.connections(events, data)}END_RESOURCE\n"

    def channel_end(self, device, number, declared, kinds):
        """An end of channel 5 or 300, which carry the same values everywhere; a device takes each of them once."""
        channel, values = self.random.choice([(5, ["INT"]), (300, ["BOOL", "TIME"]), (7, [])])
        form = ", FORMAT := 2" if channel == 300 else ""
        if device == 0 and number == 0:
            declared.append(f"Sends : PUBLISH{self.listed(values)}(ID := {channel}, QI := TRUE{form});")
            kinds["Sends"] = (["INIT", "REQ"], ["INITO", "CNF"], {f"SD_{at}": kind for at, kind in enumerate(values, 1)}, {"QO": "BOOL"})
        elif number == 0:
            declared.append(f"Hears : SUBSCRIBE{self.listed(values)}(ID := {channel}, QI := TRUE{form});")
            kinds["Hears"] = (["INIT", "RSP"], ["INITO", "IND"], {}, {"QO": "BOOL", **{f"RD_{at}": kind for at, kind in enumerate(values, 1)}})

    def listed(self, values):
        return f"[{', '.join(values)}]" if values else self.random.choice(["", "[]"])


def text(number):
    """The random text of this number."""
    return Maker(number).application()
