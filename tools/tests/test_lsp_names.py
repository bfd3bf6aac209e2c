"""tools/fbr-lsp: what it finds of names: hover, definitions, outline, completion; in texts that are whole, and in texts that are broken."""
import io
import json
import os
import random
import re
import subprocess
import sys
import unittest
import unittest.mock

import parts
from lsp_parts import PLANTS, URI, WithServer, between, in_range, place, plant

sys.path.insert(0, str(parts.TOOLS))

from fbrlsp import actions, checks, completion, documents, faults, hover, outline, program, server, standard, symbols  # noqa: E402

MOTOR = plant("motor_starter")
# A composite in a composite, seven instances of a type, and ports of the composites' own.
NESTED = """FUNCTION_BLOCK COUNT
EVENT_INPUT Up WITH Most; END_EVENT
EVENT_OUTPUT Done WITH Value; END_EVENT
VAR_INPUT Most : INT := 9; END_VAR
VAR_OUTPUT Value : INT; END_VAR
EC_STATES Rests; Counts : Add -> Done; END_STATES
EC_TRANSITIONS Rests TO Counts := Up [Value < Most]; Counts TO Rests := 1; END_TRANSITIONS
ALGORITHM Add IN ST: Value := MIN(Value + 1, 9); END_ALGORITHM
END_FUNCTION_BLOCK
FUNCTION_BLOCK PAIR
EVENT_INPUT Go; END_EVENT
EVENT_OUTPUT Came; END_EVENT
VAR_OUTPUT Sum : INT; END_VAR
FBS One : COUNT; Two : COUNT(Most := 5); END_FBS
EVENT_CONNECTIONS Go TO One.Up; One.Done TO Two.Up; Two.Done TO Came; END_CONNECTIONS
DATA_CONNECTIONS Two.Value TO Sum; END_CONNECTIONS
END_FUNCTION_BLOCK
SYSTEM S DEVICE D RESOURCE R
FBS B : INPUT[INT](ID := 1); P1 : PAIR; P2 : PAIR; P3 : PAIR; Last : COUNT; O : OUTPUT[INT](ID := 1); END_FBS
EVENT_CONNECTIONS B.IND TO P1.Go; P1.Came TO P2.Go; P2.Came TO P3.Go; P3.Came TO Last.Up; Last.Done TO O.REQ; END_CONNECTIONS
DATA_CONNECTIONS B.RD_1 TO Last.Most; Last.Value TO O.SD_1; END_CONNECTIONS
END_RESOURCE END_DEVICE END_SYSTEM
"""


def explained(text):
    """What fbr says of a text."""
    done = subprocess.run([parts.program(), "explain", "-", "--json"], input=text.encode(), capture_output=True)
    return json.loads(done.stdout)


def row(report, table, path):
    """The row of a path in what fbr said."""
    (found,) = (it for it in report[table] if it["path"] == path)
    return found


class Hover(WithServer):
    def test_motor(self):
        """Each kind of name shows its declaration and the numbers that fbr says."""
        report = explained(MOTOR)
        client, _ = self.opened(MOTOR)
        start = "CABINET.DRIVE"

        def cost(table, path):
            found = row(report, table, f"{start}.{path}")
            steps, places = (f"{found[it]} {it[:-1] if found[it] == 1 else it}" for it in ("steps", "places"))
            return f"- {start}.{path}: {'entering it costs ' if table == 'states' else ''}at most {steps}, {places}"

        cases = [
            ("Contacts WITH", ["Contacts WITH Forward_Closed, Reverse_Closed", "event input of REVERSING_STARTER", cost("events", "STARTER.CONTACTS")]),
            ("TO Starter.Forward;", ["Forward\n", "event input of REVERSING_STARTER", cost("events", "STARTER.FORWARD")], 13),
            ("Stopped : Open", ["state of REVERSING_STARTER", cost("states", "STARTER.STOPPED")]),
            ("Forward_Button :", ["Forward_Button : INPUT(ID := 1)", "events out: IND", cost("events", "FORWARD_BUTTON.ARRIVE")]),
            ("Start_Counter :", ["Start_Counter : E_CTU(PV := 1000)", "Starts since the last service", "events in: CU WITH PV; R", "data in: PV : UINT"]),
            ("E_CTU(", ["FUNCTION_BLOCK E_CTU", "standard block", "data out: Q : BOOL; CV : UINT"]),
            ("Start_Counter.CV TO", ["CV : UINT", f"- {start}.START_COUNTER.CV: 0 to 65535"], 15),
            ("(PV :=", ["PV : UINT", "data input of E_CTU", f"- {start}.START_COUNTER.PV: always 1000"], 1),
            ("Overload_Relay :", ["Overload_Relay : INPUT[BOOL](ID := 4)", "events out: IND WITH RD_1", "data out: RD_1 : BOOL"]),
            ("Contactors : OUTPUT", ["events in: REQ WITH SD_1, SD_2", "data in: SD_1 : BOOL; SD_2 : BOOL"]),
            ("Starter.Fault TO", ["Fault : BOOL", "data output of REVERSING_STARTER", "starts at FALSE"], 9),
            (": REVERSING_STARTER;", ["FUNCTION_BLOCK REVERSING_STARTER", "The starter itself.", "data out: Forward_On : BOOL", "instances: 1"], 3),
            ("RESOURCE Drive", ["RESOURCE Drive", "depth of the queue 2; 12 takes each arrival once"], 10),
            ("Overload_Tripped : BOOL", ["data input of REVERSING_STARTER"]),
            ("[Overload_Tripped];\n  Runs_Forward TO Tripped := Contacts", ["data input of REVERSING_STARTER"], 2),
        ]
        for words, wanted, *skip in cases:
            found = client.at("hover", place(MOTOR, words, *skip))
            for it in wanted:
                self.assertIn(it, found["contents"]["value"], words)
        self.assertEqual(found["contents"]["kind"], "markdown")
        self.assertIsNone(client.at("hover", place(MOTOR, "The starter itself")))

    def test_several_instances(self):
        """Of seven instances five are shown, each with its own numbers."""
        report = explained(NESTED)
        self.assertEqual(report["verdict"], "accepted")
        client, _ = self.opened(NESTED)
        value = client.at("hover", place(NESTED, "Up WITH"))["contents"]["value"]
        paths = re.findall(r"- (D\.R\S+UP): at most (\d+) steps?, (\d+) places?", value)
        self.assertEqual(len(paths), 5)
        for path, steps, places in paths:
            found = row(report, "events", path)
            self.assertEqual((found["steps"], found["places"]), (int(steps), int(places)))
        self.assertIn("- and 2 more", value)
        value = client.at("hover", place(NESTED, "One.Up", 4))["contents"]["value"]
        self.assertEqual(re.findall(r"- (\S+): at most", value), ["D.R.P1.ONE.UP", "D.R.P2.ONE.UP", "D.R.P3.ONE.UP"])
        value = client.at("hover", place(NESTED, "Last.Most", 5))["contents"]["value"]
        self.assertIn("- D.R.LAST.MOST: -32768 to 32767", value)
        self.assertNotIn("P1", value)
        value = client.at("hover", place(NESTED, "(Most := 5", 1))["contents"]["value"]
        self.assertIn("- D.R.P1.TWO.MOST: always 5", value)
        self.assertIn("instances: 3", client.at("hover", place(NESTED, "PAIR\n"))["contents"]["value"])
        # A composite's own ports cost nothing: there is no row for them.
        self.assertEqual(client.at("hover", place(NESTED, "Go TO One"))["contents"]["value"], "```fb\nGo\n```\nevent input of PAIR")
        # After a change numbers are those of the text that was accepted.
        client.change(2, {"text": NESTED.replace("Last.Value TO", "Last.Vlaue TO")})
        client.shown(2)
        self.assertIn("When the text was last accepted:\n- D.R.LAST.MOST", client.at("hover", place(NESTED, "Last.Most", 5))["contents"]["value"])

    def test_plain(self):
        """A client that knows no markdown gets plain text."""
        client, _ = self.opened(NESTED, text_document={})
        found = client.at("hover", place(NESTED, "MIN("))["contents"]
        self.assertEqual(found, {"kind": "plaintext", "value": "MIN\nthe lesser of two integers or TIMEs"})


class Places(WithServer):
    def test_definitions(self):
        """Each kind of name leads to where it is declared."""
        client, _ = self.opened(NESTED)
        cases = [
            ("One : COUNT", 7, "COUNT\nEVENT_INPUT"),
            ("One.Done", 1, "One : COUNT"),
            ("One.Done", 5, "Done WITH"),
            ("One.Up", 5, "Up WITH"),
            ("Go TO One", 1, "Go; END_EVENT"),
            ("TO Came", 4, "Came; END_EVENT"),
            ("TO Sum", 4, "Sum : INT"),
            ("(Most := 5", 2, "Most : INT"),
            ("-> Done", 4, "Done WITH"),
            (": Add ->", 3, "Add IN ST"),
            ("Rests TO", 1, "Rests; Counts"),
            ("TO Counts", 4, "Counts : Add"),
            (":= Up [", 4, "Up WITH"),
            ("[Value < Most]", 2, "Value : INT"),
            ("MIN(Value", 5, "Value : INT"),
            ("WITH Most", 6, "Most : INT"),
            ("P2.Came", 1, "P2 : PAIR"),
            ("P2.Came", 4, "Came; END_EVENT"),
            ("B.RD_1", 3, "B : INPUT"),
            ("O.SD_1", 3, "O : OUTPUT"),
            ("Add IN ST", 1, "Add IN ST"),
        ]
        for words, skip, wanted in cases:
            found = client.at("definition", place(NESTED, words, skip))
            self.assertEqual(found["range"]["start"], place(NESTED, wanted), words)
            self.assertEqual(in_range(NESTED, found["range"]), re.match(r"\w+", wanted)[0])
        for words in ("INPUT[INT]", "MIN(", "END_SYSTEM", "9; END_VAR"):
            self.assertIsNone(client.at("definition", place(NESTED, words, 1)), words)

    def test_symbols(self):
        """The outline has the types with what they declare, and the system with its devices, resources and instances."""
        client, _ = self.opened(NESTED)
        found = client.ask("textDocument/documentSymbol", textDocument={"uri": URI})
        self.assertEqual([it["name"] for it in found], ["COUNT", "PAIR", "S"])
        self.assertEqual([it["name"] for it in found[0]["children"]], ["Up", "Done", "Most", "Value", "Rests", "Counts", "Add"])
        self.assertEqual([it["kind"] for it in found[0]["children"]], [24, 24, 8, 8, 22, 22, 12])
        self.assertEqual([it["name"] for it in found[1]["children"]], ["Go", "Came", "Sum", "One", "Two"])
        (device,) = found[2]["children"]
        (resource,) = device["children"]
        self.assertEqual([it["name"] for it in (device, resource)], ["D", "R"])
        self.assertEqual([it["name"] for it in resource["children"]], ["B", "P1", "P2", "P3", "Last", "O"])
        waiting = list(found)
        while waiting:
            it = waiting.pop()
            (start, end), (first, last) = between(NESTED, it["range"]), between(NESTED, it["selectionRange"])
            self.assertTrue(start <= first <= last <= end, it["name"])
            self.assertEqual(NESTED[first:last], it["name"])
            waiting += it["children"]
        flat, _ = self.opened(NESTED, text_document={})
        found = flat.ask("textDocument/documentSymbol", textDocument={"uri": URI})
        self.assertEqual([(it["name"], it["containerName"]) for it in found][-2:], [("Last", "R"), ("O", "R")])


class Completion(WithServer):
    def labels(self, client, text, words):
        """The labels of what can stand at the bar in some words of a text, which is put there without the bar."""
        before = words.replace("|", "")
        at = place(text, before, words.index("|"))
        return [it["label"] for it in client.at("completion", at)]

    def test_each_place(self):
        """At each kind of place there are the names and words that can stand there."""
        client, _ = self.opened(NESTED)
        types = ["COUNT", "PAIR", *(it.head.name for it in standard.standard().blocks)]
        instances = ["B", "P1", "P2", "P3", "Last", "O"]
        cases = {
            "One : |COUNT": types,
            "Two : CO|UNT": types,
            "B : INPUT[|INT]": list(standard.TYPES),
            "(|Most := 5": ["Most"],
            "(|ID := 1); P1": ["ID"],
            "IND TO |P1": instances,
            "P1.Came TO P2.|Go": ["Go"],
            "P1.|Came TO P2": ["Came"],
            "B.|RD_1": ["RD_1"],
            "Value TO O.|SD_1": ["SD_1"],
            "TO Last.|Most": ["Most"],
            "Rests TO |Counts": ["Rests", "Counts"],
            ":= |Up [": ["Up", "1"],
            "Counts : |Add": ["Add"],
            "-> |Done; END_STATES": ["Done"],
            "Up WITH |Most": ["Most"],
            "Done WITH |Value": ["Value"],
            "Value : |INT; END_VAR": list(standard.TYPES),
            "Go |TO One": ["TO"],
            "EVENT_CONNECTIONS |Go TO": ["One", "Two", "Go", "END_CONNECTIONS"],
            "Two.Done TO |Came": ["One", "Two", "Came"],
            "DATA_CONNECTIONS |Two": ["One", "Two", "END_CONNECTIONS"],
            "EC_TRANSITIONS |Rests": ["Rests", "Counts", "END_TRANSITIONS"],
            "RESOURCE R\n|FBS": ["FBS", "EVENT_CONNECTIONS", "DATA_CONNECTIONS", "END_RESOURCE"],
            "SYSTEM S |DEVICE": ["DEVICE", "END_SYSTEM"],
            "END_RESOURCE |END_DEVICE": ["RESOURCE", "END_DEVICE"],
            "END_FUNCTION_BLOCK\n|SYSTEM": ["FUNCTION_BLOCK", "SYSTEM"],
            "FUNCTION_BLOCK PAIR\n|EVENT_INPUT": [*completion.BASIC, *completion.NETWORK, "END_FUNCTION_BLOCK"],
        }
        for words, wanted in cases.items():
            self.assertEqual(self.labels(client, NESTED, words), wanted, words)
        for words in ("[|Value < Most]", "Value := MIN(|Value", "IN ST: |Value"):
            found = self.labels(client, NESTED, words)
            self.assertEqual(found[:2], ["Most", "Value"], words)
            for it in ("MIN", "LIMIT", "DINT_TO_INT", "AND"):
                self.assertIn(it, found, words)
        self.assertIn("IF", self.labels(client, NESTED, "IN ST: |Value"))
        self.assertNotIn("IF", self.labels(client, NESTED, "[|Value < Most]"))
        self.assertEqual(self.labels(client, NESTED, "Most : INT := |9"), ["TRUE", "FALSE"])

    def test_while_typing(self):
        """The names are there while a line is typed and what follows is not separated from it."""
        client = self.server()
        client.open("")
        # What is there, what it becomes, the place in it, what can stand there, and a name of the line below with what declares it.
        cases = [
            ("B.IND TO P1.Go;", "Last.\n  B.IND TO P1.Go;", "Last.|\n", ["Done"], "B.IND", "B : INPUT"),
            ("B.IND TO P1.Go;", "Last.Done TO P2.\n  B.IND TO P1.Go;", "TO P2.|\n", ["Go"], "B.IND", "B : INPUT"),
            ("Counts TO Rests := 1;", "Counts TO \n  Counts TO Rests := 1;", "Counts TO |\n", ["Rests", "Counts"], "Rests := 1", "Rests; Counts"),
            ("Counts TO Rests := 1;", "Counts TO Rests := \n  Counts TO Rests := 1;", "Rests := |\n", ["Up", "1"], "Rests := 1", "Rests; Counts"),
            ("Two : COUNT(Most := 5);", "New : \n Two : COUNT(Most := 5);", "New : |\n", ["COUNT", "PAIR"], "COUNT(Most", "COUNT\nEVENT_INPUT"),
            ("Two : COUNT(Most := 5);", "New : COUNT(\n Two : COUNT(Most := 5);", "New : COUNT(|\n", ["Most"], "COUNT(Most", "COUNT\nEVENT_INPUT"),
            ("Counts : Add -> Done;", "New : -> \n Counts : Add -> Done;", "New : -> |\n", ["Done"], "Add -> Done", "Add IN ST"),
            ("Value : INT; END_VAR\nEC", "Value : INT; New : \nEC", "New : |\n", list(standard.TYPES), "Add -> Done", "Add IN ST"),
        ]
        for version, (old, new, words, wanted, used, declared) in enumerate(cases, 2):
            self.assertEqual(NESTED.count(old), 1, old)
            text = NESTED.replace(old, new)
            client.change(version, {"text": text})
            self.assertEqual(self.labels(client, text, words)[: len(wanted)], wanted, new)
            # Names below the line and names that are declared elsewhere are still found.
            for name, of in ((used, declared), ("Came TO P2", "Came; END_EVENT")):
                found = client.at("definition", place(text, name))
                self.assertIsNotNone(found, new)
                self.assertEqual(found["range"]["start"], place(text, of), new)

    def test_nothing_in_comments(self):
        """In a comment and in a number nothing is offered."""
        text = "(* a *)" + NESTED
        client, _ = self.opened(text)
        self.assertEqual(self.labels(client, text, "(* a| *)"), [])
        self.assertEqual(self.labels(client, text, "INT := 9|;"), [])


class Scanner(parts.Folder):
    """The modules without a server."""

    def test_standard_types(self):
        """The ports of the event blocks are those that the program declares, and those of the services are in the table of docs/LANGUAGE.md."""
        source = outline.read((parts.TOP / "crates/fb_types_events/src/library.rt").read_text(encoding="utf-8"))
        page = (parts.TOP / "docs/LANGUAGE.md").read_text(encoding="utf-8")
        services = page.partition("## Services")[2].partition("\n## ")[0]
        rows = dict(re.findall(r"^\| `([A-Z_]+)[^|]*` \| ([^|]*) \|", services, re.M))
        there = {it.head.name: it for it in standard.standard().blocks}
        self.assertEqual(set(there), {it.head.name for it in source.blocks} | set(rows))
        for block in source.blocks:
            self.assertEqual(ports_of_block(there[block.head.name]), ports_of_block(block), block.head.name)
        for name, cell in rows.items():
            block = there[name]
            values, kind, carrier = standard.VALUES.get(name, ("", "", ""))
            shown = [it.name + (f" WITH {', '.join(it.carries)}" if it.carries else "") for it in block.declared if it.kind.startswith("event")]
            shown = [f"{it}{',' if ' WITH ' in it else ' WITH'} {values}1.." if it.split()[0] == carrier else it for it in shown]
            sides = [it.split(", ") for it in cell.split("; ")]
            self.assertEqual(sorted(", ".join(shown).split(", ")), sorted(it.strip() for side in sides for it in side), name)

    def test_parameters(self):
        """Each data input of a standard block, and each number of a service, is taken by fbr as a parameter."""
        for block in standard.standard().blocks:
            for port in block.all_of("input"):
                value = {"BOOL": "TRUE", "UINT": "1", "TIME": "T#1s"}[port.of_type]
                number = "ID := 1, " if block.head.name in standard.NUMBERED else ""
                values = "[INT]" if block.head.name in standard.VALUES else ""
                instance = f"X : {block.head.name}{values}({number}{port.name} := {value});"
                text = f"SYSTEM S DEVICE D RESOURCE R FBS {instance} END_FBS END_RESOURCE END_DEVICE END_SYSTEM"
                self.assertEqual(explained(text)["verdict"], "accepted", text)

    def test_functions(self):
        """Each function that is offered is one that fbr knows."""
        variables = " ".join(f"V_{it} : {it};" for it in standard.TYPES)
        statements = [f"V_{it.partition('_TO_')[2]} := {it}(V_{it.partition('_TO_')[0]});" for it in standard.conversions()]
        statements += ["V_INT := MIN(V_INT, 1);", "V_INT := MAX(V_INT, 1);", "V_INT := LIMIT(0, V_INT, 1);", "V_INT := ABS(V_INT);"]
        text = f"""FUNCTION_BLOCK A EVENT_INPUT E; END_EVENT VAR {variables} END_VAR EC_STATES S; T : G; END_STATES
            EC_TRANSITIONS S TO T := E; T TO S := 1; END_TRANSITIONS ALGORITHM G IN ST: {" ".join(statements)} END_ALGORITHM END_FUNCTION_BLOCK
            SYSTEM S DEVICE D RESOURCE R FBS X : A; END_FBS END_RESOURCE END_DEVICE END_SYSTEM"""
        self.assertEqual(explained(text)["verdict"], "accepted", explained(text).get("found"))
        self.assertEqual(set(standard.FUNCTIONS), {"MIN", "MAX", "LIMIT", "ABS"})

    def test_plants(self):
        """Each name that a plant uses is found, and stands for a declaration of this name."""
        for name in PLANTS:
            text = plant(name)
            found = outline.read(text)
            for used in found.references:
                meaning = symbols.meaning_at(found, used.start)
                self.assertIsNotNone(meaning, (name, used))
                self.assertEqual(meaning.declaration.key, used.name)

    def test_paths(self):
        """Each path of the certificate of a plant is that of a name of its outline."""
        for name in PLANTS:
            text = plant(name)
            found, report = outline.read(text), explained(text)
            for table in ("events", "states", "ranges"):
                for it in report[table]:
                    declared = faults.place_of_path(found, it["path"])
                    parts_of = it["path"].split(".")
                    standard_last = declared.key == parts_of[-2] and declared.kind == "instance"
                    self.assertTrue(declared.key == parts_of[-1] or standard_last, it["path"])

    def test_each_word_is_offered(self):
        """If a name that is used or a keyword is taken out of a text, it is among the words that are offered there."""
        for text in [NESTED, *(plant(it) for it in PLANTS if os.environ.get("LONG"))]:
            found = outline.read(text)
            keywords = [(it.start, it.end, it.word) for it in found.tokens if it.kind == "reserved"]
            for start, end, name in keywords + [it[:3] for it in found.references]:
                document = documents.Document(URI, 1, text[:start] + text[end:])
                offered = {it["label"].upper() for it in completion.completion(document, start)}
                self.assertIn(name, offered, text[:start][-60:])

    def test_broken_texts(self):
        """In texts that were broken anywhere all questions are answered, and places are places of the text."""
        seeded = random.Random(64)
        pieces = "; (* *) END_VAR FUNCTION_BLOCK VAR . : := [ ( 🙂 ALGORITHM FBS RESOURCE WITH TO ->".split() + ["", "\r", "\u2028"]
        for turn in range(200 if os.environ.get("LONG") else 40):
            text = seeded.choice([NESTED, MOTOR, plant("tank")])
            for _ in range(seeded.randint(1, 6)):
                start = seeded.randrange(len(text))
                text = text[:start] + seeded.choice(pieces) + text[start + seeded.choice([0, 1, 5, 40, 400]) :]
            document = documents.Document(URI, 1, text)
            document.report = explained(NESTED)
            for _ in range(20):
                self.ask_all(document, seeded.randint(0, len(text)))
            for it in symbols.flat(URI, symbols.symbols(document)):
                start, end = it["location"]["range"]["start"], it["location"]["range"]["end"]
                self.assertLessEqual(document.offset(start), document.offset(end), turn)
                named = document.text[document.offset(start) : document.offset(end)]
                self.assertEqual(named or "?", it["name"])

    def ask_all(self, document, offset):
        """Asks about a place whatever can be asked."""
        self.assertEqual(document.offset(document.position(offset)), offset if document.text[offset - 1 : offset + 1] != "\r\n" else offset - 1)
        hover.hover(document, offset, True)
        symbols.definition(document, offset)
        for it in completion.completion(document, offset):
            self.assertTrue(it["label"])
        shown = faults.shown_of(document, [{"verdict": "refused", "number": 2, "place": {"byte": len(documents.bytes_of(document.text[:offset]))}}], {})
        self.assertEqual(shown[0].start, offset)
        document.shown = shown
        actions.actions(document, shown[0].diagnostic["range"])

    def test_edits(self):
        """A document that was edited by ranges has the text that a plain edit makes, and the lines of that."""
        seeded = random.Random(3)
        for _ in range(60):
            text = "".join(seeded.choice(["a", "ä", "🙂", "\n", "\r", "\r\n", "bc", "\u2028", "\x0b"]) for _ in range(seeded.randint(0, 30)))
            document = documents.Document(URI, 1, text)
            for _ in range(10):
                start, end = sorted(seeded.randint(0, len(text)) for _ in range(2))
                # A place within a line end is none of LSP.
                start, end = (it - (text[it - 1 : it + 1] == "\r\n") for it in (start, end))
                put = "".join(seeded.choice(["x", "ü", "🙂", "\n", "\r", "\r\n"]) for _ in range(seeded.randint(0, 4)))
                document.replace({"start": document.position(start), "end": document.position(end)}, put)
                text = text[:start] + put + text[end:]
                self.assertEqual(document.text, text)
                self.assertEqual(document.lines, documents.lines_of(text))
                for offset in range(len(text) + 1):
                    self.assertEqual(document.offset_of_byte(len(text[:offset].encode())), offset)

    def test_when(self):
        """A text is checked a moment after its last change, while it is typed without a pause some time after the first one, and at once if it is new."""
        now, started = [100.0], []

        class Still(checks.Checks):
            def run(self, uri, version, text):
                started.append((uri, version, now[0]))
                return unittest.mock.Mock()

        waiting = Still(None, None, lambda: now[0])
        waiting.changed("new", is_new=True)
        waiting.changed("typed")
        self.assertEqual(waiting.wait(), 0)
        for _ in range(20):
            waiting.start_due(lambda uri: (uri, b""))
            now[0] += 0.04
            waiting.changed("typed")
        self.assertEqual([it[0] for it in started], ["new", "typed", "typed"])
        self.assertEqual(started[0][2], 100.0)
        for before, after in zip(started, started[1:]):
            # A change comes each 40 ms, and its run begins at one.
            self.assertTrue(checks.LATEST <= after[2] - before[2] <= checks.LATEST + 0.09)
        self.assertAlmostEqual(waiting.wait(), checks.QUIET)
        run = waiting.runs["new"]
        waiting.closed("new")
        run.overtake.assert_called_once()
        waiting.closed("typed")
        self.assertIsNone(waiting.wait())

    def test_removes_no_name_that_is_used(self):
        """A variable that is named somewhere is not removed, whatever a note says of it."""
        text = NESTED.replace("EC_STATES Rests", "VAR Spare : INT; END_VAR EC_STATES Rests").replace("IN ST: Value", "IN ST: Value := Spare; Value")
        for words, wanted in ((text, []), (text.replace("Value := Spare;", ""), ["remove Spare, which is never used"])):
            document = documents.Document(URI, 1, words)
            note = {"name": "never-used", "place": {"byte": words.index("Spare : INT")}, "says": "SPARE of COUNT is never used"}
            document.shown = faults.shown_of(document, [{"verdict": "accepted", "notes": [note]}], {})
            self.assertEqual([it["title"] for it in actions.actions(document, document.shown[0].diagnostic["range"])], wanted)

    def test_answers_that_are_late(self):
        """What fbr says of a version that is no more, or of a text that is closed, is not shown."""
        out = io.BytesIO()
        made = server.Server(io.BytesIO(), out, None)
        made.checks.run = lambda *_: unittest.mock.Mock()
        made.message({"id": 1, "method": "initialize", "params": {}})
        made.message({"method": "textDocument/didOpen", "params": {"textDocument": {"uri": URI, "version": 1, "text": "A"}}})
        made.checks.start_due(made.text_of)
        document, answer = made.documents[URI], program.Answer([{"verdict": "refused", "number": 2, "place": {"byte": 0}}])
        first = server.Told(URI, (document, 1), answer)
        edit = {"textDocument": {"uri": URI, "version": 2}, "contentChanges": [{"text": "B"}]}
        made.message({"method": "textDocument/didChange", "params": edit})
        made.handle(first)
        made.checks.waiting[URI] = (0, 0)
        made.checks.start_due(made.text_of)
        made.handle(first)
        self.assertNotIn(b"publishDiagnostics", out.getvalue())
        made.handle(server.Told(URI, (document, 2), answer))
        self.assertIn(b'"version":2', out.getvalue())
        made.message({"method": "textDocument/didClose", "params": {"textDocument": {"uri": URI}}})
        before = out.getvalue()
        made.handle(server.Told(URI, (document, 2), answer))
        self.assertEqual(out.getvalue(), before)

    def test_names_that_loop(self):
        """Composites that contain themselves, and very many instances, end."""
        inner = " ".join(f"X{it} : A;" for it in range(40))
        text = f"FUNCTION_BLOCK A FBS Z : B; {inner} END_FBS FUNCTION_BLOCK B SYSTEM S DEVICE D RESOURCE R FBS Y : A; END_FBS"
        document = documents.Document(URI, 1, text)
        value = hover.hover(document, text.index("B;"), True)["contents"]["value"]
        self.assertRegex(value, r"instances: [0-9]+ at least\n- D\.R\.Y\.Z\n- D\.R\.Y\.X0\.Z\n")


def ports_of_block(block):
    """The ports of a block type, with what events are WITH."""
    return [(it.kind, it.key, [name.upper() for name in it.carries], it.of_type) for it in block.all_of("event input", "event output", "input", "output")]


if __name__ == "__main__":
    unittest.main()
