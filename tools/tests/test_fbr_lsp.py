"""tools/fbr-lsp: messages through pipes, with the real program; a script stands for it where it is to fail or to be slow."""
import json
import os
import re
import sys
import time
import unittest

import parts
from fbrlsp import checks, program
from lsp_parts import PATIENCE, PLANTS, URI, Client, WithServer, accepted, edited, framed, in_range, place, plant

MOTOR = plant("motor_starter")
RING = (parts.TOP / "examples/wrong/ring/ring.fb").read_text(encoding="utf-8")
LOOP = (parts.TOP / "examples/wrong/loop/loop.fb").read_text(encoding="utf-8")
SMALL = """FUNCTION_BLOCK BLINK
EVENT_INPUT Beat; END_EVENT
EVENT_OUTPUT Changed WITH Lit; END_EVENT
VAR_OUTPUT Lit : BOOL; END_VAR
VAR
  Left, Unused, Right : INT;
  Alone : INT; (* nothing names it *)
  Count : INT;
END_VAR
EC_STATES
  Rests;
  Turns : Turn -> Changed;
END_STATES
EC_TRANSITIONS
  Rests TO Turns := Beat;
  Turns TO Rests := 1;
END_TRANSITIONS
ALGORITHM Turn IN ST:
  Lit := NOT Lit;
  Count := Count + 1;
  Left := Right;
  Right := Left;
END_ALGORITHM
END_FUNCTION_BLOCK
SYSTEM Lamps DEVICE Panel RESOURCE Blinking
FBS
  Clock : E_CYCLE(DT := 500);
  Start : E_RESTART;
  Blink : BLINK;
  Lamp : OUTPUT[BOOL](ID := 1);
END_FBS
EVENT_CONNECTIONS
  Start.COLD TO Clock.START;
  Clock.EO TO Blink.Beat;
  Blink.Changed TO Lamp.REQ;
END_CONNECTIONS
DATA_CONNECTIONS
  Blink.Lit TO Lamp.SD_1;
END_CONNECTIONS
END_RESOURCE END_DEVICE END_SYSTEM
"""


def codes(shown, severity):
    """The codes of the diagnostics of a severity."""
    return [it["code"] for it in shown if it["severity"] == severity]


class Protocol(WithServer):
    def test_life(self):
        """It answers requests from `initialize` to `shutdown`, and ends with 0 after it."""
        client = self.server(starts=False)
        self.assertEqual(client.answer("textDocument/hover")["error"]["code"], -32002)
        found = client.start()
        self.assertEqual(found["capabilities"]["textDocumentSync"], {"openClose": True, "change": 2})
        self.assertEqual(client.answer("initialize", capabilities={})["error"]["code"], -32600)
        self.assertEqual(client.answer("textDocument/rename")["error"]["code"], -32601)
        self.assertEqual(client.answer("$/unknown")["error"]["code"], -32601)
        client.tell("$/unknown")
        client.tell("workspace/didChangeConfiguration", settings={})
        self.assertIsNone(client.ask("shutdown"))
        self.assertEqual(client.answer("textDocument/hover")["error"]["code"], -32600)
        client.tell("exit")
        self.assertEqual(client.job.wait(PATIENCE), 0)

    def test_ends(self):
        """It ends with 1 if it is told to without `shutdown`, or if the client goes; with 2 if the words are at fault."""
        client = self.server()
        client.tell("exit")
        self.assertEqual(client.job.wait(PATIENCE), 1)
        client = self.server()
        client.job.stdin.close()
        self.assertEqual(client.job.wait(PATIENCE), 1)
        done = parts.run(sys.executable, parts.TOOLS / "fbr-lsp", "--tcp")
        self.assertEqual((done.returncode, done.stdout, done.stderr), (2, "", "usage: fbr-lsp [--fbr PATH] [--with FILE]..\n"))
        self.assertEqual(parts.run(sys.executable, parts.TOOLS / "fbr-lsp", "--help").returncode, 0)

    def test_malformed(self):
        """What is no message is answered by an error or left, and what follows it is answered."""
        client = self.server()
        cases = [
            (framed(b"{"), -32700),
            (framed(b"\xff\xfe"), -32700),
            (framed(b"[" * 200000), -32700),
            (framed([1]), -32600),
            (framed({"id": 7}), -32600),
            (b"Content-Length: many\r\n\r\n", -32700),
            (b"Content-Type: text\r\n\r\n", -32700),
            (b"\x00\x01\x02 nothing\r\n\r\n", -32700),
            (b"Content-Length: -5\r\n\r\n", -32700),
        ]
        for data, code in cases:
            client.put(data)
            self.assertEqual(client.next(lambda it: "error" in it and it["id"] is None)["error"]["code"], code, data[:40])
        # What is left of a message without a length is passed, and the next message is read.
        client.put(b'Content-Length: none\r\n\r\n{"id": 1, "method": "shutdown"}')
        self.assertEqual(client.next(lambda it: "error" in it and it["id"] is None)["error"]["code"], -32700)
        self.assertEqual(client.answer("textDocument/rename")["error"]["code"], -32601)
        client.put(framed({"id": 1, "result": 4}))
        client.put(framed({"method": "textDocument/didOpen", "params": [1]}))
        self.assertIn("didOpen", client.notified("window/logMessage")["message"])
        client.put(framed({"method": 5}))
        for params in ({}, {"textDocument": {"uri": URI}}, {"textDocument": {"uri": URI, "text": 4}}):
            client.tell("textDocument/didOpen", **params)
            self.assertIn("didOpen", client.notified("window/logMessage")["message"])
        client.open(SMALL)
        client.shown()
        for position in (None, 5, {"line": -1, "character": 0}, {"line": 0}, {"line": True, "character": 1}, {"line": 1.5, "character": 1}):
            self.assertEqual(client.answer("textDocument/hover", textDocument={"uri": URI}, position=position)["error"]["code"], -32602)
        self.assertEqual(client.answer("textDocument/hover", textDocument={"uri": "file:///other"}, position={})["error"]["code"], -32602)
        self.assertEqual(client.answer("textDocument/codeAction", textDocument={"uri": URI})["error"]["code"], -32602)
        client.change(2, {"range": {"start": 4}, "text": "x"})
        self.assertIn("didChange", client.notified("window/logMessage")["message"])
        self.assertIsNone(client.at("hover", {"line": 10**9, "character": 10**9}))
        self.assertEqual(client.end(), 0)
        self.assertEqual(client.said, b"")


class Diagnostics(WithServer):
    def test_fault_and_mended(self):
        """A fault is shown at its token in the words of fbr, and is gone after it was mended."""
        wrong = MOTOR.replace("TO Starter.Forward;", "TO Starter.Forwrad;")
        client, shown = self.opened(wrong)
        (fault,) = shown
        byte = wrong.encode().index(b"Forwrad")
        self.assertEqual((fault["severity"], fault["code"], fault["source"]), (1, f"10 {byte}", "fbr"))
        self.assertEqual(in_range(wrong, fault["range"]), "Forwrad")
        says = "STARTER has no event input FORWRAD; did you mean FORWARD?\nthis name stands for nothing here\nWhat to do: write FORWARD"
        self.assertEqual(fault["message"], says)
        client.change(2, {"range": fault["range"], "text": "Forward"})
        mended = client.shown(2)
        self.assertEqual(codes(mended, 1), [])
        self.assertEqual(codes(mended, 4), ["shallow-queue"])
        client.change(3, {"range": {"start": {"line": 0, "character": 0}, "end": {"line": 0, "character": 0}}, "text": "%"})
        self.assertEqual(codes(client.shown(3), 1), ["1 0"])
        client.tell("textDocument/didClose", textDocument={"uri": URI})
        self.assertEqual(client.notified("textDocument/publishDiagnostics"), {"uri": URI, "diagnostics": []})
        self.assertEqual(client.end(), 0)

    def test_units(self):
        """Places are counted in UTF-16 code units, behind umlauts and emoji and with each kind of line end."""
        for end in ("\n", "\r\n"):
            with self.subTest(end=end):
                wrong = SMALL.replace("Lit := NOT Lit;", "(* Grüße 🙂🙂 *) Lit := NOT Lti; (* ä *)").replace("\n", end)
                client, shown = self.opened(wrong)
                (fault,) = (it for it in shown if it["severity"] == 1)
                column = len("  (* Grüße ") + 4 + len(" *) Lit := NOT ")
                line = wrong[: wrong.index("Lti")].count("\n")
                self.assertEqual(fault["range"], {"start": {"line": line, "character": column}, "end": {"line": line, "character": column + 3}})
                self.assertEqual(fault["code"], f"10 {wrong.encode().index(b'Lti')}")
                # An edit behind the emoji hits the same place.
                client.change(2, {"range": fault["range"], "text": "Lit"})
                self.assertEqual(codes(client.shown(2), 1), [])
                found = client.at("definition", {"line": line, "character": column + 1})
                self.assertEqual(in_range(SMALL, found["range"]), "Lit")

    def test_ends_of_text(self):
        """A text that ends too soon, an empty one, and one with half of a surrogate pair have a fault."""
        client, shown = self.opened("SYSTEM S DEVICE D")
        self.assertEqual(shown[0]["range"]["start"], {"line": 0, "character": 17})
        client.change(2, {"text": ""})
        self.assertEqual(codes(client.shown(2), 1), ["2 0"])
        client.change(3, {"text": "(* \ud83d *)"})
        self.assertEqual(codes(client.shown(3), 1), ["61 -"])
        self.assertEqual(client.end(), 0)

    def test_notes(self):
        """Notes are hints with their names, at their places."""
        _, shown = self.opened(SMALL)
        self.assertEqual(codes(shown, 1), [])
        found = {it["code"]: in_range(SMALL, it["range"]) for it in shown if it["severity"] == 4}
        self.assertEqual(found["time-without-unit"], "500")
        self.assertEqual(found["arithmetic-may-wrap"], "+")
        self.assertEqual([in_range(SMALL, it["range"]) for it in shown if it["code"] == "never-used"], ["Unused", "Alone"])

    def test_all_faults(self):
        """Faults of several declarations are shown at once, in the order of the text, and none that only follows from another one."""
        changes = {
            "Turns TO Rests := 1;": "Turns TO Rest := 1;",
            "Lit := NOT Lit;": "Lit := NOT Lti;",
            "Clock : E_CYCLE(DT := 500);": "Clock : E_CYCLE(DT := 500)",
            "Blink.Lit TO": "Blink.Lid TO",
        }
        wrong = SMALL
        for right, instead in changes.items():
            wrong = wrong.replace(right, instead)
        client, shown = self.opened(wrong)
        self.assertEqual([it["code"].split()[0] for it in shown], ["10", "10", "2", "10"])
        self.assertEqual([in_range(wrong, it["range"]) for it in shown if it["code"].startswith("10")], ["Rest", "Lti", "Lid"])
        # One is mended, and the others stay.
        client.change(2, {"text": wrong.replace("Lti", "Lit")})
        self.assertEqual([it["code"].split()[0] for it in client.shown(2)], ["10", "2", "10"])

    def test_walk(self):
        """A walk is shown where it begins, with its steps beside it, or in the message."""
        _, shown = self.opened(LOOP)
        (fault,) = shown
        self.assertEqual(fault["code"], "43 SHOP.LINE.FEEDER.FEEDS")
        self.assertEqual(in_range(LOOP, fault["range"]), "Feeder")
        related = [(in_range(LOOP, it["location"]["range"]), it["message"]) for it in fault["relatedInformation"]]
        self.assertEqual(related[0], ("Feeds", "SHOP.LINE.FEEDER.FEEDS emits FED, which leads to SHOP.LINE.PRESS.WORK"))
        self.assertEqual(related[1], ("Work", "SHOP.LINE.PRESS.WORK has a transition to PRESSES"))
        self.assertEqual(len(related), 5)
        _, shown = self.opened(LOOP, text_document={})
        self.assertNotIn("relatedInformation", shown[0])
        self.assertIn("\nline 13: SHOP.LINE.FEEDER.FEEDS emits FED", shown[0]["message"])

    def test_each_wrong_plant(self):
        """Each plant of examples/wrong that is refused without --repeats is refused at a place of its text."""
        found = {}
        for file in sorted((parts.TOP / "examples/wrong").glob("*/*.fb")):
            text = file.read_text(encoding="utf-8")
            if file.stem != "mended" and not accepted(text):
                _, shown = self.opened(text)
                found[file.stem] = (shown[0]["code"].split()[0], in_range(text, shown[0]["range"]))
        self.assertEqual(
            found,
            {"division": ("44", "/"), "flood": ("19", "Test_Button"), "index": ("44", "["), "loop": ("43", "Feeder"), "wrong_type": ("12", "TO")},
        )


class Program(WithServer):
    """What the server does with the program, for which a script stands."""

    def test_several_faults(self):
        """All faults that the program tells are shown, from a list or a line each; it is asked for all if it can tell them."""
        fault = {"number": 10, "line": "refused 10 0", "subject": "0", "found": "A", "says": "B", "remedies": ["C"], "place": {"byte": 0}}
        other = dict(fault, subject="7", place={"byte": 7})
        listed = {"verdict": "refused", **fault, "faults": [fault, other]}
        lines = [{"verdict": "refused", **fault}, {"verdict": "refused", **other}]
        for printed in ([listed], lines):
            said = "\n".join(json.dumps(it) for it in printed)
            script = self.stand_in(
                '[ "$2" = --help ] && echo "  --all  all faults" && exit',
                '[ "$*" = "explain - --json --all" ] || exit 3',
                f"cat > /dev/null; cat <<'END'\n{said}\nEND\nexit 2",
            )
            client = self.server("--fbr", script)
            client.open("FIRST; SECOND")
            shown = client.shown()
            self.assertEqual([it["code"] for it in shown], ["10 0", "10 7"])
            self.assertEqual([in_range("FIRST; SECOND", it["range"]) for it in shown], ["FIRST", "SECOND"])
            self.assertEqual(shown[0]["message"], "A\nB\nWhat to do: C")

    def test_types_of_files(self):
        """Files of block types are named to the program, but for the text's own; what is in them is told by their names, and their notes are not."""
        fault = {"verdict": "refused", "number": 11, "subject": "3 a.fb", "found": "A", "says": "B", "place": {"file": "a.fb", "byte": 3, "line": 1, "column": 4}}
        note = {"name": "never-used", "says": "C", "place": {"file": "a.fb", "byte": 2, "line": 1, "column": 3}}
        own = dict(note, says="D", place={"file": "-", "byte": 2})
        script = self.stand_in(
            '[ "$2" = --help ] && exit',
            '[ "$*" = "explain - --json --with a.fb --with b.fb" ] || exit 3',
            f"cat > /dev/null; echo '{json.dumps(fault)}'; echo '{json.dumps({'verdict': 'accepted', 'notes': [note, own]})}'",
        )
        client = self.server("--with", "a.fb", "--fbr", script, "--with", "b.fb")
        client.open("A B")
        shown = client.shown()
        self.assertEqual([(it["code"], it["message"]) for it in shown], [("11 3", "a.fb:1:4: A\nB"), ("never-used", "D")])
        self.assertEqual(in_range("A B", shown[1]["range"]), "B")

    def test_own_types(self):
        """The file of the text itself is not put before it."""
        asked = program.Program("fbr", ["/a/x.fb", "/a/y.fb"])
        self.assertEqual(asked.words_with("/a/./x.fb"), ["--with", "/a/y.fb"])
        self.assertEqual(asked.words_with(None), ["--with", "/a/x.fb", "--with", "/a/y.fb"])
        self.assertEqual([checks.file_of(it) for it in ("file:///a/x%20y.fb", "untitled:1", "")], ["/a/x y.fb", None, None])

    def test_more_notes(self):
        """How many more places there are at which arithmetic may wrap is told at the last one."""
        note = {"name": "arithmetic-may-wrap", "place": {"byte": 2}, "says": "it may wrap"}
        said = json.dumps({"verdict": "accepted", "notes": [note], "warnings": [], "more_notes": 3})
        client = self.server("--fbr", self.stand_in(f"cat > /dev/null; echo '{said}'"))
        client.open("A B")
        self.assertEqual([it["message"] for it in client.shown()], ["it may wrap", "there are 3 more places at which arithmetic may wrap"])

    def test_missing(self):
        """That there is no program is told once, with what to do, and the server goes on."""
        client = self.server("--fbr", self.folder / "nothing")
        client.open(SMALL)
        says = client.notified("window/showMessage")
        self.assertEqual(says["type"], 1)
        for words in ("nothing is no program", "--fbr PATH", "FBR in the environment", "on the PATH"):
            self.assertIn(words, says["message"])
        self.assertEqual(client.shown(), [])
        client.change(2, {"text": SMALL + " "})
        self.assertEqual(client.shown(2), [])
        self.assertEqual(client.at("definition", place(SMALL, "Blink.Lit", 7))["uri"], URI)
        self.assertEqual(client.end(), 0)
        self.assertNotIn("window/showMessage", [it.get("method") for it in client.waiting])

    def test_crash(self):
        """A crash of the program is told, the text is not shown as right, and the next answer is shown."""
        other = json.dumps({"verdict": "accepted", "notes": [{"place": 4, "name": {}}], "more_notes": 1, "warnings": 7})
        script = self.slowed(f"*CRASH*) kill -SEGV $$ ;; *MUTE*) echo gone >&2; exit 5 ;; *OTHER*) echo '{other}'; exit ;;")
        client = self.server("--fbr", script)
        client.open("CRASH")
        self.assertIn("fbr was ended by SIGSEGV", client.notified("window/showMessage")["message"])
        (shown,) = client.shown()
        self.assertEqual((shown["severity"], shown["code"]), (1, "no-answer"))
        client.change(2, {"text": "MUTE"})
        self.assertEqual(client.notified("window/showMessage")["message"], "fbr-lsp: fbr answered no JSON and ended with 5: gone")
        client.shown(2)
        client.change(3, {"text": "OTHER"})
        self.assertIn("fbr answered JSON of another form", client.notified("window/showMessage")["message"])
        self.assertEqual(codes(client.shown(3), 1), ["no-answer"])
        client.change(4, {"text": SMALL})
        self.assertEqual(codes(client.shown(4), 1), [])
        self.assertEqual(client.end(), 0)

    def test_overtaken(self):
        """A run that was overtaken is killed, and what it says is not shown."""
        script = self.slowed(f"*SLOW*) echo $$ > {self.folder}/pid; exec sleep 600 ;;")
        client = self.server("--fbr", script)
        client.open("SLOW")
        number = self.when(lambda: (self.folder / "pid").read_text().strip())
        client.change(2, {"text": SMALL})
        self.assertEqual(codes(client.shown(2), 1), [])
        self.when(lambda: not os.path.exists(f"/proc/{number}"))
        client.change(3, {"text": "SLOW"})
        (self.folder / "pid").unlink()
        number = self.when(lambda: (self.folder / "pid").read_text().strip())
        self.assertEqual(client.end(), 0)
        self.when(lambda: not os.path.exists(f"/proc/{number}"))
        self.assertEqual([it["params"]["version"] for it in client.waiting if "version" in it.get("params", {})], [])

    def slowed(self, cases):
        """A program that does something else for some texts, and asks the real one about the others."""
        ask = f'text=$(cat); case "$text" in {cases} esac; printf %s "$text" | {parts.program()} "$@"'
        return self.stand_in('[ "$2" = --help ] && exit', ask)

    def when(self, condition):
        """What a condition gives as soon as it gives something."""
        end = time.monotonic() + PATIENCE
        while time.monotonic() < end:
            try:
                if found := condition():
                    return found
            except OSError:
                pass
            time.sleep(0.01)
        self.fail("it never came")

    def test_flood(self):
        """Of a flood of changes the last text is checked, and few of those between."""
        script = self.stand_in('[ "$2" = --help ] && exit', f"echo >> {self.folder}/runs", f'exec {parts.program()} "$@"')
        client = self.server("--fbr", script)
        text = SMALL.replace("Beat;", "Beta;", 1)
        client.open(text)
        client.shown()
        end = place(SMALL, "END_SYSTEM\n", 11)
        for version in range(2, 2002):
            put = {"range": {"start": end, "end": end}, "text": "x" if version % 2 == 0 else ""}
            rest = {"range": {"start": end, "end": {"line": end["line"] + 1, "character": 0}}, "text": ""}
            client.change(version, put, rest)
        self.assertEqual(codes(client.shown(2001), 1), [f"10 {text.index('Beat;')}"])
        start = place(text, "Beta;")
        client.change(2002, {"range": {"start": start, "end": dict(start, character=start["character"] + 4)}, "text": "Beat"})
        self.assertEqual(codes(client.shown(2002), 1), [])
        self.assertLess((self.folder / "runs").read_text().count("\n"), 500)

    def test_large(self):
        """A text of several megabytes is refused by the program, and names in it are still found."""
        large = "(* " + "x" * 5_000_000 + " *)\n" + SMALL + "(* 🙂 " + "y\n" * 200_000 + "*)\n"
        client, shown = self.opened(large)
        self.assertEqual(codes(shown, 1), ["4"])
        self.assertEqual(in_range(large, client.at("definition", place(large, "Blink.Lit", 7))["range"]), "Lit")
        self.assertEqual(len(client.ask("textDocument/documentSymbol", textDocument={"uri": URI})), 2)
        client.change(2, {"range": {"start": {"line": 0, "character": 3}, "end": {"line": 0, "character": 5_000_003}}, "text": "short"})
        self.assertEqual(codes(client.shown(2), 1), [])
        client.change(3, {"text": "(*" * 200_000 + " " * 1_000_000})
        self.assertEqual(codes(client.shown(3), 1), ["4"])
        self.assertEqual(client.ask("textDocument/documentSymbol", textDocument={"uri": URI}), [])
        self.assertEqual(client.end(), 0)

    def test_times(self):
        """How long it takes from a change to its diagnostics, for each plant: the times are printed, and judged with --long alone."""
        client = self.server()
        for name in PLANTS:
            text, uri = plant(name), f"file:///{name}.fb"
            client.open(text, uri)
            client.shown()
            took = []
            for version in range(2, 12):
                start = time.monotonic()
                client.change(version, {"text": text + " " * version}, uri=uri)
                client.shown(version)
                took.append(1000 * (time.monotonic() - start))
            print(f"{name}: {min(took):.0f} to {max(took):.0f} ms from a change to its diagnostics", file=sys.stderr)
            if os.environ.get("LONG"):
                self.assertLess(min(took), 200, name)
        self.assertEqual(client.end(), 0)


class Extension(unittest.TestCase):
    """editors/vscode, which no test can run: what its files name is there."""

    def test_names(self):
        folder = parts.TOP / "editors/vscode"
        said = json.loads((folder / "package.json").read_text(encoding="utf-8"))
        json.loads((folder / "language-configuration.json").read_text(encoding="utf-8"))
        program = (folder / said["main"]).read_text(encoding="utf-8")
        contributes = said["contributes"]
        self.assertEqual(said["activationEvents"], [f"onLanguage:{contributes['languages'][0]['id']}"])
        self.assertEqual({f"fbr.{it}" for it in re.findall(r'settings\.get\("(\w+)"\)', program)}, set(contributes["configuration"]["properties"]))
        self.assertEqual(re.findall(r'require\("([\w-]+)', program), ["vscode", *said["dependencies"]])
        (grammar,) = contributes["grammars"]
        name = grammar["path"].rpartition("/")[2]
        self.assertIn(f'"textmate", "{name}"', (folder / "grammar.js").read_text(encoding="utf-8"))
        kept = json.loads((parts.TOP / "editors/textmate" / name).read_text(encoding="utf-8"))
        self.assertEqual(kept["scopeName"], grammar["scopeName"])
        self.assertEqual(contributes["languages"][0]["extensions"], [f".{it}" for it in kept["fileTypes"]])


class Fixes(WithServer):
    def fixes(self, text):
        """The fixes for all that is shown of a text, by their titles."""
        client, shown = self.opened(text)
        found = {}
        for it in shown:
            context = {"diagnostics": [it], "only": ["quickfix"]}
            for action in client.ask("textDocument/codeAction", textDocument={"uri": URI}, range=it["range"], context=context):
                found[action["title"]] = edited(text, action)
        other = {"diagnostics": [], "only": ["refactor"]}
        self.assertEqual(client.ask("textDocument/codeAction", textDocument={"uri": URI}, range=shown[0]["range"], context=other), [])
        return found

    def test_refusals(self):
        """Each remedy that is a small change mends the text."""
        cases = [
            ("Starter.Forward;", "Starter.Forwrad;", "change Forwrad to Forward"),
            ("E_CTU(", "E_CTUU(", "change E_CTUU to E_CTU"),
            ("Runs_Forward TO Stopped", "Runs_Forwards TO Stopped", "change Runs_Forwards to Runs_Forward"),
            ("INPUT[BOOL](ID := 4)", "INPUT[BOOOL](ID := 4)", "change BOOOL to BOOL"),
            ("Forward_On := TRUE;", "Forward_On := TRUE", "insert the missing ;"),
            ("Forward_On := TRUE;", "Forward_On = TRUE;", "write `:=`, an assignment"),
            ("Starter : REVERSING_STARTER", "Starter :\u00a0REVERSING_STARTER", "write a space"),
            ("(* A rev", "\ufeff(* A rev", "remove the byte order mark"),
            ("END_SYSTEM", "END_SYSTE", "change END_SYSTE to END_SYSTEM"),
        ]
        for right, wrong, title in cases:
            with self.subTest(wrong=wrong):
                self.assertEqual(MOTOR.count(right), 1)
                found = self.fixes(MOTOR.replace(right, wrong))
                self.assertIn(title, found)
                self.assertTrue(accepted(found[title]), found[title])

    def test_word_that_is_missing(self):
        """A word that is missing is put behind what stands before it."""
        found = self.fixes(MOTOR.replace("  Reverse_On := TRUE;", "  IF Fault THEN Reverse_On := TRUE;"))
        self.assertEqual(list(found), ["insert the missing END_IF;"])
        self.assertTrue(accepted(found["insert the missing END_IF;"]))

    def test_notes(self):
        """Variables that nothing names are removed, and a TIME gets its unit; the text stays right otherwise."""
        found = self.fixes(SMALL)
        titles = {"remove Unused, which is never used", "remove Alone, which is never used", "write T#500ms, the same TIME"}
        self.assertEqual(set(found), titles)
        self.assertIn("  Left, Right : INT;\n", found["remove Unused, which is never used"])
        self.assertIn("Right : INT;\n   (* nothing names it *)\n  Count", found["remove Alone, which is never used"])
        self.assertIn("DT := T#500ms", found["write T#500ms, the same TIME"])
        for text in found.values():
            self.assertTrue(accepted(text), text)

    def test_stale(self):
        """No fix is offered for a text that has changed since it was checked."""
        client, shown = self.opened(MOTOR.replace("TO Starter.Forward;", "TO Starter.Forwrad;"))
        client.change(2, {"text": MOTOR})
        context = {"diagnostics": shown}
        self.assertEqual(client.ask("textDocument/codeAction", textDocument={"uri": URI}, range=shown[0]["range"], context=context), [])


if __name__ == "__main__":
    unittest.main()
