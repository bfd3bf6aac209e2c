"""fbr-import: whole systems in the forms of other tools, each mapping, and each refusal with its whole message."""
import os
import shutil
import subprocess
import unittest

import parts
import xml_pieces as piece
from parts import DATA, fbr

# With its interface in one line, an algorithm of piece.basic is in line 14.
IN_ALGORITHM = 14


def with_port(kind, **more):
    """An interface with REQ, CNF and a data input X, which is in line 5 of the file."""
    attributes = "".join(f' {name}="{value}"' for name, value in more.items())
    return f'{piece.REQ_CNF}\n<InputVars><VarDeclaration Name="X" Type="{kind}"{attributes}/></InputVars>'


def shell_commands(page):
    """Pairs of a command of a page's sessions and the lines that follow it there."""
    found, is_open = [], False
    for line in page.splitlines():
        if line.startswith("    $ "):
            found.append((line[6:], []))
        elif is_open and line.startswith("    "):
            found[-1][1].append(line[4:])
        is_open = line.startswith("    $ ") or is_open and line.startswith("    ")
    return found


class Importing(parts.Folder):
    def import_of(self, files, *words):
        """The text of an import that is accepted by the program; `words` are after the name of the last file."""
        for name, text in files.items():
            self.put(name, text)
        done = self.imported(list(files)[-1], *words)
        self.assertEqual((done.stderr, done.returncode), ("", 0))
        self.put("made.fb", done.stdout)
        bound = fbr("bound", self.folder / "made.fb", "--repeats", "1")
        self.assertEqual(bound.returncode, 0, bound.stdout)
        return done.stdout

    def assert_refused(self, files, *lines):
        """The import of the last of these files prints these refusals, and nothing else."""
        for name, text in files.items():
            self.put(name, text)
        done = self.imported(list(files)[-1], "-o", "made.fb", "--table", "made.table")
        self.assertEqual(done.stderr.splitlines(), [f"fbr-import: {it}" for it in lines])
        self.assertEqual((done.stdout, done.returncode), ("", 1))
        self.assertFalse((self.folder / "made.fb").exists() or (self.folder / "made.table").exists())


class WholeSystems(parts.Folder):
    def import_stored(self, folder, system, name):
        done = self.imported(DATA / folder / system, "-o", f"{name}.fb", "--table", f"{name}.table")
        self.assertEqual(done.returncode, 0, done.stderr)
        for ending in ("fb", "table"):
            self.assertEqual(self.get(f"{name}.{ending}"), (DATA / folder / f"{name}.{ending}").read_text())
        return done.stderr.splitlines()

    def test_two_devices_of_4diac_ide_2(self):
        notes = self.import_stored("cell", "Cell.sys", "cell")
        self.assertEqual(
            [it.partition("Cell.sys:")[2] for it in notes],
            [
                '37: note: Device Panel: its parameter MGR_ID := "localhost:61499" is left out',
                '70: note: Device Machine: its parameter MGR_ID := "192.168.0.12:61499" is left out',
            ],
        )
        text, certificate = self.folder / "cell.fb", self.folder / "cell.cert"
        self.assertEqual(fbr("bound", text, "--repeats", "1", "-o", certificate).returncode, 0)
        self.assertEqual(fbr("check", text, certificate).stdout, "accepted\n")
        played = fbr("sim", text, certificate, input=(DATA / "cell" / "cell.script").read_text())
        self.assertEqual(played.stdout, (DATA / "cell" / "cell.out").read_text())

    def test_two_devices_of_fbdk(self):
        notes = self.import_stored("fbdk", "BELLS.sys", "bells")
        self.assertEqual([it.partition("BELLS.sys:")[2] for it in notes], ["7: note: Device TOWER: its parameter BOUNDS := [0,0,200,150] is left out"])
        self.assertEqual(fbr("bound", self.folder / "bells.fb", "--repeats", "1").returncode, 0)

    def test_one_device_of_4diac_ide_1(self):
        self.assertEqual(self.import_stored("hall", "hall.sys", "hall"), [])
        bound = fbr("bound", self.folder / "hall.fb").stdout
        self.assertIn("WEIGHT PLC.MAIN.BUTTON.ARRIVE 6 1\n", bound)

    def test_types_of_ecostruxure(self):
        done = self.imported(DATA / "ecostruxure" / "FLASHER.fbt")
        self.assertEqual((done.stderr, done.returncode), ("", 0))
        self.assertIn("  SWITCH : E_SWITCH;\n  CYCLE : E_CYCLE(DT := T#500ms);\n  LAMP : TURN;\n", done.stdout)
        self.put("types.fb", done.stdout)
        self.assertEqual(fbr("check", self.folder / "types.fb", "-", input="CERT 1\n").stdout, "accepted\n")

    def test_the_session_of_the_page(self):
        """What docs/XML.md shows of a shell comes as it stands there."""
        (self.folder / "tools").symlink_to(parts.TOOLS)
        (self.folder / "fbr").symlink_to(parts.program())
        path = f"{self.folder}:{os.environ['PATH']}"
        for command, wanted in shell_commands((parts.TOP / "docs" / "XML.md").read_text()):
            done = subprocess.run(command, shell=True, cwd=self.folder, capture_output=True, text=True, env={**os.environ, "PATH": path})
            with self.subTest(command):
                if command.startswith("xmllint ") and not shutil.which("xmllint"):
                    self.skipTest("xmllint is missing: tools/setup installs libxml2-utils")
                self.assertEqual((done.stdout + done.stderr).splitlines(), wanted)

    def test_the_text_is_the_same_each_time(self):
        texts = {self.imported(DATA / "cell" / "Cell.sys").stdout for _ in range(3)}
        self.assertEqual(len(texts), 1)

    def test_types_alone(self):
        done = self.imported(DATA / "cell" / "NTH.fbt", DATA / "cell" / "DRIVE.fbt")
        self.assertEqual((done.stderr, done.returncode), ("", 0))
        self.assertTrue(done.stdout.endswith("\nSYSTEM Types\nEND_SYSTEM\n"))
        self.put("types.fb", done.stdout)
        self.assertEqual(fbr("check", self.folder / "types.fb", "-", input="CERT 1\n").stdout, "accepted\n")


class Mapped(Importing):
    def test_simple_type_without_states(self):
        algorithm = '<Algorithm Name="REQ"><ST Text="Q := NOT Q;"/></Algorithm>'
        interface = piece.REQ_CNF.replace('"CNF"/>', '"CNF"><With Var="Q"/></Event>') + '<OutputVars><VarDeclaration Name="Q" Type="BOOL"/></OutputVars>'
        text = self.import_of({"T.fbt": piece.block_type("T", interface, f"<SimpleFB>{algorithm}</SimpleFB>")})
        self.assertIn("EC_STATES\n  START;\n  REQ : REQ -> CNF;\nEND_STATES\n", text)
        self.assertIn("EC_TRANSITIONS\n  START TO REQ := REQ;\n  REQ TO START := 1;\nEND_TRANSITIONS\n", text)

    def test_function_blocks_get_the_type_of_their_wires(self):
        blocks = """Level IW QI 1
            Scaled F_WORD_TO_INT
            Sum F_ADD IN2 5
            Above F_GT IN2 INT#100
            Chosen F_SEL IN0 DINT#1 IN1 70000
            Lamp QX QI 1
            Number OUTPUT_DINT ID 7"""
        events = """Level.IND Scaled.REQ
            Scaled.CNF Sum.REQ
            Sum.CNF Above.REQ
            Above.CNF Chosen.REQ
            Above.CNF Lamp.REQ
            Chosen.CNF Number.REQ"""
        data = """Level.IN Scaled.IN
            Scaled.OUT Sum.IN1
            Sum.OUT Above.IN1
            Above.OUT Chosen.G
            Above.OUT Lamp.OUT
            Chosen.OUT Number.SD_1"""
        text = self.import_of({"S.sys": piece.resource_system(piece.network(blocks, events, data))})
        self.assertIn("  Scaled : F_WORD_TO_INT;\n  Sum : F_ADD_INT(IN2 := 5);\n  Above : F_GT_INT(IN2 := INT#100);\n", text)
        self.assertIn("  Chosen : F_SEL_DINT(IN0 := DINT#1, IN1 := 70000);\n", text)
        self.assertIn("ALGORITHM Calculate IN ST:\n  OUT := UINT_TO_INT(IN);\nEND_ALGORITHM\n", text)
        self.assertIn("ALGORITHM Calculate IN ST:\n  OUT := IN1 > IN2;\nEND_ALGORITHM\n", text)

    def test_a_terminal_that_is_asked(self):
        """REQ of an IX goes on at CNF: the INPUT holds what came last. REQ of a QX writes first, and goes on at its CNF."""
        blocks = "Clock E_CYCLE DT T#1s\nButton IX QI 1\nLamp QX QI 1\nSecond QX QI 1"
        events = """START.COLD Button.INIT
            Button.INITO Lamp.INIT
            Lamp.INITO Clock.START
            Clock.EO Button.REQ
            Button.CNF Lamp.REQ
            Lamp.CNF Second.REQ"""
        text = self.import_of({"S.sys": piece.resource_system(piece.network(blocks, events, "Button.IN Lamp.OUT\nButton.IN Second.OUT"))})
        self.assertIn("EVENT_CONNECTIONS\n  START.COLD TO Clock.START;\n  Clock.EO TO Lamp.REQ;\n  Clock.EO TO Second.REQ;\nEND_CONNECTIONS\n", text)

    def test_numbers_of_terminals(self):
        """An INPUT with a number of its own keeps it, also within a composite; the terminals of the device get the others."""
        composite = piece.block_type("C", body=f"<FBNetwork>{piece.network('I INPUT ID 2', 'I.IND CNF')}</FBNetwork>")
        blocks = "One C\nA IX QI 1 PARAMS a\nB INPUT_INT ID 16#3\nC1 IX QI 1 PARAMS c\nQ QX QI 1 PARAMS q"
        text = self.import_of({"C.fbt": composite, "S.sys": piece.resource_system(piece.network(blocks))}, "--table", "made.table")
        self.assertIn("  A : INPUT[BOOL](ID := 1);\n  B : INPUT[INT](ID := 16#3);\n  C1 : INPUT[BOOL](ID := 4);\n  Q : OUTPUT[BOOL](ID := 1);\n", text)
        self.assertEqual(self.get("made.table"), "D INPUT 1 a\nD INPUT 4 c\nD OUTPUT 1 q\n")

    def test_numbers_of_channels(self):
        """The last two bytes of the usual address are the number; the other IDs get the lowest free ones."""
        blocks = "A PUBLISH_0 QI 1 ID 'x:1'\nB PUBLISH_0 QI 1 ID '239.192.1.4:61499'\nC PUBLISH_0 QI 1 ID '239.192.0.1:61499'\nD PUBLISH_0 QI 1 ID 'y:1'"
        text = self.import_of({"S.sys": piece.resource_system(piece.network(blocks))}, "--table", "made.table")
        self.assertEqual([it.partition("ID := ")[2].partition(",")[0] for it in text.splitlines() if "PUBLISH(" in it], ["2", "260", "1", "3"])
        self.assertEqual(self.get("made.table"), "CHANNEL 1 239.192.0.1:61499\nCHANNEL 2 x:1\nCHANNEL 3 y:1\nCHANNEL 260 239.192.1.4:61499\n")

    def test_a_composite_that_passes_on(self):
        interface = """<EventInputs><Event Name="EI"><With Var="X"/></Event></EventInputs><EventOutputs><Event Name="EO"><With Var="Y"/></Event></EventOutputs>
            <InputVars><VarDeclaration Name="X" Type="INT"/></InputVars><OutputVars><VarDeclaration Name="Y" Type="INT"/></OutputVars>"""
        wires = piece.network("", "EI EO", "X Y")
        system = piece.resource_system(piece.network("I INPUT_INT ID 3\nP PASSER\nO OUTPUT_INT ID 4", "I.IND P.EI\nP.EO O.REQ", "I.RD_1 P.X\nP.Y O.SD_1"))
        text = self.import_of({"PASSER.fbt": piece.block_type("PASSER", interface, f"<FBNetwork>{wires}</FBNetwork>"), "S.sys": system})
        self.assertIn("EVENT_CONNECTIONS\n  EI TO Pass_X.REQ;\n  EI TO Pass_EI.EI1;\n  Pass_EI.EO TO EO;\nEND_CONNECTIONS\n", text)
        self.assertIn("DATA_CONNECTIONS\n  X TO Pass_X.IN;\n  Pass_X.OUT TO Y;\nEND_CONNECTIONS\n", text)
        certificate = fbr("bound", self.folder / "made.fb").stdout
        self.put("made.cert", certificate)
        script = "offer D 3 42\n" + "dispatch D R\n" * 4
        played = fbr("sim", self.folder / "made.fb", self.folder / "made.cert", input=script).stdout
        self.assertEqual(played.splitlines()[-1].partition(" write ")[2].partition(" ended")[0], "4 42")

    def test_subapplications_become_flat(self):
        pair = piece.network("Split E_SPLIT\nCount E_CTU", "GO Split.EI\nSplit.EO2 GONE\nSplit.EO1 Count.CU", "N Count.PV")
        typed = piece.subapplication_type("PAIR", "GO", "GONE", "N", pair)
        gate = piece.network("Gate E_PERMIT PERMIT 1", "IN Gate.EI\nGate.EO OUT")
        blocks = "<SubApp Name='Two' Type='PAIR'><Parameter Name='N' Value='5'/></SubApp>"
        blocks += f"<SubApp Name='Inner'><SubAppNetwork>{gate}</SubAppNetwork></SubApp>"
        blocks += piece.network("Button IX QI 1\nLamp QX QI 1 OUT 1", "Button.IND Two.GO\nTwo.GONE Inner.IN\nInner.OUT Lamp.REQ")
        system = piece.application_system(blocks, "Two D1\nInner D1\nButton D1\nLamp D1")
        text = self.import_of({"PAIR.sub": typed, "S.sys": system})
        self.assertIn("  Two_Split : E_SPLIT;\n  Two_Count : E_CTU(PV := 5);\n  Inner_Gate : E_PERMIT(PERMIT := TRUE);\n", text)
        self.assertIn("  Two_Split.EO2 TO Inner_Gate.EI;\n  Two_Split.EO1 TO Two_Count.CU;\n  Inner_Gate.EO TO Lamp.REQ;\n", text)

    def test_start_values_of_subapplications(self):
        """A start value holds where nothing is connected and no parameter is given; PARAMS may come by a subapplication's input."""
        inputs = '<VarDeclaration Name="PIN" Type="STRING" InitialValue="&quot;gpio 5&quot;"/><VarDeclaration Name="N" Type="UINT" InitialValue="7"/>'
        network = piece.network("Button IX QI 1\nCount E_CTU\nTwice E_CTU", "Button.IND Count.CU", "PIN Button.PARAMS\nN Count.PV\nN Twice.PV")
        typed = f'<SubAppType Name="PART">{piece.VERSION}<SubAppInterfaceList><InputVars>{inputs}</InputVars></SubAppInterfaceList>'
        typed += f"<SubAppNetwork>{network}</SubAppNetwork></SubAppType>"
        blocks = '<SubApp Name="A" Type="PART"/><SubApp Name="B" Type="PART"><Parameter Name="N" Value="3"/></SubApp>'
        text = self.import_of({"PART.sub": typed, "S.sys": piece.application_system(blocks, "A D1\nB D1")}, "--table", "made.table")
        self.assertIn("  A_Count : E_CTU(PV := 7);\n  A_Twice : E_CTU(PV := 7);\n", text)
        self.assertIn("  B_Count : E_CTU(PV := 3);\n  B_Twice : E_CTU(PV := 3);\n", text)
        self.assertEqual(self.get("made.table"), "D1 INPUT 1 gpio 5\nD1 INPUT 2 gpio 5\n")

    def test_mapped_subapplications(self):
        """A block within a subapplication is where it is mapped itself, or where the subapplication is; the resource may list the blocks again."""
        inner = piece.network("S E_SPLIT\nT E_SPLIT", "GO S.EI\nS.EO1 T.EI")
        blocks = f"<SubApp Name='Two'><SubAppNetwork>{inner}</SubAppNetwork></SubApp>{piece.network('Button IX QI 1', 'Button.IND Two.GO')}"
        text = piece.application_system(blocks, "Button D1\nTwo D1").replace(
            "</System>", '<Mapping From="A.Two.T" To="D2.R.Last"/></System>'
        )
        again = f"<FBNetwork><SubApp Name='Two'><SubAppNetwork>{piece.network('S E_SPLIT')}</SubAppNetwork></SubApp></FBNetwork>"
        text = self.import_of({"S.sys": text.replace("<FBNetwork/>", again, 1)})
        first, second = text.split("DEVICE D2")
        self.assertIn("  Button : INPUT[BOOL](ID := 1);\n  Two_S : E_SPLIT;\n  Publish_Two_S_EO1 : PUBLISH(ID := 1, QI := TRUE);\n", first)
        self.assertIn("  Last : E_SPLIT;\n  Subscribe_Two_S_EO1 : SUBSCRIBE(ID := 1, QI := TRUE);\n", second)
        self.assertIn("  Subscribe_Two_S_EO1.IND TO Last.EI;\n", second)

    def test_libraries_and_packages(self):
        (self.folder / "shelf" / "deep").mkdir(parents=True)
        self.put("shelf/deep/T.fbt", piece.basic("T"))
        system = piece.resource_system(piece.network("Button IX QI 1\nOne my::own::T", "Button.IND One.REQ"))
        text = self.import_of({"S.sys": system}, "--library", "shelf")
        self.assertIn("  One : T;\n", text)

    def test_constants(self):
        system = piece.resource_system(piece.network("A E_DELAY DT TIME#1.25s\nB E_CTU PV 16#F\nC E_SWITCH G BOOL#1\nD E_DELAY DT t#2m_5s"))
        text = self.import_of({"S.sys": system})
        self.assertIn("  A : E_DELAY(DT := T#1s_250ms);\n  B : E_CTU(PV := 16#F);\n  C : E_SWITCH(G := TRUE);\n  D : E_DELAY(DT := T#2m_5s);\n", text)

    def test_conditions(self):
        transitions = "".join(
            f'<ECTransition Source="S" Destination="S" Condition="{it}"/>'
            for it in ("REQ", "REQ[X &gt; 1]", "REQ &amp; X &gt; 2", "REQ AND (X &gt; 3 OR X &lt; 0)", "[X &gt; 4]", "X &gt; 5", "1", "TRUE")
        )
        text = self.import_of({"T.fbt": piece.basic("T", with_port("INT"), chart=f'<ECC><ECState Name="S"/>{transitions}</ECC>')})
        wanted = ["REQ", "REQ [X > 1]", "REQ [X > 2]", "REQ [(X > 3 OR X < 0)]", "[X > 4]", "[X > 5]", "1", "1"]
        self.assertIn("".join(f"  S TO S := {it};\n" for it in wanted), text)


class Notes(parts.Folder):
    def assert_noted(self, files, *lines):
        for name, text in files.items():
            self.put(name, text)
        done = self.imported(list(files)[-1])
        self.assertEqual((done.stderr.splitlines(), done.returncode), ([f"fbr-import: {it}" for it in lines], 0))

    def test_qualifiers_that_are_not_given(self):
        self.assert_noted(
            {"S.sys": piece.resource_system(piece.network("A IX\nP PUBLISH_0 ID 'a'"))},
            "S.sys:5: note: FB A: its QI is not given; fbr takes IX to be open",
            "S.sys:6: note: FB P: its QI is not given, and is FALSE unless a wire sets it: it opens only with QI := 1",
        )

    def test_attributes(self):
        text = piece.basic("T").replace('<Event Name="REQ"/>', '<Event Name="REQ" Colour="red" x="1"/>')
        text = text.replace("<BasicFB>", '<BasicFB>\n<Attribute Name="Priority" Value="3"/>')
        self.assert_noted(
            {"T.fbt": text}, "T.fbt:4: note: Event REQ: its attribute Colour='red' is left out", "T.fbt:7: note: BasicFB: its Attribute Priority is left out"
        )

    def test_two_files_of_one_type(self):
        (self.folder / "Type Library").mkdir()
        self.assert_noted(
            {"Type Library/T.fbt": piece.basic("T"), "T.fbt": piece.basic("T")}, "Type Library/T.fbt: note: FBType T: T.fbt is used instead of this file"
        )


class RefusedTypes(Importing):
    def test_types_of_values(self):
        remedies = {
            "REAL": "scale it to a DINT",
            "LREAL": "scale it to a DINT",
            "STRING": "send a number in its place: only ID and PARAMS may be texts",
            "WSTRING": "send a number in its place: only ID and PARAMS may be texts",
            "BYTE": "use USINT, or a BOOL for each bit",
            "WORD": "use UINT, or a BOOL for each bit",
            "DWORD": "use UDINT, or a BOOL for each bit",
            "LWORD": "use LINT, or a BOOL for each bit",
            "ULINT": "use LINT",
            "POINT": "declare each field of it as a port of its own",
        }
        for kind, remedy in remedies.items():
            with self.subTest(kind):
                self.assert_refused({"T.fbt": piece.basic("T", with_port(kind))}, f"T.fbt:5: VarDeclaration X: fbr has no type {kind}; {remedy}")

    def test_array_at_a_port(self):
        line = "T.fbt:5: VarDeclaration X: arrays at ports have no counterpart; declare a port for each element, or keep the array within one block"
        self.assert_refused({"T.fbt": piece.basic("T", with_port("INT", ArraySize="4"))}, line)

    def test_start_values(self):
        line = "T.fbt:5: VarDeclaration X: its start value high is not a constant of type INT; write one of that type"
        self.assert_refused({"T.fbt": piece.basic("T", with_port("INT", InitialValue="high"))}, line)

    def test_adapters(self):
        plugs = f'{piece.REQ_CNF}<Plugs><AdapterDeclaration Name="P" Type="AX"/></Plugs>'
        line = "T.fbt:4: AdapterDeclaration P: fbr has no adapters; connect its events and data one by one"
        self.assert_refused({"T.fbt": piece.basic("T", plugs)}, line)

    def test_other_languages(self):
        algorithms = '<Algorithm Name="A"><Other Language="Java" Text="x"/></Algorithm>\n<Algorithm Name="B"><FBD/></Algorithm>'
        self.assert_refused(
            {"T.fbt": piece.basic("T", algorithms=algorithms)},
            "T.fbt:14: Algorithm A: its language is Java; write it in Structured Text",
            "T.fbt:15: Algorithm B: its language is FBD; write it in Structured Text",
        )

    def test_structured_text(self):
        text = "WHILE B DO\nREPEAT\nRETURN;\nX := SQRT(2) + 1.5;\nX := 'a';\nX := A.B;"
        at = IN_ALGORITHM + 2
        self.assert_refused(
            {"T.fbt": piece.basic("T", algorithms=piece.structured(text))},
            f"T.fbt:{at}: Algorithm DO_IT: the word WHILE has no counterpart; count with a FOR to a fixed bound",
            f"T.fbt:{at + 1}: Algorithm DO_IT: the word REPEAT has no counterpart; count with a FOR to a fixed bound",
            f"T.fbt:{at + 2}: Algorithm DO_IT: the word RETURN has no counterpart; put what follows into the ELSE of an IF",
            f"T.fbt:{at + 3}: Algorithm DO_IT: the function SQRT has no counterpart; write it as statements, or give it a block of its own",
            f"T.fbt:{at + 3}: Algorithm DO_IT: the number 1.5 has no counterpart; scale it to a DINT",
            f"T.fbt:{at + 4}: Algorithm DO_IT: the text 'a' has no counterpart; fbr has no texts in algorithms: use a number",
            f"T.fbt:{at + 5}: Algorithm DO_IT: the '.' of a field has no counterpart; copy it into a variable of its own",
        )

    def test_conditions(self):
        chart = piece.CHART.replace('"REQ"/>', '"REQ &amp; A OR B"/>')
        remedy = "its OR is weaker than the & before it: write it as EVENT[guard], or as two transitions"
        line = f"T.fbt:11: ECTransition START to ACT: the condition REQ & A OR B has no counterpart; {remedy}"
        self.assert_refused({"T.fbt": piece.basic("T", chart=chart)}, line)

    def test_names(self):
        interface = '<EventInputs><Event Name="REQ"/>\n<Event Name="Req"/></EventInputs><EventOutputs><Event Name="CNF"/></EventOutputs>\n'
        interface += '<InputVars><VarDeclaration Name="DO" Type="INT"/>\n<VarDeclaration Name="2nd" Type="INT"/></InputVars>'
        self.assert_refused(
            {"T.fbt": piece.basic("T", interface)},
            "T.fbt:5: Event Req: it differs from Event REQ only in letter case; rename it, to Req_1 for instance",
            "T.fbt:6: VarDeclaration DO: DO is a reserved word; rename it, to DO_1 for instance",
            "T.fbt:7: VarDeclaration 2nd: a name is a letter or _, then letters, digits and _; rename it, to _2nd for instance",
        )

    def test_what_a_chart_names(self):
        interface = piece.REQ_CNF.replace('"REQ"/>', '"REQ"><With Var="X"/></Event>')
        chart = piece.CHART.replace('Output="CNF"', 'Output="DONE" Algorithm="A, B"').replace('Destination="ACT"', 'Destination="GONE"')
        self.assert_refused(
            {"T.fbt": piece.basic("T", interface, chart=chart)},
            "T.fbt:4: With X: T has no input variable of this name; mend its name, or remove it",
            "T.fbt:10: ECState ACT: T has no algorithm A, B; mend its name, or remove the action",
            "T.fbt:10: ECState ACT: T has no event output DONE; mend its name, or remove the action",
            "T.fbt:11: ECTransition START to GONE: T has no state GONE; mend its name",
        )

    def test_nothing_leaves_its_place(self):
        """What would end an algorithm, a guard, a comment or a parameter early is refused, or changed where it is a comment."""
        chart = piece.CHART.replace('"REQ"/>', '"REQ[TRUE]; X TO Y := [TRUE]"/>')
        algorithm = piece.structured("X := 1; END_ALGORITHM\n(* not closed")
        self.assert_refused(
            {"T.fbt": piece.basic("T", algorithms=algorithm, chart=chart)},
            "T.fbt:11: ECTransition START to ACT: the guard TRUE]; X TO Y := [TRUE has no counterpart; give each bracket its partner",
            "T.fbt:16: Algorithm DO_IT: the word END_ALGORITHM has no counterpart; write statements alone",
            "T.fbt:17: Algorithm DO_IT: a comment without an end has no counterpart; close it",
        )
        line = "S.sys:5: FB L: OUT := 1);X:OUTPUT(ID:=1 is not a constant of type BOOL; write one of that type"
        self.assert_refused({"S.sys": piece.resource_system(piece.network("L QX QI 1 OUT 1);X:OUTPUT(ID:=1"))}, line)
        text = self.import_of({"T.fbt": piece.basic("T").replace('Name="T"', 'Name="T" Comment="a **)) b (* c"')})
        self.assertTrue(text.startswith("(* a )) b ( c *)\nFUNCTION_BLOCK T\n"), text)

    def test_elements_that_are_not_known(self):
        text = piece.basic("T", algorithms='<Method Name="M"/>\n<Wizard Name="W"/>')
        self.assert_refused(
            {"T.fbt": text},
            "T.fbt:14: Method M: Method has no counterpart; write it as a block type, or as part of an algorithm",
            "T.fbt:15: Wizard W: this element of BasicFB has no counterpart; remove it, or express it in another way",
        )

    def test_in_out_variables(self):
        interface = piece.REQ_CNF + '<InOutVars><VarDeclaration Name="X" Type="INT"/></InOutVars>'
        self.assert_refused({"T.fbt": piece.basic("T", interface)}, "T.fbt:4: VarDeclaration X: fbr has no in-out variables; use an input and an output")

    def test_internal_variables(self):
        internals = '<InternalVars><VarDeclaration Name="A" Type="INT" ArraySize="3" InitialValue="[1,2,3]"/>\n'
        internals += '<VarDeclaration Name="B" Type="INT" ArraySize="x"/>\n<FB Name="F" Type="E_CTU"/></InternalVars>'
        self.assert_refused(
            {"T.fbt": piece.basic("T", internals=internals)},
            "T.fbt:7: VarDeclaration A: arrays have no start values; set its elements in an algorithm, or leave them at 0",
            "T.fbt:8: VarDeclaration B: its ArraySize x is not a size; write the number of elements, or LOW..HIGH",
            "T.fbt:9: FB F: blocks within a basic block have no counterpart; make it a composite, and connect the block there",
        )

    def test_simple_types(self):
        body = '<SimpleFB>\n<ECState Name="OTHER"><ECAction Output="CNF"/></ECState></SimpleFB>'
        line = "T.fbt:7: ECState OTHER: no event input has this name; name it like the event that runs it"
        self.assert_refused({"T.fbt": piece.block_type("T", body=body)}, line)
        line = "T.fbt:4: Event REQ: nothing says what it does; give it an ECState of its name with an ECAction"
        self.assert_refused({"T.fbt": piece.block_type("T", '<EventInputs><Event Name="REQ"/></EventInputs>', "<SimpleFB/>")}, line)

    def test_events_and_charts(self):
        typed = piece.REQ_CNF.replace('Name="REQ"', 'Name="REQ" Type="Tick"')
        self.assert_refused({"T.fbt": piece.basic("T", typed)}, "T.fbt:4: Event REQ: events of type Tick have no counterpart; use Event")
        self.assert_refused({"T.fbt": piece.basic("T", chart="<ECC/>")}, "T.fbt:1: FBType T: it has no ECState; give it at least one state")

    def test_a_value_that_passes_without_an_event(self):
        interface = """<EventInputs><Event Name="EI"/></EventInputs><EventOutputs><Event Name="EO"><With Var="Y"/></Event></EventOutputs>
            <InputVars><VarDeclaration Name="X" Type="INT"/></InputVars><OutputVars><VarDeclaration Name="Y" Type="INT"/></OutputVars>"""
        text = piece.block_type("T", interface, f"<FBNetwork>{piece.network('', 'EI EO', 'X Y')}</FBNetwork>")
        line = "T.fbt:5: VarDeclaration X: it goes straight to an output, and no event is WITH it; give it to an event by With"
        self.assert_refused({"T.fbt": text}, line)

    def test_files_of_other_names(self):
        line = "T.fbt:1: FBType OTHER: the file has another name than its type, T.fbt; name the file like its type"
        self.assert_refused({"T.fbt": piece.basic("OTHER")}, line)
        line = "T.fbt:1: System T: the root element is neither FBType nor SubAppType; give a file of a block type"
        self.assert_refused({"T.fbt": '<System Name="T"/>'}, line)

    def test_a_type_within_itself(self):
        files = {it: piece.block_type(it[0], body=f"<FBNetwork>{piece.network(f'I {other}')}</FBNetwork>") for it, other in (("A.fbt", "B"), ("B.fbt", "A"))}
        self.assert_refused(files, "B.fbt:1: FBType B: it contains itself; break the circle")

    def test_a_service_interface(self):
        service = piece.block_type("LOG", body='<Service LeftInterface="A" RightInterface="B"/>')
        files = {"LOG.fbt": service, "S.sys": piece.resource_system(piece.network("L LOG"))}
        problem = "its type LOG is a service interface that fbr does not have"
        self.assert_refused(files, f"S.sys:5: FB L: {problem}; use IX, QX, PUBLISH or SUBSCRIBE, or write it as a basic type")


class RefusedSystems(Importing):
    def assert_resource_refused(self, blocks, events, data, *lines):
        self.assert_refused({"S.sys": piece.resource_system(piece.network(blocks, events, data))}, *lines)

    def test_connected_status(self):
        line = "S.sys:10: Connection P.STATUS to T.G: fbr has no STATUS; remove the connection"
        self.assert_resource_refused("P PUBLISH_0 QI 1 ID 'a'\nT E_SWITCH", "", "P.STATUS T.G", line)

    def test_warm_and_stop(self):
        self.assert_resource_refused(
            "S E_SPLIT",
            "START.COLD S.EI\nSTART.WARM S.EI\nSTART.STOP S.EI",
            "",
            "S.sys:8: Connection START.WARM to S.EI: fbr has no warm start; remove the connection",
            "S.sys:9: Connection START.STOP to S.EI: fbr has no event when a device stops; remove the connection",
        )

    def test_client_server_and_local_channels(self):
        pair = "CLIENT and SERVER have no counterpart"
        remedy = "use PUBLISH and SUBSCRIBE, one pair for each direction"
        local = "connect the blocks in one resource, or use PUBLISH and SUBSCRIBE between devices"
        self.assert_resource_refused(
            "C CLIENT_1_1\nS SERVER_1\nL PUBL_1",
            "",
            "",
            f"S.sys:5: FB C: {pair} (CLIENT_1_1); {remedy}",
            f"S.sys:6: FB S: {pair} (SERVER_1); {remedy}",
            f"S.sys:7: FB L: it only works within one device (PUBL_1); {local}",
        )

    def test_names(self):
        self.assert_resource_refused(
            "Motor E_SPLIT\nmotor E_SPLIT\nRESOURCE E_SPLIT",
            "",
            "",
            "S.sys:6: FB motor: it differs from FB Motor only in letter case; rename it, to motor_1 for instance",
            "S.sys:7: FB RESOURCE: RESOURCE is a reserved word; rename it, to RESOURCE_1 for instance",
        )

    def test_what_is_not_there(self):
        self.assert_resource_refused(
            "A FOO\nB E_SPLIT XX 1",
            "B.EO1 C.EI\nB.EO3 B.EI",
            "",
            "S.sys:5: FB A: its type FOO is not found; put FOO.fbt beside the file, or name its folder with --library",
            "S.sys:6: FB B: E_SPLIT has no data input XX; remove the parameter, or mend its name",
            "S.sys:8: Connection B.EO1 to C.EI: there is no instance C; remove the connection, or mend its name",
            "S.sys:9: Connection B.EO3 to B.EI: B has no event output EO3; remove the connection, or mend its name",
        )

    def test_terminals(self):
        self.assert_resource_refused(
            "A IX QI 0\nB QX QI 1\nG E_SWITCH",
            "B.CNF B.REQ\nG.EO0 B.REQ",
            "B.QO G.G",
            "S.sys:5: FB A: QI := 0 keeps it closed; give QI the value 1, or remove the block",
            "S.sys:10: Connection to B.REQ: the event runs in a circle of blocks that pass it on at once; break the circle, by an E_DELAY for instance",
            "S.sys:13: Connection B.QO to G.G: QO of QX has no counterpart; remove the connection",
        )

    def test_a_terminal_in_a_composite(self):
        composite = piece.block_type("C", body=f"<FBNetwork>{piece.network('B IX QI 1', 'B.IND CNF')}</FBNetwork>")
        files = {"C.fbt": composite, "S.sys": piece.resource_system(piece.network("One C"))}
        self.assert_refused(files, "C.fbt:6: FB B: IX is within a composite; put it into the resource, beside the composite")

    def test_types_that_no_wire_says(self):
        self.assert_resource_refused(
            "A F_ADD IN1 1\nP PUBLISH_1 QI 1 ID 'a'\nN PUBLISH_0 QI 1\nF F_AND\nI INPUT_INT ID 1",
            "",
            "I.RD_1 F.IN1",
            "S.sys:5: FB A: no wire says what type its IN1 has; connect it, or remove the block",
            "S.sys:6: FB P: no wire says what type its SD_1 has; connect it, or remove the block",
            'S.sys:7: FB N: PUBLISH_0 has no ID; give it one, such as "239.192.0.2:61499"',
            "S.sys:8: FB F: F_AND of INT has no counterpart; use it with BOOL",
        )

    def test_types_that_an_operation_does_not_have(self):
        integers = "SINT or INT or DINT or LINT or USINT or UINT or UDINT"
        self.assert_resource_refused(
            "I INPUT_BOOL_TIME ID 1\nA F_ADD\nB F_MUL",
            "",
            "I.RD_1 A.IN1\nI.RD_2 B.IN1",
            f"S.sys:6: FB A: F_ADD of BOOL has no counterpart; use it with {integers} or TIME",
            f"S.sys:7: FB B: F_MUL of TIME has no counterpart; use it with {integers}",
        )

    def test_types_that_do_not_go_together(self):
        self.assert_resource_refused(
            "I INPUT_INT_BOOL ID 1\nA F_EQ",
            "",
            "I.RD_1 A.IN1\nI.RD_2 A.IN2",
            "S.sys:6: FB A: its IN1 gets BOOL and INT, and no one type holds both; convert one of them",
        )

    def test_subapplications(self):
        nested = '<SubApp Name="X" Type="LOOP"/>'
        loop = f'<SubAppType Name="LOOP">{piece.VERSION}<SubAppInterfaceList/><SubAppNetwork>\n{nested}</SubAppNetwork></SubAppType>'
        self.assert_refused(
            {"LOOP.sub": loop, "S.sys": piece.application_system('<SubApp Name="A" Type="LOOP"/>\n<SubApp Name="B" Type="GONE"/>', "")},
            "LOOP.sub:2: SubApp X: it is within itself, or more than 16 deep; flatten it in the tool that wrote it",
            "S.sys:5: SubApp B: its type GONE is not found; put its .sub beside the file, or name its folder with --library",
        )

    def test_mappings(self):
        self.assert_refused(
            {"S.sys": piece.application_system(piece.network("A E_SPLIT\nB E_SPLIT"), "A D1\nC D1\nB D9\nA D2")},
            "S.sys:5: FB B: A.B is mapped to no resource; map it to a resource, or take it out of the application",
            "S.sys:14: Mapping A.C: no application has an instance A.C; remove the mapping, or mend its name",
            "S.sys:15: Mapping A.B: there is no resource D9.R; map it to DEVICE.RESOURCE of this system",
            "S.sys:16: Mapping A.A: A.A is mapped twice; remove one of the mappings",
        )

    def test_wires_between_devices(self):
        network = piece.network("C E_CTU\nG E_SWITCH\nR E_SR\nH E_SWITCH", "C.CUO G.EI\nC.RO G.EI", "C.Q G.G\nR.Q H.G")
        self.assert_refused(
            {"S.sys": piece.application_system(network, "C D1\nG D2\nR D1\nH D2")},
            "S.sys:13: Connection C.Q to G.G: two events with Q lead to D2.R: C.CUO and C.RO; join them by an E_MERGE, or use PUBLISH and SUBSCRIBE",
            "S.sys:14: Connection R.Q to H.G: it leads from D1.R to D2.R, and no event WITH Q does; connect such an event too, or use PUBLISH and SUBSCRIBE",
        )

    def test_blocks_that_differ_in_application_and_resource(self):
        text = piece.application_system(piece.network("A E_DELAY DT T#1s\nB E_SPLIT"), "A D1\nB D1")
        again = f"<FBNetwork>{piece.network('A E_DELAY DT T#2s' + chr(10) + 'B E_MERGE')}</FBNetwork>"
        self.assert_refused(
            {"S.sys": text.replace("<FBNetwork/>", again, 1)},
            "S.sys:11: FB A: DT is T#2s here, and T#1s in the application; give both the same value",
            "S.sys:12: FB B: its type is E_MERGE here, and E_SPLIT in the application; give one of them another name",
        )

    def test_what_an_application_does_not_have(self):
        line = "S.sys:6: Connection A.EO1 to X.EI: the application has no instance X; mend its name"
        self.assert_refused({"S.sys": piece.application_system(piece.network("A E_SPLIT", "A.EO1 X.EI"), "A D1")}, line)

    def test_parameters(self):
        network = piece.network("A E_DELAY DT 5\nI IX QI 1\nP PUBLISH_0 QI 1 ID a", "", "I.IN P.ID\nI.IN I.QI")
        twice = '<FB Name="T" Type="E_DELAY"><Parameter Name="DT" Value="T#1s"/><Parameter Name="DT" Value="T#2s"/></FB>\n'
        self.assert_refused(
            {"S.sys": piece.resource_system(twice + network)},
            "S.sys:5: Parameter DT: it is given twice; leave one",
            "S.sys:6: FB A: DT := 5 is not a constant of type TIME; write one of that type",
            "S.sys:12: Connection I.IN to P.ID: an ID has to be a constant; remove the connection",
            "S.sys:13: Connection I.IN to I.QI: QI of IX has to be a constant; remove the connection",
        )

    def test_blocks_and_wires_in_other_places(self):
        adapters = '<AdapterConnections><Connection Source="A.X" Destination="B.Y"/></AdapterConnections>'
        text = piece.resource_system(adapters).replace("</Device>", '<FBNetwork><FB Name="Q" Type="E_SPLIT"/></FBNetwork></Device>')
        self.assert_refused(
            {"S.sys": text},
            "S.sys:5: Connection A.X to B.Y: fbr has no adapters; connect its events and data one by one",
            "S.sys:7: Device D: blocks of a device outside its resources have no counterpart; put them into a resource",
        )

    def test_a_wire_to_two_resources(self):
        network = piece.network("A E_SPLIT\nB E_SPLIT\nC E_SPLIT", "A.EO1 B.EI\nA.EO1 C.EI")
        line = "S.sys:9: Connection A.EO1 to C.EI: A.EO1 leads to two resources of D2, R and Q; map both targets to one resource"
        self.assert_refused({"S.sys": piece.second_resource(piece.application_system(network, "A D1\nB D2"), "D2")}, line)

    def test_a_wire_between_resources_of_one_device(self):
        network = piece.network("A E_SPLIT\nC E_SPLIT", "A.EO1 C.EI")
        line = "S.sys:7: Connection A.EO1 to C.EI: it leads from resource R to Q of one device; map both ends to one resource, or to two devices"
        self.assert_refused({"S.sys": piece.second_resource(piece.application_system(network, "A D1", "D1"), "D1")}, line)

    def test_all_at_once(self):
        """One run tells what is wrong with the system and with each type that it needs."""
        files = {"T.fbt": piece.basic("T", with_port("REAL")), "S.sys": piece.resource_system(piece.network("A T\nB GONE", "A.NO A.REQ"))}
        self.assert_refused(
            files,
            "S.sys:6: FB B: its type GONE is not found; put GONE.fbt beside the file, or name its folder with --library",
            "S.sys:8: Connection A.NO to A.REQ: A has no event output NO; remove the connection, or mend its name",
            "T.fbt:5: VarDeclaration X: fbr has no type REAL; scale it to a DINT",
        )


class Limits(Importing):
    """What grows is refused in good time, and what is long is no harm."""

    def test_subapplications_that_multiply(self):
        files = {}
        for depth in range(12):
            inner = "".join(f'<SubApp Name="I{at}" Type="LEVEL_{depth + 1}"/>\n' for at in range(4)) if depth < 11 else '<FB Name="B" Type="E_SPLIT"/>'
            files[f"LEVEL_{depth}.sub"] = piece.subapplication_type(f"LEVEL_{depth}", "GO", "GONE", "N", inner)
        files["S.sys"] = piece.application_system('<SubApp Name="A" Type="LEVEL_0"/>', "A D1")
        for name, text in files.items():
            self.put(name, text)
        done = self.imported("S.sys")
        self.assertEqual((done.stdout, done.returncode), ("", 1))
        self.assertIn("it and those before it are more than 1024 subapplications; split the system", done.stderr)

    def test_events_that_multiply(self):
        lamps = "\n".join(f"Q{at} QX QI 1" for at in range(20))
        wires = "\n".join(f"Q{at}.CNF Q{at + 1}.REQ" for at in range(19) for _ in range(2))
        self.put("S.sys", piece.resource_system(piece.network(f"B IX QI 1\n{lamps}", f"B.IND Q0.REQ\n{wires}")))
        done = self.imported("S.sys")
        self.assertEqual((done.stdout, done.returncode), ("", 1))
        line = "Connection to Q0.REQ: more than 8192 connections come of it and those before it; branch less often\n"
        self.assertTrue(done.stderr.endswith(line), done.stderr)

    def test_a_long_chain(self):
        """A thousand terminals that are opened one after the other, and lit one after the other."""
        lamps = "\n".join(f"Q{at} QX QI 1" for at in range(1000))
        wires = "\n".join(f"Q{at}.INITO Q{at + 1}.INIT\nQ{at}.CNF Q{at + 1}.REQ" for at in range(999))
        text = self.import_of({"S.sys": piece.resource_system(piece.network(f"B IX QI 1\n{lamps}", f"START.COLD Q0.INIT\nB.IND Q0.REQ\n{wires}"))})
        self.assertEqual(text.count(" TO "), 1000)
        self.assertIn("  B.IND TO Q998.REQ;\n  B.IND TO Q999.REQ;\n", text)

    def test_deep_composites(self):
        files = {f"C{at}.fbt": piece.block_type(f"C{at}", body=f"<FBNetwork>{piece.network(f'I C{at + 1}')}</FBNetwork>") for at in range(30)}
        files["S.sys"] = piece.resource_system(piece.network("One C0"))
        self.assert_refused(files, "C17.fbt:1: FBType C17: it is within more than 16 composites; flatten them")


class RefusedFiles(Importing):
    def test_declarations_in_a_doctype(self):
        line = "S.sys:1: the file: its DOCTYPE has declarations of its own; leave only the name of the DTD there, or no DOCTYPE at all"
        self.assert_refused({"S.sys": '<!DOCTYPE System [<!ENTITY a "b">]>\n<System Name="S"/>'}, line)
        self.assert_refused({"S.sys": '<!DOCTYPE System [<!ENTITY a SYSTEM "file:///etc/hostname">]>\n<System Name="&a;"/>'}, line)

    def test_no_xml(self):
        line = "S.sys:2: the file: it is not XML: mismatched tag; export it again from the tool that wrote it"
        self.assert_refused({"S.sys": '<System Name="S">\n</Sytem>'}, line)

    def test_no_file(self):
        done = self.imported("gone.sys")
        self.assertEqual((done.stderr, done.stdout, done.returncode), ("fbr-import: gone.sys: no such file\n", "", 3))

    def test_two_systems(self):
        self.put("S.sys", piece.resource_system())
        self.put("T.sys", piece.resource_system())
        done = self.imported("S.sys", "T.sys")
        line = "fbr-import: T.sys: the file: another system was given before it; import one system at a time\n"
        self.assertEqual((done.stdout, done.stderr, done.returncode), ("", line, 1))

    def test_no_folder(self):
        done = self.imported("S.sys", "--library", "gone")
        self.assertEqual((done.stdout, done.returncode), ("", 3))
        self.put("S.sys", piece.resource_system())
        done = self.imported("S.sys", "--library", "gone")
        self.assertEqual((done.stdout, done.stderr, done.returncode), ("", "fbr-import: gone: no such folder\n", 3))

    def test_no_system(self):
        self.assert_refused({"S.sys": '<Device Name="D"/>'}, "S.sys:1: Device D: the root element is not System; give a .sys, and types as .fbt and .sub")


if __name__ == "__main__":
    unittest.main()
