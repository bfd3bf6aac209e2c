"""fbr-export: files that are valid by tools/library.dtd, and certificates that stay the same after the way to XML and back.

With LONG=1 in the environment 200 random texts make the way, otherwise 20."""
import contextlib
import io
import os
import shutil
import subprocess
import sys
import unittest
from unittest import mock

import parts
import random_texts
from parts import TOOLS, TOP, fbr

from fbrtools import exporting, layout, text_read, text_write

sys.path.insert(0, str(TOP / "library"))
import bounds

LONG = bool(os.environ.get("LONG"))
PLANTS = sorted(it for folder in ("examples", "library") for it in (TOP / folder).glob("**/*.fb") if "wrong" not in it.parts)


def bound(file):
    """The certificate of a text, or what refuses it, with rows of what goes over the network."""
    return fbr("bound", file, "--repeats", "2").stdout


class RoundTrips(parts.Folder):
    def assert_same(self, file):
        """The text goes to XML and back, and has the certificate that it had."""
        there = self.exported(file, "-o", "there", on_grid=True)
        self.assertEqual((there.stderr, there.returncode), ("", 0))
        system = next((self.folder / "there").glob("*.sys"))
        back = self.imported(system, "-o", "back.fb")
        self.assertEqual((back.stderr, back.returncode), ("", 0))
        self.assertEqual(bound(self.folder / "back.fb"), bound(file))
        shutil.rmtree(self.folder / "there")

    def test_plants(self):
        for file in PLANTS:
            with self.subTest(file.name):
                self.assert_same(file)

    def test_the_library(self):
        """Each type of library/, between an INPUT at each event input and an OUTPUT at each event output."""
        for name in bounds.FILES:
            with self.subTest(name):
                self.put("library.fb", bounds.together(bounds.File(name)))
                self.assert_same(self.folder / "library.fb")

    def test_texts_without_a_certificate(self):
        for name in ("loop", "flood", "index", "division", "ring"):
            with self.subTest(name):
                self.assert_same(TOP / "examples" / "wrong" / name / f"{name}.fb")

    def test_random_texts(self):
        for number in range(200 if LONG else 20):
            with self.subTest(number):
                self.put("random.fb", random_texts.text(number))
                self.assert_same(self.folder / "random.fb")

    def test_a_large_text(self):
        """The largest system that is allowed, or an eighth of it."""
        part = 1 if LONG else 8
        made = parts.run(sys.executable, "-c", f"import systems; print(systems.system({part})[0].partition('====')[0])", cwd=TOP / "bench")
        self.put("large.fb", made.stdout)
        self.assert_same(self.folder / "large.fb")

    def test_texts_that_are_written_anew(self):
        """Reading a text and writing it changes its layout alone."""
        for file in PLANTS:
            with self.subTest(file.name):
                self.put("anew.fb", text_write.text_of(text_read.read(file.read_text(), file.name)))
                self.assertEqual(bound(self.folder / "anew.fb"), bound(file))


class Files(parts.Folder):
    @unittest.skipUnless(shutil.which("xmllint"), "xmllint is missing: tools/setup installs libxml2-utils")
    def test_they_are_valid(self):
        for file in PLANTS:
            self.assertEqual(self.exported(file, "-o", file.stem).returncode, 0)
        self.put("random.fb", random_texts.text(7))
        self.assertEqual(self.exported("random.fb", "-o", "random").returncode, 0)
        written = sorted(it for ending in ("fbt", "sys") for it in self.folder.glob(f"*/*.{ending}"))
        self.assertGreater(len(written), 50)
        done = parts.run("xmllint", "--noout", "--dtdvalid", TOOLS / "library.dtd", *written)
        self.assertEqual((done.stderr, done.returncode), ("", 0))

    def test_a_type(self):
        self.exported(TOP / "examples" / "counter.fb", "-o", "there")
        self.assertEqual(sorted(os.listdir(self.folder / "there")), ["COUNTER.fbt", "INPUT.fbt", "OUTPUT_UINT.fbt", "S.sys"])
        text = self.get("there/COUNTER.fbt")
        self.assertIn('<ECTransition Source="START" Destination="ADD" Condition="CU"', text)
        self.assertIn('<ST Text="IF CV &lt; 9 THEN CV := CV + 1; END_IF;&#10;" />', text)

    def test_channels(self):
        self.exported(TOP / "examples" / "handover" / "handover.fb", "-o", "there")
        text = self.get("there/Handover.sys")
        self.assertIn('<FB Name="Answers" Type="SUBSCRIBE_1"', text)
        self.assertIn('<Parameter Name="ID" Value="&quot;239.192.0.2:61499&quot;" />', text)

    def test_characters_that_xml_cannot_have(self):
        """They can only be in comments."""
        self.put("odd.fb", "(* a \x01 b \ufffe *) SYSTEM S (* \x02 *) DEVICE D END_DEVICE END_SYSTEM")
        self.assertEqual(self.exported("odd.fb", "-o", "there").returncode, 0)
        self.assertIn('<System Name="S" Comment="a ? b ?">', self.get("there/S.sys"))
        self.assertEqual(self.imported("there/S.sys").returncode, 0)

    @unittest.skipUnless(shutil.which("dot"), "dot is missing: tools/setup installs graphviz")
    def test_dot(self):
        """Each box has a place of its own."""
        found = layout.places(3, [(0, 1), (1, 2), (2, 0)])
        self.assertEqual((len(found), len(set(found))), (3, 3))
        self.assertNotEqual(found, [(100, 100), (1700, 100), (3300, 100)])

    def test_coordinates_of_dot(self):
        """With a `dot` on the path its places are taken: the height of the drawing is 2 inches here."""
        answer = "graph 1 4 2\nnode 0 0.5 1.5 1 1 0 solid ellipse black lightgrey\nnode 1 2.5 0.5 1 1 1 solid ellipse black lightgrey\nstop\n"
        done = subprocess.CompletedProcess([], 0, answer, "")
        with mock.patch("shutil.which", return_value="/usr/bin/dot"), mock.patch("subprocess.run", return_value=done):
            self.assertEqual(layout.places(2, [(0, 1)]), [(200, 200), (1000, 600)])

    def test_coordinates_of_a_grid(self):
        with mock.patch("shutil.which", return_value=None):
            self.assertEqual(layout.places(5, []), [(100, 100), (1700, 100), (3300, 100), (4900, 100), (100, 1000)])


class Refused(parts.Folder):
    def test_what_is_no_text(self):
        self.put("hall.fb", "FUNCTION_BLOCK F\nSYSTEM S END_SYSTEM\n")
        done = self.exported("hall.fb", "-o", "there")
        self.assertTrue(done.stderr.startswith("fbr-export: hall.fb:2: refused 2 17: "), done.stderr)
        self.assertTrue(done.stderr.endswith("; mend the text first: 'fbr explain hall.fb' says more\n"), done.stderr)
        self.assertEqual((done.stdout, done.returncode), ("", 1))
        self.assertFalse((self.folder / "there").exists())

    def test_a_name_that_a_service_takes(self):
        block = "FUNCTION_BLOCK INPUT_INT EC_STATES A; END_STATES EC_TRANSITIONS END_TRANSITIONS END_FUNCTION_BLOCK\n"
        resource = "RESOURCE R FBS I : INPUT[INT](ID := 1); END_FBS END_RESOURCE"
        self.put("hall.fb", f"{block}SYSTEM S DEVICE D {resource} END_DEVICE END_SYSTEM\n")
        done = self.exported("hall.fb", "-o", "there")
        self.assertEqual((done.stderr, done.returncode), ("fbr-export: hall.fb:1: INPUT_INT: a service of fbr has this name in XML; rename the type\n", 1))

    def test_no_file(self):
        done = self.exported("gone.fb", "-o", "there")
        self.assertTrue(done.stderr.startswith("fbr-export: gone.fb: refused 61 gone.fb: "), done.stderr)
        self.assertEqual((done.stdout, done.returncode), ("", 3))

    def test_no_program(self):
        told = io.StringIO()
        with mock.patch.dict(os.environ, {"FBR": str(self.folder / "no_program")}), contextlib.redirect_stderr(told):
            self.assertEqual(exporting.main([str(TOP / "examples" / "fork.fb"), "-o", str(self.folder / "there")]), 3)
        self.assertIn("no_program does not answer", told.getvalue())


if __name__ == "__main__":
    unittest.main()
