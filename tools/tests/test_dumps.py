"""fbr itself: a dump of more signals than the answer of a case should hold."""
import itertools
import re
import unittest

from parts import Folder, program, run

# Nine arrays of 1,000 elements.
ARRAYS = range(9)
TEXT = f"""FUNCTION_BLOCK ROWS
EVENT_INPUT REQ; END_EVENT
VAR {" ".join(f"A{it} : ARRAY [0..999] OF BOOL;" for it in ARRAYS)} END_VAR
EC_STATES START; END_STATES
EC_TRANSITIONS START TO START := REQ; END_TRANSITIONS
END_FUNCTION_BLOCK
SYSTEM S DEVICE D RESOURCE R
FBS BUTTON : INPUT(ID := 1); ROWS : ROWS; END_FBS
EVENT_CONNECTIONS BUTTON.IND TO ROWS.REQ; END_CONNECTIONS
END_RESOURCE END_DEVICE END_SYSTEM
"""


def identifiers():
    """All identifiers in their order: those of one character, of two, and so on, the first of which changes fastest."""
    characters = [chr(it) for it in range(ord("!"), ord("~") + 1)]
    for length in itertools.count(1):
        for spelled in itertools.product(characters, repeat=length):
            yield "".join(reversed(spelled))


class Dumps(Folder):
    def test_identifiers(self):
        """The name of the sequence has the first identifier and each signal the next, up to those of three characters."""
        self.put("rows.fb", TEXT)
        self.put("still.story", "SEQUENCE still\n  AFTER T#1ms -> ;\nEND_SEQUENCE\n")
        watched = [it for array in ARRAYS for it in ("--watch", f"rows.a{array}")]
        done = run(program(), "play", "rows.fb", "still.story", *watched, "--vcd", "o.vcd", cwd=self.folder)
        self.assertEqual((done.stderr, done.returncode), ("", 0))
        dump = self.get("o.vcd")
        declared = re.findall(r"\$var (?:string|wire) 1 (\S+) (\S+) \$end\n", dump)
        names = ["sequence", *(f"A{array}({index})" for array in ARRAYS for index in range(1000))]
        self.assertEqual(declared, list(zip(itertools.islice(identifiers(), len(names)), names)))
        self.assertEqual([declared[at][0] for at in (0, 93, 94, 95, 94 + 94 * 94 - 1, 94 + 94 * 94)], ["!", "~", "!!", '"!', "~~", "!!!"])
        values = re.findall(r"^(?:sstill |0)(\S+)$", dump, re.MULTILINE)
        self.assertEqual(values, [identifier for identifier, _ in declared])


if __name__ == "__main__":
    unittest.main()
