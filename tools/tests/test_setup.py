"""tools/setup: what it lists."""
import re
import unittest

import parts
from parts import TOOLS


class Setup(unittest.TestCase):
    def test_list(self):
        """Each package is listed once, with a state and a reason."""
        done = parts.run(TOOLS / "setup", "--list")
        self.assertEqual((done.stderr, done.returncode), ("", 0))
        listed = [re.fullmatch(r"(installed|missing) +([a-z0-9.+-]+) +(\S.*)", it) for it in done.stdout.splitlines()]
        self.assertNotIn(None, listed)
        names = [it[2] for it in listed]
        self.assertEqual(len(names), len(set(names)))
        self.assertLessEqual({"libxml2-utils", "graphviz"}, set(names))

    def test_other_words(self):
        done = parts.run(TOOLS / "setup", "--all")
        self.assertEqual((done.stdout, done.stderr, done.returncode), ("", "usage: tools/setup [--list]\n", 2))


if __name__ == "__main__":
    unittest.main()
