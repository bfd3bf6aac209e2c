"""Runs the tests of the tools, prints each that was skipped and why, and says how many passed: python3 tools/tests [--long] [NAME..]

NAME is a file of this folder without `test_` and `.py`, as `fbr_import`; all run if none is given."""
import os
import pathlib
import sys
import unittest

TESTS = pathlib.Path(__file__).resolve().parent


def main(words):
    if "--long" in words:
        os.environ["LONG"] = "1"
    chosen = [it for it in words if it != "--long"]
    there = sorted(it.stem.removeprefix("test_") for it in TESTS.glob("test_*.py"))
    unknown = [it for it in chosen if it not in there]
    if unknown:
        print(f"no tests of {', '.join(unknown)}; there are: {' '.join(there)}", file=sys.stderr)
        return 2
    sys.path.insert(0, str(TESTS))
    suite = unittest.TestSuite(unittest.defaultTestLoader.loadTestsFromName(f"test_{it}") for it in chosen or there)
    done = unittest.TextTestRunner(verbosity=0).run(suite)
    for test, reason in done.skipped:
        print(f"skipped {test.id()}: {reason}", file=sys.stderr)
    failed = len(done.failures) + len(done.errors)
    print(f"{done.testsRun - failed - len(done.skipped)} passed, {failed} failed, {len(done.skipped)} skipped", file=sys.stderr)
    return 1 if failed or not done.wasSuccessful() else 0


if __name__ == "__main__":
    sys.exit(main(sys.argv[1:]))
