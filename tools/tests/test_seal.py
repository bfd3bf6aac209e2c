"""Tests of fbrseal: the vector that the proved crate has too, files that cannot be used, and what is taken once."""
import os
import tempfile
import unittest
from unittest import mock

import parts  # noqa: F401  (it sets the path)

from fbrseal.keys import BadKeys, read_keys
from fbrseal.sealer import Sealer
from fbrseal.state import STEP, StateFile, state_text
from fbrseal.tags import is_tagged, said_in, seal

KEY = bytes(range(32))
OTHER = bytes(range(1, 33))
DATAGRAM = bytes.fromhex("46420101000700")
SEALED = bytes.fromhex("530100070000000000000102464201010007001572662490409f98d5fb4f4d4fc841b5")


class SealTest(unittest.TestCase):
    """Files in a folder of their own."""

    def setUp(self) -> None:
        folder = tempfile.TemporaryDirectory()
        self.addCleanup(folder.cleanup)
        self.folder = folder.name

    def put(self, name: str, text: str, mode: int = 0o600) -> str:
        """A file with a text."""
        path = os.path.join(self.folder, name)
        with open(path, "w", encoding="utf-8") as file:
            file.write(text)
        os.chmod(path, mode)
        return path

    def state(self, name: str) -> str:
        """A new state file."""
        return self.put(name, state_text(0, {}))

    def test_the_vector(self) -> None:
        self.assertEqual(seal(KEY, 7, 258, DATAGRAM), SEALED)
        self.assertEqual(said_in(SEALED), (7, 258, DATAGRAM))
        self.assertTrue(is_tagged(KEY, SEALED))
        self.assertFalse(is_tagged(OTHER, SEALED))

    def test_keys(self) -> None:
        other = self.put("other.key", f"{OTHER.hex()}\n")
        keys = read_keys(self.put("keys", f"# a plant\n\nown 1\n1 - {KEY.hex()}\n2 10.0.0.2:24001 {other} {KEY.hex()}\r\n"))
        self.assertEqual((keys.own, keys.own_key, keys.others), (1, KEY, [(2, OTHER), (2, KEY)]))

    def test_rates(self) -> None:
        key = KEY.hex()
        for rate in ("100/s", "1/s burst 1", "1000000/s burst 65535", "0100/s burst 020"):
            for keys in (key, f"{key} {OTHER.hex()}"):
                with self.subTest(f"{keys} {rate}"):
                    self.assertEqual(len(read_keys(self.put("keys", f"own 1\n1 - {keys} {rate}\n")).peers[0].keys), len(keys.split()))

    def test_rates_that_are_none(self) -> None:
        key = KEY.hex()
        for rate in (
            "0/s", "1000001/s", "1/s burst", "1/s burst 0", "1/s burst 65536", "1/s 20", "1/s burst 1 2", "1/s 2/s", f"1/s {key}", f"{key} {key}", f"{key} 1/m",
            f"{key} 0/s", f"{key} 1/s burst +1", "4294967295/s",
        ):
            with self.subTest(rate), self.assertRaisesRegex(BadKeys, "line 2: a line is"):
                read_keys(self.put("keys", f"own 1\n1 - {key} {rate}\n"))
        for word in ("/s", "+1/s", "4294967296/s", "1/S"):
            with self.subTest(word), self.assertRaisesRegex(BadKeys, "a key is neither 64"):
                read_keys(self.put("keys", f"own 1\n1 - {key} {word}\n"))

    def test_keys_that_are_none(self) -> None:
        line = f"1 - {KEY.hex()}\n"
        for text, why in (
            (line, "a line `own NUMBER` says which"),
            ("own 1\n", "a line `own NUMBER` says which"),
            (f"own 1\nown 1\n{line}", "line 2: `own` stands"),
            (f"own 1\n{line}{line}", "line 3: this number stands"),
            (f"own 1\n{line}2 -\n", "line 3: a line is"),
            (f"own 1\n{line}65536 - {KEY.hex()}\n", "line 3: a line is"),
            ("own 1\n1 - nowhere.key\n", "a key is neither 64"),
        ):
            with self.subTest(text), self.assertRaisesRegex(BadKeys, why):
                read_keys(self.put("keys", text))
        with self.assertRaisesRegex(BadKeys, "nobody but its owner"):
            read_keys(self.put("keys", f"own 1\n{line}", 0o640))

    def test_states_that_are_none(self) -> None:
        whole = state_text(STEP, {(2, "0" * 32): 64})
        for text in ("", whole[:-1], whole[:20], whole.replace("own 65536", "own 65535"), whole + "\n", whole.replace("peer 2", "peer 3")):
            with self.subTest(text), self.assertRaisesRegex(BadKeys, "damaged or cut"):
                StateFile(self.put("state", text))
        with self.assertRaisesRegex(BadKeys, "cannot be read"):
            StateFile(os.path.join(self.folder, "nowhere"))

    def test_counters_over_restarts(self) -> None:
        path = self.state("state")
        first = StateFile(path)
        used = [first.take() for _ in range(STEP + 1)]
        self.assertEqual(used, list(range(STEP + 1)))
        self.assertEqual(StateFile(path).take(), 2 * STEP)

    def test_taken_once(self) -> None:
        one = self.put("one", f"own 1\n1 - {KEY.hex()}\n2 - {OTHER.hex()}\n")
        two = self.put("two", f"own 2\n1 - {KEY.hex()}\n2 - {OTHER.hex()}\n")
        left, right = Sealer.of_files(one, self.state("left")), Sealer.of_files(two, self.state("right"))
        sent = [left.seal(DATAGRAM) for _ in range(100)]
        self.assertEqual([right.open(it) for it in sent], [DATAGRAM] * 100)
        self.assertEqual([right.open(it) for it in sent], [None] * 100)
        again = Sealer.of_files(two, os.path.join(self.folder, "right"))
        self.assertEqual([again.open(it) for it in sent], [None] * 100)
        self.assertEqual(Sealer.of_files(one, os.path.join(self.folder, "left")).keys.own, 1)
        self.assertIsNone(again.open(sent[0][:-1]))
        self.assertIsNone(again.open(DATAGRAM))
        self.assertIsNone(again.open(seal(KEY, 5, 1, DATAGRAM)))
        self.assertIsNone(again.open(seal(KEY, 1, 2**64 - 1, DATAGRAM)))
        self.assertEqual((again.counts["taken before or too old"], again.counts["not written down"]), (100, 1))

    def test_what_cannot_be_written_down(self) -> None:
        """With a full disk no counter is used and none is taken; with room again both go on behind what was used."""
        keys = self.put("keys", f"own 1\n1 - {KEY.hex()}\n2 - {OTHER.hex()}\n")
        one = Sealer.of_files(keys, self.state("state"))
        used = [one.state.take() for _ in range(STEP)]
        with mock.patch("os.fsync", side_effect=OSError(28, "No space left on device")):
            for _ in range(3):
                with self.assertRaisesRegex(BadKeys, "the state file cannot be written: No space left on device"):
                    one.seal(DATAGRAM)
                self.assertIsNone(one.open(seal(OTHER, 2, 7, DATAGRAM)))
            with self.assertRaisesRegex(BadKeys, "No space left on device"):
                Sealer.of_files(keys, os.path.join(self.folder, "state"))
        self.assertEqual(one.counts, {"not written down": 3})
        self.assertEqual(one.open(seal(OTHER, 2, 7, DATAGRAM)), DATAGRAM)
        self.assertEqual(one.state.take(), used[-1] + 1)
        self.assertEqual(StateFile(os.path.join(self.folder, "state")).next, 2 * STEP)


if __name__ == "__main__":
    unittest.main()
