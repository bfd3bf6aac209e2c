"""The tests of fbr-forte over a network: two devices of `fbr serve`, the gateway, and a peer made from docs/FORTE.md exchange values.

`test_forte_network.py` runs them in a network namespace that it makes, in which there are the loopback and a cable (veth) to a second namespace. They send
multicasts, and run nowhere else."""
import contextlib
import os
import random
import re
import shutil
import signal
import socket
import struct
import subprocess
import tempfile
import threading
import time
import unittest

import forte_peer
import parts
from parts import waited

from fbrseal.sealer import Sealer  # noqa: E402  (parts has set the path)
from fbrseal.tags import said_in, seal  # noqa: E402

DATA = parts.DATA / "forte"
APP, TABLE, GATEWAY = DATA / "exchange.fb", DATA / "exchange.table", parts.TOOLS / "fbr-forte"
PYTHON = "/usr/bin/python3"
# The namespace from which the tests were started, in the environment of those within another one.
OUTSIDE = "FBR_FORTE_OUTSIDE"
PATIENCE = 10.0
LEAST_OF_ALL = (-128, -32768, -2147483648, -9223372036854775808, 0, 0, 0, 0, -9223372036854)
MOST_OF_ALL = (127, 32767, 2147483647, 9223372036854775807, 255, 65535, 4294967295, 1, 9223372036854)
WIDE = ("SINT", "INT", "DINT", "LINT", "USINT", "UINT", "UDINT", "BOOL", "TIME")
CODES = {"BOOL": 0, "SINT": 1, "INT": 2, "DINT": 3, "LINT": 4, "USINT": 5, "UINT": 6, "UDINT": 7, "TIME": 8}


def namespace():
    """The name of the network namespace of this process."""
    return os.readlink("/proc/self/ns/net")


class Running:
    """A process with the lines of both its streams so far."""

    def __init__(self, *words, **more):
        pipe = subprocess.PIPE
        self.process = subprocess.Popen([str(it) for it in words], stdin=pipe, stdout=pipe, stderr=pipe, text=True, bufsize=1, **more)
        self.output, self.errors = [], []
        streams = ((self.process.stdout, self.output), (self.process.stderr, self.errors))
        self.threads = [threading.Thread(target=self.read, args=it, daemon=True) for it in streams]
        for it in self.threads:
            it.start()

    def read(self, stream, lines):
        """Reads a stream to its end."""
        for line in stream:
            lines.append(line.rstrip("\n"))

    def end(self, number=signal.SIGTERM):
        """Ends it by a signal; its status, when all its lines are read."""
        if self.process.poll() is None:
            self.process.send_signal(number)
        status = self.process.wait(PATIENCE)
        for it in self.threads:
            it.join(PATIENCE)
        for it in (self.process.stdin, self.process.stdout, self.process.stderr):
            with contextlib.suppress(BrokenPipeError):
                it.close()
        return status

    def tells(self, pattern, patience=PATIENCE):
        """Whether a line of standard error is of this form, or one comes within so many seconds."""
        return waited(lambda: any(re.fullmatch(pattern, it) for it in list(self.errors)), patience)


def offer(port, number, *values, host="127.0.0.1"):
    """Offers values to an INPUT of a device; each is a type and a number."""
    datagram = b"FB\1\2" + struct.pack(">HB", number, len(values)) + b"".join(struct.pack(">Bq", CODES[kind], value) for kind, value in values)
    with socket.socket(socket.AF_INET6 if ":" in host else socket.AF_INET, socket.SOCK_DGRAM) as link:
        link.sendto(datagram, (host, port))


class Inside(unittest.TestCase):
    """The devices of exchange.fb on the loopback of a namespace."""

    @classmethod
    def setUpClass(cls):
        if os.environ.get(OUTSIDE) in (None, namespace()):
            raise unittest.SkipTest("these tests run in a namespace alone, by test_forte_network.py")

    def setUp(self):
        self.folder = tempfile.mkdtemp()
        self.addCleanup(shutil.rmtree, self.folder)
        self.state, self.certificate, self.plant = f"{self.folder}/state", f"{self.folder}/exchange.cert", {}
        with open(self.state, "w", encoding="ascii") as file:
            file.write("7\n")
        subprocess.run([parts.program(), "bound", str(APP), "--room", "40", "-o", self.certificate], check=True, capture_output=True)

    def running(self, *words):
        """A process that is killed with the test."""
        found = Running(*words)
        self.addCleanup(found.end, signal.SIGKILL)
        return found

    def device(self, name, port, *more):
        """A device that runs."""
        words = ("serve", APP, self.certificate, name, "--bind", port, "--until-eof", "--verbose", *more, "24010")
        found = self.running(parts.program(), *words)
        self.assertTrue(found.tells(f"fbr: {name.upper()} receives at .*"), found.errors)
        return found

    def gateway(self, text=None, words=None):
        """A gateway that runs, with the table of the example or another one, and with its boot file, or with other words."""
        name = f"{self.folder}/table"
        with open(name, "w", encoding="utf-8") as file:
            file.write(text or TABLE.read_text(encoding="utf-8"))
        found = self.running(PYTHON, GATEWAY, *(words or ("--state", self.state)), "--summary", "1", name, APP, self.certificate)
        self.assertTrue(found.tells(r"fbr-forte: devices send to .*"), found.errors)
        return found

    def peer(self, *groups, interface="127.0.0.1"):
        """A FORTE that hears these groups."""
        found = forte_peer.Peer(interface)
        self.addCleanup(found.close)
        for group, port in groups:
            found.join(group, port)
        return found

    def hears(self, peer, group, patience=PATIENCE):
        """The values that come next to a group."""
        end = time.monotonic() + patience
        while (found := peer.heard(max(0.0, end - time.monotonic()))) is not None:
            if found[0][0] == group:
                return forte_peer.understood(found[1])
        return None

    def counts(self, gateway, way):
        """What the gateway told last of a line of its table: came, went, and dropped by reasons."""
        line = [it for it in gateway.errors if it.startswith(f"fbr-forte: {way}: ") and " came, " in it][-1]
        found = re.fullmatch(r".*: (\d+) came, (\d+) went, (\d+) dropped(?: \((.*)\))?.*", line)
        dropped = {reason: int(count) for count, _, reason in (it.partition(" ") for it in (found[4] or "").split(", ") if it)}
        self.assertEqual(sum(dropped.values()), int(found[3]))
        return int(found[1]), int(found[2]), dropped

    def test_values_both_ways_beside_kills(self):
        """The peer hears what LEFT counts, and answers; the gateway is killed twice, and goes on with later stamps."""
        left, right = self.device("Left", 24001, "--boot", "3"), self.device("Right", 24002, "--from", "127.0.0.1")
        peer = self.peer(("239.192.0.7", 61499))
        sent = 0
        for boot in (7, 8, 9):
            gateway = self.gateway()
            self.assertTrue(gateway.tells(rf"fbr-forte: devices send to 127\.0\.0\.1:24010; 3 to FORTE, 3 from FORTE, boot {boot}"), gateway.errors)
            heard = []
            while len(heard) < 30:
                values = self.hears(peer, "239.192.0.7")
                self.assertIsNotNone(values, gateway.errors)
                self.assertEqual([kind for kind, _ in values], ["INT", "BOOL", "TIME"])
                number, even, twice = (it[1] for it in values)
                self.assertEqual((even, twice), (number % 2 == 0, 2000 * number))
                heard.append(number)
                peer.send("239.192.0.8", 61500, forte_peer.spelled([("INT", 1000 * boot + len(heard))]))
            self.assertEqual(heard, list(range(heard[0], heard[0] + 30)))
            sent += 30
            for device in (left, right):
                self.assertTrue(waited(lambda: f"write 1 {1000 * boot + 30}" in device.output), (device.output[-3:], device.errors[-3:]))
                # Two that come in one turn are both seen with the value of the later one (docs/LANGUAGE.md).
                shown = [int(it.removeprefix("write 1 ")) - 1000 * boot for it in device.output[sent - 30 :]]
                self.assertEqual((len(shown), shown), (30, sorted(shown)))
            self.assertEqual(gateway.end(signal.SIGKILL), -signal.SIGKILL)
        self.assertEqual((len(left.output), len(right.output)), (sent, sent))
        self.assertEqual([it for it in left.errors + right.errors if "denied" in it], [])
        with open(self.state, encoding="ascii") as file:
            self.assertEqual(file.read(), "10\n")

    def test_a_boot_that_does_not_grow(self):
        """With the boot of the start before, what the gateway sends is denied: so the test above would see a stamp that does not grow."""
        right, peer = self.device("Right", 24002), self.peer()
        for value in (5, 6):
            with open(self.state, "w", encoding="ascii") as file:
                file.write("7\n")
            gateway = self.gateway()
            peer.send("239.192.0.8", 61500, forte_peer.spelled([("INT", value)]))
            self.assertTrue(waited(lambda: right.output) and (value == 5 or right.tells(r".* s channel 8 denied 64: .*")), right.errors)
            self.assertEqual(gateway.end(), 0)
        self.assertEqual(right.output, ["write 1 5"])

    def seals(self, name, own, addresses):
        """The words for keys of a device of the plant; its file of keys and its state are made. Others have the addresses that are given, or none."""
        keys, state = f"{self.folder}/{name}.keys", f"{self.folder}/{name}.begin"
        if not self.plant:
            for number in (1, 2, 3, 9):
                made = subprocess.run([parts.program(), "key", "--state", f"{self.folder}/state{number}"], check=True, capture_output=True, text=True)
                self.plant[number] = made.stdout.strip()
        os.replace(f"{self.folder}/state{own}", state)
        with open(keys, "w", encoding="ascii") as file:
            file.write(f"own {own}\n" + "".join(f"{number} {addresses.get(number, '-')} {key}\n" for number, key in self.plant.items()))
        os.chmod(keys, 0o600)
        return "--keys", keys, "--state", state

    def sealing(self, name, own, port):
        """A device of the plant that the test plays: what seals for it, and its socket."""
        _, keys, _, state = self.seals(name, own, {})
        link = socket.socket(socket.AF_INET, socket.SOCK_DGRAM)
        self.addCleanup(link.close)
        link.bind(("127.0.0.1", port))
        link.settimeout(PATIENCE)
        return Sealer.of_files(keys, state), link

    def test_sealed_both_ways_beside_kills(self):
        """RIGHT has keys, and names the gateway in its file of keys alone; the gateway is killed twice, and goes on."""
        words = ("serve", APP, self.certificate, "Right", "--bind", 24002, "--until-eof", "--summary", "1")
        right = self.running(parts.program(), *words, *self.seals("right", 2, {9: "127.0.0.1:24010"}))
        self.assertTrue(right.tells("fbr: RIGHT receives at .*"), right.errors)
        client, link = self.sealing("client", 3, 24003)
        own, peer = (*self.seals("gateway", 9, {}), "--boot-file", self.state), self.peer(("239.192.0.11", 61499))
        for boot in (7, 8, 9):
            gateway = self.gateway(words=own)
            self.assertTrue(gateway.tells(rf"fbr-forte: devices send to .*, boot {boot}, sealed as number 9"), gateway.errors)
            peer.send("239.192.0.8", 61500, forte_peer.spelled([("INT", boot)]))
            self.assertTrue(waited(lambda: f"write 1 {boot}" in right.output), (right.output, right.errors, gateway.errors))
            # After a kill up to 63 are dropped, since the gateway may have taken them before (docs/KEYS.md).
            for _ in range(63 if boot > 7 else 0):
                link.sendto(client.seal(b"FB\1\2\0\2\0"), ("127.0.0.1", 24002))
                time.sleep(0.005)
            while self.hears(peer, "239.192.0.11", 0.5) is not None:
                continue
            for _ in range(10):
                link.sendto(client.seal(b"FB\1\2\0\2\0"), ("127.0.0.1", 24002))
                self.assertEqual(self.hears(peer, "239.192.0.11"), [], gateway.errors)
            self.assertEqual(gateway.end(signal.SIGKILL), -signal.SIGKILL)
        self.assertEqual(right.output, ["write 1 7", "write 1 8", "write 1 9"])
        self.assertFalse([it for it in right.errors if "dropped so far" in it or "denied" in it and "denied none" not in it], right.errors)
        self.without_its_state(own)

    def without_its_state(self, words):
        """A gateway whose state file is lost, cut or open to others does not start, and begins none."""
        _, keys, _, state, *_ = words
        command = [PYTHON, GATEWAY, *words, f"{self.folder}/table", APP, self.certificate]
        with open(state, encoding="ascii") as file:
            whole = file.read()
        for text, says in ((None, "the state file cannot be read; `fbr key --state FILE` begins one"), (whole[:-9], "the state file is damaged or cut")):
            os.remove(state)
            if text is not None:
                with open(state, "w", encoding="ascii") as file:
                    file.write(text)
            done = subprocess.run(command, capture_output=True, text=True, timeout=PATIENCE)
            self.assertEqual((done.returncode, done.stdout), (3, ""), done.stderr)
            self.assertTrue(done.stderr.startswith(f"fbr-forte: {state}: {says}"), done.stderr)
            self.assertEqual(os.path.exists(state), text is not None)
            with open(state, "w", encoding="ascii") as file:
                file.write(whole)
        os.chmod(keys, 0o640)
        done = subprocess.run(command, capture_output=True, text=True, timeout=PATIENCE)
        self.assertEqual((done.returncode, done.stderr), (3, f"fbr-forte: {keys} holds keys: nobody but its owner may read or write it (chmod 600)\n"))

    def test_what_is_not_sealed_as_it_has_to_be(self):
        """The test is RIGHT: what it sealed goes to the group once, and the rest is dropped and counted, before a restart of the gateway and after it."""
        right, link = self.sealing("right", 2, 24002)
        own, peer, at = (*self.seals("gateway", 9, {}), "--boot-file", self.state), self.peer(("239.192.0.11", 61499)), ("127.0.0.1", 24010)
        gateway = self.gateway(words=own)
        bell = b"FB\1\1\0\x0b\0"
        recorded = [right.seal(bell) for _ in range(3)]
        forged = recorded[0][:-1] + bytes([recorded[0][-1] ^ 1])
        for it in (*recorded, *recorded, bell, forged, seal(bytes(32), 2, 999, bell), seal(right.keys.own_key, 4, 999, bell), right.seal(b"FB")):
            link.sendto(it, at)
        self.assertEqual([self.hears(peer, "239.192.0.11", 0.5 if it == 3 else PATIENCE) for it in range(4)], [[], [], [], None])
        peer.send("239.192.0.12", 61499, b"\x05")
        sealed = link.recv(256)
        self.assertEqual(right.open(sealed), b"FB\1\1\0\x0c\0")
        dropped = {"taken before or too old": 3, "not sealed": 1, "under another key": 2, "of an unknown number": 1, "no message": 1}
        self.assertTrue(gateway.tells(r"fbr-forte: RIGHT at .*: 11 came, 1 went, 8 dropped .*"), gateway.errors)
        self.assertEqual(gateway.end(), 0)
        self.assertEqual(self.counts(gateway, "RIGHT at 127.0.0.1:24002"), (11, 1, dropped))
        told = [it for it in gateway.errors if "sent what does not open; dropped" in it]
        self.assertEqual(len(told), 4, gateway.errors)
        gateway = self.gateway(words=own)
        for it in recorded:
            link.sendto(it, at)
        self.assertTrue(gateway.tells(r"fbr-forte: RIGHT at .*: 3 came, 0 went, 3 dropped \(3 taken before or too old\)"), gateway.errors)
        self.assertIsNone(self.hears(peer, "239.192.0.11", 0.5))
        for _ in range(64):
            link.sendto(right.seal(bell), at)
        self.assertEqual(self.hears(peer, "239.192.0.11"), [])
        peer.send("239.192.0.12", 61499, b"\x05")
        self.assertGreater(said_in(link.recv(256))[1], said_in(sealed)[1])
        self.assertEqual(gateway.end(), 0)

    def test_a_gateway_without_keys(self):
        """A device with keys drops what it sends, and it takes nothing of what the device sends."""
        words = ("serve", APP, self.certificate, "Right", "--bind", 24002, "--until-eof", "--summary", "1")
        right = self.running(parts.program(), *words, *self.seals("right", 2, {9: "127.0.0.1:24010"}))
        self.assertTrue(right.tells("fbr: RIGHT receives at .*"), right.errors)
        client, link = self.sealing("client", 3, 24003)
        gateway, peer = self.gateway(), self.peer()
        peer.send("239.192.0.12", 61499, b"\x05")
        self.assertTrue(right.tells(r"fbr: dropped so far: not sealed 1, .*"), right.errors)
        link.sendto(client.seal(b"FB\1\2\0\2\0"), ("127.0.0.1", 24002))
        self.assertTrue(gateway.tells(r"fbr-forte: RIGHT at .*: 1 came, 1 went, 1 dropped \(1 no message\)"), gateway.errors)
        self.assertEqual(right.output, [])

    def test_all_types_both_ways(self):
        """The bounds of each type, and events without values."""
        right = self.device("Right", 24002)
        gateway, peer = self.gateway(), self.peer(("239.192.0.9", 61499), ("239.192.0.11", 61499))
        for values in (LEAST_OF_ALL, MOST_OF_ALL):
            offer(24002, 1, *zip(WIDE, values))
            raw = list(zip(WIDE, (*values[:-1], values[-1] * 1_000_000)))
            self.assertEqual(self.hears(peer, "239.192.0.9"), raw)
            peer.send("239.192.0.10", 61499, forte_peer.spelled(raw))
            wanted = f"write 2 {' '.join(map(str, values))}"
            self.assertTrue(waited(lambda: wanted in right.output), (wanted, right.output, right.errors))
        offer(24002, 2)
        self.assertEqual(self.hears(peer, "239.192.0.11"), [])
        peer.send("239.192.0.12", 61499, b"\x05")
        peer.send("239.192.0.12", 61499, b"\x05\x00")
        self.assertTrue(waited(lambda: right.output.count("write 3") == 2), right.output)
        self.assertEqual(gateway.end(), 0)
        self.assertEqual(self.counts(gateway, "CHANNEL 9 to 239.192.0.9:61499"), (2, 2, {}))
        self.assertEqual(self.counts(gateway, "CHANNEL 10 from 239.192.0.10:61499"), (2, 2, {}))
        self.assertEqual(self.counts(gateway, "RIGHT at 127.0.0.1:24002"), (3, 4, {}))

    def test_bad_datagrams(self):
        """5,000 datagrams at random and mutated end nothing, are all counted, and values still come after each 100 of them."""
        right, source = self.device("Right", 24002), random.Random(7)
        gateway, peer = self.gateway(), self.peer()
        stranger = socket.socket(socket.AF_INET, socket.SOCK_DGRAM)
        self.addCleanup(stranger.close)
        stranger.bind(("127.0.0.1", 24001))
        for batch in range(50):
            for _ in range(50):
                wide = bytearray(forte_peer.spelled(list(zip(WIDE, MOST_OF_ALL))))
                wide[source.randrange(len(wide))] = source.randrange(256)
                peer.send("239.192.0.10", 61499, bytes(wide[: source.randrange(1, 60)]))
                stranger.sendto(b"FB" + source.randbytes(source.randrange(100)), ("127.0.0.1", 24010))
            peer.send("239.192.0.8", 61500, forte_peer.spelled([("INT", batch)]))
            self.assertTrue(waited(lambda: f"write 1 {batch}" in right.output), (right.output[-3:], gateway.errors[-9:]))
        self.assertTrue(gateway.tells(r"fbr-forte: LEFT .*: 2500 came, .*") and gateway.tells(r"fbr-forte: CHANNEL 10 .*: 2500 came, .*"), gateway.errors)
        self.assertEqual(gateway.end(), 0)
        _, went, dropped = self.counts(gateway, "CHANNEL 10 from 239.192.0.10:61499")
        self.assertEqual(went + sum(dropped.values()), 2500)
        self.assertLessEqual({"wrong length", "wrong number of values"}, set(dropped))
        self.assertEqual(self.counts(gateway, "LEFT at 127.0.0.1:24001"), (2500, 50, {"no message": 2500}))
        self.assertFalse([it for it in gateway.errors if "Traceback" in it or "Exception" in it])

    def test_a_gateway_that_stands_still(self):
        """What comes while it stands still and finds no room is counted too, and it goes on."""
        gateway, peer = self.gateway(), self.peer()
        gateway.process.send_signal(signal.SIGSTOP)
        for _ in range(3000):
            peer.send("239.192.0.12", 61499, b"\x05")
        gateway.process.send_signal(signal.SIGCONT)
        self.assertTrue(gateway.tells(r"fbr-forte: CHANNEL 12 .*: [1-9]\d* came, .*"), gateway.errors)
        peer.send("239.192.0.12", 61499, b"\x05")
        told = r"fbr-forte: group 239\.192\.0\.12:61499: (\d+) datagrams came faster than they were read, and were dropped by the system"
        self.assertTrue(gateway.tells(told), gateway.errors)
        self.assertEqual(gateway.end(), 0)
        came, went, dropped = self.counts(gateway, "CHANNEL 12 from 239.192.0.12:61499")
        lost = int([found[1] for it in gateway.errors if (found := re.fullmatch(told, it))][-1])
        self.assertEqual((came + lost, came, dropped), (3001, went, {}))

    def test_devices_at_ipv6(self):
        """Devices have addresses of IPv6; groups are of IPv4 as ever."""
        table = TABLE.read_text(encoding="utf-8").replace("bind 24010", "bind [::1]:24010").replace("device Left 24001\n", "")
        table = re.sub(r"CHANNEL 7 .*\n", "", table.replace("127.0.0.1:24002", "[::1]:24002"))
        right = self.running(parts.program(), "serve", APP, self.certificate, "Right", "--bind", "[::1]:24002", "--from", "::1", "--until-eof", "[::1]:24010")
        self.assertTrue(right.tells("fbr: RIGHT receives at .*"), right.errors)
        gateway, peer = self.gateway(table), self.peer(("239.192.0.11", 61499))
        offer(24002, 2, host="::1")
        self.assertEqual(self.hears(peer, "239.192.0.11"), [])
        peer.send("239.192.0.8", 61500, forte_peer.spelled([("INT", -5)]))
        self.assertTrue(waited(lambda: "write 1 -5" in right.output), (right.output, gateway.errors))
        self.assertEqual(gateway.end(), 0)
        self.assertIn("CHANNEL 8 has a SUBSCRIBE in LEFT too, which no `device` line names", "\n".join(gateway.errors))
        self.assertEqual(self.counts(gateway, "RIGHT at [::1]:24002"), (1, 1, {}))

    def test_over_a_cable(self):
        """The peer is another machine: `from` names it, a stranger is dropped, and the cable is out for a while."""
        table = TABLE.read_text(encoding="utf-8").replace("interface 127.0.0.1", "interface 10.72.0.1") + "from 10.72.0.2\n"
        right, gateway = self.device("Right", 24002), self.gateway(table)
        listening = self.far("listen", "239.192.0.11:61499", "60")
        self.assertTrue(waited(lambda: offer(24002, 2) or time.sleep(0.1) or "10.72.0.1:" in "".join(listening.output)), listening.errors)
        self.assertTrue(listening.output[0].endswith(" 05 no values"), listening.output)
        self.far("send", "239.192.0.8:61500", "INT=5").process.wait(PATIENCE)
        self.assertTrue(waited(lambda: "write 1 5" in right.output), right.output)
        self.peer(interface="10.72.0.1").send("239.192.0.8", 61500, forte_peer.spelled([("INT", 6)]))
        self.assertTrue(gateway.tells(r".*: no `from` line names 10\.72\.0\.1; dropped, .*"), gateway.errors)
        # On another interface, on which somebody else has joined the group: this is not heard at all.
        beside = self.peer(("239.192.0.8", 61500))
        beside.send("239.192.0.8", 61500, forte_peer.spelled([("INT", 7)]))
        self.assertEqual(self.hears(beside, "239.192.0.8"), [("INT", 7)])
        self.cable_is_out(gateway, right, listening)
        self.assertEqual(gateway.end(), 0)
        self.assertFalse({"write 1 6", "write 1 7"} & set(right.output))
        dropped = self.counts(gateway, "CHANNEL 8 from 239.192.0.8:61500")[2]
        self.assertEqual(dropped, {"from a stranger": 1})
        self.assertGreater(self.counts(gateway, "CHANNEL 11 to 239.192.0.11:61499")[2]["could not be sent"], 0)

    def far(self, *words):
        """The peer in the other namespace, as its command."""
        return self.running("ip", "netns", "exec", "forte", PYTHON, forte_peer.__file__, *words, "--interface", "10.72.0.2")

    def cable_is_out(self, gateway, right, listening):
        """The interface of the gateway goes away, and comes back as another one: each fault is told once, and then both ways work again."""
        ip("link del cable")
        multicast, group = r"fbr-forte: multicast from 10\.72\.0\.1: ", r"fbr-forte: group 239\.192\.0\.8:61500: "
        self.assertTrue(waited(lambda: offer(24002, 2) or gateway.tells(f"{multicast}.*; retrying", 0.1)), gateway.errors)
        self.assertTrue(gateway.tells(f"{group}.*; retrying"), gateway.errors)
        time.sleep(2.0)
        ip("link add cable type veth peer name eth0 netns forte")
        ip("addr add 10.72.0.1/24 dev cable")
        ip("link set cable up")
        ip("-n forte addr add 10.72.0.2/24 dev eth0")
        ip("-n forte link set eth0 up")
        listening.end()
        listening = self.far("listen", "239.192.0.11:61499", "60")
        self.assertTrue(gateway.tells(f"{group}works again after .*"), gateway.errors)
        self.assertTrue(waited(lambda: offer(24002, 2) or time.sleep(0.1) or listening.output), (listening.errors, gateway.errors))
        self.assertTrue(gateway.tells(f"{multicast}works again after .*"), gateway.errors)
        self.assertTrue(waited(lambda: self.far("send", "239.192.0.8:61500", "INT=8").process.wait(PATIENCE) or "write 1 8" in right.output), right.output)
        told = [it for it in gateway.errors if it.endswith("; retrying")]
        self.assertEqual(len(told), len(set(told)), told)

    def test_without_a_route(self):
        """Without `interface` and without a route to groups nothing goes and nothing is joined, until there is a route."""
        table = TABLE.read_text(encoding="utf-8").replace("interface 127.0.0.1\n", "")
        gateway, right = self.gateway(table), self.device("Right", 24002)
        self.assertTrue(gateway.tells(r"fbr-forte: group 239\.192\.0\.8:61500: No such device; retrying"), gateway.errors)
        multicast = "fbr-forte: multicast from this machine: "
        self.assertTrue(waited(lambda: offer(24002, 2) or gateway.tells(f"{multicast}Network is unreachable; retrying", 0.1)), gateway.errors)
        ip("route add 224.0.0.0/4 dev lo")
        self.addCleanup(ip, "route del 224.0.0.0/4 dev lo")
        self.assertTrue(gateway.tells(r"fbr-forte: group 239\.192\.0\.8:61500: works again after .*"), gateway.errors)
        self.assertTrue(waited(lambda: offer(24002, 2) or gateway.tells(f"{multicast}works again .*", 0.1)), gateway.errors)
        self.peer(interface="127.0.0.1").send("239.192.0.8", 61500, forte_peer.spelled([("INT", 4)]))
        self.assertTrue(waited(lambda: "write 1 4" in right.output), (right.output, gateway.errors))
        self.assertEqual(gateway.end(), 0)
        self.assertTrue(gateway.tells(r"fbr-forte: group 239\.192\.0\.8:61500: 1 fault, [1-9]\d* failed attempts?"), gateway.errors)

    def test_an_address_that_is_taken(self):
        """Somebody else has the gateway's address for a while."""
        with socket.socket(socket.AF_INET, socket.SOCK_DGRAM) as other:
            other.bind(("127.0.0.1", 24010))
            gateway = self.gateway()
            self.assertTrue(gateway.tells(r"fbr-forte: bind 127\.0\.0\.1:24010: Address already in use; retrying"), gateway.errors)
            time.sleep(0.5)
        self.assertTrue(gateway.tells(r"fbr-forte: bind 127\.0\.0\.1:24010: works again after .*"), gateway.errors)
        right, peer = self.device("Right", 24002), self.peer()
        peer.send("239.192.0.8", 61500, forte_peer.spelled([("INT", 3)]))
        self.assertTrue(waited(lambda: "write 1 3" in right.output), (right.output, gateway.errors))
        for number in (signal.SIGINT, signal.SIGHUP):
            self.assertEqual(gateway.end(number), 0)
            gateway = self.gateway()


def ip(words):
    """A change of the network of the namespace."""
    subprocess.run(["ip", *words.split()], check=True)


if __name__ == "__main__":
    unittest.main()
