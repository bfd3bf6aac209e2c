"""fbr-forte without its sockets: bytes of values, tables, stamps, and what is dropped. Nothing here needs a clock or a network."""
import argparse
import functools
import json
import os
import random
import struct
import subprocess
import sys
import tempfile
import unittest
from unittest import mock

import forte_peer
import parts

from fbrforte import encoding, stamps  # noqa: E402  (parts has set the path)
from fbrforte.checking import planned  # noqa: E402
from fbrforte.encoding import Unfit, decode, encode  # noqa: E402
from fbrforte.ends import End, ends_of  # noqa: E402
from fbrforte.gateway import Gateway  # noqa: E402
from fbrforte.lines import ChannelLine, DeviceLine  # noqa: E402
from fbrforte.links import Link  # noqa: E402
from fbrforte.main import known  # noqa: E402
from fbrforte.stamps import BootError, Stamps  # noqa: E402
from fbrforte.table import read_table  # noqa: E402
from fbrio.checking import Refused  # noqa: E402
from fbrio.datagrams import Message, NoMessage, decoded, encoded  # noqa: E402
from fbrio.faults import Faults  # noqa: E402
from fbrio.lines import Fault  # noqa: E402
from fbrio.values import TYPES  # noqa: E402
from fbrseal.keys import Keys, Peer  # noqa: E402
from fbrseal.sealer import Sealer  # noqa: E402
from fbrseal.state import StateFile, state_text  # noqa: E402
from fbrseal.tags import said_in, seal  # noqa: E402

DATA = parts.DATA / "forte"
APP, TABLE = DATA / "exchange.fb", DATA / "exchange.table"


@functools.cache
def explained() -> dict:
    """What `fbr` says of the text."""
    return json.loads(parts.fbr("explain", APP, "--json").stdout)


def ends() -> list[End]:
    """The ends of channels of the text."""
    return ends_of(explained())


LEFT, RIGHT, FORTE = ("127.0.0.1", 24001), ("127.0.0.1", 24002), ("10.0.0.5", 61499)
WIDE = ("SINT", "INT", "DINT", "LINT", "USINT", "UINT", "UDINT", "BOOL", "TIME")
MUTATIONS = 20_000

# A type, a value, its bytes in a datagram of FORTE, and its nine bytes in one of fbr; both written by hand. TIME is in milliseconds.
BYTES = [
    ("BOOL", 0, "40", "00 0000000000000000"),
    ("BOOL", 1, "41", "00 0000000000000001"),
    ("SINT", -128, "42 80", "01 ffffffffffffff80"),
    ("SINT", -1, "42 ff", "01 ffffffffffffffff"),
    ("SINT", 127, "42 7f", "01 000000000000007f"),
    ("INT", -32768, "43 80 00", "02 ffffffffffff8000"),
    ("INT", 258, "43 01 02", "02 0000000000000102"),
    ("INT", 32767, "43 7f ff", "02 0000000000007fff"),
    ("DINT", -2147483648, "44 80 00 00 00", "03 ffffffff80000000"),
    ("DINT", 2147483647, "44 7f ff ff ff", "03 000000007fffffff"),
    ("LINT", -9223372036854775808, "45 80 00 00 00 00 00 00 00", "04 8000000000000000"),
    ("LINT", 9223372036854775807, "45 7f ff ff ff ff ff ff ff", "04 7fffffffffffffff"),
    ("USINT", 0, "46 00", "05 0000000000000000"),
    ("USINT", 255, "46 ff", "05 00000000000000ff"),
    ("UINT", 0, "47 00 00", "06 0000000000000000"),
    ("UINT", 65535, "47 ff ff", "06 000000000000ffff"),
    ("UDINT", 0, "48 00 00 00 00", "07 0000000000000000"),
    ("UDINT", 4294967295, "48 ff ff ff ff", "07 00000000ffffffff"),
    ("TIME", -9223372036854775808, "4c 80 00 00 00 00 00 00 00", "08 8000000000000000"),
    ("TIME", 9223372036854775807, "4c 7f ff ff ff ff ff ff ff", "08 7fffffffffffffff"),
]
# A unit, a TIME of that unit in bytes, and whole milliseconds.
TIMES = [
    ("microseconds", "4c 00 00 00 00 00 0f 42 40", 1000),
    ("microseconds", "4c 00 00 00 00 00 00 07 cf", 1),
    ("microseconds", "4c ff ff ff ff ff ff fc 19", 0),
    ("microseconds", "4c ff ff ff ff ff ff fc 18", -1),
    ("nanoseconds", "4c 00 00 00 00 00 0f 42 40", 1),
    ("nanoseconds", "4c 00 00 00 00 00 0f 42 3f", 0),
    ("nanoseconds", "4c 80 00 00 00 00 00 00 00", -9223372036854),
    ("milliseconds", "4c 00 00 00 00 00 0f 42 40", 1_000_000),
]
# Bytes for an INT and a BOOL, the reason by which they are counted, and what is told.
UNFIT = [
    ("", "wrong length", "no bytes"),
    ("43", "wrong length", "1 bytes, which end within the INT that begins at byte 0"),
    ("43 01", "wrong length", "2 bytes, which end within the INT that begins at byte 0"),
    ("43 01 02", "wrong number of values", "1 value instead of 2"),
    ("43 01 02 41 40", "wrong number of values", "3 values instead of 2"),
    ("05", "wrong number of values", "0 values instead of 2"),
    ("41 43 01 02", "wrong type", "BOOL instead of INT as value 1"),
    ("43 01 02 46 01", "wrong type", "USINT instead of BOOL as value 2"),
    ("43 01 02 05 00", "NULL", "NULL at byte 3, which fbr does not have"),
    ("49 00 00 00 00 00 00 00 01", "ULINT", "ULINT at byte 0, which fbr does not have"),
    ("43 01 02 4a 3f 80 00 00", "REAL", "REAL at byte 3, which fbr does not have"),
    ("4b 3f f0 00 00 00 00 00 00", "LREAL", "LREAL at byte 0, which fbr does not have"),
    ("4d 00", "DATE", "DATE at byte 0, which fbr does not have"),
    ("4e 00", "TIME_OF_DAY", "TIME_OF_DAY at byte 0, which fbr does not have"),
    ("4f 00", "DATE_AND_TIME", "DATE_AND_TIME at byte 0, which fbr does not have"),
    ("50 00 02 68 69", "STRING", "STRING at byte 0, which fbr does not have"),
    ("51 00", "BYTE", "BYTE at byte 0, which fbr does not have"),
    ("52 00 00", "WORD", "WORD at byte 0, which fbr does not have"),
    ("53 00 00 00 00", "DWORD", "DWORD at byte 0, which fbr does not have"),
    ("54 00 00 00 00 00 00 00 00", "LWORD", "LWORD at byte 0, which fbr does not have"),
    ("55 00 00", "WSTRING", "WSTRING at byte 0, which fbr does not have"),
    ("76 00 02 43 00 01 00 02", "ARRAY", "ARRAY at byte 0, which fbr does not have"),
    ("7f 00", "STRUCT", "STRUCT at byte 0, which fbr does not have"),
    ("99", "tag 0x99", "tag 0x99 at byte 0, which fbr does not have"),
    ("46 42 01 01 00 08", "tag 0x01", "tag 0x01 at byte 2, which fbr does not have"),
]


def types(*names):
    """Types by their names."""
    return tuple(TYPES[it] for it in names)


class OfBytes(unittest.TestCase):
    """Values in datagrams of FORTE."""

    def test_each_type_at_its_bounds(self):
        for name, value, written, _ in BYTES:
            expected = bytes.fromhex(written)
            self.assertEqual(encode(types(name), (value,), "milliseconds"), expected, (name, value))
            self.assertEqual(decode(types(name), expected, "milliseconds"), (value,), (name, value))
        self.assertEqual({it[0] for it in BYTES}, set(TYPES))

    def test_many_values(self):
        written = bytes.fromhex("43 01 02 41 4c 00 00 00 00 00 0f 42 40")
        self.assertEqual(encode(types("INT", "BOOL", "TIME"), (258, 1, 1000), "microseconds"), written)
        self.assertEqual(decode(types("INT", "BOOL", "TIME"), written, "microseconds"), (258, 1, 1000))
        every = [it for it in BYTES if it[0] != "TIME"] * 4
        for at in range(0, len(every) - 16, 5):
            some = every[at : at + 16]
            written = bytes.fromhex("".join(it[2] for it in some))
            self.assertEqual(encode(types(*(it[0] for it in some)), tuple(it[1] for it in some)), written)
            self.assertEqual(decode(types(*(it[0] for it in some)), written), tuple(it[1] for it in some))

    def test_no_values(self):
        self.assertEqual((encode((), ()), encode((), (), "", True)), (b"\x05", b"\x05\x00"))
        self.assertEqual((decode((), b"\x05"), decode((), b"\x05\x00")), ((), ()))
        for strange in ("", "05 00 00", "05 01", "40", "00"):
            with self.assertRaises(Unfit):
                decode((), bytes.fromhex(strange))

    def test_units_of_time(self):
        for unit, written, value in TIMES:
            self.assertEqual(decode(types("TIME"), bytes.fromhex(written), unit), (value,), (unit, written))
        self.assertEqual(encode(types("TIME"), (1000,), "microseconds"), bytes.fromhex("4c 00 00 00 00 00 0f 42 40"))
        self.assertEqual(encode(types("TIME"), (-1,), "nanoseconds"), bytes.fromhex("4c ff ff ff ff ff f0 bd c0"))
        for unit, most in (("microseconds", 9223372036854775), ("nanoseconds", 9223372036854)):
            for value in (most, -most):
                self.assertEqual(decode(types("TIME"), encode(types("TIME"), (value,), unit), unit), (value,))
            for value in (most + 1, -most - 1):
                with self.assertRaises(Unfit) as found:
                    encode(types("TIME"), (value,), unit)
                self.assertEqual((found.exception.reason, str(found.exception)), ("TIME too long", f"{value} ms, which is more {unit} than 64 bits hold"))

    def test_what_does_not_fit(self):
        for written, reason, says in UNFIT:
            with self.assertRaises(Unfit) as found:
                decode(types("INT", "BOOL"), bytes.fromhex(written))
            self.assertEqual((found.exception.reason, str(found.exception)), (reason, says), written)
        known = {encoding.FALSE_TAG, encoding.TRUE_TAG, *encoding.OF_TAG, *encoding.FOREIGN}
        for tag in set(range(256)) - known:
            with self.assertRaises(Unfit) as found:
                decode(types("INT"), bytes([tag, 0, 0]))
            self.assertEqual(found.exception.reason, f"tag 0x{tag:02X}")

    def test_the_peer_reads_the_page_as_the_gateway_does(self):
        for name, value, written, _ in BYTES:
            self.assertEqual(forte_peer.spelled([(name, value)]), bytes.fromhex(written))
            self.assertEqual(forte_peer.understood(bytes.fromhex(written)), [(name, value)])


class OfDatagrams(unittest.TestCase):
    """Datagrams of channels of fbr, as docs/NETWORK.md has them."""

    def test_both_formats(self):
        first = bytes.fromhex("46 42 01 01 00 07 01 02 00 00 00 00 00 00 01 02")
        second = bytes.fromhex("46 42 02 01 00 07 00 00 00 01 00 00 00 03 01 02 00 00 00 00 00 00 01 02")
        for written, message in ((first, Message(7, types("INT"), (258,))), (second, Message(7, types("INT"), (258,), (1, 3)))):
            self.assertEqual(encoded(message), written)
            self.assertEqual(decoded(written), message)

    def test_each_type_at_its_bounds(self):
        for name, value, _, written in BYTES:
            datagram = bytes.fromhex("46 42 01 01 ff ff 01" + written)
            self.assertEqual(encoded(Message(65535, types(name), (value,))), datagram)
            self.assertEqual(decoded(datagram), Message(65535, types(name), (value,)))

    def test_what_is_no_message(self):
        for written, says in (
            ("", "0 bytes that do not begin as a message does"),
            ("46 43 01 01 00 07 00", "7 bytes that do not begin as a message does"),
            ("46 42 03 01 00 07 00", "version 3, purpose 1"),
            ("46 42 01 03 00 07 00", "version 1, purpose 3"),
            ("46 42 01 02 00 07 00", "a message for an INPUT (7), and not for a channel"),
            ("46 42 01 01 00 07 01", "7 bytes, which is not the length of the values that it announces"),
            ("46 42 01 01 00 07 00 00", "8 bytes, which is not the length of the values that it announces"),
            ("46 42 02 01 00 07 00", "7 bytes, which is not the length of the values that it announces"),
            ("46 42 01 01 00 07 11" + "00" * 153, "160 bytes, which is not the length of the values that it announces"),
            ("46 42 01 01 00 07 01 09 0000000000000000", "9 is the code of no type"),
            ("46 42 01 01 00 07 01 00 0000000000000002", "2 does not fit BOOL (0 to 1)"),
            ("46 42 01 01 00 07 01 01 0000000000000080", "128 does not fit SINT (-128 to 127)"),
        ):
            with self.assertRaises(NoMessage) as found:
                decoded(bytes.fromhex(written))
            self.assertEqual(str(found.exception), says)


# A line of a table, and what is told of it.
FAULTS = [
    ("CHANNELS 7 INT", "a line must begin with CHANNEL, device, bind, interface, from, not 'CHANNELS'"),
    ("CHANNEL", "the number of a channel is missing"),
    ("CHANNEL x INT publish 239.192.0.2:61499", "the number of a channel must be a number from 0 to 65535, not 'x'"),
    ("CHANNEL 65536 INT publish 239.192.0.2:61499", "the number of a channel must be a number from 0 to 65535, not '65536'"),
    ("CHANNEL 7", "a type is missing"),
    ("CHANNEL 7 INT", "publish or subscribe is missing"),
    ("CHANNEL 7 INT publish", "GROUP:PORT is missing"),
    (
        "CHANNEL 7 REAL publish 239.192.0.2:61499",
        "'REAL' is not a type; types are BOOL, SINT, INT, DINT, LINT, USINT, UINT, UDINT, TIME, and EVENT where there are no values",
    ),
    *(
        (f"CHANNEL 7 INT publish {word}", f"the group must be ADDRESS:PORT with an address from 224.0.0.0 to 239.255.255.255, not '{word}'")
        for word in ("10.0.0.1:61499", "239.192.0.2", "239.192.0.2:0", "239.192.0.2:65536", "239.192.0.2:x", "fbdk[].ip[239.192.0.2:61499]", "[ff02::1]:5")
    ),
    (
        "CHANNEL 7 INT publish 239.192.0.2:61499 fast",
        "'fast' is unexpected here; expected: CHANNEL N TYPES publish|subscribe GROUP:PORT [milliseconds|microseconds|nanoseconds] [long-null]",
    ),
    ("CHANNEL 7 TIME publish 239.192.0.2:61499", "the unit of TIME is missing: milliseconds, microseconds, nanoseconds"),
    ("CHANNEL 7 INT publish 239.192.0.2:61499 microseconds", "`microseconds` is for a TIME, and there is none"),
    ("CHANNEL 7 TIME publish 239.192.0.2:61499 nanoseconds microseconds", "`microseconds` and `nanoseconds` exclude each other"),
    ("CHANNEL 7 TIME publish 239.192.0.2:61499 nanoseconds nanoseconds", "'nanoseconds' is given twice"),
    ("CHANNEL 7 INT publish 239.192.0.2:61499 long-null", "`long-null` is for an EVENT that is published"),
    ("CHANNEL 7 EVENT subscribe 239.192.0.2:61499 long-null", "`long-null` is for an EVENT that is published"),
    ("device", "the name of a device is missing"),
    ("device A", "the address of the device is missing"),
    *(
        (f"device A {word}", f"the address of the device must be PORT, ADDRESS:PORT or [ADDRESS]:PORT, not '{word}'")
        for word in ("x", "0", "65536", "10.0.0.1", "10.0.0.1:", "plc:24001", "::1:5", "[10.0.0.1:5", "[::1]", "239.0.0.1:5", "[ff02::1]:5")
    ),
    ("device A 24001 x", "'x' is unexpected here; the line ends before it"),
    ("bind", "the address of the gateway is missing"),
    ("bind a", "the address of the gateway must be PORT, ADDRESS:PORT or [ADDRESS]:PORT, not 'a'"),
    ("interface eth0", "the interface must be an address of IPv4, as 10.0.0.5, not 'eth0'"),
    ("interface 0.0.0.0", "the interface must be an address of IPv4, as 10.0.0.5, not '0.0.0.0'"),
    ("from 239.0.0.1", "the address of a FORTE must be an address of IPv4, as 10.0.0.5, not '239.0.0.1'"),
]


class OfTables(parts.Folder):
    """What a table says, alone and beside a text."""

    def test_a_whole_table(self):
        table, faults = read_table(
            "t",
            "# all\nbind [fd00::9]:24010\ninterface 10.0.0.9\nfrom 10.0.0.5\nfrom 10.0.0.6\ndevice robot [fd00:0::1]:24001 # x\n"
            "CHANNEL 7 INT,TIME publish 239.192.0.2:61499 nanoseconds\nCHANNEL 7 INT TIME subscribe 224.0.1.9:5 milliseconds\n"
            "CHANNEL 0 event publish 239.255.255.255:65535 long-null\n",
        )
        self.assertEqual(faults, [])
        self.assertEqual((table.bind, table.interface, table.senders), (("fd00::9", 24010), "10.0.0.9", ["10.0.0.5", "10.0.0.6"]))
        self.assertEqual(table.devices, [DeviceLine(6, "ROBOT", ("fd00::1", 24001))])
        self.assertEqual(
            table.channels,
            [
                ChannelLine(7, 7, types("INT", "TIME"), True, ("239.192.0.2", 61499), "nanoseconds"),
                ChannelLine(8, 7, types("INT", "TIME"), False, ("224.0.1.9", 5), "milliseconds"),
                ChannelLine(9, 0, (), True, ("239.255.255.255", 65535), "", True),
            ],
        )

    def test_each_fault_of_a_line(self):
        for line, says in FAULTS:
            self.assertEqual(read_table("t", f"\n{line}\n")[1], [Fault(2, says)], line)

    def test_what_is_there_twice(self):
        text = "bind 5\nbind 6\ndevice A 7\ndevice a 8\ndevice B 7\ninterface 10.0.0.1\ninterface 10.0.0.2\nfrom 10.0.0.3\nfrom 10.0.0.3\n"
        text += "CHANNEL 1 INT publish 239.0.0.1:5\nCHANNEL 1 INT publish 239.0.0.2:5\nCHANNEL 2 INT subscribe 239.0.0.1:5\ndevice C 5"
        self.assertEqual(
            read_table("t", text)[1],
            [
                Fault(2, "`bind` is already given in line 1"),
                Fault(4, "A is already given in line 3"),
                Fault(5, "this address is already given in line 3"),
                Fault(7, "the interface is already given in line 6"),
                Fault(9, "10.0.0.3 is already given in line 8"),
                Fault(11, "CHANNEL 1 is already published in line 10"),
                Fault(12, "239.0.0.1:5 is already given in line 10"),
                Fault(13, "this address is already given in line 1"),
            ],
        )

    def test_what_only_the_whole_table_tells(self):
        self.assertEqual(
            read_table("t", "CHANNEL 1 INT publish 239.0.0.1:5")[1],
            [Fault(0, "the address of the gateway is missing: add a line `bind ADDRESS:PORT`")],
        )
        self.assertEqual(
            read_table("t", "bind 5\ndevice A [::1]:6\ndevice B 10.0.0.1:6\ndevice C 0.0.0.0:6\ndevice D 127.0.0.2:6")[1],
            [
                Fault(2, "`bind` and the address of the device are of different families (IPv4 and IPv6)"),
                Fault(3, "the device is on another machine, which `bind` with 127.0.0.1 does not reach"),
                Fault(4, "0.0.0.0 is the address of no one machine: give the one from which the device sends"),
                Fault(0, "there is no channel: add a line `CHANNEL N TYPES publish|subscribe GROUP:PORT [milliseconds|microseconds|nanoseconds] [long-null]`"),
            ],
        )

    def test_the_ends_of_a_text(self):
        self.assertEqual(explained()["devices"], ["LEFT", "RIGHT"])
        self.assertEqual(
            ends(),
            [
                End("PUBLISH", 7, "LEFT", "LEFT.R.TELLER.TELL", types("INT", "BOOL", "TIME"), 2),
                End("SUBSCRIBE", 8, "LEFT", "LEFT.R.HEARD", types("INT"), 2),
                End("SUBSCRIBE", 8, "RIGHT", "RIGHT.R.HEARD", types("INT"), 2),
                End("PUBLISH", 9, "RIGHT", "RIGHT.R.WIDE", types(*WIDE), 1),
                End("SUBSCRIBE", 10, "RIGHT", "RIGHT.R.BACK", types(*WIDE), 1),
                End("PUBLISH", 11, "RIGHT", "RIGHT.R.BELL", (), 1),
                End("SUBSCRIBE", 12, "RIGHT", "RIGHT.R.RING", (), 1),
            ],
        )

    def test_a_program_that_does_not_say_them(self):
        old = {name: value for name, value in explained().items() if name != "devices"}
        (self.folder / "old").write_text(f"#!/bin/sh\ncat << 'END'\n{json.dumps(old)}\nEND\n", encoding="utf-8")
        (self.folder / "old").chmod(0o755)
        with self.assertRaises(Refused) as found:
            known([str(self.folder / "old")], argparse.Namespace(app="a", certificate="b"))
        says = f"fbr-forte: {self.folder}/old is too old: its `explain --json` does not say which types there are"
        self.assertEqual((str(found.exception), found.exception.status), (says, 3))

    def faults(self, text, has_boot=True):
        """What is wrong with a table beside the text, and what is told."""
        table, faults = read_table("t", text)
        self.assertEqual(faults, [])
        plan = planned(table, explained()["devices"], ends(), has_boot)
        return plan.faults, plan.notes

    def test_faults_beside_a_text(self):
        text = "bind 5\ndevice Robot 6\ndevice Right 7\nCHANNEL 8 INT publish 239.0.0.1:5\nCHANNEL 7 INT subscribe 239.0.0.2:5\n"
        text += "CHANNEL 9 INT publish 239.0.0.3:5\nCHANNEL 7 INT BOOL TIME publish 239.0.0.4:5 microseconds\nCHANNEL 8 INT subscribe 239.0.0.5:5"
        self.assertEqual(
            self.faults(text, has_boot=False),
            (
                [
                    Fault(2, "the text has no device ROBOT; it has LEFT, RIGHT"),
                    Fault(4, "the text has no PUBLISH of channel 8; channels with one: 7, 9, 11"),
                    Fault(5, "the text has no SUBSCRIBE of channel 7; channels with one: 8, 10, 12"),
                    Fault(6, f"CHANNEL 9 (RIGHT.R.WIDE) is {','.join(WIDE)} in the text, not INT"),
                    Fault(7, "CHANNEL 7 has its PUBLISH in LEFT: add a line `device LEFT ADDRESS:PORT`"),
                    Fault(8, "CHANNEL 8 has FORMAT 2 in the text: --boot-file FILE is missing, by which its stamps grow over restarts"),
                ],
                [],
            ),
        )

    def test_what_is_only_told(self):
        text = "bind 5\ndevice Left 6\ndevice Right 7\nCHANNEL 7 INT BOOL TIME publish 239.0.0.4:5 microseconds"
        self.assertEqual(self.faults(text), ([], ["t:3: RIGHT has no end of a channel of this table"]))
        self.assertEqual(
            self.faults("bind 5\ndevice Left 6\nCHANNEL 8 INT subscribe 239.0.0.5:5"),
            ([], ["t:3: CHANNEL 8 has a SUBSCRIBE in RIGHT too, which no `device` line names"]),
        )

    def test_a_second_publish_of_format_2(self):
        table, _ = read_table("t", "bind 5\ndevice Left 6\nCHANNEL 8 INT subscribe 239.0.0.5:5")
        more = [*ends(), End("PUBLISH", 8, "RIGHT", "RIGHT.R.OTHER", types("INT"), 2)]
        self.assertEqual(
            planned(table, explained()["devices"], more, True).faults,
            [Fault(3, "CHANNEL 8 has FORMAT 2, and its one PUBLISH is RIGHT.R.OTHER: the gateway cannot be a second one")],
        )


class OfStamps(parts.Folder):
    """The boot and the sequence numbers of format 2."""

    def setUp(self):
        super().setUp()
        self.file = str(self.folder / "state")

    def test_they_grow_over_restarts(self):
        self.put("state", "41\n")
        given = []
        for boot in (41, 42, 43):
            one = Stamps(self.file)
            self.assertEqual(self.get("state"), f"{boot + 1}\n")
            given += [one.next(8), one.next(8), one.next(9), one.next(8)]
            self.assertEqual(given[-4:], [(boot, 1), (boot, 2), (boot, 1), (boot, 3)])
        of_channel = [it for at, it in enumerate(given) if at % 4 != 2]
        self.assertEqual(of_channel, sorted(set(of_channel)))

    def test_the_next_boot_is_on_the_disk_first(self):
        self.put("state", "7")
        done = []
        with mock.patch("os.fsync", lambda number: done.append(("sync", os.readlink(f"/proc/self/fd/{number}")))):
            with mock.patch("os.replace", side_effect=lambda one, other: done.append(("replace", one, other))):
                self.assertEqual(stamps.take_boot(self.file), 7)
        self.assertEqual(done, [("sync", f"{self.file}.new"), ("replace", f"{self.file}.new", self.file), ("sync", str(self.folder))])

    def test_used_up(self):
        self.put("state", "7")
        one = Stamps(self.file)
        one.last = {8: stamps.MOST - 1, 9: 5}
        self.assertEqual([one.next(8), one.next(9), one.next(8), one.next(9)], [(7, stamps.MOST), (7, 6), (8, 1), (8, 1)])
        self.assertEqual(self.get("state"), "9\n")
        one.last = {8: stamps.MOST}
        (self.folder / "state").unlink()
        with self.assertRaises(BootError):
            one.next(8)
        self.put("state", "9")
        self.assertEqual(one.next(8), (9, 1))

    def test_no_boot(self):
        for text in ("", "x", "-1", "4294967295", "1 2", "1" * 64, "\u0663"):
            self.put("state", text)
            with self.assertRaises(BootError) as found:
                Stamps(self.file)
            self.assertEqual(str(found.exception), f"{self.file}: it has to hold a number below 4294967295")
            self.assertEqual(self.get("state"), text)
        self.put("state", "4294967294")
        self.assertEqual(Stamps(self.file).next(1), (4294967294, 1))
        with self.assertRaises(BootError):
            Stamps(self.file)
        (self.folder / "state").unlink()
        with self.assertRaises(BootError) as found:
            Stamps(self.file)
        self.assertEqual(str(found.exception), f"{self.file}: No such file or directory")

    def test_a_disk_that_is_full(self):
        self.put("state", "7")
        with mock.patch("os.fsync", side_effect=OSError(28, "No space left on device")):
            with self.assertRaises(BootError) as found:
                Stamps(self.file)
        self.assertEqual(str(found.exception), f"{self.file}: No space left on device")
        self.assertEqual((self.get("state"), sorted(it.name for it in self.folder.iterdir())), ("7", ["state"]))


class Bench(unittest.TestCase):
    """A gateway of the example without sockets: what it tells, and what it sends."""

    def setUp(self):
        self.told, self.to_devices, self.to_groups, self.takes = [], [], [], True
        self.gateway = self.made(TABLE.read_text(encoding="utf-8"))
        self.routes = {(it.line.number, it.line.is_published): it for it in self.gateway.of_route}

    def made(self, text, sealer=None):
        """A gateway of a table."""
        table, faults = read_table("t", text)
        plan = planned(table, explained()["devices"], ends(), True)
        self.assertEqual((faults, plan.faults), ([], []))
        given = mock.Mock()
        given.next.side_effect = ((9, at) for at in range(1, 10**9))
        return Gateway(plan, given, self.told.append, self.to_device, self.to_group, sealer)

    def to_device(self, device, datagram):
        """Takes a datagram for a device."""
        self.to_devices.append((device.name, datagram))
        return self.takes

    def to_group(self, group, datagram):
        """Takes a datagram for a group."""
        self.to_groups.append((group, datagram))
        return self.takes

    def counts(self, number, is_published):
        """What was counted of a line."""
        found = self.gateway.of_route[self.routes[number, is_published]]
        return found.came, found.went, dict(found.dropped)


class OfWays(Bench):
    """What goes which way, and what is dropped."""

    def test_from_a_device_to_a_group(self):
        stamped = [Message(7, types("INT", "BOOL", "TIME"), (258, 1, 1000), stamp) for stamp in ((5, 1), (5, 2), (6, 1))]
        for it in stamped:
            self.gateway.hear_device(encoded(it), LEFT)
        self.assertEqual(self.to_groups, [(("239.192.0.7", 61499), bytes.fromhex("43 01 02 41 4c 00 00 00 00 00 0f 42 40"))] * 3)
        self.gateway.hear_device(encoded(Message(11, (), ())), RIGHT)
        self.assertEqual(self.to_groups[3:], [(("239.192.0.11", 61499), b"\x05")])
        self.assertEqual((self.counts(7, True), self.counts(11, True), self.told, self.to_devices), ((3, 3, {}), (1, 1, {}), [], []))

    def test_from_a_group_to_each_device(self):
        self.gateway.hear_group(self.routes[8, False], bytes.fromhex("43 ff fe"), FORTE)
        self.gateway.hear_group(self.routes[8, False], bytes.fromhex("43 ff fe"), FORTE)
        first, second = (encoded(Message(8, types("INT"), (-2,), (9, it))) for it in (1, 2))
        self.assertEqual(self.to_devices, [("LEFT", first), ("RIGHT", first), ("LEFT", second), ("RIGHT", second)])
        self.gateway.hear_group(self.routes[12, False], b"\x05\x00", FORTE)
        self.assertEqual(self.to_devices[4:], [("RIGHT", bytes.fromhex("46 42 01 01 00 0c 00"))])
        self.assertEqual((self.counts(8, False), self.counts(12, False), self.told), ((2, 2, {}), (1, 1, {}), []))

    def test_all_types_both_ways(self):
        least, most = (tuple(getattr(TYPES[it], end) if it != "TIME" else sign * 9223372036854 for it in WIDE) for end, sign in (("least", -1), ("most", 1)))
        for values, written in (
            (least, "42 80 43 8000 44 80000000 45 8000000000000000 46 00 47 0000 48 00000000 40 4c 80000000000bd680"),
            (most, "42 7f 43 7fff 44 7fffffff 45 7fffffffffffffff 46 ff 47 ffff 48 ffffffff 41 4c 7ffffffffff42980"),
        ):
            self.gateway.hear_device(encoded(Message(9, types(*WIDE), values)), RIGHT)
            self.assertEqual(self.to_groups.pop(), (("239.192.0.9", 61499), bytes.fromhex(written)))
            self.gateway.hear_group(self.routes[10, False], bytes.fromhex(written), FORTE)
            self.assertEqual(self.to_devices.pop(), ("RIGHT", encoded(Message(10, types(*WIDE), values))))

    def test_what_a_device_sends_in_vain(self):
        fit = Message(7, types("INT", "BOOL", "TIME"), (1, 1, 1), (5, 5))
        for message, sender in (
            (fit, ("127.0.0.1", 24003)),
            (fit, ("127.0.0.2", 24001)),
            (fit, RIGHT),
            (Message(7, fit.types, fit.values), LEFT),
            (Message(7, types("INT", "BOOL"), (1, 1), (5, 5)), LEFT),
            (Message(7, types("INT", "BOOL", "LINT"), (1, 1, 1), (5, 5)), LEFT),
            (Message(8, types("INT"), (1,), (5, 5)), LEFT),
            (Message(7, fit.types, (1, 1, 2**62), (5, 5)), LEFT),
            (fit, LEFT),
            (Message(7, fit.types, (1, 1, 1), (4, 9)), LEFT),
        ):
            self.gateway.hear_device(encoded(message), sender)
        self.gateway.hear_device(b"FB", LEFT)
        dropped = {
            "from another device": 1,
            "wrong format": 1,
            "wrong number of values": 1,
            "wrong type": 1,
            "TIME too long": 1,
            "repeated or late": 2,
        }
        self.assertEqual((self.to_groups, self.counts(7, True)), ([], (7, 0, dropped)))
        counts = self.gateway.of_device[self.gateway.at_address[LEFT]]
        self.assertEqual((counts.came, counts.elsewhere, counts.dropped), (8, 1, {"no message": 1}))
        self.assertEqual((self.gateway.of_others.came, self.gateway.of_others.dropped), (2, {"from a stranger": 2}))
        behind = "dropped, and further ones are only counted"
        way = "CHANNEL 7 to 239.192.0.7:61499"
        self.assertEqual(
            self.told,
            [
                f"127.0.0.1:24003: no `device` line names this address; {behind} (from a stranger)",
                f"{way}: RIGHT sent it, and has no PUBLISH of this channel in the text; {behind} (from another device)",
                f"{way}: LEFT sent a message of format 1 instead of 2; {behind} (wrong format)",
                f"{way}: LEFT sent 2 values instead of 3; {behind} (wrong number of values)",
                f"{way}: LEFT sent INT,BOOL,LINT instead of INT,BOOL,TIME; {behind} (wrong type)",
                f"{way}: 4611686018427387904 ms, which is more microseconds than 64 bits hold; {behind} (TIME too long)",
                f"{way}: LEFT sent (5, 5), which is not later than (5, 5); {behind} (repeated or late)",
                f"LEFT at 127.0.0.1:24001: sent 2 bytes that do not begin as a message does; {behind} (no message)",
            ],
        )

    def test_what_forte_sends_in_vain(self):
        gateway = self.made(TABLE.read_text(encoding="utf-8") + "from 10.0.0.5\n")
        route = next(it for it in gateway.of_route if it.line.number == 8)
        gateway.hear_group(route, bytes.fromhex("43 00 01"), ("10.0.0.6", 5))
        for written in ("4a 00 00 00 00", "4a 00", "99", "43 00", "43 00 01"):
            gateway.hear_group(route, bytes.fromhex(written), FORTE)
        self.assertEqual(
            list(gateway.sums()),
            [
                "CHANNEL 7 to 239.192.0.7:61499: 0 came, 0 went, 0 dropped",
                "CHANNEL 8 from 239.192.0.8:61500: 6 came, 1 went, 5 dropped (2 REAL, 1 from a stranger, 1 tag 0x99, 1 wrong length)",
                "CHANNEL 9 to 239.192.0.9:61499: 0 came, 0 went, 0 dropped",
                "CHANNEL 10 from 239.192.0.10:61499: 0 came, 0 went, 0 dropped",
                "CHANNEL 11 to 239.192.0.11:61499: 0 came, 0 went, 0 dropped",
                "CHANNEL 12 from 239.192.0.12:61499: 0 came, 0 went, 0 dropped",
                "LEFT at 127.0.0.1:24001: 0 came, 1 went, 0 dropped",
                "RIGHT at 127.0.0.1:24002: 0 came, 1 went, 0 dropped",
            ],
        )
        way, behind = "CHANNEL 8 from 239.192.0.8:61500", "dropped, and further ones are only counted"
        self.assertEqual(
            self.told,
            [
                f"{way}: no `from` line names 10.0.0.6; {behind} (from a stranger)",
                f"{way}: 10.0.0.5:61499 sent REAL at byte 0, which fbr does not have; {behind} (REAL)",
                f"{way}: 10.0.0.5:61499 sent tag 0x99 at byte 0, which fbr does not have; {behind} (tag 0x99)",
                f"{way}: 10.0.0.5:61499 sent 2 bytes, which end within the INT that begins at byte 0; {behind} (wrong length)",
            ],
        )

    def test_what_the_system_does_not_take(self):
        self.takes = False
        self.gateway.hear_group(self.routes[8, False], bytes.fromhex("43 00 01"), FORTE)
        self.gateway.hear_device(encoded(Message(11, (), ())), RIGHT)
        self.assertEqual((self.counts(8, False), self.counts(11, True)), ((1, 0, {"could not be sent": 1}), (1, 0, {"could not be sent": 1})))
        self.assertEqual(len(self.to_devices), 2)

    def test_without_a_next_boot(self):
        self.gateway.stamps.next.side_effect = BootError("state: No space left on device")
        self.gateway.hear_group(self.routes[8, False], bytes.fromhex("43 00 01"), FORTE)
        self.assertEqual((self.counts(8, False), self.to_devices), ((1, 0, {"no stamp": 1}), []))


class OfSeals(Bench):
    """A gateway with keys, 9 of the plant, between RIGHT, which is 2, and a group."""

    def setUp(self):
        super().setUp()
        kept = tempfile.TemporaryDirectory()
        self.addCleanup(kept.cleanup)
        self.folder = kept.name
        self.keys = {number: bytes([number]) * 32 for number in (2, 3, 9)}
        for number in self.keys:
            with open(f"{self.folder}/{number}", "w", encoding="ascii") as file:
                file.write(state_text(0, {}))
        self.right = self.sealer(2)
        self.start()

    def sealer(self, number):
        """That of a device of the plant."""
        peers = tuple(Peer(it, None, (key,)) for it, key in self.keys.items())
        return Sealer(Keys(number, peers), StateFile(f"{self.folder}/{number}"))

    def start(self):
        """The gateway begins, or begins again with what its state file holds."""
        self.gateway = self.made(TABLE.read_text(encoding="utf-8"), self.sealer(9))
        self.routes = {(it.line.number, it.line.is_published): it for it in self.gateway.of_route}

    def of_right(self):
        """What came from RIGHT's address, and what was dropped of it."""
        counts = self.gateway.of_device[self.gateway.at_address[RIGHT]]
        return counts.came, dict(counts.dropped)

    def test_both_ways(self):
        for _ in range(200):
            self.gateway.hear_device(self.right.seal(encoded(Message(11, (), ()))), RIGHT)
            self.gateway.hear_group(self.routes[8, False], bytes.fromhex("43 ff fe"), FORTE)
        self.assertEqual(self.to_groups, [(("239.192.0.11", 61499), b"\x05")] * 200)
        opened = [self.right.opened(datagram) for name, datagram in self.to_devices if name == "RIGHT"]
        self.assertEqual(opened, [encoded(Message(8, types("INT"), (-2,), (9, it))) for it in range(1, 201)])
        self.assertEqual((self.of_right(), self.told), ((200, {}), []))

    def test_what_does_not_open(self):
        message = encoded(Message(11, (), ()))
        sealed = self.right.seal(message)
        for at in range(len(sealed)):
            for bit in range(8):
                changed = bytearray(sealed)
                changed[at] ^= 1 << bit
                self.gateway.hear_device(bytes(changed), RIGHT)
        forged = seal(bytes(32), 2, 9, message), seal(self.keys[9], 9, 9, message), seal(self.keys[2], 2, 2**64 - 1, message)
        for it in (sealed, sealed, message, sealed[:-1], b"", *forged):
            self.gateway.hear_device(it, RIGHT)
        self.gateway.hear_device(sealed, ("127.0.0.1", 24003))
        self.assertEqual(len(self.to_groups), 1)
        came, dropped = self.of_right()
        expected = {"not sealed": 16 + 2, "of an unknown number": 15 + 1, "under another key": 8 * len(sealed) - 31 + 2}
        self.assertEqual((came, dropped), (8 * len(sealed) + 8, {**expected, "taken before or too old": 1, "not written down": 1}))
        self.assertEqual(self.gateway.of_others.dropped, {"from a stranger": 1})
        behind = "dropped, and further ones are only counted"
        for reason in dropped:
            self.assertIn(f"RIGHT at 127.0.0.1:24002: sent what does not open; {behind} ({reason})", self.told)

    def test_what_was_recorded(self):
        """It is not taken again, also after restarts; and both ends go on."""
        recorded, own = [], []
        for _ in range(3):
            recorded += [self.right.seal(encoded(Message(11, (), ()))) for _ in range(70)]
            for it in recorded[-70:] * 2:
                self.gateway.hear_device(it, RIGHT)
            self.gateway.hear_group(self.routes[12, False], b"\x05", FORTE)
            before = len(self.to_groups)
            self.right.opened(self.to_devices[-1][1])
            own.append(self.to_devices[-1][1])
            self.start()
            for it in recorded:
                self.gateway.hear_device(it, RIGHT)
            self.assertEqual((len(self.to_groups), self.of_right()), (before, (len(recorded), {"taken before or too old": len(recorded)})))
            # What the restart rules out is at most 63 of RIGHT's.
            lost = 0
            while len(self.to_groups) == before:
                self.gateway.hear_device(self.right.seal(encoded(Message(11, (), ()))), RIGHT)
                lost += 1
            self.assertLessEqual(lost, 64)
        counters = [said_in(it)[1] for it in own]
        self.assertEqual(counters, sorted(set(counters)))

    def test_a_disk_that_is_full(self):
        """Nothing is sealed or opened by a counter that was not written down, and afterwards the gateway goes on."""
        first = self.right.seal(encoded(Message(11, (), ())))
        self.gateway.sealer.state.next = self.gateway.sealer.state.own
        with mock.patch("os.fsync", side_effect=OSError(28, "No space left on device")):
            for _ in range(2):
                self.gateway.hear_device(first, RIGHT)
                self.gateway.hear_group(self.routes[12, False], b"\x05", FORTE)
        self.assertEqual((self.to_groups, self.to_devices), ([], []))
        self.assertEqual((self.of_right(), self.counts(12, False)), ((2, {"not written down": 2}), (2, 0, {"could not be sealed": 2})))
        full = f"{self.folder}/9: the state file cannot be written: No space left on device"
        behind = "dropped, and further ones are only counted"
        self.assertEqual(
            self.told,
            [
                f"RIGHT at 127.0.0.1:24002: sent what does not open ({full}); {behind} (not written down)",
                f"CHANNEL 12 from 239.192.0.12:61499: {full}; {behind} (could not be sealed)",
            ],
        )
        self.gateway.hear_device(first, RIGHT)
        self.gateway.hear_group(self.routes[12, False], b"\x05", FORTE)
        self.assertEqual((len(self.to_groups), len(self.to_devices)), (1, 1))


class Clock:
    """A loop of asyncio whose time passes when the test says so."""

    def __init__(self):
        self.now, self.timers = 0.0, []

    def time(self):
        """The time in seconds."""
        return self.now

    def call_later(self, wait, call):
        """Keeps a call for later."""
        self.timers.append((wait, call))
        return mock.Mock()

    def turn(self):
        """Makes the call that was kept first, at its time; how long it waited."""
        wait, call = self.timers.pop(0)
        self.now += wait
        call()
        return wait


class OfLinks(unittest.TestCase):
    """A socket that cannot be opened for a while."""

    def test_waits_grow_and_a_fault_is_told_once(self):
        clock, told = Clock(), []
        clock.add_reader, clock.remove_reader = mock.Mock(), mock.Mock()
        make = mock.Mock(side_effect=[OSError(98, "Address already in use")] * 9 + [mock.Mock()])
        with mock.patch("asyncio.get_running_loop", return_value=clock):
            link = Link("bind 127.0.0.1:5", make, mock.Mock(), Faults(told.append, clock.time))
        link.open()
        self.assertEqual([clock.turn() for _ in range(9)], [0.1, 0.2, 0.4, 0.8, 1.6, 3.2, 5.0, 5.0, 5.0])
        self.assertEqual(
            told,
            ["bind 127.0.0.1:5: Address already in use; retrying", "bind 127.0.0.1:5: works again after 21.3 s and 9 failed attempts"],
        )
        self.assertEqual((clock.timers, link.socket is None), ([], False))
        link.fail(OSError(100, "Network is down"))
        self.assertEqual(([it[0] for it in clock.timers], link.socket), ([0.1], None))


class OfMutations(Bench):
    """20,000 datagrams each way that were changed at random."""

    def mutated(self, source, seeds):
        """One of the seeds with some bytes changed, cut, put in or repeated; sometimes as it is, and sometimes all at random."""
        if source.random() < 0.05:
            return source.randbytes(source.randrange(200))
        it = bytearray(source.choice(seeds))
        for _ in range(source.randrange(4)):
            at, way = source.randrange(len(it) + 1), source.randrange(5)
            if way == 0 and at < len(it):
                it[at] = source.randrange(256)
            elif way == 1 and at < len(it):
                it[at] ^= 1 << source.randrange(8)
            elif way == 2:
                del it[at:]
            elif way == 3:
                it[at:at] = source.randbytes(source.randrange(1, 12))
            else:
                it += it[at:]
        return bytes(it)

    def test_from_forte(self):
        source, routes = random.Random(65), [self.routes[it, False] for it in (8, 10, 12)]
        seeds = [bytes.fromhex(it) for it in ("43 01 02", "05", "4a 3f 80 00 00", "50 00 02 68 69", "43 01 02 41")]
        seeds.append(bytes.fromhex("42 80 43 8000 44 80000000 45 8000000000000000 46 00 47 0000 48 00000000 40 4c 80000000000bd680"))
        taken = dict.fromkeys(routes, 0)
        for _ in range(MUTATIONS):
            datagram, route = self.mutated(source, seeds), source.choice(routes)
            before = len(self.to_devices)
            self.gateway.hear_group(route, datagram, FORTE)
            try:
                fits = [kind for kind, _ in forte_peer.understood(datagram)] == [it.name for it in route.line.types] and datagram != b""
            except ValueError:
                fits = False
            self.assertEqual(len(self.to_devices) - before, len(route.devices) if fits else 0, datagram.hex())
            taken[route] += fits
        for route in routes:
            counts = self.gateway.of_route[route]
            self.assertEqual((counts.went, counts.came - counts.went), (taken[route], counts.dropped.total()))
            self.assertGreater(min(counts.went, counts.dropped.total()), 300)
        self.assertEqual(sum(self.gateway.of_route[it].came for it in routes), MUTATIONS)

    def test_from_devices(self):
        source = random.Random(66)
        wide = Message(9, types(*WIDE), (-1, -2, -3, -4, 5, 6, 7, 1, 8))
        seeds = [encoded(it) for it in (wide, Message(11, (), ()), Message(9, types("INT"), (5,)), Message(8, types("INT"), (5,), (1, 1)))]
        went = 0
        for at in range(MUTATIONS):
            stamped = encoded(Message(7, types("INT", "BOOL", "TIME"), (1, 1, 1), (at, 1)))
            datagram, sender = self.mutated(source, [*seeds, stamped]), source.choice((LEFT, RIGHT, RIGHT, ("10.0.0.1", 5)))
            before = len(self.to_groups)
            # A great stamp shuts out all that come after it.
            if at % 50 == 0:
                self.gateway.latest.clear()
            self.gateway.hear_device(datagram, sender)
            if len(self.to_groups) > before:
                went += 1
                self.assertEqual(datagram[:2] + datagram[3:5], b"FB\x01\x00")
                self.assertIn((sender, datagram[5]), ((LEFT, 7), (RIGHT, 9), (RIGHT, 11)))
                start = 7 + 8 * (datagram[2] - 1)
                codes = [struct.unpack_from(">Bq", datagram, start + 9 * it)[0] for it in range(datagram[start - 1])]
                self.assertEqual(codes, {7: [2, 0, 8], 9: [1, 2, 3, 4, 5, 6, 7, 0, 8], 11: []}[datagram[5]])
        self.check_counts(went)

    def check_counts(self, went):
        """Each datagram was counted once, as gone, dropped, or of another channel."""
        devices, others = list(self.gateway.of_device.values()), self.gateway.of_others
        routes = [it for route, it in self.gateway.of_route.items() if route.line.is_published]
        self.assertEqual(sum(it.came for it in devices) + others.came, MUTATIONS)
        self.assertEqual(others.dropped, {"from a stranger": others.came})
        self.assertEqual(sum(it.came for it in routes), sum(it.came - it.elsewhere - it.dropped.total() for it in devices))
        self.assertEqual([it.came for it in routes], [it.went + it.dropped.total() for it in routes])
        self.assertEqual(sum(it.went for it in routes), went)
        self.assertGreater(min(it.went for it in routes), 200)
        self.assertGreater(min(it.dropped.total() for it in routes), 30)


class OfWords(parts.Folder):
    """The tool as it is called: what it says before anything starts."""

    def setUp(self):
        super().setUp()
        self.certificate = str(self.folder / "plant.cert")
        done = parts.fbr("bound", APP, "--room", "2", "-o", self.certificate)
        self.assertEqual(done.returncode, 0, done.stderr)
        self.put("state", "7\n")

    def answer(self, *words):
        """Its status, and the lines of its streams."""
        command = [sys.executable, str(parts.TOOLS / "fbr-forte"), *map(str, words)]
        done = subprocess.run(command, capture_output=True, text=True, check=False, timeout=30, cwd=self.folder)
        return done.returncode, done.stdout.splitlines(), done.stderr.splitlines()

    def test_a_check(self):
        self.assertEqual(
            self.answer("--check", "--state", "state", TABLE, APP, self.certificate),
            (
                0,
                [
                    f"{TABLE}:6: CHANNEL 7 INT,BOOL,TIME of format 2 from LEFT to 239.192.0.7:61499, TIME in microseconds",
                    f"{TABLE}:7: CHANNEL 8 INT of format 2 from 239.192.0.8:61500 to LEFT, RIGHT",
                    f"{TABLE}:8: CHANNEL 9 {','.join(WIDE)} of format 1 from RIGHT to 239.192.0.9:61499, TIME in nanoseconds",
                    f"{TABLE}:9: CHANNEL 10 {','.join(WIDE)} of format 1 from 239.192.0.10:61499 to RIGHT, TIME in nanoseconds",
                    f"{TABLE}:10: CHANNEL 11 EVENT of format 1 from RIGHT to 239.192.0.11:61499",
                    f"{TABLE}:11: CHANNEL 12 EVENT of format 1 from 239.192.0.12:61499 to RIGHT",
                    f"{TABLE}:4: LEFT is served by --bind 127.0.0.1:24001; it needs the peer 127.0.0.1:24010, and --from 127.0.0.1 if it has a --from",
                    f"{TABLE}:5: RIGHT is served by --bind 127.0.0.1:24002; it needs the peer 127.0.0.1:24010, and --from 127.0.0.1 if it has a --from",
                ],
                [],
            ),
        )
        self.assertEqual(self.get("state"), "7\n")
        self.put("table", "bind 0.0.0.0:5\ndevice Right 10.0.0.1:6\nCHANNEL 11 EVENT publish 239.0.0.1:5 long-null\n")
        needs = "it needs a peer with an address of this machine and the port 5, and that address in --from if it has a --from"
        self.assertEqual(
            self.answer("--check", "table", APP, self.certificate)[1],
            [
                "table:3: CHANNEL 11 EVENT of format 1 from RIGHT to 239.0.0.1:5, the null with its length",
                f"table:2: RIGHT is served by --bind 10.0.0.1:6; {needs}",
            ],
        )

    def test_all_faults_at_once(self):
        self.put("table", "bind 5\ndevice Left 6\nCHANNEL 8 INT publish 239.0.0.1:5\nfoo\nCHANNEL 8 BOOL subscribe 239.0.0.2:5\n")
        self.assertEqual(
            self.answer("table", APP, self.certificate),
            (
                2,
                [],
                [
                    "table:3: the text has no PUBLISH of channel 8; channels with one: 7, 9, 11",
                    "table:4: a line must begin with CHANNEL, device, bind, interface, from, not 'foo'",
                    "table:5: CHANNEL 8 (LEFT.R.HEARD) is INT in the text, not BOOL",
                ],
            ),
        )
        self.put("table", "")
        self.assertEqual(self.answer("table", APP, self.certificate), (2, [], ["table: the address of the gateway is missing: add a line `bind ADDRESS:PORT`"]))

    def test_a_text_that_is_refused(self):
        self.put("bad.cert", self.get("plant.cert").replace("DEPTH LEFT.R", "DEPTH LEFT.Q"))
        status, output, errors = self.answer("--check", "--state", "state", TABLE, APP, "bad.cert")
        self.assertEqual((status, output, errors[0].split()[0]), (1, [], "refused"), errors)

    def test_files_that_are_not_there(self):
        self.assertEqual(self.answer("none", APP, self.certificate), (3, [], ["fbr-forte: none: No such file or directory"]))
        self.assertEqual(self.answer("--state", "none", TABLE, APP, self.certificate), (3, [], ["fbr-forte: none: No such file or directory"]))
        self.put("state", "x")
        self.assertEqual(
            self.answer("--state", "state", TABLE, APP, self.certificate), (3, [], ["fbr-forte: state: it has to hold a number below 4294967295"])
        )

    def test_keys_that_cannot_be_used(self):
        """Files of keys and states that are none start nothing, and a lost state is not begun again."""
        words = ("--keys", "keys", "--state", "seals", "--boot-file", "state", TABLE, APP, self.certificate)
        self.put("keys", f"own 9\n9 - {'1' * 64}\n2 - {'2' * 64}\n")
        (self.folder / "keys").chmod(0o640)
        says = "fbr-forte: keys holds keys: nobody but its owner may read or write it (chmod 600)"
        self.assertEqual(self.answer(*words), (3, [], [says]))
        (self.folder / "keys").chmod(0o600)
        says = "fbr-forte: seals: the state file cannot be read; `fbr key --state FILE` begins one, with the new key that belongs to it"
        self.assertEqual(self.answer(*words), (3, [], [says]))
        self.assertFalse((self.folder / "seals").exists())
        whole = state_text(0, {})
        for text in ("", whole[:-2], whole.replace("own 0", "own 1")):
            self.put("seals", text)
            status, output, errors = self.answer(*words)
            self.assertEqual((status, output, len(errors)), (3, [], 1), errors)
            self.assertIn("the state file is damaged or cut", errors[0])
            self.assertEqual(self.get("seals"), text)
        self.assertEqual(self.answer("--keys", "", "--state", "seals", "--boot-file", "state", TABLE, APP, self.certificate)[0], 3)
        self.assertEqual(self.get("state"), "7\n")

    def test_a_check_with_keys(self):
        """It opens no file of keys, and says what devices need."""
        words = ("--check", "--keys", "none", "--state", "none", "--boot-file", "state", TABLE, APP, self.certificate)
        status, output, errors = self.answer(*words)
        self.assertEqual((status, errors), (0, []))
        needs = "it needs the peer 127.0.0.1:24010, and --from 127.0.0.1 if it has a --from"
        needs += "; its file of keys needs a line for the gateway, in which this address may stand instead"
        self.assertEqual(output[-1], f"{TABLE}:5: RIGHT is served by --bind 127.0.0.1:24002; {needs}")

    def test_words_that_are_none(self):
        usage = "usage: fbr-forte [--check] [--keys FILE --state FILE] [--boot-file FILE] [--summary SECONDS] TABLE APP CERT"
        self.assertEqual(self.answer(), (2, [], ["fbr-forte: the following arguments are required: TABLE, APP, CERT", usage]))
        self.assertEqual(self.answer("--summary", "0", "a", "b", "c"), (2, [], ["fbr-forte: argument --summary: invalid seconds value: '0'", usage]))
        self.assertEqual(self.answer("--fast", "a", "b", "c"), (2, [], ["fbr-forte: unrecognized arguments: --fast", usage]))
        alone = "fbr-forte: --keys needs --state FILE, which holds the counters of sealed datagrams"
        self.assertEqual(self.answer("--keys", "", "--boot-file", "b", "a", "b", "c"), (2, [], [alone, usage]))
        twice = "fbr-forte: --state without --keys is the boot file, and so is --boot-file"
        self.assertEqual(self.answer("--state", "s", "--boot-file", "s", "a", "b", "c"), (2, [], [twice, usage]))
        status, output, errors = self.answer("--help")
        self.assertEqual((status, output[0], errors), (0, usage, []))


if __name__ == "__main__":
    unittest.main()
