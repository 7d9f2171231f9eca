"""flowlabel-nfcapd over the files of nfcapd and sfcapd.

nfcapd collects what softflowd (NetFlow 5 and 9, IPFIX, biflows) and pmacctd (NetFlow 9, IPFIX) send over the loopback
interface, and sfcapd the sFlow of pmacctd. The rows of the File must be those of the IPFIX messages themselves, but for
what nfdump doesn't keep: the flags of reverse flows, the type and code of ICMP instead of ports, and the times of
NetFlow. Counts up to 2^64 - 1, all flags, and types and codes of ICMP come from messages that are made here. A file
that is cut anywhere, damaged, or still being written, and an nfdump that fails, is killed, ends early or prints values
that are wrong or none must give status 1, one line, and what flowlabel refuses.
"""

import contextlib
import functools
import os
import random
import re
import shutil
import signal
import struct
import subprocess
from unittest import mock

from support import PROGRAM, ROOT, Case, closed_pipe, command, exporters, inside, needs, outcome, processes, rows, run
from support import read_bytes, stand_in, texts, write
from support.ipfix import message, sets, template

SCRIPT = command("nfcapd")
ICMP, ICMP6 = "1", "58"
# The columns of a row.
SOURCE_PORT, TARGET_PORT, PROTOCOL, FLAGS, PACKETS, BYTES, START, END = range(2, 10)
ADDRESSES = struct.pack(">4s4s", bytes([10, 0, 0, 1]), bytes([192, 0, 2, 9]))
# A template of addresses, ports, protocol, flags, packets, bytes and times. The ports of ICMP are 256 times its type
# plus its code.
TEMPLATE = template(256, (8, 4), (12, 4), (7, 2), (11, 2), (4, 1), (6, 1), (2, 8), (1, 8), (152, 8), (153, 8))


def convert(*names, **variables):
    """Runs flowlabel-nfcapd, and returns its status, its output and its lines on standard error."""
    status, output, error = inside.outcome("nfcapd", *names, variables=variables)
    return status, output, error.decode().splitlines()


def rows_of(data):
    """Returns the rows of a File."""
    return [line.split("|")
            for line in run(PROGRAM, "rows", "/dev/stdin", input=data, check=True).stdout.decode().splitlines()[1:]]


def without(table, *columns, condition=lambda row: True):
    """Returns rows without what some columns have, if a condition is met."""
    return [[None if index in columns and condition(row) else field for index, field in enumerate(row)]
            for row in table]


def is_icmp(row):
    return row[PROTOCOL] in (ICMP, ICMP6)


def packet(protocol, payload, size, version):
    """Returns a packet for a capture: Ethernet, IPv4 or IPv6, and the beginning of its payload."""
    if version == 4:
        body = struct.pack(">BBHHHBBH", 0x45, 0, 20 + size, 0, 0, 64, protocol, 0) + ADDRESSES + payload
        body = body[:10] + struct.pack(">H", checksum(body[:20])) + body[12:]
    else:
        ends = bytes.fromhex("20010db8000000000000000000000001 20010db8ffff0000000000000000005b")
        body = struct.pack(">IHBB", 6 << 28, size, protocol, 64) + ends + payload
    frame = bytes.fromhex("020000000001 020000000002") + (b"\x08\0" if version == 4 else b"\x86\xdd") + body
    return struct.pack("<IIII", 1_700_000_300, 123_000, len(frame), len(frame) - len(payload) + size) + frame


def checksum(header):
    """Returns the checksum of an IPv4 header."""
    total = sum(struct.unpack(">10H", header))
    return ~((total & 0xFFFF) + (total >> 16)) & 0xFFFF


def make_capture(*packets):
    """Makes capture.pcap: 400 flows, and some packets."""
    run(ROOT / "examples/packets", "400", "capture.pcap", check=True)
    with open("capture.pcap", "ab") as file:
        file.write(b"".join(packets))


def ipfix(records, size=20):
    """Returns IPFIX messages with records, this number in each."""
    return [message(TEMPLATE, sets(256, b"".join(records[place:place + size])), number=place, time=1_700_000_000)
            for place in range(0, len(records), size)]


def record(ports=(1000, 443), protocol=6, flags=0, packets=1, octets=40, start=1_700_000_000_000,
           end=1_700_000_000_000):
    """Returns a record of TEMPLATE."""
    return ADDRESSES + struct.pack(">HHBBQQQQ", *ports, protocol, flags, packets, octets, start, end)


@needs("nfcapd", "nfdump")
class Collected(Case):
    """Cases with a file that nfcapd has collected, `cls.name`, and what flowlabel-nfcapd prints of it."""
    records = ()

    @classmethod
    def prepare(cls):
        cls.messages = ipfix(cls.records)
        cls.name = exporters.collect(cls.messages, "plain")
        _, cls.wanted, _ = convert(cls.name)

    def assert_refused(self, found, part, wanted=1):
        """Checks that a run has ended with a status, a line, and an output that flowlabel refuses."""
        status, output, error = found
        self.assertEqual((status, len(error)), (wanted, 1), found)
        self.assertIn(part, error[0])
        self.assertEqual(outcome(PROGRAM, "info", "/dev/stdin", input=output)[0], 1)


@needs("softflowd", "pmacctd")
class Protocols(Collected):
    """What softflowd and pmacctd send. The rows of IPFIX are the ones that the others must have."""

    @classmethod
    def prepare(cls):
        # Packets of ICMP (3/1, 8/0), ICMPv6 (128/0) and GRE.
        make_capture(packet(1, bytes([3, 1]) + bytes(30), 32, 4), packet(1, bytes([8, 0]) + bytes(30), 64, 4),
                     packet(58, bytes([128, 0]) + bytes(30), 40, 6), packet(47, bytes(24), 24, 4))

    @staticmethod
    @functools.cache
    def sent(name):
        """Returns the IPFIX messages of an exporter, also of softflowd's biflows."""
        return exporters.received({"softflowd": exporters.softflowd("-v", "10", "-A", "milli"),
                                   "pmacctd": exporters.pmacctd(10),
                                   "both": exporters.softflowd("-v", "10", "-A", "milli", "-b")}[name])

    @rows(("softflowd",), ("both",), ("pmacctd",))
    def test_ipfix(self, name):
        wanted = rows_of(b"".join(self.sent(name)))
        status, output, errors = convert(exporters.collect(self.sent(name), name))
        self.assertEqual(status, 0)
        found = rows_of(output)
        self.assertLessEqual({str(3 << 8 | 1), str(8 << 8), str(128 << 8)},
                             {row[TARGET_PORT] for row in found if is_icmp(row)})
        self.assertEqual(len(found), len(wanted))
        # nfdump keeps the flags of one direction, which need not be that of the first row.
        reverse = [index for index in range(1, len(wanted)) if name == "both"
                   and wanted[index][:2] == wanted[index - 1][1::-1]
                   and wanted[index][START:] == wanted[index - 1][START:]]
        for index in reverse:
            for table in (found, wanted):
                table[index - 1][FLAGS], table[index][FLAGS] = None, "0"
        found, wanted = (without(table, SOURCE_PORT, TARGET_PORT, condition=is_icmp) for table in (found, wanted))
        self.assertEqual(found, wanted)
        self.assertGreater(len(found), 400)
        self.assertEqual(len(reverse) > 150, name == "both")
        # The File lacks nothing, but softflowd doesn't count as nfcapd expects.
        status, output, error = inside.texts("audit", write("made", output))
        self.assertEqual((status, error, len(errors)), (0, "", int(name != "pmacctd")))
        self.assertIn(f", missing {'unknown' if errors else 0}, ", output)

    @rows(("5", "softflowd", exporters.softflowd("-v", "5")), ("9", "softflowd", exporters.softflowd("-v", "9")),
          ("pmacctd 9", "pmacctd", exporters.pmacctd(9)))
    def test_netflow(self, name, source, exporter):
        status, output, _ = convert(exporters.collect(exporters.received(exporter), name))
        self.assertEqual(status, 0)
        wanted = [row for row in rows_of(b"".join(self.sent(source))) if name != "5" or "." in row[0]]
        found, wanted = (sorted(without(without(table, START, END), SOURCE_PORT, TARGET_PORT, condition=is_icmp),
                                key=str)
                         for table in (rows_of(output), wanted))
        self.assertEqual(found, wanted)
        self.assertGreater(len(found), 250)


@needs("sfcapd", "pmacctd")
class Sflow(Collected):
    """The sFlow of pmacctd, which samples one of two packets: sfcapd doubles packets and bytes, which is reported."""

    @classmethod
    def prepare(cls):
        make_capture()

    @staticmethod
    def sampler(port):
        """Returns how pmacctd is started."""
        write("sflow.conf", "daemonize: false\npcap_savefile: capture.pcap\nplugins: sfprobe[a]\nsampling_rate[a]: 2\n"
              f"sfprobe_receiver[a]: 127.0.0.1:{port}\nsfprobe_agentip: 127.0.0.1\n")
        return ["pmacctd", "-f", "sflow.conf"]

    def test_sampled(self):
        name = exporters.collect(exporters.received(self.sampler), "sflow", program="sfcapd")
        status, output, error = convert(name)
        found = rows_of(output)
        self.assertEqual((status, error), (0, [
            f"flowlabel-nfcapd: {name}: {len(found)} flows were sampled, so their packets and bytes are estimates"]))
        totals = texts("nfdump", "-I", "-r", name)[1]
        for what, column in (("Packets", PACKETS), ("Bytes", BYTES)):
            self.assertIn(f"{what}: {sum(int(row[column]) for row in found)}\n", totals)
        self.assertGreater(len(found), 100)
        self.assertTrue(any(":" in row[0] for row in found))


class Values(Collected):
    """Counts, flags, times, and types and codes of ICMP. nfcapd takes the latter from the destination port."""

    def test_values(self):
        rng = random.Random(20261129)
        big = [2**32 - 1, 2**32, 2**32 + 1, 2**40 + 7, 2**53 + 1, 2**63]
        records = [record(packets=count, octets=other) for count, other in zip(big, big[::-1])]
        records += [record(flags=flags) for flags in range(256)]
        records += [record(start=1_700_000_000_000 + part, end=1_700_000_000_999 + part)
                    for part in (0, 1, 9, 10, 99, 100, 999)]
        records += [record(ports=(rng.randrange(2**16), rng.randrange(2**16)), protocol=protocol)
                    for protocol in range(256)
                    if protocol not in (1, 58)]
        self.assert_kept(ipfix(records), len(records))

    def test_types_and_codes(self):
        kinds = [(3, 1), (8, 0), (11, 1), (255, 255), (0, 0)]
        self.assert_kept(ipfix([record(ports=(0, kind << 8 | code), protocol=1) for kind, code in kinds]), len(kinds))

    def assert_kept(self, messages, count):
        """Checks that a file has the rows of messages."""
        status, output, _ = convert(exporters.collect(messages, self.id()))
        wanted = rows_of(b"".join(messages))
        self.assertEqual((status, rows_of(output), len(wanted)), (0, wanted, count))

    def test_no_flows(self):
        status, output, error = convert(self.name)
        self.assertEqual((status, rows_of(output), error), (0, [], []))
        self.assertGreater(len(output), 16)


class Files(Collected):
    """Files that are compressed, cut, damaged, still written, or named twice."""
    records = [record(ports=(port, 80), octets=port + 1) for port in range(1200)]

    @classmethod
    @functools.cache
    def compressed(cls, option):
        """Returns the name of a compressed file."""
        return exporters.collect(cls.messages, option[1:], option)

    @rows(("-z",), ("-y",), ("-j",))
    def test_compressed(self, option):
        self.assertTrue(rows_of(self.wanted))
        self.assertEqual(convert(self.compressed(option)), (0, self.wanted, []))

    @rows(("-z",), ("-y",), ("-j",))
    def test_cut(self, option):
        data = read_bytes(self.compressed(option))
        for length in (0, 1, 100, len(data) // 2, len(data) - 200, len(data) - 1):
            with self.subTest(length=length):
                self.assert_refused(convert(write("cut", data[:length])), "cut: no file that nfcapd has finished")

    @rows(("-z",), ("-y",), ("-j",))
    def test_damaged(self, option):
        data = read_bytes(self.compressed(option))
        for place in range(300, len(data) - 300, (len(data) - 600) // 10):
            found = convert(write("damaged", data[:place] + bytes([data[place] ^ 0xFF]) + data[place + 1:]))
            # Damage may also be in bytes that mean nothing, or in a flow, which only its sums show.
            if found[0] != 0:
                with self.subTest(place=place):
                    self.assert_refused(found, "damaged: ")

    def test_fifo(self):
        os.mkfifo("fifo")
        self.assert_refused(convert("fifo"), "fifo: not a regular file")

    def test_two_files(self):
        self.assertEqual(rows_of(convert(self.name, self.compressed("-j"))[1]), 2 * rows_of(self.wanted))

    def test_named_twice(self):
        self.assert_refused(convert(self.name, os.path.join(".", self.name)), "the same bytes as")

    def test_beside_one_that_is_cut(self):
        self.assert_refused(convert(self.name, write("cut", read_bytes(self.name)[:-1])), "cut: ")

    def test_not_finished(self):
        killed = exporters.collect(self.messages, "killed", ending=signal.SIGKILL)
        self.assert_refused(convert(killed), f"{killed}: no file that nfcapd has finished")

    def test_one_that_is_still_written(self):
        write("open/nfcapd.current.77", read_bytes(self.name)[:-1])
        self.assertEqual(convert("open/nfcapd.current.77", self.name), (0, self.wanted, [
            "flowlabel-nfcapd: open/nfcapd.current.77: left out, since nfcapd is still writing it"]))

    def test_missing(self):
        self.assert_refused(convert("missing"), "missing: ", 4)

    @rows(("",), ("--strct plain",))
    def test_usage(self, words):
        self.assert_refused(convert(*words.split()), "flowlabel-nfcapd: ", 2)


class Lost(Collected):
    """Messages that were lost on their way to nfcapd, of which its own numbers would show nothing."""
    records = [record(ports=(port, 80), octets=port + 1) for port in range(1200)]

    @classmethod
    def prepare(cls):
        super().prepare()
        cls.lost = exporters.collect(cls.messages[:20] + cls.messages[23:40] + cls.messages[41:], "lost")

    def missing(self, data):
        """Returns the status of flowlabel-audit and the number of missing records that it prints."""
        status, output, _ = inside.texts("audit", write("made.ipfix", data))
        return status, re.search(", missing (.*), records", output)[1]

    def test_unknown(self):
        status, output, error = convert(self.name, self.lost)
        self.assertEqual((status, error), (0, [
            f"flowlabel-nfcapd: nfcapd counted 2 sequence failures in 1 of 2 files, first in {self.lost}: messages may "
            "have been lost, so the number of missing records is unknown"]))
        self.assertEqual(len(rows_of(output)), 2400 - 80)
        self.assertEqual(self.missing(output), (0, "unknown"))
        self.assertEqual(self.missing(self.wanted), (0, "0"))

    def test_twice(self):
        """A file that is in two Files is found, though the numbers of its messages differ."""
        for name, its in (("one", (self.name, self.lost)), ("two", (self.name,))):
            write(f"month/{name}.ipfix", convert(*its)[1])
        status, output, error = inside.texts("bill", "--by", "day", "month")
        self.assertEqual((status, output, error.count(" messages are in month/one.ipfix too, ")), (1, "", 1), error)

    def test_beside_others(self):
        _, output, _ = convert(self.lost)
        self.assertEqual(self.missing(3 * self.wanted + output), (0, "unknown"))

    def test_one_record(self):
        messages = ipfix([record(), record(), record()], 1)
        _, output, _ = convert(exporters.collect(messages[::2], "few"))
        self.assertEqual((len(rows_of(output)), self.missing(output)), (2, (0, "unknown")))

    def test_strict(self):
        self.assert_refused(convert("--strict", self.lost), "2 sequence failures")
        self.assertEqual(convert("--strict", self.name), (0, self.wanted, []))


# Runs nfdump, and prints another output if it isn't asked for totals.
STAND_IN = """#!/bin/sh
case " $* " in *" -I "*) exec "$NFDUMP" "$@" ;; esac
"$NFDUMP" "$@" | {}
exit {}
"""
# What happens to nfdump's output, its status, and a part of the line. None: the rows stay as they are.
CHANGES = (
    ("cat", 0, None),
    # Another order of values, for which the flows are parsed in another way.
    ("python3 -c 'import json, sys; print(json.dumps([dict(reversed(flow.items())) for flow in json.load(sys.stdin)], "
     "indent=0).replace(\"},\\n{\", \"\\n},\\n{\").replace(\"\\n\\\"\", \"\\n\\t\\\"\").rstrip(\"]\\n\") + \"]\")'", 0,
     None),
    ("cat", 1, "nfdump ended with the status 1"),
    ("{ cat; echo 'no memory' >&2; }", 0, "nfdump ended with the status 0: no memory"),
    ("{ cat; kill -9 $$; }", 0, "nfdump ended with the status -9"),
    ("head -n 300", 0, "cut short"),
    ("head -c 5000", 0, "cut short"),
    ("sed '/^},$/q; s/^}$/}]/' | sed 's/^},$/}]/'", 0, "nfcapd counted Flows 60, and nfdump printed 1"),
    ("sed '9,30{/src4_addr/d}'", 0, "lacks a value, or has a wrong one: 'src6_addr'"),
    ("sed '9,30s/198.51/198.51.1/; 9,30s/10.0.0/10.0.0.0.0/'", 0, "lacks a value, or has a wrong one"),
    ("sed '0,/in_bytes/s/\"in_bytes\" : /&1/'", 0, "nfcapd counted Bytes"),
    ("sed '0,/in_packets/s/\"in_packets\" : [0-9]*/\"in_packets\" : -1/'", 0, "lacks a value, or has a wrong one"),
    ("sed '0,/\"proto\"/s/\"proto\" : [0-9]*/\"proto\" : 256/'", 0, "lacks a value, or has a wrong one"),
    ("sed '0,/tcp_flags/s/\"tcp_flags\" : \".*\"/\"tcp_flags\" : \"SF\"/'", 0, "lacks a value, or has a wrong one"),
    ("sed '0,/first/s/\"first\" : \".*\"/\"first\" : \"yesterday\"/'", 0, "lacks a value, or has a wrong one"),
    # A name that adds values.
    ("sed '0,/\"label\"/s/\"label\" : \".*\"/\"label\" : \"a\", \"out_packets\" : 1, \"b\" : \"c\"/'", 0, None),
    ("sed '0,/\"label\"/s/\"label\" : \".*\"/\"label\" : \"a\", \"src4_addr\" : \"192.0.2.1\"/; s/FLOW/EVENT/'", 0,
     "comes twice"),
    ("sed '0,/\"label\"/s/\"label\" : \".*\"/\"label\" : \"a\", \"out_packets\" : 1/; s/FLOW/EVENT/'", 0,
     "isn't in a line"),
)


class StandIn(Collected):
    """An nfdump that fails, or prints something else."""
    records = [record(ports=(port, 80), octets=port + 1) for port in range(60)]

    def changed(self, name, change, status=0):
        """Runs the command with an nfdump whose output is changed."""
        return convert(name, NFDUMP=shutil.which("nfdump"), **stand_in("nfdump", STAND_IN.format(change, status)))

    @rows(*CHANGES)
    def test_change(self, change, status, part):
        found = self.changed(self.name, change, status)
        if part is None:
            self.assertEqual(found, (0, self.wanted, []))
        else:
            self.assert_refused(found, part)

    @rows(("totals", "exec sleep 3600", "no file that nfcapd has finished"),
          ("flows", 'case " $* " in *" -I "*) exec "$NFDUMP" "$@" ;; esac; exec sleep 3600', "cut short"))
    def test_one_that_waits_for_ever(self, _, line, part):
        with mock.patch.object(inside.module("commands.nfcapd"), "PATIENCE", 1):
            self.assert_refused(convert(self.name, NFDUMP=shutil.which("nfdump"),
                                        **stand_in("nfdump", f"#!/bin/sh\n{line}\n")), part)

    def test_a_sampled_flow_and_events(self):
        status, output, error = self.changed(self.name,
                                             "sed '0,/sampled/s/\"sampled\" : 0/\"sampled\" : 1/; 5,$s/FLOW/EVENT/'")
        self.assertEqual((status, output, len(error)), (0, self.wanted, 1))
        self.assertIn(": 1 flows were sampled", error[0])

    def test_an_event_without_counts(self):
        name = exporters.collect(ipfix([record(), record(packets=0, octets=0)]), "events")
        status, output, error = self.changed(name, "sed 's/FLOW/EVENT/'")
        self.assertEqual((status, len(rows_of(output)), len(error)), (0, 1, 1))
        self.assertIn(": 1 events", error[0])


class Ends(Collected):
    """Odd names, full disks, closed pipes, signals and help."""
    records = 60 * [record()]

    def test_an_odd_name(self):
        shutil.copy(self.name, "a b\nc")
        self.assertEqual(convert("a b\nc"), (0, self.wanted, []))
        self.assertEqual(len(rows_of(self.wanted)), 60)
        os.truncate("a b\nc", 100)
        self.assert_refused(convert("a b\nc"), "flowlabel-nfcapd: a b\\x0ac: no file")

    def test_a_full_disk(self):
        self.assertEqual(texts("sh", "-c", 'exec "$0" "$1" >/dev/full', SCRIPT, self.name),
                         (4, "", "flowlabel-nfcapd: output: No space left on device\n"))

    @rows(("0",), ("1",))
    def test_a_full_folder_for_temporary_files(self, blocks):
        status, output, error = outcome("sh", "-c", 'ulimit -f "$0"; exec "$@"', blocks, SCRIPT, self.name)
        self.assert_refused((status, output, error.decode().splitlines()), "flowlabel-nfcapd: ", 4)

    def test_a_closed_pipe(self):
        with closed_pipe() as pipe:
            self.assertEqual(outcome(SCRIPT, self.name, stdout=pipe), (-signal.SIGPIPE, None, b""))

    def test_sigterm(self):
        path = stand_in("nfdump", "#!/bin/sh\n: >begun\nexec sleep 3600\n")
        with subprocess.Popen([SCRIPT, self.name], stdin=subprocess.DEVNULL, stdout=subprocess.PIPE,
                              stderr=subprocess.PIPE,
                              start_new_session=True, env={**os.environ, **path}) as script:
            processes.wait_for("begun", script)
            with contextlib.suppress(ProcessLookupError):
                os.killpg(script.pid, signal.SIGTERM)
            output, error = script.communicate()
        self.assertEqual((script.returncode, error), (-signal.SIGTERM, b""))
        self.assertIn(b"no IPFIX File", output)

    def test_help(self):
        status, output, error = inside.texts("nfcapd", "--help")
        self.assertEqual((status, error, output[:23]), (0, "", "usage: flowlabel-nfcapd"))
        self.assertNotIn("no IPFIX File\n", output)
