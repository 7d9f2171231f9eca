"""flowlabel-audit.

Over Files, which are made here set by set, it must count the skipped sets that `info` counts, and report what the rows
lack. Of sessions whose messages are left out, repeated, exchanged or numbered otherwise it must say which records are
missing, as section 3.1 of RFC 7011 counts them, and be certain only if no other way of counting explains it. Of what
softflowd and pmacctd send over UDP it must count the records that the receiver has thrown away, as `info` counts them.
"""

import gzip
import itertools
import os
import struct
import subprocess

from support import FOREVER, PROGRAM, ROOT, Case, command, exporters, inside, needs, read, rows, run, texts, write
from support.ipfix import FOUR, SUMS, message, sets, template

AUDIT = command("audit")


class Audit(Case):
    """Cases that run flowlabel-audit."""

    def audit(self, *words):
        """Runs the command, and returns its status and its two outputs."""
        return inside.texts("audit", *words)

# Files of exporters that lack nothing.
SESSIONS = ("pmacctd.ipfix", "softflowd.ipfix", "softflowd-milli.ipfix", "softflowd-biflow.ipfix")


def file_of(*messages):
    """Returns a File of messages, each a domain and its sets."""
    return b"".join(message(*parts, number=number, domain=domain) for number, (domain, *parts) in enumerate(messages))


WITHDRAWN = struct.pack(">HH", 256, 0)
FLOW = bytes.fromhex("0a000001 08080808 00000003 000000b4")
EMPTY = bytes.fromhex("0a000001 08080808 00000000 00000000")
SIX = bytes.fromhex("20010db8" + 24 * "0" + "20010db8" + 23 * "0" + "1" + "00000001 00000001")
MAPPED = bytes.fromhex((20 * "0" + "ffff0a000001") * 2 + "00000001 00000001")
COUNTED = "{}: skipped-sets {}, missing {}, records {}, rows {}"
GOOD = template(256, *FOUR, *SUMS)
# The record FLOW with its addresses exchanged.
BACK = FLOW[4:8] + FLOW[:4] + FLOW[8:]
# Files, the map if any, the status, and what is printed: parts of each line of warnings, then the counts.
FLOWS = (
    (((1, template(256, *FOUR, *SUMS), sets(256, FLOW)),), None, 0, (), (0, 0, 1, 1)),
    (((1, sets(256, FLOW), sets(256, FLOW)), (1, template(256, *FOUR, *SUMS), sets(256, FLOW)), (7, sets(256, FLOW))),
     None, 1, (("2 sets with the ID 256 of the domain 1 are skipped", "number is unknown",
                "comes only in the message at 56"),
               ("1 sets with the ID 256 of the domain 7", "only the domain 1 has a template of this ID")),
     (3, "unknown", 1, 1)),
    (((1, sets(257, FLOW)), (1, sets(255, FLOW)), (1, sets(0, b""))), None, 1,
     (("ID 257", "template isn't in the File. Start the recording before the exporter"), ("ID 255", "reserved"),
      ("ID 0 ", "reserved"), ("no flow records",)), (3, "unknown", 0, 0)),
    (((1, template(256, *FOUR, *SUMS), sets(2, WITHDRAWN), sets(256, FLOW)),), None, 1,
     (("ID 256", "withdrew"), ("no flow records",)), (1, "unknown", 0, 0)),
    (((1, template(256, *FOUR, *SUMS), sets(2, struct.pack(">HH", 2, 0)), sets(256, FLOW)),), None, 1,
     (("ID 256", "withdrew"), ("no flow records",)), (1, "unknown", 0, 0)),
    # The ID 3 withdraws the templates of options, and the template of flows stays.
    (((1, template(256, *FOUR, *SUMS), template(257, *FOUR, scopes=1), sets(3, struct.pack(">HH", 3, 0)),
       sets(256, FLOW), sets(257, FLOW)),), None, 1, (("ID 257", "withdrew"),), (1, "unknown", 1, 1)),
    # Some rows, or all, without packets or bytes. A bill counts bytes.
    (((1, template(256, *FOUR, *SUMS), sets(256, FLOW + EMPTY + EMPTY)),), None, 0,
     (("2 of 3 rows have 0 bytes",),), (0, 0, 3, 3)),
    (((1, template(256, *FOUR, *SUMS), sets(256, EMPTY + EMPTY)),), None, 1,
     (("2 of 2 rows have 0 bytes",),), (0, 0, 2, 2)),
    (((1, template(256, *FOUR, (2, 9), (1, 4)), sets(256, FLOW[:8] + bytes(12) + b"\1")),), None, 0,
     (("the template 256 of the domain 1", "no packets (element 2 or 86)"),),
     (0, 0, 1, 1)),
    (((1, template(256, *FOUR, (2, 4)), sets(256, FLOW[:12])),), None, 1,
     (("no bytes (element 1 or 85)",), ("1 of 1 rows have 0 bytes",)), (0, 0, 1, 1)),
    # Some records, or all, without rows.
    (((1, template(256, (56, 6), *SUMS), sets(256, bytes(14))),), None, 1,
     (("the template 256", "no addresses of source and destination, so its records have no rows"),
      ("none of its 1 records has a row",)), (0, 0, 1, 0)),
    (((1, template(256, (56, 6), *SUMS), sets(256, bytes(28)), template(257, *FOUR, *SUMS), sets(257, FLOW)),), None, 0,
     (("the template 256 of the domain 1 has no addresses",),), (0, 0, 3, 1)),
    # Elements with an enterprise number are others, and have specifiers of 8 bytes. Of two fields the lengths vary.
    (((1, template(256, (8, 4, 7), (12, 4, 7), *SUMS), sets(256, FLOW + FLOW)),), None, 1,
     (("the template 256 of the domain 1 has no addresses",), ("none of its 2 records",)), (0, 0, 2, 0)),
    (((1, template(256, (1, 4, 29305), *FOUR, (2, 4, 29305), *SUMS),
       sets(256, 2 * (FLOW[12:] + FLOW[:12] + FLOW[8:]))),), None, 0, (),
     (0, 0, 2, 4)),
    (((1, template(256, (96, 65535), *FOUR, (371, 65535), *SUMS),
       sets(256, b"\xff\1\0" + bytes(256) + FLOW[:8] + b"\0" + FLOW[8:] + b"\xff\0\3abc" + FLOW[:8] + b"\1x" + FLOW[8:]
            + b"\2ab" + FLOW[:8] + b"\0" + FLOW[8:])),), None, 0, (), (0, 0, 3, 3)),
    (((1, template(257, *FOUR, scopes=1), sets(257, FLOW[:8])),), None, 0, (("no flow records",),), (0, 0, 0, 0)),
    (((1, template(256, (27, 16), (28, 16), *SUMS), sets(256, SIX + MAPPED)),), "10.0.0.0/8 A\n", 0,
     (("1 rows have no label", "mode ipv6"),), (0, 0, 2, 2)),
    (((1, template(256, (27, 16), (28, 16), *SUMS), sets(256, SIX)),), "mode ipv6\n10.0.0.0/8 A\n", 0, (),
     (0, 0, 1, 1)),
    ((), None, 1, (("empty",),), (0, 0, 0, 0)),
    # A template without bytes beside a good one: its rows have 0 bytes.
    *((((1, GOOD, sets(256, FLOW), template(257, *FOUR, (2, 4), (element, 4)), sets(257, FLOW)),), None, 1,
       (("the template 257 of the domain 1 has no bytes (element 1 or 85); its elements are 8, 12, 2, "
         f"{element}",), ("1 of 2 rows have 0 bytes",)), (0, 0, 2, 2)) for element in (231, 232, 352, 23)),
    (((1, GOOD, sets(256, FLOW)), (1, template(256, *FOUR, (2, 4), (1, 4, 9)), sets(256, FLOW)),
      (1, GOOD, sets(256, FLOW))), None, 1,
     (("wrong: ", "the template 256 of the domain 1 gets other fields in the message at 60, without a withdrawal, and",
       "later those before again", "record each exporter in a File of its own"),
      ("the template 256 of the domain 1 has no bytes", "8, 12, 2, 1 of the enterprise 9"),
      ("1 of 3 rows have 0 bytes",)), (0, 0, 3, 3)),
    # A template that is replaced once, and one that is withdrawn before.
    (((1, GOOD, sets(256, FLOW)), (1, template(256, *SUMS, *FOUR), sets(256, FLOW[8:] + FLOW[:8])),
      (1, sets(256, FLOW[8:] + FLOW[:8]))), None, 0,
     (("warning: ", "the template 256 of the domain 1 gets other fields in the message at 60, without a withdrawal. "),),
     (0, 0, 3, 3)),
    (((1, GOOD, sets(256, FLOW)), (1, sets(2, WITHDRAWN), template(256, *SUMS, *FOUR), sets(256, FLOW[8:] + FLOW[:8])),
      (1, sets(2, WITHDRAWN), GOOD, sets(256, FLOW))), None, 0, (), (0, 0, 3, 3)),
    # A template without records says nothing.
    (((1, GOOD, template(257, *FOUR), sets(256, FLOW)),), None, 0, (), (0, 0, 1, 1)),
    # Records without addresses beside records of both directions: there are more rows than records.
    (((1, template(256, *FOUR, *SUMS, (1, 4, 29305), (2, 4, 29305)), sets(256, 2 * (FLOW + FLOW[8:])),
       template(257, (56, 6), *SUMS), sets(257, bytes(14))),), None, 0,
     (("the template 257 of the domain 1 has no addresses", "its elements are 56, 2, 1"),), (0, 0, 3, 4)),
    # How packets are sampled, in options and in records. The samples of softflowd have elements 305 and 306.
    *((((1, template(300, (143, 4), *elements, scopes=1), sets(300, bytes(4) + values), GOOD, sets(256, FLOW)),), None,
       0, (("packets of the domain 1 are sampled 1 in 10: sums are not scaled (elements 143, ",),) * is_sampled,
       (0, 0, 1, 1))
      for elements, values, is_sampled in (
          (((305, 4), (306, 4)), struct.pack(">II", 1, 9), True),
          (((305, 4), (306, 4)), struct.pack(">II", 1, 0), False),
          (((34, 2),), struct.pack(">H", 10), True), (((34, 2),), struct.pack(">H", 1), False),
          (((82, 65535), (50, 4)), b"\3abc" + struct.pack(">I", 10), True),
          (((309, 2), (310, 4)), struct.pack(">HI", 3, 30), True), (((309, 2), (310, 4)), bytes(6), False),
          # Exporters send no numbers this long.
          (((34, 400),), b"\xff" * 400, False), (((305, 4), (306, 65535)), bytes(3) + b"\1\xc8" + b"\xff" * 200,
                                                   False))),
    (((1, template(256, *FOUR, *SUMS, (34, 4)),
       sets(256, FLOW + struct.pack(">I", 1) + FLOW + struct.pack(">I", 10))),), None, 0,
     (("sampled 1 in 10",),), (0, 0, 2, 2)),
    # Reverse bytes without reverse packets, and totals.
    (((1, template(256, *FOUR, *SUMS, (1, 4, 29305)), sets(256, FLOW + FLOW[12:])),), None, 0,
     (("the template 256 of the domain 1 has reverse bytes and no reverse packets",),), (0, 0, 1, 1)),
    (((1, template(256, *FOUR, (86, 4), (85, 4)), sets(256, FLOW)),), None, 0,
     (("has totals since a flow began (element 86 and 85)",),), (0, 0, 1, 1)),
    (((1, template(256, *FOUR, *SUMS, (85, 4), (86, 4)), sets(256, FLOW + FLOW[8:])),), None, 0, (), (0, 0, 1, 1)),
    # The same flow at both ends of a router, and a flow with its answer, as softflowd has them.
    (((1, template(256, *FOUR, *SUMS, (61, 1)), sets(256, FLOW + b"\0" + FLOW + b"\1" + BACK + b"\1")),), None, 0,
     (("1 of 2 flows were seen when they came and when they left (flowDirection 0 and 1)",),), (0, 0, 3, 3)),
    (((1, template(256, *FOUR, *SUMS, (61, 1), (82, 65535)), sets(256, FLOW + b"\0\0" + BACK + b"\1\1x")),), None, 0,
     (), (0, 0, 2, 2)),
    (((1, template(256, *FOUR, *SUMS, (61, 1), (82, 65535)), sets(256, FLOW + b"\0\0" + FLOW + b"\1\1x")),), None, 0,
     (("1 of 1 flows were seen",),), (0, 0, 2, 2)),
)
WHOLE = file_of((1, template(256, *FOUR, *SUMS), sets(256, FLOW)))
# Bytes that are no File, a part of the cause, and a command that makes a File, if there is one.
NO_FLOWS = (
    (gzip.compress(WHOLE), "gzip", "zcat {0} "),
    (bytes.fromhex("d4c3b2a1 02000400 00000000 00000000 00000400 01000000"), "flowlabel-capture", None),
    (bytes.fromhex("0a0d0d0a 1c000000 4d3c2b1a 01000000 ffffffff ffffffff 1c000000"), "pcap", None),
    (bytes.fromhex("0ca50100 00000000 01000000 00000000"), "nfcapd", None),
    (bytes.fromhex("00050001 00000000 60000000 00000000 00000000"), "NetFlow version 5", None),
    (bytes.fromhex("00090001 00000000 60000000 00000000 00000000"), "NetFlow version 9", None),
    (bytes.fromhex("00000005 00000001 0a000001 00000000 00000001"), "sFlow", None),
    (bytes.fromhex("deadbeef 01000c10 00000000 00000000"), "SiLK", None),
    (b"# a map\n", "a text", None),
    (bytes(4096), "zero bytes", None),
    (b"\xff" * 20, "no IPFIX File", None),
    (WHOLE + WHOLE[:9], f"head -c {len(WHOLE)} ", f"head -c {len(WHOLE)} {{0}}"),
    (WHOLE + WHOLE[:30], f"head -c {len(WHOLE)} ", f"head -c {len(WHOLE)} {{0}}"),
    (WHOLE + b"xy" + WHOLE, f"head -c {len(WHOLE)} ", f"head -c {len(WHOLE)} {{0}}"),
    (WHOLE + file_of((1, struct.pack(">HH", 256, 3))), f"head -c {len(WHOLE)} ", f"head -c {len(WHOLE)} {{0}}"),
    (WHOLE + file_of((1, sets(2, bytes(8)))), "zero bytes", None),
    (file_of((1, sets(2, struct.pack(">HHHH", 256, 9, 8, 4)))), "damaged", "head -c 0 {0}"),
)


class Flows(Audit):
    """What is found in Files, and of bytes of other kinds."""

    @rows(*((number, *row) for number, row in enumerate(FLOWS)))
    def test_file(self, _, messages, text, status, warnings, counts):
        name = write("a b\n.ipfix", file_of(*messages))
        labels = ["--pmap", write("map.txt", text)] if text else []
        found, output, error = self.audit(*labels, name)
        *lines, last, _ = output.split("\n")
        self.assertEqual((found, error, last), (status, "", COUNTED.format("a b\\x0a.ipfix", *counts)))
        self.assertEqual(len(lines), len(warnings), lines)
        for line, parts in zip(lines, warnings):
            self.assertRegex(line, r"\A(warning|wrong): a b\\x0a.ipfix: ")
            for part in parts:
                self.assertIn(part, line)

    @rows(*NO_FLOWS)
    def test_no_file(self, data, cause, cure):
        status, output, error = self.audit(write("no file", data))
        self.assertEqual((status, output), (1, ""))
        self.assertRegex(error, r"\Aflowlabel-many: no file: F.*\nflowlabel-audit: no file: .*\n\Z")
        self.assertIn(cause, error)
        if cure:
            self.assertIn(cure.format("FILE"), error)
            made = write("made", run("sh", "-c", cure.format("'no file'"), check=True).stdout)
            # No message is left of a File whose first one is damaged.
            self.assertEqual(self.audit(made)[0], int(os.path.getsize(made) == 0))

    @rows(("/dev/stdin",), ("fifo",), ("/dev/null",))
    def test_no_regular_file(self, name):
        if name == "fifo":
            os.mkfifo(name)
        with subprocess.Popen(["cat", ROOT / "examples/softflowd.ipfix"], stdout=subprocess.PIPE) as cat:
            self.assertEqual(texts(AUDIT, name, stdin=cat.stdout),
                             (1, "", f"flowlabel-audit: {name}: not a regular file\n"))

    @rows(*zip(SESSIONS))
    def test_session(self, name):
        status, output, _ = self.audit(ROOT / "examples" / name)
        self.assertEqual((status, output.count("\n")), (0, 1))
        self.assertIn(", missing 0, ", output)

    def test_a_file_that_is_missing(self):
        self.assertEqual(self.audit("missing", ROOT / "examples/softflowd.ipfix"),
                         (4, "", "flowlabel-audit: missing: No such file or directory\n"))


class Exporter:
    """Makes messages and numbers them. `counts` returns by how much the number grows for the flow records, options
    records and templates of a message. It is that of the next message's begin, or with `is_end` of this message's
    end."""

    def __init__(self, domain=1, start=0, counts=lambda flows, options, templates: flows + options, is_end=False,
                 time=0x60000000):
        self.domain, self.next, self.counts, self.is_end, self.time = domain, start, counts, is_end, time

    def send(self, flows, options=0, templates=0):
        """Returns a message, and the number of its data records."""
        body = templates * template(256, *FOUR, *SUMS)
        body += template(257, (149, 4), (41, 8), scopes=1) if options else b""
        body += (sets(256, flows * FLOW) if flows else b"") + (sets(257, options * bytes(12)) if options else b"")
        begin, self.next = self.next, (self.next + self.counts(flows, options, templates)) % 2**32
        return message(body, number=self.next if self.is_end else begin, domain=self.domain, time=self.time)

    def session(self, count=20):
        """Returns messages of 3 to 9 records. Their first has a template, and the sixth an options record besides."""
        return [self.send(3 + number % 7, number == 5, number == 0) for number in range(count)]


def without(messages, *left_out):
    """Returns messages but for some, given by their index."""
    return [each for index, each in enumerate(messages) if index not in left_out]


def at(messages, number):
    """Returns what is printed of a message: its number, counted from 1, and its offset."""
    return f"before the message {number} at {sum(map(len, messages[:number - 1]))}"


def lost_cases():
    """Yields what is tried, messages, the status, the text of `missing`, and parts of the lines of warnings. The
    message of the index i has 3 + i % 7 flow records."""
    whole = Exporter().session()
    yield "a whole session", whole, 0, "0", ()
    some = [Exporter(start=7000).send(1, 0, 1), *Exporter(start=7001).session()]
    yield "a session from its middle on", some, 0, "0", ()
    some = without(whole, 3)
    yield "a lost message", some, 1, "6", (f"6 records of the domain 1 are missing: 6 {at(some, 4)}",)
    some = without(whole, 3, 4, 8, 12, 15, 17)
    yield "five gaps", some, 1, "35", ("35 records of the domain 1 are missing: "
                                       f"13 {at(some, 4)}, 4 {at(some, 7)}, 8 {at(some, 10)}, 2 more gaps",)
    some = without(whole, 5)
    yield "a lost options record", some, 1, "9", (f"9 records of the domain 1 are missing: 9 {at(some, 6)}",)
    yield "a session that passes 2^32", Exporter(start=2**32 - 60).session(), 0, "0", ()
    yield "a loss at 2^32", without(Exporter(start=2**32 - 60).session(), 9, 10, 11), 1, "18", ("18 records",)
    # A gap that templates beside it could explain, if numbers beside other templates don't follow each other.
    exporter = Exporter()
    messages = [exporter.send(5, 0, number % 5 == 0) for number in range(10)] + [exporter.send(1, 0, 1)]
    messages += exporter.session()
    some = without(messages, 10)
    yield "a small gap", some, 1, "1", (f"1 records of the domain 1 are missing: 1 {at(messages, 11)}",)
    yield "an unconfirmed loss", without(whole, 18), 0, "unknown", ("7 records of the domain 1 may be missing",)
    yield "few messages", without(Exporter().session(4), 2), 0, "unknown", ("too few sequence numbers of the domain 1",)
    # Messages that come late fill their gap.
    some = [*whole[:4], whole[5], whole[4], *whole[6:]]
    yield "exchanged messages", some, 0, "0", ("1 messages of the domain 1 came late",)
    late = [*whole[:4], *whole[7:9], whole[5], whole[4], whole[6], *whole[9:]]
    yield "three late messages", late, 0, "0", ("3 messages of the domain 1 came late",)
    yield "late messages beside a loss", without(late, 6), 0, "unknown", (
        "records of the domain 1 may be missing", "2 messages")
    some = [*whole[:4], whole[6], whole[9], whole[5], *whole[10:]]
    yield "a late message after two gaps", some, 0, "unknown", ("records of the domain 1 may be missing", "1 messages")
    yield "late messages and a loss", without(late, 14), 1, "3", ("3 records of the domain 1 are missing", "3 messages")
    # Messages that come twice are in sums twice.
    yield "a repeated message", [*whole[:6], whole[5], *whole[6:]], 1, "0", (
        f"1 messages of the domain 1 came twice, so their records are in sums twice. The first is {at(whole, 7)[7:]}",)
    yield "a message that is repeated late", [*whole[:9], whole[4], *whole[9:]], 1, "0", ("came twice",)
    # A session that begins again.
    second = Exporter(time=0x60000100).session()
    yield "a restart", [*whole, *second], 0, "0", (f"begin again with 0 in {at([*whole, *second], 21)[7:]}",)
    again = [*without(whole, 7), *second]
    yield "a loss before a restart", again, 1, "3", ("3 records of the domain 1 are missing", "begin again with 0")
    yield "a restart whose first message is lost", [*whole, *second[1:]], 0, "0", (
        "begin again with 3", "several sessions")
    some = [*whole, *Exporter(start=5000).session()]
    yield "a session that begins elsewhere", some, 0, "unknown", ("may be missing",)
    # Several domains, and exporters.
    one, two = Exporter().session(), without(Exporter(2, 900).session(), 6)
    both = [each for pair in zip(one, two) for each in pair]
    yield "a loss in one of two domains", both, 1, "9", (f"9 records of the domain 2 are missing: 9 {at(both, 14)}",)
    other = Exporter(start=500000).session()
    mixed = [each for pair in zip(one, other) for each in pair]
    yield "two exporters by turns", mixed, 0, "unknown", ("may be missing", "came late")
    mixed = [each for pair in zip(other, one) for each in pair]
    yield "two exporters by turns, exchanged", mixed, 0, "unknown", ("too few sequence numbers of the domain 1",)
    mixed = [*one[:8], *other[:8], *one[8:16], *other[8:], *one[16:]]
    yield "two exporters by eights", mixed, 0, "unknown", ("may be missing", "came late")
    mixed = [*other[:8], *one[:8], *other[8:16], *one[8:], *other[16:]]
    yield "two exporters by eights, exchanged", mixed, 0, "0", ("begin again with 0", "several sessions")
    # Other ways of counting.
    for what, counts, is_end in (("without options records", lambda flows, options, templates: flows, False),
                                 ("like softflowd", lambda flows, options, templates: flows, True),
                                 ("to the end", lambda flows, options, templates: flows + options, True)):
        yield f"counted {what}", Exporter(counts=counts, is_end=is_end).session(), 0, "0", ()
        # The numbers pass 2^32 in the sixth message, so those of its begin and its end are far apart.
        passing = Exporter(start=2**32 - 30, counts=counts, is_end=is_end).session()
        yield f"counted {what}, past 2^32", passing, 0, "0", ()
        some = without(Exporter(counts=counts, is_end=is_end).session(), 3, 9)
        yield f"a loss, counted {what}", some, 1, "11", (
            f"11 records of the domain 1 are missing: 6 {at(some, 4)}, 5 {at(some, 9)}",)
    by_message = Exporter(counts=lambda flows, options, templates: 1).session()
    yield "counted by messages", by_message, 0, "0", ()
    some = without(by_message, 3)
    yield "a loss, counted by messages", some, 0, "unknown", ("1 messages of the domain 1 may be missing",)
    for what, counts, *parts in (
            ("nothing", lambda *_: 0, "too few", "32 messages are equal to earlier ones of the File: if they came"),
            ("bytes", lambda flows, *_: 16 * flows, "too few"),
            ("templates", lambda *parts: sum(parts), "3 records of the domain 1 may be missing")):
        exporter = Exporter(counts=counts)
        some = [*exporter.session(), exporter.send(2, 0, 1), *exporter.session()]
        yield f"an exporter that counts {what}", some, 0, "unknown", parts
    # Open vSwitch counts the records of all domains together.
    common = []
    exporter = Exporter(7)
    for place in range(24):
        exporter.domain = 0 if place % 8 == 3 else 7
        common.append(exporter.send(0, 1, 0) if exporter.domain == 0 else exporter.send(2 + place % 3, 0, place == 0))
    yield "counted over all domains", common, 0, "0", ()
    yield "a loss, counted over all domains", without(common, 6), 1, "2", ("2 records of all domains are missing",)
    # What skipped sets have is unknown.
    exporter = Exporter()
    messages = exporter.session(6)
    skipped = message(sets(300, bytes(4)), number=exporter.next)
    exporter.next += 17
    yield "a skipped set", [*messages, skipped, *exporter.session()], 1, "unknown", ("number is unknown",)


class Lost(Audit):
    """The records that are missing by the numbers of messages, and ways of counting that differ from RFC 7011."""

    @rows(*lost_cases())
    def test_session(self, _, messages, status, missing, parts):
        found = self.audit(write("session.ipfix", b"".join(messages)))
        self.assertEqual((found[0], found[2]), (status, ""))
        *lines, last, _ = found[1].split("\n")
        self.assertEqual(len(lines), len(parts), lines)
        for part, line in zip(parts, lines):
            self.assertIn(part, line)
        self.assertIn(f", missing {missing}, ", last)


def stream(domain, *minutes):
    """Returns a File of messages at some minutes, each with a record."""
    return b"".join(message(*[GOOD] * (place == 0), sets(256, FLOW), number=place, domain=domain,
                            time=0x60000000 + 60 * minute) for place, minute in enumerate(minutes))


HOUR = range(0, 60, 5)
BEFORE, AFTER = "records before them may be missing", "records after them may be missing"
# Files, and parts of each line of warnings.
ENDS = (
    ((stream(1, *HOUR), stream(2, *HOUR)), ()),
    ((stream(1, *HOUR), stream(2, *range(20, 60, 5))), (("the messages of the domain 2 begin at ", BEFORE),)),
    ((stream(1, *HOUR), stream(2, *range(0, 40, 5))), (("the messages of the domain 2 end at ", AFTER),)),
    # It began again, and another session of its domain ran on.
    ((stream(1, *HOUR), stream(2, *range(0, 30, 5)), stream(2, *range(30, 60, 5))), ()),
    # No longer than its own pauses, or beside no other.
    ((stream(1, *HOUR), stream(2, 0, 20, 40)), ()),
    ((stream(1, *HOUR), stream(2, *range(70, 99, 5))), ()),
    # A single message has no pauses.
    ((stream(1, *HOUR), stream(2, 30)), (("the messages of the domain 2 begin", BEFORE),
                                         ("the messages of the domain 2 end", AFTER))),
)


class Ends(Audit):
    """What may be lost before a session or after it, by the times of others."""

    @rows(*((number, *row) for number, row in enumerate(ENDS)))
    def test_files(self, number, files, wanted):
        names = [write(f"{number}-{place}.ipfix", data) for place, data in enumerate(files)]
        status, output, error = self.audit(*names)
        lines = [line for line in output.splitlines() if line.startswith(("warning", "wrong"))]
        self.assertEqual((status, error, len(lines)), (0, "", len(wanted)), output)
        for line, parts in zip(lines, wanted):
            for part in parts:
                self.assertIn(part, line)


class Real(Audit):
    """What real exporters send, all of it and without every fifth message."""

    @classmethod
    def prepare(cls):
        run(ROOT / "examples/packets", "2000", "capture.pcap", check=True)

    def count(self, file, messages, *names):
        """Writes a File, and returns the sum of some of its counts."""
        info = texts(PROGRAM, "info", write(file, b"".join(messages)))[1]
        counted = dict(line.split() for line in info.splitlines())
        return sum(int(counted[name]) for name in names)

    def compare(self, exporter, warning, *names):
        """Compares what is found of an exporter, perhaps with a warning, with the records that `info` counts."""
        messages = exporters.received(exporter)
        self.assertGreater(len(messages), 40)
        lost = self.count("whole", messages, *names) - self.count(
            "lost", without(messages, *range(4, len(messages) - 4, 5)), *names)
        status, output, _ = self.audit("whole")
        self.assertEqual((status, output.count("\n")), (0, 1 + bool(warning)), output)
        self.assertIn(warning, output)
        self.assertIn(", missing 0, ", output)
        status, output, _ = self.audit("lost")
        self.assertEqual(status, 1)
        self.assertIn(f", missing {lost}, ", output)

    @needs("softflowd")
    def test_softflowd(self):
        self.compare(exporters.softflowd("-v", "10"), "", "records")

    @needs("softflowd")
    def test_a_softflowd_that_samples(self):
        self.compare(exporters.softflowd("-v", "10", "-s", "2"), "sampled 1 in 2: sums are not scaled", "records")

    @needs("pmacctd")
    def test_pmacctd(self):
        self.compare(exporters.pmacctd(10, "sampling_rate[a]: 2"), "sampled 1 in 2: sums are not scaled", "records",
                     "options-records")


def late():
    """Yields messages, every second of which is late and in the first of many gaps."""
    yield message(template(256, (4, 1)))
    for number in range(0, 9000, 10):
        yield message(sets(256, b"11"), number=number)
    for number in itertools.count(9000):
        yield message(sets(256, b"1"), number=number)
        yield message(number=5)


def withdrawn():
    """Yields many templates of options, and withdrawals of the others."""
    for first in (256, 6256):
        yield message(b"".join(template(number, (4, 1), scopes=1) for number in range(first, first + 4000)))
    while True:
        yield message(sets(2, struct.pack(">HH", 2, 0)))


TOO_MANY = "it has more than 20000 domains, templates and IDs of skipped sets\n"
NO_RECORDS = "skipped-sets 0, missing {}, records 0, rows 0\n"
HOSTILE = (
    ("domains", map(lambda number: message(domain=number), itertools.count()), TOO_MANY),
    ("many domains", (message(domain=number % 19999, number=number) for number in itertools.count()),
     NO_RECORDS.format("unknown")),
    ("late", late(), "missing unknown, "),
    ("sessions", (message(number=number % 999 * 4000037) for number in itertools.count()),
     NO_RECORDS.format("unknown")),
    ("templates", (message(b"".join(template(256 + number, (4, number)) for number in range(4000)), domain=domain)
                   for domain in itertools.count()), TOO_MANY),
    ("shapes", (message(template(256, (4, number % 60000)), sets(256, b"")) for number in itertools.count(1)),
     TOO_MANY),
    ("skipped sets", (message(b"".join(sets(number, b"") for number in range(256, 8256)), domain=domain)
                      for domain in itertools.count()), TOO_MANY),
    ("withdrawals", withdrawn(), NO_RECORDS.format("0")),
    ("short records", itertools.chain([message(template(256, (82, 65535)))],
                                      itertools.repeat(message(sets(256, bytes(65000))))), " rows 0\n"),
)


class Hostile(Audit):
    """Files that an attacker made: it takes at most 200 MB of memory and 5 CPU seconds for 8 MB.

    The time is measured on a quiet machine alone, and elsewhere the File has 4 MB.
    """
    @rows(*HOSTILE)
    def test_file(self, _, messages, wanted):
        is_quiet = os.environ.get("QUIET") == "1"
        megabytes = 8 if is_quiet else 4
        with open("hostile.ipfix", "wb") as file:
            while file.tell() < megabytes * 1_000_000:
                file.write(next(messages))
        with open("said", "w+b") as said:
            process = os.posix_spawn(AUDIT, [AUDIT, "hostile.ipfix"], os.environ, file_actions=[
                (os.POSIX_SPAWN_DUP2, said.fileno(), stream) for stream in (1, 2)])
            _, status, used = os.wait4(process, 0)
        self.assertIn(os.waitstatus_to_exitcode(status), (0, 1))
        self.assertIn(wanted, read("said")[-400:])
        self.assertLess(used.ru_maxrss, 200_000)
        self.assertLess(used.ru_utime + used.ru_stime, 5 if is_quiet else FOREVER)
