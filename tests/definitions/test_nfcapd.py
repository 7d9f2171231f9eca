"""The IPFIX File that a file of nfcapd represents: the definition `ipfix_of`, and a reader of its own in tests/support.

Both read files that are made at random, most of them with a mistake. nfdump reads the sound ones too.
"""

import random
import re
import struct
import subprocess
import sys

from support import ROOT, Case, needs, nfcapd, write

FILES = 300
REST = struct.Struct(">HHBBQQQQ")
# The templates of both versions, by the IDs of their sets: the size of an address.
WIDTHS = {256: 4, 257: 16}


def rows_in(file):
    """Returns the rows of an IPFIX File with the two templates: those of each version in order."""
    rows, place = {256: [], 257: []}, 0
    while place < len(file):
        version, size, time, number, domain = struct.unpack_from(">HHIII", file, place)
        assert (version, time, number, domain) == (10, 0, 0, 1) and size <= len(file) - place
        end, place = place + size, place + 16
        while place < end:
            kind, size = struct.unpack_from(">HH", file, place)
            if kind in WIDTHS:
                rows[kind] += rows_of(file[place + 4:place + size], WIDTHS[kind])
            place += size
        assert place == end
    return rows


def rows_of(records, width):
    """Returns the rows of data records without padding."""
    size = 2 * width + REST.size
    assert len(records) % size == 0
    return [(records[at:at + width], records[at + width:at + 2 * width], *REST.unpack_from(records, at + 2 * width))
            for at in range(0, len(records), size)]


def wanted(text, allow_sampled):
    """Returns the rows of a file, or the name of its fault and the offset."""
    try:
        rows = nfcapd.read(text, allow_sampled)
    except nfcapd.Fault as fault:
        return fault.args
    return {256: [row for row in rows if len(row[0]) == 4], 257: [row for row in rows if len(row[0]) == 16]}


class Represented(Case):
    """The definition over files that are made at random."""

    @classmethod
    def prepare(cls):
        sys.path.insert(0, str(ROOT / "dev"))
        from evaluator import Definitions, with_stack
        cls.definitions, cls.with_stack = Definitions(), staticmethod(with_stack)

    def represented(self, text, allow_sampled=False):
        """Returns the rows of the IPFIX File that a text represents, or its fault."""
        made = self.with_stack(lambda: self.definitions.call("nfcapd_read/File.ipfix_of", allow_sampled, tuple(text)))
        if made.tag == "Ok":
            return rows_in(bytes(made.args[0]))
        return made.args[0].f_kind.tag.rpartition(".")[2], made.args[0].f_offset

    def test_files(self):
        rng, found = random.Random(1), set()
        for _ in range(FILES):
            text, allow_sampled = nfcapd.random_file(rng, rng.choice([2, 5, 30])), rng.random() < .5
            if rng.random() < .7:
                text = nfcapd.damaged(rng, text)
            result = wanted(text, allow_sampled)
            self.assertEqual(self.represented(text, allow_sampled), result)
            found.add("rows" if isinstance(result, dict) else result[0])
        self.assertGreaterEqual(found, {"rows", "BadAppendix", "BadBlock", "BadRecord", "BytesLeft", "OldRecord",
                                        "Sampled", "TotalsDiffer", "Truncated"})

    def test_faults_of_elements(self):
        four, counts = nfcapd.element(2, bytes(8)), nfcapd.generic((1, 2), (3, 4), (5, 6), 6, 0)
        for name, record in (("RepeatedElement", nfcapd.record(counts, four, four)),
                             ("BadFlow", nfcapd.record(counts)), ("BadFlow", nfcapd.record(four)),
                             ("BadRecord", nfcapd.record(counts, nfcapd.element(3, bytes(31))))):
            with self.subTest(name):
                block = nfcapd.block([record])
                text = nfcapd.HEADER.pack(nfcapd.MAGIC, 2, 0, 0, 0, 0, 1, 0, 40 + len(block), 0, 1) + block
                self.assertEqual(self.represented(text), (name, 52))

    def test_faults_of_header(self):
        for place, name in ((2, "OtherLayout"), (16, "Compressed"), (17, "Encrypted"), (18, "Unfinished")):
            with self.subTest(name):
                data = bytearray(nfcapd.file([]))
                data[place] ^= 1
                self.assertEqual(self.represented(bytes(data)), (name, 0))

    def test_other_texts(self):
        for text in (b"", b"\x0c", b"\0\x0a\0\x10" + bytes(12), b"10.0.0.0/8 A\n"):
            made = self.definitions.call("nfcapd_read/File.ipfix_of", False, tuple(text))
            self.assertEqual((made.tag, bytes(made.args[0])), ("Ok", text))


@needs("nfdump")
class Read(Case):
    """What nfdump reads of files that are made here."""

    def test_totals(self):
        rng = random.Random(2)
        for _ in range(20):
            blocks = [[nfcapd.random_flow(rng) for _ in range(rng.randrange(30))] for _ in range(2)]
            write("made", nfcapd.file(blocks))
            output = subprocess.check_output(["nfdump", "-r", "made", "-I"], text=True, stderr=subprocess.DEVNULL)
            found = [int(re.search(rf"(?m)^{name}: (\d+)$", output)[1]) for name in ("Flows", "Bytes", "Packets")]
            self.assertEqual(found, [number & nfcapd.MASK for number in nfcapd.sums(blocks[0] + blocks[1])])

    def test_counts(self):
        rng = random.Random(3)
        flows = [nfcapd.record(nfcapd.generic((1_700_000_000_000,) * 2, (number + 1, 100 * number + 40), (number, 80),
                                              6, 0), nfcapd.element(2, rng.randbytes(8))) for number in range(50)]
        text = nfcapd.file([flows])
        write("made", text)
        output = subprocess.check_output(["nfdump", "-r", "made", "-q", "-o", "fmt:%sa|%da|%sp|%pkt|%byt", "-N"], text=True)
        found = [[part.strip() for part in line.split("|")] for line in output.splitlines() if line.count("|") == 4]
        self.assertEqual(found, [[".".join(map(str, row[0])), ".".join(map(str, row[1])), str(row[2]), str(row[6]),
                                  str(row[7])] for row in nfcapd.read(text)])
