"""flowlabel-verify beside `flowlabel check`.

Both check the same maps, lists and certificates, and must end with the same output, fault line and status:

- made maps of both versions with their lists and certificates, full and compact, and some thousand damaged copies of
  these;
- the example maps with their lists and certificates;
- the examples of docs/FORMATS.md, and texts at their limits;
- lines with several faults;
- files that can't be read.

Most runs of flowlabel-verify are calls of its function `verify`, and some are processes. The examples have each fault
of maps, lists and certificates. The cases are the same in each run.
"""

import itertools
import os
import random
import re
import sys

from support import PROGRAM, ROOT, Case, inside, load, made, outcome, read, read_bytes, rows, write
from support.maps import EMPTY, ENDS, HALVES, LAST, WORDS, damaged_bytes, damaged_certificate, damaged_table
from support.maps import faulty_line, made_map, renumbered

# The file alone, which needs no other of the package.
VERIFIER = ROOT / "lib/flowlabel/commands/verify.py"
SEED = 20260101
CODES = [f"M{number}" for number in range(1, 15)] + [f"{kind}{number}" for kind in "CK" for number in range(1, 7)]
NAMES = ["map.txt", "list.txt", "cert.txt"]
# The made maps of each version, the damaged copies of each, and the least number of those that differ from it.
MADE_MAPS, DAMAGED, LEAST_DAMAGED = 20, 60, 25
FAULTY_LINES = 100
# The maximum number of mappings in place of that of the definitions.
MAPPINGS = 1000
# Of this many runs of flowlabel-verify one is of the whole command, and of these one in ten is a process.
ONE_IN = 50


class Comparison(Case):
    """Cases that compare flowlabel-verify with flowlabel."""

    @classmethod
    def prepare(cls):
        cls.verify = staticmethod(load(VERIFIER).verify)
        cls.compared = 0

    def result(self, names):
        """Returns how flowlabel-verify ends, mostly by a call of its function `verify`."""
        type(self).compared += 1
        if self.compared % (10 * ONE_IN) == 1:
            return outcome(sys.executable, VERIFIER, *names)
        if self.compared % ONE_IN == 1:
            return inside.outcome("verify", *names)
        status, line = self.verify(names)
        text = f"{line}\n".encode()
        return status, b"" if status else text, text if status else b""

    def compare(self, names, code=None, texts=(), line=None):
        """Compares the results for files. `code` is that of the fault, or `minimal`, and `line` its line, if they are
        known."""
        map_, list_, cert = names
        with self.subTest(names=names, texts=[text[:300] for text in texts]):
            wanted = outcome(PROGRAM, "check", "--pmap", map_, "--list", list_, "--cert", cert)
            self.assertEqual(self.result(names), wanted)
            happened = re.search(rb"(?:: |\A)([MCK]\d+|minimal) .*?(\d+)$", wanted[1] + wanted[2])
            if code:
                self.assertEqual(happened and happened[1].decode(), code)
            if line:
                self.assertEqual(int(happened[2]), line, "the line of the fault")

    def compare_texts(self, texts, code=None, line=None):
        """Compares the results for a map, a list and a certificate."""
        self.compare([write(name, text) for name, text in zip(NAMES, texts)], code, texts, line)

    def shrunk(self, map_, *words):
        """Returns the list of a map, or with `--certificate` its certificate, or None if `shrink` fails."""
        status, output, _ = outcome(PROGRAM, "shrink", "--pmap", write(NAMES[0], map_), *words)
        return output if status == 0 else None


FULL, COMPACT = ("--certificate",), ("--certificate", "--compact")


class Made:
    """Made maps with their certificates, and damaged copies."""
    width, words = 32, FULL

    @rows(*zip(range(MADE_MAPS)))
    def test_map(self, number):
        rng = random.Random(f"{SEED} {self.width} {self.words} {number}")
        map_, other = made_map(rng, self.width), made_map(rng, self.width)
        others, list_, cert = (other, self.shrunk(other)), self.shrunk(map_), self.shrunk(map_, *self.words)
        damaged = 0
        self.compare_texts((map_, list_, cert), "minimal")
        self.compare_texts((map_, list_, renumbered(rng, cert)), "minimal")
        for _ in range(DAMAGED):
            texts = [map_, list_, cert]
            match rng.choice(("cert",) * 12 + ("map", "map", "list", "list", "bytes", "other")):
                case "cert":
                    texts[2] = damaged_certificate(rng, cert)
                case "map":
                    texts[0] = damaged_table(rng, map_)
                case "list":
                    texts[1] = damaged_table(rng, list_)
                case "bytes":
                    place = rng.randrange(3)
                    texts[place] = damaged_bytes(rng, texts[place])
                case "other":
                    place = rng.randrange(2)
                    texts[place] = others[place]
            self.compare_texts(texts)
            damaged += texts != [map_, list_, cert]
        self.assertGreaterEqual(damaged, LEAST_DAMAGED)


class MadeOfIpv4(Made, Comparison):
    """Full certificates of IPv4."""


class MadeOfIpv4Compact(Made, Comparison):
    """Compact certificates of IPv4."""
    words = COMPACT


class MadeOfIpv6(Made, Comparison):
    """Full certificates of IPv6."""
    width = 128


class MadeOfIpv6Compact(Made, Comparison):
    """Compact certificates of IPv6."""
    width, words = 128, COMPACT


class FaultyLines(Comparison):
    """Lines with faults in each text."""

    @rows(*zip(range(6)))
    def test_lines(self, seed):
        rng = random.Random(f"{SEED} {seed}")
        for _ in range(FAULTY_LINES):
            texts = list(rng.choice((HALVES, LAST, EMPTY)))
            place = rng.randrange(3)
            lines = texts[place].split(b"\n")[:-1]
            at = rng.randrange(1 if place == 2 else 0, len(lines) + 1)
            line = faulty_line(rng) if place < 2 else b" ".join(rng.choices(WORDS, k=rng.randrange(1, 6)))
            if place < 2 and rng.random() < 0.5:
                # Only faults of labels.
                beginning = rng.choice((b"1.0.0.0/8", b"default", b"label 5", b"map-name", b"9.9.9.9"))
                line = b"%s %s" % (beginning, rng.choice(ENDS))
            lines.insert(at, line)
            if place < 2 and rng.random() < 0.5:
                lines.insert(0, rng.choice((b"label 5 red", b"mode ipv6", b"mode ipv4")))
            texts[place] = b"\n".join(lines) + rng.choice((b"\n", b"\n", b""))
            self.compare_texts(texts)


def lines_of(*lines):
    """Returns a text of these lines."""
    return "".join(f"{line}\n" for line in lines).encode()


# Codes, and the lines of maps and lists with this fault; of maps alone, and of lists alone. It is a fault of the last
# of these lines. Without a fault of the text there is one of the kind K.
BOTH = (
    *(("M1", line) for line in ("colour red", "Default A", "label x red", "label x", "label 2147483648 red",
                                "label 00000000005 red", "label", "\ufeff# text")),
    *(("M2", line) for line in ("10.0.0/8 A", "10.0.0/33", "10.0.0.256/8 A", "10.0.0 A", "7up A", "1::2::3 A", "x/8",
                                "/8 A", ":/0 A", "x:y z", "10.0.0.0-10.0.0.255 A", "2001:db8::g/32 A",
                                # A group of zero at the end can't be omitted (RFC 4291, section 2.3).
                                "2001:0DB8:0:CD3/60 A", "fe80::1%eth0 A", "\ufeff::/0 A")),
    *(("M3", line) for line in ("10.0.0.0/33 A", "10.0.0.0/33", "10.0.0.0/ A", "10.0.0.0/0008 A", "10.0.0.0/8/8 A",
                                "2001:db8::/129 A", "10.0.0.0/255.0.0.0 A", "10.0.0.0/8,Alder")),
    *(("M3", f"mode {mode}", line) for mode, line in (
        ("ipv6", "10.0.0.0/104 A"), ("ipv6", "10.0.0.0/33 A"), ("ipv4", "::/129"))),
    ("M5", "mode ipv4", "2001:db8::/32 A"), ("M5", "mode ipv4", "::/0"), ("M5", "10.0.0.0/8 A", "::1 A"),
    *(("M6", line) for line in ("10.0.0.0/8", "10.0.0.0/8 # A", "10.0.0.1", "label 5", "map-name")),
    *(("M7", line) for line in ("10.0.0.0/8 a\x01b", "10.0.0.0/8 a\x7f", f"10.0.0.0/8 {256 * 'x'}", "label 5 7",
                                "map-name a\x01b", "map-name a\rb")),
    ("M6", "label 5 red", "label 5"), ("M7", "label 5 red", "label 5 6"),
    ("M8", "label 5 red", "label 6 red"), ("M8", "label 5 red", "label 05 blue"),
    ("M8", "label 5 red", "1.0.0.0/8 5", "2.0.0.0/8 6", "label 5 blue"),
    *(("M9", line) for line in ("mode", "mode ipv4 x", "mode proto-port", "mode IPv4")), ("M9", "10.0.0.0/8 A", "mode"),
    ("M10", "10.0.0.0/8 A", "mode ipv4"), ("M10", "mode ipv4", "1.0.0.0/8 A", "mode ip"),
    ("M11", "mode ipv4", "mode ip"),
    # Blank lines and comments count. Lines after the first fault are not read, and a block that comes again is one.
    ("M1", "10.0.0.0/8 A", "#", "colour A"), ("M6", "", "\r", "1.0.0.0/8"),
    ("M1", "1.0.0.0/8 A", "nonsense\n1.0.0.0/8 B"), ("M2", "1.0.0.0/8 A", "1.0.0/8 B\ncolour"),
    ("M6", "1.0.0.0/8 A", "1.0.0.0/8"), ("M7", "1.0.0.0/8 A", "1.0.0.0/8 a\x01b"),
)
OF_MAPS = (*(("M4", line) for line in ("10.0.0.9 10.0.0.2 A", "10.0.0.9 10.0.0.2", "2001:db8::1 10.0.0.1 A")),
           ("M5", "10.0.0.1 2001:db8::1 A"), ("M5", "mode ipv4", "10.0.0.9 2001:db8::1 A"),
           ("M5", "mode ipv4", "10.0.0.9 ::1"), ("M6", "default"), ("M6", "default # none"),
           ("M6", "10.0.0.1 10.0.0.2"), ("M7", "default a\x00"), ("K2", "label 5 red", "label 05 red"))
OF_LISTS = (*(("M13", line) for line in ("10.0.0.1 10.0.0.2 A", "10.0.0.1 10.0.0.2", "default A", "default")),
            ("M13", "mode ipv4", "::2 ::1"), ("M13", "label 5 red", "1.0.0.0/8 5", "2.0.0.0/8 6", "default x"),
            ("M14", "1.0.0.0/8 A", "1.2.3.4/8 B"), ("M14", "10.0.0.1 A", "10.0.0.1/32 A"),
            ("M14", "mode ipv6", "10.0.0.0/8 A", "::ffff:10.0.0.0/104 B"),
            ("M14", "::ffff:a00:0/104 A", "10.0.0.0/8 B"),
            ("M14", "label 5 red", "1.0.0.0/8 5", "2.0.0.0/8 6", "1.0.0.0/8 A"),
            ("M14", "1.0.0.0/8 A", "1.0.0.0/8 B\nnonsense"), ("M14", "::/0 A", "", "# nothing", "::/0 B"),
            ("M14", "2.0.0.0/8 A", "1.0.0.0/8 B", "2.1.2.3/8 C\n1.0.0.0/8 D"))
# Codes, texts, and what changes in one of them.
CHANGED = (
    *(("C1", HALVES, 2, "flowlabel-cert 1 ipv4 4", header) for header in (
        "", "flowlabel-cert 1 ipv4 65537", "flowlabel-cert 3 ipv4 0", "flowlabel-cert 1 ipv4 04",
        "flowlabel-cert 1 ip 4",
        "flowlabel-cert  1 ipv4 4", "flowlabel-cert 1 ipv4 4\r", "flowlabel-cert 1 ipv4")),
    *(("C2", HALVES, 2, "\nA\n", f"\n{label}\n") for label in (" A", "A # first", "A\n", "B", "A ", "#", "\tA", "A\r")),
    *(("C3", HALVES, 2, "l 0\n", f"{node}\n") for node in (
        "l 4", "l 00", "n 1 1 0", "n 1 0 0", "n  1 0", "n 1 0 ", "n 4294967296 0", "n", "l", "l 0 1", "c 1 1 0 0",
        "L 0", "",
        "l 0\r", " l 0")),
    *(("C3", LAST, 2, "1" * 32, bits) for bits in ("", "2", "1" * 33)), ("C4", LAST, 2, "c 1", "n 0 0\nc 1"),
    ("C5", HALVES, 2, "l 0\nl 2\n", "l 0\n"), ("K1", HALVES, 1, "0.0.0.0/0 A", "::/0 A"),
    ("K1", HALVES, 2, "ipv4", "ipv6"),
    ("K2", HALVES, 2, "l 0", "l 1"), ("K3", HALVES, 1, "0.0.0.0/0", "0.0.0.0/3 A\n0.0.0.0/0"),
    ("K3", HALVES, 1, "0.0.0.0/0 A\n", ""), ("K4", HALVES, 2, "n 1 0 1", "n 1 1"), ("K5", HALVES, 2, "n 2 0", "n 3 0"),
    ("K5", HALVES, 2, "n 2 0", "n 4294967295"), ("K6", HALVES, 2, "n 2 0", "n 1 0"), ("K6", HALVES, 2, "n 2 0", "n 1"),
    ("K6", HALVES, 1, "0.0.0.0/0 A\n", "0.0.0.0/2 A\n0.0.0.0/0 A\n"), ("K5", LAST, 2, "c 1", "c 2"),
    ("K4", LAST, 2, " 0 0\n", " 0\n"),
    ("minimal", HALVES, 2, "4\nA\nB\nC\nUNKNOWN\nn 2 0\n", "5\nA\nB\nC\nUNKNOWN\nZ\nn 2 0 4\n"),
    # A fault of a leaf is one of the map, if there are both. The smallest side block of a chain is checked first.
    ("K2", HALVES, 2, "\nA\nB\n", "\nB\nA\n"),
)
WHOLE = (
    *(("C1", (*HALVES[:2], text)) for text in (b"", b"flowlabel-cert 1 ipv4 0")),
    ("C2", (*HALVES[:2], b"flowlabel-cert 1 ipv4 1\n")), ("C3", (*HALVES[:2], HALVES[2][:-1])),
    ("C5", (*HALVES[:2], b"flowlabel-cert 1 ipv4 0\n")), ("C5", (*HALVES[:2], b"flowlabel-cert 1 ipv4 0\nn 0\n")),
    *(("C6", (*HALVES[:2], HALVES[2] + rest)) for rest in (b"l 2\n", b"\n", b"x", b"l 2")),
    ("K3", (LAST[0] + b"0.0.0.0/1 Y\n", LAST[1] + b"255.255.255.254/32 Z\n", LAST[2])),
    ("K2", (LAST[0] + b"255.255.255.254 Y\n", LAST[1] + b"0.0.0.0/1 Z\n", LAST[2])),
)


class Examples(Comparison):
    """The examples of docs/FORMATS.md, with their codes."""

    @rows(*((code, places, lines) for table, places in ((BOTH, (0, 1)), (OF_MAPS, (0,)), (OF_LISTS, (1,)))
            for code, *lines in table))
    def test_table(self, code, places, lines):
        for place in places:
            texts = list(HALVES)
            texts[place] = lines_of(*lines)
            self.compare_texts(texts, code, len(lines) if code.startswith("M") else None)

    @rows(*CHANGED)
    def test_changed(self, code, texts, place, old, new):
        self.assertIn(old.encode(), texts[place])
        self.compare_texts([text.replace(old.encode(), new.encode(), 1) if number == place else text
                            for number, text in enumerate(texts)], code)

    @rows(*WHOLE)
    def test_whole(self, code, texts):
        self.compare_texts(texts, code)

    # Numbers are replaced in maps and lists, and not in certificates.
    @rows(("minimal", ["label 5 red", "0.0.0.0/0 5"], ["0.0.0.0/0 red"], "red"),
          ("minimal", ["label 5 red", "0.0.0.0/0 05"], ["label 8 red", "0.0.0.0/0 8"], "red"),
          ("K2", ["label 5 red", "0.0.0.0/0 5"], ["0.0.0.0/0 red"], "5"),
          ("K3", ["label 5 red", "0.0.0.0/0 5"], ["0.0.0.0/0 5"], "red"),
          ("minimal", ["0.0.0.0/0 5", "label 5 red"], ["0.0.0.0/0 5"], "5"),
          ("minimal", ["label 5 red", "0.0.0.0/0 00000000005"], ["0.0.0.0/0 00000000005"], "00000000005"),
          ("minimal", ["label 5 red", "0.0.0.0/0 4294967301"], ["0.0.0.0/0 4294967301"], "4294967301"),
          ("minimal", ["0.0.0.0/0 10.0.0.1"], ["0.0.0.0/0 10.0.0.1"], "10.0.0.1"),
          ("K2", ["0.0.0.0/0 a"], ["0.0.0.0/0 a"], "A"),
          ("minimal", ["default A", "mode ipv4"], ["0.0.0.0/0 A # A"], "A"),
          ("K2", ["0.0.0.0/1 A", "128.0.0.0/1 A"], ["0.0.0.0/0 A"], "A"),
          ("K3", ["0.0.0.0/0 A"], ["0.0.0.0/1 A", "128.0.0.0/1 A"], "A"))
    def test_labels(self, code, map_lines, list_lines, label):
        self.compare_texts((lines_of(*map_lines), lines_of(*list_lines),
                            lines_of("flowlabel-cert 1 ipv4 1", label, "l 0")), code)

    def test_each_code_has_an_example(self):
        # M12 is the code of texts above their limits.
        self.assertEqual({row[0] for table in (BOTH, OF_MAPS, OF_LISTS, CHANGED, WHOLE) for row in table},
                         {*CODES, "minimal"} - {"M12"})


EVERYTHING = b"0.0.0.0/0 UNKNOWN\n"


class Labels(Comparison):
    """Texts with as many labels as they may have, and with one more."""

    @staticmethod
    def declared(count):
        """Returns the declarations of all labels but one."""
        return b"".join(b"label %d x%d\n" % (number, number) for number in range(count - 1))

    @rows((65_535, "minimal"), (65_536, "M12"))
    def test_map(self, count, code):
        labels = self.declared(count)
        self.compare_texts((labels + b"default UNKNOWN\n", *EMPTY[1:]), code)
        self.compare_texts((labels + b"default x\ndefault UNKNOWN\n", *EMPTY[1:]), "M12")
        # A name is no label, and neither is a default label that the text doesn't contain.
        self.compare_texts((labels + b"label 65535 x\nmap-name y\n", *EMPTY[1:]), code)

    @rows((65_535, "minimal"), (65_536, "M12"))
    def test_list(self, count, code):
        self.compare_texts((b"", self.declared(count) + EVERYTHING, EMPTY[2]), code)

    @rows((65_536, "minimal"), (65_537, "C1"))
    def test_certificate(self, count, code):
        labels = b"".join(b"x%d\n" % number for number in range(count - 1))
        self.compare_texts((*EMPTY[:2], b"flowlabel-cert 1 ipv4 %d\nUNKNOWN\n%sl 0\n" % (count, labels)), code)

    @rows((65_536, "minimal"), (65_537, "C3"))
    def test_set(self, count, code):
        labels = b"".join(b"x%d\n" % number for number in range(65_535))
        numbers = b" ".join(b"%d" % number for number in range(count))
        self.compare_texts((*EMPTY[:2],
                            b"flowlabel-cert 1 ipv4 65536\nUNKNOWN\n%sn 0 %s\nl 0\nl 0\n" % (labels, numbers)), code)

    @rows(("ipv4", 32, "C5"), ("ipv4", 33, "C4"), ("ipv4", 100_000, "C4"), ("ipv6", 128, "C5"), ("ipv6", 129, "C4"))
    def test_nested(self, version, count, code):
        for number, labels, node in ((1, b"0\n", b"n 0\n"), (2, b"1\nA\n", b"c 0 1 0\n")):
            self.compare_texts((*EMPTY[:2],
                                b"flowlabel-cert %d %s %s%s" % (number, version.encode(), labels, count * node)), code)


class Entries(Comparison):
    """Texts with as many mappings and entries as they may have, and with one more. A smaller number is in place of that
    of the definitions, since flowlabel-verify takes ten seconds for a million lines."""

    @classmethod
    def prepare(cls):
        super().prepare()
        limit = int(re.search(r"(?m)^mapping_limit = (\d+)$", read(ROOT / "crates/pmap_text/specs/Reading.antt"))[1])
        text, count = re.subn(rf"\b{limit:_}\b", str(MAPPINGS), read(VERIFIER))
        assert count == 1
        cls.verify = staticmethod(load(write("verify", text)).verify)

    @rows((0, MAPPINGS - 1, "minimal 1"), (0, MAPPINGS, f"flowlabel: map.txt: M12 TooMany at {MAPPINGS + 1}"),
          (1, MAPPINGS, f"flowlabel: list.txt: M12 TooMany at {MAPPINGS + 1}"))
    def test_entries(self, place, count, wanted):
        # A list may not have a block twice.
        more = b"".join(b"10.0.%d.%d UNKNOWN\n" % divmod(number * place, 256) for number in range(count))
        texts = [more + EVERYTHING if number == place else text for number, text in enumerate(EMPTY)]
        self.assertEqual(self.verify([write(name, text) for name, text in zip(NAMES, texts)])[1], wanted)


class LargerMaps(Comparison):
    """Each kind of map that the benches use, and the example maps."""

    def compare_map(self, name):
        """Compares the results for a map and both certificates. Texts that are no maps are refused."""
        map_ = read_bytes(name)
        list_ = self.shrunk(map_)
        if list_ is None:
            self.compare_texts((map_, *HALVES[1:]))
        else:
            for words in (FULL, COMPACT):
                self.compare_texts((map_, list_, self.shrunk(map_, *words)), "minimal")

    @rows(*zip("sorted shuffled countries routes regions single distinct striped labels countries6 hosts chains ranges "
               "equal nested alternating".split()))
    def test_kind(self, order):
        made("maps.py", 200, order, "made.txt")
        self.compare_map("made.txt")

    @rows(*((path.name,) for path in sorted((ROOT / "examples").glob("*.txt"))))
    def test_example(self, name):
        self.compare_map(ROOT / "examples" / name)


class Files(Comparison):
    """Files that can't be opened or read, and command lines with a fault."""

    @classmethod
    def prepare(cls):
        super().prepare()
        for name, text in zip(NAMES, HALVES):
            write(name, text)
        write("faulty.txt", "colour\n")
        os.mkdir("folder")

    @rows(*zip((NAMES[0], "faulty.txt", "folder", "no such file")))
    def test_files(self, map_):
        for names in itertools.product(*([name, "faulty.txt", "folder", "no such file"] for name in NAMES[1:])):
            self.compare([map_, *names])

    @rows(((),), (NAMES[:2],), ((*NAMES, "more"),), (("--pmap", *NAMES),), (("-x", *NAMES[:2]),))
    def test_usage(self, names):
        status, output, error = outcome(sys.executable, VERIFIER, *names)
        self.assertEqual((status, output), (2, b""))
        self.assertIn(b"MAP LIST CERT", error)

    def test_words(self):
        """Help is printed wherever it is asked for, and after -- a name may begin with a dash."""
        for words in (["--help"], [NAMES[0], "-h"]):
            status, output, error = outcome(sys.executable, VERIFIER, *words)
            self.assertEqual((status, output[:37], error), (0, b"usage: flowlabel-verify MAP LIST CERT", b""))
        os.link(NAMES[0], "-x")
        self.assertEqual(outcome(sys.executable, VERIFIER, "--", "-x", *NAMES[1:]),
                         outcome(sys.executable, VERIFIER, *NAMES))
