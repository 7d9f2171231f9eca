"""flowlabel-customers on tables of customers.

The map that it prints is read by flowlabel, and must give each address the label of its line. Which line that is, is
found here by Python's module ipaddress: the smallest range around the address, or with --last the last one. Hostile
cells must come out as they are, or be refused with the number of their line.
"""

import ipaddress
import random

from support import Case, inside, rows, write

HEAD = "network,label\n"
# The options, the table, and for some addresses the label, or None for a label of no line.
TABLES = (
    ("", HEAD + "10.0.0.0/8,Alder\n10.1.0.0/16,Birch\n", {"10.1.2.3": "Birch", "10.2.0.0": "Alder", "11.0.0.0": None}),
    # The longer block counts, whatever the order of lines, and so does the smaller range.
    ("", HEAD + "10.1.2.0/24,C\n10.1.0.0/16,B\n10.0.0.0/8,A\n", {"10.1.2.3": "C", "10.1.3.0": "B", "10.2.0.0": "A"}),
    ("", HEAD + "10.0.0.5-10.0.0.9,C\n10.0.0.4 - 10.0.0.9,B\n10.0.0.0\u201310.0.1.0,A\n",
     {"10.0.0.4": "B", "10.0.0.9": "C", "10.0.0.10": "A", "10.0.1.0": "A", "10.0.1.1": None}),
    # IPv4 and IPv6, and addresses of IPv4 inside a block of IPv6.
    ("", HEAD + "::/0,All\n2001:db8::/32,Six\n10.0.0.0/8,Four\n2001:db8::5,One\n",
     {"10.1.1.1": "Four", "11.1.1.1": "All", "2001:db8::1": "Six", "2001:db8::5": "One", "1::": "All"}),
    ("", HEAD + "0.0.0.0/0,All\n0.0.0.0-255.255.255.255,All\n", {"0.0.0.0": "All", "255.255.255.255": "All"}),
    ("--network 1 --label 2", "10.0.0.0/8,Alder\n", {"10.0.0.1": "Alder"}),
    ("--network first --network LAST --label Who", "Who,first,last,\nAlder,10.0.0.1,10.0.0.3,x\nBirch,::1,::1,\n",
     {"10.0.0.0": None, "10.0.0.3": "Alder", "::1": "Birch"}),
    ("--network 2 --network 3 --label 1", "Alder,240.0.0.0,255.255.255.255\n",
     {"255.1.1.1": "Alder", "239.1.1.1": None}),
    ("--delimiter ; --label name", "Name;NETWORK\nA, B;010.0.0.0/8\n", {"10.0.0.1": "A, B", "8.0.0.1": None}),
    ("--delimiter tab", "network\tlabel\n10.0.0.0/8\tA\n", {"10.0.0.1": "A"}),
    ("--last", HEAD + "10.0.0.0/24,A\n10.0.0.128-10.0.1.5,B\n10.0.0.0/23,C\n10.0.0.130,D\n",
     {"10.0.0.1": "C", "10.0.0.130": "D", "10.0.1.5": "C"}),
    ("--default rest", HEAD + "10.0.0.0/8,UNKNOWN\n", {"10.0.0.1": "UNKNOWN", "11.0.0.0": "rest"}),
    # Quotes, commas and line feeds as RFC 4180 has them, byte order marks, CRLF, empty lines, other encodings.
    ("", HEAD + '10.0.0.0/8,"Alder ""the old"", Inc"\n', {"10.0.0.1": 'Alder "the old", Inc'}),
    ("", "\ufeff" + HEAD + "10.0.0.0/8, Alder \t\r\n,\r\n\r\n11.0.0.0/8,Birch\r\n",
     {"10.0.0.1": "Alder", "11.0.0.1": "Birch"}),
    ("", '"network","label"\r\n"10.0.0.0/8","Gr\u00fcn\u2028e"\r\n', {"10.0.0.1": "Gr\u00fcn\u2028e"}),
    ("", HEAD + "10.0.0.0/8,A\tB; C // 10.0.0.1\n10.0.0.1,10.0.0.2 x\n",
     {"10.0.0.2": "A\tB; C // 10.0.0.1", "10.0.0.1": "10.0.0.2 x"}),
    ("", HEAD + "10.0.0.0/8,5\n11.0.0.0/8,05\n12.0.0.0/8,mode ipv4\n",
     {"10.0.0.1": "5", "11.0.0.1": "05", "12.0.0.1": "mode ipv4"}),
    ("", HEAD + f"10.0.0.0/8,{'x' * 255}\n", {"10.0.0.1": "x" * 255}),
    # Other separators, as spreadsheets of most of Europe write them. A comma in the first line is one.
    ("", "\nnetwork;label\n10.0.0.0/8;Alder, Inc\n", {"10.0.0.1": "Alder, Inc"}),
    ("", "network\tlabel\n10.0.0.0/8\tAlder; Inc\n", {"10.0.0.1": "Alder; Inc"}),
    ("", "network,label,a;b;c\n10.0.0.0/8,Alder,\n", {"10.0.0.1": "Alder"}),
    # Columns of netmasks or of lengths.
    ("--network Netz --mask Maske --label Kunde", "Netz;Maske;Kunde\n10.0.0.0;255.0.0.0;A\n11.0.0.4; /30 ;B\n::;0;C\n"
     "2001:db8::;ffff:ffff::;D\n12.0.0.1;255.255.255.255;E\n",
     {"10.1.1.1": "A", "11.0.0.7": "B", "11.0.0.8": "C", "2001:db8::1": "D", "12.0.0.1": "E", "12.0.0.2": "C"}),
    # IPv4 alone. Each address of IPv6 has the default label.
    ("--default rest", HEAD + "10.0.0.0/8,A\n",
     {"10.0.0.1": "A", "2001:db8::1": "rest", "::": "rest", "1.1.1.1": "rest"}),
)
# Labels that are kept, with a warning.
WARNED = (("=1+1", "formula"), ("+49", "formula"), ("-off-", "formula"), ("@home", "formula"),
          ("a|b", "tables are split"),
          # Two customers that look like one.
          *((label, f"the labels 'Big Birch', '{label}' differ only in case, blanks or the form of characters")
            for label in ("big birch", "Big  Birch", "BigBirch", "Big\u00a0Birch", "\uff22ig Birch")),
          ("Unknown", "the labels 'UNKNOWN', 'Unknown' differ only"))
# The options, the table, and a part of the line. Its number is that of the faulty line.
FAULTS = (
    ("", HEAD + "10.0.0.1/8,A\n", "line 2: 10.0.0.1/8 has host bits. The block is 10.0.0.0/8"),
    ("", HEAD + "::1/64,A\n", "line 2: ::1/64 has host bits. The block is ::/64"),
    ("", HEAD + "10.0.0.0/8,A\n10.0.0.0-10.255.255.255,B\n", "line 3: another label than in line 2"),
    ("", HEAD + "10.0.0.0/8,A\n11.0.0.0/8,A\n10.0.0.0/8,B\n", "line 4: another label than in line 2"),
    ("", HEAD + "::ffff:10.0.0.0/104,A\n10.0.0.0/8,B\n", "line 3: another label than in line 2"),
    ("", HEAD + "10.0.0.0-10.0.0.9,A\n10.0.0.5-10.0.0.20,A\n", "line 3: it overlaps with line 2"),
    ("", HEAD + "10.0.0.0-10.0.0.9,A\n10.0.0.5-10.0.0.10,B\n", "line 3: it overlaps with line 2"),
    ("", HEAD + "10.0.0.5-10.0.0.20,A\n9.0.0.0/8,B\n10.0.0.0-10.0.0.9,C\n", "line 4: it overlaps with line 2"),
    ("", HEAD + "::/96,A\n::1:0:0-::2:0:0,B\n::ffff:0-::1:0:5,C\n", "line 4: it overlaps with line"),
    ("", HEAD + "10.0.0.0/8,A\n10.0.0.0/33,B\n", "line 3: '10.0.0.0/33' is no block"),
    ("", HEAD + "10.0.0/8,A\n", "line 2: '10.0.0/8' is no block"), ("", HEAD + "x,A\n", "line 2: 'x' is no block"),
    ("", HEAD + ",A\n", "line 2: '' is no block"),
    ("", HEAD + "10.0.0.0 255.0.0.0,A\n", "line 2: '10.0.0.0 255.0.0.0' is"),
    ("", HEAD + "10.0.0.0-255.0.0.0,A\n", "line 2: 10.0.0.0-255.0.0.0: the second address looks like a netmask"),
    ("--network 1 --network 2 --label 3", "10.0.0.5,255.255.255.255,A\n",
     "line 1: 10.0.0.5 255.255.255.255: the second"),
    ("", HEAD + "10.0.0.9-10.0.0.5,A\n", "line 2: 10.0.0.9-10.0.0.5: the first address is above"),
    # A range in the first of two columns, whose second would say something else.
    ("--network 1 --network 2 --label 3", "10.0.0.0-10.0.0.5,10.0.0.9,A\n",
     "line 1: '10.0.0.0-10.0.0.5 10.0.0.9' is no block, address or range"),
    ("", HEAD + "10.0.0.9-::1,A\n", "line 2: 10.0.0.9-::1: the first address is above the last, or of another"),
    ("", HEAD + "10.0.0.0/8,A#1\n", "line 2: a # in the label"),
    ("", HEAD + "10.0.0.0/8,\n", "line 2: a label of 0 bytes"),
    ("", HEAD + "10.0.0.0/8, \t\u00a0\n", "line 2: a label of 0 bytes"),
    ("", HEAD + f"10.0.0.0/8,{'x' * 254}\u00fc\n", "line 2: a label of 256 bytes"),
    ("", HEAD + '10.0.0.0/8,"A\nB"\n', "line 2: the label 'A\\x0aB' has a control"),
    ("", HEAD + '10.0.0.0/8,"A\nB"\n10.0.0.1/8,C\n', "line 2: the label"),
    ("", HEAD + '11.0.0.0/8,A\n10.0.0.0/8,"A\x1b[m"\n', "line 3: the label 'A\\x1b[m' has a control"),
    ("", HEAD + "10.0.0.0/8,A\x7f\n", "line 2: the label"), ("", HEAD + "10.0.0.0/8,A\0B\n", "line 2: "),
    ("", HEAD + "10.0.0.0/8,UNKNOWN\n", "line 2: the label 'UNKNOWN' is also that"),
    ("", HEAD + "10.0.0.0/8,Alder, Inc\n", "line 2: 3 cells, and the first line has 2"),
    ("", HEAD + "10.0.0.0/8\n", "line 2: 1 cells, and the first line has 2"),
    ("", HEAD + '10.0.0.0/8,"Alder\n11.0.0.0/8,Birch\n', "line 2: "), ("", HEAD + '10.0.0.0/8,"A"B\n', "line 2: "),
    ("", '"network\n(all)",label\n10.0.0.0/8,A\n', "line 1: no column is called 'network'"),
    ("", "network,label,label\n10.0.0.0/8,A,B\n", "line 1: several columns are called 'label'"),
    ("", "a,label\n10.0.0.0/8,A\n", "line 1: no column is called 'network'"),
    ("--network 3 --label 2", "10.0.0.0/8,A\n", "line 1: no column is called '3'"), ("", "", "no line has addresses"),
    ("", HEAD, "no line has addresses"),
    ("--network 1 --label 2", "10.0.0.0/33,A\n11.0.0.0/8,B\n", "line 1: '10.0.0.0/33'"),
    # A table that is cut within its last line, such as within the label Birch.
    ("", HEAD + "10.0.0.0/8,Alder\n11.0.0.0/8,Bir", "line 3: it has no line feed at its end"),
    ("", HEAD + "10.0.0.0/8,Alder\n11.0.0.0/8,Birch", "line 3: it has no line feed at its end"),
    ("", HEAD[:-1], "line 1: it has no line feed at its end"),
    # The columns that there are, if one is missing.
    ("", "Netz,Kunde\n10.0.0.0/8,A\n", "line 1: no column is called 'network': choose with --network and --label by "
     "name or by number, such as --network 1 --label 2. The first line has 1 'Netz', 2 'Kunde'."),
    ("--network 1 --mask 2 --label 3", "10.0.0.0,255.0.255.0,A\n", "line 1: '255.0.255.0' is no netmask of '10.0.0.0'"),
    ("--network 1 --mask 2 --label 3", "10.0.0.0,ffff::,A\n", "line 1: 'ffff::' is no netmask of '10.0.0.0'"),
    ("--network 1 --mask 2 --label 3", "10.0.0.0,,A\n", "line 1: '' is no netmask of '10.0.0.0'"),
    ("--network 1 --mask 2 --label 3", "10.0.0.0,33,A\n", "line 1: '10.0.0.0/33' is no block"),
    ("--network 1 --mask 2 --label 3", "10.0.0.0/8,8,A\n", "line 1: '10.0.0.0/8/8' is no block"),
    ("--network 1 --mask 2 --label 3", "10.1.0.0,255.0.0.0,A\n", "line 1: 10.1.0.0/8 has host bits"),
    # Spreadsheets that are no text.
    ("", b"PK\3\4\x14\0", "it is a spreadsheet. Save the sheet as CSV"),
    ("", b"\xd0\xcf\x11\xe0\xa1\xb1", "it is a spreadsheet. Save the sheet as CSV"),
)
USAGES = ("--delimiter ab", "--encoding none", "--default a#b", "--network 1 --network 2 --network 3",
          "--network 1 --network 2 --mask 2", "--none", "a b")
# Bytes of other encodings.
LATIN = b"network,label\n11.0.0.0/8,A\n10.0.0.0/8,Gr\xfcn\n"
TEXT = LATIN.decode("latin-1")
STATES = (("--encoding latin-1", LATIN), ("--encoding utf-16", TEXT.encode("utf-16")), ("", TEXT.encode("utf-16")),
          ("", "\ufeff".encode("utf-16-be") + TEXT.replace(",", "\t").encode("utf-16-be")))


class Tables(Case):
    """Cases over a table."""

    def run_over(self, options, table):
        """Returns the status of the command over a table, its output and its errors."""
        write("table.csv", table)
        status, output, error = inside.outcome("customers", *options.split(), "table.csv")
        return status, output, error.decode()

    def labels_of(self, text, addresses):
        """Returns the labels that flowlabel gives addresses under a map text."""
        write("map.txt", text)
        status, found, error = inside.texts("lookup", "--pmap", "map.txt",
                                            input="".join(f"{one}\n" for one in addresses))
        self.assertEqual((status, error), (0, ""))
        return found.split("\n")[:-1]


class Small(Tables):
    """Small tables."""

    @rows(*TABLES)
    def test_table(self, options, table, wanted):
        status, text, error = self.run_over(options, table)
        self.assertEqual(status, 0)
        names = [label if label is not None else "UNKNOWN" for label in wanted.values()]
        self.assertEqual(self.labels_of(text, wanted), names)
        self.assertEqual({line.split(": ", 1)[0] for line in error.splitlines()}, {"flowlabel-customers"})

    @rows(*STATES)
    def test_encoding(self, options, table):
        status, text, _ = self.run_over(options, table)
        self.assertEqual((status, self.labels_of(text, ["10.0.0.1", "11.0.0.1"])), (0, ["Gr\u00fcn", "A"]))

    @rows(*WARNED)
    def test_warning(self, label, warning):
        status, text, error = self.run_over("", f"{HEAD}9.0.0.0/8,Big Birch\n10.0.0.0/8,{label}\n")
        self.assertEqual((status, self.labels_of(text, ["10.0.0.1"])), (0, [label]))
        self.assertIn(warning.replace("\u00a0", "\\xa0"), error)

    def test_a_cell_of_two_lines(self):
        status, text, error = self.run_over("", 'network,label,note\n10.0.0.0/8,A,"a\n11.0.0.0/8,B,b"\n')
        self.assertEqual((status, self.labels_of(text, ["11.0.0.1"])), (0, ["UNKNOWN"]))
        self.assertIn("the first in line 2: look whether", error)

    def test_a_header(self):
        _, _, error = self.run_over("--network 1 --label 2", "Netz,Kunde\n10.0.0.0/8,A\n")
        self.assertEqual(error.splitlines()[0], "flowlabel-customers: line 1 is taken for a header: Netz,Kunde")

    def test_counts(self):
        _, _, error = self.run_over("", HEAD + "10.0.0.0/8,A\n10.0.0.0/9,B\n10.128.0.0/9,C\n2001:db8::/32,C\n")
        self.assertEqual(error.splitlines(), [f"flowlabel-customers: {count} addresses have the label {label}"
                                              for count, label in ((2**96 + 2**23, "C"), (2**23, "B"), (0, "A"))])


class Faults(Tables):
    """Faults in small tables, of the command line and of the output."""

    @rows(*FAULTS, ("", LATIN, "line 3: it isn't in the encoding"))
    def test_fault(self, options, table, message):
        status, text, error = self.run_over(options, table)
        self.assertEqual((status, text, error.count("\n")), (1, b"", 1))
        self.assertEqual(error[:len(message) + 21], f"flowlabel-customers: {message}")

    @rows(*zip(USAGES))
    def test_usage(self, options):
        self.assertEqual(self.run_over(options, HEAD)[:2], (2, b""))

    def test_a_full_disk(self):
        with open("/dev/full", "wb") as full:
            status, _, error = inside.texts("customers", "-", input=HEAD + "10.0.0.0/8,A\n", stdout=full)
        self.assertEqual((status, error.splitlines()[-1]), (4, "flowlabel-customers: output: No space left on device"))


def ranges_of(rng, is_nested):
    """Returns random ranges near each other, each with its text and its label."""
    found = {}
    for number in range(40):
        if is_nested or rng.random() < 0.5:
            length = rng.randrange(20, 33)
            network = ipaddress.ip_network((0x0A000000 + rng.getrandbits(12), length), strict=False)
            found[int(network[0]), int(network[-1])] = str(network), f"L{number}"
        else:
            low, high = sorted(0x0A000000 + rng.getrandbits(12) for _ in range(2))
            found[low, high] = f"{ipaddress.ip_address(low)}-{ipaddress.ip_address(high)}", f"L{number}"
    return found


class Random(Tables):
    """Random tables, whose lines are in any order: each address has the label of its smallest range, or the last."""

    @rows(*zip(range(20)))
    def test_table(self, seed):
        rng = random.Random(seed)
        is_nested = seed % 2 == 0
        ranges = [*ranges_of(rng, is_nested).items()]
        rng.shuffle(ranges)
        addresses = sorted({edge + by for ends, _ in ranges for edge in ends for by in (-1, 0, 1)})
        wanted = []
        for address in addresses:
            around = [(low - high if is_nested else place, label)
                      for place, ((low, high), (_, label)) in enumerate(ranges) if low <= address <= high]
            wanted.append(max(around)[1] if around else "UNKNOWN")
        lines = "".join(f"{text},{label}\n" for _, (text, label) in ranges)
        status, text, _ = self.run_over("" if is_nested else "--last", HEAD + lines)
        self.assertEqual((status, self.labels_of(text, map(ipaddress.ip_address, addresses))), (0, wanted))
