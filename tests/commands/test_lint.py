"""flowlabel-lint and flowlabel-lookup.

Over small maps and lists lint must print each warning of a line that rarely means what it says, and none otherwise.
Over faulty texts it must print the program's fault, the cause and the cure, with the program's status; if the cure is
a command, the program must accept what that makes. What is expected is what docs/FORMATS.md says of these lines. Over
a large map it must run the program no more often than over a small one, and take no more than 30 times the CPU seconds
of a tenth of the map. Over binary files it must end with two lines.
"""

import codecs
import gzip
import os
import random
import unittest

from support import PROGRAM, ROOT, Case, inside, not_in_ci, outcome, read, read_bytes, rows, run, write, write_program

# Maps, with the warnings: the number of a line, and a part of what is printed of it.
WARNED = (
    # A range whose second address is a netmask, with the block that was meant.
    ("10.0.0.0 255.0.0.0 DC\n", ((1, "10.0.0.0/8"),)),
    ("10.1.2.3\t255.255.0.0 DC\n", ((1, "10.1.0.0/16"),)),
    ("9.0.0.0/8 A\n10.0.0.0 255.0.0.0 DC\n", ((2, "10.0.0.0/8"),)),
    ("010.0.0.1 255.255.255.255 A\n10.0.0.2 255.255.255.255 B\n", ((1, "10.0.0.1/32"), (2, "10.0.0.2/32"))),
    ("0.0.0.0 0.0.0.0 A\n", ((1, "0.0.0.0/0"),)),
    ("192.0.2.0 255.255.255.128 A # half\n192.0.2.128 255.255.255.128 B\n",
     ((1, "192.0.2.0/25"), (2, "192.0.2.128/25"))),
    ("mode ipv6\n10.0.0.0 255.0.0.0 DC\n2001:db8:: ffff:ffff:: DC\n", ((2, "10.0.0.0/8"), (3, "2001:db8::/32"))),
    # A range that is read as one address.
    ("10.0.0.0 - 10.0.0.255 DE\n", ((1, "'- 10.0.0.255 DE'"),)),
    ("10.0.0.0 10.0.0.255,DE\n", ((1, "one address the label '10.0.0.255,DE'"), (1, "a ',' separates no columns"))),
    ("10.0.0.0 10.0.0.255\u00a0DE\n", ((1, "'10.0.0.255\u00a0DE'"),)),
    ("10.0.0.0 10.0.0.256 DE\n", ((1, "'10.0.0.256 DE'"),)),
    ("10.0.0.0 , 10.0.0.255 DE\n", ((1, "one address the label ', 10.0.0.255 DE'"), (1, "a ',' separates"))),
    ("2001:db8:: to 2001:db8::ff DE\n", ((1, "'to 2001:db8::ff DE'"),)),
    # A label that is cut.
    ("10.0.0.0/8 Customer#7\n", ((1, "'Customer'"),)),
    ("10.0.0.0/8 Building #7 # the left one\n", ((1, "'Building'"),)),
    ("label 5 red#1\n10.0.0.0/8 5\ndefault x#y\n", ((1, "'red'"), (3, "'x'"))),
    # Labels that differ only in case or blanks.
    ("10.0.0.0/8 Alder\n11.0.0.0/8 alder\n12.0.0.0/8 alder\n",
     ((2, "'alder', which differs from 'Alder' (of line 1)"),)),
    ("10.0.0.0/8 Guest net\n11.0.0.0/8 Guest  net\n12.0.0.0/8 Guestnet\n",
     ((2, "'Guest  net', which differs from 'Guest net' (of line 1)"), (3, "'Guestnet'"))),
    ("10.0.0.0/8 Alder\n11.0.0.0/8 Alder\u00a0\n", ((2, "'Alder\u00a0'"),)),
    ("10.0.0.0/8 Stra\u00dfe\n11.0.0.0/8 STRASSE\n", ((2, "'STRASSE'"),)),
    ("10.0.0.0/8 Gr\u00fcn\n11.0.0.0/8 Gru\u0308n\n", ((2, "'Gru\u0308n'"),)),
    # The end of a text that may be cut short.
    ("10.0.0.0/8 Alder\n11.0.0.0/8 Bir", ((2, "has no line feed at its end"),)),
    ("label 5 Alder\n10.0.0.0/8 5\ndefault ALDER\n", ((3, "'ALDER'"),)),
    ("10.0.0.0/8 unknown\n", ((1, "'UNKNOWN' (the default)"),)),
    # A number that is no declared one.
    ("10.0.0.0/8 5\n11.0.0.0/8 5\nlabel 5 red\n12.0.0.0/8 5\n13.0.0.0/8 55\n", ((1, "'5'"), (5, "'55'"))),
    # A text whose lines end with CR alone: one long comment.
    ("# a map\r10.0.0.0/8 Alder\r11.0.0.0/8 Birch\r", ((1, "CR"), (1, "without blocks"))),
    ("# one\n10.0.0.0 255.0.0.0 A#1\n10.0.0.0/8 a\n", ((2, "10.0.0.0/8"), (2, "'A'"), (3, "'a'"))),
    # A last line that covers all others.
    ("10.0.0.0/8 A\n10.1.0.0/16 B\n0.0.0.0/0 C\n", ((3, "covers all lines before it"),)),
    ("default A\n10.1.0.0 10.1.255.255 B\n10.0.0.0 10.255.255.255 C\nmap-name a\n", ((3, "sort -s -t / -k 2,2n"),)),
    ("mode ipv6\n10.0.0.0/8 A\n2001:db8::/32 B\n::/0 C\n", ((4, "covers all lines before it"),)),
    # Blocks that aren't what they look like.
    ("::ffff:10.0.0.0/8 A\n::ffff:10.0.0.0/95 B\n::FFFF:a00:0/0 C\n",
     ((1, "is the block ::/8, since its length counts"), (2, "is the block ::fffe:0:0/95, since its length counts"),
      (3, "is the block ::/0, since its length counts"), (3, "covers all lines"))),
    ("10.1.2.3/8 A\n010.1.0.0/15 B\n10.0.0.1/31 C\n",
     ((1, "is the block 10.0.0.0/8, since host bits"), (2, "is the block 10.0.0.0/15"),
      (3, "is the block 10.0.0.0/31"))),
    ("mode ipv6\n2001:db8::1/32 A\n::ffff:10.1.2.3/104 B\n::1/0 C # all\n",
     ((2, "is the block 2001:db8::/32"), (3, "is the block ::ffff:10.0.0.0/104"), (4, "is the block ::/0"),
      (4, "covers all lines"))),
    # Labels that other texts would split, quote or cut.
    ("10.0.0.0/8 Alder, A-17\n11.0.0.0/8 Birch;2\n12.0.0.0/8 \"Cedar\"\n13.0.0.0/8 D|E\n14.0.0.0/8 F // the rest\n",
     ((1, "'Alder, A-17'; a ','"), (2, "'Birch;2'; a ';'"), (3, "a '\"'"), (4, "'D|E'; a '|'"), (5, "a '//'"))),
    ("default A,B\nlabel 5 C;D\n10.0.0.0/8 5\n11.0.0.0/8 5\n", ((1, "'A,B'"), (2, "'C;D'"))),
    # Texts that give no address a label of its own.
    ("", ((1, "without blocks, ranges and addresses"),)),
    ("# nothing\ndefault A\nlabel 5 red\n", ((4, "without blocks, ranges and addresses"),)),
)
# Maps whose lines mean what they say, though they look like those above.
MEANT = (
    "0.0.0.0 255.255.255.255 A\n",
    "224.0.0.0 255.255.255.255 A\n",
    # As `cat` prints a map: each range follows the one before it.
    "0.0.0.0 9.255.255.255 A\n10.0.0.0 10.255.255.255 B\n11.0.0.0 255.255.255.255 A\n",
    "0.0.0.0 254.255.255.255 A\n255.0.0.0 255.255.255.254 B\n255.255.255.255 C\n",
    "0.0.0.0 0.0.0.0 A\n0.0.0.1 B\n",
    "10.0.0.0 10.0.0.255 A\n192.168.0.0 192.168.255.255 B\n",
    "mode ipv6\n2001:db8:: 2001:db8::ffff A\nff00:: ffff:ffff:ffff:ffff:ffff:ffff:ffff:ffff B\n",
    "10.0.0.0/8 192.0.2.1\n10.0.0.1/32 192.0.2.2\n10.0.0.2 via 192.0.2.1\n10.0.0.3 no-address\n10.0.0.4 12 houses\n",
    "10.0.0.0/8 Alder # 7 networks\n11.0.0.0/8 Alder\t#\n12.0.0.0/8 Alder ## two marks\n#13.0.0.0/8 alder\n",
    "map-name a#b\nmode ipv4#c\n10.0.0.0/8 a\n",
    "10.0.0.0/8 Alder\n11.0.0.0/8 Elder\n12.0.0.0/8 UNKNOWN\n13.0.0.0/8 Alder 2\n14.0.0.0/8 5\n15.0.0.0/8 55\n",
    "default unknown\n10.0.0.0/8 A\n",
    "label 5 red\nlabel 07 blue\n10.0.0.0/8 5\n11.0.0.0/8 7\n12.0.0.0/8 0005\n13.0.0.0/8 5a\n",
    "10.0.0.0/8 Alder\r\n11.0.0.0/8 Birch # two\r\n\r\n",
    # A last line that covers not all others, or only one of the same addresses.
    "9.0.0.0/8 A\n10.1.0.0/16 B\n10.0.0.0/8 C\n",
    "0.0.0.0/0 C\n10.0.0.0/8 A\n",
    "10.0.0.0/8 C\n10.0.0.0/8 A\n",
    "mode ipv6\n2001:db8::/32 B\n0.0.0.0/0 A\n",
    # Blocks as they are meant, and labels with other marks.
    "::ffff:10.0.0.0/104 A\n::ffff:0:0/96 B\n::/0 C\n::/8 D\n::/95 E\n",
    "10.1.2.3/32 A\n10.1.2.2/31 B\n0.0.0.0/0 C\n11.0.0.0/8 A/B: c. d-e & f's (g)\n12.0.0.0/8 h # i, j; k\n",
)
SAMPLES = (("--pmap", "offices.txt"), ("--pmap", "customers.txt"), ("--pmap", "regions.txt"),
           ("--list", "offices-list.txt"), ("--list", "customers-list.txt"))
TEXT = "# a map\ndefault elsewhere\n10.0.0.0/8 Alder\n10.1.0.0 10.1.255.255 Birch\n"
# Faulty texts that are no maps, with the cause, and a command that makes a map of the text {0}, if there is one.
NO_MAPS = (
    (codecs.BOM_UTF8 + TEXT.encode(), "byte order mark", r"sed -i '1s/^\xef\xbb\xbf//' {0}; cat {0}"),
    (codecs.BOM_UTF16_LE + TEXT.encode("utf-16-le"), "UTF-16", "iconv -f UTF-16 -t UTF-8 {0}"),
    (codecs.BOM_UTF16_BE + TEXT.encode("utf-16-be"), "UTF-16", "iconv -f UTF-16 -t UTF-8 {0}"),
    (TEXT[8:].encode("utf-16-le"), "UTF-16", "iconv -f UTF-16LE -t UTF-8 {0}"),
    (TEXT[8:].encode("utf-16-be"), "UTF-16", "iconv -f UTF-16BE -t UTF-8 {0}"),
    (codecs.BOM_UTF32_LE + TEXT.encode("utf-32-le"), "UTF-32", "iconv -f UTF-32 -t UTF-8 {0}"),
    (gzip.compress(TEXT.encode()), "gzip", "zcat <{0}"),
    (b"low|high|label\n0.0.0.0|9.255.255.255|A b\n10.0.0.0|255.255.255.255|B\n", "flowlabel cat",
     "sed '1d; s/|/ /; s/|/ /' {0}"),
    # The headers of a capture in both orders of bytes, of pcapng, nfcapd, SiLK, IPFIX, NetFlow and a zip archive.
    (bytes.fromhex("d4c3b2a1 02000400 00000000 00000000 00000400 01000000"), "pcap", None),
    (bytes.fromhex("a1b2c3d4 00020004 00000000 00000000 00040000 00000001"), "pcap", None),
    (bytes.fromhex("0a0d0d0a 1c000000 4d3c2b1a 01000000 ffffffff ffffffff 1c000000"), "pcap", None),
    (bytes.fromhex("0ca50100 00000000 01000000 00000000"), "nfcapd", None),
    (bytes.fromhex("deadbeef 01000c10 00000000 00000000"), "SiLK", None),
    (bytes.fromhex("000a0014 60000000 00000000 00000001 00020004"), "IPFIX", None),
    (bytes.fromhex("00050001 00000000 60000000 00000000"), "NetFlow", None),
    (b"PK\3\4\x14\0\0\0\x08\0", "zip", None),
    (b"<!DOCTYPE html>\n<html>404</html>\n", "HTML", None),
    (b'{"prefixes": [{"ip_prefix": "10.0.0.0/8"}]}\n', "JSON", None),
    (b"flowlabel-cert 1 ipv4 1\nA\nl 0\n", "certificate", None),
)
# Lines that are refused, with the code of the fault, a part of the cause or cure, and the line that cures it, if lint
# prints a command, by this command.
SED = "sed 's/[,;|]/ /'"
SED_TWICE = "sed 's/[,;|]/ /; s/[,;|]/ /'"
REFUSED = (
    ("10.0.0.0/8,Alder", "M3", "commas", SED),
    ("10.0.0.0/8;Alder", "M3", "semicolons", SED),
    ("10.0.0.1,Alder", "M2", "commas", SED),
    ("10.0.0.0;10.0.0.255;Alder", "M2", "semicolons", SED_TWICE),
    ("10.0.0.0|10.0.0.255|Alder", "M2", "bars", SED_TWICE),
    ("2001:db8::,2001:db8::ff,Alder", "M2", "commas", SED_TWICE),
    ("network,label", "M1", "header", None),
    ("10.0.0.0/8\u00a0Alder", "M3", "no-break space", r"sed 's/\xc2\xa0/ /g'"),
    ("10.0.0.1\u00a0Alder", "M2", "no-break space", r"sed 's/\xc2\xa0/ /g'"),
    ("default\u00a0Alder", "M1", "no-break space", r"sed 's/\xc2\xa0/ /g'"),
    ("\u00a010.0.0.0/8 Alder", "M2", "no-break space", r"sed 's/\xc2\xa0/ /g'"),
    ('"10.0.0.0/8" "Alder"', "M2", "quote", "tr -d '\"'"),
    ("Default elsewhere", "M1", "small letters", None),
    ("label x red", "M1", "digits", None),
    ("; a remark", "M1", "comment begins with #", None),
    ("example.org Alder", "M1", "hosts", None),
    ("colour red", "M1", "keyword", None),
    ("10.0.0.0-10.0.0.255 Alder", "M2", "dash", None),
    ("167772160 167772415 Alder", "M2", "whole number", None),
    ("10/8 Alder", "M2", "four numbers", None),
    ("10.0.0.256 Alder", "M2", "255", None),
    ("10.0.0.1:80 Alder", "M2", "port", None),
    ("[2001:db8::1] Alder", "M2", "brackets", None),
    ("fe80::1%eth0 Alder", "M2", "zone", None),
    ("10.1.*.* Alder", "M2", "block", None),
    ("// a remark", "M2", "comment begins with #", None),
    ("7up Alder", "M2", "digit", None),
    ("10.0.0.0/255.0.0.0 Alder", "M3", "netmask", None),
    ("10.0.0.0/ 8 Alder", "M3", "without a blank", None),
    ("10.0.0.0/33 Alder", "M3", "at most 32", None),
    ("10.0.0.0 0.255.255.255 Alder", "M4", "wildcard mask", None),
    ("10.0.0.9 10.0.0.2 Alder", "M4", "lower address first", None),
    ("10.0.0.0/8 Alder\n2001:db8::/32 Birch", "M5", "mode ipv6", None),
    ("10.0.0.0/8 #7", "M6", "#", None),
    ("10.0.0.1 192.0.2.1", "M6", "/32", None),
    ("10.0.0.0 255.0.0.0", "M6", "netmask", None),
    ("10.0.0.0/8", "M6", "label", "sed 's/$/ LABEL/'"),
    ("label 5", "M6", "label", None),
    ("10.0.0.0/8 Al\x01der", "M7", "control character", r"tr -d '\000-\010\013-\037\177'"),
    ("10.0.0.0/8 Alder\r11.0.0.0/8 Birch", "M7", "CR", r"tr '\r' '\n'"),
    ("10.0.0.0/8 " + 256 * "a", "M7", "255 bytes", None),
    ("label 5 7", "M7", "digits", None),
    ("# one\nlabel 5 red\nlabel 7 blue\nlabel 5 blue", "M8", "line 2: label 5 red", None),
    ("label 5 red\nlabel 6 red", "M8", "line 1: label 5 red", None),
    ("mode IPv4", "M9", "small letters", None),
    ("mode proto-port", "M9", "SiLK", None),
    ("10.0.0.0/8 Alder\nmode ipv4", "M10", "line 1: 10.0.0.0/8 Alder", None),
    ("mode ipv4\n\nmode ip", "M11", "line 1: mode ipv4", None),
)
# Lists that are refused.
REFUSED_LISTS = (
    ("10.0.0.0/8,Alder", "M3", "commas"),
    ("10.0.0.0 10.0.0.255 Alder", "M13", "--pmap"),
    ("default elsewhere", "M13", "--pmap"),
    ("9.0.0.0/8 A\n10.0.0.0/8 Alder\n10.1.2.3/8 Birch", "M14", "line 2: 10.0.0.0/8 Alder"),
    ("10.0.0.1 A\n10.0.0.1/32 B", "M14", "line 1: 10.0.0.1 A"),
)
# Counts the runs of the program.
COUNTING = '#!/bin/sh\necho run >>"$0.runs"\nexec "$PROGRAM" "$@"\n'
# More lines than a map may have labels, and than lint counts by one label each.
LARGE = 70_000


class Lint(Case):
    """Cases that run flowlabel-lint."""

    def lint(self, *words, **variables):
        """Runs the command, and returns its status and its two outputs."""
        return inside.texts("lint", *words, variables=variables)

    def warnings(self, *words):
        """Returns the warnings of a text that is accepted."""
        status, output, error = self.lint(*words)
        self.assertEqual((status, error), (0, ""))
        return [line for line in output.split("\n") if line.startswith("warning: ")]

    def assert_explained(self, found, beginning, cause):
        """Checks that a text is refused: a line of flowlabel, which begins so, and one of lint with the cause. Returns
        both lines."""
        name = beginning.split(": ")[1]
        self.assertEqual(found[:2], (1, ""))
        lines = found[2].split("\n")
        self.assertEqual((len(lines), lines[0][:len(beginning)]), (3, beginning), found[2])
        self.assertTrue(lines[1].startswith(f"flowlabel-lint: {name}: "), lines[1])
        self.assertIn(cause, lines[1])
        return lines[:2]

    def assert_cured(self, cure, text=b""):
        """Checks that the program accepts the map that a command makes."""
        made = run("sh", "-c", cure, input=text, check=True).stdout
        status, _, error = outcome(PROGRAM, "cat", "--pmap", "/dev/stdin", input=made)
        self.assertEqual((status, error), (0, b""), made)


class Warned(Lint):
    """Each warning, and no other."""

    @rows(*WARNED)
    def test_warnings(self, text, wanted):
        found = self.warnings(write("map.txt", text))
        self.assertEqual(len(found), len(wanted), found)
        for number, part in wanted:
            self.assertTrue(any(line.startswith(f"warning: line {number} ") and part in line for line in found),
                            (part, found))

    @rows(*zip(MEANT))
    def test_meant(self, text):
        self.assertEqual(self.warnings(write("map.txt", text)), [])

    @rows(*SAMPLES)
    def test_samples(self, option, name):
        self.assertEqual(self.warnings(option, ROOT / "examples" / name), [])


class Explained(Lint):
    """Each fault, its cause and its cure."""

    @rows(*NO_MAPS)
    def test_no_map(self, data, cause, cure):
        lines = self.assert_explained(self.lint(write("map.txt", data)), "flowlabel: map.txt: M", cause)
        if cure:
            self.assertIn(cure.split(" {0}")[0].split(" <")[0], lines[1])
            self.assert_cured(cure.format("map.txt"))

    @rows(*REFUSED)
    def test_map(self, text, code, part, cure):
        lines = self.assert_explained(self.lint(write("map.txt", text + "\n")), f"flowlabel: map.txt: {code} ", part)
        self.assertTrue(lines[0].endswith(f" at {text.count(chr(10)) + 1}"), lines[0])
        if cure:
            self.assertIn(cure, lines[1])
            self.assert_cured(cure, text.encode())

    @rows(*REFUSED_LISTS)
    def test_list(self, text, code, part):
        self.assert_explained(self.lint("--list", write("map.txt", text)), f"flowlabel: map.txt: {code} ", part)


class Lines(Lint):
    """The lines that count, in maps and lists."""

    @classmethod
    def prepare(cls):
        write("list.txt", "10.1.0.0/16 B\n10.0.0.0/15 A\n10.0.0.0/16 C\n")

    def test_map(self):
        wanted = "line 1 never counts: 10.0.0.0/8 A\nline 2 never counts: 10.1.0.0/16 B\nno address has the label A\n" \
                 "no address has the label B\n4278190080|UNKNOWN\n16777216|C\n"
        status, output, error = self.lint(write("map.txt", "10.0.0.0/8 A\n10.1.0.0/16 B\n10.0.0.0/8 C\n"))
        first, rest = output.split("\n", 1)
        self.assertEqual((status, first[:22], rest, error), (0, "warning: line 3 covers", wanted, ""))

    def test_list(self):
        # In a list the longest block counts, and an address without a block has no label.
        wanted = "line 2 never counts: 10.0.0.0/15 A\nno address has the label A\n4294836224|\n65536|C\n65536|B\n"
        self.assertEqual(self.lint("--list", "list.txt"), (0, wanted, ""))

    def test_addresses_in_a_list(self):
        wanted = "10.0.0.1: line 3: 10.0.0.0/16 C\n10.1.0.1: line 1: 10.1.0.0/16 B\n10.2.0.1: no line\n"
        self.assertEqual(self.lint("--list", "list.txt", "10.0.0.1", "10.1.0.1", "10.2.0.1"), (0, wanted, ""))

    def test_addresses_in_a_map(self):
        wanted = "10.0.0.1: line 3: 10.0.0.0/16 C\n10.1.0.1: line 2: 10.0.0.0/15 A\n::1: no line\n"
        self.assertEqual(self.lint("--pmap", "list.txt", "10.0.0.1", "10.1.0.1", "::1"), (0, wanted, ""))

    def test_a_name_with_a_dash(self):
        write("- a map.txt", read("list.txt"))
        self.assertEqual(self.lint("--pmap", "- a map.txt", "10.0.0.1"), (0, "10.0.0.1: line 3: 10.0.0.0/16 C\n", ""))

    def test_no_such_file(self):
        self.assertEqual(self.lint("missing.txt"), (4, "", "flowlabel-lint: missing.txt: No such file or directory\n"))

    def test_a_pipe(self):
        found = inside.texts("lint", "/dev/stdin", input="10.0.0.0/8 A\n10.0.0.0/8 B\n")[1]
        self.assertEqual(found.split("\n")[0], "line 1 never counts: 10.0.0.0/8 A")


class LookedUp(Case):
    """Addresses of standard input. If a line is no address, no label is printed."""

    @rows(("addresses", b"10.0.0.1\n 10.1.0.1 \n::ffff:10.1.0.2\n9.0.0.1\n", (0, b"A\nB\nB\nUNKNOWN\n", b"")),
          ("a word", b"10.0.0.1\nten\n", (1, b"", b"flowlabel-lookup: standard input: no address at 2\n")),
          ("a byte that is no UTF-8", b"10.0.0.1\n\xff\n",
           (1, b"", b"flowlabel-lookup: standard input: no address at 2\n")),
          ("an address that is cut short", b"10.0.0.1\n10.1.0.1", (
              1, b"", b"flowlabel-lookup: standard input: the line 2 has no line feed, so it may be cut short\n")),
          ("a zero byte", b"1\0\n", (1, b"", b"flowlabel-lookup: standard input: no address at 1\n")))
    def test_lines(self, _, text, wanted):
        write("map.txt", "10.0.0.0/8 A\n10.1.0.0/16 B\n")
        self.assertEqual(inside.outcome("lookup", "--pmap", "map.txt", input=text), wanted)


class Binaries(Lint):
    """Binary files and random bytes: a line of the program, and one that explains it."""

    @rows(*zip(range(20)))
    def test_noise(self, seed):
        rng = random.Random(f"20261129 {seed}")
        capture = read_bytes(ROOT / "examples/export.pcap")
        for _ in range(2):
            noise = rng.randbytes(rng.randrange(10, 3000))
            blanks = bytes(rng.choices(b"\x0b\x0c\x1c\x85\t \r\n:/.10a#", k=300))
            for data in (gzip.compress(noise), noise, capture[:rng.randrange(24, 5000)], blanks):
                found = self.lint(write("map.txt", data))
                if found[0] != 0 or found[2]:
                    with self.subTest(data=data):
                        self.assert_explained(found, "flowlabel: map.txt: M", "")

    def test_a_picture(self):
        status, _, error = self.lint(write("map.txt", b"\x89PNG\r\n\x1a\n\0\0\0\rIHDR"))
        self.assertEqual(status, 1)
        self.assertIn("no text", error)


def large_map(count):
    """A map of single addresses, of which every third line never counts, and with a warning at each end."""
    def line(number):
        place = number - number % 3
        return f"11.{place >> 16}.{place >> 8 & 255}.{place & 255} label {number % 1000}\n"
    return "10.0.0.0 255.0.0.0 DC\n" + "".join(map(line, range(1, count - 1))) + "200.0.0.0/8 LABEL 7\n"


class Large(Lint):
    """A map with more lines than the program looks up by one label each."""

    def runs(self, count):
        """Checks what is printed of a map of so many lines, and returns how often the program was run."""
        status, output, error = self.lint(write("map.txt", large_map(count)), PROGRAM=PROGRAM,
                                          FLOWLABEL=write_program("counting", COUNTING))
        # Of the lines of one address, three but for the first and the last, only the last counts.
        wanted = sum(1 for number in range(1, count - 1) if number + 1 < count - 1 and (number + 1) % 3)
        self.assertEqual((status, error, output.count(" never counts: ")), (0, "", wanted))
        warnings = [line.split()[2] for line in output.split("\n") if line.startswith("warning: ")]
        self.assertEqual(warnings, ["1", str(count)])
        found = read("counting.runs").count("run")
        os.remove("counting.runs")
        return found

    def test_lines(self):
        few = self.runs(10)
        self.assertEqual(self.runs(LARGE), few)

    def test_addresses(self):
        wanted = f"10.0.0.1: line 1: 10.0.0.0 255.0.0.0 DC\n200.0.0.1: line {LARGE}: 200.0.0.0/8 LABEL 7\n"
        self.assertEqual(self.lint(write("map.txt", large_map(LARGE)), "10.0.0.1", "200.0.0.1"), (0, wanted, ""))


@not_in_ci("CPU seconds depend on what else runs")
@unittest.skipUnless(os.environ.get("QUIET"), "needs a quiet machine (QUIET=1)")
class Speed(Lint):
    """The CPU seconds of a large map are at most 30 times those of a tenth."""
    is_alone = True

    def spent(self, count):
        """Returns the CPU seconds of a map of so many lines."""
        write("map.txt", large_map(count))
        before = os.times()
        self.lint("map.txt")
        after = os.times()
        return after.user + after.children_user - before.user - before.children_user

    def test_lines(self):
        few = self.spent(LARGE // 10)
        self.assertLess(self.spent(LARGE), 30 * few)
