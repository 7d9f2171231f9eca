"""The program as a user runs it: what no contract of its `main` can state.

Each check is a command line with its status, its standard output and its standard error.
"""

import ipaddress
import os
import re
import struct
import threading

from support import PROGRAM, RECORD, ROOT, ROW, TEMPLATE_SET, TITLE, Case, data_set, message, read, rows, run, texts
from support import write

# Templates with wider counters and with IPv6 addresses, and the greatest number of a counter.
WIDE_SET = "0002001c 01010005 00080004 000c0004 00040001 00020008 00010008"
V6_SET = "0002001c 01020005 001b0010 001c0010 00040001 00020004 00010004"
MOST = "ffffffffffffffff"
MOST_MAPPINGS = 1_000_000
# The number of records whose rows are longer than the buffer of a pipe.
MANY = 3000
# The number of records whose rows take more memory than a run with a limit of 30 MB has.
BULK = 900_000
# More than 16 bits can count.
PAST = 70_000
# More messages, rows and groups than the maximum number of mappings.
MILLIONS = 1_040_000

CHECK = "check --pmap {} --list {} --cert {}"
WORKED_CHECK = CHECK.format("halves.txt", "halves.txt", "cert.txt")
# The certificate of a map in which only the last address is exceptional, with a line for its chain.
LAST_CERT = f"flowlabel-cert 2 ipv4 2\nD\nX\nc 1 {32 * '1'} 0 0\nl 1\n"

# The lines that read each input. `{}` is the name of the input.
READERS = ("label --pmap {} 10.1.1.1", "info {}", "rows {}", "rows --columns {}", "uniq --fields sip,dport {}",
           "uniq --fields proto --sort-output --columns {}", "cat --pmap {}", "cat --list {}", "shrink --pmap {}",
           "recert --cert {}")

# The usage line of the program and of each command.
USAGES = {
    "": "flowlabel COMMAND ...",
    "label": "flowlabel label (--pmap FILE | --list FILE) ADDR",
    "info": "flowlabel info FILE",
    "rows": "flowlabel rows [--pmap FILE | --list FILE] [OPTIONS] FILE",
    "uniq": "flowlabel uniq --fields NAMES [--pmap FILE | --list FILE] [OPTIONS] FILE",
    "cat": "flowlabel cat (--pmap FILE | --list FILE)",
    "shrink": "flowlabel shrink --pmap FILE [--certificate [--compact]]",
    "check": "flowlabel check --pmap FILE --list FILE --cert FILE",
    "recert": "flowlabel recert --cert FILE",
}

# A name that isn't ASCII.
FOREIGN = "a name of words, \u00e4\u00f6\u00fc.txt"
RANGES = ("low|high|label\n0.0.0.0|9.255.255.255|UNKNOWN\n10.0.0.0|11.255.255.255|B\n"
          "12.0.0.0|255.255.255.255|UNKNOWN\n")
SUMS = "records|packets|bytes\n"
# The sum of two greatest numbers of a counter.
TWICE = 2 * (2**64 - 1)
# What follows the version of a build without proof.
TRIAL = r"(?: \(trial: not proved\))?"
# Bytes that are not UTF-8, as a word of a command line.
NO_TEXT = os.fsdecode(b"\xff\xfe")
# Any text of whole lines, and clap's text for words that it refuses.
SOME_TEXT = re.compile(rb"(?s).+\n")
REFUSAL = re.compile(rb"(?s)error: [^\n]+\n.*\nFor more information, try '--help'\.\n")
# A name of 4,000 bytes more, of the same file.
FAR = "./" * 2000


def input_of(reader):
    """Returns a valid input for one of these lines."""
    options = {"--pmap": "map.txt", "--list": "list.txt", "--cert": "cert.txt"}
    return next((name for option, name in options.items() if option in reader), "flows")


def bill():
    """Returns five flows in two messages, from which the groups of `sums` are built."""
    wide = [f"0a000001 09000001 {protocol} 0000000000000002 {MOST}" for protocol in ("11", "06")]
    v6 = "20010db8000000000000000000000001 20010db8000000000000000000000002 11 00000001 00000050"
    return (message(TEMPLATE_SET, V6_SET, data_set(256, RECORD), data_set(258, v6),
                    data_set(256, "09000001 08080808 11 00000001 00000064"))
            + message(WIDE_SET, data_set(257, *wide)))


# An address as it is printed, and other texts of it: the examples of RFC 4291, section 2.2, and of RFC 5952, and the
# shortest gaps.
ADDRESSES = (
    ("0.0.0.0", ""), ("255.255.255.255", ""), ("10.0.0.1", "010.0.0.1"), ("1.2.3.4", "1.02.003.4"),
    ("abcd:ef01:2345:6789:abcd:ef01:2345:6789", "ABCD:EF01:2345:6789:ABCD:EF01:2345:6789"),
    ("2001:db8::8:800:200c:417a", "2001:DB8:0:0:8:800:200C:417A 2001:DB8::8:800:200C:417A"),
    ("ff01::101", "FF01:0:0:0:0:0:0:101 FF01::101"), ("::1", "0:0:0:0:0:0:0:1"), ("::", "0:0:0:0:0:0:0:0"),
    ("::d01:4403", "0:0:0:0:0:0:13.1.68.3 ::13.1.68.3"),
    ("::ffff:8190:3426", "0:0:0:0:0:FFFF:129.144.52.38 ::FFFF:129.144.52.38"),
    ("2001:db8::1:0:0:1", "2001:0db8:0:0:1:0:0:1 2001:db8::0:1:0:0:1 2001:DB8:0:0:1::1"),
    ("2001:db8:aaaa:bbbb:cccc:dddd:0:1", "2001:db8:aaaa:bbbb:cccc:dddd::1"),
    ("2001:db8:aaaa:bbbb:cccc:dddd:eeee:aaaa", "2001:db8:aaaa:bbbb:cccc:dddd:eeee:aAaA"),
    ("1:2:3:4:5:6:102:304", "1:2:3:4:5:6:1.2.3.4"), ("1:2:3:4:5:6:7:0", "1:2:3:4:5:6:7::"),
    ("0:2:3:4:5:6:7:8", "::2:3:4:5:6:7:8"), ("1:0:0:2::3", "1:0:0:2:0:0:0:3"), ("1::2:3:0:0:4", "1:0:0:2:3:0:0:4"),
    ("2001:db8:0:1:1:1:1:1", "2001:db8::1:1:1:1:1"), ("1::", "1:0:0:0:0:0:0:0"), ("::ffff:a00:0", ""),
    ("ffff:ffff:ffff:ffff:ffff:ffff:ffff:ffff", ""),
)
NO_ADDRESSES = """\
 1.2.3.4|.1.2.3|1..2.3|1.2.3|1.2.3.|1.2.3.0004|1.2.3.4.5|1.2.3.x|256.0.0.0|:|:::|:1|1:|1::2::3|1::2:|:1::2|1:2:3:4:5:6:7
1:2:3:4:5:6:7:|:2:3:4:5:6:7:8|1:2:3:4:5:6:7:8:9|1:2:3:4:5:6:7:8::|::1:2:3:4:5:6:7:8|1:2:3:4::5:6:7:8|1:2:3:4:5:6:7::8:9
1:2:3:4:5:6:7:1.2.3.4|1:2:3:4:5:6:7.8.9.10:11|::1.2.3.4::|1.2.3.4::|::1.2.3.4:5|::1.2.3|::256.0.0.1|::12345|::g|::1%1
10.0.0.0/8""".replace("\n", "|").split("|")

# A flow that passes each filter of FILTERS, and the flows that fail only one: the addresses, the ports, the protocol,
# the packets and the bytes, and the labels that labels.txt gives.
PASSING = "10.0.0.1 20.0.0.1 1000 443 6 4 150 A B"
FILTERS = {
    "--protocol 6": "10.0.0.1 20.0.0.1 1000 443 17 4 150 A B",
    "--sport 1000": "10.0.0.1 20.0.0.1 1001 443 6 4 150 A B",
    "--dport 443": "10.0.0.1 20.0.0.1 1000 444 6 4 150 A B",
    "--saddress 10.0.0.0/30": "10.0.1.1 20.0.0.1 1000 443 6 4 150 A B",
    "--daddress 20.0.0.0/30": "10.0.0.1 20.0.0.5 1000 443 6 4 150 A B",
    "--packets 3-4": "10.0.0.1 20.0.0.1 1000 443 6 5 150 A B",
    "--bytes 150-": "10.0.0.1 20.0.0.1 1000 443 6 4 149 A B",
    "--dst-label B": "10.0.0.1 20.0.0.2 1000 443 6 4 150 A C",
    "--src-label A": "10.0.0.3 20.0.0.1 1000 443 6 4 150 C B",
}


def filtered():
    """Returns the flow that passes each filter, and then those that fail one."""
    records = []
    for flow in (PASSING, *FILTERS.values()):
        source, destination, *numbers = flow.split()[:-2]
        addresses = (f"{int(ipaddress.ip_address(address)):08x}" for address in (source, destination))
        records.append("".join(addresses) + "{:04x}{:04x}{:02x}{:08x}{:08x}".format(*map(int, numbers)))
    return message("00020024 01040007 00080004 000c0004 00070002 000b0002 00040001 00020004 00010004",
                   data_set(260, *records))


def help_of(command):
    """Returns the pattern of a help text: the version first, the usage, each option or command with a description below
    a heading, an example and the manuals, for a screen of 80 columns."""
    screen = r"(?=(?:[^\n]{,80}\n){,40}\Z)"
    version = rf"flowlabel [0-9]+\.[0-9]+\.[0-9]+{TRIAL}\n\n"
    usage = rf"[^\n]+\n\nUsage: {re.escape(USAGES[command])}\n\n"
    name = r"(?:(?:-[A-Za-z], )? *--[a-z-]+(?: <[A-Z]+>)?|<[A-Z]+>|[a-z]+)"
    # No part is tried again in another way, which would take no end if the text is broken.
    section = rf"(?>[A-Z][a-z]+:\n(?:  +{name}  +\S[^\n]++\n(?: {{20,}}+\S[^\n]++\n)?+)++\n)"
    example = rf"Example, [^\n]+:\n  flowlabel {command or '[a-z]+'} [^\n]+\n\n"
    manuals = r"Manuals: flowlabel\(1\), flowlabel-formats\(5\)\n"
    return re.compile(f"(?s){screen}{version}{usage}(?:{section})++{example}{manuals}".encode())


class Lines(Case):
    """Command lines over small files."""

    @classmethod
    def prepare(cls):
        flows = message(TEMPLATE_SET, "01000015", RECORD)
        files = {
            "map.txt": b"10.0.0.0/8 A\n10.0.0.0/7 B\n",
            "list.txt": b"0.0.0.0/0 UNKNOWN\n10.0.0.0/7 B\n",
            "halves.txt": b"0.0.0.0/1 A\n128.0.0.0/1 B\n",
            "cert.txt": b"flowlabel-cert 1 ipv4 3\nA\nB\nUNKNOWN\nn 1 0 1\nl 0\nl 1\n",
            "last.txt": b"default D\n255.255.255.255 X\n",
            "last-list.txt": b"0.0.0.0/0 D\n255.255.255.255/32 X\n",
            "chain.txt": LAST_CERT.encode(),
            "compact.txt": b"flowlabel-cert 2 ipv4 3\nA\nB\nUNKNOWN\nn 1 0 1\nl 0\nl 1\n",
            "faulty.txt": b"10.0.0.0/8 A\n10.0.0.0/33 B\n",
            FOREIGN: b"10.0.0.0/33 B\n",
            # Names that other programs take for standard input, or trim.
            "-": flows,
            " flows of Monday\t": flows,
            "filtered": filtered(),
            "labels.txt": b"10.0.0.0/16 A\n10.0.0.3 C\n20.0.0.0/24 B\n20.0.0.2 C\n",
            "flows": flows,
            "cut": flows[:64],
            "bill": bill(),
            "many": message(TEMPLATE_SET) + message("01000015", RECORD) * MANY,
        }
        for name, content in files.items():
            write(name, content)
        os.mkdir("folder")
        os.symlink("loop", "loop")
        # A sparse file of 256 MB, which takes no space on the disk.
        with open("long", "wb") as file:
            file.truncate(1 << 28)


class Answers(Lines):
    """Lines that end with status 0: the result on standard output, and nothing on standard error."""

    # Lines over small files are in tests/program/worked.py. Options may come in any order, and after the file.
    @rows(
        ("label 10.1.1.1 --pmap map.txt", "B\n"),
        ("label --pmap=map.txt 10.1.1.1", "B\n"),
        ("rows many", TITLE + ROW * MANY),
        ("rows flows --columns", "     sip|    dip|sport|dport|proto|flags|packets|bytes|stime|etime\n"
                                 "10.0.0.1|8.8.8.8|    0|    0|    6|    0|      3|  180|    0|    0\n"),
        ("rows --pmap map.txt flows --bytes 0-", f"{TITLE[:-1]}|src-label|dst-label\n{ROW[:-1]}|B|UNKNOWN\n"),
        ("rows -- flows", TITLE + ROW),
        ("rows /dev/null", TITLE),
        ("cat --list=list.txt", RANGES),
        ("cat --pmap /dev/null", "low|high|label\n0.0.0.0|255.255.255.255|UNKNOWN\n"),
        ("shrink --pmap /dev/null --certificate", "flowlabel-cert 1 ipv4 1\nUNKNOWN\nl 0\n"),
        ("shrink --pmap /dev/null --certificate --compact", "flowlabel-cert 2 ipv4 1\nUNKNOWN\nl 0\n"),
        ("shrink --compact --pmap=last.txt --certificate", LAST_CERT),
        ("recert --cert=chain.txt", LAST_CERT),
        ("check --cert cert.txt --list=halves.txt --pmap halves.txt", "minimal 2\n"),
        ("uniq --sort-output --fields proto --columns flows",
         "proto|records|packets|bytes\n    6|      1|      3|  180\n"),
    )
    def test_line(self, line, out):
        self.expect(line, 0, out)

    def test_names(self):
        """Names that other programs take for standard input, or trim."""
        for name in ("-", " flows of Monday\t"):
            self.expect(["rows", name], 0, TITLE + ROW)
            self.expect(["label", "--pmap", name, "10.1.1.1"], 1, "", f"flowlabel: {name}: M1 BadStatement at 1\n")
        for name in (" missing", "missing "):
            self.expect(["rows", name], 4, "", f"flowlabel: {name}: cannot open\n")

    def test_streams(self):
        """The input isn't needed. The status is kept if standard error fails, or the output while help is written."""
        self.expect("label --pmap map.txt 10.1.1.1", 0, "B\n", after="<&-")
        self.expect("rows flows", 0, TITLE + ROW, after="<&- 2>&-")
        for error in ("2>&-", "2>/dev/full"):
            self.expect("info cut", 1, after=error)
            self.expect("label 10.1.1.1", 2, after=error)
            self.expect("info missing", 4, after=error)
        for output in (">&-", ">/dev/full"):
            self.expect("--help", 0, after=output)


class Help(Lines):
    """The help and the version, which are no faults."""

    @rows(*((f"{command} {option}".strip(), command) for command in USAGES for option in ("--help", "-h")))
    def test_help(self, line, command):
        self.expect(line, 0, help_of(command))

    @rows(("--version",), ("-V",))
    def test_version(self, option):
        """The version is that of the newest release in CHANGELOG.md."""
        newest = re.search(r"(?m)^## ([0-9]\S*)", read(ROOT / "CHANGELOG.md"))[1]
        self.expect(option, 0, re.compile(rf"flowlabel {re.escape(newest)}{TRIAL}\n"))


def rows_of(flows, columns):
    """Returns what `rows` prints for these flows of FILTERS."""
    table = [f"{TITLE[:-1]}|src-label|dst-label".split("|")]
    for flow in flows:
        *fields, packets, octets, source, destination = flow.split()
        table.append([*fields, "0", packets, octets, "0", "0", source, destination])
    widths = [max(map(len, column)) if columns else 0 for column in zip(*table)]
    return "".join("|".join(map(str.rjust, row, widths)) + "\n" for row in table)


class Filters(Lines):
    """Lines of `rows` with each option. Without one of them, one more flow is printed."""

    @rows(*((last, left_out) for last in ("--src-label A", "--any-label A")
            for left_out in ("", *FILTERS) if last == "--src-label A" or left_out != "--src-label A"),
          ("--any-label A", "--any-label A"))
    def test_without(self, last, left_out):
        """All options with this last one, but for the one that is left out."""
        options = {**FILTERS, last: FILTERS["--src-label A"]}
        if last != "--src-label A":
            del options["--src-label A"]
        flows = [PASSING, *([options[left_out]] if left_out else [])]
        words = " ".join(option for option in options if option != left_out)
        for source in ("--pmap labels.txt", "--list labels.txt"):
            for columns in ("", "--columns"):
                self.expect(f"rows filtered {source} {words} {columns}", 0, rows_of(flows, columns))

    def test_words_after_the_sixteenth(self):
        """Each word counts. The eighteenth is the File's name, an option that doesn't exist, or no text."""
        line = f"rows --pmap labels.txt {' '.join([*FILTERS][:6])} --columns"
        self.expect(f"{line} filtered", 0, rows_of([PASSING, *[*FILTERS.values()][6:]], "--columns"))
        self.expect(f"{line} missing", 4, "", "flowlabel: missing: cannot open\n")
        self.expect(f"{line} --colour filtered", 2, "", re.compile(rb"(?s)error: .*--colour.*\n"))
        self.expect([*line.split(), NO_TEXT], 2, "", "flowlabel: usage: P1 NotUtf8\n")


class Sums(Lines):
    """The output of `uniq` for five flows: groups in the order of their first rows or of their keys, and their sums."""

    @rows(
        ("sip", [f"10.0.0.1|3|7|{TWICE + 180}", "2001:db8::1|1|1|80", "9.0.0.1|1|1|100"], (2, 0, 1)),
        ("proto,dip", ["6|8.8.8.8|1|3|180", "17|2001:db8::2|1|1|80", "17|8.8.8.8|1|1|100",
                       f"17|9.0.0.1|1|2|{TWICE // 2}", f"6|9.0.0.1|1|2|{TWICE // 2}"], (0, 4, 2, 3, 1)),
        ("dport,flags,sport", [f"0|0|0|5|9|{TWICE + 360}"], (0,)),
    )
    def test_fields(self, fields, groups, order):
        title = f"{fields.replace(',', '|')}|{SUMS}"
        for option, lines in (("", groups), ("--sort-output", [groups[place] for place in order])):
            self.expect(f"uniq --fields {fields} {option} bill", 0, title + "".join(f"{line}\n" for line in lines))

    @rows(("--pmap map.txt",), ("--list list.txt",))
    def test_labels(self, source):
        """A group of flows without a label: under a map over IPv4 an IPv6 address has no label."""
        named, unnamed, other = f"B|3|7|{TWICE + 180}\n", "|1|1|80\n", "UNKNOWN|1|1|100\n"
        self.expect(f"uniq --fields src-label {source} bill", 0, f"src-label|{SUMS}{named}{unnamed}{other}")
        self.expect(f"uniq --sort-output --fields src-label {source} bill", 0,
                    f"src-label|{SUMS}{unnamed}{named}{other}")
        self.expect(f"uniq --fields dst-label,proto --any-label B --packets 3- {source} bill", 0,
                    f"dst-label|proto|{SUMS}UNKNOWN|6|1|3|180\n")

    @rows(
        ("uniq --fields src-label --columns --sort-output --pmap map.txt bill",
         "src-label|records|packets|               bytes\n"
         "         |      1|      1|                  80\n"
         "        B|      3|      7|36893488147419103410\n"
         "  UNKNOWN|      1|      1|                 100\n"),
        ("uniq --fields sip --protocol 17 --daddress 8.0.0.0/8,2001:db8::/32 bill",
         f"sip|{SUMS}2001:db8::1|1|1|80\n9.0.0.1|1|1|100\n"),
        ("uniq --fields sip --dport 1-65535 bill", f"sip|{SUMS}"),
        ("uniq --fields sip /dev/null", f"sip|{SUMS}"),
        ("uniq many --fields dip,proto", f"dip|proto|{SUMS}8.8.8.8|6|{MANY}|{3 * MANY}|{180 * MANY}\n"),
    )
    def test_line(self, line, out):
        self.expect(line, 0, out)


class Faults(Lines):
    """Lines that end with status 1 or 2, and those of `check`."""

    @rows(
        ("label --pmap faulty.txt 10.1.1.1", "faulty.txt: M3 BadLength at 2"),
        ("label --pmap ./faulty.txt 10.1.1.1", "./faulty.txt: M3 BadLength at 2"),
        ("cat --pmap faulty.txt", "faulty.txt: M3 BadLength at 2"),
        ("shrink --pmap faulty.txt", "faulty.txt: M3 BadLength at 2"),
        ("recert --cert faulty.txt", "faulty.txt: C1 BadHeader at 1"),
        *((f"{command} {name}", fault)
          for command in ("info", "rows", "rows --columns", "uniq --fields sip",
                          "uniq --fields src-label --pmap map.txt")
          for name, fault in (("cut", "cut: F4 TruncatedMessage at 0"), ("map.txt", "map.txt: F2 BadVersion at 0"))),
    )
    def test_bytes(self, line, fault):
        """One line on standard error, with the file as it was named."""
        self.expect(line, 1, "", f"flowlabel: {fault}\n")

    def test_a_name_that_is_not_ascii(self):
        self.expect(["label", "--pmap", FOREIGN, "10.1.1.1"], 1, "", f"flowlabel: {FOREIGN}: M3 BadLength at 1\n")

    def test_long_name(self):
        """A name of some thousand bytes is opened, and a fault has all of it."""
        self.expect(f"info {FAR}flows", 0, run(PROGRAM, "info", "flows").stdout)
        self.expect(f"cat --pmap {FAR}faulty.txt", 1, "", f"flowlabel: {FAR}faulty.txt: M3 BadLength at 2\n")
        self.expect(f"info {FAR}missing", 4, "", f"flowlabel: {FAR}missing: cannot open\n")
        self.expect(f"info {FAR}folder", 4, "", f"flowlabel: {FAR}folder: cannot read\n")

    def test_more_than_the_maximum_number_of_mappings(self):
        write("beyond.txt", MOST_MAPPINGS * b"10.0.0.0/8 A\n" + b"default B\n10.0.0.0/8 A\n")
        self.expect("label --pmap beyond.txt 10.1.1.1", 1, "",
                    f"flowlabel: beyond.txt: M12 TooMany at {MOST_MAPPINGS + 2}\n")

    @rows(
        ("label 10.1.1", "P2 MapMissing"), ("label --pmap map.txt 2001:db8::1::", "P4 BadAddress"),
        ("rows --pmap missing --list missing flows", "P3 MapTwice"),
        ("cat --list missing --pmap missing", "P3 MapTwice"), ("shrink --pmap missing --compact", "P6 CompactAlone"),
        # A fault of the words is reported before a fault of a file, and the first one of several.
        ("label --pmap missing 10.1.1", "P4 BadAddress"), ("label --list missing 1.2.3", "P4 BadAddress"),
        ("label --pmap missing --list missing 1.2.3", "P3 MapTwice"),
        ("rows --pmap missing --list missing --sport x flows", "P3 MapTwice"),
        ("rows --dst-label B --bytes x --dport x flows", "--dport L1 BadNumberList"),
        ("uniq --fields x --bytes x --any-label B flows", "--bytes L2 BadRange"),
        *((f"uniq --fields {words} missing", fault) for words, fault in (
            ("colour", "--fields U1 BadField"), ("sip,", "--fields U1 BadField"),
            ("sip,dip,sip", "--fields U2 FieldRepeated"), ("sip,sip,colour", "--fields U1 BadField"), 
            ("dst-label", "P5 LabelNeedsMap"), ("sip --any-label B", "P5 LabelNeedsMap"),
            ("colour --dport 70000", "--dport L1 BadNumberList"),
            ("sip --bytes 5-4", "--bytes L2 BadRange"), ("sip --saddress 10.0.0", "--saddress L3 BadBlock"),
            ("colour --src-label B", "--fields U1 BadField"), ("colour --pmap missing --list missing", "P3 MapTwice"))),
    )
    def test_words(self, line, fault):
        self.expect(line, 2, "", f"flowlabel: usage: {fault}\n")

    @rows(*((line,) for line in (
        "", "colour", "label", "info", "info --version", "rows", "label --pmap", "info flows flows", "rows --columns",
        "label --pmap map.txt 10.1.1.1 10.1.1.1", "cat --pmap map.txt 10.1.1.1", "shrink", "shrink --certificate",
        "shrink --list list.txt", "shrink --compact", "recert", "recert cert.txt", "recert --cert cert.txt cert.txt",
        "uniq", "uniq flows", "uniq --fields", "uniq --fields sip", "uniq --fields sip flows flows",
        "check --pmap halves.txt --list halves.txt", "check --pmap halves.txt --cert cert.txt",
        "check --list halves.txt --cert cert.txt", f"{WORKED_CHECK} flows", "help", "label --version",
        "label 10.1.1.1 --pmap", "label --map map.txt 10.1.1.1", "label --pmap map.txt", "info --columns flows",
        "info --pmap map.txt flows", "info --protocol 6 flows", "rows flows flows", "rows --columns=yes flows",
        "rows --sport 1 --sport", "shrink --pmap map.txt --list list.txt", "shrink --pmap map.txt map.txt",
        "shrink --pmap map.txt --certificate --compact=yes", "recert --cert cert.txt --pmap map.txt",
        "recert --cert cert.txt --compact")))
    def test_refused_by_clap(self, line):
        self.expect(line, 2, "", REFUSAL)

    @rows(("label --pmap map.txt", "<ADDR>"), ("info", "<FILE>"), ("rows", "<FILE>"), ("shrink", "--pmap <FILE>"),
          ("recert", "--cert <FILE>"), ("uniq flows", "--fields <NAMES>"), ("uniq --fields sip", "<FILE>"),
          ("check --pmap halves.txt --list halves.txt", "--cert <FILE>"), ("label", "<ADDR>"))
    def test_missing_word(self, line, name):
        """The word that is missing is named."""
        usage = re.escape(USAGES[line.split()[0]])
        form = (rf"error: the following required arguments were not provided:\n  {re.escape(name)}\n\n"
                rf"Usage: {usage}\n\nFor more information, try '--help'\.\n")
        self.expect(line, 2, "", re.compile(form.encode()))

    @rows(*USAGES.items())
    def test_no_option(self, command, usage):
        """An option that doesn't exist is reported with clap's text, with its name and the command's usage line."""
        form = rf"(?s)error: .*--colour.*Usage: {re.escape(usage)}\n.+\n"
        self.expect(f"{command} --colour flows", 2, "", re.compile(form.encode()))

    def test_no_text(self):
        for words in ([NO_TEXT], ["label", "--pmap", "map.txt", NO_TEXT], ["label", "--pmap", NO_TEXT, "10.1.1.1"],
                      ["info", NO_TEXT], ["rows", f"--{NO_TEXT}", "flows"]):
            self.expect(words, 2, "", "flowlabel: usage: P1 NotUtf8\n")
        self.expect(["label", "--pmap", "map.txt", ""], 2, "", "flowlabel: usage: P4 BadAddress\n")

    @rows(
        ("halves.txt halves.txt cert.txt", "minimal 2"), ("halves.txt halves.txt compact.txt", "minimal 2"),
        ("last.txt last-list.txt chain.txt", "minimal 2"),
        ("last.txt last.txt chain.txt", "last.txt: M13 NotAList at 1"),
        ("halves.txt halves.txt chain.txt", "chain.txt: K2 LeafNotUniform at 2"),
        ("halves.txt list.txt cert.txt", "cert.txt: K3 ListDiffers at 2"),
        ("halves.txt halves.txt map.txt", "map.txt: C1 BadHeader at 1"),
        ("faulty.txt halves.txt flows", "faulty.txt: M3 BadLength at 2"),
    )
    def test_check(self, names, text):
        """`check`, with other files in place of each of its files."""
        line = CHECK.format(*names.split())
        if text.startswith("minimal"):
            self.expect(line, 0, f"{text}\n")
        else:
            self.expect(line, 1, "", f"flowlabel: {text}\n")


class Addresses(Case):
    """Texts of addresses, and texts that are none."""

    @rows(*ADDRESSES)
    def test_address(self, printed, others):
        for text in (printed, *others.split()):
            write("list.txt", f"{text} A\n")
            row = re.escape(f"{printed}|{printed}|A\n")
            self.expect("cat --list list.txt", 0, re.compile(rf"(?:.*\n)+{row}(?:.*\n)?"))

    @rows(*zip(NO_ADDRESSES))
    def test_no_address(self, text):
        self.expect(["label", "--pmap", "/dev/null", text], 2, "", "flowlabel: usage: P4 BadAddress\n")


class OutOfMemory(Lines):
    """Lines that hold more than the memory that the program may have, and those that hold little of what they read."""

    @rows(*((line.format("long"),) for line in READERS if input_of(line) != "flows"),
          (CHECK.format("halves.txt", "halves.txt", "long"),))
    def test_text(self, line):
        self.expect(line, 3, "", "flowlabel: out of memory\n", before="ulimit -v 100000; ")

    def test_bulk(self):
        """Only one message of a File is held in memory, and the text that is to be printed."""
        write("bulk", message(TEMPLATE_SET) + message(data_set(0x100, *[RECORD] * 3000)) * (BULK // 3000))
        for line in ("rows bulk", "rows --columns bulk", "rows --columns --protocol 6 bulk"):
            self.expect(line, 3, "", "flowlabel: out of memory\n", before="ulimit -v 30000; ")
        for line, out in (("info bulk", SOME_TEXT), ("rows --protocol 17 bulk", TITLE),
                          ("uniq --fields proto bulk", f"proto|{SUMS}6|{BULK}|{3 * BULK}|{180 * BULK}\n")):
            self.expect(line, 0, out, before="ulimit -v 30000; ")

    @rows(*((line.format("/dev/zero"),) for line in READERS if input_of(line) == "flows"))
    def test_endless(self, line):
        """The run ends at its first fault, although the input has no end."""
        self.expect(line, 1, "", "flowlabel: /dev/zero: F2 BadVersion at 0\n", before="ulimit -v 30000; ")


def first_sources():
    """Returns the addresses of MILLIONS flows, one in each block of four."""
    return [f"10.{high >> 8}.{high & 255}.{low}" for high in range(MILLIONS // 64) for low in range(0, 256, 4)]


def first_addresses(version):
    """Returns a number of single addresses, one in each block of four, and the block of all addresses."""
    low, block = {4: ("10.0.0.0", "0.0.0.0/0"), 6: ("2001:db8::", "::/0")}[version]
    low = ipaddress.ip_address(low)
    return [low + 4 * number for number in range(PAST)], ipaddress.ip_network(block)


class CountsOfMaps(Lines):
    """Statements, stretches, entries and node lines that 16 bits can't count: each single address has a label of its
    own."""

    @rows((4,), (6,))
    def test_version(self, version):
        addresses, block = first_addresses(version)
        names = [str(address) for address in addresses]
        head = f"mode ipv{block.version}\n"
        entries = "".join(f"{name}/{block.max_prefixlen} A\n" for name in names)
        # No list is shorter: each block of four has one exceptional address, and all that they share is UNKNOWN.
        write("map", head + "".join(f"{name} A\n" for name in names))
        write("list", f"{head}{block} UNKNOWN\n{entries}")
        rests = zip((block[0], *(address + 1 for address in addresses)),
                    (*(address - 1 for address in addresses), block[-1]))
        runs = [f"{low}|{high}|UNKNOWN\n" for low, high in rests]
        runs = runs[0] + "".join(f"{name}|{name}|A\n{run}" for name, run in zip(names, runs[1:]))
        self.expect("shrink --pmap map", 0, read("list"))
        for source in ("--pmap map", "--list list"):
            self.expect(f"cat {source}", 0, f"low|high|label\n{runs}")
            self.expect(f"label {source} {names[-1]}", 0, "A\n")
        self.expect("shrink --pmap map --certificate", 0, after=">plain")
        self.expect("shrink --pmap map --certificate --compact", 0, after=">compact")
        self.expect("recert --cert plain", 0, read("compact"))
        for name in ("plain", "compact"):
            self.expect(f"check --pmap map --list list --cert {name}", 0, f"minimal {PAST + 1}\n")

    def test_labels(self):
        """The maximum number of labels in a text, and UNKNOWN."""
        addresses, block = first_addresses(4)
        labelled = [(address, f"L{number}") for number, address in enumerate(addresses[:65_535])]
        write("labelled", "".join(f"{address} {label}\n" for address, label in labelled))
        lows = (block[0], *(address + 1 for address, _ in labelled))
        shown = "".join(f"{low}|{address - 1}|UNKNOWN\n{address}|{address}|{label}\n"
                        for low, (address, label) in zip(lows, labelled))
        self.expect("cat --pmap labelled", 0, f"low|high|label\n{shown}{addresses[65_534] + 1}|{block[-1]}|UNKNOWN\n")

    def test_chain(self):
        """A chain of 100 bits."""
        first = ipaddress.ip_network("2001:db8:ffff:1234:5678:9abc:d000:0/100")
        write("map", f"mode ipv6\ndefault D\n{first} X\n")
        write("chain", f"flowlabel-cert 2 ipv6 2\nD\nX\nc 1 {int(first[0]) >> 28:0100b} 0 0\nl 1\n")
        self.expect("shrink --pmap map --certificate --compact", 0, read("chain"))
        self.expect("recert --cert chain", 0, read("chain"))


class CountsOfFlows(Lines):
    """Messages, sets, records, groups and filter items that 16 bits can't count, or the maximum number of them."""

    def test_lines(self):
        sources, _ = first_addresses(4)
        records = [f"{int(source):08x} 08080808 06 00000003 000000b4" for source in sources]
        write("single", message(TEMPLATE_SET) + b"".join(message(data_set(256, record)) for record in records))
        write("sets", message(TEMPLATE_SET, "01000004" * 16_372))
        # A template with the protocol only.
        write("short", message("0002000c 01030001 00040001", data_set(259, "06" * 65_503)))
        info = ("messages {}\ntemplates 1\noptions-templates 0\nwithdrawals 0\ndata-sets {}\nskipped-sets 0\n"
                "records {}\noptions-records 0\nrows {}\n")
        self.expect("info single", 0, info.format(PAST + 1, PAST, PAST, PAST))
        self.expect("info sets", 0, info.format(1, 16_372, 0, 0))
        self.expect("info short", 0, info.format(1, 1, 65_503, 0))
        shown = [f"{source}|8.8.8.8|0|0|6|0|3|180|0|0" for source in sources]
        self.expect("rows single", 0, TITLE + "\n".join([*shown, ""]))
        write("map", "".join(f"{source} A\n" for source in sources))
        write("list", "0.0.0.0/0 UNKNOWN\n" + "".join(f"{source}/32 A\n" for source in sources))
        groups = "".join(f"{source}|A|1|3|180\n" for source in sources)
        for source in ("--pmap map", "--list list"):
            self.expect(f"rows {source} single", 0,
                          f"{TITLE[:-1]}|src-label|dst-label\n" + "|A|UNKNOWN\n".join([*shown, ""]))
            self.expect(f"uniq --fields sip,src-label {source} single", 0, f"sip|src-label|{SUMS}{groups}")
        # The system accepts words of fewer than 131,072 bytes.
        self.expect(["rows", "--sport", ",".join("1" * 65_534 + "0"), "flows"], 0, TITLE + ROW)
        self.expect(["rows", "--saddress", "::," * 43_000 + "10.0.0.1", "flows"], 0, TITLE + ROW)


class CountsOfMillions(Lines):
    """More than 1,000,000 messages, rows and groups, and the maximum number of statements and entries. Each line ends
    with success under a limit of about twice the memory that it needs, in MB."""
    is_long = True

    def within(self, megabytes, line, out="", **streams):
        """Checks that a line succeeds with a limit of this many MB of memory."""
        self.expect(line, 0, out, before=f"ulimit -v {1000 * megabytes}; ", **streams)

    @staticmethod
    def write_file():
        """Writes a File of MILLIONS flows, and returns their sources."""
        # The four bytes of the address follow the 20 of the headers.
        one = message(data_set(256, RECORD))
        numbers = struct.pack(f">{MILLIONS}I", *range(0xa00_0000, 0xa00_0000 + 4 * MILLIONS, 4))
        messages = bytearray(one * MILLIONS)
        for place in range(4):
            messages[20 + place::len(one)] = numbers[place::4]
        write("millions", message(TEMPLATE_SET) + messages)
        return first_sources()

    def test_flows(self):
        sources, rest = self.write_file(), ROW.removeprefix("10.0.0.1")
        info = {"messages": MILLIONS + 1, "templates": 1, "options-templates": 0, "withdrawals": 0,
                "data-sets": MILLIONS, "skipped-sets": 0, "records": MILLIONS, "options-records": 0, "rows": MILLIONS}
        self.within(15, "info millions", "".join(f"{name} {count}\n" for name, count in info.items()))
        self.within(120, "rows millions", TITLE + "".join(f"{source}{rest}" for source in sources))

    def test_groups(self):
        sums = "".join(f"{source}|1|3|180\n" for source in self.write_file())
        self.within(300, "uniq --fields sip millions", f"sip|{SUMS}{sums}")
        self.within(500, "uniq --fields dip,sip --sort-output millions",
                    f"dip|sip|{SUMS}8.8.8.8|" + sums.replace("\n", "\n8.8.8.8|").removesuffix("8.8.8.8|"))

    @staticmethod
    def write_map(version):
        """Writes a map and its list, and returns the addresses that have a label of their own."""
        if version == 4:
            names, head, block, length = first_sources()[:MOST_MAPPINGS - 1], "mode ipv4\n", "0.0.0.0/0", 32
        else:
            wide = (f"2001:db8::a{number >> 14:02x}:{number << 2 & 65535:x}" for number in range(MOST_MAPPINGS // 2))
            names, head, block, length = [*wide], "mode ipv6\n", "::/0", 128
        # No list is shorter: each block of four has one exceptional address.
        write("map", f"{head}{names[0]} B\n" + "".join(f"{name} A\n" for name in names))
        write("list", f"{head}{block} UNKNOWN\n" + "".join(f"{name}/{length} A\n" for name in names))
        return names

    @rows((4,), (6,))
    def test_maps(self, version):
        last = self.write_map(version)[-1]
        for source in ("--pmap map", "--list list"):
            self.within(150, f"label {source} {last}", "A\n")
            self.within(400, f"cat {source}", after=f">{source[-4:].strip()}.ranges")
        self.assertTrue(read("map.ranges") == read("list.ranges"), "cat prints the same of a map and of its list")

    @rows((4,), (6,))
    def test_list(self, version):
        self.write_map(version)
        self.within(500, "shrink --pmap map", read("list"))

    @rows((4, ""), (6, ""), (4, "--compact"), (6, "--compact"))
    def test_certificate(self, version, compact):
        count = len(self.write_map(version)) + 1
        self.within(500, f"shrink --pmap map --certificate {compact}", after=">cert")
        self.within(300, "check --pmap map --list list --cert cert", f"minimal {count}\n")

    @rows((4,), (6,))
    def test_compacting(self, version):
        self.write_map(version)
        self.within(500, "shrink --pmap map --certificate", after=">plain")
        self.within(500, "shrink --pmap map --certificate --compact", after=">compact")
        self.within(700, "recert --cert plain", read("compact"))
        self.within(600, "recert --cert compact", read("compact"))


def first_bytes(number, reading):
    """Reads this number of bytes of a pipe, and closes it."""
    os.read(reading, number)
    os.close(reading)


class Outputs(Lines):
    """Lines that end with status 4 because the output takes nothing, or not everything."""

    @rows(*((reader.format(input_of(reader)),) for reader in READERS), (WORKED_CHECK,),
          ("uniq --fields src-label --pmap map.txt flows",))
    def test_line(self, line):
        for output in (">/dev/full", ">&-"):
            self.expect(line, 4, "", "flowlabel: output: cannot write\n", after=output)
        # A pipe without a reader.
        reading, writing = os.pipe()
        os.close(reading)
        self.expect(line, 4, "", "flowlabel: output: cannot write\n", stdout=writing)
        os.close(writing)

    @rows(("rows many",), ("rows --columns many",))
    def test_pipe_that_is_closed_after_its_first_bytes(self, line):
        reading, writing = os.pipe()
        reader = threading.Thread(target=first_bytes, args=(10, reading))
        reader.start()
        self.expect(line, 4, "", "flowlabel: output: cannot write\n", stdout=writing)
        os.close(writing)
        reader.join()


class Devices(Lines):
    """Lines that end with status 4, with a device in place of each input."""

    @rows(*((line,) for line in READERS))
    def test_reader(self, line):
        self.expect(line.format("folder"), 4, "", "flowlabel: folder: cannot read\n")
        for name in ("missing", "folder/missing", "map.txt/below", "loop"):
            self.expect(line.format(name), 4, "", f"flowlabel: {name}: cannot open\n")
        # The memory of the process, which has no page at address 0.
        self.expect(line.format("/proc/self/mem"), 4, "", "flowlabel: /proc/self/mem: cannot read\n")

    # The first file that can't be opened is reported, in the order map, list, certificate, flows; then the first that
    # is invalid or can't be read. All are opened before any is read.
    @rows(("rows --pmap missing loop", "missing"), ("rows --list loop missing", "loop"),
          ("rows --pmap map.txt missing", "missing"), ("rows --list list.txt loop", "loop"),
          ("rows --pmap folder missing", "missing"), ("rows --list faulty.txt missing", "missing"),
          ("uniq --fields sip --pmap loop missing", "loop"), ("uniq --fields sip --pmap map.txt missing", "missing"),
          ("uniq --fields sip --list folder loop", "loop"), (CHECK.format("missing", "loop", "loop"), "missing"),
          (CHECK.format("halves.txt", "missing", "loop"), "missing"),
          (CHECK.format("halves.txt", "halves.txt", "missing"), "missing"),
          (CHECK.format("folder", "halves.txt", "missing"), "missing"),
          (CHECK.format("halves.txt", "missing", "folder"), "missing"),
          ("check --cert loop --list loop --pmap missing", "missing"))
    def test_first_to_open(self, line, name):
        self.expect(line, 4, "", f"flowlabel: {name}: cannot open\n")

    @rows(("rows --pmap ./folder folder", "./folder"), ("rows --list list.txt folder", "folder"),
          ("uniq --fields sip --pmap folder cut", "folder"), (CHECK.format("./folder", "folder", "folder"), "./folder"),
          (CHECK.format("halves.txt", "./folder", "folder"), "./folder"),
          (CHECK.format("halves.txt", "halves.txt", "folder"), "folder"))
    def test_first_to_read(self, line, name):
        self.expect(line, 4, "", f"flowlabel: {name}: cannot read\n")

    @rows(("rows --pmap faulty.txt folder",), (CHECK.format("faulty.txt", "folder", "folder"),),
          (CHECK.format("halves.txt", "faulty.txt", "folder"),))
    def test_first_fault(self, line):
        self.expect(line, 1, "", "flowlabel: faulty.txt: M3 BadLength at 2\n")

    def test_no_right(self):
        """Root may open each file, so these rights of root are taken from the program."""
        os.chmod("flows", 0)
        self.addCleanup(os.chmod, "flows", 0o600)
        words = ("setpriv", "--bounding-set=-dac_override,-dac_read_search") if os.geteuid() == 0 else ()
        self.assertEqual(texts(*words, PROGRAM, "info", "flows"), (4, "", "flowlabel: flows: cannot open\n"))
