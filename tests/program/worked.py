"""Command lines with known results: small inputs, the lines that name them, and what the program prints.

The values are those of docs/FORMATS.md, never what the program printed. tests/program/test_worked.py runs each line,
tests/program/test_memory.py fails each of its allocations, and tests/crates/test_calls.py passes the texts on to the
tests of flowlabel and flow_many. The lines of flowlabel-many are in tests/program/worked_many.py.
"""

import os
import re
import shlex
import tempfile
import typing

from support import BY_NAME, program_of

# In the texts of the tables ';' represents a line feed.
QUARTERS = "0.0.0.0/2 A;64.0.0.0/2 B;128.0.0.0/2 A;192.0.0.0/2 C;"
HALVES = "0.0.0.0/1 A;128.0.0.0/1 B;"
NESTED = "10.0.0.0/8 A;10.0.0.0/7 B;"
SPAN = "default D;0.0.0.1 0.0.0.6 X;"
NUMBERED = "label 5 red;1.0.0.0/8 5;2.0.0.0/8 6;"
HALVES_CERT = "flowlabel-cert 1 ipv4 3;A;B;UNKNOWN;n 1 0 1;l 0;l 1;"
QUARTERS_CERT = "flowlabel-cert 1 ipv4 4;A;B;C;UNKNOWN;n 2 0;n 1 0 1;l 0;l 1;n 1 0 2;l 0;l 2;"
HALVES_COMPACT = "flowlabel-cert 2 ipv4 3;A;B;UNKNOWN;n 1 0 1;l 0;l 1;"
# One exceptional address: the certificate of the map with a line for each node, and with one line for its chain.
LAST = "default D;255.255.255.255 X;"
LAST_LIST = "mode ipv4;0.0.0.0/0 D;255.255.255.255/32 X;"
LAST_CERT = f"flowlabel-cert 1 ipv4 2;D;X;{31 * 'n 1 0;l 0;'}n 1 0 1;l 0;l 1;"
LONE = "default D;10.0.0.1 X;"
LAST_COMPACT = f"flowlabel-cert 2 ipv4 2;D;X;c 1 {32 * '1'} 0 0;l 1;"
LONE_COMPACT = "flowlabel-cert 2 ipv4 2;D;X;c 1 00001010000000000000000000000001 0 0;l 1;"
SPAN_COMPACT = f"flowlabel-cert 2 ipv4 2;D;X;c 3 {29 * '0'} 0 0;n 2 1;c 1 00 1 1;l 0;c 1 11 1 1;l 0;"
SPAN_LIST = "mode ipv4;0.0.0.0/0 D;0.0.0.0/29 X;0.0.0.0/32 D;0.0.0.7/32 D;"
# Each half of the block of eight addresses has one exceptional address, on its outer side.
SPAN_CERT = (f"flowlabel-cert 1 ipv4 2;D;X;{28 * 'n 3 0;'}n 3 0 1;n 2 1;n 1 1;n 1 0 1;l 0;l 1;l 1;n 1 1;l 1;n 1 0 1;"
             f"l 1;l 0;{29 * 'l 0;'}")
LEAF_COMPACT = "flowlabel-cert 2 ipv4 1;UNKNOWN;l 0;"
# A chain of one bit, whose end is a chain, too.
SHORT_CHAINS = "flowlabel-cert 2 ipv6 2;A;B;c 1 1 0 0 1;c 4294967295 01 1;l 0;"
LONG_LABEL = "a label of more than sixty-four bytes, which is wider than one piece of filling"
# The maximum number of labels in a text.
LABELS = "".join(f"label {number} t{number};" for number in range(1, 65_536))
QUARTERS_LIST = "mode ipv4;0.0.0.0/0 A;64.0.0.0/2 B;192.0.0.0/2 C;"
NESTED_LIST = "mode ipv4;0.0.0.0/0 UNKNOWN;10.0.0.0/7 B;"
HALF = "0.0.0.0/1 A;"

LAST_ENTRIES = LAST_LIST.removeprefix("mode ipv4;")
# Half of the chain of LAST_COMPACT.
CHAIN = f"c 1 {16 * '1'} 0 0;"
HALF_LAST = "default D;0.0.0.0/1 X;255.255.255.255 X;"

# Files, in hexadecimal digits: the header after the length, a template of the elements 8, 12, 4, 2 and 1, and records.
HEADER = "60000000 00000000 00000001"
TEMPLATE = "01000005 00080004 000c0004 00040001 00020004 00010004"
TCP = "0a000001 08080808 06 00000003 000000b4"
UDP = "09000001 08080808 11 00000001 00000064"
ONE_FLOW = f"000a0041 {HEADER} 0002001c {TEMPLATE} 01000015 {TCP}"
TWO_FLOWS = f"000a0052 {HEADER} 0002001c {TEMPLATE} 01000026 {TCP} {UDP}"
TWO_MESSAGES = f"{ONE_FLOW} {ONE_FLOW}"
# Padding after a record, and a set in a message of another domain.
TWO_DOMAINS = (f"000a0044 {HEADER} 0002001c {TEMPLATE} 01000018 {TCP} 000000 "
               f"000a0025 60000000 00000000 00000002 01000015 {TCP}")
# A variable length in its long form, and one that extends beyond its set.
LONG_FORM = f"000a0033 {HEADER} 00020014 01010003 00080004 000c0004 0052ffff 0101000f 0a000001 08080808 ff0000"
LONG_VALUE = f"000a0032 {HEADER} 00020014 01010003 00080004 000c0004 0052ffff 0101000e 0a000001 08080808 0541"
# A record between IPv6 addresses.
SIXES = (f"000a0044 {HEADER} 00020010 01020002 001b0010 001c0010 01020024 "
         "20010db8 00000000 00000000 00000001 20010db8 00000000 00000000 00000002")
# A withdrawal of the template before the record, and one of all options templates.
WITHDRAWN = f"000a0049 {HEADER} 0002001c {TEMPLATE} 00020008 01000000 01000015 {TCP}"
OPTIONS_WITHDRAWN = WITHDRAWN.replace("00020008 01000000", "00030008 00030000")
# Counters of both directions, and counters with no packet in the reverse direction.
BIFLOW = (f"000a0059 {HEADER} 0002002c 01000007 00080004 000c0004 00040001 00020004 00010004 80020004 00007279 "
          f"80010004 00007279 0100001d {TCP} 00000002 00000064")
NO_ANSWER = BIFLOW.removesuffix("00000002 00000064") + "00000000 00000064"
# A template that is faulty, before the second set.
BAD_TEMPLATE = ONE_FLOW.replace("01000005", "00ff0005")
# Ports and times; packets of another enterprise; and in the reverse direction packets since the flow began in three
# bytes, octets in two bytes, flags, the first time, octets in nine bytes, and packets once more.
REVERSE_TOTALS = (
    f"000a00aa {HEADER} 0002005c 0100000e 00080004 000c0004 00070002 000b0002 00040001 00980008 00990008 "
    "80020004 00001ad7 80560003 00007279 80550002 00007279 80060001 00007279 80980008 00007279 80010009 00007279 "
    "80560002 00007279 0100003e 0a000001 08080808 0050 01bb 06 0000018bcfe56800 0000018bcfe56be8 00000009 010203 0102 "
    "1b 0000018bcfe569f4 0000000000000000ff 0001")
# Packets in the reverse direction since the last report, which are 0, and since the flow began, which are not; a field
# of them of variable length; and one address.
REVERSE_NONE = (f"000a0044 {HEADER} 00020020 01000004 00080004 000c0004 80020004 00007279 80560004 00007279 "
                "01000014 0a000001 08080808 00000000 00000005")
REVERSE_VARIABLE = (f"000a0036 {HEADER} 00020018 01000003 00080004 000c0004 8002ffff 00007279 "
                    "0100000e 0a000001 08080808 0105")
REVERSE_ALONE = f"000a0030 {HEADER} 00020014 01000002 00080004 80020004 00007279 0100000c 0a000001 00000005"
# Ports in one byte and in two, flags, counts since the flow began in three bytes and in two, times, octets in nine
# bytes, and a second source port.
TOTALS = (f"000a0075 {HEADER} 00020034 0101000b 00080004 000c0004 00070001 000b0002 00060002 00550003 00560002 "
          "00980008 00990008 00010009 00070002 01010031 0a000001 08080808 50 01bb 001b 010203 0102 0000018bcfe56800 "
          "0000018bcfe56be8 0000000000000000ff 1234")
# An options template and its record.
OPTIONS = f"000a0032 {HEADER} 00030012 01030002 00010095 00040029 00080103 00100000 00010000 00000000 0005"

# Outputs that are longer than the buffer before standard output: every second address has a label, and each has a flow.
PLACES = [f"10.0.{number >> 8}.{number & 255}" for number in range(3_600)]
STRIPES = "".join(f"{place} exceptional;" for place in PLACES[::2])
STRIPES_SHOWN = "".join(f"{place}|{place}|{label};"
                        for place, label in zip(PLACES[:-1], ("exceptional", "UNKNOWN") * 1_800))
PLACED = "".join(f"0a00{number:04x} 08080808 06 00000003 000000b4 " for number in range(3_600))
MANY_FLOWS = f"000a{48 + 17 * 3_600:04x} {HEADER} 0002001c {TEMPLATE} 0100{4 + 17 * 3_600:04x} {PLACED}"
MANY_GROUPS = "".join(f"{place}|1|3|180;" for place in PLACES)
LONG_LIST = re.compile(rb"mode ipv4\n(?:[0-9./]+ (?:exceptional|UNKNOWN)\n){1801}")
LONG_CERT = re.compile(rb"flowlabel-cert [12] ipv4 2\n(?:[^\n]+\n){4000,}")

TITLE = "sip|dip|sport|dport|proto|flags|packets|bytes|stime|etime"
TCP_ROW = "10.0.0.1|8.8.8.8|0|0|6|0|3|180|0|0"
BACK_ROW = "8.8.8.8|10.0.0.1|0|0|6|0|2|100|0|0"
UDP_ROW = "9.0.0.1|8.8.8.8|0|0|17|0|1|100|0|0"
HEADER_ROW = f"{TITLE};"
ONE_ROW = f"{TITLE};{TCP_ROW};"
COLUMNS = ("     sip|    dip|sport|dport|proto|flags|packets|bytes|stime|etime;"
           "10.0.0.1|8.8.8.8|    0|    0|    6|    0|      3|  180|    0|    0;")
BY_LABEL = "src-label|records|packets|bytes;B|2|6|360;"
BY_LABEL_COLUMNS = "src-label|records|packets|bytes;        B|      2|      6|  360;"
COUNTS = ("messages 2;templates 1;options-templates 0;withdrawals 0;data-sets 1;skipped-sets 1;"
          "records 1;options-records 0;rows 1;")
BIFLOW_COUNTS = ("messages 1;templates 1;options-templates 0;withdrawals 0;data-sets 1;skipped-sets 0;"
                 "records 1;options-records 0;rows {};")

CHECK = "check --pmap map.txt --list list.txt --cert cert.txt"

# Any text of clap.
CLAPS = re.compile(rb"(?s).+\n")


def replaced(text, *pairs):
    """Returns the text with the first occurrence of a part replaced by another, for each pair."""
    for old, new in pairs:
        text = text.replace(old, new, 1)
    return text


def end_of(text):
    """Returns the status and the text of a line that prints this text, or finds this fault in a certificate."""
    return (0, text) if text.endswith(";") else (1, f"flowlabel: cert.txt: {text}")


# A map text or a list text, the line that reads it, and its first fault.
TEXT_FAULTS = (
    ("10.0.0.0/33 A;", "label --pmap map.txt 10.1.1.1", "M3 BadLength at 1"),
    ("10.0.0/8 A;", "label --pmap map.txt 10.1.1.1", "M2 BadAddress at 1"),
    ("10.0.0.0/8;", "label --pmap map.txt 10.1.1.1", "M6 MissingLabel at 1"),
    ("colour x;", "label --pmap map.txt 10.1.1.1", "M1 BadStatement at 1"),
    ("10.0.0.0/8 A;;colour x;10.0.0/8 A;", "label --pmap map.txt 10.1.1.1", "M1 BadStatement at 3"),
    ("10.0.0.1 10.0.0.2;", "label --pmap map.txt 10.1.1.1", "M6 MissingLabel at 1"),
    ("10.0.0.1 10.0.0.2;", "shrink --pmap map.txt", "M6 MissingLabel at 1"),
    ("10.0.0.9 10.0.0.2 x;", "label --pmap map.txt 10.1.1.1", "M4 LowAboveHigh at 1"),
    ("10.0.0.9 10.0.0.2 x;", "cat --pmap map.txt", "M4 LowAboveHigh at 1"),
    ("mode ipv4;2001:db8::/32 x;", "label --pmap map.txt 10.1.1.1", "M5 WrongVersion at 2"),
    ("mode proto-port;", "label --pmap map.txt 10.1.1.1", "M9 BadMode at 1"),
    ("mode proto-port;", "shrink --pmap map.txt", "M9 BadMode at 1"),
    (f"{NUMBERED}label 5 blue;", "cat --pmap map.txt", "M8 LabelConflict at 4"),
    ("10.0.0.0/8 A;default x;", "label --list list.txt 10.1.1.1", "M13 NotAList at 2"),
    ("1.0.0.0/8 x;1.2.3.4/8 y;", "label --list list.txt 10.1.1.1", "M14 DuplicateBlock at 2"),
    (f"{NUMBERED}1.0.0.0/8 x;", "cat --list list.txt", "M14 DuplicateBlock at 4"),
    (f"{NUMBERED}default x;", "cat --list list.txt", "M13 NotAList at 4"),
)
# Maps, and addresses with their labels: the last statement decides, whether it is wider or narrower, and ranges may be
# no blocks.
LABELLED = (
    ("", "0.0.0.0 UNKNOWN 255.255.255.255 UNKNOWN"), ("mode ip;", "1.2.3.4 UNKNOWN"), ("mode ipv6", "::1 UNKNOWN"),
    ("10.0.0.0/8 A;10.0.0.0/7 B;", "11.255.255.255 B 12.0.0.0 UNKNOWN 9.255.255.255 UNKNOWN"),
    ("10.0.0.0/7 B;10.0.0.0/8 A;", "10.1.1.1 A 11.0.0.0 B 12.0.0.0 UNKNOWN"),
    ("0.0.0.1 0.0.0.6 A;", "0.0.0.0 UNKNOWN 0.0.0.1 A 0.0.0.2 A 0.0.0.5 A 0.0.0.6 A 0.0.0.7 UNKNOWN"),
    ("255.255.255.255 A;", "0.0.0.0 UNKNOWN 255.255.255.254 UNKNOWN 255.255.255.255 A"),
    ("0.0.0.5 A;0.0.0.0 255.255.255.255 B;", "0.0.0.0 B 0.0.0.5 B 255.255.255.255 B"),
    (f"2001:db8::/32 A;ffff{7 * ':ffff'} B;",
     f"2001:db8{6 * ':ffff'} A ffff{6 * ':ffff'}:fffe UNKNOWN ffff{7 * ':ffff'} B"),
    # Any byte above 127 is unchanged.
    ("default \udcff;", "1.2.3.4 \udcff"),
)
# A File, and its first fault. Each is a fault of `rows` and of `info`.
FILE_FAULTS = (
    # One byte less than a message with one record, and one byte less than its header.
    (ONE_FLOW[:-2], "F4 TruncatedMessage at 0"),
    ("000a0041 60000000 00000000 000000", "F1 TruncatedHeader at 0"),
    (replaced(ONE_FLOW, ("000a", "0009")), "F2 BadVersion at 0"),
    (replaced(ONE_FLOW, ("0041", "000f")), "F3 BadMessageLength at 0"),
    (BAD_TEMPLATE, "F6 BadTemplate X2 at 20"),
    # The length of the long form, too, may extend beyond the end of the set.
    (LONG_VALUE, "F7 BadRecord at 40"),
    (replaced(LONG_VALUE, ("0541", "ff41")), "F7 BadRecord at 40"),
    # A set that is shorter than its header, and bytes after the last set.
    (f"000a0014 {HEADER} 01000003", "F5 BadSetLength at 16"),
    (f"000a0013 {HEADER} 010000", "F5 BadSetLength at 16"),
    (f"000a0014 {HEADER} 01000005", "F5 BadSetLength at 16"),
    (f"000a001a {HEADER} 0002000a 01000001 0008", "F6 BadTemplate X1 at 20"),
    (f"000a001a {HEADER} 0003000a 01000001 0000", "F6 BadTemplate X3 at 20"),
    # All options templates withdrawn in a set of templates.
    (f"000a0018 {HEADER} 00020008 00030000", "F6 BadTemplate X2 at 20"),
    # Faults of a second message.
    (f"000a0010 {HEADER} 00090010 {HEADER}", "F2 BadVersion at 16"),
    (f"000a0010 {HEADER} 000a", "F1 TruncatedHeader at 16"),
)
# A certificate, and its compact form or its first fault, for `recert`.
COMPACTED = (
    ("flowlabel-cert 1 ipv4 1;UNKNOWN;l 0;", LEAF_COMPACT),
    (LEAF_COMPACT, LEAF_COMPACT),
    (HALVES_CERT, HALVES_COMPACT),
    (HALVES_COMPACT, HALVES_COMPACT),
    (LAST_CERT, LAST_COMPACT),
    (LAST_COMPACT, LAST_COMPACT),
    (SPAN_COMPACT, SPAN_COMPACT),
    # The claims of a chain's nodes below its top are gone, so this one is accepted although the other one wasn't.
    ("flowlabel-cert 1 ipv4 1;A;n 0 0;l 0;n 0;l 0;l 0;", "flowlabel-cert 2 ipv4 1;A;c 0 11 0 0;l 0;"),
    # The leaf of the upper half is beside the chain if that of the lower half has another label ..
    ("flowlabel-cert 1 ipv6 2;A;B;n 1 0 1;l 0;n 1 0 1;l 1;l 0;", "flowlabel-cert 2 ipv6 2;A;B;c 1 10 0 0 1;l 1;"),
    # .. and a chain ends if neither half is a leaf with its label. The next chain begins there.
    ("flowlabel-cert 1 ipv4 3;A;B;C;n 2 0;l 0;n 2 0;n 2 1;n 1 1;l 2;l 1;l 1;l 0;",
     "flowlabel-cert 2 ipv4 3;A;B;C;c 2 10 0 0;c 2 00 1 1;l 2;"),
    # A spine of one bit is unchanged, and so are both halves of a node without leaves.
    ("flowlabel-cert 1 ipv4 3;A;B;C;n 3 0;n 2 0 1;l 0;n 1 1 2;l 1;l 2;n 0 0;l 0;l 0;",
     "flowlabel-cert 2 ipv4 3;A;B;C;n 3 0;n 2 0 1;l 0;n 1 1 2;l 1;l 2;n 0 0;l 0;l 0;"),
    # A certificate of format 2 is unchanged, also with a chain of one bit and with a spine outside a chain.
    ("flowlabel-cert 2 ipv4 2;A;B;c 1 1 0 0 1;n 0 1;l 1;n 0 1;l 1;l 1;",
     "flowlabel-cert 2 ipv4 2;A;B;c 1 1 0 0 1;n 0 1;l 1;n 0 1;l 1;l 1;"),
    (SHORT_CHAINS, SHORT_CHAINS),
    # Spines in both halves of a node that has no leaf.
    ("flowlabel-cert 1 ipv4 2;A;B;n 2 0;n 1 0;l 0;n 1 0 1;l 0;l 1;n 1 0;n 1 0 1;l 1;l 0;l 0;",
     "flowlabel-cert 2 ipv4 2;A;B;n 2 0;c 1 11 0 0;l 1;c 1 00 0 0;l 1;"),
    ("", "C1 BadHeader at 1"),
    ("flowlabel-cert 3 ipv4 0;", "C1 BadHeader at 1"),
    ("flowlabel-cert 02 ipv4 0;", "C1 BadHeader at 1"),
    ("flowlabel-cert 2 ipv4 0;", "C5 NodesMissing at 2"),
    # A chain in format 1; too few words, no bits and invalid digits; and invalid costs, side labels and sets.
    ("flowlabel-cert 1 ipv4 1;A;c 0 1 0 0;l 0;", "C3 BadNode at 3"),
    *((f"flowlabel-cert 2 ipv4 1;A;{node};l 0;", "C3 BadNode at 3") for node in (
        "c 0 1", "c 0  0 0", "c 0 012 0 0", "c 4294967296 1 0 0", "c 0 1 1 0", "c 0 1 0 ")),
    ("flowlabel-cert 2 ipv4 2;A;B;c 0 1 0 1 0;l 0;", "C3 BadNode at 4"),
    ("flowlabel-cert 2 ipv4 1;A;c 0 1 0 0;l 0 ", "C3 BadNode at 4"),
    ("flowlabel-cert 2 ipv4 2;A;A;l 0;", "C2 BadLabelTable at 3"),
    (f"flowlabel-cert 2 ipv4 1;A;n 0 0;c 0 {33 * '1'} 0 0;", "C3 BadNode at 4"),
    (f"flowlabel-cert 2 ipv4 1;A;n 0 0;c 0 {32 * '1'} 0 0;", "C4 TooDeep at 4"),
    (f"flowlabel-cert 2 ipv4 1;A;c 0 {31 * '1'} 0;n 0;n 0;", "C4 TooDeep at 5"),
    (f"flowlabel-cert 2 ipv4 1;A;c 0 {32 * '1'} 0 0;n 0;", "C4 TooDeep at 4"),
    (f"flowlabel-cert 2 ipv4 1;A;c 0 {31 * '1'} 0 0;c 0 11 0;", "C4 TooDeep at 4"),
    (f"flowlabel-cert 2 ipv4 1;A;c 0 {31 * '1'} 0 0;c 0 1 0;", "C5 NodesMissing at 5"),
    ("flowlabel-cert 2 ipv4 1;A;c 0 0 0;", "C5 NodesMissing at 4"),
    ("flowlabel-cert 2 ipv4 1;A;c 0 0 0;l 0;l 0;", "C6 NodesLeft at 5"),
)
# A map, a list and a certificate, and the text that `check` prints or the first fault of the certificate.
CHECKED = (
    (HALVES, HALVES, HALVES_CERT, "minimal 2;"),
    # A label that no node needs may be in the table and in a set.
    (QUARTERS, QUARTERS_LIST,
     replaced(QUARTERS_CERT, ("ipv4 4", "ipv4 5"), ("UNKNOWN;", "UNKNOWN;Z;"), ("n 2 0", "n 2 0 4")), "minimal 3;"),
    (QUARTERS, QUARTERS_LIST, replaced(QUARTERS_CERT, ("n 2 0", "n 3 0")), "K5 CostTooHigh at 1"),
    (QUARTERS, QUARTERS_LIST, replaced(QUARTERS_CERT, ("n 1 0 1", "n 1 1")), "K4 SetTooSmall at 2"),
    (QUARTERS, QUARTERS_LIST, replaced(QUARTERS_CERT, ("l 0", "l 1")), "K2 LeafNotUniform at 3"),
    (QUARTERS, replaced(QUARTERS_LIST, ("64", "0.0.0.0/3 A;64")), QUARTERS_CERT, "K3 ListDiffers at 3"),
    (QUARTERS, QUARTERS_LIST, replaced(QUARTERS_CERT, ("n 2 0", "n 1 0")), "K6 BoundNotMet at 0"),
    (HALVES, "0.0.0.0/2 A;64.0.0.0/2 A;128.0.0.0/2 B;192.0.0.0/2 B;", HALVES_CERT, "K3 ListDiffers at 2"),
    (HALVES, "0.0.0.0/0 A;0.0.0.0/1 A;128.0.0.0/1 B;", HALVES_CERT, "K6 BoundNotMet at 0"),
    (HALVES, "mode ipv6;::/0 A;", HALVES_CERT, "K1 VersionDiffers at 0"),
    (HALVES, HALVES, "", "C1 BadHeader at 1"),
    (HALVES, HALVES, replaced(HALVES_CERT, ("B;", "A;")), "C2 BadLabelTable at 3"),
    (HALVES, HALVES, replaced(HALVES_CERT, ("l 1;", "l 3;")), "C3 BadNode at 7"),
    (HALVES, HALVES, f"flowlabel-cert 1 ipv4 1;A;{33 * 'n 0;'}", "C4 TooDeep at 35"),
    (HALVES, HALVES, f"flowlabel-cert 1 ipv6 1;A;{129 * 'n 0;'}", "C4 TooDeep at 131"),
    (HALVES, HALVES, replaced(HALVES_CERT, ("l 1;", "")), "C5 NodesMissing at 7"),
    (HALVES, HALVES, f"{HALVES_CERT}l 0;", "C6 NodesLeft at 8"),
    # Certificates with chains.
    (LAST, LAST_LIST, LAST_COMPACT, "minimal 2;"),
    (LAST, LAST_ENTRIES, LAST_COMPACT, "minimal 2;"),
    (SPAN, SPAN_LIST, SPAN_COMPACT, "minimal 4;"),
    # A chain of one bit, whose set also has the end's label, and a chain cut in two.
    (HALVES, HALVES, "flowlabel-cert 2 ipv4 2;A;B;c 1 1 0 0 1;l 1;", "minimal 2;"),
    (LAST, LAST_ENTRIES, f"flowlabel-cert 2 ipv4 2;D;X;{2 * CHAIN}l 1;", "minimal 2;"),
    (HALVES, HALVES, LAST_COMPACT, "K2 LeafNotUniform at 2"),
    (LAST, LAST_ENTRIES, replaced(LAST_COMPACT, ("c 1", "c 2")), "K5 CostTooHigh at 1"),
    (LAST, LAST_ENTRIES, replaced(LAST_COMPACT, (" 0 0;", " 0;")), "K4 SetTooSmall at 1"),
    # The set of a chain of one bit has both labels.
    (HALVES, HALVES, "flowlabel-cert 2 ipv4 2;A;B;c 1 1 0 0;l 1;", "K4 SetTooSmall at 1"),
    # The end is checked first, and then the side blocks from the deepest up.
    (LAST, LAST_ENTRIES, replaced(LAST_COMPACT, (" 0 0;l 1", " 1 0;l 0")), "K2 LeafNotUniform at 2"),
    (LAST, LAST_ENTRIES, replaced(LAST_COMPACT, ("c 1", "c 0"), (" 0 0;", " 1 1;")), "K2 LeafNotUniform at 1"),
    (HALF_LAST, "0.0.0.0/0 D;128.0.0.0/3 D;255.255.255.255/32 X;", LAST_COMPACT, "K3 ListDiffers at 1"),
    (HALF_LAST, LAST_ENTRIES, LAST_COMPACT, "K2 LeafNotUniform at 1"),
    # A chain counts as one node line.
    (SPAN, SPAN_LIST, replaced(SPAN_COMPACT, ("c 1 11", "c 2 11")), "K5 CostTooHigh at 5"),
    (LAST, replaced(LAST_ENTRIES, (" D;", " D;0.0.0.0/1 D;")), LAST_COMPACT, "K6 BoundNotMet at 0"),
    # Texts that are not certificates.
    (LAST, LAST_ENTRIES, f"flowlabel-cert 2 ipv4 1;A;n 0 0;c 0 {32 * '1'} 0 0;", "C4 TooDeep at 4"),
    (LAST, LAST_ENTRIES, f"flowlabel-cert 2 ipv4 1;A;n 0 0;c 0 {33 * '1'} 0 0;", "C3 BadNode at 4"),
    (LAST, LAST_ENTRIES, "flowlabel-cert 3 ipv4 0;", "C1 BadHeader at 1"),
    (LAST, LAST_ENTRIES, replaced(LAST_COMPACT, ("cert 2", "cert 1")), "C3 BadNode at 4"),
    (LAST, LAST_ENTRIES, replaced(LAST_COMPACT, (" 0 0;", " 2 0;")), "C3 BadNode at 4"),
    (LAST, LAST_ENTRIES, replaced(LAST_COMPACT, ("l 1;", "")), "C5 NodesMissing at 5"),
)

# Files, and the command lines that name them, each with the status and the text that it prints: on standard output if
# the status is 0, otherwise on standard error.
LINES = (
    ({"map.txt": ""}, (
        ("shrink --pmap map.txt", 0, "mode ipv4;0.0.0.0/0 UNKNOWN;"),
        ("shrink --pmap map.txt --certificate", 0, "flowlabel-cert 1 ipv4 1;UNKNOWN;l 0;"),
        ("cat --pmap map.txt", 0, "low|high|label;0.0.0.0|255.255.255.255|UNKNOWN;"),
        ("shrink --pmap map.txt --certificate --compact", 0, LEAF_COMPACT),
        ("label --pmap map.txt 1.2.3.4", 0, "UNKNOWN;"),
    )),
    ({"map.txt": HALVES}, (
        ("shrink --pmap map.txt", 0, "mode ipv4;0.0.0.0/0 A;128.0.0.0/1 B;"),
        ("shrink --pmap map.txt --certificate", 0, HALVES_CERT),
        ("shrink --pmap map.txt --certificate --compact", 0, HALVES_COMPACT),
    )),
    ({"map.txt": LAST}, (
        ("shrink --pmap map.txt --certificate", 0, LAST_CERT),
        ("shrink --pmap map.txt --certificate --compact", 0, LAST_COMPACT),
    )),
    ({"map.txt": QUARTERS}, (
        ("shrink --pmap map.txt", 0, QUARTERS_LIST),
        ("shrink --pmap map.txt --certificate", 0, QUARTERS_CERT),
    )),
    ({"map.txt": SPAN}, (
        ("shrink --pmap map.txt", 0, SPAN_LIST),
        ("shrink --pmap map.txt --certificate", 0, SPAN_CERT),
        ("shrink --pmap map.txt --certificate --compact", 0, SPAN_COMPACT),
    )),
    ({"map.txt": NESTED, "list.txt": NESTED_LIST, "flows": ONE_FLOW}, (
        ("label --pmap map.txt 10.1.1.1", 0, "B;"),
        ("label --pmap map.txt 12.0.0.0", 0, "UNKNOWN;"),
        ("label --pmap map.txt 2001:db8::1", 0, ";"),
        ("label --pmap map.txt ::ffff:a01:101", 0, "B;"),
        ("shrink --pmap map.txt", 0, NESTED_LIST),
        ("rows flows", 0, f"{TITLE};{TCP_ROW};"),
        ("rows --columns flows", 0, COLUMNS),
        ("rows --pmap map.txt flows", 0, f"{TITLE}|src-label|dst-label;{TCP_ROW}|B|UNKNOWN;"),
        ("rows --list list.txt flows", 0, f"{TITLE}|src-label|dst-label;{TCP_ROW}|B|UNKNOWN;"),
    )),
    ({"list.txt": "0.0.0.0/0 UNKNOWN;10.0.0.0/7 B;"}, (("label --list list.txt 10.1.1.1", 0, "B;"),)),
    ({"map.txt": "255.255.255.255 X;"}, (
        ("shrink --pmap map.txt", 0, "mode ipv4;0.0.0.0/0 UNKNOWN;255.255.255.255/32 X;"),
        ("label --pmap map.txt 255.255.255.254", 0, "UNKNOWN;"),
    )),
    ({"map.txt": "mode ipv6;::/0 X;"}, (("shrink --pmap map.txt", 0, "mode ipv6;::/0 X;"),)),
    ({"map.txt": "map-name m;"}, (("shrink --pmap map.txt", 0, "map-name m;mode ipv4;0.0.0.0/0 UNKNOWN;"),)),
    # Single addresses are exceptional: in both halves, in one, and among lines of one label or of two.
    ({"map.txt": "default D;10.0.0.1 X;200.0.0.2 Y;"}, (
        ("shrink --pmap map.txt", 0, "mode ipv4;0.0.0.0/0 D;10.0.0.1/32 X;200.0.0.2/32 Y;"),
        ("shrink --pmap map.txt --certificate --compact", 0,
         "flowlabel-cert 2 ipv4 3;D;X;Y;n 2 0;c 1 0001010000000000000000000000001 0 0;l 1;"
         "c 1 1001000000000000000000000000010 0 0;l 2;"),
    )),
    ({"map.txt": "default D;10.0.0.1 X;10.0.0.2 Y;"}, (
        ("shrink --pmap map.txt", 0, "mode ipv4;0.0.0.0/0 D;10.0.0.1/32 X;10.0.0.2/32 Y;"),
        ("shrink --pmap map.txt --certificate --compact", 0,
         "flowlabel-cert 2 ipv4 3;D;X;Y;c 2 000010100000000000000000000000 0 0;n 2 0;n 1 0 1;l 0;l 1;n 1 0 2;l 2;l 0;"),
    )),
    ({"map.txt": "default D;128.0.0.0/1 D;10.0.0.1 X;"}, (
        ("shrink --pmap map.txt", 0, "mode ipv4;0.0.0.0/0 D;10.0.0.1/32 X;"),
        ("shrink --pmap map.txt --certificate --compact", 0, LONE_COMPACT),
    )),
    ({"map.txt": "default E;0.0.0.0/1 D;10.0.0.1 X;"}, (
        ("shrink --pmap map.txt", 0, "mode ipv4;0.0.0.0/0 E;0.0.0.0/1 D;10.0.0.1/32 X;"),
        ("shrink --pmap map.txt --certificate --compact", 0,
         "flowlabel-cert 2 ipv4 3;E;D;X;n 2 0 1;c 1 0001010000000000000000000000001 1 1;l 2;l 0;"),
    )),
    # Nothing is written before the last allocation, also if the output is written in pieces.
    ({"map.txt": STRIPES, "flows": MANY_FLOWS}, (
        ("cat --pmap map.txt", 0,
         f"low|high|label;0.0.0.0|9.255.255.255|UNKNOWN;{STRIPES_SHOWN}{PLACES[-1]}|255.255.255.255|UNKNOWN;"),
        ("shrink --pmap map.txt", 0, LONG_LIST),
        ("shrink --pmap map.txt --certificate", 0, LONG_CERT),
        ("shrink --pmap map.txt --certificate --compact", 0, LONG_CERT),
        ("uniq --fields sip flows", 0, f"sip|records|packets|bytes;{MANY_GROUPS}"),
        ("uniq --fields sip --sort-output flows", 0, f"sip|records|packets|bytes;{MANY_GROUPS}"),
        ("rows --columns flows", 0, re.compile(rb"(?:[^\n]{69}\n){3601}")),
    )),
    ({"map.txt": "mode ipv6;10.0.0.0/8 In;"}, (
        ("cat --pmap map.txt", 0,
         "low|high|label;::|::ffff:9ff:ffff|UNKNOWN;::ffff:a00:0|::ffff:aff:ffff|In;"
         "::ffff:b00:0|ffff:ffff:ffff:ffff:ffff:ffff:ffff:ffff|UNKNOWN;"),
        ("shrink --pmap map.txt", 0, "mode ipv6;::/0 UNKNOWN;::ffff:a00:0/104 In;"),
        ("label --pmap map.txt 10.1.2.3", 0, "In;"),
    )),
    ({"flows": ""}, (
        ("rows flows", 0, f"{TITLE};"),
        ("info flows", 0, "messages 0;templates 0;options-templates 0;withdrawals 0;data-sets 0;skipped-sets 0;"
                          "records 0;options-records 0;rows 0;"),
    )),
    ({"flows": TWO_DOMAINS}, (("info flows", 0, COUNTS), ("rows flows", 0, ONE_ROW))),
    *(({"flows": flows}, (("rows flows", 0, HEADER_ROW),)) for flows in (WITHDRAWN, OPTIONS, REVERSE_ALONE)),
    *(({"flows": flows}, (("rows flows", 0, f"{TITLE};10.0.0.1|8.8.8.8|0|0|0|0|0|0|0|0;"),))
      for flows in (LONG_FORM, REVERSE_NONE, REVERSE_VARIABLE)),
    ({"flows": TOTALS}, (
        ("rows flows", 0, f"{TITLE};10.0.0.1|8.8.8.8|80|443|0|27|258|66051|1700000000000|1700000001000;"),
    )),
    ({"flows": REVERSE_TOTALS}, (
        ("rows flows", 0, f"{TITLE};10.0.0.1|8.8.8.8|80|443|6|0|0|0|1700000000000|1700000001000;"
                          "8.8.8.8|10.0.0.1|443|80|6|27|66051|258|1700000000500|1700000001000;"),
        ("info flows", 0, BIFLOW_COUNTS.format(2)),
    )),
    ({"flows": REVERSE_ALONE}, (("info flows", 0, BIFLOW_COUNTS.format(0)),)),
    ({"map.txt": NESTED, "list.txt": NESTED_LIST, "flows": TWO_MESSAGES}, (
        ("uniq --fields src-label --pmap map.txt flows", 0, BY_LABEL),
        ("uniq --fields src-label --list list.txt flows", 0, BY_LABEL),
        ("uniq --fields src-label --columns --pmap map.txt flows", 0, BY_LABEL_COLUMNS),
    )),
    ({"map.txt": NESTED, "flows": SIXES}, (
        ("rows --pmap map.txt flows", 0,
         f"{TITLE}|src-label|dst-label;2001:db8::1|2001:db8::2|0|0|0|0|0|0|0|0||;"),
    )),
    ({"flows": WITHDRAWN}, (
        ("info flows", 0, "messages 1;templates 1;options-templates 0;withdrawals 1;data-sets 0;skipped-sets 1;"
                          "records 0;options-records 0;rows 0;"),
    )),
    ({"flows": OPTIONS_WITHDRAWN}, (
        ("info flows", 0, "messages 1;templates 1;options-templates 0;withdrawals 1;data-sets 1;skipped-sets 0;"
                          "records 1;options-records 0;rows 1;"),
    )),
    ({"flows": OPTIONS}, (
        ("info flows", 0, "messages 1;templates 0;options-templates 1;withdrawals 0;data-sets 1;skipped-sets 0;"
                          "records 0;options-records 1;rows 0;"),
    )),
    ({"flows": TWO_FLOWS, "map.txt": NESTED}, (
        ("rows flows", 0, f"{TITLE};{TCP_ROW};{UDP_ROW};"),
        ("uniq --fields sip flows", 0, "sip|records|packets|bytes;10.0.0.1|1|3|180;9.0.0.1|1|1|100;"),
        ("uniq --fields sip --sort-output flows", 0, "sip|records|packets|bytes;9.0.0.1|1|1|100;10.0.0.1|1|3|180;"),
        ("uniq --fields dip --columns flows", 0, "    dip|records|packets|bytes;8.8.8.8|      2|      4|  280;"),
        ("uniq --fields sport,dport,proto,flags --sort-output flows", 0,
         "sport|dport|proto|flags|records|packets|bytes;0|0|6|0|1|3|180;0|0|17|0|1|1|100;"),
        *((f"rows {words} flows", 0, f"{TITLE};{TCP_ROW};{UDP_ROW};")
          for words in ("--protocol 5-7,0,16-255", "--sport 00,9", "--daddress 2001:db8::1,8.8.8.8")),
        ("rows --dport 1-65535 flows", 0, f"{TITLE};"),
        ("rows --saddress 10.0.0.2,9.0.0.0/8 flows", 0, f"{TITLE};{UDP_ROW};"),
        ("rows --protocol 17 flows", 0, f"{TITLE};{UDP_ROW};"),
        ("rows --protocol 10-16 flows", 0, f"{TITLE};"),
        ("rows --packets 2- flows", 0, f"{TITLE};{TCP_ROW};"),
        ("rows --saddress ::ffff:a00:0/104 flows", 0, f"{TITLE};{TCP_ROW};"),
        ("rows --bytes 100 --daddress 8.8.8.8 flows", 0, f"{TITLE};{UDP_ROW};"),
        ("rows --dport 80 flows", 0, f"{TITLE};"),
        ("rows --saddress 9.0.0.0/8,10.0.0.1 --packets 1 flows", 0, f"{TITLE};{UDP_ROW};"),
        ("uniq --fields proto --packets 2- flows", 0, "proto|records|packets|bytes;6|1|3|180;"),
        ("rows --pmap map.txt --any-label B flows", 0, f"{TITLE}|src-label|dst-label;{TCP_ROW}|B|UNKNOWN;"),
        ("rows --pmap map.txt --dst-label B flows", 0, f"{TITLE}|src-label|dst-label;"),
        ("rows --src-label UNKNOWN --pmap map.txt flows", 0,
         f"{TITLE}|src-label|dst-label;{UDP_ROW}|UNKNOWN|UNKNOWN;"),
        ("rows --any-label UNKNOWN --pmap map.txt flows", 0,
         f"{TITLE}|src-label|dst-label;{TCP_ROW}|B|UNKNOWN;{UDP_ROW}|UNKNOWN|UNKNOWN;"),
    )),
    ({"flows": TWO_FLOWS, "map.txt": "9.0.0.0/8 B;10.0.0.0/8 A;", "list.txt": "10.0.0.0/8 A;"}, (
        ("uniq --fields src-label --sort-output --pmap map.txt flows", 0,
         "src-label|records|packets|bytes;A|1|3|180;B|1|1|100;"),
        ("uniq --fields src-label --list list.txt flows", 0, "src-label|records|packets|bytes;A|1|3|180;|1|1|100;"),
        ("uniq --fields src-label --sort-output --list list.txt flows", 0,
         "src-label|records|packets|bytes;|1|1|100;A|1|3|180;"),
    )),
    # A label that is wider than one piece of filling, and none.
    ({"flows": TWO_FLOWS, "list.txt": f"10.0.0.0/8 B;8.0.0.0/8 {LONG_LABEL};"}, (
        ("rows --columns --list list.txt flows", 0,
         f"     sip|    dip|sport|dport|proto|flags|packets|bytes|stime|etime|src-label|{'dst-label':>{len(LONG_LABEL)}};"
         f"10.0.0.1|8.8.8.8|    0|    0|    6|    0|      3|  180|    0|    0|        B|{LONG_LABEL};"
         f" 9.0.0.1|8.8.8.8|    0|    0|   17|    0|      1|  100|    0|    0|         |{LONG_LABEL};"),
    )),
    ({"map.txt": NUMBERED}, (
        ("cat --pmap map.txt", 0,
         "low|high|label;0.0.0.0|0.255.255.255|UNKNOWN;1.0.0.0|1.255.255.255|red;2.0.0.0|2.255.255.255|6;"
         "3.0.0.0|255.255.255.255|UNKNOWN;"),
        ("label --pmap map.txt 1.2.3.4", 0, "red;"),
        ("label --pmap map.txt 2.0.0.1", 0, "6;"),
    )),
    # The list with the same labels.
    ({"list.txt": "2.0.0.0/8 6;0.0.0.0/0 UNKNOWN;1.0.0.0/8 red;"}, (
        ("cat --list list.txt", 0,
         "low|high|label;0.0.0.0|0.255.255.255|UNKNOWN;1.0.0.0|1.255.255.255|red;2.0.0.0|2.255.255.255|6;"
         "3.0.0.0|255.255.255.255|UNKNOWN;"),
    )),
    ({"map.txt": "0.0.0.0/1 A;128.0.0.0/2 A;192.0.0.0/2 B;"}, (
        ("cat --pmap map.txt", 0, "low|high|label;0.0.0.0|191.255.255.255|A;192.0.0.0|255.255.255.255|B;"),
    )),
    ({"list.txt": "map-name m;mode ipv6;::7/128 D;::/128 D;::/125 X;::/0 D;"}, (
        ("cat --list list.txt", 0, "low|high|label;::|::|D;::1|::6|X;::7|ffff:ffff:ffff:ffff:ffff:ffff:ffff:ffff|D;"),
    )),
    ({"list.txt": HALF}, (
        ("label --list list.txt 128.0.0.1", 0, ";"),
        ("cat --list list.txt", 0, "low|high|label;0.0.0.0|127.255.255.255|A;128.0.0.0|255.255.255.255|;"),
    )),
    ({"flows": BIFLOW}, (
        ("rows flows", 0, f"{TITLE};{TCP_ROW};{BACK_ROW};"),
        ("rows --saddress 8.8.8.8 flows", 0, f"{TITLE};{BACK_ROW};"),
        ("rows --packets 3- flows", 0, f"{TITLE};{TCP_ROW};"),
        ("uniq --fields sip flows", 0, "sip|records|packets|bytes;10.0.0.1|1|3|180;8.8.8.8|1|2|100;"),
        ("info flows", 0, BIFLOW_COUNTS.format(2)),
    )),
    ({"flows": NO_ANSWER}, (
        ("rows flows", 0, f"{TITLE};{TCP_ROW};"),
        ("info flows", 0, BIFLOW_COUNTS.format(1)),
    )),
    ({}, (
        ("cat", 2, "flowlabel: usage: P2 MapMissing"),
        ("label 10.1.1.1", 2, "flowlabel: usage: P2 MapMissing"),
        ("label --pmap map.txt 1.2.3", 2, "flowlabel: usage: P4 BadAddress"),
        ("rows --sport 70000 flows", 2, "flowlabel: usage: --sport L1 BadNumberList"),
        ("rows --protocol 6,256 flows", 2, "flowlabel: usage: --protocol L1 BadNumberList"),
        ("rows --packets 5-4 flows", 2, "flowlabel: usage: --packets L2 BadRange"),
        ("rows --saddress 10.0.0 flows", 2, "flowlabel: usage: --saddress L3 BadBlock"),
        ("rows --protocol 000000000000000000006 flows", 2, "flowlabel: usage: --protocol L1 BadNumberList"),
        ("rows --dport 80, flows", 2, "flowlabel: usage: --dport L1 BadNumberList"),
        ("rows --daddress 10.0.0.0/33 flows", 2, "flowlabel: usage: --daddress L3 BadBlock"),
        ("rows --bytes 18446744073709551616 flows", 2, "flowlabel: usage: --bytes L2 BadRange"),
        ("uniq --fields '' flows", 2, "flowlabel: usage: --fields U1 BadField"),
        ("uniq --fields colour flows", 2, "flowlabel: usage: --fields U1 BadField"),
        ("uniq --fields sip,sip flows", 2, "flowlabel: usage: --fields U2 FieldRepeated"),
        ("rows --src-label B flows", 2, "flowlabel: usage: P5 LabelNeedsMap"),
        ("rows --src-label B --bytes 5-4 flows", 2, "flowlabel: usage: --bytes L2 BadRange"),
        ("rows --pmap map.txt --list list.txt flows", 2, "flowlabel: usage: P3 MapTwice"),
        ("shrink --pmap map.txt --compact", 2, "flowlabel: usage: P6 CompactAlone"),
        ("info missing", 4, "flowlabel: missing: cannot open"),
        ("info --colour flows", 2, CLAPS),
        ("--help", 0, CLAPS),
        ("rows --help", 0, CLAPS),
    )),
    *(({"map.txt": text}, tuple((f"label --pmap map.txt {address}", 0, f"{label};")
                                for address, label in zip(said.split()[::2], said.split()[1::2])))
      for text, said in LABELLED),
    # The map is read first, and then the list.
    ({"map.txt": "x", "list.txt": "default x;", "cert.txt": "x"}, (
        (CHECK, 1, "flowlabel: map.txt: M1 BadStatement at 1"),
    )),
    ({"map.txt": HALVES, "list.txt": "default x;", "cert.txt": "x"}, (
        (CHECK, 1, "flowlabel: list.txt: M13 NotAList at 1"),
    )),
    *(({name: text}, ((line, 1, f"flowlabel: {name}: {fault}"),))
      for text, line, fault in TEXT_FAULTS for name in line.split() if name.endswith(".txt")),
    *(({"flows": flows}, tuple((line, 1, f"flowlabel: flows: {fault}") for line in ("rows flows", "info flows")))
      for flows, fault in FILE_FAULTS),
    *(({"cert.txt": text}, (("recert --cert cert.txt", *end_of(found)),)) for text, found in COMPACTED),
    *(({"map.txt": prefixes, "list.txt": entries, "cert.txt": text}, ((CHECK, *end_of(found)),))
      for prefixes, entries, text, found in CHECKED),
)

# A file, and a command line under it that makes an allocation for each of its labels and more.
LARGE = (({"map.txt": LABELS}, (("label --pmap map.txt 1.2.3.4", 0, "UNKNOWN;"),)),)


class Line(typing.NamedTuple):
    """A command line, its files, and how it ends."""
    words: str
    files: dict
    status: int
    out: object
    err: object

    @property
    def program(self):
        """The name of the program, which lines of flowlabel don't have."""
        return program_of(self.words.split())[0]

    @property
    def call(self):
        """The program's file and its words. A word with a blank is quoted."""
        program, words = program_of(shlex.split(self.words))
        return [BY_NAME[program], *words]


def text_of(text):
    """Returns the bytes of a text of the tables. A surrogate represents a byte that is no text."""
    return text.replace(";", "\n").encode("utf-8", "surrogateescape")


def lines_of(table):
    """Returns the lines of a table."""
    return [line_of(files, *entry) for files, entries in table for entry in entries]


def line_of(files, words, status, text):
    """Returns a line, with its files as bytes. A map, a list or a certificate is a text, and its name says so."""
    files = {name: text_of(content) if name.endswith(".txt") else bytes.fromhex(content)
             for name, content in files.items()}
    said = text if isinstance(text, re.Pattern) else text_of(text if status == 0 else f"{text};")
    return Line(words, files, status, *((said, b"") if status == 0 else (b"", said)))


def make(line):
    """Writes the files of a line to a new folder below the working folder, and returns its path."""
    folder = tempfile.mkdtemp(dir=os.getcwd())
    for name, content in line.files.items():
        with open(os.path.join(folder, name), "wb") as file:
            file.write(content)
    return folder
