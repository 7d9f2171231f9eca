"""Calls of the crates with known results, which tests/program/test_memory.py makes by the program in
tests/crates/memory, also with each of their allocations failing.

The values are those of docs/FORMATS.md, or of the source that is named, never what a call returned. What a command line
shows is in tests/program/worked.py. In the texts ';' represents a line feed.
"""

import typing

from program.worked import BIFLOW, BY_LABEL, BY_LABEL_COLUMNS, COLUMNS, COUNTS, HALF, HALVES, HALVES_CERT, \
    HALVES_COMPACT, LAST, LAST_CERT, LAST_COMPACT, LAST_LIST, LONE, LONE_COMPACT, LONG_FORM, LONG_VALUE, NESTED, \
    NUMBERED, ONE_FLOW, OPTIONS, QUARTERS, QUARTERS_CERT, QUARTERS_LIST, SHORT_CHAINS, SIXES, SPAN, SPAN_CERT, \
    SPAN_COMPACT, SPAN_LIST, TCP_ROW, TEMPLATE, TITLE, TWO_DOMAINS, TWO_FLOWS, WITHDRAWN, replaced


class Call(typing.NamedTuple):
    """A call of a crate: its name, its inputs, its output, and its output if an allocation failed.

    The output of a call that changes a value goes on with that value, and `before` is the value before the call.
    """
    name: str
    inputs: tuple
    answer: str
    failed: str = "AllocError;"
    before: typing.Optional[str] = None
    allocates: bool = True


LINE_FAILED, NODE_FAILED, MESSAGE_FAILED = "line 0: out of memory;", "node 0: out of memory;", "NoMemory at 0;"

# A map, and what it is read as: its name, its version, the number of its default label, the statements with the numbers
# of their labels, and its labels.
MAPS = (
    (NESTED, "ipv4;default 2;10.0.0.0 10.255.255.255 0;10.0.0.0 11.255.255.255 1;A;B;UNKNOWN;"),
    ("", "ipv4;default 0;UNKNOWN;"),
    ("; \t\r;# 10.0.0.0/8 A;", "ipv4;default 0;UNKNOWN;"),
    # Tabs, carriage returns, comments, blanks inside a label, and a last line without a line feed.
    ("\t10.1.2.3/8 \t Some  Net\t\r;11.0.0.0/8 B#C\r; 12.0.0.0/8\tD # E",
     "ipv4;default 3;10.0.0.0 10.255.255.255 0;11.0.0.0 11.255.255.255 1;12.0.0.0 12.255.255.255 2;"
     "Some  Net;B;D;UNKNOWN;"),
    # Leading zeros are decimal, and a label may have other letters.
    ("010.001.000.255/024 café;", "ipv4;default 1;10.1.0.0 10.1.0.255 0;café;UNKNOWN;"),
    # The last `default` decides, wherever it is, and the text of each is in the table.
    ("default A;0.0.0.0/0 B;default C D;", "ipv4;default 2;0.0.0.0 255.255.255.255 1;A;B;C D;"),
    ("0.0.0.0/1 A;default B;1.0.0.0/8 A", "ipv4;default 1;0.0.0.0 127.255.255.255 0;1.0.0.0 1.255.255.255 0;A;B;"),
    ("default UNKNOWN", "ipv4;default 0;UNKNOWN;"),
    # A stated `UNKNOWN` keeps its number.
    ("0.0.0.0/1 UNKNOWN;128.0.0.0/1 A;",
     "ipv4;default 0;0.0.0.0 127.255.255.255 0;128.0.0.0 255.255.255.255 1;UNKNOWN;A;"),
    # A repeated mapping is two mappings.
    ("1.0.0.0/8 A;1.0.0.0/8 A;", "ipv4;default 1;1.0.0.0 1.255.255.255 0;1.0.0.0 1.255.255.255 0;A;UNKNOWN;"),
    # The text after `default` or after a block is a label, whatever its form.
    ("default 1.0.0.0/8", "ipv4;default 0;1.0.0.0/8;"),
    ("1.0.0.0/8 default 5", "ipv4;default 1;1.0.0.0 1.255.255.255 0;default 5;UNKNOWN;"),
    ("mode ipv6;10.0.0.0/8 In;", "ipv6;default 1;::ffff:a00:0 ::ffff:aff:ffff 0;In;UNKNOWN;"),
    # Without a mode line the first address of the first mapping decides.
    ("::1 A\r;10.0.0.1\tB\r;::ffff:10.0.0.2 10.0.0.9 C\r;",
     "ipv6;default 3;::1 ::1 0;::ffff:a00:1 ::ffff:a00:1 1;::ffff:a00:2 ::ffff:a00:9 2;A;B;C;UNKNOWN;"),
    ("2001:DB8::/32 A", "ipv6;default 1;2001:db8:: 2001:db8:ffff:ffff:ffff:ffff:ffff:ffff 0;A;UNKNOWN;"),
    # An address with itself is a range, and a second word that is not an address begins the label.
    ("10.0.0.1 10.0.0.1 10.0.0.2;10.0.0.1 5;10.0.0.1 10.0.0.2/32;",
     "ipv4;default 3;10.0.0.1 10.0.0.1 0;10.0.0.1 10.0.0.1 1;10.0.0.1 10.0.0.1 2;10.0.0.2;5;10.0.0.2/32;UNKNOWN;"),
    ("mode ipv6;0.0.0.0/0 A;", "ipv6;default 1;::ffff:0:0 ::ffff:ffff:ffff 0;A;UNKNOWN;"),
    (NUMBERED, "ipv4;default 2;1.0.0.0 1.255.255.255 0;2.0.0.0 2.255.255.255 1;red;6;UNKNOWN;"),
    # A number is replaced by its text from the next line on.
    ("1.0.0.0/8 5;label 5 red;2.0.0.0/8 5;",
     "ipv4;default 2;1.0.0.0 1.255.255.255 0;2.0.0.0 2.255.255.255 1;5;red;UNKNOWN;"),
    # Numbers compare by value, a text of eleven digits stays as it is, and numbers are also replaced in `default`.
    ("label 5 red;label 05 red;1.0.0.0/8 0000000005;2.0.0.0/8 00000000005;default 05;",
     "ipv4;default 0;1.0.0.0 1.255.255.255 0;2.0.0.0 2.255.255.255 1;red;00000000005;"),
    ("label 2147483647 most;label 0 1st;default 2147483647;", "ipv4;default 0;most;1st;"),
    ("label 5 red blue # 7;default 4294967301;", "ipv4;default 1;red blue;4294967301;"),
    ("label 5 UNKNOWN;label 6 A;", "ipv4;default 0;UNKNOWN;A;"),
    # Names.
    ("map-name a b # c\r;", "a b;ipv4;default 0;UNKNOWN;"),
    ("map-name m;map-name n;", "n;ipv4;default 0;UNKNOWN;"),
    ("label 5 red;map-name 5;", "5;ipv4;default 1;red;UNKNOWN;"),
    # The longest label, and faults.
    (f"default {255 * 'x'}", f"ipv4;default 0;{255 * 'x'};"),
    ("label 5 red;label 5", "line 2: missing label;"),
    ("10.0.0.0/8 A;#;colour x;", "line 3: no statement begins with this word;"),
)
# A list, and what it is read as: its name, its version, the entries with the numbers of their labels, and its labels.
LISTS = (
    (HALF, "ipv4;0.0.0.0/1 0;A;"),
    # The longest block decides, in whatever order, and no `UNKNOWN` is added.
    (QUARTERS_LIST.removesuffix(";"), "ipv4;0.0.0.0/0 0;64.0.0.0/2 1;192.0.0.0/2 2;A;B;C;"),
    # A single address is a block of full length, and host bits are cleared.
    ("1.2.3.4 x;1.2.3.4/8 x;", "ipv4;1.2.3.4/32 0;1.0.0.0/8 0;x;"),
    ("mode ipv6\r;10.0.0.0/8 In\r;10.1.2.3 Host\r;::1\tHost\r;",
     "ipv6;::ffff:a00:0/104 0;::ffff:a01:203/128 1;::1/128 1;In;Host;"),
    ("::/0 A;0.0.0.0/0 B;", "ipv6;::/0 0;::ffff:0:0/96 1;A;B;"),
    (NUMBERED, "ipv4;1.0.0.0/8 0;2.0.0.0/8 1;red;6;"),
    # A block may have the start or the length of another.
    ("10.0.0.0/8 A;10.0.0.0/9 A;11.0.0.0/8 A # A;", "ipv4;10.0.0.0/8 0;10.0.0.0/9 0;11.0.0.0/8 0;A;"),
    ("# none;label 5 café", "ipv4;café;"),
    ("map-name m;map-name n;", "n;ipv4;"),
    (f"{NUMBERED}default x;", "line 4: not a statement of a list;"),
    ("2.0.0.0/8 A;1.0.0.0/8 B;2.1.2.3/8 C;1.0.0.0/8 D;", "line 3: a block that has a label already;"),
    ("1.0.0.0/8 x;1.0.0.0/8", "line 2: missing label;"),
)

# The IANA IPv4 Special-Purpose Address Registry (RFC 6890). A block precedes those inside it, so the text means the
# same as a map and as a list. After it addresses with the names that the registry gives them.
REGISTRY = (
    "mode ipv4;0.0.0.0/8 This network;0.0.0.0/32 This host on this network;10.0.0.0/8 Private-Use;"
    "100.64.0.0/10 Shared Address Space;127.0.0.0/8 Loopback;169.254.0.0/16 Link Local;172.16.0.0/12 Private-Use;"
    "192.0.0.0/24 IETF Protocol Assignments;192.0.0.0/29 IPv4 Service Continuity Prefix;"
    "192.0.0.8/32 IPv4 dummy address;192.0.0.9/32 Port Control Protocol Anycast;"
    "192.0.0.10/32 Traversal Using Relays around NAT Anycast;192.0.0.170/32 NAT64/DNS64 Discovery;"
    "192.0.0.171/32 NAT64/DNS64 Discovery;192.0.2.0/24 Documentation (TEST-NET-1);192.31.196.0/24 AS112-v4;"
    "192.52.193.0/24 AMT;192.88.99.0/24 Deprecated (6to4 Relay Anycast);192.168.0.0/16 Private-Use;"
    "192.175.48.0/24 Direct Delegation AS112 Service;198.18.0.0/15 Benchmarking;"
    "198.51.100.0/24 Documentation (TEST-NET-2);203.0.113.0/24 Documentation (TEST-NET-3);240.0.0.0/4 Reserved;"
    "255.255.255.255/32 Limited Broadcast;")
NAMED = {
    "0.0.0.0": "This host on this network", "0.0.0.1": "This network", "1.0.0.0": "{}", "10.255.255.255": "Private-Use",
    "100.63.255.255": "{}", "100.64.0.0": "Shared Address Space", "192.0.0.7": "IPv4 Service Continuity Prefix",
    "192.0.0.8": "IPv4 dummy address", "192.0.0.11": "IETF Protocol Assignments",
    "192.0.0.171": "NAT64/DNS64 Discovery", "192.0.1.0": "{}", "198.19.255.255": "Benchmarking",
    "255.255.255.254": "Reserved", "255.255.255.255": "Limited Broadcast"}
REGISTERED = (REGISTRY, ",".join(NAMED))
NAMES = "".join(f"{name};" for name in NAMED.values())
SIXES_MAP = f"2001:db8::/32 A;ffff{7 * ':ffff'} B;"
OF_SIXES = (SIXES_MAP, f"::,2001:db7{6 * ':ffff'},2001:db8::,2001:db8{6 * ':ffff'},ffff{7 * ':ffff'}")
SIXES_LABELS = "UNKNOWN;UNKNOWN;A;A;B;"


def hundreds(block, address, first=0):
    """Returns a line for a block, and one for each of 150 addresses in it, or for those from this one on."""
    return block + "".join(address.format(last) for last in range(first, 150))


HUNDREDS = hundreds("10.0.0.0/8 A;", "10.0.0.{}/32 B;")
OF_MAP, OF_LIST = (("10.0.0.0 10.255.255.255 0;", "10.0.0.{0} 10.0.0.{0} 1;"), ("10.0.0.0/8 0;", "10.0.0.{}/32 1;"))

# Templates: five fields, an options template of one scope field and one more, and a reverse element (RFC 5103) with one
# of variable length.
FIVE_FIELDS = "define flow 256 0 8:4 12:4 4:1 2:4 1:4;"
SCOPED, SCOPED_SHOWN = "01030002 0001 00950004 00290008", "define options 259 1 149:4 41:8;"
# The same with the ID of the template of five fields.
OTHER_SCOPED, OTHER_SHOWN = replaced(SCOPED, ("0103", "0100")), replaced(SCOPED_SHOWN, ("259", "256"))
REVERSE, REVERSE_SHOWN = "01040002 80020004 00007279 0052ffff", "define flow 260 0 29305/2:4 82:65535;"
DEFINED = f"message 1610612736 0 1;templates flow;{FIVE_FIELDS}"
RECORD = "record flow 8=0a000001 12=08080808 4=06 2=00000003 1=000000b4"
MESSAGE = f"{DEFINED}values flow;{RECORD};"
OTHER_DOMAIN = "message 1610612736 0 2;skipped 256;"
# Like the messages of softflowd: templates of both versions in one set, an options template with its records, and sets
# padded to four bytes.
TEMPLATES_IN_ONE_SET = (
    "000a00a4 5f5e1000 00000000 00000000 0002004c 0400000c 00080004 000c0004 00160004 00150004 00010004 00020004 "
    "00070002 000b0002 00040001 00060001 003c0001 00050001 08000004 001b0010 001c0010 00010004 00020004 00030014 "
    "01000002 0001 008f0004 00a00008 0000 01000010 00000001 0000017500000000 04000024 0a000001 0a000002 00000010 "
    "00000020 000000b4 00000003 c001 0050 06 1b 04 00")
# Like the messages of pmacct: the template in a message of its own, elements of an enterprise, one of them of variable
# length, and a padded data set.
ENTERPRISE_ELEMENTS = (
    "000a0038 5f5e1001 00000000 00000009 00020028 04000006 00080004 000c0004 00070002 00040001 80010004 0000ab62 "
    "8002ffff 0000ab62 000a0028 5f5e1002 00000001 00000009 04000018 0a000001 0a000002 0035 11 00000007 03616263 00")
ENTERPRISE_SHOWN = ("message 1600000001 0 9;templates flow;define flow 1024 0 8:4 12:4 7:2 4:1 43874/1:4 43874/2:65535;"
                    "message 1600000002 1 9;values flow;record flow 8=0a000001 12=0a000002 7=0035 4=11 1=00000007 "
                    "2=616263;")
# Like the messages of YAF: reverse elements (RFC 5103), a structured list (RFC 6313) with a length in the long form,
# two scope fields, and padding after each kind of set.
STRUCTURED_LIST = (
    "000a00a4 5f5e1003 00000000 00000000 0002003c b0010007 00980008 00990008 00550004 80550004 00007279 00560004 "
    "80560004 00007279 0125ffff c0030002 80280004 00001ad7 00040001 00030018 d0000003 0002 00900004 00950004 00290008 "
    "0000 b001002c 0000018000000001 0000018000000002 000000b4 00000064 00000003 00000002 ff0003030102 0000 d0000014 "
    "00000001 00000000 0000000000000009")
# A template of 20 fields, of which the one in the middle has one byte and the others have none, and three records.
EMPTY_FIELDS = ("000a006f 60000000 00000000 00000001 00020058 01000014 "
                f"{''.join(f'{at:04x}{at == 10:04x}' for at in range(20))} 01000007 000102")
EMPTY_SHOWN = ("message 1610612736 0 1;templates flow;"
               f"define flow 256 0{''.join(f' {at}:{at == 10:d}' for at in range(20))};values flow;") + "".join(
    f"record flow{''.join(f' {at}={byte if at == 10 else str()}' for at in range(20))};" for byte in ("00", "01", "02"))
# A File, and what it is read as.
FILES = (
    ("000a0010 60000000 00000007 00000001", "message 1610612736 7 1;"),
    (ONE_FLOW, MESSAGE),
    (TWO_DOMAINS, f"{MESSAGE}{OTHER_DOMAIN}"),
    (LONG_FORM, "message 1610612736 0 1;templates flow;define flow 257 0 8:4 12:4 82:65535;values flow;"
                "record flow 8=0a000001 12=08080808 82=;"),
    (SIXES, "message 1610612736 0 1;templates flow;define flow 258 0 27:16 28:16;values flow;"
            "record flow 27=20010db8000000000000000000000001 28=20010db8000000000000000000000002;"),
    (WITHDRAWN, f"{DEFINED}templates flow;withdraw 256;skipped 256;"),
    (OPTIONS, f"message 1610612736 0 1;templates options;{SCOPED_SHOWN}values options;"
              "record options 149=00000001 41=0000000000000005;"),
    (TWO_FLOWS, f"{MESSAGE}record flow 8=09000001 12=08080808 4=11 2=00000001 1=00000064;"),
    (BIFLOW, f"{DEFINED.removesuffix(';')} 29305/2:4 29305/1:4;values flow;{RECORD} 2=00000002 1=00000064;"),
    (TEMPLATES_IN_ONE_SET,
     "message 1600000000 0 0;templates flow;"
     "define flow 1024 0 8:4 12:4 22:4 21:4 1:4 2:4 7:2 11:2 4:1 6:1 60:1 5:1;define flow 2048 0 27:16 28:16 1:4 2:4;"
     "templates options;define options 256 1 143:4 160:8;values options;"
     "record options 143=00000001 160=0000017500000000;values flow;"
     "record flow 8=0a000001 12=0a000002 22=00000010 21=00000020 1=000000b4 2=00000003 7=c001 11=0050 4=06 6=1b 60=04 "
     "5=00;"),
    (ENTERPRISE_ELEMENTS, ENTERPRISE_SHOWN),
    (STRUCTURED_LIST,
     "message 1600000003 0 0;templates flow;"
     "define flow 45057 0 152:8 153:8 85:4 29305/85:4 86:4 29305/86:4 293:65535;define flow 49155 0 6871/40:4 4:1;"
     "templates options;define options 53248 2 144:4 149:4 41:8;values flow;"
     "record flow 152=0000018000000001 153=0000018000000002 85=000000b4 85=00000064 86=00000003 86=00000002 293=030102;"
     "values options;record options 144=00000001 149=00000000 41=0000000000000009;"),
    (EMPTY_FIELDS, EMPTY_SHOWN),
    # Withdrawals of all templates: the ID 2 or 3 is that of the set.
    (replaced(WITHDRAWN, ("00020008 01000000", "00020008 00020000")),
     f"{DEFINED}templates flow;withdraw all flow;skipped 256;"),
    (replaced(WITHDRAWN, ("00020008 01000000", "00030008 00030000")),
     f"{DEFINED}templates options;withdraw all options;values flow;{RECORD};"),
    (replaced(WITHDRAWN, ("00020008 01000000", "00020008 00030000")), "BadTemplate(BadTemplateId) at 48;"),
    (replaced(WITHDRAWN, ("00020008 01000000", "00030008 00020000")), "BadTemplate(BadTemplateId) at 48;"),
    (LONG_VALUE, "BadRecord at 40;"),
    ("000a0010 60000000 00000000 00000001 00090010 60000000 00000000 00000001", "BadVersion at 16;"),
)
# A File, the maximum number of bytes that a read returns, the number of the read that fails, and the results of three
# calls for messages.
MESSAGES = (
    # The end is reached again and again, and a fault is reported once.
    (ONE_FLOW, "", "", f"{MESSAGE}end;end;"),
    (ONE_FLOW, "", "3", f"{MESSAGE}ReadFault at 65;Failed at 0;"),
    # A bad version is reported from the header alone, and the reader has only the header. The next read would fail.
    (f"{ONE_FLOW} 00090041 60000000 00000000 00000001", "", "4", f"{MESSAGE}BadVersion at 65;Failed at 0;"),
    # A second message is shorter than the first, and of a domain without the template.
    (TWO_DOMAINS, "1", "", f"{MESSAGE}{OTHER_DOMAIN}end;"),
    # A template that is in an earlier message.
    (ENTERPRISE_ELEMENTS, "7", "", f"{ENTERPRISE_SHOWN}end;"),
    # A reader that fails within a header, and within a message.
    (ONE_FLOW, "1", "16", "ReadFault at 0;Failed at 0;Failed at 0;"),
    (ONE_FLOW, "1", "65", "ReadFault at 0;Failed at 0;Failed at 0;"),
    # A fault of a set, and a header that is cut off, before a read that would fail.
    ("000a0010 60000000 00000000 00000001 000a0014 60000000 00000000 00000001 01000003", "", "4",
     "message 1610612736 0 1;BadSetLength at 32;Failed at 0;"),
    ("000a", "", "3", "TruncatedHeader at 0;Failed at 0;Failed at 0;"),
    # No bytes at all.
    ("", "1", "", "end;end;end;"),
)
# Texts of certificates, which are written as they were read.
CERTIFICATES = (
    HALVES_CERT, LAST_COMPACT, QUARTERS_CERT, SPAN_COMPACT, "flowlabel-cert 1 ipv4 1;UNKNOWN;l 0;",
    "flowlabel-cert 1 ipv6 2;Some Net;café;n 4294967295;l 1;l 0;",
    "flowlabel-cert 1 ipv4 3;A;B;UNKNOWN;n 4294967295 0 1;l 0;l 1;", "flowlabel-cert 1 ipv4 1;l 0;l 0;",
    "flowlabel-cert 1 ipv4 2;0;1;n 0 0 1;n 0 1;l 1;l 1;l 0;")
# Nested inner nodes, each with a leaf before the next, and the chain that they become.
LAST_OF_IPV6 = f"flowlabel-cert 1 ipv6 2;D;X;{127 * 'n 1 0;l 0;'}n 1 0 1;l 0;l 1;"
LAST_OF_IPV6_COMPACT = f"flowlabel-cert 2 ipv6 2;D;X;c 1 {128 * '1'} 0 0;l 1;"

CALLS = (
    # prefix_keys
    Call("print_addr", ("", "2001:db8::2"), "Ok;2001:db8::2;", before=";"),
    Call("print_addr", ("2001:db8::1|", "2001:db8::2"), "Ok;2001:db8::1|2001:db8::2;", before="2001:db8::1|;"),
    *(Call("print_addr", ("x", text), f"Ok;x{text};", before="x;") for text in (
        "10.1.200.9", "1::2:3:0:0:4", f"ffff{7 * ':ffff'}")),
    Call("print_block", ("", "0.0.0.0/29"), "Ok;0.0.0.0/29;", before=";"),
    Call("print_block", ("0.0.0.0/0 D;", "0.0.0.0/29"), "Ok;0.0.0.0/0 D;0.0.0.0/29;", before="0.0.0.0/0 D;;"),
    *(Call("print_block", ("x", text), f"Ok;x{shown};", before="x;") for text, shown in (
        ("10.0.0.0/8", "10.0.0.0/8"), ("1.2.3.4/8", "1.0.0.0/8"), ("1.2.3.4/032", "1.2.3.4/32"), ("::/0", "::/0"),
        ("::ffff:10.0.0.0/104", "::ffff:a00:0/104"), (f"ffff{7 * ':ffff'}/128", f"ffff{7 * ':ffff'}/128"),
        # RFC 4291, section 2.3.
        ("2001:DB8:0:CD30:123:4567:89AB:CDEF/60", "2001:db8:0:cd30::/60"))),
    # pmap_model
    *(Call("Name::new", (text,), f"{text};") for text in ("A", "Some Net", 255 * "x")),
    Call("Entries::push", ("", "10.0.0.0/8"), "Ok;10.0.0.0/8 0;", before=""),
    # An entry of the other version is stored in another way, and its place is still the last.
    Call("Entries::push", ("10.0.0.0/8,10.0.0.0/9", "::/0"), "Ok;10.0.0.0/8 0;10.0.0.0/9 1;::/0 2;",
         before="10.0.0.0/8 0;10.0.0.0/9 1;"),
    Call("Entries::push", ("::/0", "10.0.0.0/8"), "Ok;::/0 0;10.0.0.0/8 1;", before="::/0 0;", allocates=False),
    Call("Labels::add", ("", "A"), "Ok 0;A;", before=""),
    Call("Labels::add", ("A", "more than 16 bytes"), "Ok 1;A;more than 16 bytes;", before="A;"),
    Call("Labels::add", ("A,B", "A"), "Ok 0;A;B;", before="A;B;", allocates=False),
    # Texts of 16 and of 17 bytes are stored in different ways.
    Call("Labels::add_new", ("", "sixteen bytes .."), "Ok 0;sixteen bytes ..;", before=""),
    Call("Labels::add_new", ("A", "seventeen bytes ."), "Ok 1;A;seventeen bytes .;", before="A;"),
    Call("Labels::add_new", ("A,B", "A"), "Ok 0;A;B;", before="A;B;", allocates=False),
    Call("Labels::copy", ("A,B,UNKNOWN",), "A;B;UNKNOWN;"),
    # pmap_text
    *(Call("read_map", (text,), shown, LINE_FAILED) for text, shown in MAPS),
    *(Call("read_map", (text,), shown, allocates=False) for text, shown in (
        (f"default {256 * 'x'}", "line 1: bad label;"), ("10.0.0.0/33 A;", "line 1: bad block length;"),
        ("mode ipv4;10.0.0.9 2001:db8::1 x", "line 2: an address of the other version;"))),
    # A comment of 40 bytes so often that the text has two pieces.
    Call("Pieces::with", (f"# {37 * 'x'};", "10.0.0.0/8 A"), "ipv4;default 1;10.0.0.0 10.255.255.255 0;A;UNKNOWN;",
         LINE_FAILED),
    *(Call("read_list", (text,), shown, LINE_FAILED) for text, shown in LISTS),
    Call("read_list", (";#;",), "ipv4;", allocates=False),
    # label_trie
    Call("Trie::build", (NESTED, "10.1.1.1,11.255.255.255,12.0.0.0,9.255.255.255"), "B;B;UNKNOWN;UNKNOWN;"),
    Call("Trie::build", OF_SIXES, SIXES_LABELS),
    Call("Trie::build", REGISTERED, NAMES.format(*3 * ("UNKNOWN",))),
    Call("Trie::build_list", (HALF, "0.0.0.1,128.0.0.1"), "A;;"),
    Call("Trie::build_list", REGISTERED, NAMES.format("", "", "")),
    *(Call("Trie::leaves", (text,), shown) for text, shown in (
        ("", "0.0.0.0/0 UNKNOWN;"), (HALVES, "0.0.0.0/1 A;128.0.0.0/1 B;"),
        ("0.0.0.0/0 B;64.0.0.0/2 A;", "0.0.0.0/2 B;64.0.0.0/2 A;128.0.0.0/1 B;"), ("::/125 A;::/0 B;", "::/0 B;"))),
    *(Call("Trie::leaves of a list", (text,), shown) for text, shown in (
        ("", "0.0.0.0/0 ;"), (HALF, "0.0.0.0/1 A;128.0.0.0/1 ;"),
        # The longest entry decides, in whatever order.
        ("0.0.0.0/2 B;0.0.0.0/1 A;", "0.0.0.0/2 B;64.0.0.0/2 A;128.0.0.0/1 ;"),
        ("0.0.0.0/1 A;0.0.0.0/2 B;", "0.0.0.0/2 B;64.0.0.0/2 A;128.0.0.0/1 ;"),
        ("64.0.0.0/2 A;0.0.0.0/1 B;", "0.0.0.0/2 B;64.0.0.0/2 A;128.0.0.0/1 ;"))),
    Call("Stretches::of_map", (HALVES,), "0 2147483647 0;2147483648 4294967295 1;"),
    Call("Runs::of_map", (HALVES,), "0 2147483647 0;2147483648 4294967295 1;"),
    Call("Stretches::of_list", (NESTED,),
         "0 167772159;167772160 184549375 0;184549376 201326591 1;201326592 4294967295;"),
    Call("Runs::of_list", ("10.0.0.0/8 B;10.0.0.0/7 B;",), "0 167772159;167772160 201326591 0;201326592 4294967295;"),
    # label_lookup
    Call("ListIndex::build", (HALF, "0.0.0.1,128.0.0.1"), "A;;"),
    Call("ListIndex::build", REGISTERED, NAMES.format("", "", "")),
    Call("StretchIndex::of_map", (NESTED, "10.1.1.1,12.0.0.0"), "B;UNKNOWN;"),
    Call("StretchIndex::of_map", OF_SIXES, SIXES_LABELS),
    Call("StretchIndex::of_map", REGISTERED, NAMES.format(*3 * ("UNKNOWN",))),
    Call("StretchIndex::of_list", (HALF, "0.0.0.1,128.0.0.1"), "A;;"),
    Call("StretchIndex::of_list", REGISTERED, NAMES.format("", "", "")),
    # ipfix_templates
    Call("read_template_set", (f"{TEMPLATE} 000000",), FIVE_FIELDS, "out of memory;"),
    Call("read_template_set", (REVERSE,), REVERSE_SHOWN, "out of memory;"),
    Call("read_template_set", (SCOPED, "options"), SCOPED_SHOWN, "out of memory;"),
    *(Call("read_template_set", (text, kind), shown, "out of memory;") for text, kind, shown in (
        ("01000000", "", "withdraw 256;"), ("01000000", "options", "withdraw 256;"),
        ("00020000", "", "withdraw all flow;"), ("00030000", "options", "withdraw all options;"),
        # The fault of the second record.
        ("01000000 00000000", "", "BadTemplateId at 4;"))),
    # The second scope is of three fields out of two.
    *(Call("read_template_set", (text, kind), shown, allocates=False) for text, kind, shown in (
        ("01040002 80020004 0000", "", "Truncated at 0;"), ("01030002", "options", "Truncated at 0;"),
        ("01030002 0003 00950004 00290008", "options", "BadScope at 0;"),
        ("00020000", "options", "BadTemplateId at 0;"))),
    # The least length of a value of variable length is 1.
    *(Call("Fields::from_vec", (text,), f"fields {text};least {least} runs {runs};") for text, least, runs in (
        ("8:4 12:4 4:1", 9, 9), ("8:4 82:65535 12:4 4:1 210:65535", 11, "4 5 0"), ("210:0", 0, 0),
        ("82:65535 210:65534", 65535, "0 65534"))),
    Call("TemplateTable::set", ("", TEMPLATE), f"Ok;{FIVE_FIELDS}", before="no template;"),
    Call("TemplateTable::set", (OTHER_SCOPED, TEMPLATE), f"Ok;{FIVE_FIELDS}", before=OTHER_SHOWN),
    # ipfix_read
    *(Call("read_file", (file,), shown, MESSAGE_FAILED) for file, shown in FILES),
    Call("read_file", ("",), "", allocates=False),
    *(Call("Messages::new", (file, step, fails), shown) for file, step, fails, shown in MESSAGES),
    Call("next_message", (ONE_FLOW,), MESSAGE, "NoMemory at 0;Failed at 0;"),
    Call("next_message again", (ONE_FLOW * 2,), MESSAGE, "NoMemory at 0;Failed at 0;"),
    # flow_filter
    Call("Filter::read", (TWO_FLOWS, "--protocol", "17"), "false;true;", "Number(Protocol): NoMemory;"),
    Call("Filter::read", (TWO_FLOWS, "--protocol", "10-16"), "false;false;", "Number(Protocol): NoMemory;"),
    Call("Filter::read", (TWO_FLOWS, "--saddress", "::ffff:a00:0/104"), "true;false;", "SourceAddress: NoMemory;"),
    # No command has an option of labels without a map.
    Call("Filter::read", (TWO_FLOWS, "--any-label", "B"), "false;false;", "AnyLabel: NoMemory;"),
    # flow_uniq
    Call("Keys::read", ("src-label",), "src-label;", allocates=False),
    Call("Keys::read", ("sip,",), "not a field;", allocates=False),
    Call("Keys::read", ("sip,dip,sip",), "a field that was named before;", allocates=False),
    Call("Groups::new", ("src-label",), "groups 0;"),
    Call("Groups::add", (ONE_FLOW * 2, "src-label", NESTED), "Ok;groups 1;B;1 3 180;", before="groups 0;"),
    Call("Groups::add again", (ONE_FLOW * 2, "src-label", NESTED), "Ok;groups 1;B;2 6 360;",
         before="groups 1;B;1 3 180;", allocates=False),
    Call("Groups::sorted", (TWO_FLOWS, "sip", ""), "150994945;1 1 100;167772161;1 3 180;"),
    # pmap_cert
    Call("Nodes::push", (HALVES,), HALVES_CERT),
    Call("write_cert", (HALVES_CERT,), HALVES_CERT),
    Call("write_cert", (LAST_COMPACT,), LAST_COMPACT),
    *(Call("read_cert", (text,), text, LINE_FAILED) for text in CERTIFICATES),
    Call("read_cert", ("flowlabel-cert 1 ipv4 1",), "line 1: bad header;", allocates=False),
    Call("read_cert", ("flowlabel-cert 1 ipv4 1;A",), "line 2: bad, repeated or missing label;", allocates=False),
    Call("read_cert", (f"{HALVES_CERT} ",), "line 8: text after the last node;", LINE_FAILED),
    *(Call("compact", (text,), shown) for text, shown in (
        (LAST_CERT, LAST_COMPACT), (LAST_COMPACT, LAST_COMPACT), (HALVES_CERT, HALVES_COMPACT),
        (SPAN_COMPACT, SPAN_COMPACT), (SHORT_CHAINS, SHORT_CHAINS), (LAST_OF_IPV6, LAST_OF_IPV6_COMPACT))),
    Call("CompactText::new", (LAST_CERT,), LAST_COMPACT),
    Call("CompactText::new", (LAST_COMPACT,), LAST_COMPACT, allocates=False),
    Call("OpenedText", (LAST_COMPACT,), LAST_CERT),
    Call("OpenedText", (SPAN_COMPACT,), SPAN_CERT),
    # pmap_minimise
    *(Call("minimise", (text,), f"root cost {cost};{entries}{certificate}") for text, cost, entries, certificate in (
        ("", 0, "mode ipv4;0.0.0.0/0 UNKNOWN;", "flowlabel-cert 1 ipv4 1;UNKNOWN;l 0;"),
        (HALVES, 1, "mode ipv4;0.0.0.0/0 A;128.0.0.0/1 B;", HALVES_CERT), (QUARTERS, 2, QUARTERS_LIST, QUARTERS_CERT),
        (SPAN, 3, SPAN_LIST, SPAN_CERT))),
    Call("compact_certificate", (HALVES,), HALVES_COMPACT),
    Call("compact_certificate", (LAST,), LAST_COMPACT),
    Call("compact_certificate", (SPAN,), SPAN_COMPACT),
    Call("compact_certificate", (LONE,), LONE_COMPACT),
    Call("shortest", (HALVES,), "mode ipv4;0.0.0.0/0 A;128.0.0.0/1 B;"),
    Call("shortest", (QUARTERS,), QUARTERS_LIST),
    Call("shortest", (LONE,), "mode ipv4;0.0.0.0/0 D;10.0.0.1/32 X;"),
    # cert_check
    *(Call("check", texts, shown, NODE_FAILED) for *texts, shown in (
        (HALVES, HALVES, HALVES_CERT, "2;"), (LAST, LAST_LIST, LAST_COMPACT, "2;"),
        (HALVES, "128.0.0.0/1 B;0.0.0.0/1 A;", HALVES_CERT, "2;"), (QUARTERS, QUARTERS_LIST, QUARTERS_CERT, "3;"),
        (HALVES, "0.0.0.0/0 A;0.0.0.0/1 A;128.0.0.0/1 B;", HALVES_CERT,
         "node 0: the list has more entries than the root's cost plus one;"),
        (HALVES, HALVES, "flowlabel-cert 1 ipv4 2;A;B;n 4294967295 0 1;l 0;l 1;",
         "node 1: the cost is above the exact cost;"))),
    Call("check_text", (HALVES, HALVES, HALVES_CERT), "2;", LINE_FAILED),
    Call("check_text", (LAST, LAST_LIST, LAST_COMPACT), "2;", LINE_FAILED),
    *(Call("carried", (text, block), shown) for text, block, shown in (
        (HALVES, "0.0.0.0/1", "0.0.0.0 127.255.255.255 0;"), (HALVES, "128.0.0.0/2", "128.0.0.0 255.255.255.255 1;"),
        (HALVES, "0.0.0.0/0", "0.0.0.0 127.255.255.255 0;128.0.0.0 255.255.255.255 1;"),
        # The block covers it, and all addresses are inside. 10.0.0.128 to 10.0.0.149 are in the other half.
        (HUNDREDS, "10.0.0.0/24", hundreds(*OF_MAP)), (HUNDREDS, "10.0.0.128/25", hundreds(*OF_MAP, 128)))),
    *(Call("carried_entries", (text, block), shown) for text, block, shown in (
        (HALVES, "0.0.0.0/1", "0.0.0.0/1 0;"), (HALVES, "128.0.0.0/2", "128.0.0.0/1 1;"),
        (HALVES, "0.0.0.0/0", "0.0.0.0/1 0;128.0.0.0/1 1;"),
        (HUNDREDS, "10.0.0.0/24", hundreds(*OF_LIST)), (HUNDREDS, "10.0.0.128/25", hundreds(*OF_LIST, 128)))),
    # pmap_print
    Call("print_list", ("mode ipv4;0.0.0.0/0 A;128.0.0.0/1 B;",), "mode ipv4;0.0.0.0/0 A;128.0.0.0/1 B;"),
    Call("print_list", ("map-name m;mode ipv6;::7/128 D;::/128 D;::/125 X;::/0 D;",),
         "map-name m;mode ipv6;::/0 D;::/125 X;::/128 D;::7/128 D;"),
    Call("print_runs", ("",), "low|high|label;0.0.0.0|255.255.255.255|UNKNOWN;"),
    Call("print_runs", ("128.0.0.0/1 A;",),
         "low|high|label;0.0.0.0|127.255.255.255|UNKNOWN;128.0.0.0|255.255.255.255|A;"),
    Call("print_rows", (ONE_FLOW,), f"{TITLE};{TCP_ROW};"),
    Call("print_rows", (ONE_FLOW, "columns"), COLUMNS),
    Call("print_rows labelled", (ONE_FLOW, NESTED), f"{TITLE}|src-label|dst-label;{TCP_ROW}|B|UNKNOWN;"),
    Call("print_info", (TWO_DOMAINS,), COUNTS),
    Call("print_groups", (ONE_FLOW * 2, "src-label", NESTED), BY_LABEL),
    Call("print_groups", (ONE_FLOW * 2, "src-label", NESTED, "columns"), BY_LABEL_COLUMNS),
    Call("print_groups", (TWO_FLOWS, "sip", "", "sorted"),
         "sip|records|packets|bytes;9.0.0.1|1|1|100;10.0.0.1|1|3|180;"),
    # No command has fields of labels without a map.
    Call("print_groups", (TWO_FLOWS, "src-label,dst-label", "no map"),
         "src-label|dst-label|records|packets|bytes;||2|4|280;"),
)
