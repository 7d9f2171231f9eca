"""Command lines of flowlabel-many with known results, as those of flowlabel in tests/program/worked.py.

The values are those of docs/FORMATS.md and of a calendar, never what the program printed.
"""

from program.worked import BIFLOW, CLAPS, HALF, LONG_FORM, MANY_FLOWS, NESTED, NESTED_LIST, NO_ANSWER, ONE_FLOW, \
    OPTIONS, PLACES, SIXES, TWO_DOMAINS, TWO_FLOWS, WITHDRAWN
from support import RECORD, data_set, message

PROGRAM = "flowlabel-many"
SUMS = "records|packets|bytes;"
TITLES = "file|message|offset|domain|sequence|time|definitions|skipped-sets|records|options-records|rows|zero-bytes;"
# A template with the element 152, the start in milliseconds, besides those of worked.py.
TIMED = "00020020 01010006 00080004 000c0004 00040001 00020004 00010004 00980008"


def flow(start, packets=3, octets=180, source="0a000001", protocol=6):
    """Returns a record of that template."""
    return f"{source} 08080808 {protocol:02x} {packets:08x} {octets:08x} {start:016x}"


def timed(*records):
    """Returns a message with that template and these records. With one record it has 77 bytes."""
    return message(TIMED, data_set(257, *records)).hex()


# A message of 37 bytes whose data set has no template, and a File in which it follows another one.
BARE = message(data_set(256, RECORD)).hex()
LATER = timed(flow(0, 1, 100, "09000001", 17)) + BARE
CUT = ONE_FLOW[:-2]
# The first milliseconds of 2024-02-29, of 2024-03-01, of 2023-11-14T22:15Z, of the hour after it, and of the days after
# 2000-02-28 and 2100-02-28. The last one of the year 9999, and the next.
LEAP_DAY, MARCH, QUARTER, HOUR = 1709164800000, 1709251200000, 1700000100000, 1700002800000
LEAP_CENTURY, COMMON_CENTURY = 951782400000, 4107542400000
LAST = 253402300799999
LATE = timed(flow(LAST + 1))
DAYS = timed(flow(LEAP_DAY), flow(0))
MORE_DAYS = timed(flow(LEAP_DAY - 1, 1, 100), flow(MARCH - 1, 2, 50), flow(MARCH, 5, 7), flow(1, 4, 40))
HOURS = timed(flow(HOUR, 1, 80), flow(QUARTER - 1, 1, 10), flow(QUARTER, 1, 20), flow(HOUR - 1, 1, 40))
# A message in which a row starts too late and a set is skipped, and greatest numbers of a header.
LATE_AND_BARE = message(TIMED, data_set(257, flow(LAST + 1)), data_set(256, RECORD)).hex()
HEADERS = "000a0010 65000000 00000007 00000009 000a0010 ffffffff ffffffff ffffffff"
# Flows with interfaces (in 4 and 2 bytes), VLANs and AS numbers, one with a reverse direction, and one with a VLAN in
# element 243. The elements of the last File have 5 and 3 bytes, so that they aren't used.
NUMBERED = message(
    "0002002c 01020009 00080004 000c0004 00020004 00010004 000a0004 000e0002 003a0002 00100004 00110004",
    data_set(258, "0a000001 08080808 00000003 000000b4 00000003 ffff 0064 0000fde8 fa56ea00",
             "0a000002 08080808 00000001 00000028 00010003 0004 0000 0000fde7 00000003",
             "0a000003 08080808 00000002 00000064 00000003 0004 0064 ffffffff 00000000")).hex()
TAGGED = message("0002001c 01030005 00080004 000c0004 00020004 00010004 00f30002",
                 data_set(259, "0a000004 08080808 00000007 00000007 0064")).hex()
BOTH_WAYS = message(
    "00020030 01040009 00080004 000c0004 00020004 00010004 000a0004 000e0004 00100004 00110004 80020004 00007279",
    data_set(260, "0a000001 08080808 00000003 000000b4 00000001 00000002 00000003 00000004 00000005")).hex()
TOO_LONG = message("00020020 01050006 00080004 000c0004 00020004 00010004 000a0005 003a0003",
                   data_set(261, "0a000001 08080808 00000003 000000b4 0000000003 000064")).hex()
# A record of a protocol alone, which is no row, and biflows whose second row, or both, have no bytes.
NO_ROW = message("0002000c 01030001 00040001", data_set(259, "06")).hex()
EMPTY_ANSWER = BIFLOW.removesuffix("00000064") + "00000000"
NO_BYTES = BIFLOW.replace("000000b4", "00000000").removesuffix("00000064") + "00000000"

BAD_UNITS = ("7m", "0m", "0000m", "25h", "1h", "m", "'5 m'", "00005m", "5mm", "5", "2880m", "1441m", "-5m", "+5m", "Day",
             "days", "''", "day,hour", "1.5m", "5M", "5m'\u00e9'", "milliseconds")
# What is printed if the row of ONE_FLOW is in a table once or twice.
ONCE, TWICE = f"sip|{SUMS}10.0.0.1|1|3|180;", f"sip|{SUMS}10.0.0.1|2|6|360;"
# The line of ONE_FLOW as a File's first message, after the number of the File.
AS_FIRST = "1|0|1|0|1610612736|1|0|1|0|1|0;"


def usage(fault):
    """Returns the line of a fault of the command line."""
    return f"{PROGRAM}: usage: {fault}"


def fault(name, what):
    """Returns the line of a fault of a file."""
    return f"{PROGRAM}: {name}: {what}"


# Lines as in worked.py, without the name of the program.
TABLE = (
    # Each File is read from nothing: the template of one is in force in no other, nor when it comes again.
    ({"a": ONE_FLOW, "b": LATER, "c": BARE}, (
        ("sum --fields sip a", 0, ONCE),
        ("sum --fields sip a a", 0, TWICE),
        ("sum --fields sip a b", 1, fault("b", "S1 SkippedSet at 77")),
        ("sum --fields sip b a", 1, fault("b", "S1 SkippedSet at 77")),
        ("sum --fields sip a c", 1, fault("c", "S1 SkippedSet at 0")),
        ("sum --fields sip a c a", 1, fault("c", "S1 SkippedSet at 0")),
        ("sum --fields sip --allow-skipped a c", 0, ONCE),
        ("sum --fields sip --allow-skipped c", 0, f"sip|{SUMS}"),
        ("sum --allow-skipped --fields sip c a c a", 0, TWICE),
        ("sum --fields sip --allow-skipped a b", 0, f"sip|{SUMS}9.0.0.1|1|1|100;10.0.0.1|1|3|180;"),
        ("sum --fields proto --allow-skipped b a b", 0, f"proto|{SUMS}6|1|3|180;17|2|2|200;"),
        ("sum --by day a a", 0, f"day|{SUMS}0|2|6|360;"),
        ("messages a b a", 0, f"{TITLES}1|{AS_FIRST}2|{AS_FIRST}2|2|77|1|0|1610612736|0|1|0|0|0|0;3|{AS_FIRST}"),
        ("messages c", 0, f"{TITLES}1|1|0|1|0|1610612736|0|1|0|0|0|0;"),
        # Each is opened when its turn comes, so a fault of an earlier one is reported instead.
        ("sum --fields sip missing", 4, fault("missing", "cannot open")),
        ("sum --fields sip a missing a", 4, fault("missing", "cannot open")),
        ("sum --fields sip a missing b", 4, fault("missing", "cannot open")),
        ("sum --fields sip b missing", 1, fault("b", "S1 SkippedSet at 77")),
        ("sum --fields sip --allow-skipped b missing other", 4, fault("missing", "cannot open")),
        ("sum --fields sip --pmap missing a", 4, fault("missing", "cannot open")),
        ("sum --fields sip --pmap missing other", 4, fault("missing", "cannot open")),
        ("sum --fields sip --list missing c", 4, fault("missing", "cannot open")),
        ("messages missing a", 4, fault("missing", "cannot open")),
        ("messages b missing c", 4, fault("missing", "cannot open")),
    )),
    # A File's bytes come before its messages, and its messages in their order. Files come in the order of the line.
    ({"cut": CUT, "bare-cut": f"{BARE} {CUT}", "bare": BARE, "late-bare": f"{LATE} {BARE}",
      "bare-late": f"{BARE} {LATE}", "both": LATE_AND_BARE, "late-cut": f"{LATE} {CUT}", "good": ONE_FLOW}, (
          ("sum --fields sip bare-cut", 1, fault("bare-cut", "F4 TruncatedMessage at 37")),
          ("sum --fields sip --allow-skipped bare-cut", 1, fault("bare-cut", "F4 TruncatedMessage at 37")),
          ("sum --by day late-cut", 1, fault("late-cut", "F4 TruncatedMessage at 77")),
          ("messages bare-cut", 1, fault("bare-cut", "F4 TruncatedMessage at 37")),
          ("sum --fields sip good bare cut", 1, fault("bare", "S1 SkippedSet at 0")),
          ("sum --fields sip good cut bare", 1, fault("cut", "F4 TruncatedMessage at 0")),
          ("sum --fields sip --allow-skipped good bare cut", 1, fault("cut", "F4 TruncatedMessage at 0")),
          ("messages good bare cut", 1, fault("cut", "F4 TruncatedMessage at 0")),
          ("sum --by day late-bare", 1, fault("late-bare", "S3 StartTooLate at 0")),
          ("sum --fields sip late-bare", 1, fault("late-bare", "S1 SkippedSet at 77")),
          ("sum --by day --protocol 17 late-bare", 1, fault("late-bare", "S1 SkippedSet at 77")),
          ("sum --by day --allow-skipped late-bare", 1, fault("late-bare", "S3 StartTooLate at 0")),
          ("sum --by day bare-late", 1, fault("bare-late", "S1 SkippedSet at 0")),
          ("sum --by day --allow-skipped bare-late", 1, fault("bare-late", "S3 StartTooLate at 37")),
          ("sum --by day both", 1, fault("both", "S1 SkippedSet at 0")),
          ("sum --by 5m --allow-skipped both", 1, fault("both", "S3 StartTooLate at 0")),
          ("sum --fields sip --allow-skipped both", 0, ONCE),
          ("sum --by day good late-cut both", 1, fault("late-cut", "F4 TruncatedMessage at 77")),
          ("sum --by day good both late-cut", 1, fault("both", "S1 SkippedSet at 0")),
      )),
    ({"map.txt": "10.0.0.0/33 A;", "a": BARE}, (
        ("sum --fields sip --pmap map.txt a", 1, fault("map.txt", "M3 BadLength at 1")),
        ("sum --fields sip --pmap map.txt missing", 1, fault("map.txt", "M3 BadLength at 1")),
    )),
    ({"list.txt": "default x;", "a": CUT}, (
        ("sum --by day --list list.txt a", 1, fault("list.txt", "M13 NotAList at 1")),
    )),
    # Labels, filters, columns and both versions of addresses.
    ({"map.txt": NESTED, "list.txt": NESTED_LIST, "tens.txt": "10.0.0.0/8 A;", "half.txt": HALF, "a": ONE_FLOW,
      "b": TWO_FLOWS, "six": SIXES}, (
          ("sum --fields src-label --pmap map.txt a b", 0, f"src-label|{SUMS}B|2|6|360;UNKNOWN|1|1|100;"),
          ("sum --fields src-label --list list.txt a b", 0, f"src-label|{SUMS}B|2|6|360;UNKNOWN|1|1|100;"),
          ("sum --fields src-label --list tens.txt a b", 0, f"src-label|{SUMS}|1|1|100;A|2|6|360;"),
          ("sum --fields dst-label,src-label --pmap map.txt b a b", 0,
           f"dst-label|src-label|{SUMS}UNKNOWN|B|3|9|540;UNKNOWN|UNKNOWN|2|2|200;"),
          ("sum --fields src-label --pmap map.txt a six a", 0, f"src-label|{SUMS}|1|0|0;B|2|6|360;"),
          ("sum --by day --fields dst-label --list half.txt six a", 0, f"day|dst-label|{SUMS}0||1|0|0;0|A|1|3|180;"),
          ("sum --fields sip --any-label B --pmap map.txt a b", 0, TWICE),
          ("sum --by hour --src-label UNKNOWN --pmap map.txt a b", 0, f"hour|{SUMS}0|1|1|100;"),
          ("sum --fields sip --dst-label B --list list.txt a b", 0, f"sip|{SUMS}"),
          ("sum --fields proto --protocol 17 a b a", 0, f"proto|{SUMS}17|1|1|100;"),
          ("sum --fields sip --saddress 10.0.0.0/8 --bytes 100- --packets 3 --daddress 8.8.8.8 a b", 0, TWICE),
          ("sum --fields sport,dport,flags --dport 0 --sport 0 a b", 0, f"sport|dport|flags|{SUMS}0|0|0|3|7|460;"),
          ("sum --fields sip six a b", 0, f"sip|{SUMS}9.0.0.1|1|1|100;10.0.0.1|2|6|360;2001:db8::1|1|0|0;"),
          ("sum --by day --fields sip,dip,sport,dport,proto six six", 0,
           f"day|sip|dip|sport|dport|proto|{SUMS}0|2001:db8::1|2001:db8::2|0|0|0|2|0|0;"),
          ("sum --columns --fields sip,proto a b", 0,
           "     sip|proto|records|packets|bytes; 9.0.0.1|   17|      1|      1|  100;"
           "10.0.0.1|    6|      2|      6|  360;"),
          ("sum --fields src-label --list tens.txt --columns a b", 0,
           "src-label|records|packets|bytes;         |      1|      1|  100;        A|      2|      6|  360;"),
          ("messages six a", 0, f"{TITLES}1|1|0|1|0|1610612736|1|0|1|0|1|1;2|{AS_FIRST}"),
      )),
    # Interfaces, VLANs and AS numbers, as fields and filters.
    ({"n": NUMBERED, "t": TAGGED, "b": BOTH_WAYS, "l": TOO_LONG, "a": ONE_FLOW}, (
        ("sum --fields in-if n", 0, f"in-if|{SUMS}3|2|5|280;65539|1|1|40;"),
        ("sum --fields out-if n", 0, f"out-if|{SUMS}4|2|3|140;65535|1|3|180;"),
        ("sum --fields vlan n t a", 0, f"vlan|{SUMS}0|2|4|220;100|3|12|287;"),
        ("sum --fields src-as n", 0, f"src-as|{SUMS}64999|1|1|40;65000|1|3|180;4294967295|1|2|100;"),
        ("sum --fields dst-as n", 0, f"dst-as|{SUMS}0|1|2|100;3|1|1|40;4200000000|1|3|180;"),
        ("sum --by day --fields vlan,in-if,out-if n", 0,
         f"day|vlan|in-if|out-if|{SUMS}0|0|65539|4|1|1|40;0|100|3|4|1|2|100;0|100|3|65535|1|3|180;"),
        ("sum --fields in-if,out-if,src-as,dst-as b", 0,
         f"in-if|out-if|src-as|dst-as|{SUMS}1|2|3|4|1|3|180;2|1|4|3|1|5|0;"),
        ("sum --fields in-if,vlan l", 0, f"in-if|vlan|{SUMS}0|0|1|3|180;"),
        ("sum --fields sip --vlan 100 n t a", 0, f"sip|{SUMS}10.0.0.1|1|3|180;10.0.0.3|1|2|100;10.0.0.4|1|7|7;"),
        ("sum --fields sip --in-if 65536-70000 n", 0, f"sip|{SUMS}10.0.0.2|1|1|40;"),
        ("sum --fields sip --out-if 4 --in-if 3 n", 0, f"sip|{SUMS}10.0.0.3|1|2|100;"),
        ("sum --fields sip --src-as 4294967295,64999 n", 0, f"sip|{SUMS}10.0.0.2|1|1|40;10.0.0.3|1|2|100;"),
        ("sum --fields sip --dst-as 0-3 n", 0, f"sip|{SUMS}10.0.0.2|1|1|40;10.0.0.3|1|2|100;"),
        ("sum --fields vlan,sip,vlan n", 2, usage("--fields U2 FieldRepeated")),
        ("sum --fields vlans n", 2, usage("--fields U1 BadField")),
        ("sum --fields sip --src-as 4294967296 n", 2, usage("--src-as L1 BadNumberList")),
        ("sum --fields sip --dst-as AS3 n", 2, usage("--dst-as L1 BadNumberList")),
        ("sum --fields sip --vlan 65536 n", 2, usage("--vlan L1 BadNumberList")),
        ("sum --fields sip --in-if eth0 n", 2, usage("--in-if L1 BadNumberList")),
        ("sum --fields sip --out-if 5- n", 2, usage("--out-if L1 BadNumberList")),
        ("sum --fields sip --bytes x --in-if x n", 2, usage("--bytes L2 BadRange")),
    )),
    # A File without messages.
    ({"a": ONE_FLOW, "empty": ""}, (
        ("sum --fields sip empty", 0, f"sip|{SUMS}"),
        ("sum --by minute --columns empty", 0, "minute|records|packets|bytes;"),
        ("sum --fields sip empty a empty", 0, ONCE),
        ("messages empty", 0, TITLES),
        ("messages empty a empty a", 0, f"{TITLES}2|{AS_FIRST}4|{AS_FIRST}"),
    )),
    # Times: rows without a start, the first day of 1970, and both sides of the end of a day, an hour and minutes.
    ({"a": DAYS, "b": MORE_DAYS}, (
        ("sum --by day a b", 0,
         f"day|{SUMS}0|1|3|180;1970-01-01|1|4|40;2024-02-28|1|1|100;2024-02-29|2|5|230;2024-03-01|1|5|7;"),
        ("sum --by hour a b", 0,
         f"hour|{SUMS}0|1|3|180;1970-01-01T00Z|1|4|40;2024-02-28T23Z|1|1|100;2024-02-29T00Z|1|3|180;"
         "2024-02-29T23Z|1|2|50;2024-03-01T00Z|1|5|7;"),
        ("sum --by minute b a", 0,
         f"minute|{SUMS}0|1|3|180;1970-01-01T00:00Z|1|4|40;2024-02-28T23:59Z|1|1|100;2024-02-29T00:00Z|1|3|180;"
         "2024-02-29T23:59Z|1|2|50;2024-03-01T00:00Z|1|5|7;"),
        ("sum --by 5m a b", 0,
         f"minute|{SUMS}0|1|3|180;1970-01-01T00:00Z|1|4|40;2024-02-28T23:55Z|1|1|100;2024-02-29T00:00Z|1|3|180;"
         "2024-02-29T23:55Z|1|2|50;2024-03-01T00:00Z|1|5|7;"),
        ("sum --by 1440m a b", 0,
         f"minute|{SUMS}0|1|3|180;1970-01-01T00:00Z|1|4|40;2024-02-28T00:00Z|1|1|100;2024-02-29T00:00Z|2|5|230;"
         "2024-03-01T00:00Z|1|5|7;"),
        ("sum --by day --columns a b", 0,
         "       day|records|packets|bytes;         0|      1|      3|  180;1970-01-01|      1|      4|   40;"
         "2024-02-28|      1|      1|  100;2024-02-29|      2|      5|  230;2024-03-01|      1|      5|    7;"),
        ("sum --by day --packets 4- a b", 0, f"day|{SUMS}1970-01-01|1|4|40;2024-03-01|1|5|7;"),
    )),
    ({"a": HOURS}, (
        ("sum --by minute a", 0,
         f"minute|{SUMS}2023-11-14T22:14Z|1|1|10;2023-11-14T22:15Z|1|1|20;2023-11-14T22:59Z|1|1|40;"
         "2023-11-14T23:00Z|1|1|80;"),
        ("sum --by 1m a", 0,
         f"minute|{SUMS}2023-11-14T22:14Z|1|1|10;2023-11-14T22:15Z|1|1|20;2023-11-14T22:59Z|1|1|40;"
         "2023-11-14T23:00Z|1|1|80;"),
        ("sum --by 15m a a", 0,
         f"minute|{SUMS}2023-11-14T22:00Z|2|2|20;2023-11-14T22:15Z|2|2|40;2023-11-14T22:45Z|2|2|80;"
         "2023-11-14T23:00Z|2|2|160;"),
        ("sum --by 0060m a", 0, f"minute|{SUMS}2023-11-14T22:00Z|3|3|70;2023-11-14T23:00Z|1|1|80;"),
        ("sum --by 45m a", 0, f"minute|{SUMS}2023-11-14T21:45Z|2|2|30;2023-11-14T22:30Z|2|2|120;"),
        ("sum --by 720m a", 0, f"minute|{SUMS}2023-11-14T12:00Z|4|4|150;"),
        ("sum --by hour a", 0, f"hour|{SUMS}2023-11-14T22Z|3|3|70;2023-11-14T23Z|1|1|80;"),
        ("sum --by hour --fields proto,sip a a", 0,
         f"hour|proto|sip|{SUMS}2023-11-14T22Z|6|10.0.0.1|6|6|140;2023-11-14T23Z|6|10.0.0.1|2|2|160;"),
        ("sum --by hour --columns --fields proto a", 0,
         "          hour|proto|records|packets|bytes;2023-11-14T22Z|    6|      3|      3|   70;"
         "2023-11-14T23Z|    6|      1|      1|   80;"),
    )),
    # Days that end centuries, and the end of the last year.
    ({"a": timed(flow(COMMON_CENTURY, 1, 1), flow(COMMON_CENTURY - 1, 1, 2), flow(LEAP_CENTURY, 1, 4),
                 flow(LEAP_CENTURY - 1, 1, 8)),
      "b": timed(flow(LAST, 1, 16)), "late": timed(flow(0, 1, 32, "09000001", 17)) + LATE,
      "latest": timed(flow(2**64 - 1))}, (
          ("sum --by day a", 0, f"day|{SUMS}2000-02-28|1|1|8;2000-02-29|1|1|4;2100-02-28|1|1|2;2100-03-01|1|1|1;"),
          ("sum --by day b", 0, f"day|{SUMS}9999-12-31|1|1|16;"),
          ("sum --by hour b", 0, f"hour|{SUMS}9999-12-31T23Z|1|1|16;"),
          ("sum --by minute b", 0, f"minute|{SUMS}9999-12-31T23:59Z|1|1|16;"),
          ("sum --by 5m b", 0, f"minute|{SUMS}9999-12-31T23:55Z|1|1|16;"),
          ("sum --by day b late", 1, fault("late", "S3 StartTooLate at 77")),
          ("sum --by minute --fields proto latest b", 1, fault("latest", "S3 StartTooLate at 0")),
          # Neither without a unit, nor if the row doesn't pass.
          ("sum --fields proto late latest", 0, f"proto|{SUMS}6|2|6|360;17|1|1|32;"),
          ("sum --by day --protocol 17 late latest", 0, f"day|{SUMS}0|1|1|32;"),
          ("messages late", 0, f"{TITLES}1|{AS_FIRST}1|2|77|1|0|1610612736|1|0|1|0|1|0;"),
      )),
    # What each message has.
    ({"two": TWO_DOMAINS, "options": OPTIONS, "biflow": BIFLOW, "no-answer": NO_ANSWER, "withdrawn": WITHDRAWN,
      "long": LONG_FORM, "headers": HEADERS, "no-row": NO_ROW, "empty-answer": EMPTY_ANSWER, "no-bytes": NO_BYTES}, (
          ("messages two options", 0,
           f"{TITLES}1|{AS_FIRST}1|2|68|2|0|1610612736|0|1|0|0|0|0;2|1|0|1|0|1610612736|1|0|0|1|0|0;"),
          ("messages biflow no-answer withdrawn", 0,
           f"{TITLES}1|1|0|1|0|1610612736|1|0|1|0|2|0;2|{AS_FIRST}3|1|0|1|0|1610612736|1|1|0|0|0|0;"),
          ("messages long no-row empty-answer no-bytes", 0,
           f"{TITLES}1|1|0|1|0|1610612736|1|0|1|0|1|1;2|1|0|1|0|1610612736|1|0|1|0|0|0;"
           "3|1|0|1|0|1610612736|1|0|1|0|2|1;4|1|0|1|0|1610612736|1|0|1|0|2|2;"),
          ("messages headers", 0,
           f"{TITLES}1|1|0|9|7|1694498816|0|0|0|0|0|0;"
           "1|2|16|4294967295|4294967295|4294967295|0|0|0|0|0|0;"),
          ("sum --fields sip biflow no-answer", 0, f"sip|{SUMS}8.8.8.8|1|2|100;10.0.0.1|2|6|360;"),
          ("sum --fields sip options no-row", 0, f"sip|{SUMS}"),
          ("sum --fields sip two", 1, fault("two", "S1 SkippedSet at 68")),
          ("sum --fields sip withdrawn", 1, fault("withdrawn", "S1 SkippedSet at 0")),
      )),
    # Nothing is written before the last allocation, also if the output is written in pieces.
    ({"a": MANY_FLOWS, "b": BARE, "cut": CUT}, (
        ("sum --fields sip a a", 0, f"sip|{SUMS}" + "".join(f"{place}|2|6|360;" for place in PLACES)),
        ("sum --by day --fields sip a", 0, f"day|sip|{SUMS}" + "".join(f"0|{place}|1|3|180;" for place in PLACES)),
        ("sum --fields sip a b", 1, fault("b", "S1 SkippedSet at 0")),
        ("sum --fields sip a cut", 1, fault("cut", "F4 TruncatedMessage at 0")),
    )),
    ({"many": 200 * ONE_FLOW, "cut": CUT}, (
        ("messages many", 0, TITLES + "".join(f"1|{number}|{65 * number - 65}|1|0|1610612736|1|0|1|0|1|0;"
                                              for number in range(1, 201))),
        ("messages many cut", 1, fault("cut", "F4 TruncatedMessage at 0")),
    )),
    # The command line.
    ({}, (
        *((f"sum --by={unit} a", 2, usage("--by U4 BadUnit")) for unit in BAD_UNITS),
        ("sum a", 2, usage("P7 KeysMissing")),
        ("sum --allow-skipped --columns a", 2, usage("P7 KeysMissing")),
        ("sum --fields day a", 2, usage("--fields U1 BadField")),
        ("sum --fields sip,hour a", 2, usage("--fields U1 BadField")),
        ("sum --fields sip,sip a", 2, usage("--fields U2 FieldRepeated")),
        ("sum --by 7m --fields sip,sip a", 2, usage("--by U4 BadUnit")),
        ("sum --by day --fields sip,sip a", 2, usage("--fields U2 FieldRepeated")),
        ("sum --fields dst-label a", 2, usage("P5 LabelNeedsMap")),
        ("sum --by day --any-label x a", 2, usage("P5 LabelNeedsMap")),
        ("sum --by 7m --any-label x a", 2, usage("--by U4 BadUnit")),
        ("sum --any-label x a", 2, usage("P7 KeysMissing")),
        ("sum --by day --pmap map.txt --list list.txt a", 2, usage("P3 MapTwice")),
        ("sum --pmap map.txt --list list.txt --by 7m a", 2, usage("P3 MapTwice")),
        ("sum --by day --sport 70000 a", 2, usage("--sport L1 BadNumberList")),
        ("sum --by 7m --bytes 5-4 a", 2, usage("--bytes L2 BadRange")),
        ("sum --saddress 10.0.0 a", 2, usage("--saddress L3 BadBlock")),
        ("sum --fields sip", 2, CLAPS),
        ("sum --by day", 2, CLAPS),
        ("messages", 2, CLAPS),
        ("messages --by day a", 2, CLAPS),
        ("sum --by day --sort-output a", 2, CLAPS),
        ("rows a", 2, CLAPS),
        ("", 2, CLAPS),
        ("--help", 0, CLAPS),
        ("sum --help", 0, CLAPS),
        ("messages --help", 0, CLAPS),
        ("--version", 0, CLAPS),
    )),
)
LINES = tuple((files, tuple((f"{PROGRAM} {words}".strip(), *rest) for words, *rest in lines)) for files, lines in TABLE)

# As in test_worked.py: a line, its files, the one that is cut short, and its fronts.
FRONTS = (
    (f"{PROGRAM} sum --fields sip a b", {"a": ONE_FLOW, "b": LATER}, "b", (
        (0, ONCE), (1, "F1 TruncatedHeader at 0"), (16, "F4 TruncatedMessage at 0"),
        (77, f"sip|{SUMS}9.0.0.1|1|1|100;10.0.0.1|1|3|180;"), (78, "F1 TruncatedHeader at 77"),
        (93, "F4 TruncatedMessage at 77"), (114, "S1 SkippedSet at 77"))),
    (f"{PROGRAM} sum --by day cut a", {"cut": TWO_DOMAINS, "a": ONE_FLOW}, "cut", (
        (0, f"day|{SUMS}0|1|3|180;"), (1, "F1 TruncatedHeader at 0"), (16, "F4 TruncatedMessage at 0"),
        (68, f"day|{SUMS}0|2|6|360;"), (69, "F1 TruncatedHeader at 68"), (84, "F4 TruncatedMessage at 68"),
        (105, "S1 SkippedSet at 68"))),
    (f"{PROGRAM} messages a cut a", {"a": ONE_FLOW, "cut": TWO_DOMAINS}, "cut", (
        (0, f"{TITLES}1|{AS_FIRST}3|{AS_FIRST}"), (1, "F1 TruncatedHeader at 0"), (16, "F4 TruncatedMessage at 0"),
        (68, f"{TITLES}1|{AS_FIRST}2|{AS_FIRST}3|{AS_FIRST}"), (69, "F1 TruncatedHeader at 68"),
        (84, "F4 TruncatedMessage at 68"),
        (105, f"{TITLES}1|{AS_FIRST}2|{AS_FIRST}2|2|68|2|0|1610612736|0|1|0|0|0|0;3|{AS_FIRST}"))),
    (f"{PROGRAM} sum --fields src-label --pmap map.txt a a", {"map.txt": "10.0.0.0/7 B;", "a": ONE_FLOW}, "map.txt", (
        (0, f"src-label|{SUMS}UNKNOWN|2|6|360;"), (1, "M2 BadAddress at 1"), (8, "M6 MissingLabel at 1"),
        (9, "M3 BadLength at 1"), (10, "M6 MissingLabel at 1"), (12, f"src-label|{SUMS}B|2|6|360;"))),
)
