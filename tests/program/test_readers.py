"""`rows` and `info` beside what tshark and libfixbuf's ipfixDump decode.

For each File the two readers report the fields of each record. From these the lines of `rows` are derived by the rules
of docs/FORMATS.md, and compared with the output of the program. The counts of `info` are compared too: tshark reports
all nine, and ipfixDump all except those of data sets and withdrawals. The Files have no withdrawals and no enterprise
fields other than those of the reverse direction.
"""

import re
from collections import Counter
from datetime import datetime, timedelta, timezone
from ipaddress import ip_address
from xml.etree import ElementTree

from support import PROGRAM, ROOT, TITLE, Case, needs, rows, run

COUNTS = ("messages", "templates", "options-templates", "withdrawals", "data-sets", "skipped-sets", "records",
          "options-records", "rows")
# The allowed lengths of the element with each number.
COUNTER = range(1, 9)
LENGTHS = {1: COUNTER, 2: COUNTER, 85: COUNTER, 86: COUNTER, 4: (1,), 6: (1, 2), 7: (1, 2), 11: (1, 2), 8: (4,),
           12: (4,), 27: (16,), 28: (16,), 152: (8,), 153: (8,)}
# The elements of the columns after the addresses. The first one that a record has is used.
COLUMNS = ((7,), (11,), (4,), (6,), (2, 86), (1, 85), (152,), (153,))
# The enterprise number of the elements of the reverse direction (RFC 5103), which this script numbers from here on.
REVERSE = 29305
BACK = 1 << 16
# The columns of a second row: ports are exchanged, and a missing time is that of the first row.
COLUMNS_BACK = ((11,), (7,), (4,), (BACK + 6,), (BACK + 2, BACK + 86), (BACK + 1, BACK + 85), (BACK + 152, 152),
                (BACK + 153, 153))
# The names of the elements in tshark, which has the same name for a delta and a total.
TSHARK_NAMES = {"srcaddr": 8, "dstaddr": 12, "srcaddrv6": 27, "dstaddrv6": 28, "srcport": 7, "dstport": 11,
                "protocol": 4, "tcpflags": 6, "packets": 2, "octets": 1, "abstimestart": 152, "abstimeend": 153}


def milliseconds(text, form):
    """Returns the milliseconds since 1970 of a UTC time."""
    epoch = datetime.fromtimestamp(0, timezone.utc)
    return (datetime.strptime(text, form).replace(tzinfo=timezone.utc) - epoch) // timedelta(milliseconds=1)


def element(enterprise, number):
    """Returns the number of an element in this script, or None for an element of another enterprise."""
    return {0: number, REVERSE: BACK + number}.get(enterprise)


def first_of(values, numbers):
    """Returns the first value that exists, otherwise 0."""
    return next((values[number] for number in numbers if number in values), 0)


def line_of(addresses, values, columns):
    """Returns the line of `rows` with these addresses."""
    return "|".join([*addresses, *(str(first_of(values, column)) for column in columns)])


def lines_of(fields):
    """Returns the lines of `rows` for a record's fields, each a number, a length and a value."""
    values = {}
    for number, length, value in fields:
        if number is not None and length in LENGTHS.get(number % BACK, ()):
            values.setdefault(number, value)
    for pair in ((8, 12), (27, 28)):
        if all(number in values for number in pair):
            addresses = [str(ip_address(values[number])) for number in pair]
            lines = [line_of(addresses, values, COLUMNS)]
            if first_of(values, (BACK + 2, BACK + 86)) != 0:
                lines.append(line_of(addresses[::-1], values, COLUMNS_BACK))
            return lines
    return []


class Decoded:
    """The content of a File as a reader reports it: the lines of its rows, and counts by their names."""

    def __init__(self):
        self.lines = []
        self.counts = Counter(dict.fromkeys(COUNTS, 0))

    def add_record(self, is_options, fields):
        self.counts["options-records" if is_options else "records"] += 1
        lines = [] if is_options else lines_of(fields)
        self.counts["rows"] += len(lines)
        self.lines += lines


def dumped_value(number, text):
    """Returns a value of ipfixDump."""
    if number in (8, 12, 27, 28):
        return text
    if number in (152, 153):
        return milliseconds(text, "%Y-%m-%d %H:%M:%S.%f")
    return int(text) if text.isdigit() else None


def by_ipfix_dump(file):
    """Returns what ipfixDump decodes."""
    text = run("ipfixDump", "--in", file, check=True).stdout.decode(errors="replace")
    decoded = Decoded()
    templates = {}
    domain = None
    for part in re.split(r"(?m)^(?=--- )", text):
        if part.startswith("--- Message Header"):
            decoded.counts["messages"] += 1
            domain = re.search(r"domain id: (\d+)", part)[1]
        elif "template record ---" in part:
            is_options = part.startswith("--- options")
            decoded.counts["options-templates" if is_options else "templates"] += 1
            found = re.findall(r"(?m)^\tent: +(\d+)  id: +(\d+) .* len: +(\d+) ", part)
            fields = [tuple(map(int, field)) for field in found]
            templates[domain, re.search(r"tid: +(\d+)", part)[1]] = is_options, fields
        elif part.startswith("--- data record"):
            is_options, fields = templates[domain, re.search(r"tid: +(\d+)", part)[1]]
            values = re.findall(r"(?m)^\t\((?:\d+/)?(\d+)\)[^:]* : (.*)$", part)
            assert [number for _, number, _ in fields] == [int(number) for number, _ in values], part
            decoded.add_record(is_options, [(element(enterprise, number), length, dumped_value(number, text))
                                            for (enterprise, number, length), (_, text) in zip(fields, values)])
    return decoded


def shark_value(number, text):
    """Returns a value of tshark."""
    if number in (8, 12, 27, 28):
        return text
    if number in (152, 153):
        # It prints nanoseconds, and a time has at most microseconds here.
        return milliseconds(text.removesuffix("000 UTC"), "%b %d, %Y %H:%M:%S.%f")
    return int(text, 0)


def by_tshark(file):
    """Returns what tshark decodes."""
    pdml = run("tshark", "-r", file, "-T", "pdml", check=True).stdout
    decoded = Decoded()
    kinds = {}
    for message in ElementTree.fromstring(pdml).iter("proto"):
        if message.get("name") != "cflow":
            continue
        decoded.counts["messages"] += 1
        domain = message.find("field[@name='cflow.od_id']").get("show")
        for part in message.findall("field"):
            if part.get("show", "").startswith("Set "):
                add_shark_set(decoded, kinds, domain, part)
    return decoded


def add_shark_set(decoded, kinds, domain, part):
    """Adds what tshark reports about a set."""
    number = int(part.find("field[@name='cflow.flowset_id']").get("show"))
    if number in (2, 3):
        for template in part.findall("field"):
            found = re.match(r"(Options )?Template \(Id = (\d+)", template.get("show", ""))
            if found:
                decoded.counts["options-templates" if found[1] else "templates"] += 1
                kinds[domain, int(found[2])] = bool(found[1])
        return
    if (domain, number) not in kinds:
        decoded.counts["skipped-sets"] += 1
        return
    decoded.counts["data-sets"] += 1
    for record in part.findall("field"):
        if record.get("show", "").startswith("Flow "):
            decoded.add_record(kinds[domain, number], [*shark_fields(record)])


def shark_fields(record):
    """Yields what tshark reports about each field of a record: its element, its length and its value."""
    for field in record.iter("field"):
        if known := TSHARK_NAMES.get(field.get("name").removeprefix("cflow.")):
            enterprise = REVERSE if "(Reverse Type " in field.get("showname") else 0
            yield element(enterprise, known), int(field.get("size")), shark_value(known, field.get("show"))


FILES = [(path.name,) for path in sorted((ROOT / "examples").glob("*.ipfix"))]


class Readers(Case):
    """The Files of real exporters."""

    def compare(self, name, decoded, unknown=()):
        """Compares the rows and the counts of a File with those of a reader, which doesn't report UNKNOWN counts."""
        lines, counts = (run(PROGRAM, command, ROOT / "examples" / name, check=True).stdout.decode()
                         for command in ("rows", "info"))
        self.assertEqual(lines, TITLE + "".join(f"{line}\n" for line in decoded.lines))
        found = dict(line.split(" ") for line in counts.splitlines())
        self.assertEqual([*found], [*COUNTS])
        self.assertEqual({count: int(found[count]) for count in COUNTS if count not in unknown},
                         {count: decoded.counts[count] for count in COUNTS if count not in unknown})

    @needs("tshark")
    @rows(*FILES)
    def test_tshark(self, name):
        self.compare(name, by_tshark(ROOT / "examples" / name))

    @needs("ipfixDump")
    @rows(*FILES)
    def test_ipfix_dump(self, name):
        self.compare(name, by_ipfix_dump(ROOT / "examples" / name), ("data-sets", "skipped-sets", "withdrawals"))
