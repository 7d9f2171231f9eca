"""flowlabel-many beside flowlabel and flowlabel-report, over generated sets of Files, and its limits and devices.

A set has one to four Files of random templates, records and messages, some of them damaged. The table of `sum --by`
must be, byte for byte, that of flowlabel-report over what `flowlabel rows` prints of each File, one after the other, if
each row is a record at the time that is worked out here; the table of `sum` that of `flowlabel uniq --sort-output` over
the joined File, if each File has its templates; and the columns of `messages` must add up to the counts of `flowlabel
info` for each File. A fault must be the first one in the order of the Files. Which message of a File it is at follows
from the counts and the rows of the File's fronts.

SETS=2000 tests/run.py many.Generated runs more sets than the usual ones.
"""

import datetime
import os
import random
import re

from program.worked import TWO_FLOWS
from support import MANY, PROGRAM, RECORD, TEMPLATE_SET, Case, command, data_set, ipfix, rows, run, write
from support import message as message_of

SETS = int(os.environ.get("SETS") or 120)
# The number of sets of one test.
PART = 12
SEED = 20261130
FIELDS = ("sip", "dip", "sport", "dport", "proto", "flags", "src-label", "dst-label")
# A unit, and its minutes.
UNITS = (("day", 1440), ("hour", 60), ("minute", 1), ("5m", 5), ("15m", 15), ("45m", 45), ("1440m", 1440), ("1m", 1))
# The columns of units, and what these have after the day.
COLUMNS = {"day": ("day", ""), "hour": ("hour", "T%HZ")}
FILTERS = ("--protocol 6", "--dport 0-1000", "--packets 2-", "--saddress 10.0.0.0/30,2001:db8::/32", "--bytes 1-")
MAP = "mode ipv6\n10.0.0.0/31 A\n10.0.0.2 B\n2001:db8::/126 A\n2001:db8::2 a much longer label than others\n"
# The elements of a row besides its addresses, each with the lengths that a row takes, and one that it doesn't.
ELEMENTS = ((7, (2, 1)), (11, (2,)), (4, (1,)), (6, (1, 2)), (2, (4, 8, 1)), (1, (4, 8, 3)), (152, (8,)), (153, (8,)),
            (5, (1,)), (82, (3,)))
REVERSE = 29305
# Times in milliseconds that are at the ends of units: of the first day of 1970, of a leap day and of the year 9999.
TIMES = (0, 1, 59_999, 60_000, 86_399_999, 86_400_000, 1709164799999, 1709164800000, 1709251199999, 1709251200000,
         1700000099999, 1700000100000, 253402300799999)
LAST = TIMES[-1]


def value_of(rng, element, length):
    """Returns the bytes of a value of an element, of some few so that rows share groups."""
    if element in (8, 12):
        return bytes((10, 0, 0, rng.randrange(4)))
    if element in (27, 28):
        return bytes.fromhex("20010db8") + bytes(11) + bytes((rng.randrange(4),))
    if element in (152, 153):
        late = LAST + 1 if rng.random() < 0.02 else rng.choice(TIMES)
        return (late if rng.random() < 0.5 else rng.randrange(1709164700000, 1709164900000)).to_bytes(8, "big")
    if rng.random() < 0.1:
        return b"\xff" * length
    return rng.choice((0, 1, 6, 17, 80)).to_bytes(length, "big")


def template_of(rng):
    """Returns the fields of a template: addresses of a version, or none, and others, perhaps of both directions."""
    addresses = rng.choice((((8, 4), (12, 4)),) * 3 + (((27, 16), (28, 16)),) * 2 + (((8, 4),),))
    others = [(element, rng.choice(lengths)) for element, lengths in rng.sample(ELEMENTS, rng.randrange(2, 9))]
    if rng.random() < 0.9 and not any(element == 152 for element, _ in others):
        others.append((152, 8))
    if rng.random() < 0.2:
        others += [(2, 4, REVERSE), (1, 4, REVERSE)]
    return [*addresses, *rng.sample(others, len(others))]


class Exporter:
    """What makes the messages of a File. It may use templates that it hasn't sent."""

    def __init__(self, rng):
        self.rng, self.is_sloppy = rng, rng.random() < 0.2
        self.templates = {}

    def parts(self):
        """Yields the sets of a message."""
        rng = self.rng
        for number in rng.sample(range(256, 260), rng.randrange(1, 4)):
            if number not in self.templates and not (self.is_sloppy and rng.random() < 0.4) or rng.random() < 0.1:
                yield self.definition(number)
            if rng.random() < 0.05:
                self.templates.pop(number, None)
                yield ipfix.sets(2, number.to_bytes(2, "big") + bytes(2))
            elif self.is_sloppy or number in self.templates:
                fields = self.templates.get(number, [(4, 1)])
                body = b"".join(value_of(rng, element, length) for _ in range(rng.randrange(6))
                                for element, length, *_ in fields)
                yield ipfix.sets(number, body)

    def definition(self, number):
        """Returns a template set, of flows or of options."""
        self.templates[number] = template_of(self.rng)
        return ipfix.template(number, *self.templates[number], scopes=self.rng.random() < 0.1)

    def file(self):
        """Returns a File."""
        rng, messages = self.rng, []
        for number in range(rng.choice((0, 1, 1, 2, 3, 4))):
            messages.append(ipfix.message(*self.parts(), number=rng.choice((0, number, 2**32 - 1)),
                                          domain=1, time=rng.choice((0, 0x60000000, 2**32 - 1))))
        whole = b"".join(messages)
        return whole[:rng.randrange(len(whole))] if whole and rng.random() < 0.04 else whole


def fronts(name):
    """Yields the offset of each message of a File, and the front that ends with it."""
    whole, offset = open(name, "rb").read(), 0
    while offset < len(whole):
        end = offset + int.from_bytes(whole[offset + 2:offset + 4], "big")
        yield offset, whole[:end]
        offset = end


def counts_of(name):
    """Returns the counts that `info` prints."""
    lines = run(PROGRAM, "info", name).stdout.decode().splitlines()
    return {key: int(count) for key, count in map(str.split, lines)}


def starts_in(table):
    """Returns the starts of rows, as a text of `rows` has them."""
    return [int(line.split(b"|")[8]) for line in table.splitlines()[1:]]


class Wanted:
    """What flowlabel and flowlabel-report make of the Files, one after the other."""

    def __init__(self, names, words, is_by, is_allowed):
        self.fault, self.rows, self.is_whole = None, b"", True
        for name in names:
            ended = run(PROGRAM, "rows", *words, name)
            self.fault = ended.stderr or self.refusal(name, words, ended.stdout, is_by, is_allowed)
            if self.fault:
                return
            self.rows += ended.stdout if not self.rows else ended.stdout.split(b"\n", 1)[1]
            self.is_whole &= counts_of(name)["skipped-sets"] == 0

    @staticmethod
    def refusal(name, words, table, is_by, is_allowed):
        """Returns the line of the fault of the File's messages, or None."""
        is_late = is_by and any(start > LAST for start in starts_in(table))
        if not is_late and (is_allowed or counts_of(name)["skipped-sets"] == 0):
            return None
        for offset, front in fronts(name):
            write("front", front)
            if not is_allowed and counts_of("front")["skipped-sets"] > 0:
                return f"flowlabel: {name}: S1 SkippedSet at {offset}\n".encode()
            if is_late and any(start > LAST for start in starts_in(run(PROGRAM, "rows", *words, "front").stdout)):
                return f"flowlabel: {name}: S3 StartTooLate at {offset}\n".encode()
        raise AssertionError("no front has the fault")

    def table(self, unit, minutes, fields):
        """Returns the sums of the rows, which flowlabel-report adds up: by fields, or of a table of sums by time."""
        if not unit:
            write("table", self.rows)
            return run(command("report"), "--fields", ",".join(fields), "table", check=True).stdout
        column, form = COLUMNS.get(unit, ("minute", "T%H:%MZ"))
        header, *lines = [line.split("|") for line in self.rows.decode().splitlines()]
        table = ["|".join((column, *fields, "records", "packets", "bytes"))]
        for row in (dict(zip(header, line)) for line in lines):
            start = int(row["stime"])
            begin = datetime.datetime(1970, 1, 1) + datetime.timedelta(milliseconds=start - start % (60_000 * minutes))
            time = f"{begin:%Y-%m-%d{form}}" if start else "0"
            table.append("|".join((time, *map(row.get, fields), "1", row["packets"], row["bytes"])))
        write("table", "\n".join(table) + "\n")
        return run(command("report"), "table", check=True).stdout


class Generated(Case):
    """Sets of Files."""
    is_long = True

    @classmethod
    def prepare(cls):
        write("map.txt", MAP)

    @rows(*((start,) for start in range(0, SETS, PART)))
    def test_sets(self, start):
        for number in range(start, min(start + PART, SETS)):
            rng = random.Random(SEED + number)
            exporters = (Exporter(rng) for _ in range(rng.randrange(1, 5)))
            names = [write(f"file-{place}", exporter.file()) for place, exporter in enumerate(exporters)]
            if rng.random() < 0.2:
                names.append(names[0])
            with self.subTest(set=number):
                self.check_sum(rng, names)
                self.check_messages(names)

    def check_sum(self, rng, names):
        """Checks `sum` with a unit and fields, with fields alone, and beside `uniq` over the joined File."""
        allowed = ["--allow-skipped"] * rng.randrange(2)
        source = ["--pmap", "map.txt"] * rng.randrange(2)
        filters = rng.choice(FILTERS).split() * (rng.random() < 0.3)
        fields = rng.sample(FIELDS if source else FIELDS[:6], rng.randrange(0, 4))
        unit, minutes = rng.choice(UNITS)
        given = ["--fields", ",".join(fields)] if fields else []
        words = [*source, *filters]
        self.check_table(["--by", unit, *given, *words, *allowed, *names],
                         Wanted(names, words, True, allowed), unit, minutes, fields)
        if fields:
            wanted = Wanted(names, words, False, allowed)
            self.check_table([*given, *words, *allowed, *names], wanted, None, None, fields)
            if not wanted.fault and wanted.is_whole:
                joined = write("joined", b"".join(open(name, "rb").read() for name in names))
                self.assertEqual(run(MANY, "sum", *given, *words, *names).stdout,
                                 run(PROGRAM, "uniq", *given, *words, "--sort-output", joined, check=True).stdout)

    def check_table(self, words, wanted, unit, minutes, fields):
        """Checks a line of `sum`."""
        ended = run(MANY, "sum", *words)
        if wanted.fault:
            fault = wanted.fault.replace(b"flowlabel:", b"flowlabel-many:", 1)
            self.assertEqual((ended.returncode, ended.stdout, ended.stderr), (1, b"", fault), words)
        else:
            table = wanted.table(unit, minutes, fields)
            self.assertEqual((ended.returncode, ended.stdout, ended.stderr), (0, table, b""), words)

    def check_messages(self, names):
        """Checks that the lines of each File add up to its counts."""
        ended = run(MANY, "messages", *names)
        faulty = [line for name in names if (line := run(PROGRAM, "info", name).stderr)]
        if faulty:
            fault = faulty[0].replace(b"flowlabel:", b"flowlabel-many:", 1)
            self.assertEqual((ended.returncode, ended.stdout, ended.stderr), (1, b"", fault))
            return
        title, *lines = [line.split("|") for line in ended.stdout.decode().splitlines()]
        lines = [dict(zip(title, map(int, line))) for line in lines]
        for number, name in enumerate(names, 1):
            counts, own = counts_of(name), [line for line in lines if line["file"] == number]
            sums = {key: sum(line[key] for line in own) for key in title[6:]}
            self.assertEqual([line["message"] for line in own], [*range(1, counts["messages"] + 1)])
            self.assertEqual([line["offset"] for line in own], [offset for offset, _ in fronts(name)])
            self.assertEqual(sums["definitions"], counts["templates"] + counts["options-templates"])
            for key in ("skipped-sets", "records", "options-records", "rows"):
                self.assertEqual(sums[key], counts[key], key)
            without = sum(line.split(b"|")[7] == b"0" for line in run(PROGRAM, "rows", name).stdout.splitlines()[1:])
            self.assertEqual(sums["zero-bytes"], without)
            headers = [(line["sequence"], line["domain"], line["time"]) for line in own]
            self.assertEqual(headers, [header_of(front[offset:]) for offset, front in fronts(name)])


def header_of(message):
    """Returns the sequence number, the domain and the time of a message."""
    time, number, domain = (int.from_bytes(message[place:place + 4], "big") for place in (4, 8, 12))
    return number, domain, time


class Many(Case):
    """Many Files, large ones, and devices in place of Files."""

    @classmethod
    def prepare(cls):
        write("flows", message_of(TEMPLATE_SET, data_set(256, RECORD)))
        write("two", bytes.fromhex(TWO_FLOWS))
        os.mkdir("folder")

    def test_ten_thousand_files(self):
        """Each is closed before the next is opened, so 64 descriptors are enough."""
        names = [f"f{number}" for number in range(10_000)]
        content = open("flows", "rb").read()
        for name in names:
            write(name, content)
        limit = "ulimit -n 64; "
        self.expect(["flowlabel-many", "sum", "--fields", "sip", *names], 0,
                    "sip|records|packets|bytes\n10.0.0.1|10000|30000|1800000\n", before=limit)
        lines = re.compile(rb"file\|[a-z|-]+\n(?:\d+\|1\|0\|1\|0\|1610612736\|1\|0\|1\|0\|1\|0\n){10000}")
        self.expect(["flowlabel-many", "messages", *names], 0, lines, before=limit)
        self.expect(["flowlabel-many", "sum", "--by", "day", *names, "missing"], 4, "",
                    "flowlabel-many: missing: cannot open\n", before=limit)

    def test_memory(self):
        """Only one message is held, and the groups: of 3,000,000 records in three Files."""
        write("bulk", message_of(TEMPLATE_SET) + message_of(data_set(256, *[RECORD] * 3000)) * 333)
        limit = "ulimit -v 30000; "
        self.expect("flowlabel-many sum --by day --fields proto bulk bulk bulk", 0,
                    "day|proto|records|packets|bytes\n0|6|2997000|8991000|539460000\n", before=limit)
        self.expect("flowlabel-many sum --fields proto flows --pmap /dev/zero", 3, "",
                    "flowlabel-many: out of memory\n", before="ulimit -v 100000; ")
        self.expect("flowlabel-many messages flows /dev/zero", 1, "",
                    "flowlabel-many: /dev/zero: F2 BadVersion at 0\n", before=limit)

    def test_no_text(self):
        """A word that isn't UTF-8."""
        word = os.fsdecode(b"\xff\xfe")
        for words in ([word], ["sum", "--by", word, "flows"], ["messages", "flows", word]):
            self.expect(["flowlabel-many", *words], 2, "", "flowlabel-many: usage: P1 NotUtf8\n")

    @rows(("sum --fields sip flows two",), ("sum --by 5m flows",), ("messages flows two",))
    def test_output(self, words):
        """A full disk, and a closed output."""
        for output in (">/dev/full", ">&-"):
            self.expect(f"flowlabel-many {words}", 4, "", "flowlabel-many: output: cannot write\n", after=output)

    @rows(("flows folder two", "folder: cannot read"), ("flows folder/none two", "folder/none: cannot open"),
          ("flows flows/below", "flows/below: cannot open"),
          ("two /proc/self/mem flows", "/proc/self/mem: cannot read"))
    def test_device(self, names, why):
        for words in ("sum --fields sip", "sum --by hour --allow-skipped", "messages"):
            self.expect(f"flowlabel-many {words} {names}", 4, "", f"flowlabel-many: {why}\n")

    def test_names(self):
        """Names that other programs take for standard input, or trim."""
        for name in ("-", " of Monday\t"):
            write(name, open("flows", "rb").read())
            self.expect(["flowlabel-many", "sum", "--fields", "proto", "flows", name], 0,
                        "proto|records|packets|bytes\n6|2|6|360\n")
