"""flowlabel-report on small tables, and on tables of flowlabel.

Sums must equal those of `uniq`. A table of a command that fails, or is killed, must never be summed. With mawk,
1,000,000 rows must take at most four times the CPU time of `cut` and a sum of mawk.
"""

import collections
import csv
import decimal
import io
import json
import operator
import os
import re
import resource
import shutil
import signal
import subprocess
import sys
import unittest

from support import MANY, PROGRAM, ROOT, Case, closed_pipe, command, inside, made, not_in_ci, outcome, processes
from support import read_bytes, rows, run, write, write_program

REPORT = command("report")
MAP, TIMED = ROOT / "examples/customers.txt", ROOT / "examples/softflowd-milli.ipfix"
ROWS = b"sip|dip|sport|dport|proto|flags|packets|bytes|stime|etime|src-label|dst-label\n"
# 2023-11-14T22:13:59.999Z, the next millisecond, the next day, an unknown time, and a time after the year 9999.
FIVE = ROWS + b"""10.0.0.1|10.0.0.2|1|2|6|2|1|18446744073709551615|1700000039999|1700000040000|A|B
10.0.0.1|::2|1|2|17|511|2|18446744073709551615|1700000040000|0|A|C
9.0.0.1|10.0.0.2|1|3|6|255|4294967295|3|1700086440000|1700086440000|B|A
9.0.0.1|10.0.0.2|1|10|6|1024|4294967295|1|0|0|B|
::1|10.0.0.2|1|10|6|0|1|0|253402300800000|253402300800000||A
"""
ODD = (b'src-label|records|packets|bytes\nsaid "no", twice|1|2|3\n\xff\xfe,|4|5|6\nNA|7|8|9\na|b|10|11|12\n'
       b'5" pipe|13|14|15\n')
DAYS = (b"day|dst-label|records|packets|bytes\n10000-01-01|A|1|2|3\n2023-11-15|B|1|2|4\n2023-11-15|A|1|2|5\n0|A|1|2|6\n"
        b"1970-01-01|A|1|2|7\n2023-11-15|A|1|2|8\n")
# An unknown time, an hour of UTC and two of a time zone, in the order of time.
HOURS = b"""hour|src-label|dst-label|records|packets|bytes
0|A|B|1|1|450
2026-10-25T02+02:00|A|B|1|9|900
2026-10-25T02+01:00|A|B|2|18|1800
2026-10-25T02+01:00|B|A|4|36|3600
"""
MINUTES = b"minute|records|packets|bytes\n2023-11-14T22:13Z|1|2|3\n"
PAIRS = b"src-label|dst-label|records|packets|bytes\nA|B|1|10|700\nB|A|2|20|200\nA|C|3|30|100\nC|C|4|40|1\n"
BIG = b"dip|records|packets|bytes\n10.0.0.10|1|1|340282366920938463463374607431768211456\n9.0.0.1|2|2|1\n"
# The options, the input and the output.
TABLES = (
    ("--fields sip,proto", FIVE, b"sip|proto|records|packets|bytes\n9.0.0.1|6|2|8589934590|4\n"
     b"10.0.0.1|6|1|1|18446744073709551615\n10.0.0.1|17|1|2|18446744073709551615\n::1|6|1|1|0\n"),
    ("--both", FIVE, b"label|in-records|in-packets|in-bytes|out-records|out-packets|out-bytes\n"
     b"|1|4294967295|1|1|1|0\nA|2|4294967296|3|2|3|36893488147419103230\n"
     b"B|1|1|18446744073709551615|2|8589934590|4\nC|1|2|18446744073709551615|0|0|0\n"),
    ("--rows --except A --side src", FIVE, ROWS
     + b"9.0.0.1|10.0.0.2|1|3|6|FSRPAUEC|4294967295|3|2023-11-15T22:14:00.000Z|2023-11-15T22:14:00.000Z|B|A\n"
     + b"9.0.0.1|10.0.0.2|1|10|6|+1024|4294967295|1|0|0|B|\n"
     + b"::1|10.0.0.2|1|10|6||1|0|10000-01-01T00:00:00.000Z|10000-01-01T00:00:00.000Z||A\n"),
    ("--fields dport --side dst --label C --json", FIVE,
     b'{"dport": 2, "records": 1, "packets": 2, "bytes": 18446744073709551615}\n'),
    # Flags are letters in rows, and a number in sums.
    ("--rows --side dst --label C --json", FIVE,
     b'{"sip": "10.0.0.1", "dip": "::2", "sport": 1, "dport": 2, "proto": 17, "flags": "FSRPAUECN", "packets": 2, '
     b'"bytes": 18446744073709551615, "stime": "2023-11-14T22:14:00.000Z", "etime": "0", "src-label": "A", '
     b'"dst-label": "C"}\n'),
    ("--fields flags --side dst --label C --json", FIVE,
     b'{"flags": 511, "records": 1, "packets": 2, "bytes": 18446744073709551615}\n'),
    ("--both --top 2", PAIRS, b"label|in-records|in-packets|in-bytes|out-records|out-packets|out-bytes|percent\n"
     b"A|2|20|200|4|40|800|49.95\nB|1|10|700|2|20|200|44.96\n"),
    ("--both --seconds=7 --label B,C", PAIRS, b"label|in-records|in-packets|in-bytes|out-records|out-packets|out-bytes|"
     b"in-bits/s|in-packets/s|out-bits/s|out-packets/s\nB|1|10|700|2|20|200|800.00|1.43|228.57|2.86\n"
     b"C|7|70|101|4|40|1|115.43|10.00|1.14|5.71\n"),
    ("--fields dst-label --share", PAIRS, b"dst-label|records|packets|bytes|percent\nA|2|20|200|19.98\n"
     b"B|1|10|700|69.93\nC|7|70|101|10.09\n"),
    ("--except C --side dst", PAIRS, b"src-label|dst-label|records|packets|bytes\nA|B|1|10|700\nB|A|2|20|200\n"),
    ("--top 1", BIG, b"dip|records|packets|bytes|percent\n"
     b"10.0.0.10|1|1|340282366920938463463374607431768211456|100.00\n"),
    ("", BIG + BIG.split(b"\n", 1)[1], b"dip|records|packets|bytes\n9.0.0.1|4|4|2\n"
     b"10.0.0.10|2|2|680564733841876926926749214863536422912\n"),
    ("--fields proto", ROWS, b"proto|records|packets|bytes\n"),
    ("--top 3 --csv", b"dip|records|packets|bytes\n", b"dip,records,packets,bytes,percent\r\n"),
    ("--json", b"dip|records|packets|bytes\n", b""),
    ("--share", b"dip|records|packets|bytes\n::|1|0|0\n", b"dip|records|packets|bytes|percent\n::|1|0|0|0.00\n"),
    ("", DAYS, b"day|dst-label|records|packets|bytes\n0|A|1|2|6\n1970-01-01|A|1|2|7\n2023-11-15|A|2|4|13\n"
     b"2023-11-15|B|1|2|4\n10000-01-01|A|1|2|3\n"),
    ("--fields day --except B --side dst --csv", DAYS, b"day,records,packets,bytes\r\n0,1,2,6\r\n1970-01-01,1,2,7\r\n"
     b"2023-11-15,2,4,13\r\n10000-01-01,1,2,3\r\n"),
    ("--json --label B --side dst", DAYS,
     b'{"day": "2023-11-15", "dst-label": "B", "records": 1, "packets": 2, "bytes": 4}\n'),
    # Each time has its own lines of labels.
    ("--both", HOURS, b"hour|label|in-records|in-packets|in-bytes|out-records|out-packets|out-bytes\n"
     b"0|A|0|0|0|1|1|450\n0|B|1|1|450|0|0|0\n2026-10-25T02+02:00|A|0|0|0|1|9|900\n2026-10-25T02+02:00|B|1|9|900|0|0|0\n"
     b"2026-10-25T02+01:00|A|4|36|3600|2|18|1800\n2026-10-25T02+01:00|B|2|18|1800|4|36|3600\n"),
    ("--both --label A --top 1 --seconds 900", HOURS, b"hour|label|in-records|in-packets|in-bytes|out-records|"
     b"out-packets|out-bytes|percent|in-bits/s|in-packets/s|out-bits/s|out-packets/s\n"
     b"2026-10-25T02+01:00|A|4|36|3600|2|18|1800|80.00|32.00|0.04|16.00|0.02\n"),
    ("--rates --fields hour", HOURS, b"hour|records|packets|bytes|bits/s|packets/s\n0|1|1|450|1.00|0.00\n"
     b"2026-10-25T02+02:00|1|9|900|2.00|0.00\n2026-10-25T02+01:00|6|54|5400|12.00|0.02\n"),
    ("--rates --label A --side dst", DAYS.replace(b"|A|1|2|7", b"|A|1|4320|54000"),
     b"day|dst-label|records|packets|bytes|bits/s|packets/s\n0|A|1|2|6|0.00|0.00\n1970-01-01|A|1|4320|54000|5.00|0.05\n"
     b"2023-11-15|A|2|4|13|0.00|0.00\n10000-01-01|A|1|2|3|0.00|0.00\n"),
    ("--json --strings --top 1", BIG, b'{"dip": "10.0.0.10", "records": "1", "packets": "1", '
     b'"bytes": "340282366920938463463374607431768211456", "percent": "100.00"}\n'),
)
# The options, the input and a part of the message.
FAULTS = (
    ("", b"", "there is no table"), ("", b"low|high|label\n", "no header"),
    ("", b"dip|records|packets|bytes", "no header"),
    ("", b"  dip|records|packets|bytes\n", "no header"), ("", b"dip|dip|records|packets|bytes\n", "no header"),
    ("", b"\x1f\x8b\x08\x00\n\xff", "no header"), ("", BIG[:-3], "line 3: the table is cut short"),
    ("", BIG[:-1], "line 3: the table is cut short"), ("", BIG + b"9.0.0.1|1|1\n", "line 4: 3 cells instead of 4"),
    ("", BIG + b"\n", "line 4: 1 cells instead of 4"), ("", BIG + b"9.0.0.1|1||1\n", "line 4: a cell"),
    ("", BIG + b"9.0.0.1|1|-1|1\n", "line 4: a cell"), ("", BIG + b"9.0.0.1|1|1_0|1\n", "line 4: a cell"),
    ("", BIG + b"9.0.0|1|1|1\n", "line 4: a cell"), ("", BIG + b"9.0.0.1\0|1|1|1\n", "line 4: a cell"),
    ("", BIG + b"9.0.0.1| 1|1|1\n", "line 4: a cell"), ("", BIG + b"a|b|1|1|1\n", "line 4: 5 cells instead of 4"),
    ("", BIG * 20000, "line 4: a cell"),
    ("", BIG + BIG.splitlines(True)[1] * 20000 + b"9.0.0.1|1||1\n", "line 20004: a"),
    ("", BIG + BIG.splitlines(True)[1] * 20000 + b"9.0.0.300|1|1|1\n", "line 20004: a cell"),
    ("", BIG + BIG.splitlines(True)[1] * 20000 + b"9.0.0.1|1|1\n", "line 20004: 3 cells"),
    ("", BIG + BIG.splitlines(True)[1] * 20000 + b"9.0.0.1|1|1|1", "line 20004: the table is cut short"),
    ("", DAYS + b"2023-11-15T00Z|A|1|2|3\n", "line 8: a cell"), ("", DAYS + b"00|A|1|2|3\n", "line 8: a cell"),
    ("", b"dst-label|day|records|packets|bytes\n", "no header"),
    ("--fields hour", DAYS, "no column hour"), ("", PAIRS + b"A|B|1\n", "line 6: 3 cells"),
    ("", PAIRS + b"A|B|C|1|1|1\n", "line 6: 6 cells instead of 5: a label has a |"),
    # The length of the time is unknown, or the time isn't among the columns.
    *((f"--rates {words}", table, "--rates needs sums by a time, and of a known length: write --seconds N")
      for words, table in (("", MINUTES), ("--fields dst-label", DAYS), ("", PAIRS), ("--both", PAIRS),
                           ("--fields proto", FIVE), ("--both", FIVE))),
    ("--rows", FIVE + FIVE.splitlines(True)[1].replace(b"1700", b"x"), "line 7: a cell"),
    ("--except A --side src --fields sport", FIVE + FIVE.splitlines(True)[4].replace(b"|1|10|", b"|q|10|"),
     "line 7: a cell"),
    ("--rows", FIVE + FIVE.splitlines(True)[1].replace(b"|6|", b"|x|"), "line 7: a cell"),
    ("", FIVE, "name the groups"), ("--fields proto", PAIRS, "no column proto"),
    ("--label A", PAIRS, "two labels"), ("--label A", BIG, "no such label"), ("--both", BIG, "no column sip"),
    ("--rows", BIG, "needs a table of `rows`"),
)
USAGES = ("--by day", "--by=day -- rows f", "--top x", "--top -1", "--csv --json", "--rates --seconds=1",
          "--seconds=0", "--both --fields sip", "--none",
          "--fields bytes", "--fields sip,sip", "a b", "--rows --top 3", "--both --side src", "--strings", "--",
          "-- info f", "-- /bin/true", "a -- rows f")
# A program that prints the first lines of a table, and then ends in another way.
CUT = """#!/bin/sh
head -n 3 table
echo "flowlabel: table: why" >&2
[ "${0##*/}" != hold ] || { : >held; exec sleep 3600; }
%s
"""
HUNDREDTH = decimal.Decimal("0.01")
MAWK = """cut -d '|' -f 8,12 rows.txt \
    | mawk -F '|' '{ sum[$2] += $1 } END { for (label in sum) print label, sum[label] }'"""


def report(words, given=b"", **options):
    """Runs the command, and returns its status and its two outputs."""
    return inside.outcome("report", *words, input=given, **options)


class SmallTables(Case):
    """Small tables, and faults in them."""

    @rows(*TABLES)
    def test_table(self, options, given, wanted):
        self.assertEqual(report(options.split(), given), (0, wanted, b""))

    @rows(*FAULTS)
    def test_fault(self, options, given, message):
        status, output, error = report(options.split(), given)
        self.assertEqual((status, output, error.count(b"\n")), (1, b"", 1))
        self.assertIn(message, error.decode())

    @rows(*zip(USAGES))
    def test_usage(self, options):
        status, output, error = report(options.split(), PAIRS)
        self.assertEqual((status, output, error.count(b"\n")), (2, b"", 1))

    def test_more_pairs_than_are_kept_at_a_time(self):
        lines = (b"10.0.%d.0|10.1.%d.%d|1|%d|%d\n" % (a, *divmod(b, 256), a, b) for a in range(256) for b in range(400))
        _, output, _ = report(["--both"],
                              b"sip|dip|records|packets|bytes\n" + b"".join(lines) + b"10.0.0.0|10.0.0.0|9|9|9\n")
        sent = [f"10.0.{a}.0|{9 * (a == 0)}|{9 * (a == 0)}|{9 * (a == 0)}|"
                f"{400 + 9 * (a == 0)}|{400 * a + 9 * (a == 0)}|{sum(range(400)) + 9 * (a == 0)}" for a in range(256)]
        self.assertEqual(output.decode().split("\n")[1:-1],
                         sent + [f"10.1.{b // 256}.{b % 256}|256|{sum(range(256))}|{256 * b}|0|0|0"
                                 for b in range(400)])


class Labels(Case):
    """Labels that need quotes or aren't UTF-8, and those that no line has."""
    cells = {tuple(line.rsplit(b"|", 3)) for line in ODD.splitlines()}

    def test_order(self):
        self.assertEqual(report([], ODD)[1].splitlines(), [ODD.splitlines()[place] for place in (0, 5, 3, 4, 1, 2)])

    def test_csv(self):
        text = report(["--csv"], ODD)[1]
        # RFC 4180, section 2: a field with a quote is in quotes, and the quote is doubled.
        self.assertIn(b'\r\n"5"" pipe",13,14,15\r\n', text)
        self.assertEqual(text.count(b"\r\n"), text.count(b"\n"))
        read = csv.reader(io.StringIO(text.decode("latin-1"), newline=""), strict=True)
        self.assertEqual({tuple(cell.encode("latin-1") for cell in row) for row in read}, self.cells)

    def test_json(self):
        objects = [json.loads(line) for line in report(["--json"], ODD)[1].decode("ascii").splitlines()]
        values = {(one["src-label"].encode("utf-8", "surrogateescape"), one["records"], one["packets"], one["bytes"])
                  for one in objects}
        self.assertEqual(values, {(key, *map(int, rest)) for key, *rest in self.cells if rest[0].isdigit()})

    def test_commas(self):
        status, output, error = report(["--label", 'said "no"\\, twice,NA', "--label", "no\tone"], ODD)
        self.assertEqual(output.splitlines()[1:], [b"NA|7|8|9", b'said "no", twice|1|2|3'])
        self.assertEqual((status, error), (0, b"flowlabel-report: no line has the label 'no\\x09one'\n"))

    def test_no_utf_8(self):
        status, output, error = report(["--except", os.fsdecode(b"\xff\xfe\\,")], ODD)
        self.assertNotIn(b"\xff", output)
        self.assertEqual((status, error), (0, b""))


def output_of(*words):
    """Returns what flowlabel prints."""
    return run(PROGRAM, *words, check=True).stdout


def totals(lines):
    """Returns the sum of each column after the first."""
    return [sum(map(int, column)) for column in zip(*(line.split(b"|")[1:] for line in lines))]


class OfFlowlabel(Case):
    """The sums of rows are those of `uniq`, and a table of `uniq` in its order stays as it is."""

    @classmethod
    def prepare(cls):
        made("flows.py", "usual", 10000, "usual.ipfix")

    @rows(("usual.ipfix",), (ROOT / "examples/softflowd-biflow.ipfix",), (ROOT / "examples/pmacctd.ipfix",))
    def test_sums(self, name):
        table = output_of("rows", "--pmap", MAP, name)
        for fields in ("dst-label", "src-label,dst-label,proto", "sip", "dip,dport,flags"):
            wanted = output_of("uniq", "--fields", fields, "--sort-output", "--pmap", MAP, name)
            self.assertEqual(report(["--fields", fields], table), (0, wanted, b""), fields)
            self.assertEqual(report([], wanted), (0, wanted, b""), fields)
        days = report(["--", "sum", "--by", "day", name])[1].splitlines()[1:]
        protocols = report(["--fields", "proto"], table)[1].splitlines()[1:]
        self.assertEqual(totals(days), totals(protocols))


class Surroundings(Case):
    """Names, closed pipes, full disks, interrupts and an empty path."""
    name = "a table \nof two lines"

    @classmethod
    def prepare(cls):
        write(cls.name, BIG)

    def test_a_name_of_two_lines(self):
        self.assertEqual(report([self.name]), report([], BIG))

    @rows((["missing\nfile"], 4), (["."], 4), ([name, "--label", "A"], 1))
    def test_fault(self, words, status):
        found = report(words)
        self.assertEqual((*found[:2], found[2].count(b"\n")), (status, b"", 1))

    def test_a_full_disk(self):
        with open("/dev/full", "wb") as full:
            self.assertEqual(outcome(REPORT, self.name, stdout=full),
                             (4, None, b"flowlabel-report: output: No space left on device\n"))

    def test_no_output(self):
        self.assertEqual(outcome("sh", "-c", '"$0" "$1" >&-', REPORT, self.name),
                         (4, b"", b"flowlabel-report: output: it is closed\n"))

    def test_a_closed_pipe_of_bash(self):
        self.assertEqual(outcome("bash", "-c", '"$0" "$1" | true', REPORT, self.name), (0, b"", b""))

    def test_a_closed_pipe(self):
        with closed_pipe() as pipe:
            self.assertEqual(outcome(REPORT, self.name, stdout=pipe), (-signal.SIGPIPE, None, b""))

    def test_ctrl_c(self):
        with subprocess.Popen([REPORT], stdin=subprocess.PIPE, stdout=subprocess.PIPE,
                              stderr=subprocess.PIPE) as waiting:
            # The command has read all of this, so it has started.
            waiting.stdin.write(BIG + BIG.split(b"\n", 1)[1] * 50000)
            waiting.send_signal(signal.SIGINT)
            self.assertEqual((waiting.communicate()[1], waiting.returncode), (b"", -signal.SIGINT))

    def test_no_other_program(self):
        self.assertEqual(outcome(sys.executable, REPORT, self.name, variables={"PATH": "/nowhere"}),
                         report([self.name]))


def cpu_time(words):
    """Returns the CPU time of a command, the lesser of two runs."""
    times = []
    for _ in range(2):
        before = resource.getrusage(resource.RUSAGE_CHILDREN)
        run(*words, stdout=subprocess.DEVNULL, check=True)
        after = resource.getrusage(resource.RUSAGE_CHILDREN)
        times.append(after.ru_utime + after.ru_stime - before.ru_utime - before.ru_stime)
    return min(times)


@not_in_ci("CPU seconds depend on what else runs")
@unittest.skipUnless(shutil.which("mawk") and os.environ.get("QUIET"), "needs mawk and a quiet machine (QUIET=1)")
class Speed(Case):
    """The time that 1,000,000 rows take."""
    is_alone = True

    def test_rows(self):
        made("flows.py", "usual", 20000, "usual.ipfix")
        table = output_of("rows", "--pmap", MAP, "usual.ipfix")
        header, _, rest = table.partition(b"\n")
        with open("rows.txt", "wb") as file:
            file.writelines([header + b"\n", *[rest] * 50])
        limit = 4 * cpu_time(["sh", "-c", MAWK])
        for words in (["--fields", "dst-label"], ["--both"]):
            with self.subTest(words):
                self.assertLessEqual(cpu_time([REPORT, *words, "rows.txt"]), limit)


class OfCommands(Case):
    """Tables that the script has made by a command. None of them may be cut unseen."""
    words = ["rows", "--pmap", MAP, "usual.ipfix"]

    @classmethod
    def prepare(cls):
        made("flows.py", "usual", 20000, "usual.ipfix")
        write("part.ipfix", read_bytes("usual.ipfix")[:-1])
        write("table", DAYS)

    @rows((["--fields", "proto"],), (["--both", "--csv"],), (["--rows", "--label", "elsewhere", "--side", "dst"],))
    def test_rows(self, words):
        status, wanted, error = report(words, output_of(*self.words))
        self.assertEqual((status, error), (0, b""))
        self.assertEqual(report([*words, "--", *self.words]), (0, wanted, b""))

    def test_uniq(self):
        status, output, error = report(["--top", "2", "--", "uniq", "--fields", "dst-label", "--pmap", MAP,
                                        "usual.ipfix"])
        self.assertEqual((status, output.count(b"\n"), error), (0, 3, b""))

    @rows(("day", 86400), ("hour", 3600), ("minute", 60), ("5m", 300), ("0015m", 900), ("1440m", 86400))
    def test_rates(self, unit, seconds):
        """The rates are over the unit of the command, in each of its forms."""
        table = run(MANY, "sum", "--by", unit, TIMED, check=True).stdout
        lines = [line.split("|") for line in table.decode().splitlines()[1:]]
        found = report(["--rates", "--", "sum", "--by", unit, TIMED])[1].decode().splitlines()
        rates = [[*map(decimal.Decimal, line.split("|")[-2:])] for line in found[1:]]
        exact = [[8 * int(octets), int(packets)] for *_, packets, octets in lines]
        self.assertEqual(rates, [[(decimal.Decimal(each) / seconds).quantize(HUNDREDTH, decimal.ROUND_HALF_UP)
                                  for each in line] for line in exact])
        self.assertEqual(report(["--rates", "--", "bill", f"--by={unit}", TIMED]),
                         report(["--rates", "--", "sum", TIMED, f"--by={unit}"]))

    def test_days_of_a_zone(self):
        words = ["bill", "--by", "day", "--zone", "Europe/Berlin", TIMED]
        self.assertEqual(report(["--rates", "--", *words])[:2], (1, b""))
        self.assertEqual(report(["--", *words])[1], run(command("bill"), *words[1:], check=True).stdout)

    def test_both_sides_of_a_bill(self):
        """The times stay, and their sums are those of all times."""
        words = ["--pmap", MAP, TIMED]
        bill = ["--both", "--", "bill", "--fields", "src-label,dst-label"]
        found = report([*bill, "--by", "minute", *words])[1].splitlines()
        sums, minutes = collections.defaultdict(lambda: [0] * 6), set()
        for minute, label, *totals in (line.split(b"|") for line in found[1:]):
            minutes.add(minute)
            sums[label] = [*map(operator.add, sums[label], map(int, totals))]
        whole = report([*bill, *words])[1].splitlines()
        self.assertEqual(len(minutes), 5)
        self.assertEqual(found[0], b"minute|" + whole[0])
        self.assertEqual([b"%s|" % label + b"|".join(b"%d" % total for total in sums[label]) for label in sorted(sums)],
                         whole[1:])

    def test_by(self):
        """The line names what does it now."""
        status, output, error = inside.texts("report", "--by", "day", "--", "rows", "usual.ipfix")
        self.assertEqual((status, output, error), (
            2, "", "flowlabel-report: --by is gone, since flowlabel-many sums by time: write flowlabel-report [OPTION..] "
            "-- sum --by UNIT WORD..\n"))

    @rows((["rows", "part.ipfix"], 1, b"flowlabel: part.ipfix: F4 TruncatedMessage at "),
          (["rows", "none.ipfix"], 4, b"flowlabel: none.ipfix: cannot open"),
          (["rows", "--protocol", "x", "f"], 2, b"flowlabel: usage"),
          (["sum", "--fields", "sip", "none.ipfix"], 4, b"flowlabel-many: none.ipfix: cannot open"),
          (["bill", "--fields", "sip", "none"], 4, b"flowlabel-bill: none: No such file or directory\n"))
    def test_fault(self, words, status, line):
        found = report(["--csv", "--", *words])
        self.assertEqual((*found[:2], found[2][:len(line)]), (status, b"", line))

    @rows(("exit 1", 1), ("exit 3", 3), ("exit 4", 4), ("kill -9 $$", 137), ("kill -13 $$", 141), ("exit 0", 0))
    def test_end(self, end, status):
        variables = {"FLOWLABEL": write_program("cut", CUT % end)}
        for words in ([], ["--csv", "--fields", "day"], ["--fields", "sip"]):
            found = report([*words, "--", "rows", "f"], variables=variables)
            wanted = report(words, b"".join(DAYS.splitlines(True)[:3]))[1] if status == 0 else b""
            is_fault = status == 0 and words[1:] == ["sip"]
            self.assertEqual((*found[:2], found[2].count(b"\n")), (status + is_fault, wanted, 1 + is_fault), words)

    @rows(("--dport https", "flowlabel: usage: --dport L1 BadNumberList", "names such as https or tcp aren't known"),
          ("--bytes 10k", "flowlabel: usage: --bytes L2 BadRange", "write a range of whole numbers"),
          ("--saddress 10/8", "flowlabel: usage: --saddress L3 BadBlock", "write addresses or blocks, such as 10.0"),
          ("--fields dlabel", "flowlabel: usage: --fields U1 BadField", "the fields are sip, dip, "),
          ("--src-label A", "flowlabel: usage: P5 LabelNeedsMap", "name the map with --pmap"),
          ("--pmap map.txt", "flowlabel: map.txt: M1 BadStatement at 3", "flowlabel-lint MAP"))
    def test_cure(self, options, fault, cure):
        word = "uniq" if "--fields" in options else "rows"
        write("map.txt", "# A map\n\ncolour red\n")
        found = inside.texts("report", "--", word, *options.split(), ROOT / "examples/softflowd.nfcapd")
        self.assertEqual((found[1], found[2].split("\n")[0]), ("", fault))
        self.assertRegex(found[2], f"\nflowlabel-report: .*{re.escape(cure)}.*\n\\Z")

    def test_a_file_of_nfcapd(self):
        name = ROOT / "examples/softflowd.nfcapd"
        self.assertEqual(inside.texts("report", "--", "rows", name), (
            1, "", f"flowlabel: {name}: F2 BadVersion at 0\n"
            "flowlabel-report: flowlabel-audit FILE says what the file is, and the cure\n"))

    @rows((signal.SIGINT,), (signal.SIGTERM,), (signal.SIGHUP,))
    def test_signal(self, number):
        self.addCleanup(os.remove, "held")
        with subprocess.Popen([REPORT, "--", "rows", "f"], stdout=subprocess.PIPE, stderr=subprocess.PIPE,
                              env={**os.environ, "FLOWLABEL": write_program("hold", CUT % "exit 0")}) as held:
            processes.wait_for("held", held)
            held.send_signal(number)
            self.assertEqual((*held.communicate(timeout=processes.PATIENCE), held.returncode),
                             (b"", b"flowlabel: table: why\n", -number))
