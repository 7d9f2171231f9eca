"""flowlabel-bill.

Months of Files are made here message by message: of several exporters and domains, with messages that came late, with
records of both directions, sampled, and then cut, lost or doubled. The bill must be exactly the sums of the flows in
them, which are added up here, or be refused with the cause. What was lost or doubled without a word must be seen. Local
days of 23 and 25 hours must be those of the time zone. On other machines too, no File may be missing in silence. A
signal must leave no file and no process.
"""

import collections
import datetime
import itertools
import os
import random
import shutil
import signal
import struct
import subprocess
import sys

from support import MANY, PROGRAM, Case, cluster, command, inside, needs, processes, read, rows, run, stand_in, texts
from support import write, write_program
from support.ipfix import FOUR, SUMS, message, sets, template
from support.namespaces import Isolated

BILL, NFCAPD, REPORT = (command(name) for name in ("bill", "nfcapd", "report"))
CUSTOMERS = "mode ipv6\ndefault elsewhere\n10.0.0.0/16 Alder\n10.1.0.0/16 Birch\n10.2.0.0/16 Cedar\n"
# The element of the start of a flow in milliseconds, and those of the other direction.
START, BACK = (152, 8), ((2, 4, 29305), (1, 4, 29305))
# The fields of a record, and those of an exporter whose template has its sums in another place.
FIELDS, OTHERS = ((*FOUR, *SUMS, START), (*SUMS, START, *FOUR))
LABELS = ("Alder", "Birch", "Cedar", "elsewhere")
# 2026-11-01T00:00Z.
NOVEMBER = 1793491200


class Exporter:
    """An exporter: its domain, the fields of its template, and how it counts."""

    def __init__(self, rng, domain, begin, fields=FIELDS, may_differ=True):
        self.rng, self.domain, self.next, self.is_other = rng, domain, begin, fields is OTHERS
        self.is_end, self.is_biflow = rng.random() < 0.3, may_differ and rng.random() < 0.3
        self.set = template(256, *fields, *BACK[:2 * self.is_biflow])

    def record(self, ends, sums, start):
        """Returns the fields of a record, whose addresses end in other bytes."""
        addresses = b"".join(bytes((10, end, *self.rng.randbytes(2))) for end in ends)
        others = struct.pack(">IIQ", *sums, start)
        return others + addresses if self.is_other else addresses + others

    def send(self, time, has_template):
        """Returns a message of some records, and its flows: day, label, packets and bytes."""
        body, flows = b"", []
        for _ in range(self.rng.randint(1, 5)):
            start = 1000 * time - self.rng.randrange(1000, 9_000_000)
            day = f"{datetime.datetime.fromtimestamp(start // 1000, datetime.timezone.utc):%Y-%m-%d}"
            ends = [self.rng.randrange(5) for _ in range(2)]
            sums = [self.rng.randint(1, 99), self.rng.randint(1, 9999)]
            body += self.record(ends, sums, start)
            flows.append((day, LABELS[min(ends[1], 3)], *sums))
            if self.is_biflow:
                sums = [self.rng.choice((0, 7)), self.rng.randint(1, 999)]
                body += struct.pack(">II", *sums)
                flows += [(day, LABELS[min(ends[0], 3)], *sums)] * bool(sums[0])
        count = len(body) // (24 + 8 * self.is_biflow)
        begin, self.next = self.next, (self.next + count) % 2**32
        return message(*[self.set] * has_template, sets(256, body), number=self.next if self.is_end else begin,
                       domain=self.domain, time=time), flows


def headed(messages):
    """Returns messages but for the first, with its template in the second one, as a recorder begins a File."""
    (first, _), (second, flows), *others = messages
    _, _, time, number, domain = struct.unpack(">HHIII", second[:16])
    template_set = first[16:16 + int.from_bytes(first[18:20], "big")]
    return [(message(template_set, second[16:], number=number, domain=domain, time=time), flows), *others]


class Month:
    """The Files of some hours, each a list of messages with their flows. A name tells the exporter and the hour."""

    def __init__(self, seed):
        self.rng = rng = random.Random(f"20261130 {seed}")
        hours, first = rng.randint(4, 6), NOVEMBER + 86400 * rng.randrange(20) + 3600 * rng.randrange(24)
        self.files = {}
        for number in range(rng.randint(1, 3)):
            exporter = Exporter(rng, rng.choice((1, 1, number + 2)), rng.choice((0, rng.randrange(2**32))))
            count = rng.randint(4, 9) if number == 0 else rng.choice((1, 2, 6))
            for hour in range(hours):
                self.files[f"{number}/{hour}"] = [exporter.send(first + 3600 * hour + 60 * minute, minute == 0)
                                                  for minute in range(count)]
        # A File in the middle of those of the first exporter, and the one after it.
        hour = rng.randint(1, hours - 3)
        self.name, self.next = f"0/{hour}", f"0/{hour + 1}"
        self.one = self.files[self.name]

    def whole(self):
        """Nothing happens."""

    def late(self):
        """Messages come in another order, in a File or in two."""
        place = self.rng.randrange(1, len(self.one) - 1)
        self.one[place], self.one[place + 1] = self.one[place + 1], self.one[place]
        if self.rng.random() < 0.5:
            other = self.files[self.next]
            other[1:1] = [self.one.pop()]

    def lost_file(self):
        del self.files[self.name]
        return "missing"

    def lost_messages(self):
        del self.one[2:self.rng.randint(3, len(self.one) - 1)]
        return "missing"

    def cut_end(self):
        del self.one[-self.rng.randint(1, 2):]
        return "missing"

    def cut_head(self):
        self.one[:] = headed(self.one)
        return "missing"

    def doubled_file(self):
        self.files["copy"] = self.one
        return "twice"

    def joined(self):
        self.files["day"] = [one for name, its in sorted(self.files.items()) if name[0] == "0" for one in its]
        return "twice"

    def doubled_message(self):
        place = self.rng.randrange(1, len(self.one) - 1)
        self.one.insert(place + 1, self.one[place])
        return "twice"

    def overlapping(self):
        self.files["other"] = [*headed(self.one), *self.files[self.next]]
        return "twice"

    def without_bytes(self):
        self.one.append((message(template(300, *FOUR, (2, 4)), sets(300, bytes(12)), domain=99), []))
        return "bytes"

    def without_template(self):
        self.one.append((message(sets(300, bytes(20)), domain=98), []))
        return "skipped"

    def sampled(self):
        self.one.append((message(template(301, (143, 4), (34, 4), scopes=1), sets(301, struct.pack(">II", 1, 100)),
                                 domain=97), []))
        return None

    def broken(self):
        self.one[-1] = self.one[-1][0][:-1], []
        return "fault"

    def write(self):
        """Writes the Files in an order of names that isn't that of time."""
        shutil.rmtree("month", ignore_errors=True)
        for name, messages in self.files.items():
            write(f"month/{hash(name) % 100}-{name.replace('/', '-')}.ipfix", b"".join(one for one, _ in messages))

    def table(self):
        """Returns the sums by day and customer."""
        sums = collections.defaultdict(lambda: [0, 0, 0])
        for _, flows in itertools.chain.from_iterable(self.files.values()):
            for *key, packets, octets in flows:
                sums[tuple(key)] = [*map(sum, zip(sums[tuple(key)], (1, packets, octets)))]
        return "day|dst-label|records|packets|bytes\n" + "".join(
            "|".join(map(str, (*key, *sums[key]))) + "\n" for key in sorted(sums))


CHANGES = ("whole", "late", "lost_file", "lost_messages", "cut_end", "cut_head", "doubled_file", "joined",
           "doubled_message", "overlapping", "without_bytes", "without_template", "sampled", "broken")


class Made(Case):
    """Cases that make months of Files, and run the command over them."""

    @classmethod
    def prepare(cls):
        write("map", CUSTOMERS)

    def bill(self, month, *words):
        """Writes a month, and runs the command by customer."""
        month.write()
        return inside.texts("bill", *words, "--fields", "dst-label", "--pmap", "map", "month")


class Months(Made):
    """Months of Files, whole and not."""

    @rows(*itertools.product(CHANGES, range(18)))
    def test_month(self, change, seed):
        month = Month(f"{change} {seed}")
        cause = getattr(month, change)()
        status, output, error = self.bill(month, "--by", "day")
        if cause is None:
            self.assertEqual((status, output), (0, month.table()), error)
            self.assertEqual("sampled 1 in 100" in error, change == "sampled", error)
        elif cause == "fault":
            self.assertEqual((status, output), (1, ""))
            self.assertRegex(error, r"\Aflowlabel-many: month/\S+: F")
        else:
            self.assertEqual((status, output), (1, ""), error)
            self.assertTrue(error.endswith(f"No sum is printed without --allow {cause}\n"), error)


class Shared(Month):
    """The Files of November, each of some days. Several exporters send into the same Files, in a domain or in several,
    and with templates of one ID that may differ."""

    def __init__(self, seed):
        self.rng = rng = random.Random(f"20261201 {seed}")
        days = rng.choice((3, 5, 6))
        is_one_domain, may_differ = rng.random() < 0.7, rng.random() < 0.3
        exporters = [Exporter(rng, 1 if is_one_domain else number, rng.choice((0, rng.randrange(2**32))),
                              rng.choice((FIELDS, OTHERS)) if may_differ else FIELDS, may_differ)
                     for number in range(rng.randint(1, 3))]
        self.is_mixed = is_one_domain and len({exporter.set for exporter in exporters}) > 1
        # All send every some hours, one after the other, and templates at the begin of each File.
        self.files, step = {}, 3600 * rng.choice((6, 8, 12))
        for first in range(0, 30, days):
            self.files[f"0/{first}"] = its = []
            for time in range(NOVEMBER + 86400 * first, NOVEMBER + 86400 * (first + days), step):
                its += (exporter.send(time + number, time == NOVEMBER + 86400 * first)
                        for number, exporter in enumerate(exporters) if time < NOVEMBER + 30 * 86400 - 100)
        names = [*self.files]
        self.name, self.next = rng.choice(list(zip(names[1:-2], names[2:])))
        self.one = self.files[self.name]

    def late(self):
        """Two messages without templates, which the first day has, come in the other order."""
        place = self.rng.randrange(len(self.one) // 2, len(self.one) - 1)
        self.one[place], self.one[place + 1] = self.one[place + 1], self.one[place]

    def lost_begin(self):
        """The first File is missing."""
        del self.files[min(self.files, key=lambda name: int(name[2:]))]
        return "begin"

    def lost_end(self):
        """The last messages are missing, of two days and more."""
        its = self.files[max(self.files, key=lambda name: int(name[2:]))]
        del its[len(its) // 3 or 1:]
        return "end"

    def table(self):
        """Returns the sums of the month by customer."""
        sums = {label: [0, 0, 0] for label in LABELS}
        for _, flows in itertools.chain.from_iterable(self.files.values()):
            for day, label, *totals in flows:
                if day.startswith("2026-11"):
                    sums[label] = [*map(sum, zip(sums[label], (1, *totals)))]
        return "dst-label|records|packets|bytes\n" + "".join(
            "|".join(map(str, (label, *sums[label]))) + "\n" for label in LABELS if sums[label][0])


# What a line says if something may be wrong, where it can't be certain.
PERHAPS = {"missing": "may be missing|can't be counted|begin again with|came late", "twice": "twice|came late",
           "begin": "begin at .* records before them may be missing",
           "end": "end at .* records after them may be missing", "mixed": "gets other fields"}
# For what else a month may be refused: a message that is missing may have had the template of an exporter.
OTHER_KINDS = {"lost_begin": ["missing"], "lost_end": ["missing"], "cut_head": ["skipped"], "overlapping": ["skipped"],
               "lost_messages": ["skipped"]}
SHARED = ("whole", "late", "lost_file", "lost_messages", "cut_end", "cut_head", "lost_begin", "lost_end",
          "doubled_file", "doubled_message", "overlapping", "without_bytes", "without_template", "sampled")


class SharedMonths(Made):
    """Months of exporters that share Files, whole and not: the sums are exact, or refused with the cause, or a line
    names what may be wrong."""

    @rows(*itertools.product(SHARED, range(18)))
    def test_month(self, change, seed):
        month = Shared(f"{change} {seed}")
        cause = getattr(month, change)()
        status, output, error = self.bill(month, "--month", "2026-11")
        causes = [cause, *["mixed"] * month.is_mixed]
        if status == 1:
            kinds = {*error.splitlines()[-1].partition(" --allow ")[2].split(" --allow ")}
            # By a wrong template, anything may be found of records.
            self.assertTrue(kinds & {*causes, *OTHER_KINDS.get(change, ())} or month.is_mixed, error)
            self.assertEqual(output, "")
            self.assertRegex(error, PERHAPS["mixed"] if month.is_mixed else "--allow")
            return
        self.assertEqual(status, 0, error)
        if not month.is_mixed:
            self.assertEqual(output, month.table(), error)
        for one in filter(None, causes):
            self.assertRegex(error, PERHAPS[one])
        self.assertEqual("sampled 1 in 100" in error, change == "sampled", error)
        if change == "whole":
            self.assertNotRegex(error, f"{PERHAPS['begin']}|{PERHAPS['end']}")


GOOD = template(256, *FOUR, *SUMS, START)
# 10.0.0.1 to 10.1.0.1, 3 packets and 180 bytes, at the given time.
TIMED = struct.Struct(">8sIIQ")
ENDS = bytes((10, 0, 0, 1, 10, 1, 0, 1))


def flow(time=NOVEMBER, packets=3, octets=180):
    """Returns a record of GOOD, at a second."""
    return TIMED.pack(ENDS, packets, octets, 1000 * time)


def file(*records, number=0, time=NOVEMBER, what=GOOD):
    """Returns a File with one message."""
    return message(what, sets(256, b"".join(records)), number=number, time=time)


ONE = file(flow())
WITHOUT = ("what is in a folder must be in the sums: name these, leave them out with --except PATTERN, or read folders "
           "below with -r")
TABLE = "dst-label|records|packets|bytes\nBirch|{}|{}|{}\n"
# What else a folder with ONE has, the options, how often ONE is in the sums (0: it is refused), and a part of a line.
IN_FOLDER = (
    ({"b.ipfix.gz": ONE}, "", 0, "d/b.ipfix.gz: no name of a File"),
    ({"b.ipfix.gz": b"x"}, "--except *.gz", 1, ""),
    ({".b.ipfix.part": b"x"}, "", 0, "d/.b.ipfix.part: no name of a File"),
    ({".b.ipfix": b"x"}, "--except .*", 1, ""),
    ({"30/b.ipfix": file(flow(), time=NOVEMBER + 60)}, "", 0, "d/30: a folder"),
    ({"30/b.ipfix": file(flow(), time=NOVEMBER + 60)}, "-r", 2, ""),
    ({"30/b.ipfix": b"x", "30/x/y": b""}, "--except 30 -r", 1, ""),
    ({"b.ipfix": "a.ipfix"}, "", 0, "d/b.ipfix: not a regular file"),
    ({"30": ".."}, "-r", 0, "d/30: not a regular file"),
    ({"b.ipfix": None}, "", 0, "d/b.ipfix: not a regular file"),
    ({"b.ipfix": ONE}, "", 0, "d/b.ipfix: 1 messages are in d/a.ipfix too"),
    ({"b.ipfix": b""}, "", 0, "d/b.ipfix: it is empty"),
    ({"b.ipfix": b""}, "--allow empty", 1, "d/b.ipfix: it is empty"),
)
SKIPPING = message(sets(300, bytes(16)), number=1)
# Files that are certainly wrong or may be, the words that allow them, and parts of the lines.
FOUND = (
    ("sampled", ONE + message(template(301, (143, 4), (305, 4), (306, 4), scopes=1),
                              sets(301, struct.pack(">III", 1, 1, 9)), number=1), None, ["sampled 1 in 10"]),
    ("no bytes", ONE + message(template(257, *FOUR, (2, 4)), sets(257, bytes(12)), number=1, domain=2), "bytes",
     ["the template 257 of the domain 2 has no bytes"]),
    ("rows without bytes", file(flow(octets=0)), "bytes", ["1 of 1 rows have 0 bytes"]),
    ("no addresses beside records of both directions",
     file(flow() + struct.pack(">II", 1, 1), what=template(256, *FOUR, *SUMS, START, *BACK)) + message(
         template(257, (56, 6), *SUMS), sets(257, bytes(14)), domain=2), None,
     ["the template 257 of the domain 2 has no addresses"]),
    ("reverse bytes alone", file(flow() + bytes(4), what=template(256, *FOUR, *SUMS, START, BACK[1])), None,
     ["has reverse bytes and no reverse packets"]),
    ("totals", file(flow(), what=template(256, *FOUR, (86, 4), (85, 4), START)), None,
     ["has totals since a flow began"]),
    ("both directions seen",
     file(flow() + b"\0" + flow() + b"\1", what=template(256, *FOUR, *SUMS, START, (61, 1))), None,
     ["1 of 1 flows were seen when they came and when they left"]),
    ("skipped sets", ONE + SKIPPING, "skipped", ["1 sets with the ID 300 of the domain 1 are skipped"]),
    ("no numbers", file(flow()) + file(flow(NOVEMBER + 1)) + file(flow(NOVEMBER + 2)), None,
     ["too few sequence numbers of the domain 1 follow each other (0 do)"]),
    ("no label", file(flow()) + message(template(257, (27, 16), (28, 16), *SUMS), sets(257, bytes(39) + b"\1"),
                                        domain=2), None, ["1 rows have no label"]),
)


class Complete(Case):
    """What is in a folder, and what is certainly wrong or may be."""

    @classmethod
    def prepare(cls):
        write("map", "10.0.0.0/16 Alder\n10.1.0.0/16 Birch\n")
        write("one.ipfix", ONE)
        os.mkdir("temporary")

    def bill(self, *words, fields="dst-label", **variables):
        """Runs the command with the map."""
        return inside.texts("bill", "--fields", fields, "--pmap", "map", *words, variables=variables)

    @rows(*IN_FOLDER)
    def test_folder(self, others, options, count, line):
        self.addCleanup(shutil.rmtree, "d")
        write("d/a.ipfix", ONE)
        for name, content in others.items():
            if isinstance(content, bytes):
                write(f"d/{name}", content)
            elif content is None:
                os.mkfifo(f"d/{name}")
            else:
                os.symlink(content, f"d/{name}")
        status, output, error = self.bill(*options.split(), "d")
        wanted = (0, TABLE.format(count, 3 * count, 180 * count)) if count else (1, "")
        self.assertEqual((status, output), wanted, error)
        self.assertIn(line, error)
        self.assertEqual(error.count("\n"), bool(line) * (1 + (count == 0)))

    @rows(*FOUND)
    def test_found(self, _, data, kind, parts):
        write("found.ipfix", data)
        status, output, error = self.bill("found.ipfix")
        self.assertEqual((status, output == ""), (int(kind is not None), kind is not None), error)
        for part in parts:
            self.assertIn(part, error)
        if kind:
            self.assertEqual(error.splitlines()[-1].rpartition(" ")[2], kind)
            status, output, error = self.bill("--allow", kind, "found.ipfix")
            self.assertEqual((status, output[:10]), (0, "dst-label|"), error)
            self.assertIn(parts[0], error)

    @rows((("one.ipfix", "./one.ipfix"), "flowlabel-bill: ./one.ipfix: the same file as one.ipfix\n", 1),
          (("none",), "flowlabel-bill: none: No such file or directory\n", 4),
          (("temporary",), f"flowlabel-bill: temporary: no File in it\nflowlabel-bill: {WITHOUT}\n", 1),
          (("/dev/null",), "flowlabel-bill: /dev/null: not a regular file\n", 1),
          (("--pmap", "none", "one.ipfix"), "flowlabel-bill: none: No such file or directory\n", 4),
          (("--list", "/dev/null", "one.ipfix"), "flowlabel-bill: /dev/null: not a regular file\n", 1))
    def test_fault(self, words, error, status):
        self.assertEqual(self.bill(*words), (status, "", error))

    def test_a_file_that_is_written(self):
        self.addCleanup(shutil.rmtree, "d")
        with open(write("d/a.ipfix", ONE), "ab"):
            line = "flowlabel-bill: d/a.ipfix: a process is writing it\n"
            self.assertEqual(self.bill("d"), (1, "", f"{line}flowlabel-bill: {WITHOUT}\n"))
            self.assertEqual(self.bill("d/a.ipfix"), (0, TABLE.format(1, 3, 180), line))

    @rows(("one.ipfix", "other"), ("map", "other"), ("one.ipfix", "same"))
    def test_a_file_that_changes(self, name, content):
        """Between what is looked at and what is summed, a file gets other bytes, or is replaced by a copy."""
        write("other", ONE * 2 if name != "map" else "10.1.0.0/16 Elder\n")
        shutil.copy(name, "same")
        self.addCleanup(os.replace, shutil.copy(name, "kept"), name)
        variables = {"FLOWLABEL_MANY": write_program("changing", CHANGES), "MANY": MANY, "NAME": name, "NEW": content}
        status, output, error = self.bill("one.ipfix", **variables)
        self.assertEqual((status, output), (1, ""))
        self.assertEqual(error.splitlines()[-1], f"flowlabel-bill: {name}: it has changed meanwhile")

    def test_other_sums(self):
        """Another program that loses a row is seen."""
        variables = {"FLOWLABEL_MANY": write_program("losing", LOSES), "MANY": MANY}
        self.assertEqual(self.bill("one.ipfix", **variables),
                         (1, "", "flowlabel-bill: the sums are those of 0 rows, and the Files have 1\n"))

    def test_no_table(self):
        """Another program whose table has a wrong cell is seen."""
        variables = {"FLOWLABEL_MANY": write_program("wrong", WRONG), "MANY": MANY}
        self.assertEqual(self.bill("one.ipfix", fields="dip", **variables), (
            1, "", "flowlabel-bill: the table of flowlabel-many: line 2: a cell isn't what its column has\n"))

    def test_flowlabel_alone(self):
        """flowlabel-many is found beside the program that FLOWLABEL names."""
        for name, program in (("flowlabel", PROGRAM), ("flowlabel-many", MANY)):
            os.makedirs("built", exist_ok=True)
            os.symlink(program, f"built/{name}")
        variables = {"FLOWLABEL": "built/flowlabel", "FLOWLABEL_MANY": ""}
        self.assertEqual(self.bill("one.ipfix", **variables), (0, TABLE.format(1, 3, 180), ""))
        os.remove("built/flowlabel-many")
        status, output, error = self.bill("one.ipfix", **variables)
        self.assertEqual((status, output), (125, ""))
        self.assertRegex(error, r"\Aflowlabel-bill: .*built/flowlabel-many.* FLOWLABEL .*FLOWLABEL_MANY\n\Z")

    @rows(*itertools.product((signal.SIGINT, signal.SIGTERM, signal.SIGHUP), ("messages", "sum")))
    def test_signal(self, number, command):
        variables = {"FLOWLABEL_MANY": write_program("sleeping", SLEEPS), "MANY": MANY, "SLEEPING": command,
                     "TMPDIR": os.path.abspath("temporary")}
        with subprocess.Popen([BILL, "--by", "day", "one.ipfix"], stdout=subprocess.PIPE, stderr=subprocess.PIPE,
                              env={**os.environ, **variables}) as started:
            processes.wait_for("begun", started)
            started.send_signal(number)
            found = started.communicate(timeout=processes.PATIENCE)
        sleeper = int(read("begun"))
        os.remove("begun")
        self.assertEqual((started.returncode, *found, os.listdir("temporary")), (-number, b"", b"", []))
        self.assertFalse(os.path.exists(f"/proc/{sleeper}"))

    @rows(("1", 1), ("2", 2), ("9", 3), ("x", None), ("0", None), ("\xb2", None))
    def test_jobs(self, jobs, count):
        """The Files of JOBS parts are summed at a time, and each is in one part."""
        names = [write(f"{number}.ipfix", file(flow(), time=NOVEMBER + 60 * number)) for number in range(3)]
        write("calls", "")
        found = self.bill(*names, JOBS=jobs, FLOWLABEL_MANY=write_program("noting", NOTES), MANY=MANY)
        if count is None:
            self.assertEqual(found, (2, "", f"flowlabel-bill: JOBS: no number of runs: {jobs}\n"))
        else:
            calls = [line.split()[-3:] for line in read("calls").splitlines() if "sum" in line and "null" not in line]
            self.assertEqual((found, len(calls)), ((0, TABLE.format(3, 9, 540), ""), count))


# Programs in place of flowlabel-many: one that changes a file before it sums, one that loses a row, one that prints an
# address that is none, one that sleeps, and one that notes its words.
CHANGES = """#!/bin/sh
[ "$1" = messages ] || [ "$4" = /dev/null ] || cp "$NEW" copy && mv copy "$NAME"
exec "$MANY" "$@"
"""
LOSES = '#!/bin/sh\n"$MANY" "$@" >all && { [ "$1" = messages ] && cat all || sed 2d all; }\n'
WRONG = '#!/bin/sh\n"$MANY" "$@" >all && { [ "$1" = messages ] && cat all || sed "2s/[.]/,/" all; }\n'
SLEEPS = """#!/bin/sh
case $*,$SLEEPING in *null,*) ;; "$SLEEPING "*) echo $$ >new && mv new begun; exec sleep 3600 ;; esac
exec "$MANY" "$@"
"""
NOTES = '#!/bin/sh\necho "$*" >>calls\nexec "$MANY" "$@"\n'


class Times(Case):
    """Units of UTC and of time zones, and months."""
    # Flows of each quarter of an hour from 2026-10-24T21:00Z, on the day on which Berlin has 25 hours, and so on the
    # one of 23 hours from 2026-03-28T22:00Z.
    quarters = 15 * 60

    @classmethod
    def prepare(cls):
        write("autumn.ipfix", file(*(flow(1792875600 + cls.quarters * number) for number in range(108))))
        write("spring.ipfix", file(*(flow(1774735200 + cls.quarters * number) for number in range(100))))
        # Messages at both ends of November, so that none can be missing before or after them.
        times = 1793487599, 1793487600, 1793491199, 1793491200, 1796079599, 1796079600
        write("ends.ipfix", file(*map(flow, times)) + message(number=len(times), time=1796083200))
        write("none.ipfix", file(flow(0), flow()) + message(number=2, time=1796083200))
        write("kathmandu.ipfix", file(flow(1793491200 + 18 * 3600 + 14 * 60), flow(1793491200 + 18 * 3600 + 15 * 60)))

    def lines(self, *words):
        """Returns the lines of a bill without its header, each with its first two cells."""
        status, output, error = inside.texts("bill", *words)
        self.assertEqual(status, 0, error)
        return [line.rsplit("|", 2)[0] for line in output.splitlines()[1:]], error

    @rows(("autumn", "day", ["2026-10-24|4", "2026-10-25|100", "2026-10-26|4"]),
          ("spring", "day", ["2026-03-28|4", "2026-03-29|92", "2026-03-30|4"]),
          ("ends", "day", ["2026-10-31|1", "2026-11-01|3", "2026-11-30|1", "2026-12-01|1"]))
    def test_days(self, name, unit, wanted):
        self.assertEqual(self.lines("--by", unit, "--zone", "Europe/Berlin", f"{name}.ipfix"), (wanted, ""))

    def test_hours(self):
        hours, _ = self.lines("--by", "hour", "--zone", "Europe/Berlin", "autumn.ipfix")
        self.assertEqual(hours[3:7], ["2026-10-25T02+02:00|4", "2026-10-25T02+01:00|4", "2026-10-25T03+01:00|4",
                                      "2026-10-25T04+01:00|4"])
        minutes, _ = self.lines("--by", "minute", "--zone", "Europe/Berlin", "autumn.ipfix")
        self.assertEqual(len(minutes), 108)
        self.assertEqual(minutes[15:17], ["2026-10-25T02:45+02:00|1", "2026-10-25T02:00+01:00|1"])
        self.assertEqual(self.lines("--by", "15m", "--zone", "Europe/Berlin", "autumn.ipfix")[0], minutes)

    def test_a_zone_of_quarters(self):
        self.assertEqual(self.lines("--by", "day", "--zone", "Asia/Kathmandu", "kathmandu.ipfix")[0],
                         ["2026-11-01|1", "2026-11-02|1"])

    @rows((("--zone", "Europe/Berlin"), ["2026-11-01|3", "2026-11-30|1"], ["2026-10-31", "2026-12-01"]),
          ((), ["2026-11-01|1", "2026-11-30|2"], ["2026-10-31"]))
    def test_month(self, zone, wanted, others):
        lines, error = self.lines("--by", "day", "--month", "2026-11", *zone, "ends.ipfix")
        self.assertEqual((lines, [line.split(": ")[2].split(",")[0] for line in error.splitlines()]), (wanted, others))
        self.assertEqual(self.lines("--fields", "proto", "--month", "2026-11", *zone, "ends.ipfix")[0],
                         [f"0|{sum(int(line.split('|')[1]) for line in wanted)}"])

    def test_neighbours(self):
        """A loss at an end of the month that is shorter than the longest pause, which only the other months show."""
        begin, end, pause = 1793491200, 1796083200, 6 * 3600
        hours = [*range(begin - 5 * pause + 1, end + 5 * pause, pause)]
        # The exporter had nothing to send for a day.
        del hours[60:64]
        months = {"october": hours[:5], "november": hours[6:-6], "december": hours[-5:]}
        for name, times in months.items():
            write(f"{name}.ipfix", b"".join(file(flow(time), number=hours.index(time), time=time) for time in times))
        words = ("--month", "2026-11", "--fields", "proto", "november.ipfix")
        self.assertEqual(self.lines(*words), ([f"0|{len(months['november'])}"], ""))
        for name in ("october", "december"):
            status, output, error = inside.texts("bill", *words, f"{name}.ipfix")
            self.assertEqual((status, output), (1, ""), error)
            self.assertRegex(error, "1 records of the domain 1 are missing")

    def test_no_time(self):
        words = ("--by", "day", "--month", "2026-11", "none.ipfix")
        status, output, error = inside.texts("bill", *words)
        self.assertEqual((status, output, error), (
            1, "", "flowlabel-bill: rows have no time. No sum is printed without --allow times\n"))
        self.assertEqual(self.lines("--allow", "times", *words)[0], ["0|1", "2026-11-01|1"])
        self.assertEqual(self.lines("--by", "day", "--zone", "Europe/Berlin", "none.ipfix")[0], ["0|1", "2026-11-01|1"])

    @rows((("--zone", "Europe/Nowhere"), "there is no time zone"), (("--zone", "/etc/passwd"), "there is no time zone"),
          (("--zone", "../x"), "there is no time zone"), (("--month", "2026-13"), "--month: not 2026-13"),
          (("--by", "week"), "--by U4 BadUnit"), (("--by", "7m"), "--by U4 BadUnit"),
          (("--by", "30m", "--zone", "UTC"), "--zone needs"), (("--json", "--csv"), "choose --csv or --json"),
          (("--strings",), "--strings only with --json"), (("--allow", "all"), "invalid choice"),
          (("--fields", "size"), "--fields U1 BadField"),
          (("--scheduler", "tcp://127.0.0.1:1"), "--scheduler: not tcp"), (("--zone", ""), "there is no time zone"),
          (("--protocol", "6", "--protocol", "17"), "cannot be used multiple times"))
    def test_usage(self, words, part):
        status, output, error = inside.texts("bill", "--by", "day", *words, "ends.ipfix")
        self.assertEqual((status, output), (2, ""))
        self.assertIn(part, error)

    def test_formats(self):
        words = ("--by", "hour", "--fields", "dip", "--zone", "Europe/Berlin", "kathmandu.ipfix")
        self.assertEqual(inside.texts("bill", "--csv", *words)[1],
                         "hour,dip,records,packets,bytes\r\n2026-11-01T19+01:00,10.1.0.1,2,6,360\r\n")
        self.assertIn('{"hour": "2026-11-01T19+01:00", "dip": "10.1.0.1", "records": "2", ',
                      inside.texts("bill", "--json", "--strings", *words)[1])


# Notes which sockets there are.
LOOKS = """#!/bin/sh
for table in tcp tcp6 udp udp6 unix; do cat /proc/net/$table 2>/dev/null; done >>"$SOCKETS"
exec "$MANY" "$@"
"""
SUMMED = "proto|records|packets|bytes\n0|3|9|540\n"


def write_days():
    """Writes three Files, and returns their names."""
    return [write(f"days/{number}.ipfix", file(flow(), number=number, time=NOVEMBER + 60 * number))
            for number in range(3)]


class Listening(Isolated):
    """Nothing listens while Files are summed: no other user can give a run something to do."""
    spaces = ("mnt", "net")

    def test_sockets(self):
        write_days()
        variables = {"FLOWLABEL_MANY": write_program("looking", LOOKS), "MANY": MANY,
                     "SOCKETS": os.path.abspath("sockets")}
        self.assertEqual(texts(BILL, "--fields", "proto", "days", variables=variables), (0, SUMMED, ""))
        # A socket that listens has the state 0A for TCP, 07 for UDP, and the flag 0x10000 for UNIX.
        self.assertNotRegex(read("sockets"), r"(?m)^ *\d+: \S+ \S+ 0[A7] .*|^\w+: \w+ \w+ 00010000 .*")


@needs("parallel")
class Parallel(Case):
    """GNU parallel in place of runs on this machine. What it leaves out, or changes, is seen."""

    @classmethod
    def prepare(cls):
        write_days()
        write("map", "10.1.0.0/16 {}\n")

    def bill(self, *words, **variables):
        return inside.texts("bill", "--parallel", "--fields", "proto", *words, "days", variables=variables)

    def test_sums(self):
        self.assertEqual(self.bill(), (0, SUMMED, ""))
        self.assertEqual(self.bill("--saddress", "10.0.0.1", JOBS="2", FLOWLABEL_MANY=MANY), (0, SUMMED, ""))

    def test_braces(self):
        self.assertEqual(self.bill("--pmap", "map", "--dst-label", "{}"), (
            1, "", "flowlabel-bill: GNU parallel would replace the braces or colons in the options\n"))

    def test_resumed(self):
        """It can be asked to run only what it has not run yet."""
        options = "--joblog log --resume"
        self.assertEqual(self.bill(PARALLEL=options)[0], 0)
        self.assertEqual(self.bill(PARALLEL=options), (
            1, "", "flowlabel-bill: the sums of 0 Files came back instead of 3\n"))

    def test_other_bytes(self):
        path = stand_in("b2sum", "#!/bin/sh\necho 00 -\n")["PATH"]
        self.assertEqual(self.bill(PATH=path), (
            1, "", "flowlabel-bill: days/0.ipfix: another machine has summed other bytes\n"))

    def test_signal(self):
        variables = {"FLOWLABEL_MANY": write_program("sleeping", SLEEPS), "MANY": MANY, "SLEEPING": "sum"}
        with subprocess.Popen([BILL, "--parallel", "--by", "day", "days/0.ipfix"], stdout=subprocess.PIPE,
                              stderr=subprocess.DEVNULL, env={**os.environ, **variables}) as started:
            processes.wait_for("begun", started)
            started.send_signal(signal.SIGTERM)
            self.assertEqual((started.communicate(timeout=processes.PATIENCE)[0], started.returncode), (b"", -15))
        processes.wait(lambda: not os.path.exists(f"/proc/{read('begun').strip()}"))


# Interfaces, a VLAN and AS numbers of two flows, in the order of their elements 10, 14, 58, 16 and 17.
NUMBERS = struct.Struct(">IIHII")
NUMBERED = message(template(256, *FOUR, *SUMS, START, (10, 4), (14, 4), (58, 2), (16, 4), (17, 4)), sets(256, b"".join((
    flow(), NUMBERS.pack(1, 2**32 - 1, 7, 64496, 4200000000),
    flow(octets=40), NUMBERS.pack(3, 2**32 - 1, 4095, 64496, 0)))))


class Numbers(Case):
    """Sums by interface, VLAN and AS number, and of the flows that have one."""

    @classmethod
    def prepare(cls):
        write("numbered.ipfix", NUMBERED)
        write("one.ipfix", ONE)

    @rows(("in-if", "1|1|3|180\n3|1|3|40\n"), ("out-if", "4294967295|2|6|220\n"),
          ("vlan", "7|1|3|180\n4095|1|3|40\n"), ("src-as", "64496|2|6|220\n"),
          ("dst-as", "0|1|3|40\n4200000000|1|3|180\n"))
    def test_field(self, name, lines):
        self.assertEqual(inside.texts("bill", "--fields", name, "numbered.ipfix"),
                         (0, f"{name}|records|packets|bytes\n{lines}", ""))
        # A File without the element has 0.
        self.assertEqual(inside.texts("bill", "--fields", name, "one.ipfix"),
                         (0, f"{name}|records|packets|bytes\n0|1|3|180\n", ""))

    @rows(("in-if", "1-2", 180), ("out-if", "4294967295", 220), ("vlan", "7,8", 180), ("src-as", "1-64495", None),
          ("dst-as", "0", 40))
    def test_filter(self, name, value, octets):
        status, output, error = inside.texts("bill", "--fields", "proto", f"--{name}", value, "numbered.ipfix")
        lines = "" if octets is None else f"0|{2 if octets == 220 else 1}|{6 if octets == 220 else 3}|{octets}\n"
        self.assertEqual((status, output, error), (0, f"proto|records|packets|bytes\n{lines}", ""))

    @rows(("in-if", "4294967296"), ("vlan", "65536"), ("src-as", "AS64496"), ("dst-as", "2-1"), ("out-if", "eth0"))
    def test_fault(self, name, value):
        status, output, error = inside.texts("bill", "--fields", "proto", f"--{name}", value, "numbered.ipfix")
        self.assertEqual((status, output), (2, ""))
        self.assertIn(f"--{name} L1 BadNumberList\n", error)

    def test_report(self):
        write("table", inside.outcome("bill", "--fields", "vlan,in-if", "numbered.ipfix")[1])
        self.assertEqual(inside.texts("report", "--fields", "vlan", "table"),
                         (0, "vlan|records|packets|bytes\n7|1|3|180\n4095|1|3|40\n", ""))


@needs(*cluster.NEEDED)
class Cluster(Isolated):
    """A scheduler and a worker of Dask with certificates of their own. Without these, nothing runs. No run takes more
    than LONGEST seconds, so that none can hang."""
    LONGEST = "600"
    spaces = cluster.SPACES

    @classmethod
    def prepare(cls):
        write_days()
        cluster.start(cls)

    def bill(self, variables):
        """Runs the command, which waits for the scheduler, but not for ever."""
        return texts("timeout", self.LONGEST, BILL, "--scheduler", cluster.ADDRESS, "--fields", "proto", "days",
                     variables=variables)

    def test_workers(self):
        self.assertEqual(self.bill(cluster.VARIABLES), (0, SUMMED, ""))

    def test_no_certificate(self):
        status, output, error = self.bill(cluster.WITHOUT_AUTHORITY)
        self.assertEqual((status, output, error.count("\n")), (1, "", 1), error)


# A module in place of Dask's, which says where it is.
DISTRIBUTED = """class KilledWorker(Exception): pass
class TimeoutError(Exception): pass
def Client(*_, **__): raise OSError(f"the module {__file__}")
"""


class WhichDask(Case):
    """Which Dask is found: that of a virtual environment, and none of a user, or of a folder that a variable names."""

    @classmethod
    def prepare(cls):
        write_days()

    def bill(self, **variables):
        return texts(BILL, "--scheduler", "tls://127.0.0.1:1", "--fields", "proto", "days", variables=variables)

    def test_of_a_virtual_environment(self):
        run(sys.executable, "-m", "venv", "--without-pip", "environment", check=True)
        version = "{}.{}".format(*sys.version_info)
        name = os.path.abspath(write(f"environment/lib/python{version}/site-packages/distributed.py", DISTRIBUTED))
        path = f"{os.path.abspath('environment/bin')}:{os.environ['PATH']}"
        self.assertEqual(self.bill(PATH=path), (
            1, "", f"flowlabel-bill: Dask: tls://127.0.0.1:1: the module {name}\n"))

    def test_of_a_user(self):
        """Without certificates, the Dask of Debian gives up at once, if there is any."""
        for version in ("{}.{}".format(*sys.version_info), "3.11"):
            write(f"home/lib/python{version}/site-packages/distributed.py", DISTRIBUTED)
        write("distributed.py", DISTRIBUTED)
        status, output, error = self.bill(PYTHONUSERBASE=os.path.abspath("home"), PYTHONPATH=os.getcwd())
        self.assertEqual((status, output, error.count("\n")), (1, "", 1), error)
        self.assertNotIn("the module", error)
