"""Prints the sums of IPFIX Files, such as the bill of a month.

All Files are looked at before anything is printed, as flowlabel-audit does. If something is certainly wrong, a line
says what, the status is 1 and no sum is printed:

    skipped    sets without a template, whose records are in no sum
    missing    records that were lost in transit, or with a File
    twice      records that are in a File twice, or in two of them
    mixed      templates of several exporters in one File and domain, by which records are decoded wrongly
    bytes      a template without bytes, or a File whose records have no row
    empty      a File without messages
    times      with --month: rows without the time at which they began

Whatever may be wrong is reported, and the sums are printed: with --month also that messages begin late in the month or
end early. A FOLDER has the Files whose names end in .ipfix. If anything else is there, such as a folder, a compressed
File, or a File that a process is writing, the status is 1 until it is named, or left out by --except. Links in a FOLDER
aren't followed.

The table is in the order of its first columns. The sums are those of flowlabel-many, which is proved. That the tables
of several runs are added up, and what is found in the Files, is tested. The variable JOBS is how many runs there may be
at a time, in place of the number of processors.

With --parallel or --scheduler other machines sum the Files. There flowlabel-many is the program that the variable
FLOWLABEL_MANY names, or the one beside what FLOWLABEL names. The Files, and the map, have the same names there. If a
File has other bytes, no sum is printed. Dask is that of a virtual environment, or else Debian's: one of
`pip install --user` isn't found.
"""

from __future__ import annotations

import argparse
import functools
import operator
import os
import re
from collections.abc import Iterable

from flowlabel import audit, command_line, files, machines, process, programs, tables

KINDS = {**audit.KINDS, "times": "rows have no time"}
FILTERS = ("protocol", "sport", "dport", "saddress", "daddress", "packets", "bytes", "src-label", "dst-label",
           "any-label", "in-if", "out-if", "vlan", "src-as", "dst-as")
COLUMNS: dict[str | None, list[bytes]] = {None: [], "day": [b"day"], "hour": [b"hour"]}
PARSER = command_line.Parser("flowlabel-bill [OPTION..] FILE|FOLDER..", page=__doc__)
files.add_options(PARSER)
PARSER.add_argument("--allow", metavar="WORD", action="append", choices=KINDS, default=[],
                    help="reports what one of these words means, and prints the sums; it may be repeated")
GROUPS = PARSER.add_argument_group("what becomes a group")
GROUPS.add_argument("--by", metavar="UNIT", help="the day, hour, minute or N minutes (such as 15m) in which a flow "
                    "began; 0 is an unknown time")
command_line.add_passed(GROUPS, "fields")
GROUPS.add_argument("--zone", metavar="NAME", help="UNITs of a time zone such as Europe/Berlin, with days of 23 to 25 "
                    "hours, in place of UTC")
FLOWS = PARSER.add_argument_group("which flows count, and their labels")
FLOWS.add_argument("--month", metavar="YYYY-MM", help="only flows that began in this month. The sums of others are "
                   "reported")
command_line.add_passed(FLOWS, "pmap", "list", *FILTERS)
tables.add_output(PARSER.add_argument_group("what is printed"))
OTHERS = PARSER.add_argument_group("other machines")
OTHERS.add_argument("--parallel", action="store_true", help="GNU parallel runs flowlabel-many, with the options in the "
                    "variable PARALLEL, such as those of other machines")
OTHERS.add_argument("--scheduler", metavar="ADDRESS", help="a scheduler of Dask of your own, with the certificates of "
                    "Dask's configuration. ADDRESS begins with tls://: without certificates, any user who reaches it "
                    "could run programs as you")


def options_of(words: list[str]) -> argparse.Namespace:
    """Returns the options."""
    options = PARSER.parse_args(words)
    tables.check_output(PARSER, options)
    if not (options.by or options.fields):
        PARSER.error("name the groups with --by, --fields or both")
    for name, form in (("month", r"(?!0000)\d{4}-(0[1-9]|1[0-2])"), ("scheduler", "tls://.+")):
        if (value := getattr(options, name)) is not None and not re.fullmatch(form, value):
            PARSER.error(f"--{name}: not {value}")
    if options.zone is not None and not (options.by or options.month):
        PARSER.error("--zone needs --by or --month")
    return options


class Times:
    """The units in which flows began: of a zone, or of UTC, and of which month."""

    def __init__(self, options: argparse.Namespace) -> None:
        self.by, self.month, self.zone = options.by, options.month, None
        # The unit of flowlabel-many, if it needs one. Zones differ from UTC by quarters of an hour.
        self.unit = options.by or options.month and "day"
        if options.zone is not None and self.unit in ("day", "hour"):
            self.unit = "15m"
        # flowlabel-many refuses what is no unit.
        if options.zone is not None and (found := re.fullmatch(r"minute|0*([1-9]\d{0,3})m", self.unit)):
            import zoneinfo
            self.minutes = int(found[1] or 1)
            if 15 % self.minutes:
                raise process.Failure("--zone needs days, hours, minutes, or N minutes of which a quarter of an hour "
                                      "consists", 2)
            try:
                self.zone = zoneinfo.ZoneInfo(options.zone)
            except (ValueError, OSError, zoneinfo.ZoneInfoNotFoundError):
                raise process.Failure(f"--zone: there is no time zone {options.zone} (Debian: tzdata)", 2) from None
        # The sums of days of other months, and whether rows have no time.
        self.others, self.has_unknown = dict[str, list[int]](), False

    def span(self) -> tuple[float, float] | None:
        """Returns when the month begins and ends, or None without one."""
        if not self.month:
            return None
        import calendar
        import datetime
        year, month = map(int, self.month.split("-"))
        first = datetime.datetime(year, month, 1, tzinfo=self.zone or datetime.timezone.utc)
        last = first.replace(day=calendar.monthrange(year, month)[1], hour=23, minute=59, second=59)
        return first.timestamp(), last.timestamp() + 1

    @functools.lru_cache(1 << 16)
    def local(self, cell: bytes) -> tuple[bytes, str]:
        """Returns the text of the unit that has a time of flowlabel-many, and its day."""
        text = cell.decode()
        if self.zone and cell != b"0":
            import datetime
            begin = datetime.datetime.fromisoformat(text)
            last = datetime.timedelta(seconds=60 * self.minutes - 1)
            try:
                time, end = begin.astimezone(self.zone), (begin + last).astimezone(self.zone)
            except OverflowError:
                raise process.Failure(f"--zone: {text} is too late") from None
            # Times of one zone differ as its clocks do.
            if end - time != last or time.minute % self.minutes or time.second:
                raise process.Failure(f"--zone: at {text} the time of {self.zone} isn't whole units from UTC")
            text = f"{time:%Y-%m-%d}" if self.by in (None, "day") else time.isoformat(
                timespec="hours" if self.by == "hour" else "minutes")
        return text.encode(), text[:10]

    def sums_of(self, groups: tables.Sums) -> tables.Sums:
        """Returns the sums by the units that are wanted."""
        if not self.unit:
            return groups
        sums = tables.Sums(COLUMNS.get(self.by, [b"minute"]) + groups.columns[1:])
        for (cell, *key), totals in groups.items():
            text, day = self.local(cell)
            self.has_unknown |= bool(self.month) and cell == b"0"
            if self.month and cell != b"0" and not day.startswith(self.month):
                its = self.others.setdefault(day, [0, 0, 0])
            else:
                its = sums.setdefault((*[text] * bool(self.by), *key), [0, 0, 0])
            its[:] = map(operator.add, its, totals)
        return sums


def looked_at(options: argparse.Namespace, its: list[files.File], month: tuple[float, float] | None) -> int:
    """Looks at all Files, perhaps those of a month, and returns the number of their rows. What is certainly wrong ends
    the command unless it is allowed."""
    found = audit.Audit(its, month)
    for is_certain in (True, False):
        process.warn_all(found.lines(is_certain))
    refuse(found.refused(options.allow))
    return sum(counts.rows for counts in found.counts)


def refuse(kinds: list[str]) -> None:
    """Ends the command if there are kinds of what is wrong."""
    if kinds:
        raise process.Failure(f"{'; '.join(KINDS[kind] for kind in kinds)}. No sum is printed without "
                              + " ".join(f"--allow {kind}" for kind in kinds))


def groups_of(found: Iterable[tables.Table]) -> tables.Sums:
    """Returns the sums of some tables with the same columns."""
    groups = tables.Sums([])
    for table in found:
        groups.columns = groups.columns or table.columns[:-3]
        groups.add_table(table)
    return groups


def main(words: list[str]) -> int:
    options = options_of(words)
    times = Times(options)
    if options.scheduler:
        machines.find_dask(words)
    passed = ["sum", *[f"--by={times.unit}"] * bool(times.unit), *["--allow-skipped"] * ("skipped" in options.allow),
              *command_line.passed(options, "fields", "pmap", "list", *FILTERS)]
    # Each run reads the map. A fault of it, or of the options, is reported before all others, and once.
    maps = [files.File(name, True) for name in (*options.pmap, *options.list)]
    programs.run("flowlabel-many", *passed, os.devnull)
    its = files.files_of(options)
    rows = looked_at(options, its, times.span())
    groups = groups_of(machines.run(options, passed, its) if options.parallel or options.scheduler else (
        tables.Table("the table of flowlabel-many", out) for _, out in files.run(passed, its)))
    for file in (*its, *maps):
        file.check()
    if not command_line.passed(options, *FILTERS) and rows != groups.count():
        raise process.Failure(f"the sums are those of {groups.count()} rows, and the Files have {rows}")
    process.warn_all([*groups.unlabelled()])
    sums = times.sums_of(groups)
    refuse(["times"] * (times.has_unknown and "times" not in options.allow))
    process.warn_all([f"in no sum, since it isn't of {times.month}: {day}, with {records} records, {packets} packets "
                      f"and {octets} bytes" for day, (records, packets, octets) in sorted(times.others.items())])
    lines = ([*key, *(b"%d" % total for total in sums[key])] for key in sorted(sums, key=sums.order))
    process.write([*tables.text_of(options, [*sums.columns, *tables.TOTALS], lines)])
    return 0
