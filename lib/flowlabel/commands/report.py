"""Sums a table of flows or of sums.

The first form runs `flowlabel rows` or `uniq`, `flowlabel-many sum` or flowlabel-bill with these words, and reads the
table that it prints. If the command fails, nothing is printed, and the status is the command's. The second form reads
FILE or standard input, and can't know whether the table lacks its last lines: a command of a pipeline may have failed.

It adds up records, packets and bytes as whole numbers of any size, and prints a table as `uniq` does, in the order of
its first columns. Memory grows with the number of groups, not of lines. Sums by time are those of `-- sum --by UNIT` or
`-- bill --by UNIT`.

In A,B a comma inside a label is written \\, and a backslash \\\\. Both options that take them may be repeated. A label
that no line has is reported on standard error.

Shares and rates are rounded to two decimals. In JSON a byte of a label that isn't UTF-8 is \\udc80 to \\udcff, as
Python's 'surrogateescape' has it, and numbers have all their digits. Some readers round those above 2^53, such as jq
1.6 and JavaScript: with --strings all numbers are strings. If the input is malformed, or ends within a line, one line
on standard error reports this, nothing is printed and the status is 1.
"""

from __future__ import annotations

import argparse
import contextlib
import functools
import gc
import itertools
import os
import re
import sys
from collections.abc import Callable, Iterable, Iterator

from flowlabel import command_line, disk, process, programs, tables

# What runs after `--`.
COMMANDS = {"rows": ["flowlabel", "rows"], "uniq": ["flowlabel", "uniq"], "sum": ["flowlabel-many", "sum"],
            "bill": ["flowlabel-bill"]}
SECONDS = {b"hour": 3600, b"day": 86400}
# What says how long the units of a command's table are.
UNIT = command_line.Parser()
UNIT.add_argument("--by")
UNIT.add_argument("--zone")
GONE = "--by is gone, since flowlabel-many sums by time: write flowlabel-report [OPTION..] -- sum --by UNIT WORD.."
LABEL, ADDRESS = b"label", b"address"
RATES = [b"bits/s", b"packets/s"]
# The Gregorian calendar repeats after this number of seconds, which are 400 years.
CYCLE = 146097 * 86400
FLAGS = "FSRPAUECN"


def labels_of(text: str) -> list[bytes]:
    """Returns the labels that an option names."""
    parts = re.findall(rb",((?:\\[\\,]|[^,])*)", b"," + os.fsencode(text))
    return [re.sub(rb"\\([\\,])", rb"\1", part) for part in parts]


PARSER = command_line.Parser("flowlabel-report [OPTION..] -- rows|uniq|sum|bill WORD..",
                             "flowlabel-report [OPTION..] [FILE]", page=__doc__)
PARSER.add_argument("file", nargs="?", metavar="FILE", help="a table, in place of standard input")
PARSER.add_argument("--by", help=argparse.SUPPRESS)
GROUPS = PARSER.add_argument_group("what becomes a group")
GROUPS.add_argument("--fields", metavar="NAME,..", default=[], type=lambda text: os.fsencode(text).split(b","),
                    help="these columns; without it a table of sums keeps its own")
GROUPS.add_argument("--both", action="store_true", help="each label, with what it received (in-) and sent (out-), by "
                    "the times of the table if it has any; a table without labels has addresses")
LINES = PARSER.add_argument_group("which lines count")
LINES.add_argument("--label", metavar="A,B", action="extend", type=labels_of, help="those with one of these labels")
LINES.add_argument("--except", metavar="A,B", action="extend", type=labels_of, default=[], dest="exclude",
                   help="those with none of these labels")
LINES.add_argument("--side", choices=("src", "dst"), help="the label that these two look at, if the table has two. "
                   "With --both they select output lines")
OUTPUT = PARSER.add_argument_group("what is printed")
OUTPUT.add_argument("--top", metavar="N", type=command_line.whole_number, help="the N groups with the most bytes, "
                    "the largest first, and their share of the bytes (percent)")
OUTPUT.add_argument("--share", action="store_true", help="all groups with their share")
OUTPUT.add_argument("--rates", action="store_true", help="bits and packets per second over the unit of the table's "
                    "times, such as those of `sum --by 15m`. A day has 24 hours")
OUTPUT.add_argument("--seconds", metavar="N", type=command_line.whole_number, help="bits and packets per second over N "
                    "seconds, instead of --rates")
OUTPUT.add_argument("--rows", action="store_true", help="no sums: the lines of `rows`, with times in ISO 8601 and "
                    f"TCP flags as letters ({FLAGS})")
tables.add_output(OUTPUT)


@functools.lru_cache(1 << 16)
def time_of(seconds: int) -> str:
    """Returns a time in ISO 8601, of any year."""
    import datetime
    cycles, rest = divmod(seconds, CYCLE)
    time = datetime.datetime(1970, 1, 1) + datetime.timedelta(seconds=rest)
    return f"{time.year + 400 * cycles:04}{time:-%m-%dT%H:%M:%S}"


def exact_time(cell: bytes) -> bytes:
    """Returns the time that a cell has in milliseconds."""
    seconds, milliseconds = divmod(int(cell), 1000)
    return f"{time_of(seconds)}.{milliseconds:03}Z".encode() if cell != b"0" else cell


@functools.lru_cache(1 << 16)
def letters(cell: bytes) -> bytes:
    """Returns TCP flags as letters, and any others as a number after a plus sign."""
    flags = int(cell)
    known = "".join(letter for place, letter in enumerate(FLAGS) if flags >> place & 1)
    others = flags >> len(FLAGS) << len(FLAGS)
    return f"{known}+{others}".encode() if others else known.encode()


READABLE: dict[bytes, Callable[[bytes], bytes]] = {b"flags": letters, b"stime": exact_time, b"etime": exact_time}


def decimal(numerator: int, denominator: int) -> bytes:
    """Returns a quotient with two decimals, the nearest, and the larger of two."""
    hundredths = (200 * numerator + denominator) // (2 * denominator) if denominator else 0
    return b"%d.%02d" % divmod(hundredths, 100)


class Choice:
    """Which labels are wanted."""

    def __init__(self, table: tables.Table, options: argparse.Namespace) -> None:
        self.table, self.only, self.without = table, options.label, options.exclude
        self.index, self.unseen = None, {*(self.only or ()), *self.without}
        if options.both or not self.unseen:
            return
        labels = [name for name in table.labels if not options.side or name.startswith(options.side.encode())]
        if len(labels) != 1:
            raise process.Failure(f"{table.name}: the table has " + (
                "two labels: choose one with --side src or --side dst" if labels else "no such label"))
        self.index = table.index(labels[0])

    def allows(self, label: bytes) -> bool:
        """Returns whether a label is wanted."""
        return (self.only is None or label in self.only) and label not in self.without

    def of(self, chunk: tables.Chunk) -> tables.Chunk:
        """Returns the lines with a wanted label."""
        if self.index is None:
            return chunk
        labels = chunk[self.index]
        self.unseen.difference_update(labels)
        allowed = {label: self.allows(label) for label in {*labels}}
        return self.table.only(chunk, [allowed[label] for label in labels])


class Sums:
    """The sums of each group, perhaps of two sides."""

    def __init__(self, table: tables.Table, options: argparse.Namespace) -> None:
        self.table, self.is_both = table, options.both
        own = [] if table.is_rows else table.columns[:-3]
        self.names, sides = options.fields or own, {b"": options.fields or own}
        times = [name for name in own if name in tables.TIMES]
        if options.both:
            source, target = tables.LABELS if table.labels else tables.ADDRESSES
            self.names = [*times, LABEL if table.labels else ADDRESS]
            sides = {b"in-": [*times, target], b"out-": [*times, source]}
        elif not self.names:
            raise process.Failure(f"{table.name}: name the groups of these rows with --fields or --both")
        self.seconds = options.seconds
        if options.rates:
            self.seconds = seconds_of(times[0], options.command) if {*times} & {*self.names} else 0
            if not self.seconds:
                raise process.Failure(f"{table.name}: --rates needs sums by a time, and of a known length: write "
                                      "--seconds N in place of it")
        # Of each side the indexes of its columns, and its sums.
        self.sides = {side: ([*map(table.index, names)], tables.Sums(names)) for side, names in sides.items()}

    def add(self, chunks: Iterable[tables.Chunk]) -> None:
        """Adds up the lines."""
        for chunk in chunks:
            totals = self.table.totals(chunk)
            for indexes, sums in self.sides.values():
                sums.add(self.table, chunk, indexes, totals)

    def totals(self, key: tuple[bytes, ...]) -> list[int]:
        """Returns the totals of a group, of one side after the other."""
        return [total for _, sums in self.sides.values() for total in sums.get(key, (0, 0, 0))]

    def lines(self, options: argparse.Namespace, choice: Choice) -> tuple[list[bytes], Iterator[list[bytes]]]:
        """Returns the columns and the lines of the output."""
        order = next(sums.order for _, sums in self.sides.values())
        keys = sorted({key for _, sums in self.sides.values() for key in sums}, key=order)
        if self.is_both:
            choice.unseen.difference_update(key[-1] for key in keys)
            keys = [key for key in keys if choice.allows(key[-1])]
        every = None
        if options.share or options.top is not None:
            every = sum(map(self.octets, keys))
        if options.top is not None:
            keys = sorted(keys, key=self.octets, reverse=True)[:options.top]
        columns = [*self.names, *(side + total for side in self.sides for total in tables.TOTALS)]
        columns += [b"percent"] * (every is not None)
        columns += [side + rate for side in self.sides for rate in RATES if self.seconds]
        return columns, (self.line(key, every) for key in keys)

    def octets(self, key: tuple[bytes, ...]) -> int:
        """Returns the bytes of a group, of both sides."""
        return sum(self.totals(key)[2::3])

    def line(self, key: tuple[bytes, ...], every: int | None) -> list[bytes]:
        """Returns a line of the output."""
        totals = self.totals(key)
        line = [*key, *(b"%d" % total for total in totals)]
        if every is not None:
            line.append(decimal(100 * self.octets(key), every))
        if self.seconds:
            for first in range(0, len(totals), 3):
                line += decimal(8 * totals[first + 2], self.seconds), decimal(totals[first + 1], self.seconds)
        return line


def seconds_of(time: bytes, command: list[str]) -> int:
    """Returns how long a unit of time is, by the words of the command that has printed it, or 0 if this is unknown. The
    table doesn't say how many minutes a unit has, and days of a time zone may have 23 or 25 hours."""
    words, _ = UNIT.parse_known_args(command)
    if words.zone is not None:
        return 0
    minutes = {None: "0", "minute": "1"}.get(words.by) or words.by.rstrip("m")
    return SECONDS.get(time) or 60 * int(minutes)


def readable(table: tables.Table) -> Callable[[tables.Chunk], Iterable[tuple[bytes, ...]]]:
    """Returns a function that returns the lines of a chunk of rows with readable times and flags."""
    if not table.is_rows:
        raise process.Failure(f"{table.name}: --rows needs a table of `rows`")
    table.numbers.update({*tables.ROWS} - {*tables.ADDRESSES})
    return lambda chunk: zip(*(map(READABLE.get(name, bytes), cells) for name, cells in zip(table.columns, chunk)))


def options_of(words: list[str]) -> argparse.Namespace:
    """Returns the options of a command line."""
    end = words.index("--") if "--" in words else len(words)
    options = PARSER.parse_args(words[:end])
    options.command = words[end + 1:]
    tables.check_output(PARSER, options)
    for is_wrong, why in (
            (options.by is not None, GONE),
            (end < len(words) and (options.file or not {*options.command[:1]} & {*COMMANDS}),
             "after -- write rows, uniq, sum or bill with its words, and no FILE before it"),
            (options.both and options.fields, "choose --both or --fields"),
            (not {*options.fields} <= {*tables.FIELDS, *tables.TIMES}
             or len({*options.fields}) < len(options.fields),
             "--fields needs names of the fields of `uniq`, or of a time, each once at most"),
            (options.seconds == 0 or options.seconds and options.rates,
             "--seconds needs a number above 0, and no --rates"),
            (options.both and options.side, "--both has both sides, so --side means nothing"),
            (options.rows and (options.fields or options.both or options.top is not None or options.share
                               or options.seconds or options.rates), "--rows prints no sums")):
        if is_wrong:
            PARSER.error(why)
    return options


def main(words: list[str]) -> int:
    import tempfile
    # Python would refuse numbers of more than 4300 digits.
    sys.set_int_max_str_digits(0)
    # There are no cycles of objects to find.
    gc.disable()
    options = options_of(words)
    # Nothing is printed before the whole input is read. Rows may need more room than there is memory.
    with tempfile.SpooledTemporaryFile(1 << 24) as out, contextlib.ExitStack() as stack:
        if options.command:
            word, *rest = options.command
            file, name = stack.enter_context(tempfile.TemporaryFile()), f"the table of {word}"
            programs.run(*COMMANDS[word], *rest, stdout=file)
            file.seek(0)
        else:
            file, name = disk.opened(options.file)
        table = tables.Table(name, file)
        choice = Choice(table, options)
        chunks, texts = map(choice.of, table.chunks()), tables.TEXTS
        lines: Iterable[Iterable[bytes]]
        if options.rows:
            columns, texts = table.columns, tables.TEXTS.union(READABLE)
            lines = itertools.chain.from_iterable(map(readable(table), chunks))
        else:
            sums = Sums(table, options)
            sums.add(chunks)
            columns, lines = sums.lines(options, choice)
        out.writelines(tables.text_of(options, columns, lines, texts))
        for label in sorted(choice.unseen):
            process.warn(f"no line has the label '{os.fsdecode(label)}'")
        out.seek(0)
        process.write(iter(lambda: out.read(1 << 20), b""))
    return 0
