"""Tables of flowlabel, of flowlabel-many and of the commands: how they are read, added up and printed."""

from __future__ import annotations

import itertools
import operator
import re
import socket
import types

from flowlabel import addresses, process

TYPE_CHECKING = False
if TYPE_CHECKING:
    import argparse
    from collections.abc import Container, Iterable, Iterator
    from typing import IO, Any, NoReturn

Chunk = list[list[bytes]]
# The columns of tables of sums: addresses, labels, other fields, times and totals.
ADDRESSES, LABELS = [b"sip", b"dip"], [b"src-label", b"dst-label"]
FIELDS = (*ADDRESSES, *LABELS, *b"sport dport proto flags in-if out-if vlan src-as dst-as".split())
TIMES = {name: re.compile(rb"0|(\d{4,})-\d\d-\d\d" + end)
         for name, end in ((b"minute", rb"T\d\d:\d\d(?:Z|(.+))"), (b"hour", rb"T\d\d(?:Z|(.+))"), (b"day", b"()"))}
TOTALS = [b"records", b"packets", b"bytes"]
NUMBER = re.compile(rb"0|[1-9][0-9]*")
ROWS = "sip dip sport dport proto flags packets bytes stime etime".encode().split()
# The columns that have texts, and in JSON are strings.
TEXTS = {*LABELS, *ADDRESSES, b"label", b"address", *TIMES}
NO_CELL = "a cell isn't what its column has"
# The number of bytes that are split at a time, so that the parts fit into the cache of a processor.
CHUNK = 1 << 15


class Sums(dict[tuple[bytes, ...], list[int]]):
    """The totals of groups, by a key of cells of some columns. A group that isn't there yet gets the totals 0."""

    def __init__(self, columns: list[bytes]) -> None:
        super().__init__()
        self.columns = columns

    def order(self, key: tuple[bytes, ...]) -> list[object]:
        """Returns the order of a key, as that of its cells. Raises ValueError if the columns can't have these."""
        return [*map(cell_order, self.columns, key)]

    def __missing__(self, key: tuple[bytes, ...]) -> list[int]:
        self.order(key)
        self[key] = [0, 0, 0]
        return self[key]

    def add(self, table: Table, chunk: Chunk, indexes: Iterable[int], totals: list[Iterable[int]]) -> None:
        """Adds the totals of lines to the groups of their keys, which are in the columns of some indexes."""
        columns = [chunk[index] for index in indexes]
        try:
            for key, records, packets, octets in zip(zip(*columns), *totals):
                group = self[key]
                group[0] += records
                group[1] += packets
                group[2] += octets
        except ValueError:
            table.fail(NO_CELL, next(place for *key, place in zip(*columns, table.places) if (*key,) not in self))

    def add_table(self, table: Table) -> None:
        """Adds a table of sums with the same columns."""
        if table.columns != [*self.columns, *TOTALS]:
            raise process.Failure(f"{table.name}: it has other columns")
        for chunk in table.chunks():
            self.add(table, chunk, range(len(self.columns)), table.totals(chunk))

    def count(self) -> int:
        """Returns the number of rows."""
        return sum(records for records, _, _ in self.values())

    def unlabelled(self) -> Iterator[str]:
        """Yields a warning if records have no label."""
        places = [place for place, column in enumerate(self.columns) if column in LABELS]
        if count := sum(totals[0] for key, totals in self.items() if any(not key[place] for place in places)):
            yield (f"{count} rows have no label, such as those with IPv6 addresses under a map of IPv4. Write 'mode "
                   "ipv6' at the top of the map")


def cell_order(column: bytes, cell: bytes) -> object:
    """Returns the order of a cell among those of its column: addresses, times and numbers by value, and labels by their
    bytes. Raises ValueError if the column can't have it."""
    if column in LABELS:
        return cell
    if column in TIMES:
        found = TIMES[column].fullmatch(cell)
        if not found:
            raise ValueError
        if not found[2]:
            return int(found[1] or -1), cell
        # Of a time zone.
        import datetime
        return int(found[1]), datetime.datetime.fromisoformat(cell.decode()).timestamp()
    if column in ADDRESSES:
        is_six = b":" in cell
        try:
            return is_six, socket.inet_pton(addresses.FAMILIES[6 if is_six else 4], cell.decode())
        except OSError:
            raise ValueError from None
    if not NUMBER.fullmatch(cell):
        raise ValueError
    return int(cell)


class Table:
    """The header of a table, and its lines, which come in chunks: lists of the cells of each column."""

    def __init__(self, name: str, file: IO[bytes]) -> None:
        # The number of the first line of a chunk, and for each of its lines how many are before it.
        self.name, self.file, self.line, self.places = name, file, 1, [0]
        header = file.readline()
        self.columns = header[:-1].split(b"|")
        self.is_rows = self.columns in (ROWS, ROWS + LABELS)
        # A table of sums has fields, perhaps after a time, and the totals.
        fields = self.columns[self.columns[0] in TIMES:-3]
        is_sums = len(self.columns) > 3 and self.columns[-3:] == TOTALS
        if not header:
            raise process.Failure(f"{name}: there is no table, not even a header")
        if not header.endswith(b"\n") or not self.is_rows and not (
                is_sums and {*fields} <= {*FIELDS} and len({*fields}) == len(fields)):
            self.fail("this is no header of `rows` or of sums (without --columns)")
        self.labels = [column for column in LABELS if column in self.columns]
        # The columns whose cells must be numbers.
        self.numbers = {*TOTALS} & {*self.columns}

    def fail(self, why: str, after: int = 0) -> NoReturn:
        """Reports the fault of the line, or of one after it."""
        raise process.Failure(f"{self.name}: line {self.line + after}: {why}")

    def index(self, name: bytes) -> int:
        """Returns the index of a column."""
        if name not in self.columns:
            raise process.Failure(f"{self.name}: the table has no column {name.decode(errors='replace')}")
        return self.columns.index(name)

    def totals(self, chunk: Chunk) -> list[Iterable[int]]:
        """Returns the totals of lines, one after the other. Each row is a record."""
        return [*[itertools.repeat(1)] * self.is_rows,
                *([*map(int, chunk[self.index(name)])] for name in TOTALS[self.is_rows:])]

    def only(self, chunk: Chunk, wanted: list[bool]) -> Chunk:
        """Returns the lines for which a list has a true value."""
        self.places = [*itertools.compress(self.places, wanted)]
        return [[*itertools.compress(column, wanted)] for column in chunk]

    def chunks(self) -> Iterator[Chunk]:
        """Yields the lines."""
        self.line, width = 2, len(self.columns)
        while data := self.file.read(CHUNK):
            data += self.file.readline()
            count = data.count(b"\n")
            if not data.endswith(b"\n"):
                self.fail("the table is cut short", count)
            cells = data.replace(b"\n", b"\n|").split(b"|")[:-1]
            last = b"".join(cells[width - 1::width]).split(b"\n")[:-1]
            if len(cells) == count * width and len(last) == count:
                cells[width - 1::width] = last
            else:
                cells = [cell for place, line in enumerate(data.split(b"\n")[:-1])
                         for cell in self.cells_of(line, place)]
            chunk, self.places = [cells[index::width] for index in range(width)], [*range(count)]
            for cells in (chunk[self.index(name)] for name in self.numbers):
                if not (b"".join(cells).isdigit() and all(cells)):
                    self.fail(NO_CELL, next(place for place, cell in enumerate(cells) if not cell.isdigit()))
            yield chunk
            self.line += count

    def cells_of(self, line: bytes, place: int) -> list[bytes]:
        """Returns the cells of a line. If there are too many, these can only be parts of one label."""
        cells, width = line.split(b"|"), len(self.columns)
        if len(cells) == width:
            return cells
        if len(cells) < width or len(self.labels) != 1:
            why = ": a label has a |" if len(cells) > width else ""
            self.fail(f"{len(cells)} cells instead of {width}{why}", place)
        start, after = self.columns.index(self.labels[0]), len(cells) - width + 1
        return [*cells[:start], b"|".join(cells[start:start + after]), *cells[start + after:]]


def add_output(group: argparse._ActionsContainer) -> None:
    """Adds the options of what is printed."""
    for name, text in (("csv", "CSV of RFC 4180, in place of a table"),
                       ("json", "an object of JSON per line, in place of a table"),
                       ("strings", "with --json: numbers are strings, since some readers round those above 2^53")):
        group.add_argument(f"--{name}", action="store_true", help=text)


def check_output(parser: argparse.ArgumentParser, options: argparse.Namespace) -> None:
    """Refuses options of what is printed that exclude each other."""
    if options.csv and options.json or options.strings and not options.json:
        parser.error("choose --csv or --json, and --strings only with --json")


def text_of(options: argparse.Namespace, columns: list[bytes], lines: Iterable[Iterable[bytes]],
            texts: Container[bytes] = TEXTS) -> Iterator[bytes]:
    """Yields the lines of the output, in which some columns have texts."""
    if options.json:
        import json
        before = [json.dumps(name.decode()) + ": " for name in columns]
        quotes = [name in texts or options.strings for name in columns]
        for cells in lines:
            values = (json.dumps(cell.decode("utf-8", "surrogateescape")) if is_quoted else str(int(cell))
                      if cell.isdigit() else cell.decode() for cell, is_quoted in zip(cells, quotes))
            yield ("{" + ", ".join(map(operator.add, before, values)) + "}\n").encode()
    elif options.csv:
        import csv
        # What `write` returns, a row of the module csv returns too. Latin-1 has a character for each byte.
        file: Any = types.SimpleNamespace(write=lambda line: line.encode("latin-1"))
        row = csv.writer(file).writerow
        for cells in itertools.chain([columns], lines):
            yield row([cell.decode("latin-1") for cell in cells])
    else:
        for cells in itertools.chain([columns], lines):
            yield b"|".join(cells) + b"\n"
