"""Prints the map text of a table of customers, as a spreadsheet saves it.

CSV is a file of lines such as `10.1.0.0/16,Alder`. Columns are named by the header, in any case, or by numbers from 1
on. Blanks around a cell are removed.

Smaller ranges are printed after those around them, so that they count. The mode of the map is ipv6, so each address of
IPv6 has a label too, and those of IPv4 are in ::ffff:0:0/96. The number of addresses that each label has, as
`flowlabel cat` gives it, is printed on standard error. So are labels that differ only in case, blanks or the form of
characters, and labels that tables or a spreadsheet would read in another way.

Nothing is printed, the status is 1, and a line names the line of the CSV file, if

- a cell is no block, address or range, host bits are set, or a second address looks like a netmask;
- a range has two labels, or two ranges overlap and none contains the other: with --last the last line counts;
- a map can't have the label: it is empty or longer than 255 bytes, has a control character, or a # that would cut it;
- a line has more or fewer cells than the first one, so that a comma may have cut a label, or its quotes don't match;
- a line isn't in the encoding, or the last one has no line feed, so that the file may be cut short.
"""

from __future__ import annotations

import argparse
import collections
import contextlib
import csv
import gc
import io
import itertools
import operator
import re
from collections.abc import Iterator

from flowlabel import addresses, command_line, disk, process, programs

PARSER = command_line.Parser("flowlabel-customers [OPTION..] CSV", page=__doc__)
PARSER.add_argument("--network", metavar="COLUMN", action="append", default=[],
                    help="a block (10.1.0.0/16), an address, or a range (10.1.0.0-10.1.0.99). Given twice, the columns "
                    "of the first and of the last address. Without it, the column `network`")
PARSER.add_argument("--mask", metavar="COLUMN", help="the netmask of the network (255.255.0.0), or its length (16)")
PARSER.add_argument("--label", metavar="COLUMN", default="label", help="the label. Without it, the column `label`")
PARSER.add_argument("--default", metavar="LABEL", default="UNKNOWN",
                    help="the label of all other addresses, which no line may have (UNKNOWN)")
PARSER.add_argument("--delimiter", metavar="C", help="what separates cells, such as ';' or tab. Without it, the comma, "
                    "or if the first line has none, the semicolon, or else the tab")
PARSER.add_argument("--encoding", metavar="NAME", help="the encoding, such as cp1252. Without it, UTF-8, or UTF-16 if "
                    "its byte order mark is there")
PARSER.add_argument("--last", action="store_true", help="if ranges overlap, the last line counts")
PARSER.add_argument("csv", metavar="CSV", help="the table, or - for standard input")
# A range: the first and the last address among those of IPv6, the line, the label and the version.
Range = tuple[int, int, int, str, int]
# Separates the two addresses of a range.
DASH = r"\s*[-\u2013]\s*"
# What a cell of a header looks like. None of these is an address.
HEADER = r"[^\W\d][^:./]*"
# What no label can have (docs/FORMATS.md): control characters other than a tab, and the # of a comment.
NOT_IN_LABELS = "[\0-\x08\x0a-\x1f\x7f#]"
# What spreadsheets take for the beginning of a formula.
FORMULAS = ("=", "+", "-", "@")
MOST_LINES, MOST_LABELS = 1_000_000, 65_535
# How a spreadsheet begins that isn't a text, such as .xlsx and .ods, or .xls.
SPREADSHEETS = (b"PK\x03\x04", b"\xd0\xcf\x11\xe0")
MARKS = (b"\xff\xfe", b"\xfe\xff")


def fault(line: int, why: object) -> process.Failure:
    """Returns the fault of a line."""
    return process.Failure(f"line {line}: {why}")


def lines_of(options: argparse.Namespace) -> Iterator[str]:
    """Yields the lines of the file. The last one must end, since a file that is cut short may end within a label."""
    with disk.opened(options.csv)[0] as file:
        start = file.peek(4)
        if start.startswith(SPREADSHEETS):
            raise process.Failure("it is a spreadsheet. Save the sheet as CSV, or convert it with soffice --headless "
                                  "--convert-to csv FILE")
        encoding = options.encoding or ("utf-16" if start.startswith(MARKS) else "utf-8-sig")
        number, line = 0, "\n"
        with io.TextIOWrapper(file, encoding, "surrogateescape", "") as text:
            for number, line in enumerate(text, 1):
                yield line
        if not line.endswith(("\n", "\r")):
            raise fault(number, "it has no line feed at its end, so the file may be cut short. If it is whole, add one")


def rows_of(options: argparse.Namespace) -> Iterator[tuple[int, int, list[str]]]:
    """Yields the rows of the file, each with the numbers of its first and its last line. Empty ones are left out."""
    line, width = 1, 0
    try:
        lines, first = lines_of(options), [""]
        while not "".join(first).strip() and (found := next(lines, "")):
            first.append(found)
        if not options.delimiter:
            options.delimiter = next((mark for mark in ",;\t" if mark in "".join(first)), ",")
            if options.delimiter != ",":
                process.warn(f"cells are taken to be separated by '{options.delimiter}', as the first line has no "
                             "comma")
        reader = csv.reader(itertools.chain(first[1:], lines), delimiter=options.delimiter, strict=True)
        for row in reader:
            if any(row):
                width = width or len(row)
                if len(row) != width:
                    raise fault(line, f"{len(row)} cells, and the first line has {width}")
                yield line, reader.line_num, row
            line = reader.line_num + 1
    except (csv.Error, UnicodeError) as why:
        raise fault(line, why) from None


class Columns:
    """The indexes of the columns, and whether the first row is a header."""

    def __init__(self, options: argparse.Namespace, row: list[str]) -> None:
        self.row, self.has_header = row, False
        self.networks = [self.index(column) for column in options.network or ["network"]]
        self.label = self.index(options.label)
        self.mask = None if options.mask is None else self.index(options.mask)
        if not self.has_header and all(re.fullmatch(HEADER, row[index].strip()) for index in self.networks):
            self.has_header = True
            process.warn(f"line 1 is taken for a header: {options.delimiter.join(row)}")

    def index(self, column: str) -> int:
        """Returns the index of a column, by its number, or by its name in the header."""
        if re.fullmatch("[1-9][0-9]{0,3}", column) and int(column) <= len(self.row):
            return int(column) - 1
        self.has_header = True
        found = [index for index, cell in enumerate(self.row) if cell.strip().casefold() == column.strip().casefold()]
        if len(found) != 1:
            cells = ", ".join(f"{number} '{cell}'" for number, cell in enumerate(self.row[:20], 1))
            raise fault(1, f"{'several columns are' if found else 'no column is'} called '{column}': choose with "
                        "--network and --label by name or by number, such as --network 1 --label 2. The first line has "
                        f"{cells}. Name what separates cells with --delimiter")
        return found[0]


def with_length(network: str, mask: str, line: int) -> str:
    """Returns the block of an address and a netmask, or a length."""
    network, length = network.strip(), mask.strip().removeprefix("/")
    if length.isdigit():
        return f"{network}/{length}"
    with contextlib.suppress(ValueError):
        version, number = addresses.address(length)
        bits = addresses.mask_length(version, number)
        if bits is not None and version == (6 if ":" in network else 4):
            return f"{network}/{bits}"
    raise fault(line, f"'{mask}' is no netmask of '{network}'")


def range_of(cells: list[str], line: int) -> tuple[int, int, int]:
    """Returns the version, the first and the last address that a line has."""
    text = cells[0].strip()
    parts = re.split(DASH, text) if len(cells) == 1 and ("-" in text or not text.isascii()) else [text, *cells[1:]]
    try:
        if len(parts) == 1:
            version, number, length = addresses.block(text)
            low, high = addresses.ends(version, number, length)
            if low != number:
                raise fault(line, f"{text} has host bits. The block is {addresses.block_text(version, low, length)}")
            return version, low, high
        (version, low), (other, high) = (addresses.address(part.strip()) for part in parts)
    except ValueError:
        raise fault(line, f"'{' '.join(cells)}' is no block, address or range") from None
    if version != other or low > high:
        raise fault(line, f"{' '.join(cells)}: the first address is above the last, or of another version")
    if version == 4 and high >> 24 == 255 and addresses.mask_length(4, high) is not None and (
            high < 0xFFFFFFFF or addresses.mask_length(4, low) is None):
        raise fault(line, f"{' '.join(cells)}: the second address looks like a netmask")
    return version, low, high


def label_of(cell: str, line: int, default: str = "") -> str:
    """Returns the label of a cell, if a map can have it."""
    label = cell.strip()
    try:
        size = len(label.encode())
    except UnicodeEncodeError:
        raise fault(line, "it isn't in the encoding. Name another one, such as --encoding cp1252") from None
    if not 0 < size <= 255:
        raise fault(line, f"a label of {size} bytes, and a map has those of 1 to 255")
    if found := re.search(NOT_IN_LABELS, label):
        raise fault(line, "a # in the label begins a comment" if found[0] == "#" else
                    f"the label '{label}' has a control character")
    if label == default:
        raise fault(line, f"the label '{label}' is also that of all other addresses: choose another one with --default")
    return label


def ranges_of(options: argparse.Namespace) -> list[Range]:
    """Returns the ranges of a table."""
    found: list[Range] = []
    names: dict[str, str] = {}
    columns, goes_on = None, 0
    for line, last, row in rows_of(options):
        if columns is None:
            columns = Columns(options, row)
            if columns.has_header:
                continue
        cells = [row[index] for index in columns.networks]
        if columns.mask is not None:
            cells = [with_length(cells[0], row[columns.mask], line)]
        version, low, high = range_of(cells, line)
        cell = row[columns.label]
        if cell not in names:
            names[cell] = label_of(cell, line, options.default)
        moved = addresses.in_ipv6(version, 0)
        found.append((low + moved, high + moved, line, names[cell], version))
        goes_on = goes_on or (line if last > line else 0)
    if not found:
        raise process.Failure("no line has addresses")
    if len(found) > MOST_LINES or len({*names.values()}) >= MOST_LABELS:
        raise process.Failure(f"a map has at most {MOST_LINES} lines with addresses, and {MOST_LABELS} labels with the "
                              "default")
    warn_of([*dict.fromkeys([options.default, *names.values()])], goes_on)
    return found


def warn_of(names: list[str], goes_on: int) -> None:
    """Warns of what may be read in another way. The first label is that of all other addresses."""
    # Help doesn't need the tables of Unicode.
    from flowlabel import labels
    alike = collections.defaultdict(list)
    for label in names:
        alike[labels.bare(label.encode())].append(label)
    process.warn_all(["the labels '" + "', '".join(its) + "' differ only in case, blanks or the form of characters, and"
                      f" are those of {len(its)} customers" for its in alike.values() if len(its) > 1], "more labels")
    for what, are_so in (("begin like a formula of a spreadsheet", [one for one in names if one.startswith(FORMULAS)]),
                         ("have a |, at which tables are split", [one for one in names if "|" in one])):
        if are_so:
            process.warn(f"{len(are_so)} labels {what}, such as '{min(are_so)}'")
    if goes_on:
        process.warn(f"some cells go on in the next line, the first in line {goes_on}: look whether a quote is missing")


def nested(ranges: list[Range]) -> list[Range]:
    """Returns the ranges with those inside others after them. Refuses others that overlap."""
    around: list[Range] = []
    once = []
    # Larger ranges come before those inside them.
    ranges.sort(key=operator.itemgetter(1), reverse=True)
    ranges.sort(key=operator.itemgetter(0))
    for one in ranges:
        low, high, line, label, _ = one
        while around and around[-1][1] < low:
            around.pop()
        if around and high >= around[-1][1]:
            start, end, other, its, _ = around[-1]
            earlier, later = sorted((line, other))
            if high > end:
                raise fault(later, f"it overlaps with line {earlier}, and none contains the other")
            if low == start and label != its:
                raise fault(later, f"another label than in line {earlier}, for the same addresses")
            if low == start:
                continue
        around.append(one)
        once.append(one)
    return sorted(once, key=lambda one: one[0] - one[1])


def text_of(ranges: list[Range], default: str) -> bytes:
    """Returns the map text."""
    # In mode ipv4 no address of IPv6 would have a label, not even the default.
    lines = [f"mode ipv6\ndefault {default}\n"]
    for low, high, _, label, version in ranges:
        size, moved = high - low + 1, addresses.in_ipv6(version, 0)
        first = addresses.address_text(version, low - moved)
        if size & size - 1 == 0 and low % size == 0:
            lines.append(f"{first}/{addresses.WIDTHS[version] - size.bit_length() + 1} {label}\n")
        else:
            lines.append(f"{first} {addresses.address_text(version, high - moved)} {label}\n")
    return "".join(lines).encode()


def main(words: list[str]) -> int:
    options = PARSER.parse_args(words)
    options.delimiter = {"tab": "\t"}.get(options.delimiter, options.delimiter)
    if len(options.network) > 2:
        PARSER.error("--network may be given twice at most")
    if options.mask is not None and len(options.network) > 1:
        PARSER.error("--mask follows one --network")
    try:
        "".encode(options.encoding or "utf-8")
        csv.reader([], delimiter="," if options.delimiter is None else options.delimiter)
    except (LookupError, TypeError, ValueError) as why:
        raise process.Failure(why, 2) from None
    try:
        default = label_of(options.default, 0)
    except process.Failure:
        raise process.Failure(f"--default: a map can't have the label '{options.default}'", 2) from None
    # There are no cycles of objects to find.
    gc.disable()
    # Nothing begins without the program.
    programs.find("flowlabel")
    ranges = ranges_of(options)
    counts = collections.Counter({one[3].encode(): 0 for one in ranges})
    text = text_of(ranges if options.last else nested(ranges), default)
    del ranges
    counts.update(addresses.counts(programs.run("flowlabel", "cat", "--pmap", "/dev/stdin", given=text)))
    del counts[default.encode()]
    for label, count in counts.most_common():
        process.warn(f"{count} addresses have the label {label.decode()}")
    process.write([text])
    return 0
