"""Makes a map text of the countries of addresses, over IPv4 and IPv6.

Each SOURCE is one of

- tor: the two texts of Debian's package tor-geoipdb, /usr/share/tor/geoip and /usr/share/tor/geoip6;
- libloc: the database of IPFire's libloc, by its command `location` (Debian: location, libloc-database);
- a folder with the CSV files of GeoLite2 Country: its Blocks of IPv4 and IPv6, and its Locations in English;
- a CSV file whose lines begin with a block, or with a first and a last address, such as those of DB-IP, IP2Location
  LITE and IPinfo Lite. Addresses may be integers.

The column of the country in a CSV file is the one that the header calls so, such as `country_code`. Without a header it
is the only column that has country codes in all lines (ISO 3166), but not only codes of continents: AS may be Asia or
American Samoa. If there are several such columns or none, the file is refused unless --column names the column.

A country is named by its code of two letters, as in the source. A later line or source overrides an earlier one, also
if it names no country: ZZ, ??, - or an empty cell. The MAP has `mode ipv6`, so an IPv4 address means its address in
::ffff:0:0/96, and the lines of IPv4 come last, so that no line of IPv6 overrides them. Neighbouring ranges of one
country are one line. Addresses without a country have the label `unknown`. Run the command again when a source is
renewed.
"""

from __future__ import annotations

import argparse
import bisect
import collections
import csv
import glob
import itertools
import os
import re
from collections.abc import Iterable, Iterator

from flowlabel import addresses, command_line, disk, process


def number_of(text: str) -> int:
    """Returns the index of a column, which is counted from 1: the type of an option."""
    if not re.fullmatch("[1-9][0-9]{0,3}", text):
        raise argparse.ArgumentTypeError(f"not the number of a column: {text}")
    return int(text) - 1


PARSER = command_line.Parser("flowlabel-country [--column N] MAP SOURCE..", page=__doc__)
PARSER.add_argument("--column", type=number_of, metavar="N",
                    help="the column of the country in a CSV file, counted from 1")
PARSER.add_argument("name", metavar="MAP", help="the map, which is replaced in one step when it is complete. Only a "
                    "regular file is replaced")
PARSER.add_argument("sources", metavar="SOURCE", nargs="+", help="`tor`, `libloc`, a folder or a CSV file")
# The version, the first and the last address of a range, perhaps with its country, and a row with its number.
Place = tuple[int, int, int]
Range = tuple[int, int, int, str]
Row = tuple[int, list[str]]
TOR = ("/usr/share/tor/geoip", "/usr/share/tor/geoip6")
COUNTRY = re.compile(r"(?!ZZ)[A-Z]{2}")
NO_COUNTRY = ("", "-", "??", "ZZ")
UNKNOWN = "unknown"
# The codes of ISO 3166-1, and a few others that sources have.
CODES = set("""
AD AE AF AG AI AL AM AO AQ AR AS AT AU AW AX AZ BA BB BD BE BF BG BH BI BJ BL BM BN BO BQ BR BS BT BV BW BY BZ CA CC CD
CF CG CH CI CK CL CM CN CO CR CU CV CW CX CY CZ DE DJ DK DM DO DZ EC EE EG EH ER ES ET FI FJ FK FM FO FR GA GB GD GE GF
GG GH GI GL GM GN GP GQ GR GS GT GU GW GY HK HM HN HR HT HU ID IE IL IM IN IO IQ IR IS IT JE JM JO JP KE KG KH KI KM KN
KP KR KW KY KZ LA LB LC LI LK LR LS LT LU LV LY MA MC MD ME MF MG MH MK ML MM MN MO MP MQ MR MS MT MU MV MW MX MY MZ NA
NC NE NF NG NI NL NO NP NR NU NZ OM PA PE PF PG PH PK PL PM PN PR PS PT PW PY QA RE RO RS RU RW SA SB SC SD SE SG SH SI
SJ SK SL SM SN SO SR SS ST SV SX SY SZ TC TD TF TG TH TJ TK TL TM TN TO TR TT TV TW TZ UA UG UM US UY UZ VA VC VE VG VI
VN VU WF WS YE YT ZA ZM ZW
AN AP CS EU UK XK""".split())
CONTINENTS = {"AF", "AN", "AS", "EU", "NA", "OC", "SA"}
# The names of the column of a country, in letters alone, and the beginning of a header.
NAMES = ({"countrycode", "countryisocode", "countrycodeiso", "isocode", "iso", "alpha", "cc"}, {"country"})
HEADER = re.compile(r"[A-Za-z][A-Za-z0-9_ ()-]*")
FIRST = re.compile(r"(?i)net|ip|start|begin|first|from|low|range|cidr|prefix|block|addr")
# A network of `location dump`, and the lines after its own.
NETWORK = re.compile(r"(?m)^net:\s+(\S+)\n((?:\S.*\n)*)")
CODE = re.compile(r"(?m)^country:\s+(\S+)$")


def address(text: str) -> tuple[int, int]:
    """Returns the version and the number of an address, which may be an integer."""
    if not text.isdecimal():
        return addresses.address(text)
    if int(text) >> 128:
        raise ValueError("no address")
    return (4 if int(text) < 1 << 32 else 6), int(text)


def block(text: str) -> Place:
    """Returns the range of a block."""
    version, number, length = addresses.block(text)
    return version, *addresses.ends(version, number, length)


def place_of(name: str, number: int, row: list[str]) -> Place:
    """Returns the range at the start of a row, or fails with the number of its line."""
    try:
        if "/" in row[0]:
            return block(row[0])
        (other, low), (version, high) = address(row[0]), address(row[1])
        # The integers of IPv6 addresses begin with 0.
        if version != other and not row[0].isdigit():
            raise ValueError("two versions")
    except (ValueError, IndexError):
        raise process.Failure(f"{name}: no range of addresses at {number}") from None
    if low > high:
        raise process.Failure(f"{name}: the first address is above the last at {number}")
    return version, low, high


def rows_of(name: str, lines: Iterable[str]) -> Iterator[Row]:
    """Yields the rows of a CSV file, with their numbers, without the empty lines and the comments."""
    reader = csv.reader("\n" if line.startswith("#") else line for line in lines)
    try:
        for row in reader:
            if row:
                yield reader.line_num, [cell.strip() for cell in row]
    except csv.Error as fault:
        raise process.Failure(f"{name}: {fault} at {reader.line_num}") from None


def lines_of(name: str) -> list[str]:
    """Returns the lines of a CSV file, which may be a pipe."""
    # Some files begin with a byte order mark, which is not part of the first cell.
    with open(name, encoding="utf-8-sig", errors="replace", newline="") as file:
        return file.readlines()


def only_column(name: str, found: list[int], fault: str = "") -> int:
    """Returns the index of the column that may have the country. If there are several or none, the file is refused."""
    if len(found) != 1:
        what = f"the columns {' and '.join(str(index + 1) for index in found)} may have the country" if found else fault
        raise process.Failure(f"{name}: {what}, so choose one with --column N")
    return found[0]


def titled_column(name: str, header: list[str]) -> int | None:
    """Returns the index of the column that a header calls the country, or None."""
    letters = [re.sub("[^a-z]", "", cell.lower()) for cell in header]
    for names in NAMES:
        if found := [index for index, cell in enumerate(letters) if cell in names]:
            return only_column(name, found)
    return None


def country_column(name: str, rows: Iterable[Row]) -> int:
    """Returns the index of the column that has the codes of countries in all rows, but not only those of continents."""
    found = collections.defaultdict[int, set[str]](set)
    for _, row in rows:
        for index, cell in enumerate(row):
            if cell not in NO_COUNTRY:
                # One other value rules out a column.
                found[index].add(cell if cell in CODES else "")
    candidates = sorted(index for index, codes in found.items() if "" not in codes)
    return only_column(name, [index for index in candidates if not found[index] <= CONTINENTS],
                       "there is a column of continents, perhaps, and none of countries" if candidates else
                       "no column has only codes of countries")


def file_ranges(name: str, index: int | None = None) -> Iterator[Range]:
    """Yields the ranges of a file of blocks or of first and last addresses, each with its country, whose column may be
    named."""
    lines = lines_of(name)
    _, first = next(rows_of(name, lines), (1, ["0"]))
    # A header has names, of which the first is one of addresses.
    is_header = bool(FIRST.search(first[0])) and all(HEADER.fullmatch(cell) for cell in first if cell)

    def rows() -> Iterator[Row]:
        return itertools.islice(rows_of(name, lines), int(is_header), None)
    # Faults of addresses come before those of the column.
    places = [place_of(name, *row) for row in rows()]
    if index is None and is_header:
        index = titled_column(name, first)
    if index is None:
        index = country_column(name, rows()) if places else 0
    for place, (number, row) in zip(places, rows(), strict=True):
        cell = row[index] if index < len(row) else None
        if cell is None or cell not in NO_COUNTRY and not COUNTRY.fullmatch(cell):
            raise process.Failure(f"{name}: no code of a country in the column {index + 1} at {number}: --column N "
                                  "chooses another")
        yield *place, UNKNOWN if cell in NO_COUNTRY else cell


def table_of(name: str, *titles: str) -> Iterator[Row]:
    """Yields the cells below some titles of a CSV file, with the number of their line."""
    rows = rows_of(name, lines_of(name))
    _, header = next(rows, (1, [""]))
    if not set(titles) <= set(header):
        raise process.Failure(f"{name}: no header with {', '.join(titles)} at 1")
    indices = [header.index(title) for title in titles]
    for number, row in rows:
        if len(row) <= max(indices):
            raise process.Failure(f"{name}: too few columns at {number}")
        yield number, [row[index] for index in indices]


def geolite_ranges(folder: str) -> Iterator[Range]:
    """Yields the ranges of the CSV files of GeoLite2 Country."""
    files = {part: glob.glob(os.path.join(glob.escape(folder), f"*-Country-{part}.csv"))
             for part in ("Blocks-IPv6", "Blocks-IPv4", "Locations-en")}
    if any(len(found) != 1 for found in files.values()):
        raise process.Failure(f"{folder}: not one file each of Blocks-IPv4, Blocks-IPv6 and Locations-en")
    countries = dict(row for _, row in table_of(files["Locations-en"][0], "geoname_id", "country_iso_code"))
    for part in ("Blocks-IPv6", "Blocks-IPv4"):
        name = files[part][0]
        for number, row in table_of(name, "network", "geoname_id", "registered_country_geoname_id"):
            # If the country of a network is unknown, the country of its registration is used.
            yield *place_of(name, number, row[:1]), countries.get(row[1] or row[2]) or UNKNOWN


def libloc_ranges() -> list[Range]:
    """Returns the ranges of libloc's database, wider networks before those inside them. Some have no country."""
    # No other source needs the module.
    from flowlabel import steps
    ranges = []
    for network in NETWORK.finditer(steps.Steps().run("location", "dump", package="location, libloc-database")):
        code = CODE.search(network[2])
        ranges.append((*block(network[1]), code[1] if code and COUNTRY.fullmatch(code[1]) else UNKNOWN))
    return sorted(ranges, key=lambda found: (found[1] - found[2], found[1]))


def ranges_of(source: str, column: int | None) -> Iterable[Range]:
    """Returns the ranges of a source, each with its version and its country."""
    if source == "tor":
        return [found for name in TOR for found in file_ranges(name, 2)]
    if source == "libloc":
        return libloc_ranges()
    return geolite_ranges(source) if os.path.isdir(source) else file_ranges(source, column)


def needed(version: int, ranges: list[Range]) -> Iterator[Range]:
    """Yields the ranges of a version. One without a country is left out if it overrides none."""
    named = sorted((low, high) for its, low, high, country in ranges if its == version and country != UNKNOWN)
    lows = [low for low, _ in named]
    highs: list[int] = [*itertools.accumulate((high for _, high in named), max, initial=-1)]
    for found in ranges:
        if found[0] == version and (found[3] != UNKNOWN or highs[bisect.bisect_right(lows, found[2])] >= found[1]):
            yield found


def joined(ranges: Iterable[Range]) -> list[Range]:
    """Returns the ranges of a version, with neighbours of one country joined."""
    found: list[Range] = []
    for version, low, high, country in ranges:
        if found and (found[-1][2] + 1, found[-1][3]) == (low, country):
            low = found.pop()[1]
        found.append((version, low, high, country))
    return found


def main(words: list[str]) -> int:
    options = PARSER.parse_args(words)
    disk.refuse_other(options.name)
    ranges = [found for source in options.sources for found in ranges_of(source, options.column)]
    if all(found[3] == UNKNOWN for found in ranges):
        raise process.Failure("no address has a country")
    lines = [f"{addresses.address_text(version, low)} {addresses.address_text(version, high)} {country}\n"
             for family in (6, 4) for version, low, high, country in joined(needed(family, ranges))]
    with disk.replacing(options.name) as file:
        file.write("".join([f"map-name countries\nmode ipv6\ndefault {UNKNOWN}\n", *lines]).encode())
    process.say(f"{process.shown(options.name)}: {len(lines)} lines")
    return 0
