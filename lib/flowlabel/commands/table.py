"""Makes the input of a prefix table from a list, and loads it.

TABLE is one of

- linux: routes of a network namespace, with the number of the label as metric, and for IPv4 also as realm;
- bird: static routes of BIRD 2 with an attribute, the number of the label;
- pmacct: a networks_file, with the number of the label as AS number;
- ipset: two sets of networks, with the number of the label as mark;
- bpf: two maps of the type lpm_trie, pinned below /sys/fs/bpf;
- tsv: a text of blocks and labels for each version, for PostgreSQL, DuckDB or py-radix;
- nft: two maps of nftables with intervals, with the number of the label as mark;
- ranges: a text of first addresses, last addresses and labels for each version, for a database.

SOURCE is a prefix list as `flowlabel shrink` prints it; for nft and ranges it is what `flowlabel cat` prints. It may be
a pipe. A map over both versions has IPv4 as a part of IPv6, and here the two are separate again. Labels become numbers
from 1 on. They are in FOLDER/labels.txt, where a label keeps its number when the map changes. The input of the table is
written to FOLDER.

A load replaces only what FOLDER loaded. If anything else has its name, also what another FOLDER loaded, or if the
network namespace has a link beside lo, nothing changes. An update reads the table in use. If that table isn't what the
last --load or --update of FOLDER left, nothing changes. pmacct finds the difference itself, so --update is --load
there. BIRD would also apply what else is new in its configuration, so for BIRD both options only print the commands
that check the configuration and use it.

If SOURCE is malformed or too long, if ranges have a gap, if the table can't take one of its labels, if a step fails or
a signal comes, the table in use and FOLDER stay as they were. Only after an --update that fails the table may be
between the two lists, and the next call must be --load. A signal that comes during an --update, or while nft runs, has
no effect. If a new table is in use and only removing the old one fails, the status is 0, and a line says so. In FOLDER
only regular files are replaced. A call of root waits until no other call of root runs, and one of another user until no
other call has FOLDER.
"""

from __future__ import annotations

import argparse
import os
import re
from collections.abc import Iterable, Iterator

from flowlabel import addresses, command_line, disk, prefixes, process, steps, table_kinds

PARSER = command_line.Parser("flowlabel-table [OPTION..] TABLE SOURCE FOLDER", page=__doc__)
HOW = PARSER.add_mutually_exclusive_group()
HOW.add_argument("--load", action="store_true",
                 help="load the table beside the one that is in use, and replace that when the new one is complete")
HOW.add_argument("--update", action="store_true", help="change only the entries of the table in use that differ")
PARSER.add_argument("--max", metavar="N", type=command_line.whole_number, default=float("inf"),
                    help="refuse a SOURCE that needs more than N entries, of IPv4 and IPv6 together")
PARSER.add_argument("--name", metavar="NAME", default="flowlabel",
                    help="what the table, its network namespace and the files in FOLDER are called: a word of at most "
                    "20 small letters, digits and _ (flowlabel)")
PARSER.add_argument("--control", metavar="FILE", help="the control socket of BIRD, or the pidfile of pmacct's daemon")
PARSER.add_argument("table", metavar="TABLE", choices=table_kinds.KINDS, help="one of the above")
PARSER.add_argument("source", metavar="SOURCE", help="the list, or for nft and ranges the ranges")
PARSER.add_argument("folder", metavar="FOLDER", help="where the input of the table and the numbers of the labels are")
# The parts of the addresses of IPv6: their version, their first and last address, and what is taken from an address.
PARTS = ((6, 0, addresses.MAPPED - 1, 0), (4, addresses.MAPPED, addresses.MAPPED + (1 << 32) - 1, addresses.MAPPED),
         (6, addresses.MAPPED + (1 << 32), (1 << 128) - 1, 0))


def blocks(source: prefixes.Source) -> Iterator[tuple[int, str, bytes]]:
    """Yields the blocks of a list with their version and label. The last one is all of IPv4, with the label of the
    longest block of IPv6 around it, which it has unless the list says otherwise."""
    around = -1, b""
    for version, number, length, label in source.entries():
        if version == 6 and length >= 96 and number >> 32 == addresses.MAPPED >> 32:
            version, number, length = 4, number - addresses.MAPPED, length - 96
        elif version == 6 and number >> 128 - length == addresses.MAPPED >> 128 - length:
            around = max(around, (length, label))
        yield version, addresses.block_text(version, number, length), label
    if around[0] >= 0:
        yield 4, prefixes.ALL[4], around[1]


def ranges(source: prefixes.Source) -> Iterator[tuple[int, str, bytes]]:
    """Yields ranges with their version and label. They are cut where IPv4 begins and ends."""
    for version, low, high, label in source.ranges():
        low, high = addresses.in_ipv6(version, low), addresses.in_ipv6(version, high)
        for part, begin, end, base in PARTS:
            first, last = max(low, begin) - base, min(high, end) - base
            if first <= last:
                yield part, f"{addresses.address_text(part, first)}-{addresses.address_text(part, last)}", label


def read(source: prefixes.Source, table: table_kinds.Table) -> table_kinds.Halves:
    """Returns the halves of a SOURCE, with what the table takes as labels."""
    halves: table_kinds.Halves = {4: {}, 6: {}}
    for version, key, label in (ranges if table.of_ranges else blocks)(source):
        try:
            halves[version].setdefault(key, table.label_for(label))
        except ValueError as reason:
            what = repr(label.decode(errors="backslashreplace"))
            raise source.fault(f"the table can't take the label {what}: {reason}")
    if (whole := prefixes.ALL[4]) in halves[4]:
        halves[4] = {whole: halves[4][whole], **halves[4]}
    return halves


def digest(halves: Iterable[Iterable[tuple[str, object]]]) -> bytes:
    """Returns a mark of a table: of its blocks or ranges with their numbers."""
    import hashlib
    lines = sorted(f"{key} {number}\n" for pairs in halves for key, number in pairs)
    return hashlib.sha256("".join(lines).encode()).hexdigest().encode()


def marks_of(loaded: str) -> list[bytes]:
    """Returns the lines of the file `loaded`: the digest of the table that FOLDER loaded, and the table's marks."""
    with disk.regular(loaded) as file:
        return file.read().splitlines()


def in_use(table: table_kinds.Table, loaded: str) -> table_kinds.Halves:
    """Returns the halves of the table in use, which must be the one that FOLDER loaded."""
    try:
        mark, *_ = marks_of(loaded)
        found = {version: list(table.content(version)) for version in addresses.WIDTHS}
    except (process.Failure, ArithmeticError, OSError, ValueError) as fault:
        raise process.Failure(f"there is no table to update, so run --load: {fault}") from None
    if digest(found.values()) != mark:
        raise process.Failure(f"{loaded}: the table in use isn't the one that was loaded, so run --load")
    return {version: dict(pairs) for version, pairs in found.items()}


def refuse_others(table: table_kinds.Table, loaded: str) -> None:
    """Refuses to replace what FOLDER hasn't loaded. That has none of its marks, and other entries."""
    for what in table.left():
        raise process.Failure(
            f"there is {what}, which an interrupted call has left, or somebody else has made: remove it")
    own = marks_of(loaded)[1:] if os.path.lexists(loaded) else []
    for what, mark in table.marks().items():
        try:
            if mark.encode() not in own:
                in_use(table, loaded)
        except process.Failure:
            raise process.Failure(f"there is {what}, and {table.folder} hasn't loaded it, so it stays as it is: "
                                  "choose another --name, or remove it") from None


def lacking(halves: table_kinds.Halves, others: table_kinds.Halves) -> table_kinds.Halves:
    """Returns the entries of halves that others lack, or have with other labels."""
    return {version: {key: label for key, label in half.items() if others[version].get(key) != label}
            for version, half in halves.items()}


def bring_in(options: argparse.Namespace, table: table_kinds.Table, halves: table_kinds.Halves) -> str:
    """Makes, loads or updates a table, writes FOLDER, and returns what was done."""
    name, change, done = os.path.join(options.folder, options.name), table.steps, "made"
    loaded = f"{name}.{options.table}.loaded"
    is_update = options.update and table.can_update
    is_load = not is_update and (options.load or options.update) and not table.to_run()
    if is_update:
        there = in_use(table, loaded)
        old, new = lacking(there, halves), lacking(halves, there)
        done = f"{sum(len({**old[version], **new[version]}) for version in new)} changed"
    if is_load:
        refuse_others(table, loaded)
        table.fill(halves)
        done = "loaded"
    change.write(table.labels.name, table.labels.text())
    for ending, lines in table.inputs(halves).items():
        change.write(f"{name}{ending}", lines.encode())
    if is_load or is_update:
        marks = (table.made() if is_load else table.marks()).values()
        change.write(loaded, b"\n".join([digest(half.items() for half in halves.values()),
                                         *(mark.encode() for mark in marks if mark)]))
    if is_load:
        table.switch(halves)
    if is_update:
        table.update(old, new)
    change.finish()
    return done


def main(words: list[str]) -> int:
    options = PARSER.parse_args(words)
    if not re.fullmatch("[a-z][a-z0-9_]{,19}", options.name):
        PARSER.error("--name must be a word of at most 20 small letters, digits and _")
    with steps.locked("table", options.folder):
        table = table_kinds.KINDS[options.table](options, steps.Steps())
        with open(options.source, "rb") as file:
            source = read(prefixes.Source(options.source, file.read()), table)
        halves = {version: table.fitting(version, half) for version, half in source.items()}
        count = sum(map(len, halves.values()))
        if count > options.max:
            raise process.Failure(
                f"{options.source}: the table would have {count} entries, and --max allows {options.max}")
        with table.steps:
            done = bring_in(options, table, halves)
    of_what = "ranges" if table.of_ranges else "blocks"
    process.say(f"{options.table}: {len(halves[4])} {of_what} of IPv4 and {len(halves[6])} of IPv6, {done}")
    left_out = sum(key not in halves[version] for version, half in source.items() for key in half)
    if table.without and left_out:
        process.say(f"{left_out} blocks left out: {table.without}")
    if (options.load or options.update) and table.to_run():
        process.say(table.to_run())
    return 0
