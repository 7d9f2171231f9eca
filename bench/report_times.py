"""Times reports on IPFIX Files, and prints a table: report_times.py PROGRAM PLAIN MAP FLOWS..

The reports are `rows` under a map, `rows` with filters, some of them with thousands of items, and `uniq`. For a File of
IPv6 with random or colliding sources the only report is `uniq` by source. The seconds are those of the fastest of three
runs whose output goes to /dev/null, and the memory is the maximum of a run. If plain Rust is available, it makes the
reports that it supports, and must write the same bytes. Each report under the map is also made under `--list` if there
is a list beside the map, and must be the same.
"""

import filecmp
import os
import random
import re
import sys

from measure import Growth, Yardstick, arguments, fastest, peak, print_table, written

SEED = 20260101
ITEMS = 3000
# The kinds of Files in which only the sources matter.
SOURCES = ("sources", "colliding", "known")


def many_numbers(rng):
    """Returns a number list of some thousand items, in random order."""
    return ",".join(str(rng.randrange(65536)) for _ in range(ITEMS))


def many_blocks(rng):
    """Returns an address list of some thousand items, in random order."""
    return ",".join(f"{rng.randrange(1, 224)}.{rng.randrange(256)}.{rng.randrange(256)}.0/24" for _ in range(ITEMS))


def reports(map_name):
    """Returns each report's name, its words, and whether plain Rust makes it too."""
    rng = random.Random(SEED)
    labels = ("--pmap", map_name)
    filters = ("--protocol", "6,17", "--sport", "1024-65535", "--saddress", "0.0.0.0/1,2000::/4", "--packets", "2-")
    return (
        ("uniq by address", ("uniq", "--fields", "sip"), True),
        ("uniq by labels", ("uniq", "--fields", "src-label,dst-label", *labels), True),
        ("uniq by labels, sorted", ("uniq", "--fields", "src-label,dst-label", "--sort-output", *labels), False),
        ("rows with labels", ("rows", *labels), True),
        ("rows with filters", ("rows", *filters), False),
        ("rows by many ports", ("rows", "--sport", many_numbers(rng)), False),
        ("rows by many blocks", ("rows", "--saddress", many_blocks(rng)), False),
    )


def compare_with_list(program, words, map_name, folder):
    """Ends the bench if a report under the map and that under its list differ."""
    list_name = map_name.removesuffix(".txt") + "-list.txt"
    if map_name not in words or not os.path.exists(list_name):
        return
    listed = [{map_name: list_name, "--pmap": "--list"}.get(word, word) for word in words]
    files = [written([program, *words], f"{folder}/written"), written([program, *listed], f"{folder}/listed")]
    if not filecmp.cmp(*files, shallow=False):
        sys.exit(f"bench: {' '.join(words)}: the map and the list give two reports")


def main():
    program, plain, map_name, files = arguments(__doc__, "PROGRAM", "PLAIN", "MAP", "FLOWS..")
    yardstick = Yardstick(program, plain)
    rows = [["flows", "report", "seconds", "growth", "MB", *yardstick.heads]]
    growth = Growth()
    for name in files:
        kind, count = re.fullmatch(r"(\w+)-(\d+)\.ipfix", os.path.basename(name)).groups()
        for report, own, is_plain in reports(map_name)[:1 if kind in SOURCES else None]:
            words = (*own, name)
            compare_with_list(program, words, map_name, yardstick.folder)
            if is_plain and kind not in SOURCES:
                yardstick.output(words)
                seconds, memory, cells = yardstick.measure(words)
            else:
                seconds, memory = fastest([program, *words]), peak([program, *words])
                cells = ["-" for _ in yardstick.heads]
            row = [f"{kind} {int(count):,}", report, f"{seconds:.3f}", growth.of((kind, report), seconds)]
            rows.append([*row, f"{memory:.1f}", *cells])
    print_table(rows)


main()
