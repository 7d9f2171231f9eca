"""Times `shrink`, its certificate, `cat` and `check` on map texts: shrink_times.py PROGRAM PLAIN MAP..

Each map is ORDER-LINES.txt. Its shortest list and the certificate are written beside it for `check`, which must print
the number of the list's entries. The seconds are those of the fastest of two runs whose output goes to /dev/null, and
the memory is the maximum of a run. If plain Rust is available, it runs with the same words and must write the same
bytes. A list with more entries than the maximum of a text is not checked. The results are printed as a table.
"""

import os
import re
import sys

from measure import Growth, Yardstick, arguments, lines_of, print_table

TIMES = 2
# The maximum number of entries of a list text that is read.
MOST_ENTRIES = 1_000_000


def entries_of(name):
    """Returns the number of entries of a list's text: the number of its lines from the first entry on."""
    with open(name, "rb") as text:
        return sum(not line.startswith((b"map-name ", b"mode ")) for line in text)


def commands(yardstick, name):
    """Returns the commands for a map, each with its words and its output. The list and the certificate are made
    first."""
    stem = name.removesuffix(".txt")
    listed, certificate = f"{stem}-list.txt", f"{stem}-certificate.txt"
    shrink = ("shrink", "--pmap", name)
    os.replace(yardstick.output(shrink), listed)
    os.replace(yardstick.output((*shrink, "--certificate")), certificate)
    yardstick.output(("cat", "--pmap", name))
    entries = entries_of(listed)
    given = [
        ("shrink", shrink, f"{entries:,} entries"),
        ("certificate", (*shrink, "--certificate"), f"{lines_of(certificate):,} lines"),
        ("cat", ("cat", "--pmap", name), ""),
    ]
    if entries <= MOST_ENTRIES:
        check = ("check", "--pmap", name, "--list", listed, "--cert", certificate)
        with open(yardstick.output(check), encoding="ascii") as text:
            answer = text.read()
        if answer != f"minimal {entries}\n":
            sys.exit(f"bench: {name}: check answers {answer!r} for {entries} entries")
        given.append(("check", check, answer.strip()))
    return given


def main():
    program, plain, maps = arguments(__doc__, "PROGRAM", "PLAIN", "MAP..")
    yardstick = Yardstick(program, plain)
    rows = [["lines", "order", "command", "gives", "seconds", "growth", "MB", "growth", *yardstick.heads]]
    growth = Growth()
    for name in maps:
        order, lines = re.fullmatch(r"(\w+)-(\d+)\.txt", os.path.basename(name)).groups()
        for command, words, gives in commands(yardstick, name):
            seconds, memory, cells = yardstick.measure(words, TIMES)
            row = [f"{int(lines):,}", order, command, gives]
            row += [f"{seconds:.3f}", growth.of((order, command, "seconds"), seconds)]
            row += [f"{memory:.1f}", growth.of((order, command, "memory"), memory), *cells]
            rows.append(row)
    print_table(rows)


main()
