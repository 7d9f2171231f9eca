"""Times `label` on map texts, and prints a table: map_times.py PROGRAM PLAIN MAP..

Each map is ORDER-LINES.txt. The seconds are those of the fastest of three runs, and the memory is the maximum of a run.
If plain Rust is available, it runs with the same words. The bench fails if the program prints another label for one of
three addresses, or if a run fails.
"""

import os
import re

from measure import Growth, Yardstick, arguments, print_table

MIDDLE = ("2001:db8:0:0:8000::", "2001:db8:0:0:8000::5", "2001:db8::7fff:ffff:fff0:0")
ADDRESSES = {
    "sorted": ("10.1.2.3", "128.9.160.23", "223.255.255.254"),
    "shuffled": ("10.1.2.3", "128.9.160.23", "223.255.255.254"),
    "ranges": ("2001:db8::1", "2a02:26f7:b::77", "3fff:ffff:ffff:ffff::1"),
    "equal": MIDDLE,
    "nested": MIDDLE,
    "alternating": MIDDLE,
}


def main():
    program, plain, maps = arguments(__doc__, "PROGRAM", "PLAIN", "MAP..")
    yardstick = Yardstick(program, plain)
    rows = [["lines", "order", "seconds", "growth", "MB", "growth", *yardstick.heads]]
    growth = Growth()
    for name in maps:
        order, lines = re.fullmatch(r"(\w+)-(\d+)\.txt", os.path.basename(name)).groups()
        for address in ADDRESSES[order]:
            yardstick.output(("label", "--pmap", name, address))
        seconds, memory, cells = yardstick.measure(("label", "--pmap", name, ADDRESSES[order][0]))
        row = [f"{int(lines):,}", order, f"{seconds:.3f}", growth.of((order, "seconds"), seconds)]
        rows.append([*row, f"{memory:.1f}", growth.of((order, "memory"), memory), *cells])
    print_table(rows)


main()
