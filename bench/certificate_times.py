"""Times `recert`, and `check` of a certificate without and with chains: certificate_times.py PROGRAM PLAIN MAP..

Each map is ORDER-LINES.txt. Its shortest list and both certificates are written beside it. The output of `recert` must
be that of `shrink --certificate --compact`, and that of plain Rust if it is available. So must the output of `check`.
The seconds are those of the fastest of three runs. A chain counts as one line. The results are printed as a table.
"""

import filecmp
import os
import re
import sys

from measure import Growth, Yardstick, arguments, fastest, lines_of, print_table, written


def main():
    program, plain, maps = arguments(__doc__, "PROGRAM", "PLAIN", "MAP..")
    yardstick = Yardstick(program, plain)
    heads = ["map", "lines", "growth", "recert", "growth", "MB", *yardstick.heads]
    rows = [[*heads, "with chains", "check", "with chains", "times quicker"]]
    growth = Growth()
    for name in maps:
        stem = name.removesuffix(".txt")
        order = re.fullmatch(r"(\w+)-\d+", os.path.basename(stem)).group(1)
        shrink = [program, "shrink", "--pmap", name]
        listed = written(shrink, f"{stem}-list.txt")
        certified = written([*shrink, "--certificate"], f"{stem}-certificate.txt")
        chained = written([*shrink, "--certificate", "--compact"], f"{stem}-chains.txt")
        recert = ("recert", "--cert", certified)
        if not filecmp.cmp(chained, yardstick.output(recert), shallow=False):
            sys.exit(f"bench: {name}: recert and shrink --compact differ")
        seconds, memory, cells = yardstick.measure(recert)
        check = ("check", "--pmap", name, "--list", listed, "--cert")
        yardstick.output((*check, chained))
        plainly, with_chains = (fastest([program, *check, given]) for given in (certified, chained))
        lines = lines_of(certified)
        row = [os.path.basename(stem), f"{lines:,}", growth.of((order, "lines"), lines)]
        row += [f"{seconds:.3f}", growth.of((order, "recert"), seconds), f"{memory:.1f}", *cells]
        row += [f"{lines_of(chained):,}", f"{plainly:.3f}", f"{with_chains:.3f}", f"{plainly / with_chains:.2f}"]
        rows.append(row)
    print_table(rows)


main()
