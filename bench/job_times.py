"""Times jobs beside plain Rust, and prints a table: job_times.py PROGRAM PLAIN FLOWS BIFLOWS MAP..

Both run in turns with the same words, five times each. The time is that of the fastest run, and the memory is the
maximum of a run. Both must write the same bytes. One more run each counts page faults, and another the instructions,
if valgrind is installed: other work of the machine changes neither. The last row has the geometric means of ratios.
The maps are ORDER-LINES.txt, including those of countries and of routes. Each is shrunk, certified and checked. FLOWS
is reported on by itself and under the two maps. BIFLOWS, whose records have both directions, is reported on by itself.
"""

import os
import statistics

from measure import Yardstick, arguments, print_table

TIMES = 5
ADDRESSES = {"countries": "128.9.160.23", "countries6": "2001:db8::1", "routes": "128.9.160.23", "hosts": "2001:db8::1"}


def jobs_of_map(name):
    """Returns the jobs over a map: the words of each, and the file that holds its output for the jobs after it."""
    stem = name.removesuffix(".txt")
    order = os.path.basename(stem).split("-")[0]
    of_map = ("--pmap", name)
    certificate = ("shrink", *of_map, "--certificate")
    listed, certified, chained = (f"{stem}-{kind}.txt" for kind in ("list", "certificate", "chains"))
    check = ("check", *of_map, "--list", listed, "--cert")
    return (
        (f"label, {order}", ("label", *of_map, ADDRESSES[order]), None),
        (f"cat, {order}", ("cat", *of_map), None),
        (f"shrink, {order}", ("shrink", *of_map), listed),
        (f"shrink --certificate, {order}", certificate, certified),
        (f"shrink --certificate --compact, {order}", (*certificate, "--compact"), chained),
        (f"check, {order}", (*check, certified), None),
        (f"check with chains, {order}", (*check, chained), None),
        (f"recert, {order}", ("recert", "--cert", certified), None),
    )


def jobs_of_flows(name, countries, routes):
    """Returns the jobs over a File, in the same form."""
    by_labels = ("uniq", "--fields", "src-label,dst-label", "--pmap", routes, name)
    return (
        ("info", ("info", name), None),
        ("rows", ("rows", name), None),
        ("rows --columns", ("rows", "--columns", name), None),
        ("rows, countries", ("rows", "--pmap", countries, name), None),
        ("uniq --fields proto", ("uniq", "--fields", "proto", name), None),
        ("uniq --fields sip", ("uniq", "--fields", "sip", name), None),
        ("uniq --fields src-label, countries", ("uniq", "--fields", "src-label", "--pmap", countries, name), None),
        ("uniq --fields src-label,dst-label, routes", by_labels, None),
    )


def jobs_of_biflows(name):
    """Returns the jobs over a File of records of both directions, in the same form."""
    return tuple((f"{' '.join(words)}, biflows", (*words, name), None)
                 for words in (("info",), ("rows",), ("uniq", "--fields", "sip")))


def means(rows):
    """Returns the row with the geometric mean of each column of ratios."""
    cells = [f"{statistics.geometric_mean(map(float, column)):.2f}" if head.startswith("ratio") else ""
             for head, *column in zip(*rows)]
    return ["geometric mean", *cells[1:]]


def main():
    program, plain, flows, biflows, maps = arguments(__doc__, "PROGRAM", "PLAIN", "FLOWS", "BIFLOWS", "MAP..")
    yardstick = Yardstick(program, plain)
    by_order = {os.path.basename(name).split("-")[0]: name for name in maps}
    jobs = [job for name in maps for job in jobs_of_map(name)]
    jobs += jobs_of_flows(flows, by_order["countries"], by_order["routes"])
    jobs += jobs_of_biflows(biflows)
    rows = [["job", "seconds", "MB", *yardstick.heads, *yardstick.count_heads]]
    for job, words, kept in jobs:
        output = yardstick.output(words)
        if kept:
            os.replace(output, kept)
        seconds, memory, cells = yardstick.measure(words, TIMES)
        rows.append([job, f"{seconds:.3f}", f"{memory:.1f}", *cells, *yardstick.counts(words)])
    print_table([*rows, means(rows)])


main()
