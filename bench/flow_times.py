"""Times `info` and `rows` on IPFIX Files, and prints a table: flow_times.py PROGRAM PLAIN FILE..

Each File is KIND-COUNT.ipfix. The seconds are those of the fastest of three runs whose output goes to /dev/null. The
memory is the maximum of a run, and the memory of a row is computed without the output. If plain Rust is available, it
runs with the same words, and must write the same bytes. The last column is the time of plain Rust for reading each byte
of the File once.
"""

import os
import re

from measure import Growth, Yardstick, arguments, fastest, lines_of, print_table

COMMANDS = (("info",), ("rows",), ("rows", "--columns"))


def memory_of_a_row(memory, written):
    """Returns the bytes of memory for each row, as text, if there are enough rows."""
    count = lines_of(written) - 1
    spent = memory * 1e6 - os.path.getsize(written)
    return f"{spent / count:.0f}" if count >= 10_000 else "-"


def main():
    program, plain, files = arguments(__doc__, "PROGRAM", "PLAIN", "FILE..")
    yardstick = Yardstick(program, plain)
    reading = ["reading"] if yardstick.heads else []
    rows = [["File", "MB", "command", "seconds", "growth", "MB", "bytes a row", *reading, *yardstick.heads]]
    growth = Growth()
    for name in files:
        kind, count = re.fullmatch(r"(\w+)-(\d+)\.ipfix", os.path.basename(name)).groups()
        for command in COMMANDS:
            words = (*command, name)
            output = yardstick.output(words)
            seconds, memory, cells = yardstick.measure(words)
            row = [f"{kind} {int(count):,}", f"{os.path.getsize(name) / 1e6:.1f}", " ".join(command), f"{seconds:.3f}"]
            row += [growth.of((kind, command), seconds), f"{memory:.1f}"]
            row += [memory_of_a_row(memory, output) if command[0] == "rows" else "-"]
            rows.append([*row, *(f"{fastest([plain, 'read', name]):.3f}" for _ in reading), *cells])
    print_table(rows)


main()
