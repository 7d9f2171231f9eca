#!/usr/bin/env python3
"""Bounds of the instructions and the memory of one command line of each family.

No contract says how much time or memory a call takes: a mapping could take 48 bytes in place of 12, a sorted list could
be sorted again, and a table of recent groups could confirm nothing, and all would be proved. So each line of the table
in docs/ARCHITECTURE.md, under 'What a run costs', is run over generated inputs, and may take at most a tenth more than
the table says: of the instructions that valgrind counts with fixed hash numbers, and of the peak memory, of which the
system counts some pages late. A line of less than eight tenths of the instructions fails too, since the table should
say so. `hours/*` in a line is 24 Files. No clock is read. `tests/program/test_instructions.py --write` measures the
lines anew and writes the table.
"""

import concurrent.futures
import glob
import os
import re
import shutil
import sys
import tempfile

if __name__ == "__main__":
    sys.path.insert(0, os.path.dirname(os.path.dirname(os.path.realpath(__file__))))
from support import BY_NAME, PROGRAM, ROOT, Case, instructions, made, needs, program_of, read, rows, run, \
    system, write

PAGE = ROOT / "docs/ARCHITECTURE.md"
SECTION = re.compile(r"(?ms)^### What a run costs\n.*?(?=^##)")
ROW = re.compile(r"(?m)^\| `(.*)` \| ([\d,]+) \| ([\d,]+) \|$")
# How far a figure may be exceeded, below which part of the instructions the table is out of date, and the kB that may
# be counted late.
ROOM, LOW, LATE = 1.1, 0.8, 256
NUMBERS = "3b1f0c9a7d52e86447a6d1380e95bc2f"
MAPS = {"countries": 20_000, "countries6": 10_000, "routes": 20_000, "hosts": 2_000}
FLOWS = {"usual": 20_000, "biflow": 10_000}
OF_LIST = "check --pmap {0} --list {0}-list --cert {0}-cert"
OF_MAPS = (
    "label --pmap countries 128.9.160.23", "label --list routes-list 128.9.160.23", "cat --pmap routes",
    "cat --list routes-list",
    "shrink --pmap routes", "shrink --pmap countries6", "shrink --certificate --pmap routes",
    "shrink --certificate --compact --pmap hosts", OF_LIST.format("routes"), OF_LIST.format("countries6"),
    "recert --cert countries-cert",
)
OF_FLOWS = (
    "info usual", "rows usual", "rows --columns biflow", "rows --pmap countries usual",
    "uniq --fields proto usual", "uniq --fields sip,dip,sport,dport,proto usual", "uniq --fields sip biflow",
    "uniq --fields src-label,dst-label --pmap routes usual",
)
OF_MANY = (
    "flowlabel-many sum --fields dst-label --pmap countries hours/*", "flowlabel-many sum --by day hours/*",
    "flowlabel-many sum --by 5m --fields dst-label --pmap countries hours/*", "flowlabel-many messages hours/*",
)
LINES = OF_MAPS + OF_FLOWS + OF_MANY
HOURS, RECORDS = 24, 5_000


def make_inputs(line):
    """Writes the maps with their lists and certificates, and the Files, that a line names and that aren't there yet."""
    for name in {word.partition("-")[0] for word in line.split()}:
        if name in FLOWS and not os.path.exists(name):
            made("flows.py", name, FLOWS[name], name)
        elif name == "hours/*" and not os.path.exists("hours"):
            os.mkdir("hours")
            made("flows.py", "usual", RECORDS, "hours/00")
            for number in range(1, HOURS):
                shutil.copyfile("hours/00", f"hours/{number:02}")
        elif name in MAPS and not os.path.exists(name):
            made("maps.py", MAPS[name], name, name)
            for suffix, words in (("list", ()), ("cert", ("--certificate",))):
                write(f"{name}-{suffix}", run(PROGRAM, "shrink", "--pmap", name, *words, check=True).stdout)


def with_files(line):
    """Returns a line with the names of the Files that it has a pattern for."""
    return " ".join(name for word in line.split() for name in sorted(glob.glob(word)) or [word])


def peak_of(line):
    """Returns the peak memory of a run in kB, as the system counts it for the program alone."""
    program, words = program_of(line.split())
    with tempfile.TemporaryFile() as file:
        run(BY_NAME[program], *words, env={"LD_PRELOAD": system(), "RANDOM": NUMBERS, "STATUS": str(file.fileno())},
            pass_fds=[file.fileno()], check=True)
        file.seek(0)
        return int(re.search(rb"VmHWM:\s+(\d+) kB", file.read())[1])


def measured(line):
    """Returns the thousands of instructions and the kB of a line."""
    line = with_files(line)
    return instructions(line, NUMBERS) // 1000, peak_of(line)


def table():
    """Returns the thousands of instructions and the kB that the page has for each line."""
    found = ROW.findall(SECTION.search(read(PAGE))[0])
    return {line: [int(cell.replace(",", "")) for cell in cells] for line, *cells in found}


class Table(Case):
    """The table in the page."""

    def test_lines(self):
        self.assertEqual([*table()], [*LINES], "the lines of the table")


@needs("valgrind", "rt", in_ci=True)
class Costs(Case):
    """The costs of a line are those of the table."""

    def check(self, line):
        make_inputs(line)
        (count, memory), (figure, peak) = measured(line), table().get(line, (0, 0))
        with self.subTest("instructions"):
            self.assertTrue(LOW * figure <= count <= ROOM * figure,
                            f"{line}: {count} thousand instructions, and the table has {figure}")
        with self.subTest("memory"):
            self.assertLessEqual(memory, ROOM * peak + LATE, f"{line}: {memory} kB, and the table has {peak}")


class CostsOfMaps(Costs):
    """The costs of lines over maps, lists and certificates."""

    @rows(*zip(OF_MAPS))
    def test_line(self, line):
        self.check(line)


class CostsOfFlows(Costs):
    """The costs of lines over Files."""

    @rows(*zip(OF_FLOWS))
    def test_line(self, line):
        self.check(line)


class CostsOfMany(Costs):
    """The costs of lines of flowlabel-many."""

    @rows(*zip(OF_MANY))
    def test_line(self, line):
        self.check(line)


def main():
    """Measures the lines anew, and writes the rows of the table in the page."""
    if sys.argv[1:] != ["--write"]:
        sys.exit("tests/program/test_instructions.py: the only word is --write. tests/run.py runs the tests.")
    if any(b"not proved" in run(program, "--version").stdout for program in BY_NAME.values()):
        sys.exit("tests/program/test_instructions.py: the table has the costs of the proved programs: run `make`")
    with tempfile.TemporaryDirectory() as folder, concurrent.futures.ThreadPoolExecutor(os.cpu_count()) as pool:
        os.chdir(folder)
        make_inputs(" ".join(LINES))
        system()
        costs = dict(zip(LINES, pool.map(measured, LINES)))
        os.chdir(ROOT)
    shown = "\n".join(f"| `{line}` | {count:,} | {memory:,} |" for line, (count, memory) in costs.items())
    page = read(PAGE)
    section = SECTION.search(page)[0]
    new = re.sub(r"(?ms)^\|---.*?\n\n", lambda _: f"|---|---|---|\n{shown}\n\n", section, count=1)
    write(PAGE, page.replace(section, new))


if __name__ == "__main__":
    main()
