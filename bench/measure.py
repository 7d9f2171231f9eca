"""Functions that the benches share: a program's seconds and memory, the yardstick beside it, and printing tables."""

import filecmp
import os
import re
import shutil
import subprocess
import sys

ROOT = os.path.dirname(os.path.dirname(os.path.realpath(__file__)))
sys.path.append(os.path.join(ROOT, "dev"))
from command_line import Parser, arguments, count

# It adds less to the memory that it measures than this interpreter would.
METER = "/usr/bin/time"


def program():
    """Returns the program that is measured: the one that FLOWLABEL names, or the proved one."""
    named = os.environ.get("FLOWLABEL") or os.path.join(ROOT, "crates/flowlabel_main/out/flowlabel_main")
    return os.path.abspath(shutil.which(named) or sys.exit(f"bench: there is no program {named}: run `make`"))


def make(script, *words):
    """Runs a script of bench/ that makes a file."""
    subprocess.run([sys.executable, os.path.join(ROOT, "bench", script), *map(str, words)], check=True)


def run(words, output=subprocess.DEVNULL):
    """Runs a program, and returns what it wrote to a pipe and the CPU seconds that it took."""
    with subprocess.Popen(words, stdout=output) as started:
        text = started.stdout.read() if started.stdout else None
        _, status, usage = os.wait4(started.pid, 0)
        started.returncode = os.waitstatus_to_exitcode(status)
    if started.returncode != 0:
        sys.exit(f"bench: status {started.returncode} of {' '.join(words)}")
    return text, usage.ru_utime + usage.ru_stime


def fastest(words, times=3):
    """Returns the seconds of the fastest of some runs."""
    return min(run(words)[1] for _ in range(times))


def written(words, name):
    """Returns the file of this name with the output of a program."""
    with open(name, "wb") as out:
        run(words, out)
    return name


def lines_of(name):
    """Returns the number of lines of a file."""
    with open(name, "rb") as text:
        return sum(chunk.count(b"\n") for chunk in iter(lambda: text.read(1 << 20), b""))


def memory_of(words):
    """Returns the maximum memory of a program, in MB of 10^6 bytes, and its page faults without I/O."""
    if os.access(METER, os.X_OK):
        metered = [METER, "-f", "%M %R", *words]
        ended = subprocess.run(metered, stdout=subprocess.DEVNULL, stderr=subprocess.PIPE, check=True)
        kilobytes, faults = map(int, ended.stderr.split()[-2:])
    else:
        with subprocess.Popen(words, stdout=subprocess.DEVNULL) as started:
            usage = os.wait4(started.pid, 0)[2]
            started.returncode = 0
        kilobytes, faults = usage.ru_maxrss, usage.ru_minflt
    return kilobytes * 1024 / 1e6, faults


def peak(words):
    """Returns the maximum memory of a program, in MB of 10^6 bytes."""
    return memory_of(words)[0]


def page_faults(words):
    """Returns the number of times that a program touches a page of memory that it hadn't yet."""
    return memory_of(words)[1]


def instructions(words):
    """Returns the instructions that a program executes, in millions, as valgrind counts them."""
    counted = ["valgrind", "--tool=cachegrind", "--cache-sim=no", "--cachegrind-out-file=/dev/null", *words]
    ended = subprocess.run(counted, stdout=subprocess.DEVNULL, stderr=subprocess.PIPE, text=True, check=True)
    return int(re.search(r"I +refs: +([\d,]+)", ended.stderr)[1].replace(",", "")) / 1e6


class Yardstick:
    """The program, and the one in plain Rust that takes the same words, if it is available."""

    def __init__(self, program, plain):
        self.programs = [program, plain] if os.path.exists(plain) else [program]
        self.folder = os.path.dirname(plain)
        self.heads = ["plain Rust", "MB", "ratio of seconds", "ratio of MB"][:4 * len(self.programs) - 4]
        self.counters = {"page faults": page_faults}
        if shutil.which("valgrind"):
            self.counters["10^6 instructions"] = instructions
        self.count_heads = [head for name in self.counters for head in [name, "ratio"][:len(self.programs)]]

    def output(self, words):
        """Returns the file with the output of the program. If plain Rust writes other bytes, the bench ends."""
        numbered = enumerate(self.programs)
        files = [written([program, *words], f"{self.folder}/written-{number}") for number, program in numbered]
        if not filecmp.cmp(files[0], files[-1], shallow=False):
            sys.exit(f"bench: {' '.join(words)}: the program and plain Rust differ: see {self.folder}")
        return files[0]

    def measure(self, words, times=3):
        """Returns the seconds of the program's fastest run, its memory, and the cells of plain Rust. The two run in
        turns."""
        commands = [[program, *words] for program in self.programs]
        turns = [[run(command)[1] for command in commands] for _ in range(times)]
        seconds = [min(runs) for runs in zip(*turns)]
        memory = [peak(command) for command in commands]
        cells = [f"{seconds[-1]:.3f}", f"{memory[-1]:.1f}"]
        cells += [f"{seconds[0] / seconds[-1]:.2f}", f"{memory[0] / memory[-1]:.1f}"]
        return seconds[0], memory[0], cells[:len(self.heads)]

    def counts(self, words):
        """Returns cells that other work of the machine doesn't change: for each counter the program's count, and its
        ratio to that of plain Rust."""
        cells = []
        for counter in self.counters.values():
            values = [counter([program, *words]) for program in self.programs]
            cells.append(f"{values[0]:.0f}")
            cells += [f"{values[0] / value:.2f}" for value in values[1:]]
        return cells


class Growth:
    """The growth of values: the factor from the last value of a kind to the next one."""

    def __init__(self):
        self.last = {}

    def of(self, kind, value):
        earlier = self.last.get(kind)
        self.last[kind] = value
        return f"{value / earlier:.1f}" if earlier else "-"


def print_table(rows):
    """Prints rows of cells, the headers first, each column as wide as its widest cell."""
    widths = [max(map(len, column)) for column in zip(*rows)]
    for row in rows:
        print("  ".join(cell.rjust(width) for cell, width in zip(row, widths)))
