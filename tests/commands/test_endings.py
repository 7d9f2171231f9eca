"""How the commands end if something around them is missing or breaks.

Each command must work with spaces and line feeds in the names of files and folders. If its output is a closed pipe, it
must end without a word, or with flowlabel's line. If the disk of its output is full, or a program or a file that it
needs is missing, it must end with one line that says so, and the status that the manual page has for this. A signal
must end it without a traceback, and leave no file that wasn't there. `--help` must describe each command, and each of
its options.
"""

import argparse
import contextlib
import os
import resource
import shutil
import signal
import subprocess
import sys

from support import PROGRAM, ROOT, Case, closed_pipe, command, inside, processes, rows, run, stand_in, texts, write
from support import write_program

SAMPLE = ROOT / "examples/softflowd.ipfix"
# A name of a folder and of files, and its form in a line.
ODD, SHOWN = "a b\nc", "a b\\x0ac"
# Sends the records of a sample like softflowd, or sleeps.
STAND_IN = """#!/bin/sh
[ -z "$SLEEPS" ] || { echo begun >begun; exec sleep 3600; }
exec python3 - "$@" <<'END'
import os, socket, sys
host, _, port = sys.argv[sys.argv.index("-n") + 1].rpartition(":")
with socket.create_connection((host, int(port))) as connection, open(os.environ["SENDS"], "rb") as file:
    connection.sendall(file.read())
print("Flows exported: 210 (210 records) in 10 packets (0 failures)")
END
"""
# A program that sleeps, and the real one otherwise.
SLEEPER = '#!/bin/sh\n[ -z "$SLEEPS" ] || { echo begun >"$BEGUN"; exec sleep 3600; }\nexec "$PROGRAM" "$@"\n'
# The words of each script over files that are right, with the number of its lines if it prints any. `{}` is the odd
# name.
WORKS = (
    ("lint {}.map", 6), ("lint --list {}.list 10.0.0.1", 1), ("audit --pmap {}.map {}.d/{}.ipfix", 2),
    ("lookup --pmap {}.map", 1), ("country {}.new {}.csv", 1), ("capture {}.pcap {}.file", 1),
    ("table tsv {}.list {}.folder", 1), ("table ranges {}.ranges {}.folder", 1),
    ("bill --by day {}.d", 2), ("packets 4 {}.made", 0),
    ("verify {}.map {}.list {}.cert", 1),
)
# Words with a file that is missing, and the line.
MISSING = (
    ("lint {}.none", "flowlabel-lint: {}.none: No such file or directory"),
    ("audit {}.none", "flowlabel-audit: {}.none: No such file or directory"),
    ("country {}.new {}.none", "flowlabel-country: {}.none: No such file or directory"),
    ("country none/{}.new {}.csv", "flowlabel-country: none/{}.new: No such file or directory"),
    ("country {}.new /", "flowlabel-country: /: not one file each of Blocks-IPv4, Blocks-IPv6 and Locations-en"),
    ("capture {}.pcap none/{}.file", "flowlabel-capture: none/{}.file.part: No such file or directory"),
    ("capture {}.pcap {}.d", "flowlabel-capture: {}.d: not a regular file, so it isn't replaced"),
    ("table tsv {}.none {}.folder", "flowlabel-table: {}.none: No such file or directory"),
    ("fib linux {}.none", "flowlabel-fib: {}.none: No such file or directory"),
    ("fib --load 100 {}.none", "flowlabel-fib: {}.none: No such file or directory"),
    ("table tsv {}.list {}.list", "flowlabel-table: {}.list: File exists"),
    ("bill {}.none --fields sip", "flowlabel-bill: {}.none: No such file or directory"),
    ("packets 4 none/{}", "packets: none/{}: No such file or directory"),
)
# Words without a program on the path, the names of programs that are there, and the line.
NO_TOOL = (
    ("country {}.new libloc", "", "flowlabel-country: there is no location (Debian: location, libloc-database)"),
    ("capture {}.pcap {}.file", "", "flowlabel-capture: {}.pcap: there is no softflowd to read it (Debian: softflowd)"),
    ("nfcapd {}.none", "", "flowlabel-nfcapd: there is no nfdump (Debian: nfdump)"),
    ("bill --parallel {}.d --fields sip", "", "flowlabel-bill: there is no parallel (Debian: parallel)"),
    ("table --load linux {}.list {}.folder", "", "flowlabel-table: there is no ip (Debian: iproute2)"),
)
# Scripts that run flowlabel.
RUN_FLOWLABEL = ("lint {}.map", "lookup --pmap {}.map")
# Words with a FIFO that nobody writes to, during which Ctrl-C comes.
WAITING = ("lint {}.fifo", "lookup --pmap {}.fifo", "country {}.new {}.fifo",
           "table tsv {}.fifo {}.folder", "fib linux {}.fifo", "verify {}.fifo {}.list {}.cert")


def words_of(line):
    """Returns the words of a command, with the odd name in place of braces."""
    name, *words = line.split()
    return [ROOT / "examples/packets" if name == "packets" else command(name),
            *(word.replace("{}", ODD) for word in words)]


class Commands(Case):
    """Cases with the files that the commands read."""

    @classmethod
    def prepare(cls):
        write(f"{ODD}.map", "10.0.0.0/8 A\n10.1.0.0/16 B\n10.0.0.0/8 A\n")
        for end, words in ((".list", ("shrink",)), (".cert", ("shrink", "--certificate")), (".ranges", ("cat",))):
            write(f"{ODD}{end}", run(PROGRAM, *words, "--pmap", f"{ODD}.map", check=True).stdout)
        write(f"{ODD}.csv", "10.0.0.0/8,NO\n")
        write(f"{ODD}.pcap", "")
        os.mkdir(f"{ODD}.d")
        shutil.copy(SAMPLE, f"{ODD}.d/{ODD}.ipfix")
        os.mkfifo(f"{ODD}.fifo")
        cls.variables = {**stand_in("softflowd", STAND_IN), "SENDS": os.fspath(SAMPLE), "PROGRAM": PROGRAM}

    def end(self, line, variables=()):
        """Runs a command in this process, and returns its status, its output and its errors."""
        name, *words = line.split()
        if name == "packets":
            return self.process(line)
        return inside.texts(name, *(word.replace("{}", ODD) for word in words), input="10.0.0.1\n",
                            variables={**self.variables, **dict(variables)})

    def process(self, line, variables=(), **options):
        """Runs a command in a process of its own, and returns its status, its output and its errors."""
        return texts(*words_of(line), input="10.0.0.1\n", variables={**self.variables, **dict(variables)}, **options)


class Help(Case):
    """The page of each command, by --help."""

    @rows(*((path.name.removeprefix("flowlabel-"),) for path in sorted((ROOT / "bin").glob("flowlabel-*"))
            if path.name != "flowlabel-many"))
    def test_help(self, name):
        """It begins with the calls, has the first lines of the module, and says something of each option."""
        module = inside.module(f"commands.{name}")
        status, output, error = inside.texts(name, "--help", variables={"FLOWLABEL": "/none", "COLUMNS": "40"})
        self.assertEqual((status, error), (0, ""))
        self.assertRegex(output, rf"\Ausage: flowlabel-{name}\b")
        self.assertIn(f"\n\n{module.__doc__.strip()}\n\n", output)
        self.assertEqual([action.dest for action in module.PARSER._actions if not action.help], [])
        self.assertEqual([option for action in module.PARSER._actions for option in action.option_strings
                          if option not in output and action.help != argparse.SUPPRESS], [])


class OddNames(Commands):
    """Each command with odd names, into a closed pipe, and to a full disk."""

    @rows(*WORKS)
    def test_works(self, line, count):
        status, output, error = self.end(line)
        self.assertEqual((status, output.count("\n"), error), (0, count, ""))

    @rows(*WORKS)
    def test_closed_pipe(self, line, count):
        name = line.split()[0]
        # flowlabel has a line of its own.
        status = 0 if not count else {"verify": 4}.get(name, -signal.SIGPIPE)
        with closed_pipe() as pipe:
            self.assertEqual(self.process(line, stdout=pipe)[::2],
                             (status, "flowlabel: output: cannot write\n" if name == "verify" else ""))

    @rows(*(row for row in WORKS if row[1]))
    def test_full_disk(self, line, _):
        name = line.split()[0]
        error = f"flowlabel-{name}: output: No space left on device\n"
        with open("/dev/full", "wb") as full:
            self.assertEqual(self.process(line, stdout=full)[::2],
                             (4, "flowlabel: output: cannot write\n" if name == "verify" else error))

    @rows(("country {}.empty {}.csv",), ("table tsv {}.list {}.empty",), ("packets 4 {}.empty",))
    def test_no_room(self, line):
        # A limit of the size of files imitates a disk without room.
        before = set(os.listdir("."))
        status, output, error = self.process(line, preexec_fn=lambda: resource.setrlimit(resource.RLIMIT_FSIZE, (0, 0)))
        self.assertEqual((status, output, error.count("\n")), (4, "", 1))
        self.assertIn("File too large", error)
        self.assertEqual(set(os.listdir(".")), before)


class Missing(Commands):
    """Files and programs that are missing."""

    @rows(*MISSING)
    def test_file(self, line, wanted):
        status = 4 if wanted.endswith((": No such file or directory", ": File exists")) else 1
        self.assertEqual(self.end(line), (status, "", wanted.replace("{}", SHOWN) + "\n"))

    @rows(*NO_TOOL)
    def test_tool(self, line, tools, wanted):
        os.mkdir("tools")
        self.addCleanup(shutil.rmtree, "tools")
        for name in {"python3", "bash", "env", *tools.split()}:
            os.symlink(sys.executable if name == "python3" else shutil.which(name), f"tools/{name}")
        self.assertEqual(self.end(line, {"PATH": os.path.abspath("tools")}),
                         (1, "flowlabel-nfcapd has failed. This is no IPFIX File\n" * line.startswith("nfcapd "),
                          wanted.replace("{}", SHOWN) + "\n"))

    @rows(*zip(RUN_FLOWLABEL))
    def test_flowlabel(self, line):
        self.assertEqual(self.end(line, {"FLOWLABEL": "/none/flowlabel"}),
                         (125, "", f"flowlabel-{line.split()[0]}: FLOWLABEL names no program: /none/flowlabel\n"))


class Signals(Commands):
    """Cases with signals."""

    def interrupted(self, line, wait, *numbers, **variables):
        """Returns how a command ends by signals that come at once, after `wait` has returned: its status, its errors
        and the new files. `wait` returns earlier if the command ends."""
        before = set(os.listdir("."))
        with subprocess.Popen(words_of(line), stdin=subprocess.DEVNULL, stdout=subprocess.PIPE, stderr=subprocess.PIPE,
                              env={**os.environ, **self.variables, **variables}, start_new_session=True) as started:
            held = wait(started)
            processes.wait(lambda: started.poll() is not None or processes.are_asleep(started.pid))
            for number in (signal.SIGSTOP, *numbers, signal.SIGCONT):
                with contextlib.suppress(ProcessLookupError):
                    os.killpg(started.pid, number)
            error = started.communicate(timeout=processes.PATIENCE)[1].decode()
            if held:
                os.close(held)
        return started.returncode, error, set(os.listdir(".")) - before


class Reading(Signals):
    """Signals while a command reads."""

    @staticmethod
    def reading(started):
        """Waits until the command, or its flowlabel, reads the FIFO, and returns its open end."""
        ends = []

        def is_open():
            with contextlib.suppress(OSError):
                ends.append(os.open(f"{ODD}.fifo", os.O_WRONLY | os.O_NONBLOCK))
            return ends or started.poll() is not None
        processes.wait(is_open)
        return ends[0] if ends else None

    @rows(*((line, number) for line in WAITING for number in (signal.SIGINT, signal.SIGTERM, signal.SIGHUP)))
    def test_signal(self, line, number):
        self.assertEqual(self.interrupted(line, self.reading, number), (-number, "", set()))

    @rows(*zip(WAITING))
    def test_two_signals(self, line):
        status, *rest = self.interrupted(line, self.reading, signal.SIGTERM, signal.SIGHUP)
        self.assertIn(status, (-signal.SIGTERM, -signal.SIGHUP))
        self.assertEqual(rest, ["", set()])


class Running(Signals):
    """Signals while a command waits for a program."""

    @staticmethod
    def begun(started):
        """Waits until the sleeping program runs."""
        processes.wait(lambda: started.poll() is not None or os.path.exists("begun"))

    def setUp(self):
        self.addCleanup(lambda: os.path.exists("begun") and os.remove("begun"))

    @rows(*((line, number) for line in RUN_FLOWLABEL for number in (signal.SIGINT, signal.SIGTERM)))
    def test_in_flowlabel(self, line, number):
        sleeper = write_program("flowlabel", SLEEPER)
        self.assertEqual(self.interrupted(line, self.begun, number, SLEEPS="1", BEGUN="begun", FLOWLABEL=sleeper),
                         (-number, "", {"begun"}))

    def test_in_softflowd(self):
        self.assertEqual(self.interrupted("capture {}.pcap {}.other", self.begun, signal.SIGINT, SLEEPS="1"),
                         (-signal.SIGINT, "", {"begun"}))
