"""What `make` builds and records, over a stub of rt that proves nothing, and what is said if nothing is built.

The tests run in a copy of the repository. They check what is built and when, that two calls at one time build once,
that an interrupted build leaves no process, and no file but what was proved, and the next call finishes it, that
progress is reported, what is recorded and refused, which program the commands run, and that no script gives up on a
slow machine.
"""

import itertools
import os
import pathlib
import re
import shutil
import signal
import sys
import time
import unittest

from support import FOREVER, ROOT, Case, outcome, read, rows, write
from support.trees import BUILT, BUILT_MANY, FEW, KIT, LOGIC, RECORD, Held, Tree, digest

# An installed program. It records each call, prints its words and fails.
INSTALLED = """#!/bin/sh
echo installed >>"$STUB/calls"
echo "installed $*"
exit 7
"""
# A number of seconds after which a script gives up.
LIMIT = re.compile(r"(?:timeout(?:=| |\()|--seconds |(?:SECONDS|FOREVER) = |\b(?:sleep|alarm\()|"
                   r"(?:monotonic\(\) \+|wait\()) ?(\d+)")
# Prints the program of a name, flowlabel or flowlabel-many, that the commands beside a folder lib run.
CHOICE = """import sys
sys.dont_write_bytecode = True
sys.path.insert(0, sys.argv[1])
from flowlabel import process, programs
sys.exit(process.status_of("any", lambda words: process.say(programs.find(*words)) or 0, sys.argv[2:]))
"""
NOTHING_TO_DO = "dev/build: bin/flowlabel is built, and no source is younger\n"
WAITS = "dev/build: another build or a gate of this tree is running, and this build waits for it\n"
STOPPED = "dev/build: the build was stopped; the next call continues from what is proved\n"
MAP = "examples/offices.txt"


class TreeCase(Case):
    """Tests in a copy of the repository."""

    @classmethod
    def prepare(cls, *crates):
        cls.tree = Tree(*crates)
        cls.not_built = f"bin/flowlabel: the program is not built: run `make` in {cls.tree.root}\n"
        cls.failed = (f"dev/build: the build failed: see {cls.tree.path('out/build.log')}. Run `make` again, and it "
                      "continues from what is proved")

    def chosen(self, library, name="flowlabel", **variables):
        """Returns the program that commands beside a folder lib run, as a call does."""
        return self.tree.call(sys.executable, "-I", "-c", CHOICE, library, name, **variables)

    def build(self, *words, **variables):
        """Has `make` build the program anew, and returns its messages and what the stub recorded."""
        self.change("crates.txt")
        self.tree.calls()
        return self.assert_built(self.tree.call("make", *words, **variables))

    def change(self, name):
        """Makes a file of the tree younger than the program."""
        os.utime(self.tree.path(name))

    def left(self):
        """Returns the files in out/."""
        return sorted(os.listdir(self.tree.path("out")))

    def assert_built(self, found):
        """Checks that a call of `make` has built the program. Returns its messages, and what the stub recorded."""
        status, output, messages = found
        calls = self.tree.calls()
        self.assertEqual((status, output, messages.splitlines()[-1:]), (0, "", ["dev/build: bin/flowlabel is built"]))
        self.assertEqual((calls.count("flowlabel_main ends"), len(calls)), (1, 2 * len(self.tree.crates)))
        self.assertEqual(self.left(), ["build.log", "built"])
        sources = "changed" if self.tree.git("status", "--porcelain", "crates") else "unchanged"
        programs = [self.tree.path(f"crates/{name}/out/{name}") for name in self.tree.crates if name.endswith("_main")]
        sums = "".join(f"program {digest(program)}\n" for program in programs)
        self.assertEqual(read(self.tree.path(RECORD)), f"{sums}"
                         f"commit {self.tree.git('rev-parse', 'HEAD')}sources {sources}\nkit {KIT}\n")
        self.assertEqual(self.tree.call("bin/flowlabel", "a", "b"), (3, "program a b\n", ""))
        return messages, calls


class NotBuilt(TreeCase):
    """In a tree without a program, whoever needs it is told to run `make`, and nothing begins."""

    @unittest.skipIf(shutil.which("flowlabel"), "there is a flowlabel on the path")
    @rows(("bin/flowlabel",), ("bin/flowlabel", "label"), ("bin/flowlabel-many",), ("bin/flowlabel-lint", MAP), ("bin/flowlabel-lookup", "--pmap", MAP),
          ("bin/flowlabel-capture", "examples/export.pcap", "new"), ("bin/flowlabel-customers", "missing.csv"),
          ("bin/flowlabel-fib", "--check", "100"), ("bin/flowlabel-report", "--", "rows", "examples/softflowd.ipfix"),
          ("bin/flowlabel-audit", "examples/softflowd.ipfix"),
          ("bin/flowlabel-bill", "--by", "day", "examples/softflowd.ipfix"),
          ("bin/flowlabel-report", "--", "bill", "--by", "day", "examples/softflowd.ipfix"))
    def test_a_line_says_make(self, *words):
        before, line = self.tree.files(), self.not_built
        name = "flowlabel-many" if re.search("many|audit|bill", " ".join(words)) else "flowlabel"
        variable = name.upper().replace("-", "_")
        if "-" in words[0].replace("-many", ""):
            last = "bill" if "bill" in words else words[0].partition("-")[2]
            line = (f"flowlabel-{last}: {name} isn't built: run `make` in {self.tree.root}, or name a program by "
                    f"{variable}\n")
        self.assertEqual(self.tree.call(*words), (125, "", line.replace("bin/flowlabel:", f"bin/{name}:")))
        self.assertEqual((self.tree.files(), self.tree.calls()), (before, []))

    @rows(("bin/flowlabel-lint", MAP), ("bin/flowlabel-audit", "examples/softflowd.ipfix"))
    def test_a_line_names_the_trial(self, *words):
        trial = self.tree.path("out/trial/flowlabel")
        self.tree.put("out/trial/flowlabel", "#!/bin/sh\n")
        self.addCleanup(shutil.rmtree, os.path.dirname(trial))
        os.chmod(trial, 0o755)
        status, output, line = self.tree.call(*words)
        self.assertEqual((status, output), (125, ""))
        self.assertTrue(line.endswith(f" isn't built: run `make` in {self.tree.root}, or set FLOWLABEL={trial}\n"), line)

    @classmethod
    def prepare(cls):
        super().prepare()
        cls.tree.put("flows/a.ipfix", b"")

    def test_link(self):
        os.symlink(self.tree.path("bin/flowlabel"), "link")
        self.assertEqual(self.tree.call(os.path.abspath("link"), "label"), (125, "", self.not_built))

    def test_bin_on_the_path(self):
        found = self.chosen("lib", PATH=f"{self.tree.path('bin')}:{os.environ['PATH']}")
        self.assertEqual(found, (125, "", f"any: flowlabel isn't built: run `make` in {self.tree.root}, or name a program "
                                          "by FLOWLABEL\n"))

    def test_tests(self):
        status, output, messages = self.tree.call("make", "check")
        self.assertEqual((status, output), (2, ""))
        self.assertIn("isn't there: run `make`, or `make trial` for a build without proof in some minutes\n", messages)

    @rows(("dev/install",), ("dev/package",), ("dev/record", "proved"))
    def test_no_proved_program(self, *words):
        self.assertEqual(self.tree.call(*words), (1, "", "dev/record: there is no proved program: run `make`\n"))

    @rows(((), ), (("begin", "out/x"),), (("true",),))
    def test_usage_of_record(self, words):
        self.assertEqual(self.tree.call("dev/record", *words),
                         (2, "", "dev/record: usage: dev/record gate | dev/record build JOBS | dev/record proved\n"))

    def test_dry_run(self):
        before = self.tree.files()
        for goal in ((), ("trial",), ("test",), ("install",), ("package",)):
            self.assertEqual(self.tree.call("make", "-n", *goal)[0], 0)
        self.assertEqual((self.tree.files(), self.tree.calls()), (before, []))

    @rows(("a b", "a\nb\n"), ("", "\n"), ("*", "*\n"), ('a"b c\'d', 'a"b\nc\'d\n'),
          ("`touch x`; touch x", "`touch\nx`;\ntouch\nx\n"), ("$(touch x) $T", "$(touch\nx)\n$T\n"),
          ("$(shell touch x)", "$(shell\ntouch\nx)\n"))
    def test_names_of_tests(self, names, words):
        """T may contain anything, and none of it is run."""
        self.addCleanup(self.tree.put, "tests/run.py", read(self.tree.path("tests/run.py")))
        self.tree.put("tests/run.py", "#!/bin/sh\nprintf '%s\\n' \"$@\"\n")
        before = self.tree.files()
        for command in (("make", "check", f"T={names}"), ("env", f"T={names}", "make", "check")):
            self.assertEqual(self.tree.call(*command), (0, words, ""))
        self.assertEqual(self.tree.files(), before)

    def test_help(self):
        status, output, _ = self.tree.call("make", "help")
        goals = re.search(r"(?m)^\.PHONY: (.*)$", read(ROOT / "Makefile"))[1].split()
        self.assertEqual((status, [goal for goal in goals if goal != "build" and goal not in output]), (0, []))


class Chosen(TreeCase):
    """Which program the commands run if the tree's program isn't built, and if there is no tree."""

    @classmethod
    def prepare(cls):
        super().prepare()
        shutil.copytree(cls.tree.path("lib"), "alone/lib")
        cls.tree.script("flowlabel", INSTALLED)

    @rows(("lib",), ("../alone/lib",))
    def test_named(self, library):
        self.assertEqual(self.chosen(library, FLOWLABEL="cat"), (0, "cat\n", ""))
        self.assertEqual(self.chosen(library, FLOWLABEL="bin/x"),
                         (125, "", "any: FLOWLABEL names no program: bin/x\n"))
        self.assertEqual(self.chosen(library, FLOWLABEL="bin/flowlabel"),
                         (0, f"{self.tree.path('bin/flowlabel')}\n", ""))

    @rows(("beside it", "bin/flowlabel", "bin/flowlabel-many"), ("where make builds it", BUILT, BUILT_MANY))
    def test_many(self, _, named, many):
        """FLOWLABEL alone is enough."""
        for name in (BUILT, BUILT_MANY):
            self.tree.put(name, "#!/bin/sh\n")
            self.addCleanup(os.remove, self.tree.path(name))
            os.chmod(self.tree.path(name), 0o755)
        self.assertEqual(self.chosen("../alone/lib", "flowlabel-many", FLOWLABEL=named),
                         (0, f"{self.tree.path(many)}\n", ""))

    def test_on_the_path(self):
        self.assertEqual(self.chosen("lib"), (0, f"{self.tree.stub}/flowlabel\n", ""))

    @rows(("lint", MAP), ("lookup", "--pmap", MAP))
    def test_commands(self, name, *words):
        self.tree.calls()
        self.tree.call(f"bin/flowlabel-{name}", *words)
        self.assertEqual(set(self.tree.calls()), {"installed"})

    def test_installed(self):
        """An installation runs its own program."""
        shutil.copytree(self.tree.path("lib"), "prefix/lib")
        os.mkdir("prefix/bin")
        shutil.copy(shutil.which("echo"), "prefix/bin/flowlabel")
        there = os.path.abspath("prefix/bin/flowlabel")
        self.assertEqual(self.chosen("../prefix/lib"), (0, f"{there}\n", ""))

    def test_nowhere(self):
        there = os.path.abspath("alone/bin/flowlabel")
        self.assertEqual(self.chosen("../alone/lib"),
                         (125, "", f"any: there is no {there}, and FLOWLABEL names no other program\n"))


class FirstBuild(TreeCase):
    """The first build, of all crates."""

    @classmethod
    def prepare(cls):
        super().prepare(read(ROOT / "crates.txt"))
        cls.messages, cls.calls = cls.assert_built(cls(), cls.tree.call("make"))

    def test_progress(self):
        lines = self.messages.splitlines()
        self.assertEqual(lines[0], "dev/build: each crate is proved from nothing, in half an hour of CPU time")
        progress = [line[:11] + line[17:] for line in lines if " begins; " in line or " is proved; " in line]
        self.assertEqual(len(progress), 2 * len(self.tree.crates))
        self.assertRegex(progress[-1], rf"\Adev/build: flow(label|_many)_main is proved; "
                         rf"0 of {len(self.tree.crates)} crates are left\Z")

    def test_crates_wait_for_those_below(self):
        when = {line: place for place, line in enumerate(self.calls)}
        early = [(crate, name) for crate, below in self.tree.crates.items() for name in below
                 if name in self.tree.crates and when[f"{name} ends"] > when[f"{crate} begins"]]
        self.assertEqual(early, [])


class Builds(TreeCase):
    """The cases in which there is another build."""

    def assert_nothing_to_do(self):
        self.assertEqual(self.tree.call("make"), (0, "", NOTHING_TO_DO))
        self.assertEqual(self.tree.calls(), [])

    def test_again(self):
        self.build()
        self.assert_nothing_to_do()

    def test_link(self):
        self.build()
        os.symlink(self.tree.path("bin/flowlabel"), "link")
        self.assertEqual(self.tree.call(os.path.abspath("link"), "a", "b"), (3, "program a b\n", ""))

    def test_commands_run_what_is_built(self):
        """Also if another one is on the path, or a source is younger."""
        self.build()
        self.tree.script("flowlabel", INSTALLED)
        self.addCleanup(os.remove, os.path.join(self.tree.stub, "flowlabel"))
        self.change("crates.txt")
        self.assertEqual(self.chosen("lib"), (0, f"{self.tree.path(BUILT)}\n", ""))
        self.assertEqual(self.tree.calls(), [])

    @rows(("src/below/part.rt",), ("specs/Lib.antt",))
    def test_source_is_changed(self, name):
        self.build()
        with open(self.tree.path(f"crates/pmap_text/{name}"), "a", encoding="utf-8") as file:
            file.write("\n")
        self.assert_built(self.tree.call("make"))

    def test_source_is_removed(self):
        self.build()
        os.remove(self.tree.path("crates/flow_io/src/below/part.rt"))
        self.assert_built(self.tree.call("make"))

    def test_proof_is_changed(self):
        self.build()
        self.change("crates/pmap_text/proofs/Lib.antt")
        self.assert_nothing_to_do()

    def test_flags(self):
        """The flags and the variables of the make that the user calls, or of one around it, don't matter."""
        self.build("-j", "-k", "-e", "jobs=x", "room=/x", "T=x", crates="x", JOBS="x", named="x")
        self.build("-j3", "-s")
        self.build("--no-print-directory", MAKEFLAGS="kej3 --jobserver-auth=3,4 -- jobs=x", MAKELEVEL="2", MFLAGS="-k")


class Progress(TreeCase):
    """The lines that a build prints while nothing begins and nothing is proved."""

    @classmethod
    def prepare(cls):
        super().prepare()
        text = read(cls.tree.path("dev/build"))
        assert "SILENCE = 30\n" in text
        cls.tree.put("dev/build", text.replace("SILENCE = 30\n", "SILENCE = 0.01\n"))

    def test_how_far_each_crate_is(self):
        held = Held(self.tree, "make")
        self.addCleanup(held.end)
        lines, end = held.lines(), time.monotonic() + FOREVER
        self.assertTrue(any(" begins; " in line for line in lines))
        found = next((line for line in lines if "(3 of 7 functions)" in line or time.monotonic() > end), "")
        self.assertRegex(found, r"^dev/build: \d\d:\d\d [a-z_0-9 ,()]*?\b[a-z_]+ 0 min \(3 of 7 functions\)")
        self.assertTrue(found.endswith(f"; {len(self.tree.crates)} of {len(self.tree.crates)} crates are left\n"))
        status, messages, is_gone = held.free()
        self.assertEqual((status, messages.splitlines()[-1], is_gone), (0, "dev/build: bin/flowlabel is built", True))

    def test_who_waits(self):
        """A call that waits for another one also says so again and again."""
        self.change("crates.txt")
        held = Held(self.tree, "make")
        self.addCleanup(held.end)
        waiting = self.tree.start("make")
        self.assertEqual([waiting.stderr.readline() for _ in range(3)], [WAITS] * 3)
        held.end()
        self.assertTrue(held.is_gone())
        self.assertEqual((waiting.communicate(timeout=FOREVER)[1].splitlines()[-1], waiting.returncode),
                         ("dev/build: bin/flowlabel is built", 0))


class Stopped(TreeCase):
    """Signals while crates are proved, and two calls at one time."""

    def hold(self, command="dev/build"):
        """Starts a build in which each crate waits."""
        self.change("crates.txt")
        self.tree.calls()
        held = Held(self.tree, command)
        self.addCleanup(held.end)
        return held

    def waiting(self, line, *words):
        """Starts a command that waits for the build, and says so. It is killed at last."""
        call = self.tree.start(*words)
        self.assertEqual(call.stderr.readline(), line)
        return call

    def kill(self, call):
        """Ends a command with its group."""
        os.killpg(call.pid, signal.SIGKILL)
        call.communicate()

    @rows((signal.SIGINT, os.killpg, "dev/build"), (signal.SIGTERM, os.kill, "dev/build"),
          (signal.SIGHUP, os.kill, "dev/build"), (signal.SIGINT, os.killpg, "make"), (signal.SIGTERM, os.kill, "make"))
    def test_signal(self, number, send, command):
        """Ctrl-C, which all processes of a terminal get, and two signals that only one gets. After SIGHUP nobody reads
        the messages any more."""
        held = self.hold(command)
        self.kill(self.waiting(WAITS, "make"))
        if number == signal.SIGHUP:
            held.call.stderr.close()
            held.call.stderr = None
        send(held.call.pid, number)
        output, messages = held.call.communicate(timeout=FOREVER)
        self.assertEqual((held.call.returncode, output), (-number, ""))
        self.assertTrue(messages is None or STOPPED in messages, messages)
        self.assertTrue(held.is_gone(), "a process is left")
        self.assertEqual([name for name in self.left() if name != "built"], ["rooms"])
        self.tree.calls()
        messages, _ = self.assert_built(self.tree.call("make"))
        # What was ended may hold the lock for a moment.
        self.assertRegex(messages.replace(WAITS, "").splitlines()[0],
                         r"^dev/build: these crates were proved before, .*: (.*, )?a part of \w+")

    def test_two_calls(self):
        held = self.hold()
        waiting = self.waiting(WAITS, "make")
        status, messages, is_gone = held.free()
        self.assertEqual((status, messages.splitlines()[-1], is_gone), (0, "dev/build: bin/flowlabel is built", True))
        output, messages = waiting.communicate(timeout=FOREVER)
        self.assertEqual((waiting.returncode, output, messages.replace(WAITS, "")), (0, "", NOTHING_TO_DO))
        self.assertEqual(len(self.tree.calls()), 2 * len(self.tree.crates))

    def test_gate(self):
        """The gate waits for a build, too."""
        held = self.hold()
        line = "dev/record: a build of this tree is running, and the gate waits for it\n"
        self.kill(self.waiting(line, "dev/record", "gate"))
        self.assertEqual(held.free()[::2], (0, True))

    @rows((signal.SIGINT, os.killpg, "dev/record"), (signal.SIGTERM, os.kill, "dev/record"),
          (signal.SIGHUP, os.kill, "dev/record"), (signal.SIGTERM, os.kill, "make"))
    def test_signal_in_gate(self, number, send, command):
        """A gate that is stopped ends all that it has started, too."""
        held = Held(self.tree, command, "test" if command == "make" else "gate")
        self.addCleanup(held.end)
        send(held.call.pid, number)
        held.call.communicate(timeout=FOREVER)
        self.assertNotEqual(held.call.returncode, 0)
        self.assertTrue(held.is_gone(), "a process is left")
        self.assertNotIn("building", self.left())

    def test_proof_is_changed_meanwhile(self):
        held = self.hold()
        self.change("crates/pmap_text/proofs/Lib.antt")
        status, messages, is_gone = held.free()
        self.assertEqual((status, messages.splitlines()[-2:], is_gone), (1, [
            "dev/build: crates/pmap_text/proofs/Lib.antt changed while the program was proved", self.failed], True))
        self.tree.calls()
        self.assert_built(self.tree.call("make"))


class Refused(TreeCase):
    """Programs that can't be built or recorded, and those that aren't installed or packed."""

    def stub(self, name, text=""):
        """Makes a file of the stub for this test."""
        self.tree.script(name, text)
        self.addCleanup(os.remove, os.path.join(self.tree.stub, name))

    def assert_failed(self, found, *last):
        """Checks that a build has failed, and what it says last."""
        status, output, messages = found
        self.assertEqual((status, output, messages.splitlines()[-len(last):]), (1, "", list(last)))

    def test_no_crates(self):
        shutil.copytree(self.tree.path("dev"), "alone/dev")
        self.assert_failed(self.tree.call("../alone/dev/build"),
                           f"dev/build: {os.path.abspath('alone/crates.txt')}: No such file or directory")

    def test_failure(self):
        self.change("crates.txt")
        self.stub("fails")
        self.assert_failed(self.tree.call("dev/build"), self.failed)
        self.assertEqual(self.left(), ["build.log", "rooms"])
        self.assertEqual(self.tree.call("make")[0], 2)

    @unittest.skipIf(shutil.which("rt", path="/usr/bin:/bin"), "rt is in one of the system's own folders")
    def test_no_rt(self):
        self.change("crates.txt")
        self.assert_failed(self.tree.call("dev/build", PATH="/usr/bin:/bin"),
                           "dev/build: the program must be built, and rt is not found: install Rattle's toolchain, and "
                           "put its folder bin on the path (README.md, Install)")

    def test_memory(self):
        """README.md says how much memory is enough."""
        enough = int(re.search(r"`MemTotal`\s+of\s+([0-9,]+)\s+kB", read(ROOT / "README.md"))[1].replace(",", ""))
        text = read(self.tree.path("dev/build"))
        self.assertIn('"/proc/meminfo"', text)
        self.addCleanup(self.tree.put, "dev/build", text)
        self.tree.put("dev/build", text.replace("/proc/meminfo", os.path.abspath("meminfo")))
        write("meminfo", f"MemTotal: {enough - 1} kB\nMemAvailable: {enough - 1} kB\n")
        self.change("crates.txt")
        self.assert_failed(self.tree.call("dev/build"),
                           "dev/build: the program must be built, which needs 7 GB of memory (MemTotal) or more: build "
                           "it on another machine, and install a package (make package)")
        write("meminfo", f"MemTotal: {enough} kB\nMemAvailable: {enough} kB\n")
        messages, _ = self.build()
        self.assertIn(f"up to {min(2, len(os.sched_getaffinity(0)))} crates at a time", messages)

    def test_nothing_is_built(self):
        """A program from elsewhere is removed before a build, so it is never recorded."""
        self.build()
        self.change("crates.txt")
        self.stub("idle")
        self.assert_failed(self.tree.call("dev/build"), "dev/build: make built no program", self.failed)
        self.assertFalse(os.path.exists(self.tree.path(BUILT)))
        self.assertEqual(self.tree.call("dev/package"), (1, "", "dev/record: there is no proved program: run `make`\n"))

    @rows(("install",), ("package",))
    def test_another_program(self, goal):
        """A trial, or any other program in place of the one that was proved."""
        self.build()
        write(self.tree.path(BUILT), "#!/bin/sh\necho 'flowlabel 1.0.0 (trial: not proved)'\n")
        status, output, messages = self.tree.call("make", goal, f"DESTDIR={os.path.abspath('to')}")
        self.assertEqual((status, output, messages.splitlines()[:2]), (2, "", [
            NOTHING_TO_DO[:-1],
            f"dev/record: {BUILT} is not the program that was proved (out/built): remove it, and run `make`"]))
        self.assertEqual((len(messages.splitlines()), os.path.exists("to")), (3, False))
        os.remove(self.tree.path(BUILT))
        self.assert_built(self.tree.call("make"))

    def test_trial_alone(self):
        """What `make trial` builds is neither installed nor packed."""
        self.tree.put("out/trial/flowlabel", "#!/bin/sh\n")
        self.addCleanup(shutil.rmtree, self.tree.path("out/trial"))
        for name in (BUILT, RECORD):
            if os.path.exists(self.tree.path(name)):
                os.remove(self.tree.path(name))
        for script in ("dev/install", "dev/package"):
            self.assertEqual(self.tree.call(script, DESTDIR=os.path.abspath("to")),
                             (1, "", "dev/record: there is no proved program: run `make`\n"))

    def test_logic(self):
        """One line reports a toolchain of another logic. Another kit with the same logic is none."""
        for page in ("README.md", "CONTRIBUTING.md", "docs/PROOFS.md"):
            self.assertLessEqual(set(re.findall(r"\b[0-9a-f]{16}\b", read(ROOT / page))), {LOGIC}, page)
        self.assertIn(LOGIC, read(ROOT / "README.md"))
        self.assertNotIn("another", self.build()[0])
        kit = "rattle-kit-99z logic 0123456789abcdef"
        self.stub("kit", f"{kit}\n")
        self.change("crates.txt")
        status, _, messages = self.tree.call("make")
        line = f"dev/build: the proofs were made with the logic {LOGIC}, and this toolchain has another one: {kit}"
        self.assertEqual((status, messages.splitlines().count(line)), (0, 1))
        self.assertTrue(read(self.tree.path(RECORD)).endswith(f"\nkit {kit}\n"))


class TwoPrograms(TreeCase):
    """Both programs are built, recorded and installed."""

    @classmethod
    def prepare(cls):
        super().prepare(f"{FEW}flow_many_main: flow_rows\n")

    def test_both(self):
        programs = [self.tree.path(f"crates/{name}/out/{name}") for name in ("flowlabel_main", "flow_many_main")]
        self.assertEqual(self.tree.call("make")[0], 0)
        self.assertEqual(read(self.tree.path(RECORD)).splitlines()[:2], [f"program {digest(one)}" for one in programs])
        self.assertEqual(self.tree.call("bin/flowlabel-many", "a"), (3, "program a\n", ""))
        self.assertEqual(self.tree.call("make")[2], NOTHING_TO_DO)
        self.assertEqual(self.tree.call("make", "install", f"DESTDIR={os.getcwd()}/to", "PREFIX=/usr")[0], 0)
        self.assertEqual(digest("to/usr/bin/flowlabel-many"), digest(programs[1]))
        self.assertFalse(os.path.islink("to/usr/share/man/man1/flowlabel-many.1"))
        write(programs[1], "another")
        self.assertEqual(self.tree.call("dev/record", "proved")[0], 1)


class Trials(TreeCase):
    """What `make trial` makes of the sources."""

    def test_version(self):
        """The version of a trial says what it is, in a copy of the sources."""
        sources = ROOT / "crates/flowlabel/src/definition.rt"
        before = read(sources)
        os.mkdir("copy")
        sys.path.insert(0, str(ROOT / "dev"))
        import trial
        trial.copy(pathlib.Path("copy"))
        changed = set(read("copy/crates/flowlabel/src/definition.rt").splitlines()) - set(before.splitlines())
        self.assertRegex("".join(changed), r'^        concat!\(\$before, "\d+\.\d+\.\d+ \(trial: not proved\)"\)$')
        self.assertEqual(read(sources), before)

    def test_nothing_to_do(self):
        self.tree.put("out/trial/flowlabel", "")
        there = self.tree.path("out/trial/flowlabel")
        self.assertEqual(self.tree.call("make", "trial"),
                         (0, "", f"dev/trial.py: {there} is built, and no source is younger\n"))

    @unittest.skipIf(shutil.which("rt", path="/usr/bin:/bin"), "rt is in one of the system's own folders")
    def test_no_rt(self):
        self.tree.put("crates/flowlabel/src/definition.rt", read(ROOT / "crates/flowlabel/src/definition.rt"))
        path = f"{os.path.dirname(sys.executable)}:/usr/bin:/bin"
        status, output, messages = self.tree.call("dev/trial.py", PATH=path)
        self.assertEqual((status, output, messages.count("\n")), (1, "", 1))
        self.assertIn("rt is not found: install Rattle's toolchain", messages)


# A class of tests that hangs.
HANGING = """import subprocess
from support import Case

class Hanging(Case):
    def test_it(self):
        subprocess.run(["sleep", "3600"])
"""


class Limits(Case):
    """No script gives up on a slow machine, but a class of tests that hangs is ended."""

    def test_hanging(self):
        shutil.copytree(ROOT / "tests/support", "tests/support")
        shutil.copy(ROOT / "tests/run.py", "tests")
        write("tests/test_hanging.py", HANGING)
        status, output, said = outcome("tests/run.py", variables={"FLOWLABEL": "true", "LIMIT": "1"})
        self.assertEqual((status, output.splitlines()[-1], said), (1, b"0 passed, 1 failed, 0 skipped", b""))
        self.assertIn(b"\nfailed: hanging.Hanging.it\nthe class took more than 1 s\nCurrent thread ", output)

    def test_waits(self):
        """No wait of a script ends after less than ten minutes."""
        found, folders = [], ("bench", "bin", "dev", "lib", "tests")
        for folder, below, names in itertools.chain(*(os.walk(ROOT / top) for top in folders)):
            below[:] = set(below) - {"data", "out", "__pycache__"}
            for name in names:
                with open(os.path.join(folder, name), encoding="utf-8", errors="replace") as text:
                    found += [(name, limit) for limit in LIMIT.findall(text.read()) if int(limit) < 600]
        self.assertEqual(found, [])
