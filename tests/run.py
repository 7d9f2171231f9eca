#!/usr/bin/env python3
"""Runs the tests: tests/run.py [NAME..], or make check [T=NAME]

Each module `test_*.py` below tests/ has unittest's classes. A class is run in a process of its own, JOBS of them at
a time (as many as there are processors), and all of them also after a failure. With NAMEs only the tests are run
whose names contain one of them, such as `report`, `report.Tables` or `by_minute`. The names are those of the lines
below. If no test has a NAME, a line says so and names the nearest, no test is run, and the status is 1.

The program is the one that FLOWLABEL names, or the younger of what `make` and `make trial` have built. If there is
none, one line says so, and the status is 125. Otherwise a line comes for each class, followed by the whole of what
failed. A class that takes more than LIMIT seconds (2,400) is ended with all that it has started, and has failed: what
it waited for is then printed. Last come each reason for which tests were skipped, with their number, what failed, and
'N passed, N failed, N skipped'. The status is 1 if a test failed or if none was run.
"""

import collections
import contextlib
import difflib
import faulthandler
import json
import os
import re
import signal
import sys
import tempfile
import time
import traceback
import unittest

TESTS = os.path.dirname(os.path.realpath(__file__))
sys.path.insert(0, TESTS)
# Signals that end a run, and all that it has started.
ENDS = (signal.SIGINT, signal.SIGTERM, signal.SIGHUP)
JOBS = int(os.environ.get("JOBS") or len(os.sched_getaffinity(0)))
LIMIT = int(os.environ.get("LIMIT") or 2400)
import support


class Result(unittest.TestResult):
    """Writes to a file what became of each test when it has ended: its name, `passed`, `failed` or `skipped`, and
    why."""

    def __init__(self, file):
        super().__init__()
        self.file, self.inner = file, {}

    def end(self, test, what, why=""):
        print(json.dumps((name_of(test), what, why)), file=self.file, flush=True)

    def addSubTest(self, test, subtest, error):
        if error:
            self.inner.setdefault(test, []).append(
                f"{subtest._subDescription()}\n{self._exc_info_to_string(error, test)}")

    def stopTest(self, test):
        super().stopTest(test)
        if test in self.inner:
            self.end(test, "failed", "\n".join(self.inner.pop(test)))

    def addSuccess(self, test):
        self.end(test, "passed")

    def addSkip(self, test, reason):
        self.end(test, "skipped", reason)

    def addFailure(self, test, error):
        self.inner.setdefault(test, []).append(self._exc_info_to_string(error, test))
        if not isinstance(test, unittest.TestCase):
            self.end(test, "failed", "\n".join(self.inner.pop(test)))

    addError = addFailure

    def addExpectedFailure(self, test, error):
        self.end(test, "failed", "a test is expected to fail")

    def addUnexpectedSuccess(self, test):
        self.end(test, "failed", "a test is expected to fail")


def name_of(test):
    """Returns the name of a test: its folder, its module without `test_`, its class and its method."""
    return re.sub(r"\btest_", "", test.id())


def class_name(case):
    """Returns the name of a class of tests, as `name_of` begins for its tests."""
    return re.sub(r"\btest_", "", f"{case.__module__}.{case.__qualname__}")


def classes(words):
    """Returns the tests that the words choose, as lists by their class."""
    loader, chosen = unittest.TestLoader(), collections.defaultdict(list)
    for folder, _, names in sorted(os.walk(TESTS)):
        for name in sorted(names):
            if re.fullmatch(r"test_\w+\.py", name):
                path = os.path.relpath(os.path.join(folder, name), TESTS)
                # A module that can't be imported is a test that fails.
                add_all(loader.loadTestsFromName(path[:-3].replace(os.sep, ".")), chosen)
    refuse_unknown(words, [name_of(test) for tests in chosen.values() for test in tests])
    return {case: kept for case, tests in chosen.items()
            if (kept := [test for test in tests if not words or any(is_part(word, name_of(test)) for word in words)])}


def is_part(word, name):
    """Returns whether a word of the command line chooses the test of this name."""
    return word.replace("test_", "") in name


def refuse_unknown(words, names):
    """Ends the run if no test has one of the words in its name, and says for each of them which name is nearest."""
    unknown = [word for word in words if not any(is_part(word, name) for name in names)]
    for word in unknown:
        length = word.count(".") + 1
        pieces = {".".join(parts[at:at + length]) for parts in (name.split(".") for name in names)
                  for at in range(len(parts) - length + 1)}
        nearest = difflib.get_close_matches(word.replace("test_", ""), sorted(pieces), 1, 0)
        print(f"tests/run.py: no test has the name {word!r}", *(f"the nearest is {name}" for name in nearest), sep="; ",
              file=sys.stderr)
    if unknown:
        sys.exit(1)


def add_all(suite, chosen):
    """Adds the tests of a suite to lists by their class."""
    for test in suite:
        if isinstance(test, unittest.TestSuite):
            add_all(test, chosen)
        else:
            chosen[type(test)].append(test)


def start(tests, report):
    """Starts a process that runs tests of one class, and returns its number. It writes what became of them, and what
    they printed, to a file."""
    sys.stdout.flush()
    process = os.fork()
    if process:
        return process
    status = 1
    try:
        for number in ENDS:
            signal.signal(number, signal.SIG_DFL)
        # A group of its own, so that a test which ends its group ends no other.
        os.setpgid(0, 0)
        output = os.open(f"{report}.output", os.O_WRONLY | os.O_CREAT)
        for stream in (1, 2):
            os.dup2(output, stream)
        os.dup2(os.open(os.devnull, os.O_RDONLY), 0)
        # The signal prints where the process is, and then ends it.
        signal.signal(signal.SIGALRM, signal.SIG_DFL)
        faulthandler.register(signal.SIGALRM, chain=True)
        signal.alarm(LIMIT)
        with open(report, "w", encoding="utf-8") as file:
            unittest.TestSuite(tests).run(Result(file))
        status = 0
    except BaseException:
        traceback.print_exc()
    finally:
        sys.stdout.flush()
        os._exit(status)


def why_ended(status):
    """Returns why the process of a class ended before its tests had."""
    if os.WIFSIGNALED(status) and os.WTERMSIG(status) == signal.SIGALRM:
        return f"the class took more than {LIMIT} s"
    return f"its process ended with {status}"


def kill_group(process):
    """Ends what is left of the group of a process."""
    with contextlib.suppress(ProcessLookupError):
        os.killpg(process, signal.SIGKILL)


def read_if_there(path):
    """Returns the text of a file, or an empty one."""
    if not os.path.exists(path):
        return ""
    with open(path, encoding="utf-8", errors="backslashreplace") as file:
        return file.read()


def is_marked(case, mark):
    """Returns whether a class, which may be unittest's own, has a mark of support.Case."""
    return getattr(case, f"is_{mark}", False)


class Runs:
    """The processes that run tests, and what became of the tests that have ended."""

    def __init__(self, folder):
        self.folder = folder
        self.running = {}
        self.ended = []

    def start(self, case, tests):
        report = os.path.join(self.folder, str(len(self.ended) + len(self.running)) + case.__name__)
        self.running[start(tests, report)] = (case, tests, report, time.monotonic())

    def wait(self):
        """Waits until one process ends, and prints its line."""
        process, status = os.wait()
        if process not in self.running:
            return
        case, tests, report, began = self.running.pop(process)
        kill_group(process)
        found = [tuple(json.loads(line)) for line in read_if_there(report).splitlines()]
        if status or not found:
            ended = {name for name, _, _ in found}
            left = next((test for test in tests if name_of(test) not in ended), tests[-1])
            found.append((name_of(left), "failed", why_ended(status)))
        self.ended += found
        count = collections.Counter(what for _, what, _ in found)
        name, seconds = class_name(case), time.monotonic() - began
        print(f"{'failed' if count['failed'] else 'ok    '} {name}: {shown(count)}, {seconds:.1f} s", flush=True)
        if count["failed"]:
            for name, what, why in found:
                if what == "failed":
                    print(f"failed: {name}\n{why}")
            print(read_if_there(f"{report}.output"), end="", flush=True)

    def may_start(self, case):
        """Returns whether tests of a class may start now."""
        return not self.running if is_marked(case, "alone") else len(self.running) < JOBS

    def stop(self):
        """Ends all processes."""
        for process in self.running:
            kill_group(process)


def shown(count):
    """Returns the numbers of tests that passed, failed and were skipped as a text."""
    return ", ".join(f"{count[what]} {what}" for what in ("passed", "failed", "skipped"))


def main():
    if sys.argv[1:] in (["-h"], ["--help"]):
        print(__doc__.strip())
        return
    if options := [word for word in sys.argv[1:] if word.startswith("-")]:
        print(f"tests/run.py: there is no option {options[0]}: see tests/run.py --help", file=sys.stderr)
        sys.exit(2)
    if not support.PROGRAM or not os.access(support.PROGRAM, os.X_OK):
        print(f"tests/run.py: {support.PROGRAM or 'the program'} isn't there: run `make`, or `make trial` for a build "
              "without proof in some minutes", file=sys.stderr)
        sys.exit(125)
    chosen = classes(sys.argv[1:])
    for number in ENDS:
        signal.signal(number, lambda number, _: sys.exit(128 + number))
    print(f"tests/run.py: {sum(map(len, chosen.values()))} tests over {support.PROGRAM}, {JOBS} classes at a time",
          flush=True)
    # Classes that take long begin first, then those with many tests. Those that run alone come last.
    waiting = sorted(chosen.items(), key=lambda item: (not is_marked(item[0], "alone"), is_marked(item[0], "long"),
                                                       len(item[1])))
    with tempfile.TemporaryDirectory(prefix="flowlabel-tests-") as folder:
        runs = Runs(folder)
        try:
            while waiting or runs.running:
                while waiting and runs.may_start(waiting[-1][0]):
                    runs.start(*waiting.pop())
                runs.wait()
        finally:
            runs.stop()
    report(runs.ended)


def report(ended):
    """Prints what was skipped and what failed, and ends with the status of the run."""
    reasons = collections.defaultdict(list)
    for name, what, why in ended:
        if what == "skipped":
            reasons[why].append(name)
    for why, names in sorted(reasons.items()):
        are_many = len(names) > 1
        print(f"skipped, {why}: {len(names)} test{'s' * are_many}, {names[0]}{' and others' * are_many}")
    for name, what, _ in ended:
        if what == "failed":
            print(f"failed: {name}")
    count = collections.Counter(what for _, what, _ in ended)
    print(shown(count))
    sys.exit(bool(count["failed"]) or not count["passed"])


if __name__ == "__main__":
    main()
