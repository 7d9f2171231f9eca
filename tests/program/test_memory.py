"""Each allocation of runs and calls that can run out of memory fails.

For each line and each call the first allocation fails, in another run the second, and so on up to a run in which no
allocation fails. Each result before the last one must be that memory ran out, reported in the call's own way and
without a position, and the last result must be that of the row. So the tests find a failed allocation that is
concealed by another one, and a call that always reports that memory ran out. A run under the maximum number of labels
makes over 60,000 allocations, so each of them fails in a copy of the process that continues from there.

The calls are those of tests/program/calls.py. A value that a call changes must be unchanged if an allocation failed,
and the same call, made once more, must succeed. The small program in tests/crates/memory makes them. It is built if it
is missing or old.

The lines are those of tests/program/worked.py and worked_many.py. The status must be 3, with nothing on standard output
and the line of the fault on standard error. If the line itself is invalid, the last allocations are for the line of its
fault. If one of them fails, no line is written, and the line's own status is kept. The text of clap for a line that it
refuses, and its help, may be printed although an allocation failed: its suggestions do without. For the lines of
LOOKED_THROUGH the fault may be reported although an allocation failed before it was found.

`rt try --fail-alloc N` fails an allocation too, but builds the program anew for each N. So tests/crates/memory/refuse.c
does it here.
"""

import os
import re
import shlex
import subprocess
import typing

from program.calls import CALLS
from program.worked import CLAPS, LARGE, LINES, lines_of, make, text_of
from program.worked_many import LINES as LINES_OF_MANY
from support import ROOT, Case, needs, preloaded, rows, run

REFUSED = b"refused\n"
# What a copy of a process writes to standard error, and then its status.
COPY = REFUSED + b"flowlabel: out of memory\nstatus 003\n"
# The number of runs that share the allocations of LARGE.
RUNS = 48
# Lines for which the fault is searched for after a failed allocation: in the list, or in the text of a line.
LOOKED_THROUGH = ("rows --protocol 6,256 flows", "cat --list list.txt")


class Answer(typing.NamedTuple):
    """How a run ended, and whether an allocation failed in it."""
    refused: bool
    status: int
    out: bytes
    err: bytes


def answer_of(words, folder, **failing):
    """Runs a program in which the allocations fail that these variables choose, and returns how it ended."""
    ended = run(*words, cwd=folder, env={"LD_PRELOAD": preloaded("crates/memory/refuse.c"), **failing})
    return Answer(REFUSED in ended.stderr, ended.returncode, ended.stdout, ended.stderr.replace(REFUSED, b"", 1))


def matches(found, wanted):
    """Returns whether these bytes are the expected ones, or match the pattern."""
    return wanted.fullmatch(found) is not None if isinstance(wanted, re.Pattern) else found == wanted


def is_answer_of(line, answer):
    """Returns whether a result of the program is that of the line."""
    return answer.status == line.status and matches(answer.out, line.out) and matches(answer.err, line.err)


def is_out_of_memory(line, answer):
    """Returns whether a result of the program, in which an allocation failed, is that memory ran out.

    It also is if the line of another fault could not be allocated, or if clap printed its own text nevertheless.
    """
    if answer.status == 3:
        return not answer.out and answer.err == f"{line.program}: out of memory\n".encode()
    looks_through = line.status != 0 and line.words in LOOKED_THROUGH
    if (looks_through or CLAPS in (line.out, line.err)) and is_answer_of(line, answer):
        return True
    return answer.status == line.status != 0 and not answer.out and not answer.err


@needs("rt", in_ci=True)
class Sweeps(Case):
    """Runs in which the first allocation fails, then the second, and so on up to one without a failure."""

    def sweep(self, words, folder, is_failure, is_answer, allocates=True, **marked):
        """Checks these runs of a program, and returns how they ended."""
        answers = [answer_of(words, folder, REFUSED="1", **marked)]
        while answers[-1].refused:
            answers.append(answer_of(words, folder, REFUSED=str(len(answers) + 1), **marked))
        wrong = {number: answer for number, answer in enumerate(answers[:-1], 1) if not is_failure(answer)}
        with self.subTest(words=shlex.join(words[1:])):
            self.assertEqual([*wrong.items()][:3], [],
                             f"{len(wrong)} of {len(answers) - 1} failed allocations aren't reported")
            self.assertTrue(is_answer(answers[-1]), f"no allocation failed: {str(answers[-1])[:2000]}")
            self.assertEqual(len(answers) > 1, allocates, f"{len(answers) - 1} allocations")
        return answers

    def sweep_line(self, line):
        """Checks a line of the program."""
        answers = self.sweep(line.call, make(line), lambda answer: is_out_of_memory(line, answer),
                             lambda answer: is_answer_of(line, answer))
        # The last allocations are for the line of the fault, as it grows. If one of them fails, no line is written.
        silent = [number for number, answer in enumerate(answers, 1) if not answer.out and not answer.err]
        most = len(answers[-1].err).bit_length() - 2 if line.status not in (0, 3) else 0
        self.assertEqual(silent, [*range(len(answers) - len(silent), len(answers))], "no line is written with these")
        self.assertTrue((most > 0) <= len(silent) <= most, f"no line is written with {silent} of {len(answers) - 1}")


def lines_where(condition):
    """Returns the rows of the tests of lines for which this holds."""
    return rows(*((line.words, line) for line in lines_of(LINES) if condition(line)))


class LinesOfMaps(Sweeps):
    """Command lines over map texts, list texts and certificates."""
    is_long = True

    @lines_where(lambda line: line.files and "flows" not in line.words)
    def test_line(self, _, line):
        self.sweep_line(line)


class OtherLines(Sweeps):
    """Command lines over Files, and those whose fault is in their words."""

    @lines_where(lambda line: not line.files or "flows" in line.words)
    def test_line(self, _, line):
        self.sweep_line(line)


class LinesOfMany(Sweeps):
    """Command lines of flowlabel-many."""

    @rows(*((line.words, line) for line in lines_of(LINES_OF_MANY)))
    def test_line(self, _, line):
        self.sweep_line(line)


@needs("rt", in_ci=True)
class LargeLine(Case):
    """The line under the maximum number of labels."""
    is_long = True

    @rows(*((number,) for number in range(RUNS)))
    def test_run(self, number):
        """Each RUNS-th allocation fails, in a copy of the process."""
        line, = lines_of(LARGE)
        answer = answer_of(line.call, make(line), EACH=f"{number}/{RUNS}")
        found, count = REFUSED + answer.err, answer.err.count(b"status ")
        at = len(os.path.commonprefix([found, COPY * count]))
        self.assertTrue(found == COPY * count, f"allocation {at // len(COPY) + 1} of {count}: {found[at:at + 120]}")
        self.assertTrue(is_answer_of(line, answer._replace(err=b"")), f"no allocation failed: {str(answer)[:2000]}")


class Calls(Sweeps):
    """Calls of the crates."""
    is_long = True

    @classmethod
    def prepare(cls):
        # It is built if it is missing or old.
        cls.program = subprocess.run([ROOT / "tests/crates/memory/build"], stdin=subprocess.DEVNULL,
                                     stdout=subprocess.PIPE, text=True, check=True).stdout.strip()

    @rows(*((call.name, call) for call in CALLS))
    def test_call(self, _, call):
        again = "" if call.before is None else call.before + call.answer
        refused = Answer(True, 0, text_of(f"call;answer;{call.failed}{again}"), b"")
        answered = Answer(False, 0, text_of(f"call;answer;{call.answer}"), b"")
        words = [self.program, call.name, *(text.replace(";", "\n") for text in call.inputs)]
        self.sweep(words, None, refused.__eq__, answered.__eq__, call.allocates, MARKED="1")
