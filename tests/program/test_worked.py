"""Command lines with known results, over files that return one byte a read and an output that takes one byte a write,
and inputs that are cut short at each byte."""

import os

from program.worked import CHECK, HALF, LARGE, LAST, LAST_COMPACT, LAST_LIST, LINES, NESTED, ONE_FLOW, QUARTERS, \
    QUARTERS_CERT, QUARTERS_LIST, TWO_DOMAINS, line_of, lines_of, make
from program.worked_many import FRONTS as FRONTS_OF_MANY, LINES as LINES_OF_MANY
from support import Case, needs, read_bytes, rows, run, system

COUNTS = ("messages {};templates {};options-templates 0;withdrawals 0;data-sets {};skipped-sets {};records {};"
          "options-records 0;rows {};")
NO_MESSAGE, ONE_MESSAGE = COUNTS.format(0, 0, 0, 0, 0, 0), COUNTS.format(1, 1, 1, 0, 1, 1)
# A line, its files, the one that is cut short, and its fronts: the minimum length in bytes of the front for this end,
# up to that of the next one, and the text printed or the fault of the file.
FRONTS = (
    ("info flows", {"flows": ONE_FLOW}, "flows", (
        (0, NO_MESSAGE), (1, "F1 TruncatedHeader at 0"), (16, "F4 TruncatedMessage at 0"), (65, ONE_MESSAGE))),
    ("info flows", {"flows": TWO_DOMAINS}, "flows", (
        (0, NO_MESSAGE), (1, "F1 TruncatedHeader at 0"), (16, "F4 TruncatedMessage at 0"), (68, ONE_MESSAGE),
        (69, "F1 TruncatedHeader at 68"), (84, "F4 TruncatedMessage at 68"), (105, COUNTS.format(2, 1, 1, 1, 1, 1)))),
    ("label --pmap map.txt 10.1.1.1", {"map.txt": NESTED}, "map.txt", (
        (0, "UNKNOWN;"), (1, "M2 BadAddress at 1"), (8, "M6 MissingLabel at 1"), (9, "M3 BadLength at 1"),
        (10, "M6 MissingLabel at 1"), (12, "A;"), (14, "M2 BadAddress at 2"), (21, "M6 MissingLabel at 2"),
        (22, "M3 BadLength at 2"), (23, "M6 MissingLabel at 2"), (25, "B;"))),
    # The address has no label.
    ("label --list list.txt 128.0.0.1", {"list.txt": HALF}, "list.txt", (
        (0, ";"), (1, "M2 BadAddress at 1"), (7, "M6 MissingLabel at 1"), (8, "M3 BadLength at 1"),
        (9, "M6 MissingLabel at 1"), (11, ";"))),
    # Each line of a certificate may be missing or cut.
    (CHECK, {"map.txt": QUARTERS, "list.txt": QUARTERS_LIST, "cert.txt": QUARTERS_CERT}, "cert.txt", (
        (0, "C1 BadHeader at 1"), (24, "C2 BadLabelTable at 2"), (26, "C2 BadLabelTable at 3"),
        (28, "C2 BadLabelTable at 4"), (30, "C2 BadLabelTable at 5"), (38, "C5 NodesMissing at 6"),
        (39, "C3 BadNode at 6"), (44, "C5 NodesMissing at 7"), (45, "C3 BadNode at 7"), (52, "C5 NodesMissing at 8"),
        (53, "C3 BadNode at 8"), (56, "C5 NodesMissing at 9"), (57, "C3 BadNode at 9"), (60, "C5 NodesMissing at 10"),
        (61, "C3 BadNode at 10"), (68, "C5 NodesMissing at 11"), (69, "C3 BadNode at 11"),
        (72, "C5 NodesMissing at 12"), (73, "C3 BadNode at 12"), (76, "minimal 3;"))),
    (CHECK, {"map.txt": LAST, "list.txt": LAST_LIST, "cert.txt": LAST_COMPACT}, "cert.txt", (
        (0, "C1 BadHeader at 1"), (24, "C2 BadLabelTable at 2"), (26, "C2 BadLabelTable at 3"),
        (28, "C5 NodesMissing at 4"), (29, "C3 BadNode at 4"), (69, "C5 NodesMissing at 5"), (70, "C3 BadNode at 5"),
        (73, "minimal 2;"))),
)
# The length of the template set in ONE_FLOW, and the fault that it causes.
SET_LENGTHS = ((0, "F5 BadSetLength at 16"), (1, "F5 BadSetLength at 16"), (2, "F5 BadSetLength at 16"),
               (3, "F5 BadSetLength at 16"), (0x32, "F5 BadSetLength at 16"), (0x18, "F6 BadTemplate X1 at 20"),
               (0x31, "F6 BadTemplate X1 at 44"))


@needs("rt", in_ci=True)
class Checked(Case):
    """What is checked of a line and of cut files."""

    def check(self, line, folder):
        """Checks how a line ends over the files of a folder."""
        ended = run(*line.call, cwd=folder, env={"LD_PRELOAD": system(), "MOST": "1"})
        with self.subTest(line=line.words):
            self.assert_text(ended.stderr, line.err)
            self.assert_text(ended.stdout, line.out)
            self.assertEqual(ended.returncode, line.status, "the exit status")

    def check_fronts(self, words, files, cut, fronts):
        """Checks how a line ends over each front of one of its files."""
        program = line_of(files, words, 0, "").program
        folder = make(line_of(files, words, 0, ""))
        path = os.path.join(folder, cut)
        whole = read_bytes(path)
        for length in range(len(whole), -1, -1):
            os.truncate(path, length)
            text = [text for least, text in fronts if least <= length][-1]
            end = (0, text) if text.endswith(";") else (1, f"{program}: {cut}: {text}")
            with self.subTest(front=whole[:length]):
                self.check(line_of({}, words, *end), folder)


class Lines(Checked):
    """Each line ends as the row says, and so does the program over cut and changed files."""

    @rows(*((line.words, line) for line in lines_of(LINES + LARGE)))
    def test_line(self, _, line):
        self.check(line, make(line))

    @rows(*FRONTS)
    def test_front(self, words, files, cut, fronts):
        self.check_fronts(words, files, cut, fronts)

    @rows(*SET_LENGTHS)
    def test_set_length(self, length, fault):
        flows = ONE_FLOW.replace("0002001c", f"0002{length:04x}")
        self.assertNotEqual(flows, ONE_FLOW)
        line = line_of({"flows": flows}, "info flows", 1, f"flowlabel: flows: {fault}")
        self.check(line, make(line))


class LinesOfMany(Checked):
    """The lines of flowlabel-many, and those over a cut File."""

    @rows(*((line.words, line) for line in lines_of(LINES_OF_MANY)))
    def test_line(self, _, line):
        self.check(line, make(line))

    @rows(*FRONTS_OF_MANY)
    def test_front(self, words, files, cut, fronts):
        self.check_fronts(words, files, cut, fronts)
