#!/usr/bin/env python3
"""Compares what the help, the pages and the completions say with each other and with what the program does.

- Help: its texts are those of tests/pages/help.txt, byte for byte. After a change has been read,
  `tests/pages/test_pages.py --write` writes that file anew. The values that the help and the manual give as examples
  ('such as 5, 5- or 5-9') are accepted by the program, and so is each example, which prints something.
- Numbers: each phrase of LIMITS has the number of the definitions on all pages. Each number of four or more digits in
  FORMATS.md and the manual is one of the definitions, or is listed in OTHER_NUMBERS.
- Statuses: the lists of FORMATS.md and of the manual have those that the program ends with, each with its meaning.
- Faults: each code on a page has the name that the program prints with it. FORMATS.md and the manual have all codes.
- Fields: the fields, columns and lines of `info` on pages and in completions are those of the program.
- Options: each option and command of the help is in the manual and in the completions of bash, zsh and fish, with the
  words of the help, and they have no other.
- Completions: files complete each option and argument that is a file. bash is asked, and fish if it is installed.
- All of this holds for flowlabel-many too. If it isn't built, a test that needs it is skipped.
- Links: each link of a page leads to a file and a heading, and each path that a page names is there. Lines are not too
  wide.
"""

import functools
import os
import re
import resource
import sys
import unittest
from pathlib import Path

sys.path.insert(0, str(Path(__file__).resolve().parents[1]))
from support import BY_NAME, ROOT, Case, needs, program_of, rows, run, write
import support

HELP = ROOT / "tests/pages/help.txt"
# The commands of each program, and all of them: no two programs have one of the same name.
COMMANDS_OF = {"flowlabel": ("label", "info", "rows", "uniq", "cat", "shrink", "check", "recert"),
               "flowlabel-many": ("sum", "messages")}
COMMANDS = tuple(command for commands in COMMANDS_OF.values() for command in commands)
# What help is asked of: a program, named alone, or a command.
HELPED = (*COMMANDS_OF, *COMMANDS)
PAGES = ("README.md", "examples/README.md", "docs/BILL.md", "docs/FORMATS.md", "docs/GUIDE.md", "docs/TABLES.md",
         "docs/DECISIONS.md", "docs/DEFINITIONS.md", "docs/ARCHITECTURE.md", "man/flowlabel.1", "man/flowlabel-many.1",
         "man/flowlabel-formats.5", "man/flowlabel-scripts.1")
REFERENCE = ("docs/FORMATS.md", "man/flowlabel.1", "man/flowlabel-many.1", "man/flowlabel-formats.5")
FILES = {"customers.txt": "examples/customers.txt", "flows.ipfix": "examples/softflowd-milli.ipfix",
         "map.txt": "examples/customers.txt", "month/1.ipfix": "examples/softflowd-milli.ipfix",
         "month/2.ipfix": "examples/softflowd-milli.ipfix"}
BASH, ZSH, FISH = (f"completions/{name}" for name in ("flowlabel.bash", "_flowlabel", "flowlabel.fish"))
# A limit: how the pages say it, and where the definitions have it.
LIMITS = (
    ("mappings", r"(?:at most|than) (\d[\d,]*) mappings", "pmap_text/specs/Reading.antt", r"^mapping_limit = (\d+)$"),
    ("labels", r"(?:at most|than) (?:1,000,000 mappings (?:and|or entries, or more than) )?(\d[\d,]*) (?:different )?"
     r"labels\b", "pmap_text/specs/Reading.antt", r"^label_limit = (\d+)$"),
    ("bytes of a label", r"[Ii]t has 1 to (\d+) bytes", "pmap_model/specs/Label.antt", r"nat_le \(length text\) (\d+)"),
    ("digits of a label's number", r"has 1 to (\d+) digits and is at most", "pmap_text/specs/Declarations.antt",
     r"= decimal_number (\d+) 2147483647"),
    ("greatest number of a label", r"(?:is\s+at\s+most|is\s+above)\s+(\d{9,})", "pmap_text/specs/Declarations.antt",
     r"= decimal_number 10 (\d+)"),
    ("messages", r"(?:more than (\d[\d,]*) messages|\| (\d[\d,]*) messages precede)", "ipfix_read/specs/Message.antt",
     r"nat_lt count (\d+)\) then Some TooManyMessages"),
    ("cost of a node", r"cost of at most (\d+)", "flow_files/specs/Reports.antt", r"length placed < (\d+)"),
    ("protocol", r"at most (\d+) for the protocol", "flow_rows/specs/Numbers.antt",
     r"^about Protocol = \(codes \"proto\", \((\d+),"),
    ("port", r"and (\d[\d,]*) for a port", "flow_rows/specs/Numbers.antt",
     r"^about SourcePort = \(codes \"sport\", \((\d+),"),
)
# Numbers of four or more digits that no definition has.
OTHER_NUMBERS = {
    "1970": "the year from which times count", "10000": "an example of a count", "1500": "an example of a count",
    "1000000": "an example of a limit in kB", "1024": "the bytes of a kB", "2001": "a group of an address",
    "1000": "an example of a number", "9999": "the last year that has four digits", "2023": "the year of an example",
    "29305": "the enterprise number of RFC 5103, a constant of the code",
}
STANDARDS = re.compile(r"(?:RFC|ISO) \d+|https?://\S+|[A-Z][a-z]+ \d+, \d{4}")
# A line that ends with each status, and words of its meaning, which each list of statuses has.
STATUSES = (
    (0, ("cat", "--pmap", "map.txt"), r"succe"),
    (1, ("cat", "--pmap", "faulty.txt"), r"(?i)a file has (?:a fault|faulty bytes)"),
    (2, ("cat",), r"(?i)the command line has a fault"),
    (3, ("cat", "--pmap", "/dev/zero"), r"(?i)out of memory"),
    (4, ("cat", "--pmap", "missing"), r"(?i)a file can't be opened"),
)
# Codes that no page has, since the program prints them in no message of a file.
UNPRINTED = {"M15", "C7", "K7", "F8", "F10", "F11", "L4", "U3"}
# All pages: a text with links, and a manual page.
LINKED = sorted(str(path.relative_to(ROOT)) for path in (*ROOT.glob("*.md"), *ROOT.glob("*/*.md"))
                if path.parent.name != "out")
MANUALS = sorted(str(path.relative_to(ROOT)) for path in ROOT.glob("man/*.[1-8]"))
WIDTH = 120
# What the help and the version of a build of `make trial` have besides.
TRIAL = " (trial: not proved)"
# The folders of paths that pages name, and what the benches make there.
FOLDERS = "bench|bin|completions|crates|dev|docs|lib|man|tests"
NOT_IN_GIT = {"bench/data", "bench/out"}


@functools.cache
def read(name):
    """Returns the text of a file of the repository."""
    return support.read(ROOT / name)


def flowlabel(*words, **options):
    """Runs a program in the folder of the files. Only flowlabel-many is named, as the first word."""
    program, words = program_of(words)
    if not BY_NAME[program] and os.environ.get("CI", "local") == "local":
        raise unittest.SkipTest(f"there is no {program} that is built")
    return run(BY_NAME[program], *words, **options)


@functools.cache
def printed(*words):
    """Returns what a program prints, without the mark of a trial."""
    return flowlabel(*words).stdout.decode().replace(TRIAL, "", 1)


def words_of(name):
    """Returns the words of a line for one of HELPED: those of flowlabel don't name it."""
    program = next(program for program, commands in COMMANDS_OF.items() if name == program or name in commands)
    return ("flowlabel-many",) * (program == "flowlabel-many") + (name,) * (name != program)


def help_of(name="flowlabel"):
    """Returns the help of a program or a command, as a proved program prints it."""
    return printed(*words_of(name), "--help")


def help_texts(*programs):
    """Returns all help texts of these programs, each with its line."""
    lines = [(*words_of(name), option) for program in programs
             for name, option in ((program, "--help"), *((command, "--help") for command in COMMANDS_OF[program]),
                                  (program, "--version"))]
    return {f"$ {shown(words)}": printed(*words) for words in lines}


def shown(words):
    """Returns a command line with the name of its program."""
    program, words = program_of(words)
    return " ".join((program, *words))


def options_of(text):
    """Returns the options of a help text, each with what the help says."""
    found = re.findall(r"(?m)^ +(?:-\w, )?--([a-z-]+)(?: <[A-Z]+>)? +(\S.*(?:\n {10,}\S.*)*)", text)
    return {option: " ".join(said.split()) for option, said in found}


def codes_of_program():
    """Returns the name of each code of a fault, as the program prints it."""
    names = [path for name in ("fault", "bytes_fault") for path in ROOT.glob(f"crates/flow*/src/{name}.rt")]
    sources = "".join(map(support.read, names))
    return dict(re.findall(r"\b([MFCKPLUS]\d+) ([A-Z]\w+)", "\n".join(re.findall(r'"[^"]*"', sources))))


def plain(number):
    """Returns the digits of a number."""
    digits = number.replace(",", "").replace("_", "")
    return str(int(digits, 16 if digits.startswith("0x") else 10))


class Beside(Case):
    """Tests that run the program over small files."""

    @classmethod
    def prepare(cls):
        for name, source in FILES.items():
            write(name, (ROOT / source).read_bytes())
        for name, program in BY_NAME.items():
            os.symlink(program or "missing", name)
        write("faulty.txt", "10.0.0.0/33 A\n")
        write("cert.txt", flowlabel("shrink", "--certificate", "--pmap", "map.txt").stdout)
        write("list.txt", flowlabel("shrink", "--pmap", "map.txt").stdout)


class Help(Beside):
    """The help texts, and the values and examples of help and manual."""

    @rows(*((name,) for name in HELPED))
    def test_text(self, name):
        line = f"$ {shown((*words_of(name), '--help'))}"
        stored = re.search(rf"(?ms)^{re.escape(line)}\n(.*?)\n(?=\$ |\Z)", read("tests/pages/help.txt"))
        self.assertEqual(stored and stored[1], help_of(name),
                         "another than in tests/pages/help.txt: read it, then run tests/pages/test_pages.py --write")

    def test_there_is_no_other_text(self):
        texts = help_texts(*COMMANDS_OF).items()
        self.assertEqual(read("tests/pages/help.txt"), "".join(f"{line}\n{text}\n" for line, text in texts))

    def assert_accepted(self, found):
        """Checks that the program takes each of these values of an option."""
        self.assertGreater(len(found), 5)
        for option, value in found:
            with self.subTest(f"--{option} {value}"):
                words = ("uniq", "--fields", value) if option == "fields" else ("rows", f"--{option}", value)
                words = ("flowlabel-many", "sum", "--by", value) if option == "by" else words
                self.assertEqual((flowlabel(*words, "flows.ipfix").returncode), 0)

    @rows(("flowlabel", "rows", "uniq"), ("flowlabel-many", "sum"))
    def test_values_of_help(self, _, *commands):
        self.assert_accepted([(option, value) for command in commands
                              for option, said in options_of(help_of(command)).items()
                              for values in re.findall(r"such as ([^:\n]*)|: (\d\S*)$", said)
                              for value in re.split(r", (?=\S)| or ", values[0] or values[1])])

    @rows(*((program,) for program in COMMANDS_OF))
    def test_values_of_manual(self, program):
        manual = read(f"man/{program}.1").split(".Ss Filters")[1].split(".Sh ENVIRONMENT")[0]
        options = re.findall(r"(?m)^\.It Fl -([a-z-]+) .*\n((?:(?!\.It|\.El).*\n)*)", manual)
        self.assert_accepted([(option, value) for option, said in options
                              for value in re.findall(r"(?m)^\.Ql (\S+)", said)])

    def test_values_of_codes(self):
        codes = read("man/flowlabel.1").split("It L1 BadNumberList")[1].split(".It \"flowlabel: out of memory")[0]
        self.assert_accepted([(option, value) for part in re.split(r"(?m)^\.It ", codes) if "\n" in part
                              for option in re.findall(r"(?<=-)([a-z]+)\b(?= [,:])", part.split("\n")[1])
                              for value in re.findall(r"(?m)^\.Ql (\S+)", part) if value != "10k"])

    @rows(*((name,) for name in HELPED))
    def test_example(self, name):
        found = re.findall(r"(?m)^  (flowlabel(?:-many)? .*)$", help_of(name).split("\nExample, ")[1])
        self.assertEqual(len(found), 1)
        ended = run("bash", "-c", found[0], env={**os.environ, "PATH": f"{os.getcwd()}:{os.environ['PATH']}"})
        self.assertEqual((ended.returncode, ended.stderr), (0, b""))
        written = [Path(name).read_bytes() for name in re.findall(r">(\S+)", found[0])]
        self.assertIn(b"\n", b"".join((ended.stdout, *written)))

    @rows(("rows", r"the flows from the customer (\w+) to port (\d+):\n  (.*)", "--src-label {} --dport {} "),
          ("uniq", r"the sums by the customer that receives:\n  ((.*))", "--fields dst-label "),
          ("sum", r"the sums by day and customer:\n  ((.*))", "--by day --fields dst-label "),
          ("manual", r"The flows from the customer (\w+) to port (\d+)[^$]*\$(.*(?:\\e\n.*)*)",
           "--src-label {} --dport {} "))
    def test_example_does_what_its_text_says(self, command, said, options):
        found = re.search(said, read("man/flowlabel.1") if command == "manual" else help_of(command))
        self.assertIn(options.format(found[1], found[2]), found[found.re.groups])


class Numbers(Case):
    """Limits and other numbers on pages are those of the definitions."""

    @rows(*LIMITS)
    def test_limit(self, _, said, file, form):
        text = "".join(map(support.read, ROOT.glob(f"crates/{file}")))
        number = plain(re.search(form, text, re.M)[1])
        found = [(page, next(filter(None, each.groups()))) for page in PAGES for each in re.finditer(said, read(page))]
        self.assertTrue(any(page in REFERENCE for page, _ in found), "no page has this limit")
        self.assertEqual([(page, each) for page, each in found if plain(each) != number], [],
                         f"and the definitions have {number}")

    @rows(*((page,) for page in REFERENCE))
    def test_numbers(self, page):
        known = set(OTHER_NUMBERS)
        for path in ROOT.glob("crates/*/specs/**/*"):
            if path.is_file() and path.parts[-3] != "definition_examples":
                text = re.sub(r'"[^"]*"', "", path.read_text(encoding="utf-8"))
                known |= {plain(number) for number in re.findall(r"\b(?:0x[0-9a-f_]+|\d[\d_]*)\b", text)}
        text = STANDARDS.sub("", re.sub(r"(?ms)^```.*?^```|^ {4}.*?$|`[^`]*`|\.Dd .*?$|\.\\\".*?$", "", read(page)))
        found = re.findall(r"(?<![\w.:/-])(\d{4,}|\d{1,3}(?:,\d{3})+)(?![\w.:/-]*[\w:/])", text)
        self.assertTrue(found)
        self.assertEqual([number for number in found if not {plain(number), str(int(plain(number)) - 1)} & known], [])


class Statuses(Beside):
    """The lists of statuses have those of the program, with their meanings."""

    @classmethod
    def lists(cls):
        """Returns the lists of FORMATS.md and of the manual: the text of each status."""
        table = read("docs/FORMATS.md").split("## Statuses and fault lines")[1]
        section = read("man/flowlabel.1").split(".Sh EXIT STATUS")[1].split(".El")[0]
        return ({int(number): row for number, row in reversed(re.findall(r"(?m)^\| (\d+) \| (.*)$", table))},
                {int(number): text for number, text in re.findall(r"(?m)^\.It (\d+)\n((?:[^.].*\n)+)", section)})

    def test_lists(self):
        self.assertEqual([sorted(found) for found in self.lists()], [[status for status, _, _ in STATUSES]] * 2)

    @rows(*STATUSES)
    def test_status(self, status, words, meaning):
        ended = flowlabel(*words, preexec_fn=lambda: resource.setrlimit(resource.RLIMIT_AS, (400_000_000, 400_000_000)))
        self.assertEqual(ended.returncode, status, ended)
        self.assertEqual([[other for other, text in found.items() if re.search(meaning, text.split("|")[0])]
                          for found in self.lists()], [[status]] * 2, "which statuses have this meaning")


class Faults(Case):
    """Codes and names of faults on pages are the program's."""

    @rows(*((page,) for page in PAGES))
    def test_names(self, page):
        text = re.sub(r"\n\.Ql |[`|]", " ", read(page))
        found = re.findall(r"\b([MFCKPLUS]\d{1,2})\s+([A-Z][a-z]+[A-Z]\w*|NotAList)\b", text)
        self.assertEqual(found, [(code, codes_of_program().get(code)) for code, _ in found])

    @rows(("docs/FORMATS.md",), ("man/flowlabel.1", "man/flowlabel-many.1", "man/flowlabel-formats.5"))
    def test_all(self, *pages):
        text, codes = re.sub(r"\n\.Ql |[`|]", " ", "".join(map(read, pages))), codes_of_program()
        self.assertGreater(len(codes), 45)
        missing = {code for code, name in codes.items() if not re.search(rf"\b{code}\s+{name}\b", text)}
        self.assertLessEqual(missing, UNPRINTED)


class Fields(Beside):
    """Fields, columns and the lines of `info` on pages and in completions are the program's."""

    @classmethod
    def fields(cls, command="uniq"):
        """Returns the fields of a command in the order of its help."""
        text = " ".join(help_of(command).split())
        return re.search(r"sum by, such as [^:]*: ((?:[a-z-]+, )*[a-z-]+)", text)[1].split(", ")

    def test_each_is_taken(self):
        self.assertGreater(len(self.fields()), 7)
        for field in self.fields():
            with self.subTest(field):
                self.assertEqual(flowlabel("uniq", "--fields", field, "--pmap", "map.txt", "flows.ipfix").returncode, 0)

    @rows(("docs/FORMATS.md", r"(?s)NAMES are some of(.*?)separated by", r"`([a-z-]+)`"),
          ("man/flowlabel.1", r"(?s)\.It Fl -fields Ar names\n(.*?)\.It ", r"(?m)^\.Cm ([a-z-]+)"),
          ("man/flowlabel-many.1", r"(?s)\.It Fl -fields Ar names\n(.*?)\.It ", r"(?m)^\.Cm ([a-z-]+)", "sum"),
          (BASH, r"for field in (.*) \$more; do", r"\S+"), (ZSH, r"-s , field (.*) \$more", r"\S+"),
          (FISH, r"for field in (.*) \$argv", r"\S+"))
    def test_list(self, name, part, field, command="uniq"):
        self.assertEqual(re.findall(field, re.search(part, read(name))[1]), self.fields(command))

    @rows((BASH, r"-many \]\] \|\| more='(.*)'"), (ZSH, r"-many \]\] \|\| more=\((.*)\)"),
          (FISH, r"\(__flowlabel_fields ([^)]+)\)"))
    def test_more_of_many(self, name, part):
        self.assertEqual(re.search(part, read(name))[1].split(),
                         [field for field in self.fields("sum") if field not in self.fields()])

    @rows(*((page,) for page in PAGES))
    def test_page(self, page):
        names = re.findall(r"uniq [^\n`]*-?-fields ([a-z,-]+)", read(page))
        self.assertEqual([each for each in names if not set(each.split(",")) <= set(self.fields())], [])
        header = flowlabel("rows", "--pmap", "map.txt", "flows.ipfix").stdout.decode().split("\n")[0]
        for columns in re.findall(r"\bsip\|dip\|sport[a-z|-]*", read(page)):
            self.assertEqual(f"{columns}|", f"{header}|"[:len(columns) + 1], "the columns of rows")

    def test_lines_of_info(self):
        section = read("docs/FORMATS.md").split("- `info`: nine lines")[1].split("\n\n")[0]
        self.assertEqual(re.findall(r"(?m)^  - `([a-z-]+)`", section),
                         [line.split()[0] for line in flowlabel("info", "flows.ipfix").stdout.decode().splitlines()])


def options_of_manual(program):
    """Returns the options of each command in the synopsis of a program's manual."""
    others = {"pmap", "list", "columns", "help", "by", "fields", "allow-skipped"}
    commands, filters = {}, set(options_of(help_of("rows" if program == "flowlabel" else "sum"))) - others
    for part in read(f"man/{program}.1").split(".Sh SYNOPSIS")[1].split(".Sh")[0].split(".Nm\n")[1:]:
        if found := re.match(r"\.Cm ([a-z]+)", part):
            options = set(re.findall(r"Fl -([a-z-]+)", part)) | {"help"}
            commands[found[1]] = options | (filters if "Ar filter" in part else set())
    return commands


def options_of_bash(program):
    """Returns the options of each command of a program that bash completes."""
    text, commands = read(BASH), {}
    lists = {name: set(re.findall(r"--([a-z-]+)", "".join(re.findall(rf"{name}\+?='(.*)'", text))))
             for name in ("filters", "numbers")}
    for names, words in re.findall(r"(?m)^    ([a-z| ]+)\) echo (.*) ;;", text):
        options = set(re.findall(r"--([a-z-]+)", words)).union(*(lists[name] for name in re.findall(r"\$(\w+)", words)))
        commands.update({name: options for name in names.split(" | ") if name in COMMANDS_OF[program]})
    return commands


def options_of_zsh(program):
    """Returns the options of each command of a program that zsh completes."""
    lists = {name: set(re.findall(r"--([a-z-]+)", re.sub(r"\[[^]]*\]|\(-[^)]*\)", "", body)))
             for name, body in re.findall(r"(?m)^    (\w+)=\(\n((?:        .*\n)*)    \)", read(ZSH))}
    commands = {}
    for name, body in re.findall(r"(?ms)^        ([a-z]+)\)(.*?);;", read(ZSH)):
        options = set(re.findall(r"'--([a-z-]+)", body)) | ({"help"} if '"$help[@]"' in body else set())
        commands[name] = options.union(*(lists.get(found, set()) for found in re.findall(r'"\$(\w+)\[@\]"', body)))
    return {name: options for name, options in commands.items() if name in COMMANDS_OF[program]}


def fish_of(program):
    """Returns what completes a program in fish."""
    return "".join(re.findall(rf"(?m)^complete -c {program} (?:.*\\\n)*.*\n", read(FISH)))


def options_of_fish(program):
    """Returns the options of each command of a program that fish completes."""
    text = fish_of(program)
    general = set(re.findall(r"(?m)^complete -c [a-z-]+ -s \w -l ([a-z-]+)", text))
    commands = {name: set(general) for name in re.findall(r"-a ([a-z]+) -d", text)}
    for names, option in re.findall(r'-n "\$of ([a-z ]+)" -l ([a-z-]+)', text):
        for name in names.split():
            commands.setdefault(name, set()).add(option)
    return commands


class Options(Case):
    """The manual and the completions have the commands and options of the help, with its words, and no others."""

    @rows(*((name, source, program) for program in COMMANDS_OF for name, source in (
        ("manual", options_of_manual), ("bash", options_of_bash), ("zsh", options_of_zsh), ("fish", options_of_fish))))
    def test_of_commands(self, _, source, program):
        self.assertEqual(source(program),
                         {command: set(options_of(help_of(command))) for command in COMMANDS_OF[program]})

    @rows(*((name, begins, command, program) for program, other in (("flowlabel", "label"), ("flowlabel-many", "sum"))
            for name, begins, command in (
                ("help", r"\A", r"(?m)^  ([a-z]+)  +[A-Z]"), (f"man/{program}.1", r"\A", r"(?m)^\.It Cm ([a-z]+)$"),
                (ZSH, rf"commands=\((?=\s+'{other}:((?:[^)])*)\n    \))", r"(?m)(?:^        ['\"]|\A)([a-z]+):"),
                (FISH, rf"set -l commands (?=({other}.*))", r"\b[a-z]+\b"),
                (BASH, rf"compgen -W '(?=({other}[^']*))", r"(?<!-)\b[a-z]+\b"))))
    def test_commands(self, name, begins, command, program):
        text = help_of(program) if name == "help" else read(name)
        text = (found := re.search(begins, text)) and (found[1] if found.re.groups else text)
        found = re.findall(command, text)
        self.assertEqual(sorted({*found, COMMANDS_OF[program][0]} if name == ZSH else found),
                         sorted(COMMANDS_OF[program]))

    @rows(*((program,) for program in COMMANDS_OF))
    def test_explained_in_manual(self, program):
        lines = re.findall(r"(?m)^\.It Fl .*", read(f"man/{program}.1"))
        self.assertEqual(set(re.findall(r"Fl -([a-z-]+)", "\n".join(lines))),
                         {"version"}.union(*(options_of(help_of(command)) for command in COMMANDS_OF[program])))

    @rows(*((command, program) for program, commands in COMMANDS_OF.items() for command in commands))
    def test_words_of_manual(self, command, program):
        """The text of each option in the help begins its text in the manual."""
        manual = dict(re.findall(r"(?m)^\.It Fl -([a-z-]+).*\n((?:[^.].*\n)+)", read(f"man/{program}.1")))
        for option, said in options_of(help_of(command)).items():
            with self.subTest(option):
                said = re.split(", such as|:", said)[0]
                self.assertTrue(option == "help" or re.match(f"{said}[.,:]", " ".join(manual[option].split())))

    @rows(*((program, commands[0]) for program, commands in COMMANDS_OF.items()))
    def test_of_the_program(self, program, first):
        self.assertEqual(set(options_of(help_of(program))), {"help", "version"})
        offered = re.search(rf"compgen -W '({first} [^']*)'", read(BASH))[1].split()
        self.assertEqual({word for word in offered if word.startswith("-")}, {"--help", "--version"})

    @rows((ZSH, r"(?m)(--[a-z-]+)(?:\}')?\[([^]]*)\]|^ +['\"]([a-z]+):(.*)['\"]$"),
          (FISH, r"""(?m)-l ([a-z-]+) .*?-d ['"](.*?)['"](?=$| \\| -a)|-a ([a-z]+) -d ['"](.*?)['"]$"""))
    def test_words(self, name, described):
        wanted = {command: {said} for program in COMMANDS_OF
                  for command, said in re.findall(r"(?m)^  ([a-z]+)  +([A-Z].*)", help_of(program))}
        for command in COMMANDS:
            for option, said in options_of(help_of(command)).items():
                wanted.setdefault(f"--{option}", set()).add(re.split(r", such as|:", said)[0])
        wanted["--version"] = {"Print the version"}
        found = {}
        for option, said, command, about in re.findall(described, read(name)):
            said = re.split(r", such as", said or about)[0]
            found.setdefault(f"--{option.lstrip('-')}" if option else command, set()).add(said[:1].upper() + said[1:])
        self.assertEqual(found, wanted)

    def test_filters_of_formats(self):
        table = read("docs/FORMATS.md").split("## Filters")[1].split("\n\n")[2]
        listed = set(re.findall(r"--([a-z][a-z-]+)", re.sub(r"(?m)^\|([^|]*)\|.*$", r"\1", table)))
        self.assertEqual(listed, set(options_of(help_of("rows"))) - {"pmap", "list", "columns", "help"})


class Completions(Beside):
    """The names of files complete each option and argument that is a file."""

    @staticmethod
    def lines(command):
        """Returns the words of each line that a file completes, and the options before it."""
        options = sorted(set(re.findall(r"--([a-z]+) <?FILE", help_of(command))))
        lines = [(command, f"--{option}", "custom") for option in options]
        takes_file = re.search(r"(?m)^ +<?FILE>?(?:\.\.\.)?", help_of(command))
        return lines + ([(command, "custom")] if takes_file else []), options

    @staticmethod
    def program(command):
        """Returns the name of the program of a command."""
        return program_of(words_of(command))[0]

    @rows(*((command,) for command in COMMANDS))
    def test_bash(self, command):
        script = ('. "$0"; COMP_WORDS=("$@"); COMP_CWORD=$(($# - 1)); _flowlabel; printf "%s\\n" "${COMPREPLY[@]}"; '
                  'complete -p "$1"')
        self.assertTrue(self.lines(command)[0])
        for words in self.lines(command)[0]:
            with self.subTest(words):
                ended = run("bash", "-c", script, ROOT / BASH, self.program(command), *words)
                offered = ended.stdout.decode().split("\n")
                self.assertIn("customers.txt", offered)
                self.assertIn("-o filenames", offered[-2])

    @rows(*((command,) for command in COMMANDS))
    @needs("fish")
    def test_fish(self, command):
        for words in self.lines(command)[0]:
            with self.subTest(words):
                line = " ".join((self.program(command), *words))
                asked = run("fish", "-c", f'source "{ROOT / FISH}"; complete -C "{line}"').stdout
                self.assertIn(b"customers.txt", asked)

    @rows(("--fields sip,", ["sip,dip", "sip,proto"], "sip,sip"),
          ("--fields=sip,dip,", ["--fields=sip,dip,proto"], "dip,dip"), ("--fields s", ["sip", "sport", "src-label"], ","))
    @needs("fish")
    def test_fields_in_fish(self, words, wanted, other):
        script = f'source "{ROOT / FISH}"; complete -C "flowlabel uniq {words}"'
        asked = run("fish", "-c", script).stdout.decode()
        self.assertLessEqual({*wanted}, {line.split("\t")[0] for line in asked.splitlines()})
        self.assertNotIn(other, asked)

    @rows(*((command,) for command in COMMANDS))
    def test_options(self, command):
        for option in self.lines(command)[1]:
            with self.subTest(option):
                in_zsh = re.findall(rf"'(?:\([^)]*\))?--{option}\[[^]]*\]:[a-z ]+:([^']*)'", read(ZSH))
                self.assertEqual(set(in_zsh), {"_files"})
                in_fish = re.findall(rf"(?m)^complete .* -l {option} (.*)$", fish_of(self.program(command)))
                self.assertTrue(in_fish)
                self.assertEqual([line for line in in_fish if " -F " not in f" {line}"], [])

    @rows(("info", "1"), ("rows", "1"), ("uniq", "1"), ("sum", "*"), ("messages", "*"))
    def test_zsh(self, command, which):
        part = re.search(rf"(?ms)^        {command}\).*?(?=^        [a-z]+\)|^        esac)", read(ZSH))[0]
        self.assertIn(f"'{which}:IPFIX File:_files'", part)

    def test_fish_completes_files(self):
        self.assertNotRegex(read(FISH), r"(?m)^complete -c flowlabel(?:-many)? (?!-n \"not).*-f\b")


def prose(text):
    """Yields the lines of a page, each with its number. Lines of code blocks are empty."""
    fenced, blank, indented = False, True, False
    for number, line in enumerate(text.split("\n"), 1):
        if line.lstrip().startswith("```"):
            fenced, line = not fenced, ""
        indented = line.startswith("    ") and (blank or indented)
        blank = not line.strip()
        yield number, "" if fenced or indented else line


def headings(path):
    """Returns the headings of a page, as links name them."""
    titles = (line.lstrip("#").strip().lower() for _, line in prose(support.read(path)) if line.startswith("#"))
    return {re.sub(r"[^\w -]", "", title).replace(" ", "-") for title in titles}


class Links(Case):
    """Each link leads to a file and a heading, each path that a page names is there, and lines are not too wide."""

    @rows(*((page,) for page in LINKED))
    def test_links(self, page):
        path, broken = ROOT / page, []
        for number, line in prose(read(page)):
            for link in re.findall(r"\]\(([^()\s:]+)\)", line):
                name, _, heading = link.partition("#")
                target = path.parent / name if name else path
                if not target.exists() or heading and heading not in headings(target):
                    broken.append(f"{page}:{number}: there is no {link}")
        self.assertEqual(broken, [])

    @rows(*((page,) for page in (*LINKED, *MANUALS)))
    def test_paths(self, page):
        found = set(re.findall(rf"(?<![\w/.-])((?:{FOLDERS})/[\w./*-]*\w)", read(page))) - NOT_IN_GIT
        self.assertEqual([name for name in sorted(found) if not list(ROOT.glob(name))], [])

    @rows(*((page,) for page in LINKED))
    def test_width(self, page):
        lines = [f"{page}:{number}: {len(line)} columns" for number, line in prose(read(page))
                 if len(line) > WIDTH and not line.lstrip().startswith("|")]
        self.assertEqual(lines, [])

    @rows(*((page,) for page in MANUALS))
    def test_width_of_manual(self, page):
        lines = re.sub(r"(?ms)^\.Bd -literal.*?^\.Ed", "", read(page)).split("\n")
        self.assertEqual([line for line in lines if len(line) > WIDTH and not line.startswith((".Ql", ".Dl"))], [])


if __name__ == "__main__":
    if sys.argv[1:] != ["--write"]:
        sys.exit("tests/pages/test_pages.py: the only word is --write; run the tests by `make check T=pages`")
    write(HELP, "".join(f"{line}\n{text}\n" for line, text in help_texts(*COMMANDS_OF).items()))
