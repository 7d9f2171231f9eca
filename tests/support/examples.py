"""The examples of a page, and whether their output is what the page shows.

An example is a line '$ COMMAND' of a code block, with the lines below it up to the next '$' or the end of the block. A
command that ends in a backslash or in an open quote continues in the next line. bash runs it in the locale C. Its
`bin/flowlabel` and `bin/flowlabel-many` are the programs that are tested.

Lines that begin with 'flowlabel: ' or with the name of a command, such as 'flowlabel-many: ', are those of standard
error, and all others those of standard output. Text that differs between machines is shown as '...', which represents
any text of its line; a line of it alone represents any lines. The status must be 0 if no fault is shown, and must not
be 0 if one is. A line that ends in '; echo $?' shows the status.

A command that ends in '# needs NAME ..' needs these programs, or files if a name has a '/'. If one is missing, the
command is skipped, and so is each later command of its block that names a file of out/ which a skipped one names, or
any such file by a variable (out/$). In CI every command that needs programs is skipped: the behaviour of other programs
is not part of `make test`.
"""

import collections
import difflib
import os
import re
import shlex
import shutil

from support import MANY, PROGRAM, read, run

INDENT = "    "
FAULT = re.compile(r"(flowlabel(?:-\w+)?|packets): ")
OWN = re.compile(r"(?<![\w./])bin/flowlabel(-many)?(?![\w-])")
NEEDS = re.compile(r"\s+# needs (.+)$")
# A file that one command makes and a later one may read. A variable may be any of them.
MADE, VARIABLE = re.compile(r"\bout/[\w.-]+"), "out/$"
ANY = "..."
# An example: the number of its block, its command, and the lines that it shows.
Example = collections.namedtuple("Example", "block command shown")


def blocks(text):
    """Yields the lines of each code block of a page: between fences, or indented."""
    block, fenced = [], False
    for line in text.split("\n"):
        if line.startswith("```"):
            fenced = not fenced
        elif fenced or line.startswith(INDENT):
            block.append(line if fenced else line.removeprefix(INDENT))
            continue
        yield block
        block = []


def goes_on(command):
    """Returns whether a command is incomplete: it ends with a backslash, or a quote is open."""
    return command.endswith("\\") or command.count("'") % 2 == 1


def examples(text):
    """Yields the examples of a page."""
    for number, block in enumerate(blocks(text)):
        starts = [index for index, line in enumerate(block) if line.startswith("$ ")]
        for start, end in zip(starts, [*starts[1:], len(block)]):
            after = start + 1
            while after < end and goes_on("\n".join(block[start:after])):
                after += 1
            yield Example(number, "\n".join(block[start:after]).removeprefix("$ "), block[after:end])


def lacks(command, with_others):
    """Returns why a command isn't run here, as texts: what it needs is missing, or other programs are left out."""
    found = NEEDS.search(command)
    if "-many" in OWN.findall(command) and not MANY and os.environ.get("CI", "local") == "local":
        yield "there is no flowlabel-many that is built"
    for name in found[1].split() if found else ():
        if "/" not in name and not with_others:
            yield f"it needs {name}"
        elif not (os.path.exists if "/" in name else shutil.which)(name):
            yield f"there is no {name}"


def form_of(lines):
    """Returns the pattern of output with such lines."""
    parts = ["(?:.*\n)*" if line == ANY else ".*".join(map(re.escape, line.split(ANY))) + "\n" for line in lines]
    return re.compile("".join(parts).encode())


def faults(example, environment):
    """Runs an example, and returns how it differs from its page, or an empty text."""
    errors = [line for line in example.shown if FAULT.match(line)]
    output = [line for line in example.shown if line not in errors]
    line = OWN.sub(lambda found: shlex.quote(MANY if found[1] else PROGRAM), example.command)
    ended = run("bash", "-c", line, env={**os.environ, "LC_ALL": "C", **environment})
    differences = []
    for name, found, wanted in (("output", ended.stdout, output), ("error", ended.stderr, errors)):
        if not form_of(wanted).fullmatch(found):
            lines = found.decode("utf-8", "backslashreplace").splitlines()
            differences += [f"standard {name} (- on the page, + found):", *difflib.ndiff(wanted, lines[:200])]
    shows_status = NEEDS.sub("", example.command).endswith("; echo $?")
    if (ended.returncode != 0) != (bool(errors) and not shows_status):
        differences.append(f"the status is {ended.returncode}")
    return "\n".join(differences)


class Page:
    """The examples of a page. They run in the working folder, once each, and after those that make their files."""

    def __init__(self, path, with_others=True, **environment):
        self.examples, self.with_others = list(examples(read(path))), with_others
        self.environment = environment
        self.outcomes = {}

    def outcome(self, number):
        """Returns why an example is skipped, and how it differs from the page. Both may be empty."""
        if number not in self.outcomes:
            example, names = self.examples[number], set(MADE.findall(self.examples[number].command))
            reasons = list(lacks(example.command, self.with_others))
            for earlier, other in enumerate(self.examples[:number]):
                made = set(MADE.findall(other.command))
                if VARIABLE not in example.command:
                    made &= names
                is_beside = other.block == example.block
                if is_beside or made:
                    skipped, _ = self.outcome(earlier)
                    reasons += [f"there is no {name}" for name in sorted(made) if skipped and is_beside]
            self.outcomes[number] = (reasons[0], "") if reasons else ("", faults(example, self.environment))
        return self.outcomes[number]

    def faults(self):
        """Returns each example that differs from the page, with the difference."""
        return [f"{example.command}\n{differs}" for number, example in enumerate(self.examples)
                if (differs := self.outcome(number)[1])]
