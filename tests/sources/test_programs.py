"""Each program of dev/, bench/ and tests/ prints its help, refuses words that it doesn't take, and does nothing else.

The programs are found by what their files are. They run in a copy of the repository, over stand-ins for the programs
with which they begin their work.
"""

import ast
import contextlib
import os
import re
import shutil

from support import ROOT, Case, read, rows
from support.trees import Tree

FOLDERS = (".ci", "bench", "dev", "tests/crates/memory")
# What the programs run when they begin their work. Each stand-in records that it was called.
STAND_INS = ("rt", "make", "git", "rustc", "nfcapd", "nfdump", "valgrind", "apt-get", "dpkg-deb")
STAND_IN = '#!/bin/sh\necho "${0##*/} $*" >>"$STUB/calls"\nexit 1\n'
# The CPU time, in seconds, after which a program is ended. Each needs less than one.
MOST = 10
HELP = {"dev/evaluate": "dev/evaluator.py"}
# What can't be evaluated has its own status, and so has a run without a test.
STATUSES = {("dev/evaluate", "nosuch"): 125, ("dev/evaluate", "--nosuch"): 125, ("tests/run.py", "nosuch"): 1}
# Any word may be a part of a change, and all changes are made before it is looked for.
TAKES_WORDS = ("dev/definitions",)


def begins(tree):
    """Returns whether a module calls a function of its own when it is run."""
    nodes = [inner for node in tree.body for inner in (node.body if isinstance(node, ast.If) else [node])]
    return any(isinstance(node, ast.Expr) and isinstance(node.value, ast.Call) and isinstance(node.value.func, ast.Name)
               for node in nodes)


def programs():
    """Yields the programs: files that can be executed, and modules of Python that do something when they are run."""
    yield "tests/run.py"
    for folder in FOLDERS:
        for path in sorted((ROOT / folder).iterdir()):
            if path.is_file() and (os.access(path, os.X_OK) or path.suffix == ".py" and begins(ast.parse(read(path)))):
                yield str(path.relative_to(ROOT))


def first_line(name):
    """Returns the first line of the text with which the file of a program begins."""
    return re.match(r'(?:#!.*\n)?(?:"""|# )(.*?)(?:""")?\n', read(ROOT / HELP.get(name, name)))[1]


def sessions():
    """Yields the session of each process that is running."""
    for name in filter(str.isdigit, os.listdir("/proc")):
        with contextlib.suppress(ProcessLookupError):
            yield os.getsid(int(name))


class Words(Case):
    """The words of programs."""

    @classmethod
    def prepare(cls):
        cls.tree = Tree()
        shutil.copytree(ROOT / "bench", cls.tree.path("bench"), ignore=shutil.ignore_patterns("data", "out"))
        shutil.copytree(ROOT / "tests/crates/memory", cls.tree.path("tests/crates/memory"))
        for name in STAND_INS:
            cls.tree.script(name, STAND_IN)
        cls.before = cls.state()

    @classmethod
    def state(cls):
        """Returns the files of the tree, each with the time of its last change."""
        return {name: os.lstat(name).st_mtime_ns for name in cls.tree.files()}

    def call(self, *words):
        """Returns how a program ends in the tree, and sees that nothing was begun, and that no process is left."""
        python = ["python3"] if not os.access(self.tree.path(words[0]), os.X_OK) else []
        started = self.tree.start("prlimit", f"--cpu={MOST}", *python, *words, FLOWLABEL="/bin/true")
        output, messages = started.communicate()
        self.assertEqual((self.tree.calls(), self.state()), ([], self.before))
        self.assertNotIn(started.pid, [*sessions()])
        return started.returncode, output, messages

    @rows(*((name,) for name in programs()))
    def test_help(self, name):
        status, output, messages = self.call(name, "--help")
        self.assertEqual((status, messages), (0, ""))
        self.assertIn(first_line(name), output)
        self.assertEqual(self.call(name, "-h"), (0, output, ""))

    @rows(*((name, word) for name in programs() for word in ("--nosuch", "nosuch")
            if word != "nosuch" or name not in TAKES_WORDS))
    def test_unknown(self, name, word):
        status, output, messages = self.call(name, word)
        self.assertEqual((status, output, messages.count("\n")), (STATUSES.get((name, word), 2), "", 1), messages)
        self.assertTrue(messages.startswith(f"{name}: "), messages)

    @rows(("sources.progams",), ("commands.tabel", "sources.programs", "sources.progams"))
    def test_nearest(self, *words):
        """Each word that no test has is named, with the nearest name, and no test is run."""
        nearest = {"sources.progams": "sources.programs", "commands.tabel": "commands.table"}
        lines = [f"tests/run.py: no test has the name {word!r}; the nearest is {nearest[word]}\n"
                 for word in words if word in nearest]
        self.assertEqual(self.call("tests/run.py", *words), (1, "", "".join(lines)))

    def test_make(self):
        status, _, messages = self.call("/usr/bin/make", "check", "T=sources.progams")
        self.assertEqual((status, messages.splitlines()[0]), (
            2, "tests/run.py: no test has the name 'sources.progams'; the nearest is sources.programs"))

    def test_found(self):
        """Programs of each kind are found, and modules that are only imported aren't."""
        found = set(programs())
        self.assertLessEqual({"dev/build", "dev/trial.py", "dev/record", "bench/run", "bench/flows.py"}, found)
        self.assertFalse({"dev/kit.py", "dev/command_line.py", "bench/measure.py", "dev/build.mk"} & found)
