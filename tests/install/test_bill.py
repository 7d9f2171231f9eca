"""The two commands of README.md for a fresh machine: `make bill` prints the bill of that page, and `make test` runs the
gate and the tests.

They run in a fresh clone of a copy of the repository. Stubs take the place of dev/trial.py and dev/gate, and put the
programs that are tested where these build them, and of tests/run.py.
"""

import os
import re
import shutil
import unittest

from support import MANY, PROGRAM, ROOT, Case, read, write
from support.trees import BUILT, BUILT_MANY, Tree

PROVED = (BUILT, BUILT_MANY)
STUB = """#!/bin/sh
echo "$0" >>"$STUB/calls"
[ ! -e "$STUB/fails" ] || exit 1
"""
STUBS = {
    "dev/trial.py": "".join(f"mkdir -p out/trial && cp '{program}' out/trial/{name}\n"
                            for name, program in (("flowlabel", PROGRAM), ("flowlabel-many", MANY))),
    "dev/gate": "".join(f"mkdir -p $(dirname {place}) && cp '{program}' {place}\n"
                        for place, program in zip(PROVED, (PROGRAM, MANY))),
    "tests/run.py": "",
}


def bill():
    """Returns the bill that README.md shows."""
    shown = re.search(r"(?m)^ {4}\$ bin/flowlabel-bill .*\n((?: {4}[^$].*\n)+)", read(ROOT / "README.md"))[1]
    return re.sub(r"(?m)^ {4}", "", shown)


@unittest.skipIf(not MANY and os.environ.get("CI", "local") == "local", "there is no flowlabel-many that is built")
class Bill(Case):
    """`make bill` in a fresh clone."""

    @classmethod
    def prepare(cls):
        cls.tree = Tree()
        for name, does in STUBS.items():
            cls.tree.put(name, STUB + does)
        cls.tree.git("add", ".")
        cls.tree.git("-c", "user.name=a", "-c", "user.email=b", "commit", "-qm", "c")

    def setUp(self):
        """Makes a fresh clone, in which nothing is built."""
        super().setUp()
        shutil.rmtree("clone", ignore_errors=True)
        self.tree.git("clone", "-q", self.tree.root, os.path.abspath("clone"))
        self.tree.calls()

    def call(self, *words, **variables):
        """Returns the status of a command in the clone, its output, and its messages."""
        return self.tree.call("sh", "-c", 'cd ../clone && exec "$@"', "sh", *words, **variables)

    def build(self, names):
        """Puts programs where `make` builds them."""
        for name, program in zip(names, (PROGRAM, MANY)):
            os.makedirs(os.path.dirname(f"clone/{name}"))
            shutil.copy(program, f"clone/{name}")

    def test_nothing_is_built(self):
        """A trial is built, and a line says so, and what `make` adds."""
        status, output, messages = self.call("make", "bill")
        self.assertEqual((status, output, self.tree.calls()), (0, bill(), ["dev/trial.py"]))
        self.assertRegex(messages, r"^dev/bill: no proved program is built, so .* without proof .*"
                                   r"`make` adds the proof, .*\n$")

    def test_a_part_is_built(self):
        """Of two programs only one is proved."""
        self.build(PROVED[:1])
        self.assertEqual(self.call("make", "bill")[:2], (0, bill()))
        self.assertEqual(self.tree.calls(), ["dev/trial.py"])

    def test_all_is_built(self):
        """Nothing is built, and nothing is said."""
        self.build(PROVED)
        self.assertEqual(self.call("make", "bill"), (0, bill(), ""))
        self.assertEqual(self.tree.calls(), [])

    def test_named(self):
        """The program that FLOWLABEL names."""
        self.assertEqual(self.call("make", "bill", FLOWLABEL=PROGRAM, FLOWLABEL_MANY=MANY), (0, bill(), ""))

    def test_failure(self):
        """If there is no trial, there is no bill."""
        write(f"{self.tree.stub}/fails", "")
        self.addCleanup(os.remove, f"{self.tree.stub}/fails")
        status, output, _ = self.call("make", "bill")
        self.assertEqual((status, output, self.tree.calls()), (2, "", ["dev/trial.py"]))

    def test_commands_of_readme(self):
        """The commands of the page, one after the other. After the second the bill is that of the proved program."""
        found = re.search(r"run two commands:\n\n((?: {4}.*\n)+)", read(ROOT / "README.md"))[1].splitlines()
        for command, calls in zip(found, (["dev/trial.py"], ["dev/gate", "tests/run.py"]), strict=True):
            self.assertEqual(self.call(*command.split())[0], 0)
            self.assertEqual(self.tree.calls(), calls)
        self.assertEqual(self.call("make", "bill"), (0, bill(), ""))
        self.assertEqual(self.tree.calls(), [])
