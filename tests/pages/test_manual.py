"""Compares what the manual, the completions and the pages say of the commands flowlabel-NAME with their parsers.

- Manual: man/flowlabel-scripts.1 is what dev/manual makes of the parsers. Each command has there the options of its
  parser with their help, and no others.
- Completions: bash, zsh and fish offer the options of each command, and no others.
- Options: each option that a manual page or a page names is one of a program or of a command, or of another program.
- Modules: ARCHITECTURE.md has the table of lib/flowlabel/__init__.py, and that has each module.
"""

import argparse
import functools
import os
import re
import runpy
import sys

from pages.test_pages import COMMANDS_OF, help_texts
from support import ROOT, Case, inside, needs, read, rows, run

PAGE = ROOT / "man/flowlabel-scripts.1"
COMMANDS = sorted(path.name.removeprefix("flowlabel-") for path in ROOT.glob("bin/flowlabel-*")
                  if path.name != "flowlabel-many")
# Pages that name options, and the options that are those of other programs, of a shell, make or dev/.
PAGES = ("README.md", "SECURITY.md", "examples/README.md", "docs/ARCHITECTURE.md", "docs/BILL.md", "docs/DECISIONS.md",
         "docs/FORMATS.md", "docs/GUIDE.md", "docs/PROOFS.md", "docs/TABLES.md", "man/flowlabel.1",
         "man/flowlabel-many.1", "man/flowlabel-formats.5", "man/flowlabel-scripts.1")
OTHERS = """
    apt-get: --only-upgrade --no-install-recommends    env: --block-signal
    iptables: --map-set --map-mark --mark
    parallel: --sshlogin --basefile --transferfile --cleanup
    pip: --user                                        rwcount: --bin-size --load-scheme
    rwfilter: --pass --pmap-file --pmap-src-m          rwpmapbuild: --input-file --output-file
    rwpmaplookup: --map-file --no-files                rwsilk2ipfix: --ipfix-output --print-statistics --single-template
    rwsort: --reverse                                  rwstats, rwuniq: --values --count
    sqlite3: --skip                                    tar: --strip-components --no-overwrite-dir
    yaf: --in --out --uniflow
"""
BASH = """. "$0"; COMP_WORDS=("$1" -); COMP_CWORD=1; _flowlabel_command "$1"; printf '%s\\n' "${COMPREPLY[@]}" """
# In place of the functions of zsh's completion: what would be offered is printed.
ZSH = """_call_program() { shift; eval "$@" }; _alternative() { print -rl -- $options }
service=$2; words=("$1" -); . "$0" """
FISH = """source "$argv[1]"; complete -C "$argv[2] -" | string replace -r '\\t.*' '' """


def parser_of(name):
    """Returns the parser of a command."""
    return inside.module(f"commands.{name}").PARSER


def actions(parser):
    """Returns the options and arguments that a parser has, and says in its help."""
    return [action for action in parser._actions if action.help != argparse.SUPPRESS]


@functools.cache
def options_of(name):
    """Returns the options of a command, with --help."""
    return {option for action in actions(parser_of(name)) for option in action.option_strings}


@functools.cache
def made():
    """Returns the functions of dev/manual. Its modules of commands are those that tests run."""
    inside.module("process")
    return runpy.run_path(str(ROOT / "dev/manual"))


class Manual(Case):
    """The manual page of the commands."""

    def test_it_is_made(self):
        self.assertEqual(made()["page"](), read(PAGE), "another than dev/manual makes: run it, and read the page")

    def test_all_commands(self):
        self.assertEqual(re.findall(r"(?m)^\.Ss flowlabel-(\w+)", read(PAGE)), COMMANDS)
        synopsis = read(PAGE).split(".Sh SYNOPSIS")[1].split(".Sh")[0]
        self.assertEqual(sorted({*re.findall(r"(?m)^\.Nm flowlabel-(\w+)$", synopsis)}), COMMANDS)

    @rows(*zip(COMMANDS))
    def test_options(self, name):
        """Each option has its help, which isn't empty, in the manual."""
        section = re.search(rf"(?ms)^\.Ss flowlabel-{name}\n(.*?)^\.(?:Ss|\\\" End)", read(PAGE))[1]
        listed = re.findall(r"(?m)^\.It (Fl .*)\n([^.].*)", section)
        found = {f"-{option}" for line, _ in listed for option in re.findall(r"Fl (\S+)", line)}
        self.assertEqual(found | {"-h", "--help"}, options_of(name))
        for action in actions(parser_of(name)):
            with self.subTest(action.dest):
                self.assertTrue(action.help and action.help.strip(), "an option without help")


class Completed(Case):
    """What shells offer after a command and a dash."""

    def offered(self, *words):
        """Returns the words that a shell prints."""
        ended = run(*words, env={**os.environ, "PATH": f"{ROOT / 'bin'}:{os.environ['PATH']}", "HOME": os.getcwd()})
        self.assertEqual(ended.stderr, b"")
        return {*ended.stdout.decode().split()}

    @rows(*zip(COMMANDS))
    def test_bash(self, name):
        self.assertEqual(self.offered("bash", "-c", BASH, ROOT / "completions/flowlabel.bash", f"flowlabel-{name}"),
                         options_of(name))

    @needs("zsh")
    @rows(*zip(COMMANDS))
    def test_zsh(self, name):
        self.assertEqual(self.offered("zsh", "-fc", ZSH, ROOT / "completions/_flowlabel", f"flowlabel-{name}",
                                      f"flowlabel-{name}"), options_of(name))

    @needs("fish")
    @rows(*zip(COMMANDS))
    def test_fish(self, name):
        self.assertEqual(self.offered("fish", "--no-config", "-c", FISH, ROOT / "completions/flowlabel.fish",
                                      f"flowlabel-{name}"), options_of(name))

    @rows(("bash", r"flowlabel-\{(.*)\} \\\n +flowlabel-\{(.*)\}", ","), ("fish", r"for name in (.*)()", " "))
    def test_commands(self, shell, form, between):
        found = re.search(form, read(ROOT / f"completions/flowlabel.{shell}"))
        self.assertEqual(sorted(filter(None, between.join(found.groups()).split(between))), COMMANDS)

    def test_commands_in_zsh(self):
        first = read(ROOT / "completions/_flowlabel").split("\n")[0]
        self.assertEqual(first.split()[1:],
                         ["flowlabel", "flowlabel-many", *(f"flowlabel-{name}" for name in COMMANDS)])


class Options(Case):
    """The options that manual pages and pages name."""

    @rows(*zip(PAGES))
    def test_there_is_each(self, page):
        known = set(re.findall(r"--[a-z][a-z-]*", OTHERS + "".join(help_texts(*COMMANDS_OF).values())))
        known = known.union(*map(options_of, COMMANDS))
        # In mdoc an option is a dash after the macro Fl, or escaped.
        text = re.sub(r"\bFl (-\w)", r"-\1", read(ROOT / page).replace(r"\-", "-"))
        self.assertEqual(set(re.findall(r"(?<![\w-])--[a-z][a-z-]*", text)) - known, set())


class Modules(Case):
    """The table of modules."""

    def test_table(self):
        inside.module("process")
        table = re.findall(r"(?m)^\| `\w+` \| .*$", sys.modules["flowlabel"].__doc__)
        self.assertEqual(sorted(re.findall(r"(?m)^\| `(\w+)`", "\n".join(table))),
                         sorted(path.stem for path in ROOT.glob("lib/flowlabel/[a-z]*.py")))
        section = read(ROOT / "docs/ARCHITECTURE.md").split("## The commands\n")[1].split("\n## ")[0]
        self.assertEqual(re.findall(r"(?m)^\| `\w+` \| .*$", section), table)
