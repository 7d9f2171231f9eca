"""`make install` and `make uninstall` in a clean folder, with a space in its name.

The program that is tested is installed, as if it were the one that was proved. The tests check which files there are,
that the installed program runs with only the system's own folders on its path, that links of the installed pages lead
to installed files, that the commands of README.md run over the installed program, that the manual page and the
completions have each command and each option of the help, and that nothing is left at the end. If mandoc, man, zsh or
fish are available, they read the pages and the completions too.
"""

import contextlib
import os
import pty
import re
import select
import shutil
import subprocess
import sys

from support import PROGRAM, ROOT, Case, needs, read, rows, run, write
from support.trees import BUILT, RECORD, Tree, digest

PREFIX = "/opt/flows"
DOC = "share/doc/flowlabel"
PAGES = ("share/man/man1/flowlabel.1", "share/man/man1/flowlabel-scripts.1", "share/man/man5/flowlabel-formats.5")
COMPLETIONS = {"bash": "share/bash-completion/completions/flowlabel", "zsh": "share/zsh/site-functions/_flowlabel",
               "fish": "share/fish/vendor_completions.d/flowlabel.fish"}
DOCS = ("README.md", "CHANGELOG.md", "BILL.md", "GUIDE.md", "FORMATS.md", "TABLES.md", "PROOFS.md", "DEFINITIONS.md",
        "bill.svg", "minutes.svg", "copyright")
COMMANDS = ("label", "info", "rows", "uniq", "cat", "shrink", "check", "recert")
# Only the system's folders, which have no rt.
SYSTEM = f"{os.path.dirname(sys.executable)}:/usr/bin:/bin"
BASH = """
source "$0"
COMP_WORDS=("$@") COMP_CWORD=$(($# - 1))
_flowlabel
printf '%s\\n' "${COMPREPLY[@]}"
"""


def tree_of(folder):
    """Returns the files below a folder, each with its permissions."""
    return {os.path.relpath(os.path.join(place, name), folder): os.stat(os.path.join(place, name)).st_mode & 0o777
            for place, _, names in os.walk(folder) for name in names}


def installed_files():
    """Returns the files that are installed, each with its permissions."""
    wanted = {"bin/flowlabel": 0o755, **dict.fromkeys((*PAGES, *COMPLETIONS.values()), 0o644),
              **{f"{DOC}/{name}": 0o644 for name in DOCS}}
    # Other files that are there, such as an editor's copies, aren't installed.
    names = run("git", "ls-files", "examples", "lib", "bin", cwd=ROOT).stdout.decode().split()
    # Of flowlabel-many the program is installed, if there is one.
    for name in names:
        if name not in ("bin/flowlabel", "bin/flowlabel-many"):
            place = f"{DOC}/{name}" if name.startswith("examples/") else name
            wanted[place] = 0o755 if os.access(ROOT / name, os.X_OK) else 0o644
        if name.startswith("bin/flowlabel-"):
            name = os.path.basename(name)
            wanted |= dict.fromkeys((f"share/man/man1/{name}.1", f"share/bash-completion/completions/{name}",
                                     f"share/fish/vendor_completions.d/{name}.fish"), 0o644)
    return {f"{PREFIX[1:]}/{name}": mode for name, mode in wanted.items()}


class InstallCase(Case):
    """Tests of an installation, below `top`."""

    @classmethod
    def prepare(cls):
        cls.tree = Tree()
        cls.tree.record(PROGRAM)
        cls.folder = os.path.abspath("a folder")
        cls.top = cls.folder + PREFIX
        cls.make("install")

    @classmethod
    def make(cls, goal, *words):
        """Runs make in the tree."""
        status, _, messages = cls.tree.call("make", goal, f"DESTDIR={cls.folder}", f"PREFIX={PREFIX}", *words)
        assert status == 0, messages


class Files(InstallCase):
    """The files that are installed and removed."""

    def test_files(self):
        self.assertEqual(tree_of(self.folder), installed_files())

    def test_links(self):
        """The only links are those of the manual page of the commands."""
        paths = {name: f"{self.folder}/{name}" for name in tree_of(self.folder)}
        commands = [os.path.basename(name) for name in installed_files() if "/bin/flowlabel-" in name]
        self.assertEqual({name: os.readlink(path) for name, path in paths.items() if os.path.islink(path)},
                         {f"{PREFIX[1:]}/share/man/man1/{name}.1": "flowlabel-scripts.1" for name in commands})

    def test_proved_program(self):
        """The installed program is the one that was proved."""
        proved = dict(line.split(" ", 1) for line in read(self.tree.path(RECORD)).splitlines())
        self.assertEqual(digest(f"{self.top}/bin/flowlabel"), proved["program"])
        self.assertEqual(list(proved), ["program", "commit", "sources", "kit"])

    def test_other_files(self):
        """What is there already stays, in folders of others and in flowlabel's own. A file or a link with a name of
        ours is replaced, and what it leads to stays."""
        other = os.path.abspath("another folder")
        os.makedirs(f"{other}{PREFIX}/{DOC}")
        os.makedirs(f"{other}{PREFIX}/bin")
        for name in (f"{other}{PREFIX}/{DOC}/own.txt", f"{other}{PREFIX}/bin/flowlabel-own", "its own"):
            write(name, "own\n")
        os.symlink(os.path.abspath("its own"), f"{other}{PREFIX}/bin/flowlabel-report")
        before = tree_of(other)
        self.make("install", f"DESTDIR={other}")
        self.assertEqual(tree_of(other), {**before, **installed_files()})
        self.make("uninstall", f"DESTDIR={other}")
        del before[f"{PREFIX[1:]}/bin/flowlabel-report"]
        self.assertEqual((tree_of(other), read("its own")), (before, "own\n"))

    def test_again(self):
        """An installation over one whose program runs, by a user with another umask. An editor's files aren't
        installed."""
        for name in ("lib/flowlabel/process.py~", "lib/flowlabel/commands/bill.py~",
                     "lib/flowlabel/commands/__pycache__/bill.cpython-311.pyc"):
            self.tree.put(name, "")
        self.tree.put("examples/.offices.txt.swp", "")
        words = ("sh", "-c", 'umask 077 && exec make install DESTDIR="$1" PREFIX="$2"', "sh", self.folder, PREFIX)
        with subprocess.Popen([f"{self.top}/bin/flowlabel", "cat", "--pmap", "/dev/stdin"], stdin=subprocess.PIPE,
                              stdout=subprocess.DEVNULL):
            self.assertEqual(self.tree.call(*words)[0], 0)
        self.assertEqual(tree_of(self.folder), installed_files())
        self.assertEqual(os.stat(f"{self.top}/lib/flowlabel").st_mode & 0o777, 0o755)

    @rows(("a b",), ("a'b\"c",), ("$(touch x)",), ("`touch x`; touch x",), ("$(shell touch x)",), ("*",))
    def test_odd_prefix(self, name):
        self.make("install", f"DESTDIR={os.path.abspath('odd')}", f"PREFIX=/{name}/x")
        self.assertEqual(len(tree_of(f"odd/{name}/x")), len(installed_files()))
        self.make("uninstall", f"DESTDIR={os.path.abspath('odd')}", f"PREFIX=/{name}/x")
        self.assertEqual((tree_of("odd"), os.path.exists(self.tree.path("x"))), ({}, False))
        shutil.rmtree("odd")

    def test_no_right(self):
        """A place where nothing can be installed is named in one line."""
        write("a file", "")
        status, _, messages = self.tree.call("make", "install", f"DESTDIR={os.path.abspath('a file')}")
        line = f"dev/install: {os.path.abspath('a file')}/usr/local/bin: Not a directory"
        self.assertEqual((status, messages.splitlines()[1]), (2, line))

    def test_uninstall(self):
        """Nothing is left, and another call finds nothing. No program is needed for that."""
        self.make("install", f"DESTDIR={os.path.abspath('to remove')}")
        os.rename(self.tree.path(BUILT), "kept")
        self.addCleanup(os.rename, "kept", self.tree.path(BUILT))
        for _ in range(2):
            self.make("uninstall", f"DESTDIR={os.path.abspath('to remove')}")
            self.assertEqual(tree_of("to remove"), {})
            for folder in ("lib/flowlabel", DOC):
                self.assertFalse(os.path.exists(f"to remove{PREFIX}/{folder}"), folder)


class Installed(InstallCase):
    """What is installed runs by itself, and the pages lead to what is there."""

    @classmethod
    def prepare(cls):
        super().prepare()
        cls.commands = sorted(name for name in os.listdir(f"{cls.top}/bin") if name.startswith("flowlabel-"))

    def shell(self, line, path=SYSTEM, folder=ROOT):
        """Returns the exit status of a line, and all its output."""
        ended = run("sh", "-c", f"exec 2>&1; {line}", env={"PATH": path, "top": self.top}, cwd=folder)
        return ended.returncode, ended.stdout.decode()

    def page(self, name):
        """Returns the text of an installed page."""
        return read(f"{self.top}/{name}")

    def without_pages(self):
        """Has a test run without the pages."""
        os.rename(f"{self.top}/{DOC}", f"{self.top}/no pages")
        self.addCleanup(os.rename, f"{self.top}/no pages", f"{self.top}/{DOC}")

    def test_program(self):
        if shutil.which("rt", path=SYSTEM):
            self.skipTest("rt is in one of the system's own folders")
        line = "flowlabel label --pmap customers.txt 10.2.3.4; flowlabel info softflowd.ipfix | tail -n 1"
        self.assertEqual(self.shell(line, f"{self.top}/bin:{SYSTEM}", ROOT / "examples"), (0, "Cedar\nrows 210\n"))

    def test_help_of_commands(self):
        """Each command has its page, also without the pages and with no flowlabel on the path."""
        self.without_pages()
        for name in self.commands:
            status, text = self.shell(f'"$top/bin/{name}" --help', "/usr/bin:/bin")
            self.assertEqual((status, name in text), (0, True), name)

    def test_command(self):
        self.without_pages()
        found = self.shell('"$top/bin/flowlabel-lint" examples/offices.txt 10.1.20.77')
        self.assertEqual(found, (0, "10.1.20.77: line 8: 10.1.20.0/24    Berlin guests\n"))

    def test_example(self):
        """The script among the examples stands alone."""
        found = self.shell(f'"$top/{DOC}/examples/packets" 4 capture.pcap', folder=os.getcwd())
        self.assertEqual((found, os.path.getsize("capture.pcap") > 24), ((0, ""), True))

    def test_manual_of_commands(self):
        named = set(re.findall(r"flowlabel-\w+", self.page(PAGES[1])))
        self.assertEqual(sorted(set(self.commands) - named), [])

    def test_links_of_pages(self):
        links, dead = 0, []
        for folder, _, names in os.walk(f"{self.top}/{DOC}"):
            for name in (name for name in names if name.endswith(".md")):
                found = re.findall(r"\]\(([^)#:]+)[^)]*\)", read(os.path.join(folder, name)))
                links += len(found)
                dead += [f"{name}: {target}" for target in found if not os.path.exists(os.path.join(folder, target))]
        self.assertEqual((dead, links > 20), ([], True))

    def test_commands_of_readme(self):
        """The examples of README.md, over what is installed."""
        from support import examples
        shutil.copytree(f"{self.top}/{DOC}", "copy of pages")
        os.mkdir("copy of pages/out")
        os.chdir("copy of pages")
        self.addCleanup(os.chdir, os.path.dirname(os.getcwd()))
        page = examples.Page("README.md", FLOWLABEL="", PATH=f"{self.top}/bin:{SYSTEM}")
        self.assertEqual((page.faults(), len(page.examples) > 3), ([], True))

    @rows(*((name,) for name in PAGES))
    def test_manual(self, name):
        """A manual page names what is installed, and ends with its date."""
        text = self.page(name)
        paths = re.findall(r"(?m)^\.(?:It )?Pa ((?:share|lib)/\S+)", text)
        self.assertEqual([path for path in paths if not os.path.exists(f"{self.top}/{path}")], [])
        self.assertGreater(len(paths), 1)
        self.assertEqual(re.search(r"(?m)^\.Os (.*)", text)[1], "flowlabel")
        self.assertRegex(text, r"(?m)^\.Dd \w+ \d+, 20\d\d$")
        named = [f"man{number}/{page}.{number}" for page, number in re.findall(r"(?m)^\.Xr (flowlabel\S*) (\d)", text)]
        self.assertEqual([page for page in named if not os.path.exists(f"{self.top}/share/man/{page}")], [])

    def test_cures(self):
        """The manual has what helps after a fault."""
        parts = ("0-1500", "F2 BadVersion at 0", "M3 BadLength", "ulimit -v", ".Sh FILES", ".Sh ENVIRONMENT")
        self.assertEqual([part for part in parts if part not in self.page(PAGES[0])], [])

    def test_readme(self):
        """The installed README says nothing of building."""
        text = self.page(f"{DOC}/README.md")
        self.assertEqual([part for part in ("flowlabel --version", "## Build", "## Install", "bin/flowlabel", "make bill") if part in text], [])

    def test_names_of_help(self):
        """No command and no option is missing where a user looks for it."""
        _, text = self.shell('"$top/bin/flowlabel" --help')
        named = {command for command in COMMANDS if re.search(rf"(?m)^ +{command} ", text)}
        for command in named.copy():
            named.update(re.findall(r"--([a-z-]+)", self.shell(f'"$top/bin/flowlabel" {command} --help')[1]))
        self.assertEqual({*COMMANDS, "fields", "pmap", "cert", "any-label"} - named, set())
        for name in (PAGES[0], *COMPLETIONS.values()):
            self.assertEqual(sorted(named - set(re.findall(r"[a-z]+(?:-[a-z]+)*", self.page(name)))), [], name)


def typed(folder, line, path):
    """Returns what zsh prints for a line after a tab."""
    process, end = pty.fork()
    if process == 0:
        os.environ.update(TERM="dumb", PS1="", HOME="/nonexistent", PATH=path)
        os.execvp("zsh", ["zsh", "-f", "-i"])

    def read_until(until):
        text = b""
        while until not in text and select.select([end], [], [], 600)[0]:
            with contextlib.suppress(OSError):
                text += os.read(end, 4096) or until
                continue
            break
        return text.decode(errors="replace")
    os.write(end, f"fpath=('{folder}' $fpath); autoload -Uz compinit; compinit -u -D; show() {{ print -r -- "
             "\"<$BUFFER>\"; exit }; zle -N show; bindkey '^X' show; setopt no_prompt_cr; echo rea''dy\n".encode())
    read_until(b"ready")
    os.write(end, f"{line}\t\x18".encode())
    found = re.findall(r"<([^<]*)>", read_until(b">\r\n"))
    os.close(end)
    os.waitpid(process, 0)
    return found[-1:]


# The words of a line with a map or a list, and the labels that complete its last word.
LABELLED = (
    ("rows --pmap examples/customers.txt --src-label C", ["Cedar"]),
    ("uniq --fields proto --list examples/customers-list.txt --dst-label own", ["own network"]),
    ("rows --src-label A --pmap examples/customers.txt --any-label A", ["Alder"]),
    ("rows --pmap examples/offices.txt --src-label Berlin", ["Berlin", "Berlin gateway", "Berlin guests"]),
    ("rows --src-label C", []),
    ("rows --pmap missing --src-label C", []),
)


class Completions(InstallCase):
    """What shells complete, and what the programs report that read the pages."""

    def complete(self, *words):
        """Returns what bash completes the last word to."""
        ended = run("bash", "-c", BASH, f"{self.top}/{COMPLETIONS['bash']}", *words, cwd=ROOT,
                    env={"PATH": f"{self.top}/bin:/usr/bin:/bin", "HOME": "/nonexistent"})
        return sorted(filter(None, ended.stdout.decode().split("\n")))

    @rows(("flowlabel ch", ["check"]), ("flowlabel r", ["recert", "rows"]),
          ("flowlabel shrink --", ["--certificate", "--compact", "--help", "--pmap"]),
          ("flowlabel recert --", ["--cert", "--help"]),
          ("flowlabel rows --s", ["--saddress", "--sport", "--src-label"]),
          ("flowlabel uniq --fields s", ["sip", "sport", "src-label"]),
          ("flowlabel uniq --fields sip,s", ["sip,sport", "sip,src-label"]),
          ("flowlabel label --pmap examples/offic", ["examples/offices-list.txt", "examples/offices.txt"]),
          ("flowlabel rows --bytes ", []))
    def test_words_in_bash(self, line, wanted):
        self.assertEqual([word.strip() for word in self.complete(*line.split(" "))], wanted)

    @rows(*LABELLED)
    def test_labels_in_bash(self, line, wanted):
        self.assertEqual(self.complete("flowlabel", *line.split()), wanted)

    @needs("fish")
    @rows(*LABELLED)
    def test_labels_in_fish(self, line, wanted):
        ended = run("fish", "--no-config", "-c", 'source "$argv[1]"; complete -C "$argv[2]"',
                    f"{self.top}/{COMPLETIONS['fish']}", f"flowlabel {line}", cwd=ROOT,
                    env={"PATH": f"{self.top}/bin:/usr/bin:/bin", "HOME": self.top})
        self.assertEqual([found.partition("\t")[0] for found in ended.stdout.decode().splitlines()], wanted)

    @needs("zsh")
    @rows(*LABELLED)
    def test_labels_in_zsh(self, line, wanted):
        os.chdir(ROOT)
        self.addCleanup(os.chdir, os.path.dirname(self.folder))
        whole = f"{line[:line.rindex(' ')]} {wanted[0]}".replace("own n", "own\\ n") if wanted else line
        whole += " " if len(wanted) == 1 else ""
        folder = os.path.dirname(f"{self.top}/{COMPLETIONS['zsh']}")
        self.assertEqual(typed(folder, f"flowlabel {line}", f"{self.top}/bin:/usr/bin:/bin"), [f"flowlabel {whole}"])

    # man prints the page, and its warnings on standard error. mandoc's style messages are not requested, as they refer
    # to pages that aren't installed.
    @rows(*(("mandoc -T lint -W warning", name) for name in PAGES),
          *(("man --warnings -Tutf8 -Z -l >/dev/null", name) for name in PAGES),
          *((f"{shell} -n", name) for shell, name in COMPLETIONS.items()))
    def test_reader(self, line, name):
        if not shutil.which(line.split()[0]):
            self.skipTest(f"there is no {line.split()[0]}")
        ended = run("sh", "-c", f'exec 2>&1; {line} "$0"', f"{self.top}/{name}")
        self.assertEqual((ended.returncode, ended.stdout), (0, b""))
