"""The core of the package flowlabel: its launchers, how commands end, addresses and files.

Addresses and blocks must be those of Python's module ipaddress. A small command ends in each way: its status, its one
line, and the file that it was about to replace are looked at. The launchers must find the package from everywhere, and
nothing beside the caller or in PYTHONPATH may change what they run.
"""

import contextlib
import ipaddress
import os
import pathlib
import shutil
import signal
import subprocess
import sys
import time
import types

from support import ROOT, Case, closed_pipe, inside, outcome, read, read_bytes, rows, texts, write, write_program

LIBRARY = ROOT / "lib/flowlabel"
LAUNCHERS = sorted(path for path in (ROOT / "bin").glob("flowlabel-*") if path.name != "flowlabel-many")
# Addresses as ipaddress reads them, and as flowlabel does: a number may have zeros before it, up to three digits.
ADDRESSES = ("0.0.0.0", "10.1.2.3", "255.255.255.255", "::", "::1", "2001:db8::8:800:200C:417A", "::ffff:10.1.2.3",
             "ffff:ffff:ffff:ffff:ffff:ffff:ffff:ffff", "64:ff9b::192.0.2.33")
WITH_ZEROS = (("010.001.000.009", "10.1.0.9"), ("::ffff:010.1.1.001", "::ffff:10.1.1.1"), ("00.0.0.0", "0.0.0.0"))
NO_ADDRESSES = ("", "10", "10.1.2", "10.1.2.256", "0010.1.1.1", "10.1.1.0255", "10.1.2.3.4", "1:2", ":::", "::g",
                "::1%lo",
                "10.1.2.3 ", "10.1.2.3\0", "\u0661.1.1.1", "10.1.2.3/8")
NO_BLOCKS = ("10.0.0.0/", "10.0.0.0/33", "::/129", "10.0.0.0/-1", "10.0.0.0/8 ", "10.0.0.0/0x8", "10.0.0.0/\u0668",
             "/8",
             "10.0.0.0/255.0.0.0", "10.0.0.0/0008")
SHOWN = (("a b", "a b"), ("a\nb\t\x1b[m\x7f\x9b", "a\\x0ab\\x09\\x1b[m\\x7f\\x9b"),
         ("é\u2028\u202e\udcff", "é\\u2028\\u202e\\udcff"))
# A command flowlabel-odd, without the body of its `main`.
COMMAND = """'''A page.'''
import os, resource, sys
from flowlabel import command_line, disk, process, programs, steps
PARSER = command_line.Parser("flowlabel-odd WORD..", "flowlabel-odd --other", page=__doc__)
PARSER.add_argument("--n", type=command_line.whole_number)
def main(words):
    options = PARSER.parse_args(words)
    {}
    return 0
"""
HELP = ("usage: flowlabel-odd WORD..\n       flowlabel-odd --other\n\nA page.\n\noptions:\n"
        "  -h, --help  show this help message and exit\n  --n N\n")
SHELL = "os.environ['FLOWLABEL'] = '/bin/sh'; "
# The body of a command, its status, its output and its errors without the name.
BODIES = (
    ("process.say('a ', b'b', 1)", 0, "a b1\n", ""),
    ("return 5", 5, "", ""),
    ("raise process.Failure('why\\nthen')", 1, "", "why\\x0athen"),
    ("raise process.Failure('why', 3)", 3, "", "why"),
    ("PARSER.fail_usage()", 2, "", "usage: flowlabel-odd WORD.. | flowlabel-odd --other (--help prints more)"),
    ("PARSER.parse_args(['--none'])", 2, "", "unrecognized arguments: --none"),
    ("PARSER.parse_args(['--n', '5k'])", 2, "", "argument --n: not a whole number: 5k"),
    ("bytearray(1 << 62)", 3, "", "out of memory"),
    ("open('no\\nfile')", 4, "", "no\\x0afile: No such file or directory"),
    ("open(b'/')", 4, "", "/: Is a directory"),
    ("sys.exit(7)", 7, "", ""),
    ("process.warn_all([str(number) for number in range(22)])", 0, "",
     "\nflowlabel-odd: ".join([*map(str, range(20)), "and so in 2 more"])),
    ("process.say(steps.Steps().run('sh', '-c', 'echo $0 $1', 'a', 'b', package='dash').encode())", 0, "a b\n\n", ""),
    ("steps.Steps().run('sh', '-c', 'echo first >&2; echo second >&2; exit 3', package='dash')", 1, "",
     "sh -c echo first >&2; echo second >&2; exit 3: first"),
    ("steps.Steps().run('no-such-program', package='none')", 1, "", "there is no no-such-program (Debian: none)"),
    (f"{SHELL}process.say(programs.run('flowlabel', '-c', 'echo $0', 'x'))", 0, "x\n\n", ""),
    (f"{SHELL}programs.run('flowlabel', '-c', 'exit 3')", 3, "", ""),
    (f"{SHELL}programs.run('flowlabel', '-c', 'kill -9 $$')", 137, "", ""),
    ("os.environ['FLOWLABEL'] = '/no/program'; programs.run('flowlabel')", 125, "",
     "FLOWLABEL names no program: /no/program"),
)
# Bodies that a signal ends, and its number.
SIGNALLED = (
    ("os.kill(os.getpid(), 15)", 15), ("os.kill(os.getpid(), 1)", 1), ("os.kill(os.getpid(), 2)", 2),
    # The program that runs would make another file later.
    ("steps.Steps().run(sys.executable, '-c', 'import os, time; os.kill(os.getppid(), 15); "
     "time.sleep(60); open(\"late\", \"x\")', package='python3')", 15),
)
# What a command does to the file NAME, which has the text `before` at first: its status and what the file has then.
REPLACES = (
    ("file.write(b'after')", 0, "after"), ("file.write(b'aft'); raise process.Failure('why')", 1, "before"),
    ("file.write(b'aft'); os.kill(os.getpid(), 15)", -15, "before"), ("file.write(b'aft'); 1 / 0", 1, "before"),
    ("file.write(b'aft'); os.kill(os.getpid(), 1); file.write(b'er')", -1, "before"),
    ("resource.setrlimit(resource.RLIMIT_FSIZE, (2, 2)); file.write(b'after')", 4, "before"),
)
# Names of Python's modules, and of the package: a file of theirs is what nobody may have run.
PLANTED = ("argparse", "csv", "os", "re", "signal", "sitecustomize", "usercustomize", "flowlabel")


class Addresses(Case):
    """Addresses, blocks and shown texts."""

    @classmethod
    def prepare(cls):
        cls.addresses = inside.module("addresses")

    @rows(*((text, text) for text in ADDRESSES), *WITH_ZEROS)
    def test_address(self, text, meant):
        wanted = ipaddress.ip_address(meant)
        self.assertEqual(self.addresses.address(text), (wanted.version, int(wanted)))
        again = self.addresses.address_text(wanted.version, int(wanted))
        self.assertEqual(self.addresses.address(again), (wanted.version, int(wanted)), again)
        self.assertEqual(self.addresses.block(text), (wanted.version, int(wanted), wanted.max_prefixlen))
        for length in (0, 1, 8, 31, wanted.max_prefixlen):
            network = ipaddress.ip_network(f"{meant}/{length}", strict=False)
            self.assertEqual(self.addresses.ends(*self.addresses.block(f"{text}/{length}")),
                             (int(network[0]), int(network[-1])), length)

    @rows(*zip(NO_ADDRESSES))
    def test_no_address(self, text):
        self.assertRaises(ValueError, self.addresses.address, text)

    @rows(*zip(NO_BLOCKS))
    def test_no_block(self, text):
        self.assertRaises(ValueError, self.addresses.block, text)

    @rows(*SHOWN)
    def test_shown(self, text, wanted):
        self.assertEqual(inside.module("process").shown(text), wanted)


class Endings(Case):
    """Each way in which a command ends by itself."""

    def odd(self, body, *words, **options):
        """Runs a body as the command flowlabel-odd, in this process."""
        inside.module("process")
        module = types.ModuleType("flowlabel.commands.odd")
        sys.modules[module.__name__] = module
        self.addCleanup(sys.modules.pop, module.__name__)
        exec(COMMAND.format(body), vars(module))
        module.PARSER.description = "A page."
        return inside.texts("odd", *words, **options)

    @rows(*BODIES)
    def test_body(self, body, status, output, error):
        error = error and f"flowlabel-odd: {error}\n"
        self.assertEqual(self.odd(body), (status, output, error))
        self.assertEqual(os.listdir(), [])

    def test_help(self):
        self.assertEqual(self.odd("return 9", "--help"), (0, HELP, ""))

    def test_a_link(self):
        os.symlink("odd", "link")
        self.addCleanup(os.remove, "link")
        self.assertEqual(self.odd("with disk.replacing('link') as file: pass"),
                         (1, "", "flowlabel-odd: link: not a regular file, so it isn't replaced\n"))
        self.assertTrue(os.path.islink("link"))

    def test_a_file_of_another(self):
        # A file with the name of the new one is of somebody else, who may also have made it by chance.
        found = self.odd("open(f'file.{os.getpid()}.part', 'w').close()\n    with disk.replacing('file') as file: pass")
        self.assertEqual((found, os.listdir()), ((4, "", "flowlabel-odd: file: File exists\n"),
                                                 [f"file.{os.getpid()}.part"]))
        os.remove(f"file.{os.getpid()}.part")

    def test_no_folder(self):
        self.assertEqual(self.odd("with disk.replacing('none/file') as file: pass"),
                         (4, "", "flowlabel-odd: none/file: No such file or directory\n"))


class Programs(Case):
    """Which flowlabel and flowlabel-many commands run, by the variables."""

    @classmethod
    def prepare(cls):
        for name in ("a/flowlabel", "a/flowlabel-many", "b/flowlabel", "c/other"):
            write_program(name, "#!/bin/sh\n")
        cls.find = staticmethod(inside.module("programs").find)
        cls.failure = inside.module("process").Failure

    def found(self, name, **variables):
        """Returns the program of a name with these variables alone, or the fault."""
        kept = dict(os.environ)
        self.addCleanup(inside.restore, kept)
        for variable in ("FLOWLABEL", "FLOWLABEL_MANY"):
            os.environ.pop(variable, None)
        os.environ.update(variables)
        try:
            return self.find(name)
        except self.failure as fault:
            return fault.status, str(fault)

    @rows(("both", {"FLOWLABEL": "b/flowlabel", "FLOWLABEL_MANY": "c/other"}, "b/flowlabel", "c/other"),
          ("flowlabel alone", {"FLOWLABEL": "a/flowlabel"}, "a/flowlabel", "a/flowlabel-many"),
          ("many that is no program", {"FLOWLABEL": "a/flowlabel", "FLOWLABEL_MANY": "none"}, "a/flowlabel",
           (125, "FLOWLABEL_MANY names no program: none")),
          ("no many beside it", {"FLOWLABEL": "b/flowlabel"}, "b/flowlabel",
           (125, "there is no b/flowlabel-many beside b/flowlabel, which FLOWLABEL names: name one by FLOWLABEL_MANY")),
          ("a program of another name", {"FLOWLABEL": "c/other"}, "c/other",
           (125, "there is no c/flowlabel-many beside c/other, which FLOWLABEL names: name one by FLOWLABEL_MANY")))
    def test_variables(self, _, variables, flowlabel, many):
        for name, wanted in (("flowlabel", flowlabel), ("flowlabel-many", many)):
            self.assertEqual(self.found(name, **variables),
                             os.path.abspath(wanted) if isinstance(wanted, str) else wanted)

    def test_on_the_path(self):
        path = f"{os.path.abspath('a')}:{os.environ['PATH']}"
        self.assertEqual([self.found(name, FLOWLABEL="flowlabel", PATH=path) for name in ("flowlabel", "flowlabel-many")],
                         ["flowlabel", "flowlabel-many"])


class Script(Case):
    """Cases with a command `flowlabel-odd`, whose package is a copy with its module."""

    @classmethod
    def prepare(cls):
        shutil.copytree(LIBRARY, "lib/flowlabel", ignore=shutil.ignore_patterns("__pycache__"))
        write_program("bin/flowlabel-odd", read(LAUNCHERS[0]))

    def script(self, body):
        """Makes the command."""
        write("lib/flowlabel/commands/odd.py", COMMAND.format(body))

    def files(self):
        """Returns the files that there are, but for those of the package."""
        return sorted(str(path) for path in pathlib.Path().rglob("*") if not path.is_dir() and path.parts[0] != "lib")


class Processes(Script):
    """How a command ends whose subject is a process: signals, streams, and the launcher."""

    @rows(*SIGNALLED)
    def test_signal(self, body, number):
        self.script(body)
        self.assertEqual(texts("bin/flowlabel-odd"), (-number, "", ""))
        self.assertEqual(self.files(), ["bin/flowlabel-odd"])

    @rows(("./again",), ("links/deep/again",))
    def test_a_link_to_a_link(self, name):
        self.script("process.say('x')")
        os.makedirs("links/deep")
        self.addCleanup(shutil.rmtree, "links")
        os.symlink("../bin/flowlabel-odd", "links/flowlabel-odd")
        os.symlink("../flowlabel-odd", "links/deep/again")
        os.symlink("links/deep/again", "again")
        self.addCleanup(os.remove, "again")
        self.assertEqual(texts(name), (0, "x\n", ""))
        self.assertEqual(texts(name, "--help"), (0, HELP, ""))
        self.assertEqual(texts(name, "--none"), (2, "", "flowlabel-odd: unrecognized arguments: --none\n"))

    @rows((">/dev/full", (4, "", "flowlabel-odd: output: No space left on device\n")),
          (">&-", (4, "", "flowlabel-odd: output: it is closed\n")),
          (">&- 2>&-", (4, "", "")), (">&- 2>/dev/full", (4, "", "")))
    def test_output(self, end, wanted):
        self.script("process.say('x')")
        self.assertEqual(texts("sh", "-c", f"bin/flowlabel-odd {end}"), wanted)

    @rows(("raise process.Failure('why', 3)", 3), ("PARSER.fail_usage()", 2), ("process.warn('w'); sys.exit(7)", 7),
          ("open('none')", 4), ("process.warn('w')", 0))
    def test_no_errors(self, body, status):
        """What standard error can't take isn't printed elsewhere, and doesn't change the status."""
        self.script(body)
        for end in ("2>&-", "2>/dev/full"):
            self.assertEqual(texts("sh", "-c", f"bin/flowlabel-odd {end}"), (status, "", ""))

    def test_closed_streams(self):
        """No file gets the number of a stream that is closed, also not in a program that is started."""
        self.script("print(os.open('/', os.O_RDONLY), os.system('test -e /proc/self/fd/0 -a -e /proc/self/fd/1'), "
                    "file=open('numbers', 'w'))")
        self.assertEqual(texts("sh", "-c", "bin/flowlabel-odd <&- >&- 2>&-"), (0, "", ""))
        self.addCleanup(os.remove, "numbers")
        number, found = map(int, read("numbers").split())
        self.assertEqual((number > 2, found), (True, 0))
        self.script("disk.opened()[0].read()")
        self.assertEqual(texts("sh", "-c", "bin/flowlabel-odd <&-"),
                         (4, "", "flowlabel-odd: standard input: it is closed\n"))

    def test_a_closed_pipe(self):
        self.script("process.say('x')")
        with closed_pipe() as pipe:
            self.assertEqual(outcome("bin/flowlabel-odd", stdout=pipe), (-signal.SIGPIPE, None, b""))

    def test_nohup(self):
        self.script("os.kill(os.getpid(), 1); process.say('alive')")
        self.assertEqual(texts("sh", "-c", "trap '' HUP; bin/flowlabel-odd"), (0, "alive\n", ""))

    def test_an_old_python(self):
        self.script("process.say('x')")
        code = ("import sys; sys.path.insert(0, 'lib'); import flowlabel; flowlabel.OLDEST = (9, 1); "
                "flowlabel.start('bin/flowlabel-odd')")
        self.assertEqual(texts(sys.executable, "-I", "-c", code),
                         (1, "", "flowlabel: the commands need Python 9.1 or later\n"))

    def test_interrupted_start(self):
        """Ctrl-C while Python and the command start ends the command without a word."""
        self.script("import time; time.sleep(60)")
        for number in range(20):
            with subprocess.Popen(["bin/flowlabel-odd"], stdin=subprocess.DEVNULL, stderr=subprocess.PIPE) as started:
                time.sleep(number * 0.005)
                started.send_signal(signal.SIGINT)
                self.assertEqual((started.communicate()[1], started.returncode), (b"", -signal.SIGINT), number)


class Replaced(Script):
    """A file is as before or whole."""

    @rows(*REPLACES)
    def test_body(self, body, status, wanted):
        self.script(f"with disk.replacing('file') as file:\n        {body}")
        os.chmod(write("file", "before"), 0o640)
        self.assertEqual(texts("bin/flowlabel-odd")[0], status)
        self.assertEqual((read("file"), os.stat("file").st_mode & 0o777), (wanted, 0o640))
        os.remove("file")
        texts("bin/flowlabel-odd")
        self.assertEqual(self.files(), ["bin/flowlabel-odd", *["file"] * (status == 0)])
        with contextlib.suppress(FileNotFoundError):
            os.remove("file")


class Launchers(Case):
    """The files bin/flowlabel-NAME, and the modules that they start."""

    def test_all_alike(self):
        self.assertEqual(len({read_bytes(path) for path in LAUNCHERS}), 1)
        self.assertEqual([path.name.removeprefix("flowlabel-") for path in LAUNCHERS],
                         sorted(path.stem for path in LIBRARY.glob("commands/[a-z]*.py")))

    @rows(*((path.name,) for path in LAUNCHERS))
    def test_isolated(self, name):
        """Modules in the caller's folder, in PYTHONPATH and beside the link aren't read."""
        for module in PLANTED:
            write(f"{name}/{module}.py", f"open('/dev/stderr', 'w').write('{module} is run')\n")
        os.symlink(ROOT / "bin" / name, f"{name}/again")
        wanted = inside.texts(name.removeprefix("flowlabel-"), "--help")
        self.assertEqual(wanted[::2], (0, ""))
        self.assertEqual(texts("./again", "--help", cwd=name, variables={
            "PYTHONPATH": os.path.abspath(name), "PYTHONSTARTUP": os.path.abspath(f"{name}/csv.py"),
            "FLOWLABEL": "/none"}), wanted)

    def test_imports_do_nothing(self):
        """To import the modules of the package prints nothing, starts nothing, and changes no signal and no file."""
        code = ("import pkgutil, signal, sys\nsys.dont_write_bytecode = True\nfound = []\n"
                "def hook(event, words):\n"
                "    if event.split('.')[0] in ('subprocess', 'socket', 'shutil', 'tempfile', 'os') and event not in "
                "('os.listdir', 'os.scandir') or event == 'open' and str(words[1])[:1] in 'wax':\n"
                "        found.append(event)\n"
                f"sys.path.insert(0, {os.fspath(ROOT / 'lib')!r})\nbefore = [*map(signal.getsignal, range(1, 64))]\n"
                "sys.addaudithook(hook)\nimport flowlabel\nnumber = 0\n"
                "for module in pkgutil.walk_packages(flowlabel.__path__, 'flowlabel.'):\n"
                "    __import__(module.name)\n    number += 1\n"
                "assert before == [*map(signal.getsignal, range(1, 64))]\nprint(number, found)\n")
        number = len(list(LIBRARY.rglob("*.py"))) - 1
        self.assertEqual(texts(sys.executable, "-I", "-c", code), (0, f"{number} []\n", ""))


class Commands(Case):
    """The line of each command if it is called without words."""

    @rows(("capture", "the following arguments are required: CAPTURE, FILE"),
          ("country", "the following arguments are required: MAP, SOURCE"),
          ("customers", "the following arguments are required: CSV"),
          ("fib", "usage: {0} [-6] linux [FILE] | {0} [-6] [--peer ADDRESS] mrt [FILE] | {0} --load TABLE [LIST] | "
                  "{0} [-6] --check TABLE"),
          ("lint",
           "usage: {0} MAP [ADDRESS..] | {0} --list LIST [ADDRESS..]"),
          ("lookup", "usage: {0} --pmap MAP <ADDRESSES | {0} --list LIST <ADDRESSES"),
          ("audit", "the following arguments are required: FILE"),
          ("bill", "the following arguments are required: FILE"),
          ("nfcapd", "the following arguments are required: FILE"),
          ("record", "the following arguments are required: ADDRESS, PORT, FOLDER"),
          ("table", "the following arguments are required: TABLE, SOURCE, FOLDER"))
    def test_no_words(self, name, line):
        more = " (--help prints more)" if line.startswith("usage: ") else ""
        output = "flowlabel-nfcapd has failed. This is no IPFIX File\n" if name == "nfcapd" else ""
        name, line = f"flowlabel-{name}", line.format(f"flowlabel-{name}")
        self.assertEqual(inside.texts(name.removeprefix("flowlabel-")), (2, output, f"{name}: {line}{more}\n"))
