"""What tests share: the program, folders of their own, command lines with what they print, and small IPFIX Files.

A test module is `test_*.py` in a folder of tests/. It has classes that derive `Case`, and does nothing when it is
imported. tests/run.py runs them, as any runner of unittest does that has tests/ on its path.
"""

import contextlib
import functools
import os
import pathlib
import re
import shlex
import shutil
import signal
import subprocess
import sys
import tempfile
import types
import unittest

ROOT = pathlib.Path(__file__).resolve().parents[2]
# The programs that `make` builds, and those that `make trial` builds without proof, by the variables that name others.
PROGRAMS = {"FLOWLABEL": (ROOT / "crates/flowlabel_main/out/flowlabel_main", ROOT / "out/trial/flowlabel"),
            "FLOWLABEL_MANY": (ROOT / "crates/flow_many_main/out/flow_many_main", ROOT / "out/trial/flowlabel-many")}
# A run that takes more seconds is taken to run forever.
FOREVER = 3600
# A template of the elements 8, 12, 4, 2 and 1 as a set, a record under it, the header of rows, and the record's row.
TEMPLATE_SET = "0002001c 01000005 00080004 000c0004 00040001 00020004 00010004"
RECORD = "0a000001 08080808 06 00000003 000000b4"
TITLE = "sip|dip|sport|dport|proto|flags|packets|bytes|stime|etime\n"
ROW = "10.0.0.1|8.8.8.8|0|0|6|0|3|180|0|0\n"


def chosen_program(variable):
    """Returns the program that is tested: the one that a variable names, else the younger of `PROGRAMS`, or an empty
    text if none of them exists."""
    if named := os.environ.get(variable):
        return os.path.abspath(shutil.which(named) or named)
    there = [path for path in PROGRAMS[variable] if path.exists()]
    return str(max(there, key=lambda path: path.stat().st_mtime)) if there else ""


def begin():
    """Gives tests the same beginning, whoever starts them. nohup ignores SIGHUP, `make` passes variables on, and a
    mask or a signal that is ignored here would be so in all that a test starts."""
    for number in (signal.SIGHUP, signal.SIGQUIT, signal.SIGTERM, signal.SIGUSR1, signal.SIGUSR2, signal.SIGCHLD):
        signal.signal(number, signal.SIG_DFL)
    signal.signal(signal.SIGINT, signal.default_int_handler)
    signal.pthread_sigmask(signal.SIG_SETMASK, ())
    os.umask(0o022)
    for name in ("MAKEFLAGS", "MFLAGS", "MAKELEVEL", "MAKEOVERRIDES", "PYTHONUNBUFFERED", "COLUMNS", "T", "JOBS",
                 "LIMIT"):
        os.environ.pop(name, None)
    os.environ["LC_ALL"] = "C"
    # LD_PRELOAD can't name a library in a folder with a blank or a colon.
    if re.search(r"[\s:]", tempfile.gettempdir()):
        tempfile.tempdir = os.environ["TMPDIR"] = "/tmp"
    # Nothing is written beside the sources.
    os.environ["PYTHONDONTWRITEBYTECODE"] = "1"
    sys.dont_write_bytecode = True


begin()
os.environ.update({variable: chosen_program(variable) for variable in PROGRAMS})
PROGRAM, MANY = map(os.environ.get, PROGRAMS)


def rows(*table):
    """Makes a test for each row of a table. Its name ends with the number and the first value of the row."""
    def mark(test):
        test.rows = table
        return test
    return mark


def one(test, row):
    """Returns the test of one row."""
    return lambda self: test(self, *row)


# The programs by the names that command lines have.
BY_NAME = {"flowlabel": PROGRAM, "flowlabel-many": MANY}


def program_of(words):
    """Returns the name of the program of a command line, and the words after it. A line that doesn't begin with
    `flowlabel-many` is one of flowlabel, which it doesn't name."""
    return (words[0], words[1:]) if words and words[0] == "flowlabel-many" else ("flowlabel", words)


def needs(*programs, in_ci=False):
    """Skips a test or a class that lacks one of these programs, but not in CI if CI must have them. Of .ci/run by hand
    CI is `local`, and anything may be missing."""
    missing = [program for program in programs if not shutil.which(program)]
    is_required = in_ci and (os.environ.get("CI") or "local") != "local"
    return unittest.skipIf(missing and not is_required, f"there is no {' and no '.join(missing)}")


def not_in_ci(why):
    """Skips a test or a class in CI, and says why."""
    return unittest.skipIf(os.environ.get("CI"), f"not in CI: {why}")


class Case(unittest.TestCase):
    """Tests that share a folder of their own, in which they run."""

    maxDiff = 4000
    # Whether tests/run.py runs nothing beside these tests, and whether it begins with them, since they take long.
    is_alone = is_long = False

    def __init_subclass__(cls):
        super().__init_subclass__()
        for name in dir(cls):
            test = getattr(cls, name)
            table = getattr(test, "rows", None)
            if table is None:
                continue
            # The test may be one of a class that isn't a Case, whose tests several classes share.
            setattr(cls, name, None)
            for number, row in enumerate(table):
                what = re.sub(r"\W+", "_", str(row[0]))[:40].strip("_")
                setattr(cls, f"{name}_{number:02}_{what}", one(test, row))

    @classmethod
    def setUpClass(cls):
        folder = tempfile.TemporaryDirectory(prefix="flowlabel-test-")
        cls.addClassCleanup(folder.cleanup)
        cls.addClassCleanup(os.chdir, ROOT)
        os.chdir(folder.name)
        cls.prepare()

    @classmethod
    def prepare(cls):
        """Makes the files of the tests, in the working folder."""

    def expect(self, line, status, out="", err="", before="", after="", stdout=subprocess.PIPE):
        """Checks how a command line of a program ends. The line is split at its spaces if it is not a list of words.

        A shell runs it. `before` is what the shell does first, and `after` is where the streams go. `out` and `err` are
        texts or patterns.
        """
        program, words = program_of(line.split() if isinstance(line, str) else line)
        ended = run("sh", "-c", f'{before}exec "$0" "$@" {after}', BY_NAME[program], *words, stdout=stdout)
        with self.subTest(line=f"{before}{shlex.join([program, *words])} {after}".strip()):
            self.assert_text(ended.stderr, err)
            self.assert_text(ended.stdout or b"", out)
            self.assertEqual(ended.returncode, status, "the exit status")

    def assert_text(self, found, wanted):
        """Checks that bytes are those of a text, or match a pattern."""
        if isinstance(wanted, re.Pattern):
            text = found if isinstance(wanted.pattern, bytes) else found.decode("utf-8", "surrogateescape")
            self.assertTrue(wanted.fullmatch(text), f"{found[:2000]!r} doesn't match {wanted.pattern!r}")
        else:
            wanted = wanted if isinstance(wanted, bytes) else wanted.encode()
            if found != wanted:
                self.assertEqual(found.decode("utf-8", "backslashreplace"), wanted.decode("utf-8", "backslashreplace"))
                self.assertEqual(found, wanted)


def run(*words, **options):
    """Runs a command, and returns how it ended, with its output as bytes. The options are those of subprocess.run."""
    if isinstance(options.get("input"), str):
        options["input"] = options["input"].encode()
    return subprocess.run([*map(os.fspath, words)], **{
        "stdin": None if "input" in options else subprocess.DEVNULL, "stdout": subprocess.PIPE,
        "stderr": subprocess.PIPE, "timeout": FOREVER, "check": False, **options})


def outcome(*words, variables=(), **options):
    """Runs a command, with some more variables, and returns its status and its two outputs as bytes."""
    ended = run(*words, env={**os.environ, **dict(variables)}, **options)
    return ended.returncode, ended.stdout, ended.stderr


def texts(*words, **options):
    """Returns the status of a command and its two outputs as texts. The options are those of `outcome`."""
    status, *outputs = outcome(*words, **options)
    return status, *((output or b"").decode("utf-8", "backslashreplace") for output in outputs)


@contextlib.contextmanager
def closed_pipe():
    """Yields the end of a pipe that nobody reads."""
    reading, writing = os.pipe()
    os.close(reading)
    try:
        yield writing
    finally:
        os.close(writing)


def command(name):
    """Returns the file of a command `flowlabel-NAME`."""
    return ROOT / f"bin/flowlabel-{name}"


def write(name, content):
    """Makes a file, of bytes or of a text, and the folders that it needs. Returns its name."""
    os.makedirs(os.path.dirname(name) or ".", exist_ok=True)
    with open(name, "wb") as file:
        file.write(content if isinstance(content, bytes) else content.encode())
    return name


def write_program(name, text):
    """Makes a program in the working folder, and returns its whole name."""
    os.chmod(write(name, text), 0o755)
    return os.path.abspath(name)


def stand_in(name, text):
    """Makes a program in the folder `bin`, and returns the variable PATH with this folder first."""
    return {"PATH": f"{os.path.dirname(write_program(f'bin/{name}', text))}:{os.environ['PATH']}"}


def read(name):
    """Returns the text of a file."""
    with open(name, encoding="utf-8") as file:
        return file.read()


def read_bytes(name):
    """Returns the bytes of a file."""
    with open(name, "rb") as file:
        return file.read()


def load(path):
    """Returns a script as a module, whatever its suffix. Its name isn't `__main__`, so it only defines things."""
    module = types.ModuleType(os.path.basename(path))
    module.__file__ = os.fspath(path)
    exec(compile(read(path), path, "exec"), vars(module))
    return module


def made(script, *words):
    """Makes an input with a script of bench/, whose last word is its name in the working folder."""
    subprocess.run([sys.executable, ROOT / "bench" / script, *map(str, words)], check=True)


def message(*sets):
    """Returns a message with these sets in hexadecimal digits."""
    body = bytes.fromhex("".join(sets))
    return bytes.fromhex(f"000a{16 + len(body):04x} 60000000 00000000 00000001") + body


def data_set(number, *records):
    """Returns a data set of these records, all in hexadecimal digits."""
    body = bytes.fromhex("".join(records))
    return f"{number:04x}{4 + len(body):04x}{body.hex()}"


@functools.cache
def preloaded(source):
    """Builds a library for LD_PRELOAD from a source of tests/ with the toolchain's compiler, and returns its name."""
    library = os.path.join(tempfile.mkdtemp(dir=os.getcwd()), "preloaded.so")
    kit = os.path.dirname(os.path.dirname(os.path.realpath(shutil.which("rt"))))
    subprocess.run([os.path.join(kit, "toolchain/bin/clang"), "-shared", "-fPIC", "-O1", "-ffreestanding", "-nostdlib",
                    "-fuse-ld=lld", "-o", library, ROOT / "tests" / source], check=True)
    return library


def system():
    """Returns the name of the library that reports and fails calls to the system."""
    return preloaded("support/system.c")


def instructions(line, numbers):
    """Returns the instructions that a run executes, by valgrind. `numbers` are the hash numbers that it gets."""
    program, words = program_of(line.split())
    ended = run("valgrind", "--tool=cachegrind", "--cache-sim=no", "--cachegrind-out-file=/dev/null", BY_NAME[program],
                *words, env={"PATH": os.environ["PATH"], "LD_PRELOAD": system(), "RANDOM": numbers},
                stdout=subprocess.DEVNULL)
    return int(re.findall(rb"I\s+refs:\s+([\d,]+)", ended.stderr)[-1].replace(b",", b""))
