"""Calls of the crates that tests/program/calls.py doesn't make: those that allocate nothing, or fail by a device.

A test inside a crate has the crate proved once more, which takes minutes and promises no more to a user. So the tests
are in tests/crates/calls, and `rt try` runs them without proof over copies of the crates: those of the libraries as a
crate of its own, with the examples of their lib.rt, and those of flow_io, flowlabel and flow_many, which need private
fields and calls, as modules of them. The programs' crates also have the texts of tests/program/worked.py as constants.

All tests of a crate are compiled at once, which takes a minute or two. So the log of a run in which all passed is kept
in a folder for temporary files, and read again until a source, a test or the toolchain changes.
"""

import functools
import hashlib
import os
import pathlib
import re
import shutil
import tempfile

from program import worked
from support import ROOT, Case, needs, read, run, write

CALLS = ROOT / "tests/crates/calls"
# Modules that several of these have.
SHARED = ROOT / "tests/crates/shared"
# A test has an hour: some take half a minute on an idle machine.
LIMIT = 3600
RESULT = re.compile(r"(?m)^test (\S+) \.\.\. (.*)$")


@functools.cache
def crates():
    """Returns the names of the crates."""
    return re.findall(r"(?m)^(\w+):", read(ROOT / "crates.txt"))


def libraries():
    """Returns the names of the crates whose public calls are tested."""
    return [name for name in crates() if name != "definition_examples" and not name.endswith("_main")]


def tests_below(folder):
    """Returns the names of the tests in the sources below a folder."""
    names = []
    for path in sorted(folder.rglob("*.rt.in")):
        module = str(path.relative_to(folder)).removesuffix(".rt.in").replace(os.sep, "::")
        names += [f"{module}::{name}" for name in re.findall(r"#\[test\]\s+fn (\w+)", read(path))]
    return names


def examples():
    """Returns the examples of the libraries, as modules by their names."""
    return {f"example_of_{crate}": text for crate in libraries() if (text := example_of(crate))}


def example_of(crate):
    """Returns the example at the top of a library as a module with a test, or an empty text. An example with a comment
    that describes a value, such as a row, can't run, since the value isn't there."""
    text = read(ROOT / "crates" / crate / "src/lib.rt")
    example = re.search(r"(?ms)^//! ```rust\n(.*?)^//! ```$", text)
    if not example or re.search(r"// `\w+` (?:is|takes) |row_of", example[1]):
        return ""
    lines = [re.sub(r"^//! ?", "", line) for line in example[1].splitlines()]
    uses, rest = ("\n".join(line for line in lines if line.startswith("use ") == is_use) for is_use in (True, False))
    return (f"use std::test::Fail;\n{uses}\n\n#[test]\nfn its_example_runs(rt: HostRuntime) -> Result<(), Fail> {{\n"
            f"    let alloc = rt.alloc();\n{rest}\n    Ok(())\n}}\n")


def constants():
    """Returns a module with the shorter texts of tests/program/worked.py."""
    texts = {name: text for name, text in vars(worked).items()
             if name.isupper() and isinstance(text, str) and len(text) < 2000}
    return "//! Worked inputs and outputs.\n" + "".join(
        'pub const {}: &str = "{}";\n'.format(name, text.replace(";", "\\n")) for name, text in texts.items())


def copy_tests(folder, to):
    """Copies the sources below a folder to another one. They have other names here, since the gate reads each .rt file
    of the repository as part of a crate."""
    for path in folder.rglob("*.rt.in"):
        target = to / path.relative_to(folder).with_suffix("")
        target.parent.mkdir(parents=True, exist_ok=True)
        shutil.copyfile(path, target)


def copy_crates(tree):
    """Copies the crates to a tree."""
    shutil.copyfile(ROOT / "HANDLES", tree / "HANDLES")
    shutil.copyfile(ROOT / "crates.txt", tree / "crates.txt")
    for crate in crates():
        for part in ("src", "specs", "proofs"):
            if (ROOT / "crates" / crate / part).exists():
                shutil.copytree(ROOT / "crates" / crate / part, tree / "crates" / crate / part)


def key_of(tree):
    """Returns a digest of all that a run depends on."""
    kit = pathlib.Path(shutil.which("rt")).resolve().parents[1]
    files = [kit / "KIT-ID", *sorted(path for path in tree.rglob("*") if path.is_file())]
    parts = [part for path in files for part in (str(path.relative_to(tree)) if tree in path.parents else str(path),
                                                 hashlib.sha256(path.read_bytes()).hexdigest())]
    return hashlib.sha256("\n".join(parts).encode()).hexdigest()


@needs("rt", in_ci=True)
class Calls(Case):
    """The tests of a crate."""
    is_long = True
    crate, names = None, ()

    def __init_subclass__(cls):
        super().__init_subclass__()
        for name in cls.names:
            setattr(cls, f"test_{name.replace('::', '_')}", lambda self, name=name: self.check(name))
        if cls.names:
            cls.test_each_test_is_a_case = cls.check_names

    @classmethod
    def prepare(cls):
        # Not inside the repository, whose gate expects one crates.txt.
        tree = pathlib.Path("tree").absolute()
        tree.mkdir()
        copy_crates(tree)
        cls.add_tests(tree / "crates" / cls.crate / "src")
        key = key_of(tree)
        digest = hashlib.sha256(bytes(ROOT)).hexdigest()[:16]
        kept = pathlib.Path(tempfile.gettempdir(), f"flowlabel-calls-{os.getuid()}-{digest}-{cls.crate}.log")
        cls.log = kept.read_text("utf-8", "replace") if kept.exists() else ""
        if not cls.log.startswith(key):
            words = ["rt", "try", "--test", "--seconds", str(LIMIT)]
            ended = run(*words, cwd=tree / "crates" / cls.crate, timeout=None)
            cls.log = f"{key}\n{(ended.stdout + ended.stderr).decode(errors='replace')}"
            if re.search(r"(?m)^test result: ok\.", cls.log):
                write(tree / "log", cls.log)
                shutil.move(tree / "log", kept)
        cls.results = dict(RESULT.findall(cls.log))
        if not cls.results:
            raise AssertionError(f"the tests of {cls.crate} didn't run: {cls.log[-4000:]}")

    def check(self, name):
        """Checks that a test passed."""
        if self.results.get(name) != "ok":
            said = re.search(rf"(?ms)^test {name} \.\.\. .*?(?=^test |\Z)", self.log)
            self.fail(said[0] if said else f"{name} didn't run: {self.log[-2000:]}")

    def check_names(self):
        """The names that were read from the sources are those of the tests that ran."""
        self.assertEqual(sorted(self.results), sorted(self.names))


class Modules(Calls):
    """Tests that are modules of a crate. A file tests.rt.in is in a folder with the module's name, or beside those
    folders for the root."""

    @classmethod
    def add_tests(cls, source):
        copy_tests(CALLS / cls.crate, source)
        for path in (CALLS / cls.crate).rglob("tests.rt.in"):
            module = path.parent.relative_to(CALLS / cls.crate)
            with open(source / (f"{module}.rt" if module.name else "lib.rt"), "a", encoding="utf-8") as file:
                file.write("\n#[cfg(test)]\nmod tests;\n")


class OfFlowIo(Modules):
    """Devices in memory, and readers and writers over others."""
    crate, names = "flow_io", tests_below(CALLS / "flow_io")


class OverMemory(Modules):
    """Tests of a crate with the commands of a program, which share the texts of tests/program/worked.py."""

    @classmethod
    def add_tests(cls, source):
        super().add_tests(source)
        write(source / "tests/worked.rt", constants())
        for name in ("hexadecimal", "memory_files"):
            shutil.copyfile(SHARED / f"{name}.rt.in", source / f"tests/{name}.rt")


class OfFlowlabel(OverMemory):
    """`parse`, `run` over memory, and the texts of faults."""
    crate, names = "flowlabel", tests_below(CALLS / "flowlabel")


class OfFlowMany(OverMemory):
    """`execute` over memory."""
    crate, names = "flow_many", tests_below(CALLS / "flow_many")


class OfLibraries(Calls):
    """Public calls of the libraries that allocate nothing, and the examples of all libraries."""
    crate = "calls"
    names = (*tests_below(CALLS / "libraries"), *(f"{name}::its_example_runs" for name in examples()))

    @classmethod
    def add_tests(cls, source):
        with open(source.parents[2] / "crates.txt", "a", encoding="utf-8") as file:
            file.write(f"calls: {' '.join(libraries())} byteorder\n")
        copy_tests(CALLS / "libraries", source)
        for name, text in examples().items():
            write(source / f"{name}.rt", text)
            with open(source / "lib.rt", "a", encoding="utf-8") as file:
                file.write(f"mod {name};\n")
