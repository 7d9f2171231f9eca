"""Runs of a command in the process of the test, without the start of Python, which takes most of the time of a short
one. A test whose subject is a process (signals, launchers, closed pipes, two runs at once) starts one instead."""

import contextlib
import importlib
import io
import os
import signal
import sys
import tempfile

from support import ROOT

LIBRARY = os.fspath(ROOT / "lib")


def module(name):
    """Returns a module of the package flowlabel, such as `commands.bill`."""
    if "flowlabel" not in sys.modules:
        sys.path.insert(0, LIBRARY)
        importlib.import_module("flowlabel")
        sys.path.remove(LIBRARY)
    return importlib.import_module(f"flowlabel.{name}")


def outcome(name, *words, input=b"", variables=(), stdout=None):
    """Runs a command `flowlabel-NAME` with some more variables, and returns its status and its two outputs as bytes.
    Standard output may be a file. A status below 0 is minus the number of a signal that would end the process."""
    process, command = module("process"), module(f"commands.{name}")
    given = input.encode() if isinstance(input, str) else input
    with contextlib.ExitStack() as stack:
        streams = [stack.enter_context(tempfile.TemporaryFile()) for _ in range(3)]
        streams[0].write(given)
        streams[0].seek(0)
        kept = dict(os.environ)
        stack.callback(restore, kept)
        os.environ.update(variables)
        # A change that fails leaves the signals ignored.
        for number in process.SIGNALS:
            stack.callback(signal.signal, number, signal.getsignal(number))
        with redirected(streams[0], stdout or streams[1], streams[2]):
            status = process.status_of(f"flowlabel-{name}", command.main, [*map(os.fspath, words)])
        for file in streams[1:]:
            file.seek(0)
        return status, streams[1].read(), streams[2].read()


def texts(name, *words, **options):
    """Returns the status of a run and its two outputs as texts. The options are those of `outcome`."""
    status, *outputs = outcome(name, *words, **options)
    return status, *(output.decode("utf-8", "backslashreplace") for output in outputs)


def restore(variables):
    """Gives the environment these variables again."""
    os.environ.clear()
    os.environ.update(variables)


@contextlib.contextmanager
def redirected(*files):
    """Connects the standard streams, those of programs that are started too, with three files."""
    before = sys.stdin, sys.stdout, sys.stderr
    with contextlib.ExitStack() as stack:
        for stream, file in enumerate(files):
            kept = os.dup(stream)
            stack.callback(os.close, kept)
            stack.callback(os.dup2, kept, stream)
            os.dup2(file.fileno(), stream)
        sys.stdin, sys.stdout, sys.stderr = (
            io.TextIOWrapper(open(stream, mode, closefd=False), "utf-8", "surrogateescape", write_through=stream == 2)
            for stream, mode in enumerate(("rb", "wb", "wb")))
        try:
            yield
        finally:
            for stream in (sys.stdout, sys.stderr):
                with contextlib.suppress(OSError, AttributeError):
                    stream.flush()
            sys.stdin, sys.stdout, sys.stderr = before
