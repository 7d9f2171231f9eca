"""Namespaces of its own for a class of tests, with all that it does to networks, files and processes."""

import contextlib
import ctypes
import os
import shlex
import subprocess
import tempfile
import unittest

from support import Case

# The namespaces by their names in /proc/self/ns, with the flags of unshare(2).
SPACES = {"mnt": 0x00020000, "net": 0x40000000, "pid": 0x20000000}


class Isolated(Case):
    """Tests in namespaces of their own. /run is empty, and has the working folder.

    The process that runs the tests enters the namespaces, and leaves them after the class. However it ends, the kernel
    then ends all processes that it has started, and removes whatever they made. It isn't in their namespace of
    processes, so it knows them by other numbers than they know each other, and it can start no threads.
    """

    spaces = ("mnt", "net", "pid")
    # Whether the tests are skipped if no namespaces can be made.
    is_needed = True
    # Commands that show what the kernel has. If one of them fails, the tests are skipped.
    kernel = ()

    @classmethod
    def setUpClass(cls):
        stack = contextlib.ExitStack()
        cls.addClassCleanup(stack.close)
        try:
            enter(stack, cls.spaces)
            cls.is_isolated = True
        except OSError as why:
            stack.close()
            cls.is_isolated = False
            if cls.is_needed:
                raise unittest.SkipTest(f"no namespaces can be made: {why}") from None
        if command := refused(cls.kernel):
            raise unittest.SkipTest(f"`{command}` fails")
        super().setUpClass()


def enter(stack, spaces):
    """Enters new namespaces, which are left when the stack is closed."""
    outside = [stack.enter_context(open(f"/proc/self/ns/{name}", "rb")) for name in spaces]
    stack.callback(os.chdir, os.getcwd())
    call("unshare", sum(SPACES[name] for name in spaces))
    for file in outside:
        stack.callback(call, "setns", file.fileno(), 0)
    if "pid" in spaces:
        stack.enter_context(first_process())
    if command := refused(("mount --make-rprivate /", "mount -t tmpfs none /run",
                           *(["ip link set lo up"] if "net" in spaces else []))):
        raise OSError(f"`{command}` fails")
    stack.callback(setattr, tempfile, "tempdir", tempfile.tempdir)
    tempfile.tempdir = "/run"


def call(name, *words):
    """Calls a function of C that returns 0 unless it fails."""
    library = ctypes.CDLL(None, use_errno=True)
    if getattr(library, name)(*words):
        raise OSError(ctypes.get_errno(), f"{name}: {os.strerror(ctypes.get_errno())}")


@contextlib.contextmanager
def first_process():
    """Starts the first process of a namespace, with which the kernel ends all others. It ends when nobody has the other
    end of its standard input, so also if this process is killed."""
    reading, writing = os.pipe()
    first = os.posix_spawnp("cat", ["cat"], os.environ, file_actions=[(os.POSIX_SPAWN_DUP2, reading, 0)])
    os.close(reading)
    try:
        yield
    finally:
        os.close(writing)
        # The first process ends as the last one, so those that a failed test has left are waited for, too.
        while os.wait()[0] != first:
            pass


def refused(commands):
    """Returns the first of some commands that fails, or None."""
    for command in commands:
        try:
            subprocess.run(shlex.split(command), stdin=subprocess.DEVNULL, capture_output=True, check=True)
        except (subprocess.SubprocessError, OSError):
            return command
    return None
