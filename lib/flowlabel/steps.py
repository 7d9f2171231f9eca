"""Changes that are made whole or not at all, for flowlabel-fib and flowlabel-table: their steps, and a lock. Other
commands also run programs by a step."""

from __future__ import annotations

import contextlib
import fcntl
import functools
import io
import os
import re
import signal
import subprocess
import time
from collections.abc import Callable, Iterator
from types import FrameType, TracebackType

from flowlabel import disk, process, programs

# The packages of Debian with the programs that change the kernel.
PACKAGES = {"ip": "iproute2", "ipset": "ipset", "bpftool": "bpftool", "nft": "nftables"}
# The number of lines that a program takes at a time.
LINES = 20000


class Steps:
    """The steps of a change. If one fails, or a signal comes, it and those before it are undone, the last one first.

    A signal only ends the program that runs. The steps look for it, so it comes neither within a step of this command
    nor while steps are undone.
    """

    def __init__(self) -> None:
        self.undoing: list[Callable[[], object]] = []
        self.rest: list[Callable[[], object]] = []
        self.handlers: dict[int, Callable[[int, FrameType | None], object] | int | None] = {}
        self.signal: int | None = None
        self.program: subprocess.Popen[str] | None = None
        self.is_quiet = False

    def __enter__(self) -> Steps:
        self.handlers = {number: signal.signal(number, self.note) for number in process.SIGNALS
                         if signal.getsignal(number) != signal.SIG_IGN}
        return self

    def note(self, number: int, _: FrameType | None) -> None:
        """Notes a signal, and ends the program that runs."""
        self.signal = number
        if self.program:
            self.program.terminate()

    def check(self) -> None:
        """Ends the change if a signal has come."""
        if self.signal and not self.is_quiet:
            raise process.Ended(self.signal)

    def quiet(self) -> None:
        """Ignores signals from now on, as do programs that are run."""
        self.is_quiet = True
        for number in self.handlers:
            signal.signal(number, signal.SIG_IGN)

    def __exit__(self, _: type[BaseException] | None, fault: BaseException | None, trace: TracebackType | None) -> None:
        self.quiet()
        if fault:
            left = attempt(self.undoing)
            if left and isinstance(fault, process.Failure):
                fault.args = (f"{fault}; undoing this failed: {left[0]}",)
            elif left:
                process.warn(f"undoing this failed: {left[0]}")
        else:
            for number, handler in self.handlers.items():
                signal.signal(number, handler)

    def undo(self, action: Callable[..., object], *words: object) -> None:
        """Names what undoes the next step, whether or not that step does anything before it fails."""
        self.undoing.append(functools.partial(action, *words))
        self.check()

    def at_end(self, action: Callable[..., object], *words: object) -> None:
        """Names what remains to do when nothing can fail any more."""
        self.rest.append(functools.partial(action, *words))

    def finish(self) -> None:
        """Ends the change: it is whole. What then fails is only reported."""
        self.check()
        self.quiet()
        self.undoing.clear()
        for why in attempt(self.rest):
            process.warn(f"all is done, but removing what was there before failed: {why}")

    def run(self, *words: str, package: str = "", stdin: str = "", silent: bool = False) -> str:
        """Runs a program, which is in a package of Debian, and returns its output. The first line that it prints is the
        reason if it fails. A `silent` one also fails if it prints a line on standard error."""
        self.check()
        programs.need(words[0], package or PACKAGES[words[0]])
        with subprocess.Popen(words, stdin=subprocess.PIPE, stdout=subprocess.PIPE, stderr=subprocess.PIPE, text=True,
                              errors="surrogateescape") as self.program:
            try:
                # A signal may have come while the program was started.
                if self.signal and not self.is_quiet:
                    self.program.terminate()
                output, said = self.program.communicate(stdin)
            except BaseException:
                # Outside `with`, a signal ends the script here, and all later signals are ignored.
                self.program.kill()
                raise
        status, self.program = self.program.returncode, None
        self.check()
        if status or silent and said:
            why = (said.strip() or output.strip() or f"the status is {status}").splitlines()
            # ip names the line of its input by its number.
            number = re.fullmatch(r"Command failed -:(\d+)", why[-1])
            what = "ip " + stdin.split("\n")[int(number[1]) - 1] if number else " ".join(words[:6])
            raise process.Failure(f"{what}: {why[0]}")
        return output

    def ip(self, *words: str, silent: bool = False) -> str:
        """Runs ip, and returns its output. The kernel has no table without routes, so there is no output then."""
        try:
            return self.run("ip", *words, silent=silent)
        except process.Failure as fault:
            if "FIB table does not exist" not in str(fault):
                raise
            return ""

    def batch(self, *words: str, lines: list[str], silent: bool = False) -> None:
        """Runs ip over lines, some at a time, since ip 6.1 uses 4 KB of memory for each."""
        for start in range(0, len(lines), LINES):
            some = "".join(f"{line}\n" for line in lines[start:start + LINES])
            self.run("ip", *words, "-batch", "-", stdin=some, silent=silent)

    def replace(self, name: str) -> None:
        """Replaces a file by NAME_new."""
        old = f"{name}_old"
        disk.refuse_other(old)
        disk.remove(old)
        if os.path.exists(name):
            self.undo(disk.remove, old)
            self.at_end(disk.remove, old)
            os.link(name, old)
            self.undo(os.replace, old, name)
        else:
            self.undo(disk.remove, name)
        os.replace(f"{name}_new", name)

    def write(self, name: str, text: bytes) -> None:
        """Writes a file in one step. Its folder is made if it doesn't exist."""
        self.make(os.path.dirname(name))
        for place in (name, f"{name}_new"):
            disk.refuse_other(place)
        self.undo(disk.remove, f"{name}_new")
        disk.remove(f"{name}_new")
        try:
            # A link that is planted there meanwhile isn't followed.
            with open(f"{name}_new", "xb") as file:
                file.write(text)
        except OSError as fault:
            # A full disk has no name.
            fault.filename = fault.filename or name
            raise
        self.replace(name)

    def make(self, folder: str) -> None:
        """Makes a folder if it doesn't exist."""
        if folder and not os.path.isdir(folder):
            self.make(os.path.dirname(folder))
            os.mkdir(folder)
            self.undo(os.rmdir, folder)


def attempt(actions: list[Callable[[], object]]) -> list[str]:
    """Does what must not end the command, from the last action on. Returns why some of the actions failed."""
    failed = []
    while actions:
        try:
            actions.pop()()
        except (process.Failure, OSError) as fault:
            failed.append(str(fault))
    return failed


def take(place: str) -> io.TextIOWrapper:
    """Opens the file of a lock, which no other user can open, when no other call has it."""
    file = open(place, "r+", encoding="utf-8",
                opener=lambda name, _: os.open(name, os.O_RDWR | os.O_CREAT | os.O_NOFOLLOW, 0o600))
    # Most calls are short, so only a longer wait is reported.
    for _ in range(100):
        with contextlib.suppress(BlockingIOError):
            fcntl.flock(file, fcntl.LOCK_EX | fcntl.LOCK_NB)
            return file
        time.sleep(0.05)
    process.warn("another call runs, and this one waits for it")
    fcntl.flock(file, fcntl.LOCK_EX)
    return file


@contextlib.contextmanager
def locked(name: str, folder: str = "") -> Iterator[io.TextIOWrapper]:
    """Waits until no other call has the lock of this name, and yields its file. That of root is in /run. Another user,
    who can't change the kernel, has a lock in FOLDER, or none."""
    if os.geteuid() == 0 or not folder:
        with take(f"/run/flowlabel-{name}.lock") if os.geteuid() == 0 else open(os.devnull, encoding="utf-8") as file:
            yield file
        return
    place, made = os.path.join(folder, ".lock"), [os.path.abspath(folder)]
    while not os.path.isdir(made[-1]):
        made.append(os.path.dirname(made[-1]))
    held: io.TextIOWrapper | None = None
    try:
        while not held:
            os.makedirs(folder, exist_ok=True)
            # The call before this one removes the file, and perhaps FOLDER.
            with contextlib.suppress(FileNotFoundError):
                taken = take(place)
                held = taken if os.path.samestat(os.fstat(taken.fileno()), os.stat(place)) else None
        with held:
            try:
                yield held
            finally:
                disk.remove(place)
    finally:
        attempt([functools.partial(os.rmdir, each) for each in reversed(made[:-1])])
