"""How a command begins and ends: its launcher, faults, signals, exit status, and what it prints.

The exit status is

- 0 if all was done;
- 1 if an input or the result is refused, or another program failed;
- 2 if the command line is faulty;
- 3 if memory runs out;
- 4 if a file can't be opened, read or written;
- 125 if there is no flowlabel. If flowlabel fails, its status;
- 128 and its number if a signal ends the command: 129 by SIGHUP, 130 by Ctrl-C, 141 by a closed pipe, 143 by SIGTERM.
"""

from __future__ import annotations

import os
import signal
import sys

# At the start of a command the module typing alone would take a twentieth of the time. Only mypy reads this.
TYPE_CHECKING = False
if TYPE_CHECKING:
    from collections.abc import Callable, Iterable, Sequence
    from types import FrameType
    from typing import NoReturn

SIGNALS = (signal.SIGINT, signal.SIGTERM, signal.SIGHUP)
# Lines on standard error begin with this name, however the command is called.
name = "flowlabel"


class Failure(Exception):
    """The reason why a command fails, and its exit status."""

    def __init__(self, why: object, status: int = 1) -> None:
        super().__init__(why)
        self.status = status


class Ended(BaseException):
    """A signal that ends the command. What is half done is undone on the way."""


def start(launcher: str) -> NoReturn:
    """Runs the command that a launcher is named after, and ends the process."""
    hold_streams()
    program = os.path.basename(os.path.realpath(launcher))
    module = f"flowlabel.commands.{program.removeprefix('flowlabel-')}"
    __import__(module)
    try:
        for number in SIGNALS:
            # nohup ignores SIGHUP.
            if number != signal.SIGHUP or signal.getsignal(number) != signal.SIG_IGN:
                signal.signal(number, end)
        status = status_of(program, sys.modules[module].main, sys.argv[1:])
        ignore_signals()
    except Ended as ended:
        status = -int(ended.args[0])
    if status < 0:
        # The process ends by the signal, as if the command had not caught it.
        signal.signal(-status, signal.SIG_DFL)
        os.kill(os.getpid(), -status)
    sys.exit(status)


def hold_streams() -> None:
    """Opens the standard streams that are closed, so that no file gets their numbers. Reads and writes of them fail."""
    for stream in range(3):
        try:
            os.fstat(stream)
        except OSError:
            os.set_inheritable(os.open(os.devnull, os.O_RDONLY if stream else os.O_WRONLY), True)


def ignore_signals() -> None:
    """Has nothing interrupt the command any more."""
    for number in SIGNALS:
        signal.signal(number, signal.SIG_IGN)


def end(number: int, _: FrameType | None) -> NoReturn:
    """Ends the command by a signal. Nothing interrupts what undoes its steps."""
    # Of a second signal at the same time Python would report that it is ignored.
    sys.unraisablehook = lambda _: None
    ignore_signals()
    raise Ended(number)


def status_of(program: str, main: Callable[[list[str]], int], words: Sequence[str]) -> int:
    """Runs the `main` of a command with some words. Returns its exit status, or minus the number of a signal that ends
    it. A failure is one line on standard error."""
    global name
    name, status = program, 1
    try:
        status = main([*words])
        flush()
    except SystemExit as ended:
        status = int(ended.code or 0)
    except Ended as ended:
        return -int(ended.args[0])
    except Failure as fault:
        status = fault.status
        warn(str(fault))
    except MemoryError:
        status = 3
        warn("out of memory")
    except BrokenPipeError:
        return -signal.SIGPIPE
    except OSError as fault:
        status = 4
        where = "standard input" if fault.filename == 0 else os.fsdecode(fault.filename or "")
        warn(f"{where}: {fault.strerror}" if where else f"{fault.strerror or fault}")
    try:
        flush()
    except BrokenPipeError:
        return -signal.SIGPIPE
    except Failure as fault:
        if status == 0:
            status = fault.status
            warn(str(fault))
    return status


def shown(text: object) -> str:
    """Returns a text whose unprintable characters are escapes, so that it is in one line."""
    text = str(text)
    return text if text.isprintable() else "".join(
        c if c.isprintable() else f"\\x{ord(c):02x}" if ord(c) < 0x100 else f"\\u{ord(c):04x}" for c in text)


def write(parts: Iterable[bytes]) -> None:
    """Writes bytes to standard output. If nobody reads them, the command ends silently."""
    if sys.stdout is None:
        raise Failure("output: it is closed", 4)
    try:
        sys.stdout.buffer.writelines(parts)
    except OSError as fault:
        give_up(fault)


def flush() -> None:
    """Writes what standard output keeps."""
    try:
        if sys.stdout is not None:
            sys.stdout.flush()
    except OSError as fault:
        give_up(fault)


def give_up(fault: OSError) -> NoReturn:
    """Gives standard output up after a fault, since Python would write once more at the end, and names it."""
    sys.stdout = None  # type: ignore[assignment]
    if isinstance(fault, BrokenPipeError):
        raise fault
    raise Failure(f"output: {fault.strerror}", 4) from None


def say(*parts: object) -> None:
    """Writes a line of texts and bytes to standard output."""
    write([b"".join(part if isinstance(part, bytes) else os.fsencode(str(part)) for part in parts) + b"\n"])


def warn(line: object) -> None:
    """Prints one line on standard error, after the name of the command."""
    say_error(f"{name}: {shown(line)}\n".encode(errors="backslashreplace"))


def warn_all(lines: Sequence[str], what: str = "more") -> None:
    """Prints the first 20 of some lines on standard error, and how many more there are."""
    for line in [*lines[:20], *[f"and so in {len(lines) - 20} {what}"] * (len(lines) > 20)]:
        warn(line)


def say_error(said: bytes) -> None:
    """Prints bytes on standard error."""
    try:
        # Nothing is kept, which Python would write once more at the end.
        os.write(2, said)
    except OSError:
        pass
