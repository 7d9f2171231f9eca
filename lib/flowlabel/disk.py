"""Opens and replaces files, without following what others plant."""

from __future__ import annotations

import contextlib
import errno
import os
import stat
import sys

from .process import Failure

TYPE_CHECKING = False
if TYPE_CHECKING:
    from collections.abc import Iterator
    from io import BufferedReader
    from typing import BinaryIO


def refuse_other(name: str) -> None:
    """Refuses to replace what isn't a regular file, such as a device or a link."""
    if os.path.lexists(name) and not stat.S_ISREG(os.lstat(name).st_mode):
        raise Failure(f"{name}: not a regular file, so it isn't replaced")


def opened(name: str | None = None) -> tuple[BufferedReader, str]:
    """Opens a file, or for - or no name standard input, to read its bytes. Returns it and how messages name it."""
    if name is None or name == "-":
        if sys.stdin is None:
            raise Failure("standard input: it is closed", 4)
        return open(0, "rb", closefd=False), "standard input"
    return open(name, "rb"), name


def regular(name: str, follow: bool = False) -> BinaryIO:
    """Opens a regular file to read its bytes. A pipe isn't waited for, and a link isn't followed unless this is wanted,
    no matter who plants them or when."""
    wanted = os.O_NONBLOCK if follow else os.O_NONBLOCK | os.O_NOFOLLOW
    try:
        file = open(name, "rb", opener=lambda path, flags: os.open(path, flags | wanted))
    except OSError as fault:
        if fault.errno != errno.ELOOP:
            raise
        raise Failure(f"{name}: not a regular file") from None
    if not stat.S_ISREG(os.fstat(file.fileno()).st_mode):
        file.close()
        raise Failure(f"{name}: not a regular file")
    return file


def checksum(file: BinaryIO) -> bytes:
    """Returns the checksum of an open file, as `b2sum -l 256` prints it."""
    import hashlib
    found = hashlib.blake2b(digest_size=32)
    while chunk := file.read(1 << 20):
        found.update(chunk)
    return found.hexdigest().encode()


def remove(name: str) -> None:
    """Removes a file if there is one."""
    with contextlib.suppress(FileNotFoundError):
        os.unlink(name)


@contextlib.contextmanager
def replacing(name: str) -> Iterator[BinaryIO]:
    """Opens a new binary file, which replaces the file NAME in one step if the block ends well. Otherwise NAME is as it
    was, also if a signal ends the command."""
    refuse_other(name)
    part = f"{name}.{os.getpid()}.part"
    with contextlib.ExitStack() as undoing:
        try:
            with open(part, "xb") as file:
                # Only what was made here is removed.
                undoing.callback(remove, part)
                if os.path.exists(name):
                    os.fchmod(file.fileno(), stat.S_IMODE(os.stat(name).st_mode))
                yield file
                file.flush()
                os.fsync(file.fileno())
            os.replace(part, name)
        except OSError as fault:
            if fault.filename not in (None, part):
                raise
            raise OSError(fault.errno, fault.strerror, name) from None
