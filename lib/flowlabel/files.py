"""IPFIX Files: which of them are meant, what flowlabel-many prints of them, and what a file is that it refuses."""

from __future__ import annotations

import collections
import fcntl
import fnmatch
import itertools
import os
import re
import signal
import stat
import subprocess

from flowlabel import disk, process, programs

TYPE_CHECKING = False
if TYPE_CHECKING:
    import argparse
    from collections.abc import Iterator
    from typing import IO, BinaryIO

# How a compressed file begins, the program that made it, and the one that reads it.
COMPRESSED = ((rb"\x1f\x8b", "gzip", "zcat"), (rb"\x28\xb5\x2f\xfd", "zstd", "zstdcat"), (rb"\xfd7zXZ", "xz", "xzcat"),
              (rb"BZh[1-9]", "bzip2", "bzcat"))
PCAP = rb"\xd4\xc3\xb2\xa1|\xa1\xb2\xc3\xd4|\x4d\x3c\xb2\xa1|\xa1\xb2\x3c\x4d|\x0a\x0d\x0d\x0a"
SFLOW = rb"\0\0\0[\x02\x04\x05]\0\0\0[\x01\x02]"
# How a file begins that is no IPFIX File, with the cause and the cure.
NO_FILES = (
    *((form, f"It is compressed by {name}. Use {cat} FILE >whole.ipfix") for form, name, cat in COMPRESSED),
    (PCAP, "It is a packet capture (pcap). flowlabel-capture makes a File of its flows. If its packets are the "
     "messages of an exporter, use the lines for tshark in examples/README.md"),
    (rb"\x0c\xa5|\xa5\x0c", "It is a file of nfcapd. Use flowlabel-nfcapd FILE >flows.ipfix"),
    (rb"\0[\x01\x05\x07\x08]", "It is NetFlow version {version}. Have the exporter send IPFIX (version 10), or collect "
     "version 5 with nfcapd, and use flowlabel-nfcapd"),
    (rb"\0\x09", "It is NetFlow version 9. Collect it with nfcapd, and use flowlabel-nfcapd, or have the exporter send "
     "IPFIX (version 10), such as softflowd with -v 10"),
    (SFLOW, "It is sFlow. Collect it with sfcapd, and use flowlabel-nfcapd"),
    (rb"\xde\xad\xbe\xef", "It is a file of SiLK. Convert it with rwsilk2ipfix"),
    (rb"PK\x03\x04", "It is a zip archive. Unpack it"),
    (rb"\0{16}", "It begins with zero bytes. The recording has failed, or the disk was full"),
    (rb"[\t\n\r -~]{4}", "It is a text. Pass the IPFIX File here, and a map with --pmap"),
    (rb"(?!\0\x0a)", "It is no IPFIX File, which begins with the bytes 00 0a"),
)
CUT = "The recording ended within a message. head -c {message} FILE >whole.ipfix keeps the messages before it"
LOST = ("Bytes were lost or inserted between two messages. head -c {message} FILE >whole.ipfix keeps the messages "
        "before them")
DAMAGED = "The bytes are damaged, or the exporter is faulty. head -c {message} FILE >whole.ipfix keeps the messages " \
          "before this one"
# The usual cause of each fault of a File, with the cure.
CAUSES = {
    "F1": CUT, "F2": LOST, "F3": LOST, "F4": CUT, "F5": DAMAGED, "F6 X1": DAMAGED, "F6 X3": DAMAGED,
    "F6 X2": "The exporter pads template sets with four or more zero bytes. Update it",
    "F7": "Files of several sessions were joined, perhaps: read them one by one. " + DAMAGED,
    "F9": "It has too many messages. Cut it before a message in which the exporter sends its templates again",
    "S3": "A flow begins after the year 9999, so its time is wrong. Leave out --by",
}
FAULT = re.compile(r"(?m)^flowlabel(?:-many)?: (.*): ([FMS]\d+) \w+( X\d)? at (\d+)$")
# So many bytes of names fit into a command line, and so many bytes of Files are worth a process of their own.
NAMES, WORTH = 1 << 20, 1 << 24


class File:
    """A File: its name, and which bytes it had at first."""

    def __init__(self, name: str, is_named: bool) -> None:
        # A name that begins with a dash is no option.
        self.name, self.is_named = f"./{name}" if name.startswith("-") else name, is_named
        with disk.regular(self.name, follow=is_named) as file:
            found, self.is_written, header = os.fstat(file.fileno()), is_written(file), file.read(16)
        self.size, self.state = found.st_size, state_of(found)
        # The time at which the first message was exported.
        self.time = int.from_bytes(header[4:8], "big") if header[:2] == b"\0\x0a" else 0

    def __str__(self) -> str:
        return self.name

    def check(self) -> None:
        """Fails if the File has changed since."""
        if state_of(os.stat(self.name)) != self.state:
            raise process.Failure(f"{self}: it has changed meanwhile")


def state_of(found: os.stat_result) -> tuple[int, int, int, int]:
    """Returns what changes if somebody writes to a file, or replaces it."""
    return found.st_dev, found.st_ino, found.st_size, found.st_mtime_ns


def is_written(file: BinaryIO) -> bool:
    """Returns whether a process has an open file open for writing. The kernel gives no read lease of it then. It tells
    only the owner and root."""
    # Who opens it in this moment would send this signal.
    signal.signal(signal.SIGIO, signal.SIG_IGN)
    try:
        fcntl.fcntl(file, fcntl.F_SETLEASE, fcntl.F_RDLCK)
        fcntl.fcntl(file, fcntl.F_SETLEASE, fcntl.F_UNLCK)
    except OSError as why:
        return isinstance(why, BlockingIOError)
    return False


def add_options(parser: argparse.ArgumentParser) -> None:
    """Adds the options that name Files."""
    parser.add_argument("names", metavar="FILE", nargs="+", help="a File, or a FOLDER with Files")
    parser.add_argument("-r", "--recursive", action="store_true", help="FOLDERs also have the Files of folders below")
    parser.add_argument("--except", metavar="PATTERN", action="append", default=[], dest="left_out",
                        help="leaves out such names in FOLDERs, for example '*.gz'; it may be repeated")


def files_of(options: argparse.Namespace) -> list[File]:
    """Returns the Files that are named, and those in named folders, by the times of their first messages. What else is
    in a folder is refused unless its name has one of the patterns that are left out."""
    files: list[File] = []
    others: list[str] = []
    for name in options.names:
        if os.path.isdir(name):
            found = [*in_folder(name, options, others)]
            if not found:
                others.append(f"{name}: no File in it")
            files += (File(one, False) for one in found)
        else:
            files.append(File(name, True))
    others += (f"{one}: a process is writing it" for one in files if one.is_written and not one.is_named)
    process.warn_all(others)
    if others:
        raise process.Failure("what is in a folder must be in the sums: name these, leave them out with --except "
                              "PATTERN, or read folders below with -r")
    places: dict[tuple[int, ...], File] = {}
    for one in files:
        if one.is_written:
            process.warn(f"{one}: a process is writing it")
        other = places.setdefault(one.state[:2], one)
        if other is not one:
            raise process.Failure(f"{one}: the same file as {other}")
    return sorted(files, key=lambda one: one.time)


def in_folder(folder: str, options: argparse.Namespace, others: list[str]) -> Iterator[str]:
    """Yields the names of Files in a folder, and adds what else is there to others. Links are not followed."""
    for name in sorted(os.listdir(folder), key=os.fsencode):
        path = os.path.join(folder, name)
        if any(fnmatch.fnmatchcase(name, pattern) for pattern in options.left_out):
            continue
        mode = os.lstat(path).st_mode
        if stat.S_ISDIR(mode) and options.recursive:
            yield from in_folder(path, options, others)
        elif stat.S_ISREG(mode) and name.endswith(".ipfix") and not name.startswith("."):
            yield path
        else:
            others.append(f"{path}: " + ("a folder" if stat.S_ISDIR(mode) else "not a regular file"
                                         if not stat.S_ISREG(mode) else "no name of a File, which ends in .ipfix and "
                                         "begins with no dot"))


def parts_of(files: list[File]) -> tuple[int, list[list[File]]]:
    """Returns how many runs of flowlabel-many there may be at a time, and the Files of each run."""
    wanted, size = os.environ.get("JOBS", ""), sum(one.size for one in files)
    if wanted and not re.fullmatch("0*[1-9][0-9]{0,3}", wanted):
        raise process.Failure(f"JOBS: no number of runs: {wanted}", 2)
    jobs = int(wanted or min(len(os.sched_getaffinity(0)), 1 + size // WORTH))
    parts, room, names = [files[:0]], size / jobs, 0
    for one in files:
        if parts[-1] and (room < one.size / 2 and len(parts) < jobs or names + len(one.name) > NAMES):
            parts.append([])
            room, names = room + size / jobs, 0
        parts[-1].append(one)
        room, names = room - one.size, names + len(os.fsencode(one.name)) + 9
    return jobs, parts


def run(words: list[str], files: list[File]) -> Iterator[tuple[list[File], IO[bytes]]]:
    """Yields what flowlabel-many prints of some Files, with the Files, in their order: one file for each run of it.
    If a run fails, its fault is explained, and the command ends with its status."""
    import tempfile
    running: collections.deque[tuple[subprocess.Popen[bytes], IO[bytes], IO[bytes]]] = collections.deque()
    (jobs, parts), program = parts_of(files), programs.find("flowlabel-many")
    ahead = iter(parts)
    try:
        for part in parts:
            for its in itertools.islice(ahead, jobs - len(running)):
                out, said = tempfile.TemporaryFile(), tempfile.TemporaryFile()
                running.append((subprocess.Popen([program, *words, *map(str, its)], stdin=subprocess.DEVNULL,
                                                 stdout=out, stderr=said), out, said))
            started, out, said = running[0]
            status = started.wait()
            said.seek(0)
            explain(said.read())
            programs.ended_well(status)
            out.seek(0)
            yield part, out
            running.popleft()
    finally:
        for started, *_ in running:
            started.kill()
            started.wait()


def explain(said: bytes) -> None:
    """Prints what flowlabel-many has printed on standard error, and the cause and the cure of a fault of a File."""
    fault = FAULT.search(said.decode(errors="surrogateescape"))
    if not fault or not os.path.isfile(fault[1]) or fault[2][0] == "M":
        programs.say_with_cure(said)
        return
    process.say_error(said)
    name, offset = fault[1], int(fault[4])
    with open(name, "rb") as file:
        start = file.read(16)
        causes = [cause for form, cause in NO_FILES if offset == 0 and re.match(form, start)]
        causes += [CAUSES[code]] if (code := fault[2] + (fault[3] or "")) in CAUSES else []
        if causes:
            cause = causes[0].replace("{version}", "".join(map(str, start[1:2])))
            file.seek(0)
            process.warn(f"{name}: {cause.replace('{message}', str(message_at(file, offset)))}")


def message_at(file: BinaryIO, offset: int) -> int:
    """Returns the offset of the message in which a fault is."""
    begin = end = 0
    while end <= offset and len(header := file.read(4)) == 4:
        begin, end = end, end + max(int.from_bytes(header[2:], "big"), 16)
        file.seek(end)
    return begin if offset < end else offset
