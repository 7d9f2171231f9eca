"""Makes an IPFIX File of a packet capture, with all its flows.

softflowd 1.1.0 or later (Debian: softflowd) reads the CAPTURE and sends its flows to this command over TCP on the
loopback interface, which loses nothing. A connection of any other process is closed. Then the number of records that
`flowlabel info` counts is compared with the number that softflowd says it sent. If the numbers differ, if softflowd or
flowlabel fails, or if it is uncertain whose connection it was, the status is 1, a line says why, and FILE isn't
written: FILE.part has what was received. Only regular files are replaced.
"""

from __future__ import annotations

import contextlib
import os
import re
import select
import shutil
import socket
import subprocess
import sys
import tempfile

from flowlabel import command_line, disk, process, programs

TYPE_CHECKING = False
if TYPE_CHECKING:
    from typing import BinaryIO
    Exporter = subprocess.Popen[bytes]

PARSER = command_line.Parser("flowlabel-capture CAPTURE FILE [OPTION..]", page=__doc__)
PARSER.add_argument("capture", metavar="CAPTURE", help="the capture, a pcap file")
PARSER.add_argument("name", metavar="FILE", help="the File to make")
PARSER.add_argument("options", metavar="OPTION", nargs="...", help=(
    "passed to softflowd after its usual options, such as `-t maxlife=60` or a filter like 'not port 22'")
).required = False
# IPFIX over TCP, with times since 1970. If more flows than these are open at a time, softflowd ends some early.
OPTIONS = "-v 10 -P tcp -A milli -m 4000000 -d -c none".split()
# How many seconds it may take to end.
PATIENCE = 60
# How many seconds it may have a socket that it closes.
MOMENT = 0.05
# The last message of softflowd.
SENT = re.compile(r"(?m)^Flows exported: .*\((\d+) records\) in \d+ packets \((\d+) failures\)")


def one_line(text: str) -> str:
    """Returns a text as one line."""
    return " ".join(text.split())


def inode_of(connection: socket.socket) -> int:
    """Returns the number of the socket at the other end of a connection, or 0 if no process has it any more."""
    # Addresses are in the machine's byte order. Those of IPv4 are the last ones in the table of IPv6.
    try:
        ends = [f"{int.from_bytes(socket.inet_aton(host), sys.byteorder):08X}:{port:04X}"
                for host, port in (connection.getpeername(), connection.getsockname())]
    except OSError:
        # It was reset.
        return 0
    for table in ("tcp", "tcp6"):
        with contextlib.suppress(FileNotFoundError), open(f"/proc/net/{table}", encoding="ascii") as file:
            for line in file:
                words = line.split()
                if words[1].endswith(ends[0]) and words[2].endswith(ends[1]):
                    return int(words[9])
    return 0


def sockets_of(number: int) -> set[str]:
    """Returns what the open files of a process with this number are, such as `socket:[1234]`: none if it has ended."""
    found = set()
    with contextlib.suppress(OSError):
        for name in os.listdir(f"/proc/{number}/fd"):
            with contextlib.suppress(OSError):
                found.add(os.readlink(f"/proc/{number}/fd/{name}"))
    return found


def is_of(connection: socket.socket, exporter: Exporter) -> bool | None:
    """Returns whether the exporter has the other end of a connection, or None if no process has it any more."""
    while inode := inode_of(connection):
        files = sockets_of(exporter.pid)
        if f"socket:[{inode}]" in files:
            return True
        try:
            # A process that ends, or closes its socket, may still have it for a moment.
            exporter.wait(MOMENT if files else PATIENCE)
        except subprocess.TimeoutExpired:
            if not files:
                raise process.Failure("softflowd's sockets can't be seen, so a connection may not be its own") from None
        if inode == inode_of(connection):
            return False
    return None


def connection_of(server: socket.socket, exporter: Exporter) -> socket.socket | None:
    """Returns the connection that the exporter opens, or None if it ends without one. Others are closed: any user can
    open one. If the exporter ended before its connection was looked at, there must be no other."""
    end, others = os.pidfd_open(exporter.pid), 0
    unknown: list[socket.socket] = []
    try:
        while select.select([server, end], [], [])[0] != [end]:
            connection = server.accept()[0]
            whose = is_of(connection, exporter)
            if whose:
                return connection
            if whose is None:
                unknown.append(connection)
            else:
                connection.close()
                others += 1
    finally:
        os.close(end)
    if len(unknown) + others > 1:
        raise process.Failure("another process has sent to softflowd's port, so no File is made")
    return unknown[0] if unknown else None


def export(capture: str, options: list[str], file: BinaryIO) -> str:
    """Writes what softflowd sends for a capture to a file, and returns the output of softflowd."""
    with socket.create_server(("127.0.0.1", 0)) as server, tempfile.TemporaryFile("w+", errors="replace") as said:
        words = ["softflowd", "-r", capture, "-n", f"127.0.0.1:{server.getsockname()[1]}", *OPTIONS, *options]
        with subprocess.Popen(words, stdin=subprocess.DEVNULL, stdout=said, stderr=subprocess.STDOUT) as exporter:
            try:
                connection = connection_of(server, exporter)
                if connection is not None:
                    with connection:
                        while chunk := connection.recv(1 << 16):
                            file.write(chunk)
            except BaseException:
                exporter.kill()
                raise
        said.seek(0)
        text = said.read().strip()
    if exporter.returncode != 0:
        raise process.Failure(f"softflowd ended with the status {exporter.returncode}: {one_line(text)}")
    return text


def count_sent(text: str) -> int:
    """Returns the number of records that softflowd reports as sent."""
    sent = SENT.search(text)
    if not sent:
        raise process.Failure(f"softflowd doesn't say how many records it sent: {one_line(text)}")
    if int(sent[2]):
        raise process.Failure(f"softflowd failed to send {sent[2]} times")
    return int(sent[1])


def count_received(name: str) -> tuple[int, int]:
    """Returns the number of flow records of a File, and the number of sets that can't be read, as counted by `info`."""
    ended = subprocess.run([programs.find("flowlabel"), "info", name], capture_output=True, text=True, check=False)
    if ended.returncode != 0:
        raise process.Failure(f"info of {name} ended with the status {ended.returncode}: {one_line(ended.stderr)}")
    counts = dict(line.split() for line in ended.stdout.splitlines())
    return int(counts["records"]), int(counts["skipped-sets"])


def receive(capture: str, part: str, options: list[str]) -> str:
    """Writes what softflowd sends to a file, and returns the output of softflowd. A signal removes the file."""
    try:
        disk.remove(part)
        # A link that is planted there meanwhile isn't followed.
        with open(part, "xb") as file:
            try:
                return export(capture, options, file)
            except process.Ended:
                os.unlink(part)
                raise
    except OSError as fault:
        raise OSError(fault.errno, fault.strerror, fault.filename or part) from None


def make_file(capture: str, name: str, options: list[str]) -> int:
    """Makes the File, and returns the number of its records."""
    part = f"{name}.part"
    for place in (name, part):
        disk.refuse_other(place)
    if not shutil.which("softflowd"):
        raise process.Failure(f"{capture}: there is no softflowd to read it (Debian: softflowd)")
    sent = count_sent(receive(capture, part, options))
    received, skipped = count_received(part)
    if received != sent or skipped:
        raise process.Failure(f"softflowd sent {sent} records, and {part} has {received}; {skipped} sets are skipped")
    os.replace(part, name)
    return received


def main(words: list[str]) -> int:
    options = PARSER.parse_args(words)
    # Nothing begins without the program.
    programs.find("flowlabel")
    count = make_file(options.capture, options.name, options.options)
    process.say(f"{process.shown(options.name)}: {count} records, as many as softflowd sent")
    return 0
