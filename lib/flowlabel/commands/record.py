"""Records the IPFIX messages of exporters in Files.

Exporters send the messages over UDP (RFC 7011) to PORT of ADDRESS. No other port is opened. Any host that reaches the
port can fill the disk, so let a firewall admit the exporters only.

The port and the address of an exporter make a session, which has Files of its own, such as
FOLDER/20261130T160000Z-192.0.2.1-50123.ipfix. The time is that of the first message. A File begins with the templates
that are in force: they are put into the first message of each observation domain. All else stays as it came, also the
sequence numbers, so `flowlabel-audit FOLDER` finds what is missing in the Files and between them.

While it is written, a File is called .NAME.part. Then its name is printed on standard output. It has whole messages
only, also after a write fault. No file is replaced: if a name is taken, the new one has a number.

Ctrl-C, SIGTERM or SIGHUP end the command. The last Files are whole then too. Lines say how many messages are in no
File, and why: the buffer of the system was full, they are no IPFIX messages or malformed, or --from excludes them. But
for the last cause the status is 1. Only flowlabel-audit finds messages that were lost on their way.
"""

from __future__ import annotations

import collections
import contextlib
import itertools
import os
import re
import select
import signal
import socket
import struct
import time

from flowlabel import addresses, command_line, process, templates

TYPE_CHECKING = False
if TYPE_CHECKING:
    import argparse
    from collections.abc import Iterator

PARSER = command_line.Parser("flowlabel-record [OPTION..] ADDRESS PORT FOLDER", page=__doc__)
PARSER.add_argument("--from", dest="exporters", metavar="ADDRESS", action="append", default=[], help=(
    "only messages of this exporter, and of others for which the option is repeated"))
PARSER.add_argument("--every", metavar="SECONDS", type=command_line.whole_number, default=3600, help=(
    "a File ends when this interval of UTC ends (3600)"))
PARSER.add_argument("address", metavar="ADDRESS", help="an address of this machine, or 0.0.0.0 or :: for all of them")
PARSER.add_argument("port", metavar="PORT", type=command_line.whole_number, help=(
    "with 0 the system chooses one, and a line on standard error names it"))
PARSER.add_argument("folder", metavar="FOLDER", help="where the Files are written")
HEADER, PAIR = templates.HEADER.size, templates.PAIR
# The size of the buffer that is asked for, and options of Linux that the module socket doesn't name.
BUFFER, SO_RCVBUFFORCE, SO_MEMINFO = 1 << 26, 33, 55
# At most this many sessions are kept, each with templates that need at most about this many bytes: a template 150 more
# than its own, and a domain 300. Messages are still read for this many seconds at the end.
SESSIONS, ROOM, TEMPLATE, DOMAIN, PATIENCE = 256, 1 << 20, 150, 300, 1
STRANGER = "comes from an address that isn't given by --from"


def templates_of(message: bytes) -> list[tuple[int, int, bytes]]:
    """Returns the templates that a message defines, each with its ID, its kind and its bytes. Raises ValueError if
    flowlabel would refuse the message."""
    version = int.from_bytes(message[:2], "big")
    if version != 10:
        raise ValueError(f"is NetFlow of version {version}" if version in (1, 5, 7, 8, 9) else "isn't IPFIX")
    if len(message) < HEADER or int.from_bytes(message[2:4], "big") != len(message):
        raise ValueError(templates.MALFORMED)
    return [(name, kind, template) for kind, body in templates.sets_of(message[HEADER:])
            for name, template in (templates.definitions(kind, body) if kind in (2, 3) else ())]


def number_of(text: str) -> int:
    """Returns an address, which may have a zone, as a number of IPv6."""
    return addresses.in_ipv6(*addresses.address(text.partition("%")[0]))


def with_body(message: bytes, body: bytes) -> bytes:
    """Returns a message with other sets. It has the same number, since templates aren't counted."""
    return message[:2] + struct.pack(">H", HEADER + len(body)) + message[4:HEADER] + body


class File:
    """A File that is written. It has whole messages."""

    def __init__(self, stem: str) -> None:
        self.stem, self.size = stem, 0
        self.domains: set[bytes] = set()
        for folder, name in (os.path.split(name) for name in self.names()):
            self.part = os.path.join(folder, f".{name}.part")
            with contextlib.suppress(FileExistsError):
                self.file = open(self.part, "xb", buffering=0)
                break

    def names(self) -> Iterator[str]:
        """Yields the names that the File may get."""
        return (f"{self.stem}{'' if number == 1 else f'-{number}'}.ipfix" for number in itertools.count(1))

    def write(self, message: bytes) -> None:
        """Writes a message."""
        rest = message
        try:
            while rest:
                rest = rest[self.file.write(rest):]
        except OSError as fault:
            raise OSError(fault.errno, fault.strerror, self.part) from None
        self.size += len(message)

    def end(self) -> None:
        """Gives the File its name, and prints this."""
        with self.file:
            self.file.truncate(self.size)
            os.fsync(self.file.fileno())
        for name in itertools.filterfalse(os.path.lexists, self.names()):
            try:
                os.link(self.part, name)
                os.unlink(self.part)
            except FileExistsError:
                continue
            except OSError:
                # A file system without links, on which nothing better is there.
                os.rename(self.part, name)
            break
        process.say(name)
        process.flush()


class Session:
    """What is known of an exporter: the templates in force of each domain, by their IDs, and the File, if any."""

    def __init__(self) -> None:
        self.templates: dict[bytes, dict[int, tuple[int, bytes]]] = {}
        self.file: File | None = None

    def size(self, domain: bytes, found: list[tuple[int, int, bytes]]) -> int:
        """Returns about how many bytes the templates need, with those that a message of this domain defines."""
        kept = (template for its in self.templates.values() for _, template in its.values())
        its = itertools.chain(kept, (template for _, _, template in found))
        return DOMAIN * len({domain, *self.templates}) + sum(TEMPLATE + len(template) for template in its)

    def write(self, message: bytes, found: list[tuple[int, int, bytes]], stem: str) -> None:
        """Writes a message, which defines some templates, and before it those that are in force in its domain, if the
        File lacks them."""
        domain = message[12:HEADER]
        if found and self.size(domain, found) > ROOM:
            raise ValueError("has too many templates")
        file = self.file = self.file or File(stem)
        known, body = self.templates.get(domain, {}), b""
        for kind, template in () if domain in file.domains else known.values():
            if HEADER + len(body) + PAIR.size + len(template) > 0xFFFF:
                file.write(with_body(message, body))
                body = b""
            body += PAIR.pack(kind, PAIR.size + len(template)) + template
        if len(body) + len(message) > 0xFFFF:
            file.write(with_body(message, body))
            body = b""
        file.write(with_body(message, body + message[HEADER:]))
        for name, kind, template in found:
            if template:
                known[name] = kind, template
            else:
                known = {its: one for its, one in known.items() if its != name and (name >= 256 or one[0] != kind)}
        # Anybody can send messages of ever more domains, so one without templates isn't kept.
        if known:
            self.templates[domain] = known
            file.domains.add(domain)
        else:
            self.templates.pop(domain, None)
            file.domains.discard(domain)

    def end(self) -> None:
        """Ends the File."""
        file, self.file = self.file, None
        if file:
            file.end()


class Recorder:
    """The sessions, by their addresses and ports, and the messages that are in no File."""

    def __init__(self, options: argparse.Namespace) -> None:
        self.options, self.dropped = options, 0
        self.sessions: collections.OrderedDict[tuple[str, int], Session] = collections.OrderedDict()
        self.faults: dict[str, tuple[int, str]] = {}
        # A zone may follow the % of a link-local address.
        family, kind, protocol, _, place = socket.getaddrinfo(options.address, options.port, type=socket.SOCK_DGRAM,
                                                              flags=socket.AI_NUMERICHOST)[0]
        self.socket = socket.socket(family, kind, protocol)
        try:
            self.socket.setsockopt(socket.SOL_SOCKET, SO_RCVBUFFORCE, BUFFER)
        except PermissionError:
            self.socket.setsockopt(socket.SOL_SOCKET, socket.SO_RCVBUF, BUFFER)
        self.socket.bind(place)
        self.socket.setblocking(False)
        size = self.socket.getsockopt(socket.SOL_SOCKET, socket.SO_RCVBUF) // 2
        process.warn(f"listens at {options.address} port {self.socket.getsockname()[1]}, with a buffer of {size} bytes"
                    + (": allow more by sysctl net.core.rmem_max" if size < BUFFER else ""))

    def receive(self) -> bool:
        """Records the next message. Returns whether there was one."""
        try:
            message, (address, port, *_) = self.socket.recvfrom(1 << 16)
        except BlockingIOError:
            return False
        try:
            if self.options.exporters and number_of(address) not in self.options.exporters:
                raise ValueError(STRANGER)
            found = templates_of(message)
            session = self.sessions[address, port] = self.sessions.get((address, port)) or Session()
            self.sessions.move_to_end((address, port))
            if len(self.sessions) > SESSIONS:
                self.sessions.popitem(last=False)[1].end()
            # A socket of IPv6 gets addresses of IPv4 as ::ffff:192.0.2.1.
            host = re.sub("[:%]", "_", address.removeprefix("::ffff:"))
            stem = f"{time.strftime('%Y%m%dT%H%M%SZ', time.gmtime())}-{host}-{port}"
            session.write(message, found, os.path.join(self.options.folder, stem))
        except ValueError as why:
            count, first = self.faults.get(str(why), (0, address))
            self.faults[str(why)] = count + 1, first
        return True

    def end(self) -> bool:
        """Ends all Files, and reports the messages that are in none. Returns whether one should be."""
        failed: list[Exception] = []
        for session in self.sessions.values():
            try:
                session.end()
            except (OSError, process.Failure) as fault:
                failed.append(fault)
        # The last of nine numbers is that of the messages for which there was no room.
        dropped = struct.unpack("9I", self.socket.getsockopt(socket.SOL_SOCKET, SO_MEMINFO, 36))[8]
        if dropped > self.dropped:
            process.warn(f"{dropped - self.dropped} messages were lost, since the buffer was full")
        for why, (count, first) in self.faults.items():
            process.warn(f"{count} messages are in no File. Each {why}. The first is from {first}")
        is_wrong = dropped > self.dropped or any(why != STRANGER for why in self.faults)
        self.dropped, self.faults = dropped, {}
        if failed:
            raise failed[0]
        return is_wrong


def options_of(words: list[str]) -> argparse.Namespace:
    """Returns the options."""
    options = PARSER.parse_args(words)
    try:
        number_of(options.address)
        options.exporters = [number_of(one) for one in options.exporters]
    except ValueError as fault:
        PARSER.error(str(fault))
    if options.every < 1 or options.port >= 1 << 16:
        PARSER.error("--every is a number of seconds from 1 on, and PORT is at most 65535")
    if not os.path.isdir(options.folder):
        raise process.Failure(f"{options.folder}: no folder")
    return options


def main(words: list[str]) -> int:
    options = options_of(words)
    signalled, wake = os.pipe()
    os.set_blocking(wake, False)
    # A signal ends the loop below, so that no message is cut.
    signal.set_wakeup_fd(wake)
    for number in process.SIGNALS:
        if signal.getsignal(number) != signal.SIG_IGN:
            signal.signal(number, lambda *_: None)
    recorder, is_wrong = Recorder(options), False
    ready: list[socket.socket | int] = []
    try:
        while signalled not in ready:
            end = (time.time() // options.every + 1) * options.every
            while signalled not in ready and (left := end - time.time()) > 0:
                ready, _, _ = select.select([recorder.socket, signalled], [], [], left)
                if recorder.socket in ready:
                    recorder.receive()
            last = time.monotonic() + PATIENCE
            while signalled in ready and time.monotonic() < last and recorder.receive():
                pass
            is_wrong |= recorder.end()
    except BaseException:
        with contextlib.suppress(OSError, process.Failure):
            recorder.end()
        raise
    return int(is_wrong)
