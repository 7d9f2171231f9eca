"""Prints an IPFIX File with the flows of files of nfcapd or sfcapd.

nfdump reads each FILE, whatever was collected: IPFIX, NetFlow 5 or 9, or sFlow. Flows keep their order, addresses,
protocol, ports, TCP flags, packets, bytes, and times in milliseconds. A flow of both directions becomes two records, as
flowlabel would print it in two rows: the second has addresses and ports swapped, the times of the first, and no flags.
nfdump keeps the flags of one direction only. The destination port of ICMP is 256 times its type plus its code.

Nothing is printed before all FILEs have been read and agree with the totals that nfcapd keeps in each. If a FILE is cut
short, damaged or still being written, if a flow has no addresses, or if nfdump or a write fails, one line says so, the
status isn't 0, and a line of text is printed instead of a File. flowlabel refuses it, also in a pipe whose first status
is overlooked. nfdump also fails if it prints nothing for 600 seconds.

Lines on standard error report, without changing the status:

- flows that were sampled, if nfcapd knew the rate: it has multiplied their packets and bytes by it. It knows that of
  IPFIX and NetFlow 9 only from an exporter's options or from its own option -s;
- events of firewalls without packets and bytes, which are left out;
- a file that nfcapd is still writing (nfcapd.current.N) beside others, which is left out;
- sequence failures that nfcapd counted: messages may have been lost on their way to nfcapd. With an exporter that
  counts otherwise, such as softflowd, there are always some. All messages of the File then have the number 0, so that
  flowlabel-audit says that the number of missing records is unknown.

It needs nfdump 1.7 (Debian: nfdump) and room for the File in the folder for temporary files.
"""

from __future__ import annotations

import collections
import contextlib
import datetime
import functools
import itertools
import json
import operator
import os
import re
import signal
import socket
import struct
import subprocess
import tempfile

from flowlabel import command_line, disk, process, programs

TYPE_CHECKING = False
if TYPE_CHECKING:
    import argparse
    from collections.abc import Iterable, Iterator
    from typing import IO, Any
    Seen = collections.Counter[str]

PARSER = command_line.Parser("flowlabel-nfcapd [--strict] FILE.. >flows.ipfix", page=__doc__)
PARSER.add_argument("--strict", action="store_true", help=(
    "if nfcapd counted sequence failures, the status is 1 and no File is printed"))
PARSER.add_argument("files", metavar="FILE", nargs="+", help="a file that nfcapd or sfcapd has finished")
EPOCH = datetime.datetime.fromtimestamp(0, datetime.timezone.utc)
MILLISECOND = datetime.timedelta(milliseconds=1)
# The template of each version: its ID, the width of an address, and the elements of the addresses. The other elements,
# with their lengths: ports, protocol, TCP flags, packets, bytes, and times in milliseconds.
TEMPLATES = ((256, 4, 8, 12), (257, 16, 27, 28))
OTHERS = (7, 2, 11, 2, 4, 1, 6, 1, 2, 8, 1, 8, 152, 8, 153, 8)
OTHER = struct.Struct(">HHBBQQQQ")
# The ID of the template of a record, by the record's length.
IDS = {2 * width + OTHER.size: number for number, width, _, _ in TEMPLATES}
DOMAIN = 1
# At most this many records are in a message, which has less than 2^16 bytes.
RECORDS = 800
FAMILIES = {"4": int(socket.AF_INET), "6": int(socket.AF_INET6)}
ICMP = (1, 58)
COUNTS = ("in_packets", "in_bytes", "out_packets", "out_bytes")
CHUNK = 1 << 16
# How many seconds nfdump may print nothing.
PATIENCE = 600
# The beginning of a flow as nfdump 1.7.1 prints it. It has all that a record needs, if the flow has one direction and
# isn't sampled. The groups: both times, packets, bytes, protocol, flags (not for ICMP), ports or type and code, version
# and addresses.
FLOW = re.compile(r'''\{\n\t"type" : "FLOW",\n\t"sampled" : 0,\n\t"export_sysid" : \d+,
\t"first" : "(.{19})\.(\d{3})",\n\t"last" : "(.{19})\.(\d{3})",\n\t"received" : "[^"]*",
\t"in_packets" : (\d+),\n\t"in_bytes" : (\d+),\n\t"proto" : (\d+),
\t(?:"tcp_flags" : "(.{8})",\n\t"src_port"|"icmp_type") : (\d+),\n\t"(?:dst_port|icmp_code)" : (\d+),
\t"src_tos" : \d+,
\t"src([46])_addr" : "([^"]+)",\n\t"dst[46]_addr" : "([^"]+)",\n''')
# The name of a file that nfcapd is still writing.
CURRENT = re.compile(r"nfcapd\.current(\.\d+)?")
# What nfdump prints if there is no flow.
NOTHING = "[\nNo matching flows\n]"
NO_FILE = b"flowlabel-nfcapd has failed. This is no IPFIX File\n"


def run(name: str, *options: str) -> subprocess.Popen[str]:
    """Starts nfdump over a file, with times in UTC. It is killed if it prints nothing for a long time."""
    words = ["nfdump", "-r", name, *options]
    program = subprocess.Popen(words, stdin=subprocess.DEVNULL, stdout=subprocess.PIPE, stderr=subprocess.PIPE,
                               encoding="latin-1", env={**os.environ, "TZ": "UTC0", "LC_ALL": "C"})
    # The threads of nfdump 1.7.1 sometimes wait for each other for ever if the file is damaged.
    signal.signal(signal.SIGALRM, lambda *_: program.kill())
    signal.alarm(PATIENCE)
    return program


def totals(name: str) -> dict[str, int]:
    """Returns the numbers that nfcapd has counted for a file."""
    with run(name, "-I") as program:
        output, fault = program.communicate()
    found = {what: int(number) for what, number in re.findall(r"(?m)^(.+): (\d+)$", output)}
    # nfdump reads no flow of a file that nfcapd is still writing, or has left.
    if program.returncode != 0 or "Flows" not in found or "Ident: (null)" in output:
        raise process.Failure(f"{name}: no file that nfcapd has finished: {first_line(fault)}")
    return found


def first_line(text: str) -> str:
    """Returns the first line of what a program says."""
    return (text.strip() or "nfdump gives no reason").splitlines()[0]


def parts(name: str, file: IO[str]) -> Iterator[str]:
    """Yields parts of nfdump's output, each with whole flows. A flow begins and ends with a line of its own."""
    rest, end = file.read(len(NOTHING)), "\n}"
    if rest == NOTHING:
        return
    rest = rest.removeprefix("[\n")
    while chunk := file.read(CHUNK):
        signal.alarm(PATIENCE)
        rest += chunk
        place = rest.rfind(f"{end},\n")
        if place >= 0:
            yield rest[:place + len(end)]
            rest = rest[place + len(end) + 2:]
    if not rest.rstrip().endswith(f"{end}]"):
        raise process.Failure(f"{name}: nfdump's output is cut short")
    yield rest.rstrip()[:-1]


@functools.lru_cache(maxsize=1000)
def flags(letters: str) -> int:
    """Returns the TCP flags, which nfdump prints as eight letters, each a dot if the flag isn't set."""
    if len(letters) not in (0, 8):
        raise ValueError("tcp_flags")
    return sum(1 << 7 - place for place, letter in enumerate(letters) if letter != ".")


@functools.lru_cache(maxsize=100000)
def milliseconds(second: str) -> int:
    """Returns a time of whole seconds in milliseconds since 1970."""
    return (datetime.datetime.fromisoformat(f"{second}+00:00") - EPOCH) // MILLISECOND


def usual_records(text: str, seen: Seen) -> list[bytes] | None:
    """Returns the records of flows of the usual form, or None if nfdump has printed others. This is an optimisation:
    without it the records are the same."""
    flows = FLOW.findall(text)
    if not flows or len(flows) != text.count("{\n") or '\t"out_packets" : ' in text:
        return None
    (first, first_part, last, last_part, packets, octets, protocols, letters, kinds, ports, versions, sources,
     targets) = zip(*flows)
    counts, sizes, families = list(map(int, packets)), list(map(int, octets)), list(map(FAMILIES.__getitem__, versions))
    target_ports = [int(port) if has_flags else int(kind) << 8 | int(port)
                    for kind, port, has_flags in zip(kinds, ports, letters)]
    source_ports = [int(kind) if has_flags else 0 for kind, has_flags in zip(kinds, letters)]
    others = map(OTHER.pack, source_ports, target_ports, map(int, protocols), map(flags, letters), counts, sizes,
                 map(operator.add, map(milliseconds, first), map(int, first_part)),
                 map(operator.add, map(milliseconds, last), map(int, last_part)))
    ends = map(operator.add, map(socket.inet_pton, families, sources), map(socket.inet_pton, families, targets))
    found = list(map(operator.add, ends, others))
    seen.update(Flows=len(flows), Packets=sum(counts), Bytes=sum(sizes))
    return found


def records(flow: dict[str, Any], seen: Seen) -> list[bytes]:
    """Returns the records of a flow, and adds to what is seen."""
    version = "4" if "src4_addr" in flow else "6"
    source, target = (socket.inet_pton(FAMILIES[version], flow[f"{end}{version}_addr"]) for end in ("src", "dst"))
    if flow["proto"] in ICMP:
        ports, letters = (0, flow["icmp_type"] << 8 | flow["icmp_code"]), ""
    else:
        ports, letters = (flow["src_port"], flow["dst_port"]), flow["tcp_flags"]
    packets, octets, back, octets_back = (flow.get(name, 0) for name in COUNTS)
    seen.update(Flows=1, Packets=packets + back, Bytes=octets + octets_back, sampled=flow["sampled"])
    if flow["type"] != "FLOW" and not (packets or octets or back or octets_back):
        seen["events"] += 1
        return []
    times = [milliseconds(time[:19]) + int(time[20:]) for time in (flow["first"], flow["last"])]
    found = [source + target + OTHER.pack(*ports, flow["proto"], flags(letters), packets, octets, *times)]
    if back or octets_back:
        found.append(target + source + OTHER.pack(*ports[::-1], flow["proto"], 0, back, octets_back, *times))
    return found


def unique(pairs: list[tuple[str, object]]) -> dict[str, object]:
    """Returns the values of a flow, none of which may come twice."""
    flow = dict(pairs)
    if len(flow) < len(pairs):
        raise ValueError("a value comes twice")
    return flow


def part_records(text: str, seen: Seen) -> list[bytes]:
    """Returns the records of a part of nfdump's output. Each value has a line, so a name can't add a value."""
    found = usual_records(text, seen)
    if found is None:
        flows = json.loads(f"[{text}]", object_pairs_hook=unique)
        if sum(map(len, flows)) != text.count('\n\t"'):
            raise ValueError("a value isn't in a line")
        found = [record for flow in flows for record in records(flow, seen)]
    return found


def file_records(name: str, counted: dict[str, int]) -> Iterator[bytes]:
    """Yields the records of a file's flows, which nfcapd has counted, and reports what the records don't show."""
    seen = collections.Counter[str]()
    with run(name, "-o", "json") as program:
        assert program.stdout and program.stderr
        for text in parts(name, program.stdout):
            try:
                yield from part_records(text, seen)
            except (LookupError, TypeError, ValueError, OSError, struct.error) as fault:
                raise process.Failure(f"{name}: a flow of nfdump's output after {seen['Flows']} others lacks a value, "
                                     f"or has a wrong one: {fault}") from None
        said = program.stderr.read()
    if program.returncode != 0 or said:
        raise process.Failure(f"{name}: nfdump ended with the status {program.returncode}: {first_line(said)}")
    for what in ("Flows", "Packets", "Bytes"):
        if seen[what] != counted[what]:
            raise process.Failure(f"{name}: nfcapd counted {what} {counted[what]}, and nfdump printed {seen[what]}")
    for what, count in (("flows were sampled, so their packets and bytes are estimates", seen["sampled"]),
                        ("events without packets and bytes are left out", seen["events"])):
        if count:
            process.warn(f"{name}: {count} {what}")


def sets(number: int, body: bytes) -> bytes:
    """Returns a set with an ID."""
    return struct.pack(">HH", number, 4 + len(body)) + body


def messages(found: Iterable[Iterator[bytes]], is_numbered: bool) -> Iterator[bytes]:
    """Yields the messages of a File: the templates, then the records of each file, at most RECORDS in a message. Two
    Files with the same file have the same messages of it. Messages without numbers have the number 0, also one after
    all records."""
    templates = [struct.pack(">22H", number, 10, source, width, target, width, *OTHERS)
                 for number, width, source, target in TEMPLATES]
    chunks = (chunk for its in found for chunk in iter(lambda: list(itertools.islice(its, RECORDS)), []))
    bodies = ((b"".join(sets(IDS[length], b"".join(its)) for length, its in itertools.groupby(chunk, key=len)),
               len(chunk)) for chunk in chunks)
    # The last message isn't the first one again, since that would be a message that came twice.
    last = [] if is_numbered else [(sets(2, b"".join(templates[::-1])), 0)]
    sequence = 0
    for body, count in itertools.chain([(sets(2, b"".join(templates)), 0)], bodies, last):
        yield struct.pack(">HHIII", 10, 16 + len(body), 0, sequence % 2**32 if is_numbered else 0, DOMAIN) + body
        sequence += count


def make(made: IO[bytes], options: argparse.Namespace) -> None:
    """Writes the messages of a File to an open one."""
    current = [name for name in options.files if CURRENT.fullmatch(os.path.basename(name))]
    names = [name for name in options.files if name not in current] or current
    seen: dict[bytes, str] = {}
    for name in names:
        with disk.regular(name, follow=True) as file:
            other = seen.setdefault(disk.checksum(file), name)
        if other is not name:
            raise process.Failure(f"{name}: the same bytes as {other}, so its flows would come twice")
    for name in current if names != current else ():
        process.warn(f"{name}: left out, since nfcapd is still writing it")
    counted = {name: totals(name) for name in names}
    lost = {name: its["Sequence failures"] for name, its in counted.items() if its.get("Sequence failures")}
    if lost:
        why = (f"nfcapd counted {sum(lost.values())} sequence failures in {len(lost)} of {len(names)} files, first in "
               f"{min(lost)}: messages may have been lost")
        if options.strict:
            raise process.Failure(why)
        process.warn(f"{why}, so the number of missing records is unknown")
    made.writelines(messages((file_records(name, counted[name]) for name in names), not lost))
    made.flush()


def main(words: list[str]) -> int:
    with contextlib.ExitStack() as opened:
        try:
            options = PARSER.parse_args(words)
            programs.need("nfdump", "nfdump")
            made = opened.enter_context(tempfile.TemporaryFile())
            make(made, options)
        except SystemExit:
            # Help is printed, which flowlabel refuses too.
            raise
        except BaseException:
            process.write([NO_FILE])
            # A signal ends the process at once.
            process.flush()
            raise
        made.seek(0)
        process.write(iter(lambda: made.read(CHUNK), b""))
    return 0

