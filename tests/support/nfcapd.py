"""Files of nfcapd (nfdump 1.7, file layout 2): makes them, and reads them with a program of its own."""

import random
import struct

HEADER = struct.Struct("<HHIQBBHIQII")
BLOCK = struct.Struct("<IIHH")
RECORD = struct.Struct("<HHHBBHBB")
MAGIC, FLOW, IDENT, TOTALS, OLD = 0xA50C, 11, 0x8001, 0x8002, (1, 2, 10)
GENERIC, IPV4, IPV6, BACK = 1, 2, 3, 5
# The sizes of elements with their heads.
SIZES = {GENERIC: 52, IPV4: 12, IPV6: 36, BACK: 28}
EVENT, SAMPLED = 1, 2
ICMP = (1, 58)
MASK = 2**64 - 1


class Fault(Exception):
    """The name of a fault, and its offset."""


# ---- making a file

def element(kind, body):
    return struct.pack("<HH", kind, 4 + len(body)) + body


def generic(times, counts, ports, protocol, flags):
    """Returns the element that each flow has. `counts` are the packets and the bytes."""
    return element(GENERIC, struct.pack("<5Q2H4B", *times, 0, *counts, *ports, protocol, flags, 0, 0))


def record(*elements, flags=0):
    return RECORD.pack(FLOW, RECORD.size + len(b"".join(elements)), len(elements), 0, 0, 1, flags, 9) + b"".join(elements)


def other(kind, size):
    """Returns a record of another type."""
    return struct.pack("<HH", kind, size) + bytes(size - 4)


def block(records):
    return BLOCK.pack(len(records), len(b"".join(records)), 3, 0) + b"".join(records)


def sums(records):
    """Returns the numbers of flows, bytes and packets of records, in both directions."""
    found = [flow_in(it, 0, True)[0] for it in records if it[:2] == struct.pack("<H", FLOW)]
    counts = [struct.unpack_from("<2Q", flow[GENERIC], 24) for flow in found]
    counts += [struct.unpack_from("<2Q", flow[BACK], 8) for flow in found if BACK in flow]
    return len(found), sum(octets for _, octets in counts), sum(packets for packets, _ in counts)


def file(blocks):
    """Returns the file of blocks, each a list of records."""
    made = b"".join(map(block, blocks))
    totals = [number & MASK for number in sums([it for records in blocks for it in records])]
    appendix = block([struct.pack("<HH5s", IDENT, 9, b"none"), struct.pack("<HH18Q", TOTALS, 148, *totals, *[0] * 15)])
    return HEADER.pack(MAGIC, 2, 0xF1070101, 1_700_000_000, 0, 0, 1, 1, HEADER.size + len(made), 0,
                       len(blocks)) + made + appendix


# ---- reading a file

def flow_in(part, offset, allow_sampled):
    """Returns the elements of the record of a flow, and whether it is one of an event."""
    if len(part) < RECORD.size:
        raise Fault("BadRecord", offset)
    _, _, count, _, _, _, flags, _ = RECORD.unpack_from(part)
    if flags & SAMPLED and not allow_sampled:
        raise Fault("Sampled", offset)
    found, place = {}, RECORD.size
    for _ in range(count):
        kind, size = struct.unpack_from("<HH", part, place) if len(part) - place >= 4 else (0, 0)
        if size < 4 or place + size > len(part):
            raise Fault("BadRecord", offset)
        if kind in found:
            raise Fault("RepeatedElement", offset)
        if size != SIZES.get(kind, size):
            raise Fault("BadRecord", offset)
        if kind in SIZES:
            found[kind] = part[place + 4:place + size]
        place += size
    if place != len(part):
        raise Fault("BadRecord", offset)
    if GENERIC not in found or not (IPV4 in found or IPV6 in found):
        raise Fault("BadFlow", offset)
    return found, bool(flags & EVENT)


def rows(found, is_event):
    """Returns the records of a flow: addresses, ports, protocol, flags, packets, bytes and times."""
    first, last, _, packets, octets, source, target, protocol, flags, _, _ = struct.unpack("<5Q2H4B", found[GENERIC])
    back = struct.unpack("<3Q", found[BACK])[1:] if BACK in found else (0, 0)
    if is_event and not any((packets, octets, *back)):
        return []
    size, name = (4, IPV4) if IPV4 in found else (8, IPV6)
    words = [found[name][place:place + size][::-1] for place in range(0, len(found[name]), size)]
    ends = b"".join(words[:len(words) // 2]), b"".join(words[len(words) // 2:])
    if protocol in ICMP:
        source, flags = 0, 0
    made = [(*ends, source, target, protocol, flags, packets, octets, first, last)]
    if any(back):
        made.append((*ends[::-1], target, source, protocol, 0, *back, first, last))
    return made


class Reader:
    """Reads a file, part by part."""

    def __init__(self, text, allow_sampled):
        self.text, self.place, self.allow_sampled = text, 0, allow_sampled
        self.rows, self.flows, self.agrees = [], [], False

    def check(self, holds, name, offset=None):
        if not holds:
            raise Fault(name, self.place if offset is None else offset)

    def need(self, size):
        self.check(len(self.text) - self.place >= size, "Truncated")

    def whole(self):
        """Returns the rows."""
        self.need(HEADER.size)
        _, layout, _, _, compression, encryption, appendices, _, appendix, _, blocks = HEADER.unpack_from(self.text)
        self.check(layout == 2, "OtherLayout")
        self.check(not compression, "Compressed")
        self.check(not encryption, "Encrypted")
        self.check(appendices == 1, "Unfinished")
        self.place = HEADER.size
        for _ in range(blocks):
            self.block(self.flow)
        self.block(self.appended, appendix)
        self.check(self.place == len(self.text), "BytesLeft")
        return self.rows

    def block(self, take, appendix=None):
        self.need(BLOCK.size)
        count, room, kind, _ = BLOCK.unpack_from(self.text, self.place)
        is_last = appendix is not None
        self.check(kind == 3, "BadBlock")
        self.check(not is_last or self.place == appendix, "BadAppendix")
        size, start = BLOCK.size, self.place
        for _ in range(count):
            self.place += size
            self.need(4)
            kind, size = struct.unpack_from("<HH", self.text, self.place)
            self.check(4 <= size <= room, "BadRecord")
            self.need(size)
            take(kind, self.text[self.place:self.place + size])
            room, start = room - size, self.place
        self.check(not room, "BadBlock", start)
        self.check(not is_last or self.agrees, "TotalsDiffer", start)
        self.place += size

    def flow(self, kind, part):
        self.check(kind not in OLD, "OldRecord")
        if kind == FLOW:
            self.rows += rows(*flow_in(part, self.place, self.allow_sampled))
            self.flows.append(part)

    def appended(self, kind, part):
        if kind == TOTALS:
            wanted = struct.pack("<3Q", *(number & MASK for number in sums(self.flows)))
            self.check(len(part) == 148 and part[4:28] == wanted, "TotalsDiffer")
            self.agrees = True


def read(text, allow_sampled=False):
    """Returns the rows of a file, or raises its first fault."""
    return Reader(text, allow_sampled).whole()


# ---- files at random

def random_flow(rng):
    """Returns the record of a flow, which may have rare elements, extreme counts and flags."""
    high = rng.random() < .1
    counts = [rng.choice([0, 1, MASK, 2**63, rng.getrandbits(64)]) if high else rng.randrange(10**6) for _ in range(2)]
    first = 1_700_000_000_000 + rng.randrange(300_000)
    is_event, is_four = rng.random() < .05, rng.random() < .7
    if is_event and rng.random() < .7:
        counts = [0, 0]
    parts = [generic((first, first + 5), counts, (rng.getrandbits(16), rng.getrandbits(16)),
                     rng.choice([1, 6, 17, 47, 58]), rng.getrandbits(8))]
    parts += [element(IPV4, rng.randbytes(8))] * (is_four or rng.random() < .1)
    parts += [element(IPV6, rng.randbytes(32))] * (not is_four or rng.random() < .1)
    if rng.random() < .3:
        parts.append(element(BACK, struct.pack("<3Q", 1, rng.choice([0, 3]), rng.choice([0, 90]))))
    if rng.random() < .3:
        parts.append(element(rng.choice([4, 6, 7, 10, 12, 14, 36]), rng.randbytes(rng.randrange(40))))
    rng.shuffle(parts)
    return record(*parts, flags=EVENT * is_event + SAMPLED * (rng.random() < .01))


def random_file(rng, most=30):
    """Returns a file with some blocks of flows and of other records."""
    blocks = []
    for _ in range(rng.choice([0, 1, 1, 2, 3])):
        records = [random_flow(rng) for _ in range(rng.randrange(most))]
        records += [other(kind, size) for kind, size in ((7, 32), (8, 32), (15, 24), (99, 4)) if rng.random() < .4]
        records += [other(rng.choice(OLD), 24)] * (rng.random() < .02)
        rng.shuffle(records)
        blocks.append(records)
    return file(blocks)


def damaged(rng, text):
    """Returns a file with one mistake: it is cut or longer, or a number or a bit of it is changed."""
    data = bytearray(text)
    match rng.randrange(7):
        case 0:
            return text[:rng.randrange(2, len(text))]
        case 1:
            return text + rng.randbytes(rng.randrange(1, 50))
        case 2:
            data[rng.randrange(2, len(data))] ^= 1 << rng.randrange(8)
        case 3:
            struct.pack_into("<H", data, rng.randrange(40, len(data) - 1), rng.choice([0, 3, 4, 11, 12, 52, 65535]))
        case 4:
            struct.pack_into("<I", data, 36, rng.choice([0, 1, 2, 3, 2**31, 2**32 - 1]))
        case 5:
            struct.pack_into("<Q", data, 24, rng.choice([0, 40, 2**31, 2**63, MASK, len(data)]))
        case _:
            data[len(data) - rng.randrange(1, 150)] ^= rng.randrange(1, 256)
    return bytes(data)
