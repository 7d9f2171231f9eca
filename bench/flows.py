"""Writes an IPFIX File: flows.py KIND COUNT FILE. The same arguments write the same bytes.

- mixed: this number of flows in messages like those of an exporter, each with a set of IPv4 flows and one of IPv6
  flows. Flows have ten fields, and nearly each has addresses of its own;
- usual: like mixed, in messages of 1,400 bytes, with fourteen fields, of some 240,000 hosts, few of which have most
  flows;
- biflow: like usual, each with the packets, the octets and the flags of the reverse direction (RFC 5103); a third have
  no packets in that direction.

- sources: like mixed, with all flows of IPv6 and from random addresses.

The other kinds are hard to read:

- colliding: like sources, from addresses that all have one value as the key of a group under the hash of the kit's
  `FoldHasher`;
- known: like sources, from addresses that all have one value under the fixed numbers of `KeyHashing`;
- domains: this number of messages, each with a template and a record in a domain of its own, whose numbers collide in a
  hash (bench/domains.rs prints them to bench/data/domains.txt);
- fields: this number of messages full of records of 8 bytes, whose template has thousands of fields without a byte;
- variable: this number of messages full of records of thousands of fields of variable length, all empty;
- sets: this number of messages full of data sets without a record, under a template of thousands of fields.
"""

import itertools
import os
import random
import re
import struct

from measure import Parser, count

SEED = 20260101
DOMAINS = os.path.join(os.path.dirname(os.path.realpath(__file__)), "data/domains.txt")
EXPORT_TIME = 1_767_225_600
# Ports, protocol, flags, packets, octets, start and end.
COMMON = [(7, 2), (11, 2), (4, 1), (6, 1), (2, 8), (1, 8), (152, 8), (153, 8)]
# Usual exporters also send the class of service, both interfaces, and the reason why the flow ended.
USUAL = [*COMMON, (5, 1), (10, 4), (14, 4), (136, 1)]
# The enterprise bit, and the enterprise number of the reverse direction.
ENTERPRISE, REVERSE = 1 << 15, 29305
BIFLOW = [*USUAL, (ENTERPRISE | 2, 8, REVERSE), (ENTERPRISE | 1, 8, REVERSE), (ENTERPRISE | 6, 1, REVERSE)]
V4_ID, V6_ID = 256, 257
# The number of messages after which the templates are sent again.
RESENT = 1000
V4_HOSTS, V6_HOSTS = 200_000, 40_000
# The kit's hash of a key multiplies the exclusive or of these bytes of an address and a number of its own. Here the
# exclusive or is 0.
COLLIDING = 0x157C_4A7F_B979_379E
# The fixed numbers of `KeyHashing`.
KNOWN_SEED, KNOWN_MULTIPLIER = 0x243F_6A88_85A3_08D3, 0x9E37_79B9_7F4A_7C15
# The byte before an IPv6 address in the bytes of a key.
IPV6_PART = 1
# Nearly as many fields as a message can hold.
MANY = 16_000


def data_set(number, body):
    return struct.pack(">HH", number, 4 + len(body)) + body


def template_set(*templates):
    """Returns a set of templates, each an ID with the elements and lengths of its fields, and their enterprise if
    they have one."""
    return data_set(2, b"".join(
        struct.pack(">HH", number, len(fields))
        + b"".join(struct.pack(">HHI"[:1 + len(field)], *field) for field in fields)
        for number, fields in templates))


def message(sequence, domain, *sets):
    body = b"".join(sets)
    return struct.pack(">HHIII", 10, 16 + len(body), EXPORT_TIME, sequence, domain) + body


def common(rng):
    """Returns the fields of a flow after its addresses."""
    packets = rng.choice((1, 1, 2, 5, 12, rng.getrandbits(16) + 1))
    start = 1000 * EXPORT_TIME - rng.getrandbits(20)
    return struct.pack(">HHBBQQQQ", rng.getrandbits(16), rng.choice((53, 80, 443, 8080)), rng.choice((1, 6, 6, 17)),
                       rng.getrandbits(6), packets, packets * (40 + rng.getrandbits(10)), start,
                       start + rng.getrandbits(12))


def v6_address(rng):
    """Returns an address of 2001:db8::/32: of a server, with a small number, or of a host with a random one."""
    site = 0x2001_0DB8 << 32 | rng.getrandbits(16) << 16
    return struct.pack(">QQ", site, rng.choice((rng.getrandbits(8), rng.getrandbits(64))))


def v4_flow(rng):
    return struct.pack(">II", 10 << 24 | rng.getrandbits(24), rng.getrandbits(32)) + common(rng)


def v6_flow(rng):
    return v6_address(rng) + v6_address(rng) + common(rng)


def colliding_address(rng):
    return struct.pack(">QQ", 0x2001_0DB8 << 32 | rng.getrandbits(32), COLLIDING)


def known_address(rng):
    """Returns an address whose second word, of the key's bytes 9 to 16, returns the state to the same one for each."""
    front = bytes((IPV6_PART, 0x20, 0x01)) + rng.randbytes(5)
    product = (KNOWN_SEED ^ int.from_bytes(front, "little")) * KNOWN_MULTIPLIER
    return front[1:] + ((product ^ product >> 64) % 2**64).to_bytes(8, "little") + bytes(1)


def source_address(rng):
    return struct.pack(">QQ", 0x2001_0DB8 << 32 | rng.getrandbits(32), rng.getrandbits(64))


# The functions that make the sources, for the kinds whose flows are all of IPv6.
V6_SOURCES = {"sources": source_address, "colliding": colliding_address, "known": known_address}


def flow_from(source):
    """Returns a function that makes flows of IPv6 from the addresses that `source` makes."""
    return lambda rng: source(rng) + v6_address(rng) + common(rng)


def usual_flow(hosts):
    """Returns a function that makes flows between hosts."""
    def flow(rng):
        pair = (hosts[int(len(hosts) ** rng.random()) - 1] for _ in range(2))
        return b"".join(pair) + common(rng) + struct.pack(">BIIB", 0, rng.getrandbits(4), rng.getrandbits(4), 3)
    return flow


def both_ways(flow):
    """Returns a function that makes these flows, followed by the counts and the flags of their reverse direction."""
    def biflow(rng):
        packets = rng.choice((0, 1, 12))
        return flow(rng) + struct.pack(">QQB", packets, packets * (40 + rng.getrandbits(10)), rng.getrandbits(6))
    return biflow


def makers(kind, rng):
    """Returns the number of IPv4 flows of a message and the function that makes one, the same for IPv6, and the
    fields after addresses."""
    if kind == "mixed":
        return 10, v4_flow, 14, v6_flow, COMMON
    if kind in V6_SOURCES:
        return 0, v4_flow, 17, flow_from(V6_SOURCES[kind]), COMMON
    v4_hosts = [struct.pack(">I", rng.randrange(1 << 24, 224 << 24)) for _ in range(V4_HOSTS)]
    v6_hosts = [v6_address(rng) for _ in range(V6_HOSTS)]
    if kind == "biflow":
        return 13, both_ways(usual_flow(v4_hosts)), 3, both_ways(usual_flow(v6_hosts)), BIFLOW
    return 17, usual_flow(v4_hosts), 4, usual_flow(v6_hosts), USUAL


def messages_of(kind, count):
    """Yields the messages of `count` flows."""
    rng = random.Random(SEED)
    v4_most, v4, v6_most, v6, fields = makers(kind, rng)
    templates = ((V4_ID, [(8, 4), (12, 4), *fields]), (V6_ID, [(27, 16), (28, 16), *fields]))
    for number in itertools.count():
        left = count - number * (v4_most + v6_most)
        if left <= 0:
            return
        v4_count = min(v4_most, left)
        v6_count = min(v6_most, left - v4_count)
        sets = [template_set(*templates)] if number % RESENT == 0 else []
        sets.append(data_set(V4_ID, b"".join(v4(rng) for _ in range(v4_count))))
        sets.append(data_set(V6_ID, b"".join(v6(rng) for _ in range(v6_count))))
        yield message(count - left, 1, *sets)


def in_domains(domains, count):
    """Yields a message for each of the first domains."""
    sets = template_set((V4_ID, [(1, 4)])) + data_set(V4_ID, bytes(4))
    for sequence, domain in enumerate(domains[:count]):
        yield message(sequence, int(domain), sets)


def full(count, fields, set_of):
    """Yields a template, and `count` messages filled with repeated sets."""
    yield message(0, 1, template_set((V4_ID, fields)))
    room = 65_535 - 16
    sets = set_of(room) * (room // len(set_of(room)))
    for _ in range(count):
        yield message(0, 1, sets)


def main():
    parser = Parser(__doc__)
    parser.add_argument("kind", metavar="KIND", choices=re.findall(r"(?m)^- (\w+):", __doc__))
    parser.add_argument("count", metavar="COUNT", type=count)
    parser.add_argument("file", metavar="FILE")
    given = parser.parse_args()
    write(given.kind, given.count, given.file)


def write(kind, count, name):
    """Writes the File."""
    empty = [(210, 0)] * MANY
    match kind:
        case "mixed" | "usual" | "biflow" | "sources" | "colliding" | "known":
            messages = messages_of(kind, count)
        case "domains":
            with open(DOMAINS, encoding="ascii") as numbers:
                messages = in_domains(numbers.read().split(), count)
        case "fields":
            messages = full(count, [*empty, (8, 4), (12, 4)], lambda room: data_set(V4_ID, bytes((room - 4) // 8 * 8)))
        case "variable":
            size = MANY + 8
            messages = full(count, [*[(210, 65_535)] * MANY, (8, 4), (12, 4)],
                            lambda room: data_set(V4_ID, bytes((room - 4) // size * size)))
        case "sets":
            messages = full(count, [(8, 4), (12, 4), *empty], lambda _: data_set(V4_ID, b""))
    with open(name, "wb") as file:
        file.writelines(messages)


main()
