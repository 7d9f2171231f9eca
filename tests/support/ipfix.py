"""IPFIX Files, made set by set (RFC 7011, section 3)."""

import struct

# The elements of both addresses of IPv4, and of packets and bytes, each with a length.
FOUR = ((8, 4), (12, 4))
SUMS = ((2, 4), (1, 4))


def sets(number, body):
    """Returns a set with an ID."""
    return struct.pack(">HH", number, 4 + len(body)) + body


def template(number, *elements, scopes=0):
    """Returns a set with a template or, if there are scopes, with one of options. An element has a number, a length
    and, perhaps, an enterprise number."""
    fields = b"".join(struct.pack(">HH", element[0] | (len(element) > 2) << 15, element[1])
                      + b"".join(struct.pack(">I", enterprise) for enterprise in element[2:]) for element in elements)
    scope = struct.pack(">H", scopes) if scopes else b""
    return sets(3 if scopes else 2, struct.pack(">HH", number, len(elements)) + scope + fields)


def message(*parts, number=0, domain=1, time=0x60000000):
    """Returns a message of some sets, with a sequence number."""
    body = b"".join(parts)
    return struct.pack(">HHIII", 10, 16 + len(body), time, number, domain) + body
