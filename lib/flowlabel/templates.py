"""The templates of IPFIX messages and Files: what they say about sums, and which messages come again."""

from __future__ import annotations

import array
import collections
import heapq
import itertools
import struct

from flowlabel import process

TYPE_CHECKING = False
if TYPE_CHECKING:
    from collections.abc import Callable, Container, Iterable, Iterator
    from typing import BinaryIO

# The number or the text of an element, and what a record has.
Element = int | str
Values = dict[Element, bytes]
# A domain and an ID, perhaps with whether the template is one of options, and its specifiers.
Name = tuple[int, int]
Definition = tuple[int, int, bool, bytes]
HEADER, PAIR = struct.Struct(">HHIII"), struct.Struct(">HH")
# The numbers of usable elements of a row (docs/FORMATS.md), each with the lengths of its field. The number of a reverse
# element (RFC 5103) is negative, and an element of another enterprise has a text.
ADDRESSES = ((8, 12), (27, 28))
BYTES, REVERSE_PACKETS, REVERSE_BYTES = {1, 85}, {-2, -86}, {-1, -85}
COUNTS = (("packets (element 2 or 86)", {2, 86}), ("bytes (element 1 or 85)", BYTES))
LENGTHS: dict[Element, Container[int]] = {
    8: [4], 12: [4], 27: [16], 28: [16], **dict.fromkeys((1, 2, 85, 86, -1, -2, -85, -86), range(1, 9))}
VARIABLE, REVERSE = 65535, 29305
MALFORMED = "is malformed"
# Elements that say how packets are sampled: one of N, N at random, packets taken and left out, and the size of a sample
# and of that from which it is taken.
SAMPLING = (34, 50, 305, 306, 309, 310)
# What says whether a flow was seen when it came or when it left, and the other elements by which a flow is known.
DIRECTION, KEY = 61, (8, 12, 27, 28, 7, 11, 4)
# At most this many flows are compared.
COMPARED = 1 << 16
# How many domains, templates and IDs of skipped sets a File may have.
MOST = 20_000
# How many seconds later than the first message of a File a message of an earlier one may be that comes in it again.
SLACK = 60


class Template:
    """A template: its domain and ID, whether it is one of options, its fields, and what its records have shown."""

    __slots__ = ("domain", "name", "is_options", "fields", "shortest", "is_used", "sampled", "sampling", "flows")

    def __init__(self, domain: int, name: int, is_options: bool, specifiers: bytes) -> None:
        self.domain, self.name, self.is_options, self.fields = domain, name, is_options, [*fields_of(specifiers)]
        self.shortest = sum(1 if length == VARIABLE else length for _, length in self.fields)
        self.is_used, self.sampled = False, 0.0
        elements = {element for element, _ in self.fields}
        self.sampling = self.values_of(elements.intersection(SAMPLING))
        self.flows = self.values_of({DIRECTION, *KEY} if DIRECTION in elements and not is_options else set())

    def __str__(self) -> str:
        return f"the template {self.name} of the domain {self.domain}"

    def values_of(self, wanted: set[Element]) -> Callable[[bytes], Iterator[Values]] | None:
        """Returns what yields the values of some elements of each record, by their elements, or None."""
        names = [element for element, _ in self.fields if element in wanted]
        if not names or not self.shortest:
            return None
        if all(length != VARIABLE for _, length in self.fields):
            form = struct.Struct("".join(f"{length}{'s' if element in wanted else 'x'}"
                                         for element, length in self.fields))
            return lambda body: (dict(zip(names, found)) for found in set(
                form.iter_unpack(body[:len(body) // form.size * form.size])))
        return lambda body: ({element: body[place:place + size] for element, place, size in record
                              if element in wanted} for record in records_of(self.fields, self.shortest, body))

    def found(self) -> Iterator[tuple[str | None, str]]:
        """Yields what is found of the template, each with the kind of what is certainly wrong, or None."""
        names = ", ".join(str(element) if not isinstance(element, int) or element > 0 else f"reverse {-element}"
                          for element, _ in self.fields[:40])
        if self.sampled:
            yield None, (f"packets of the domain {self.domain} are sampled 1 in {self.sampled:g}: sums are not scaled "
                         f"(elements {names} of the template {self.name})")
        if self.is_options:
            return
        usable = {element for element, length in self.fields if length in LENGTHS.get(element, ())}
        if not any(usable.issuperset(pair) for pair in ADDRESSES):
            yield None, (f"{self} has no addresses of source and destination, so its records have no rows; its "
                         f"elements are {names}")
            return
        if lacking := " and no ".join(what for what, its in COUNTS if not usable & its):
            yield None if usable & BYTES else "bytes", f"{self} has no {lacking}; its elements are {names}"
        if totals := " and ".join(str(max(its)) for _, its in COUNTS if usable & its == {max(its)}):
            yield None, (f"{self} has totals since a flow began (element {totals}), so sums are too large if a flow "
                         "has several records")
        if usable & REVERSE_BYTES and not usable & REVERSE_PACKETS:
            yield None, f"{self} has reverse bytes and no reverse packets, so these bytes are in no sum"


class Templates:
    """The templates of a File, and the data sets that have none in force."""

    def __init__(self, name: str, number: int, seen: Seen) -> None:
        self.name, self.number, self.seen = name, number, seen
        # The values of a template by domain and ID, None if it is withdrawn, the templates of data sets by these
        # values, and the domains.
        self.known, self.all, self.domains = dict[Name, Definition | None](), dict[Definition, Template](), set[int]()
        # The IDs of the templates that are known, by domain and whether they are of options.
        self.kinds = collections.defaultdict[tuple[int, bool], set[int]](set)
        # The offset of the first definition, and the number of skipped sets.
        self.defined, self.skipped = dict[Name, int](), collections.Counter[Name]()
        # Whether the first skipped set of an ID comes after its template was withdrawn.
        self.first_skipped = dict[Name, bool]()
        # By domain and ID, the templates that others have replaced since the last withdrawal, and how many there are in
        # all. Where a template was replaced first, and whether a replaced one has come back.
        self.replaced, self.layouts, self.changed = dict[Name, set[Definition]](), 0, dict[Name, tuple[int, bool]]()
        # The directions of flows, by their hashes, which are smaller than their keys.
        self.directions = dict[int, int]()

    def read(self, file: BinaryIO) -> None:
        """Reads the messages of a File. What is malformed ends this: flowlabel-many refuses the File."""
        offset = 0
        for number in itertools.count(1):
            header = file.read(HEADER.size)
            if len(header) < HEADER.size:
                return
            version, length, time, _, domain = HEADER.unpack(header)
            if domain not in self.domains:
                self.domains.add(domain)
                self.refuse_many()
            body = file.read(length - HEADER.size) if length > HEADER.size else b""
            if version != 10 or len(body) != length - HEADER.size:
                return
            try:
                data = self.read_sets(domain, offset, body)
            except (IndexError, ValueError):
                return
            if data:
                # A conversion by flowlabel-nfcapd has no times, and numbers of its own.
                self.seen.see(self.number, number, time, hash((header[4:] if time else domain, *data)))
            offset += length

    def read_sets(self, domain: int, offset: int, body: bytes) -> list[tuple[int, bytes]]:
        """Reads the sets of a message, and returns its data sets."""
        data = []
        for name, content in sets_of(body):
            if name in (2, 3):
                self.define(domain, offset, name, content)
                continue
            if name >= 256:
                data.append((name, content))
            template = self.template(domain, name)
            if template and not template.is_used:
                template.is_used = len(content) >= template.shortest > 0
            if template and (template.sampling or template.flows):
                self.look(template, content)
        return data

    def template(self, domain: int, name: int) -> Template | None:
        """Returns the template of a data set, or None if no template is in force, so that the set is skipped."""
        key = domain, name
        found = self.known.get(key)
        if found is None or name < 256:
            self.skipped[key] += 1
            self.refuse_many()
            # A template that is known here was withdrawn.
            self.first_skipped.setdefault(key, key in self.known)
            return None
        return self.all.get(found) or self.all.setdefault(found, Template(*found))

    def refuse_many(self) -> None:
        """Refuses a File with more domains or the like than any exporter has, for which memory might not suffice."""
        if len(self.domains) + len(self.known) + len(self.skipped) + len(self.all) + self.layouts > MOST:
            raise process.Failure(f"{self.name}: it has more than {MOST} domains, templates and IDs of skipped sets")

    def define(self, domain: int, offset: int, kind: int, body: bytes) -> None:
        """Reads the definitions and withdrawals of a template set."""
        is_options = kind == 3
        for name, record in definitions(kind, body):
            if not record:
                for ended in [name] if name >= 256 else self.kinds.pop((domain, is_options), set()):
                    if (domain, ended) in self.known:
                        self.known[domain, ended] = None
                        self.replaced.pop((domain, ended), None)
                continue
            before, new = self.known.get((domain, name)), (domain, name, is_options, record[4 + 2 * is_options:])
            if before and before != new:
                self.replace(before, new, offset)
            self.known[domain, name] = new
            self.refuse_many()
            self.kinds[domain, is_options].add(name)
            self.kinds[domain, not is_options].discard(name)
            self.defined.setdefault((domain, name), offset)

    def replace(self, before: Definition, new: Definition, offset: int) -> None:
        """Notes that a template is replaced by another one with the same ID, which no withdrawal precedes. One exporter
        does this at most when its configuration changes. Several that share the domain do it to and fro."""
        key = before[:2]
        replaced = self.replaced.setdefault(key, set())
        self.layouts += before not in replaced
        replaced.add(before)
        first, is_back = self.changed.get(key, (offset, False))
        self.changed[key] = first, is_back or new in replaced

    def look(self, template: Template, body: bytes) -> None:
        """Looks how packets of a data set's records are sampled, and in which direction flows were seen."""
        for values in template.sampling(body) if template.sampling else ():
            template.sampled = max(template.sampled, rate(values))
        if template.flows and self.seen.compared < COMPARED:
            for values in template.flows(body):
                key = hash((template.domain, *map(values.get, KEY)))
                self.directions[key] = self.directions.get(key, 0) | 1 << (values[DIRECTION][-1:] == b"\1")
                self.seen.compared += 1

    def why_skipped(self, key: Name) -> str:
        """Returns why data sets of a domain and an ID are skipped."""
        domain, name = key
        if name < 256:
            return "such an ID is reserved. The exporter is faulty"
        if self.first_skipped[key]:
            return "the exporter withdrew their template"
        if key in self.defined:
            return (f"their template comes only in the message at {self.defined[key]}. Start the recording before the "
                    "exporter")
        others = [str(other) for other, its in self.defined if its == name and other != domain]
        if others:
            return f"only the domain {', '.join(others)} has a template of this ID"
        return "their template isn't in the File. Start the recording before the exporter"

    def found(self) -> Iterator[tuple[str | None, str]]:
        """Yields what is found, each with the kind of what is certainly wrong, or None."""
        for key, count in self.skipped.items():
            yield "skipped", (f"{count} sets with the ID {key[1]} of the domain {key[0]} are skipped, so their records "
                              f"are in no sum, and their number is unknown: {self.why_skipped(key)}")
        used = {(template.domain, template.name) for template in self.all.values() if template.is_used}
        for (domain, name), (offset, is_back) in self.changed.items():
            if (domain, name) in used:
                yield "mixed" if is_back else None, (
                    f"the template {name} of the domain {domain} gets other fields in the message at {offset}, without "
                    f"a withdrawal{', and later those before again' * is_back}. If several exporters send in this "
                    "domain, records are decoded wrongly: record each exporter in a File of its own, as "
                    "flowlabel-record and nfcapd do")
        for template in self.all.values():
            yield from template.found() if template.is_used else ()
        if count := sum(both == 3 for both in self.directions.values()):
            yield None, (f"{count} of {len(self.directions)} flows were seen when they came and when they left "
                         "(flowDirection 0 and 1), so they are in sums twice")


class Seen:
    """What is compared between Files: the messages that have data sets, by their hashes."""

    def __init__(self) -> None:
        # How many flows were compared.
        self.compared = 0
        # The File of each message. It is forgotten when Files begin that are later than all messages of its File.
        self.ended: list[tuple[int, int, array.array[int]]] = []
        self.origins, self.hashes, self.last, self.count = dict[int, int](), array.array("q"), 0, 0
        # The messages that came again, each by its File and its number: in the same File, or in another one. Of each
        # File with such messages, a File that has some of them too.
        self.again, self.elsewhere, self.others = set[tuple[int, int]](), set[tuple[int, int]](), dict[int, int]()

    def begin(self, time: int) -> None:
        """Begins a File, whose first message has this time."""
        while self.ended and self.ended[0][0] + SLACK < time:
            for one in heapq.heappop(self.ended)[2]:
                del self.origins[one]
        self.hashes, self.last, self.count = array.array("q"), 0, len(self.origins)

    def see(self, file: int, number: int, time: int, digest: int) -> None:
        """Looks whether a message was seen before."""
        origin = self.origins.setdefault(digest, file)
        if origin != file:
            self.elsewhere.add((file, number))
            self.others.setdefault(file, origin)
        elif len(self.origins) == self.count:
            self.again.add((file, number))
        else:
            self.hashes.append(digest)
        self.count = len(self.origins)
        self.last = max(self.last, time)

    def end(self, file: int) -> None:
        """Ends a File."""
        heapq.heappush(self.ended, (self.last, file, self.hashes))


def sets_of(body: bytes) -> Iterator[tuple[int, bytes]]:
    """Yields the sets of a message, each as its ID and its content."""
    place = 0
    while place < len(body):
        name, size = PAIR.unpack_from(body, place) if len(body) - place >= PAIR.size else (0, 0)
        if size < PAIR.size or place + size > len(body):
            raise ValueError(MALFORMED)
        yield name, body[place + PAIR.size:place + size]
        place += size


def definitions(kind: int, body: bytes) -> Iterator[tuple[int, bytes]]:
    """Yields the templates of a set (RFC 7011, sections 3.4 and 8.1), each as its ID and its bytes, which are empty if
    it is withdrawn. The kind of a set is its ID."""
    place = 0
    while len(body) - place >= PAIR.size:
        begin, (name, count) = place, PAIR.unpack_from(body, place)
        place += PAIR.size
        if name < 256 and (count or name != kind):
            raise ValueError(MALFORMED)
        if count and kind == 3:
            if not 0 < int.from_bytes(body[place:place + 2], "big") <= count:
                raise ValueError(MALFORMED)
            place += 2
        for _ in range(count):
            place += 8 if body[place:place + 1] >= b"\x80" else 4
        if place > len(body):
            raise ValueError(MALFORMED)
        yield name, body[begin:place] if count else b""


def fields_of(specifiers: bytes) -> Iterator[tuple[Element, int]]:
    """Yields the fields of a template, each an element and a length."""
    place = 0
    while place < len(specifiers):
        element, length = PAIR.unpack_from(specifiers, place)
        place += 4
        if element >> 15:
            enterprise, element = int.from_bytes(specifiers[place:place + 4], "big"), element & 0x7FFF
            element = -element if enterprise == REVERSE else f"{element} of the enterprise {enterprise}"
            place += 4
        yield element, length


def rate(values: Values) -> float:
    """Returns of how many packets one is sampled, by the elements of a record, or 0 if all are."""
    number = {element: int.from_bytes(value, "big") for element, value in values.items() if len(value) <= 8}
    rates: list[float] = [number.get(34, 0), number.get(50, 0)]
    if number.get(305):
        rates.append((number[305] + number.get(306, 0)) / number[305])
    if number.get(309):
        rates.append(number.get(310, 0) / number[309])
    return max(rates) if max(rates) > 1 else 0


def records_of(fields: Iterable[tuple[Element, int]], shortest: int,
               body: bytes) -> Iterator[list[tuple[Element, int, int]]]:
    """Yields the records of a data set, each as its elements with their offsets and sizes."""
    place = 0
    while len(body) - place >= shortest:
        record = []
        for element, size in fields:
            if size == VARIABLE:
                size, place = body[place], place + 1
                if size == 255:
                    size, place = int.from_bytes(body[place:place + 2], "big"), place + 2
            record.append((element, place, size))
            place += size
        yield record
