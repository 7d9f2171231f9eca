"""Records that are missing, by the sequence numbers of messages (RFC 7011, section 3.1), also between Files."""

from __future__ import annotations

import bisect
import collections
import datetime
import itertools
import operator

TYPE_CHECKING = False
if TYPE_CHECKING:
    from collections.abc import Callable, Container, Iterable, Iterator, Sequence
    from typing import TypeVar
    Thing = TypeVar("Thing")

# What is found of a File: its number, the kind of what is certainly wrong or None, and a text.
Found = tuple[int, str | None, str]
# Sequence numbers are modulo 2^32. A number is ahead of another if it is nearer upwards than downwards.
MODULO, HALF = 1 << 32, 1 << 31
# A jump of more records in a File, at a message with templates, may also be that of a session that began elsewhere.
FAR = 1000
# How many gaps and sessions are kept to find those that messages fill or continue, and how many gaps are looked at in
# all for late messages.
KEPT, LOOKS = 1000, 500_000
# So many numbers must follow each other.
FEWEST = 3
# How many sessions of a domain are told apart while its way of counting is found.
SESSIONS = 4
# Whose numbers are counted together has fewer domains.
TOGETHER = 256
# How many seconds a File may begin before the one that it follows ends.
SLACK = 60
# How exporters count: what they count, and whether a sequence number is that of the message's end. First RFC 7011, then
# RFC 7011 without options records, softflowd, softflowd with options records, NetFlow 9.
WAYS = (("records", False), ("records", False), ("records", True), ("records", True), ("messages", False))


class Message(collections.namedtuple("Message", "file number offset domain sequence time definitions skipped flows "
                                     "options rows zero_bytes")):
    """A message: the columns of `flowlabel-many messages`."""

    __slots__ = ()

    def __str__(self) -> str:
        return f"the message {self.number} at {self.offset}"

    def spare(self) -> int:
        """Returns how much else an exporter might count in this message."""
        return int(self.options + self.definitions + (not self.flows))

    def ends(self) -> tuple[tuple[int | None, int | None], ...]:
        """Returns the numbers at which the message begins and ends, for each of WAYS. If it has skipped sets, one of
        them is None."""
        sequence, flows, records = self.sequence, self.flows, self.flows + self.options
        if self.skipped:
            begin, end = (sequence, None), (None, sequence)
            return begin, begin, end, end, begin
        return ((sequence, (sequence + records) % MODULO), (sequence, (sequence + flows) % MODULO),
                ((sequence - flows) % MODULO, sequence), ((sequence - records) % MODULO, sequence),
                (sequence, (sequence + 1) % MODULO))


class Stretch:
    """The messages of a File that are counted together: those of a domain, or all. It is found how many begin with a
    number at which one before ended, in each way. The last ends are kept, one for each of some sessions."""

    first: Message
    last: Message

    def __init__(self, sessions: int = SESSIONS) -> None:
        self.sessions, self.open, self.fitting = sessions, [dict[int, None]() for _ in WAYS], [0] * len(WAYS)
        # The latest time, and the longest time without a message.
        self.count = self.time = self.pause = self.way = 0
        # Whether a message has skipped sets.
        self.is_partial = False

    def see(self, message: Message) -> None:
        """Reads the next message."""
        self.is_partial = self.is_partial or message.skipped > 0
        for way, (its, (begin, end)) in enumerate(zip(self.open, message.ends())):
            if begin in its:
                self.fitting[way] += 1
                if begin == end:
                    continue
                del its[begin]
            elif len(its) == self.sessions:
                del its[next(iter(its))]
            if end is not None:
                its[end] = None
        if not self.count:
            self.first = message
        self.last = message
        self.count += 1
        if message.time > self.time:
            if self.time:
                self.pause = max(self.pause, message.time - self.time)
            self.time = message.time

    def copy(self) -> Stretch:
        """Returns what all of the File has shown up to now, which is one session."""
        whole = Stretch(1)
        whole.open, whole.fitting = [dict([*ends.items()][-1:]) for ends in self.open], [*self.fitting]
        whole.first, whole.last, whole.count = self.first, self.last, self.count
        whole.time, whole.pause = self.time, self.pause
        return whole

    def begin(self) -> int | None:
        return self.first.ends()[self.way][0]

    def end(self) -> int | None:
        return self.last.ends()[self.way][1]


class Gap:
    """Numbers that no message has had, up to that of a message."""

    __slots__ = ("begin", "end", "message", "is_small", "is_followed")

    def __init__(self, begin: int, end: int, message: Message, is_small: bool = False) -> None:
        self.begin, self.end, self.message = begin, end, message
        # Whether the numbers may be those of templates or the like beside the gap, and whether later messages follow.
        self.is_small, self.is_followed = is_small, False

    def size(self) -> int:
        return (self.end - self.begin) % MODULO


class Numbers:
    """The sequence numbers of a session, or of several that can't be told apart, as counted in one way."""

    last: Message

    def __init__(self, whose: str, way: int) -> None:
        self.whose, self.way, (self.unit, self.is_end) = whose, way, WAYS[way]
        # How many messages begin with the number at which the one before ended, how many of these show that templates
        # aren't counted, and how many messages came late.
        self.fitting = self.plain = self.late = 0
        # The number that comes next in the last session, and those of other sessions. None is unknown.
        self.expected: int | None = None
        self.others: dict[int | None, None] = {}
        # How many gaps were looked at for late messages.
        self.looks = 0
        self.gaps, self.again, self.twice = list[Gap](), list[tuple[Message, int]](), list[Message]()
        # The gaps since numbers last followed each other, if they can be those of one session.
        self.clear = list[Gap]()
        # Whether several sessions are open at a time, so that numbers may be those of another exporter, and whether
        # messages have skipped sets, so that the number of their records is unknown. Whether messages that follow each
        # other have the same number, though there are records between.
        self.is_mixed = self.is_partial = self.is_same = self.is_given_up = False

    def faults(self) -> int:
        """Returns how often a number isn't the next one."""
        return len(self.gaps) + len(self.again)

    def is_known(self) -> bool:
        """Returns whether the exporter counts in this way: most numbers show it."""
        return self.fitting >= FEWEST and self.fitting > self.faults() and self.looks <= LOOKS

    def gives_up(self) -> bool:
        """Returns whether nothing is known of the numbers."""
        return self.is_given_up or self.faults() + self.late > 0 and not self.is_known()

    def is_all(self) -> bool:
        """Returns whether the number of all missing records is known."""
        return not (self.is_partial or self.is_same or self.is_given_up or self.faults() + self.late and (
            not self.is_known() or self.missing(False)))

    def see(self, message: Message, repeated: Container[tuple[int, int]]) -> None:
        """Reads the number of the next message. Messages that are repeated came before."""
        if self.is_given_up or self.faults() > self.fitting + KEPT or self.looks > LOOKS:
            return
        self.is_partial = self.is_partial or message.skipped > 0
        begin, end = message.ends()[self.way]
        expected = self.expected
        if begin == expected is not None:
            self.fitting += 1
            self.plain += bool(self.counted(message).definitions)
            for gap in self.clear:
                gap.is_followed = True
            self.clear.clear()
        elif not (begin is None or expected is None or self.jump(expected, begin, end, message, repeated)):
            return
        self.expected, self.last = end, message

    def counted(self, message: Message) -> Message:
        """Returns the message whose records are counted between the last number and that of a message."""
        return message if self.is_end else self.last

    def jump(self, expected: int, begin: int, end: int | None, message: Message,
             repeated: Container[tuple[int, int]]) -> bool:
        """Finds the session of a message whose number isn't the next one, and puts it last. Returns False if the
        message came late or twice."""
        ahead = (begin - expected) % MODULO
        if begin in self.others:
            self.is_mixed = True
            del self.others[begin]
            self.others[expected] = None
        elif ahead < HALF:
            self.gaps.append(Gap(expected, begin, message, ahead <= self.counted(message).spare()))
            # A File may begin with templates in the middle of a session.
            is_far = message.definitions and ahead > FAR and message.file == self.last.file
            self.clear += [] if is_far or self.unit == "messages" else self.gaps[-1:]
        elif self.fill(begin, end):
            self.late += 1
            return False
        elif (message.file, message.number) in repeated:
            self.twice.append(message)
            return False
        else:
            self.again.append((message, begin))
            self.is_same = self.is_same or message.sequence == self.last.sequence
            self.is_mixed = self.is_mixed or begin != 0
            self.others[expected] = None
            if len(self.others) > KEPT:
                del self.others[next(iter(self.others))]
        return True

    def fill(self, begin: int, end: int | None) -> bool:
        """Takes the numbers of a late message out of their gap. What remains of the gap may be lost, or be those of
        an exporter that has only begun. Returns whether there is such a gap."""
        last = begin if end is None else end
        for index in range(len(self.gaps) - 1, max(-1, len(self.gaps) - KEPT), -1):
            gap = self.gaps[index]
            self.looks += 1
            if (begin - gap.begin) % MODULO <= (last - gap.begin) % MODULO <= gap.size():
                parts = Gap(gap.begin, begin, gap.message), Gap(last, gap.end, gap.message)
                self.clear.clear()
                if begin != end:
                    self.gaps[index:index + 1] = [part for part in parts if part.size()]
                return True
        return False

    def missing(self, is_certain: bool) -> list[Gap]:
        """Returns the gaps whose records are certainly missing, or the others. Small gaps are certain if most numbers
        beside templates show that templates aren't counted."""
        is_plain = self.plain > sum(gap.is_small for gap in self.gaps)
        return [gap for gap in self.gaps if is_certain == (
            gap.is_followed and not self.is_mixed and (is_plain or not gap.is_small))]

    def found(self) -> Iterator[Found]:
        """Yields what is found, each with a File, and the kind of what is certainly wrong or None."""
        whose = self.whose
        if self.gives_up():
            yield self.last.file, None, (f"too few sequence numbers of {whose} follow each other ({self.fitting} do), "
                                         "so missing records can't be counted")
            return
        for file, gaps in by_file(self.missing(True), lambda gap: gap.message):
            yield file, "missing", "{} records of {} are missing: {}".format(places(gaps)[0], whose, places(gaps)[1])
        for file, gaps in by_file(self.missing(False), lambda gap: gap.message):
            yield file, None, ("{} {} of {} may be missing: {}. Or the exporter counts more, began again, or isn't the "
                               "only one".format(places(gaps)[0], self.unit, whose, places(gaps)[1]))
        for message, begin in self.again[:3]:
            yield message.file, None, f"the sequence numbers of {whose} begin again with {begin} in {message}"
        if self.is_same:
            yield self.last.file, None, (f"some messages of {whose} have the same number, so missing records can't be "
                                         "counted")
        if self.is_mixed:
            yield self.last.file, None, f"{whose} has several sessions, perhaps of several exporters"
        for file, messages in by_file(self.twice, lambda message: message):
            yield file, "twice", (f"{len(messages)} messages of {whose} came twice, so their records are in sums "
                                  f"twice. The first is {messages[0]}")
        if self.late:
            yield self.last.file, None, f"{self.late} messages of {whose} came late. Their records aren't missing"


def by_file(things: Iterable[Thing], message_of: Callable[[Thing], Message]) -> Iterator[tuple[int, list[Thing]]]:
    """Yields Files with what is found in them."""
    return ((file, [*its]) for file, its in itertools.groupby(things, lambda one: int(message_of(one).file)))


def places(gaps: Sequence[Gap]) -> tuple[int, str]:
    """Returns how many records gaps have, and where the first gaps are."""
    shown = [f"{gap.size()} before {gap.message}" for gap in gaps[:3]]
    more = [f"{len(gaps) - 3} more gaps"] * (len(gaps) > 3)
    return sum(map(Gap.size, gaps)), ", ".join(shown + more)


class Loss:
    """The sessions of several Files. They are read twice: first it is found how numbers are counted and which Files
    follow each other, then what is missing. The Files are those of a month, from its begin to its end, or of unknown
    times."""

    def __init__(self, month: tuple[float, float] | None = None) -> None:
        self.month, self.ends = month, list[Found]()
        # Of each File its domains, and all of it if it has several. Some exporters count over all domains.
        self.domains, self.wholes = collections.defaultdict[int, dict[int, Stretch]](dict), dict[int, Stretch]()
        # The numbers that count for a File and a domain, or for all of the File, and messages without any before them.
        self.sessions, self.orphans = dict[tuple[int, int | None], Numbers](), list[tuple[Message, int]]()

    def see(self, message: Message) -> None:
        """Reads a message for the first time."""
        file, domain = message.file, message.domain
        domains = self.domains[file]
        stretch = domains.get(domain)
        if stretch is None:
            if len(domains) == 1:
                self.wholes[file] = next(iter(domains.values())).copy()
            stretch = domains[domain] = Stretch()
        stretch.see(message)
        if 1 < len(domains) < TOGETHER:
            self.wholes[file].see(message)

    def join(self) -> bool:
        """Finds the sessions. Returns whether in some of them numbers don't follow each other."""
        kept: dict[int | None, list[Stretch]] = collections.defaultdict(list)
        for file, domains in self.domains.items():
            whole, fitting = self.wholes.get(file), sum(max(one.fitting) for one in domains.values())
            is_whole = whole and len(domains) < TOGETHER and max(whole.fitting) > fitting
            for key, stretch in [(None, whole)] if whole and is_whole else domains.items():
                kept[key].append(stretch)
        del self.domains, self.wholes
        earliest = min((one.first.time for its in kept.values() for one in its), default=0)
        found = {}
        for key, stretches in kept.items():
            choose_ways(stretches)
            found[key] = self.chains_of(stretches, earliest)
        self.ends = [*ends_of(found, self.month)]
        for key, chains in found.items():
            for chain in chains:
                fitting, count = (sum(its) for its in zip(*((one.fitting[one.way], one.count) for one in chain)))
                is_partial = any(one.is_partial for one in chain)
                if fitting == count - len(chain) and not is_partial and all(
                        one.end() == other.begin() is not None for one, other in zip(chain, chain[1:])):
                    continue
                numbers = Numbers(domain_text(key), chain[0].way)
                if fitting + len(chain) - 1 < FEWEST and not is_partial:
                    # No numbers are read, since it is known that too few follow each other.
                    numbers.is_given_up, numbers.fitting, numbers.last = True, fitting, chain[-1].last
                self.sessions.update(((one.first.file, key), numbers) for one in chain)
        return any(not numbers.is_given_up for numbers in self.sessions.values())

    def chains_of(self, stretches: list[Stretch], earliest: int) -> list[list[Stretch]]:
        """Returns the sessions of stretches, which are in the order of time: each a list of those that follow each
        other. If a File between them is missing, a session goes on with the next higher number after it ended."""
        chains, tails = list[list[Stretch]](), dict[tuple[int, int | None], list[Stretch]]()
        for one in stretches:
            chain = tails.pop((one.way, one.begin()), None)
            if chain is None or chain[-1].time > one.first.time + SLACK:
                chains.append(chain := list[Stretch]())
            chain.append(one)
            tails[one.way, one.end()] = chain
        joined: list[list[Stretch]] = []
        for chain in chains:
            head, before = chain[0], None
            if (begin := head.begin()) is not None and begin > head.first.spare():
                ended = [(distance(other[-1].end(), begin), other) for other in joined[-KEPT:]
                         if other[-1].way == head.way and other[-1].time <= head.first.time + SLACK]
                far, before = min(ended, key=operator.itemgetter(0), default=(MODULO, None))
                if not before or far > min(HALF, FAR * (1 + size(before + chain))):
                    self.orphans += [(head.first, begin)] * (head.first.time > earliest + SLACK)
                    before = None
            if before is None:
                joined.append(chain)
            else:
                before += chain
        return joined

    def see_again(self, message: Message, repeated: Container[tuple[int, int]]) -> None:
        """Reads a message for the second time."""
        numbers = self.sessions.get((message.file, message.domain)) or self.sessions.get((message.file, None))
        if numbers:
            numbers.see(message, repeated)

    def found(self) -> Iterator[Found]:
        """Yields what is found, each with a File, and the kind of what is certainly wrong or None."""
        yield from self.ends
        for message, begin in self.orphans:
            yield message.file, None, (f"the sequence numbers of the domain {message.domain} begin with {begin} in "
                                       f"{message}, and not with 0, so records before it may be missing")
        for numbers in dict.fromkeys(self.sessions.values()):
            yield from numbers.found()

    def twice(self) -> collections.Counter[int]:
        """Returns how many messages of each File certainly came twice."""
        return collections.Counter(message.file for numbers in dict.fromkeys(self.sessions.values())
                                   if not numbers.gives_up() for message in numbers.twice)

    def missing(self) -> tuple[collections.Counter[int], set[int]]:
        """Returns the number of records of each File that are certainly missing, and the Files of which this isn't
        all."""
        count, unknown = collections.Counter[int](), set[int]()
        for (file, _), numbers in self.sessions.items():
            unknown |= set() if numbers.is_all() else {file}
        for numbers in dict.fromkeys(self.sessions.values()):
            for gap in numbers.missing(True) if numbers.is_known() else ():
                count[gap.message.file] += gap.size()
        return count, unknown


def ends_of(found: dict[int | None, list[list[Stretch]]], month: tuple[float, float] | None) -> Iterator[Found]:
    """Yields what may be missing before and after sessions, which are given by their domains, since they begin late or
    end early: by more than their longest pause, and no other session of the domain ends or begins there. That is in the
    month or, without one, while other sessions ran. The numbers can't show it."""
    spans = {key: [(chain[0].first.time, max(one.time for one in chain)) for chain in chains]
             for key, chains in found.items()}
    wholes = [month] if month else together(itertools.chain.from_iterable(spans.values()))
    what = "the month" if month else "those of others"
    for key, chains in found.items():
        whose, (begins, ends) = domain_text(key), (sorted(span[side] for span in spans[key]) for side in (0, 1))
        for chain, (begin, end) in zip(chains, spans[key]):
            whole = wholes[bisect.bisect_right(wholes, (begin, MODULO)) - 1]
            # Conversions by flowlabel-nfcapd have the time 0.
            if end < whole[0] or begin > whole[1]:
                yield chain[0].first.file, None, (f"no message of {whose} was exported in the month, so records that "
                                                  "are missing at its begin or its end aren't seen")
                continue
            # Between two of its Files others may be missing.
            pause = max(SLACK, *(one.pause for one in chain), min(
                (other.first.time - one.time for one, other in zip(chain, chain[1:])), default=0))
            if begin > whole[0] + pause and not is_other(end, ends, begin - pause, begin + SLACK):
                yield chain[0].first.file, None, (
                    f"the messages of {whose} begin at {time_text(begin)}, and {what} at {time_text(whole[0])}: "
                    "records before them may be missing")
            if end < whole[1] - pause and not is_other(begin, begins, end - SLACK, end + pause):
                yield chain[-1].last.file, None, (
                    f"the messages of {whose} end at {time_text(end)}, and {what} at {time_text(whole[1])}: records "
                    "after them may be missing")


def together(spans: Iterable[tuple[float, float]]) -> list[tuple[float, float]]:
    """Returns the times in which always some session ran."""
    found: list[tuple[float, float]] = []
    for begin, end in sorted(spans):
        if found and begin <= found[-1][1]:
            begin, last = found.pop()
            end = max(end, last)
        found.append((begin, end))
    return found


def domain_text(key: int | None) -> str:
    """Returns whose numbers are counted together, as a message names it."""
    return "all domains" if key is None else f"the domain {key}"


def is_other(one: int, times: Sequence[int], low: int, high: int) -> bool:
    """Returns whether one of some sorted times beside this one is between two."""
    return bisect.bisect_right(times, high) - bisect.bisect_left(times, low) > (low <= one <= high)


def time_text(seconds: float) -> str:
    """Returns a time in ISO 8601."""
    return f"{datetime.datetime.fromtimestamp(seconds, datetime.timezone.utc):%Y-%m-%dT%H:%M:%SZ}"


def choose_ways(stretches: list[Stretch]) -> None:
    """Finds how the numbers of a domain are counted in each File: as most of its messages follow each other, and it
    follows or precedes other Files. If this says nothing, by all Files."""
    scores = [[*one.fitting] for one in stretches]
    if len(stretches) > 1:
        pairs = [(one.first.ends(), one.last.ends()) for one in stretches]
        for way in range(len(WAYS)):
            begins, ends = ({pair[side][way][side] for pair in pairs} - {None} for side in (0, 1))
            for score, (first, last) in zip(scores, pairs):
                score[way] += (first[way][0] in ends) + (last[way][1] in begins)
    fitting = [sum(its) for its in zip(*scores)]
    for one, score in zip(stretches, scores):
        one.way = max(range(len(WAYS)), key=lambda way: (score[way], fitting[way], -way))


def distance(end: int | None, begin: int) -> int:
    """Returns how far a number is ahead of the end of a session. If it is a little behind, since messages came late,
    this is HALF, and otherwise, or if the end is unknown, MODULO."""
    ahead = HALF if end is None else (begin - end) % MODULO
    return ahead if ahead < HALF else HALF if MODULO - ahead <= FAR else MODULO


def size(chain: list[Stretch]) -> int:
    """Returns how many numbers a session has. One that lacks a thousand times as many is another one."""
    ends = ((one.begin(), one.end()) for one in chain)
    return sum((end - begin) % MODULO for begin, end in ends if begin is not None and end is not None)
