"""What makes the sums of IPFIX Files wrong, for flowlabel-audit and flowlabel-bill."""

from __future__ import annotations

import collections
import gc
import itertools
import json
import re

from flowlabel import files as ipfix
from flowlabel import losses, process, tables, templates

TYPE_CHECKING = False
if TYPE_CHECKING:
    from collections.abc import Container, Iterator
    from typing import IO

# What is certainly wrong: the words by which it can be allowed, and what is said of it.
KINDS = {
    "skipped": "the records of skipped sets are in no sum", "missing": "records are missing",
    "twice": "records came twice", "mixed": "records of several exporters are decoded wrongly",
    "bytes": "records without bytes or rows are in no sum", "empty": "a File is empty",
}
CHUNK = 1 << 20
COLUMNS = b"file|message|offset|domain|sequence|time|definitions|skipped-sets|records|options-records|rows|zero-bytes\n"


class Counts:
    """The counts of a File."""

    messages = skipped = records = rows = zero_bytes = repeated = 0


class Audit:
    """What is found in some Files, perhaps those of a month, from its begin to its end: of each its counts, and what is
    wrong, certainly if it has a kind."""

    def __init__(self, files: list[ipfix.File], month: tuple[float, float] | None = None) -> None:
        self.files, self.counts, self.found = files, [Counts() for _ in files], list[losses.Found]()
        # There are no cycles of objects to find.
        gc.disable()
        seen, first = templates.Seen(), dict[int, losses.Message]()
        for number, file in enumerate(files):
            self.read(number, file, seen)
        loss, outputs, again, equal = losses.Loss(month), [*self.outputs()], seen.elsewhere, collections.Counter[int]()
        # The outputs of flowlabel-many are read twice, since they may not fit into memory.
        for columns in itertools.chain.from_iterable(map(columns_of, outputs)):
            self.count(columns)
            for message in messages_of(columns):
                if again and message.flows and (message.file, message.number) in again:
                    self.counts[message.file].repeated += 1
                    first.setdefault(message.file, message)
                else:
                    loss.see(message)
                    if seen.again and message.flows and (message.file, message.number) in seen.again:
                        equal[message.file] += 1
        if loss.join():
            for columns in itertools.chain.from_iterable(map(columns_of, outputs)):
                for message in messages_of(columns):
                    if not (again and message.flows and (message.file, message.number) in again):
                        loss.see_again(message, seen.again)
        self.missing, self.unknown = loss.missing()
        for number, message in first.items():
            self.found.append((number, "twice", f"{self.counts[number].repeated} messages are in "
                               f"{files[seen.others[number]]} too, so their records are in sums twice. The first is "
                               f"{message}"))
        self.found += loss.found()
        self.found += ((number, None, f"{count} messages are equal to earlier ones of the File: if they came twice, "
                        "their records are in sums twice") for number, count in (equal - loss.twice()).items())
        self.judge()

    def read(self, number: int, file: ipfix.File, seen: templates.Seen) -> None:
        """Reads the templates of a File."""
        seen.begin(file.time)
        its = templates.Templates(str(file), number, seen)
        with open(file.name, "rb") as opened:
            its.read(opened)
        seen.end(number)
        self.found += ((number, kind, text) for kind, text in its.found())

    def outputs(self) -> Iterator[tuple[int, IO[bytes]]]:
        """Yields the outputs of flowlabel-many, each with the number of its first File."""
        number = 0
        for part, out in ipfix.run(["messages"], self.files):
            if out.readline() != COLUMNS:
                raise process.Failure("flowlabel-many prints other columns")
            yield number, out
            number += len(part)

    def count(self, columns: list[list[int]]) -> None:
        """Adds the counts of some messages to those of their Files."""
        end = 0
        for file, its in itertools.groupby(columns[0]):
            counts, begin = self.counts[file], end
            end += sum(1 for _ in its)
            counts.messages += end - begin
            counts.skipped, counts.records, counts.rows, counts.zero_bytes = (
                count + sum(columns[place][begin:end]) for count, place in (
                    (counts.skipped, 7), (counts.records, 8), (counts.rows, 10), (counts.zero_bytes, 11)))

    def judge(self) -> None:
        """Finds what the counts of each File show."""
        for number, counts in enumerate(self.counts):
            if not counts.messages:
                self.found.append((number, "empty", "it is empty"))
            elif not counts.records:
                self.found.append((number, None, "it has no flow records"))
            elif not counts.rows:
                self.found.append((number, "bytes", f"none of its {counts.records} records has a row"))
            elif counts.zero_bytes:
                self.found.append((number, "bytes" if counts.zero_bytes == counts.rows else None,
                                   f"{counts.zero_bytes} of {counts.rows} rows have 0 bytes"))

    def lines(self, is_certain: bool) -> list[str]:
        """Returns a line for each thing that is certainly wrong, or may be, with the first of its Files. What may be
        wrong has one line even if its numbers differ."""
        files = collections.defaultdict[str, dict[int, str]](dict)
        for number, kind, text in self.found:
            if (kind is not None) == is_certain:
                files[text if is_certain else re.sub("[0-9]+", "", text)].setdefault(number, text)
        return [f"{self.files[min(its)]}: {its[min(its)]}" + f" (and so in {len(its) - 1} more Files)" * (len(its) > 1)
                for its in files.values()]

    def refused(self, allowed: Container[str]) -> list[str]:
        """Returns the kinds of what is certainly wrong and isn't allowed."""
        found = {kind for _, kind, _ in self.found}
        return [kind for kind in KINDS if kind in found and kind not in allowed]

    def look_up(self, labels: list[str]) -> None:
        """Finds records without a label."""
        words = ["sum", "--fields=src-label,dst-label", "--allow-skipped", *labels]
        groups = tables.Sums(b"src-label dst-label".split())
        for _, out in ipfix.run(words, self.files):
            groups.add_table(tables.Table("the table of flowlabel-many", out))
        self.found += ((0, None, text) for text in groups.unlabelled())

    def summary(self, number: int) -> str:
        """Returns the last line of a File."""
        counts, missing = self.counts[number], str(self.missing[number])
        if number in self.unknown:
            missing = f"{missing} or more" if missing != "0" else "unknown"
        return (f"skipped-sets {counts.skipped}, missing {missing}, records {counts.records}, rows {counts.rows}")


def columns_of(output: tuple[int, IO[bytes]]) -> Iterator[list[list[int]]]:
    """Yields the columns of parts of an output, which begins with a File of some number."""
    number, out = output
    out.seek(len(COLUMNS))
    rest = b""
    while chunk := out.read(CHUNK):
        chunk = rest + chunk
        end = chunk.rfind(b"\n") + 1
        rest = chunk[end:]
        # Of all that reads numbers this is the fastest.
        cells = json.loads(b"[%s0]" % chunk[:end].replace(b"|", b",").replace(b"\n", b","))
        columns = [cells[place:-1:12] for place in range(12)]
        columns[0] = [file + number - 1 for file in columns[0]]
        yield columns


def messages_of(columns: list[list[int]]) -> Iterator[losses.Message]:
    """Returns the messages of some columns. It makes tuples of them without calls of Python."""
    return map(tuple.__new__, itertools.repeat(losses.Message), zip(*columns))
