"""The programs pass each call on to the system once.

No contract says which file is opened, or how often the system is called. So tests/support/system.c reports the calls of
`open`, `read` and `write` of some command lines. Each file must be opened once, in the order of docs/FORMATS.md, and
read to its end once: flowlabel opens all files before it reads one, and flowlabel-many each when its turn comes. In
other runs one of these calls fails, and would succeed if it were made again: the run must report the failure, and make
no such call after it.
"""

import errno
import os
import threading

from support import RECORD, ROW, TEMPLATE_SET, TITLE, Case, data_set, message, needs, program_of, read, \
    read_bytes, rows, system, write

# Rattle's `File::open` makes an interrupted call again.
ERRORS = (errno.EIO, errno.EAGAIN, errno.EINTR)
# More bytes than one read of the program asks for.
LONG = 100_000
# The bytes that a read returns or a write takes at most, in some runs.
FEW = 20
# The lines, the files that they read in this order, and their output.
RUNS = "low|high|label\n0.0.0.0|127.255.255.255|A\n128.0.0.0|255.255.255.255|B\n"
CERT = "flowlabel-cert 2 ipv4 3\nA\nB\nUNKNOWN\nn 1 0 1\nl 0\nl 1\n"
LINES = (
    ("label --pmap map 10.1.1.1", ("map",), "A\n"),
    ("label --list list 10.1.1.1", ("list",), "A\n"),
    ("cat --pmap map", ("map",), RUNS),
    ("cat --list list", ("list",), RUNS),
    ("cat --list long", ("long",), RUNS),
    ("shrink --pmap map", ("map",), "mode ipv4\n0.0.0.0/0 A\n128.0.0.0/1 B\n"),
    ("shrink --pmap map --certificate --compact", ("map",), CERT),
    ("recert --cert cert", ("cert",), CERT),
    ("check --cert cert --list list --pmap map", ("map", "list", "cert"), "minimal 2\n"),
    ("info flows", ("flows",), "messages 1\ntemplates 1\noptions-templates 0\nwithdrawals 0\ndata-sets 1\n"
                               "skipped-sets 0\nrecords 1\noptions-records 0\nrows 1\n"),
    ("rows flows", ("flows",), TITLE + ROW),
    ("rows --pmap map flows", ("map", "flows"), f"{TITLE[:-1]}|src-label|dst-label\n{ROW[:-1]}|A|A\n"),
    ("uniq --fields proto,src-label --list list flows", ("list", "flows"),
     "proto|src-label|records|packets|bytes\n6|A|1|3|180\n"),
)
# Those of flowlabel-many. A File may come again, and has the number of the one that was closed before it.
LINES_OF_MANY = (
    ("flowlabel-many sum --fields proto flows", ("flows",), "proto|records|packets|bytes\n6|1|3|180\n"),
    ("flowlabel-many sum --fields proto flows more flows", ("flows", "more", "flows"),
     "proto|records|packets|bytes\n6|4|12|720\n"),
    ("flowlabel-many sum --by 5m --columns more flows", ("more", "flows"),
     "minute|records|packets|bytes\n     0|      3|      9|  540\n"),
    ("flowlabel-many sum --fields src-label flows --pmap map more", ("map", "flows", "more"),
     "src-label|records|packets|bytes\nA|3|9|540\n"),
    ("flowlabel-many sum --by day --fields dst-label --list list more", ("list", "more"),
     "day|dst-label|records|packets|bytes\n0|A|2|6|360\n"),
    ("flowlabel-many messages flows more", ("flows", "more"),
     "file|message|offset|domain|sequence|time|definitions|skipped-sets|records|options-records|rows|zero-bytes\n"
     "1|1|0|1|0|1610612736|1|0|1|0|1|0\n2|1|0|1|0|1610612736|1|0|1|0|1|0\n2|2|65|1|0|1610612736|0|0|1|0|1|0\n"),
)
# Lines with a message or help, their status, and the stream that it is written to.
MESSAGES = (("info missing", 4, 2), ("cat --pmap flows", 1, 2), ("label 10.1.1.1", 2, 2), ("info --colour", 2, 2),
            ("--help", 0, 1), ("rows --help", 0, 1))
MESSAGES_OF_MANY = (
    ("flowlabel-many messages flows missing", 4, 2), ("flowlabel-many sum --by day flows map", 1, 2),
    ("flowlabel-many sum flows", 2, 2), ("flowlabel-many sum --by day", 2, 2), ("flowlabel-many --help", 0, 1),
    ("flowlabel-many sum --help", 0, 1))


def owners(calls):
    """Returns of each read the index of the call of `open` that it belongs to, among such calls: the last one before it
    that returned its number."""
    opened, found, number = {}, [], 0
    for kind, file, _ in calls:
        if kind == "open":
            opened[file] = number
            number += 1
        elif kind == "read":
            found.append(opened[file])
    return found


def are_passed_on(calls, names, out, is_in_turn):
    """Returns whether a successful run opens these files in this order, reads each to its end once, and then writes its
    output. It opens all before it reads one, or each when its turn comes."""
    kinds = [name for name, _, _ in calls]
    reads, found = iter(owners(calls)), [[] for _ in names]
    opens, turns = iter(range(len(names))), []
    if [name for kind, _, name in calls if kind == "open"] != [*names]:
        return False
    for kind, _, count in calls:
        turn = next(opens) if kind == "open" else next(reads) if kind == "read" else len(names)
        turns.append(turn if is_in_turn else ("open", "read", "write").index(kind))
        if kind == "read":
            found[turn].append(count)
    written = [(file, count) for kind, file, count in calls if kind == "write"]
    return (turns == sorted(turns) and kinds.index("write") == len(kinds) - len(written)
            and all(counts.count(0) == 1 and counts[-1] == 0 and sum(counts) == os.path.getsize(name)
                    for name, counts in zip(names, found))
            and {file for file, _ in written} == {1} and sum(count for _, count in written) == len(out))


def ends_with(calls, kind, number, output):
    """Returns whether this call of this kind failed, and only writes to standard error come after it. Before it,
    standard output got a write for each call if `output` is 1, and otherwise none."""
    at = [place for place, call in enumerate(calls) if call[0] == kind][number - 1]
    failed, after = calls[at], calls[at + 1:]
    return (-1 in failed[1:] and all(call[:2] == ("write", 2) for call in after)
            and sum(call[:2] == ("write", 1) for call in calls) == output * number)


def write_to_pipe(name):
    """Writes the bytes of a file to the pipe, as soon as it is opened."""
    write("pipe", read_bytes(name))


@needs("rt", in_ci=True)
class Checked(Case):
    """What is checked of the calls of a line."""

    @classmethod
    def prepare(cls):
        halves = "0.0.0.0/1 A\n128.0.0.0/1 B\n"
        write("map", halves)
        write("list", halves)
        write("long", f"#{LONG * 'x'}\n{halves}")
        write("cert", CERT)
        write("flows", message(TEMPLATE_SET, data_set(256, RECORD)))
        write("more", message(TEMPLATE_SET, data_set(256, RECORD)) + message(data_set(256, RECORD)))

    def calls_of(self, line, status, out="", err="", **variables):
        """Checks a line in a run with these variables of tests/support/system.c, and returns the calls to the system:
        the name of the call, the number of the file, and the count or the name."""
        settings = " ".join(f"{name}={value}" for name, value in variables.items())
        before = f"export CALLS=9 {settings} LD_PRELOAD={system()}; "
        self.expect(line, status, out, err, before=before, after="9>calls")
        calls = [call.split(" ", 2) for call in read("calls").splitlines()]
        return [(name, int(file), rest if name == "open" else int(rest))
                for name, file, rest in calls if name != "random"]

    def check(self, line, calls, are_right, **variables):
        """Checks that the calls of a line are right."""
        with self.subTest(**variables):
            self.assertTrue(are_right, f"the calls of {line}: {calls[:30]}")

    def check_success(self, line, names, out):
        """Checks the calls of a run that succeeds, also if reads and writes are small."""
        for most in (FEW, 1 << 30):
            calls = self.calls_of(line, 0, out, MOST=most)
            are_right = are_passed_on(calls, names, out, program_of(line.split())[0] == "flowlabel-many")
            self.check(line, calls, are_right, MOST=most)
        # A pipe with a name can be opened and read only once: a second time would wait forever.
        for name in {name for name in names if names.count(name) == 1} if are_right else ():
            os.mkfifo("pipe")
            writer = threading.Thread(target=write_to_pipe, args=(name,))
            writer.start()
            self.expect([word if word != name else "pipe" for word in line.split()], 0, out)
            writer.join()
            os.remove("pipe")

    def check_failures(self, line, names, out):
        """Checks the calls of runs in which one of them fails."""
        for error in ERRORS:
            for number, name in enumerate(names if error != errno.EINTR else (), 1):
                self.fail_at(line, "open", number, error, "", f"{name}: cannot open")
            for number, owner in enumerate(owners(self.calls_of(line, 0, out, MOST=1 << 30)), 1):
                self.fail_at(line, "read", number, error, "", f"{names[owner]}: cannot read")
            for number in range(1, 1 + -(-len(out) // FEW)):
                self.fail_at(line, "write", number, error, out[:FEW * (number - 1)], "output: cannot write", MOST=FEW)

    def fail_at(self, line, kind, number, error, out, why, **variables):
        """Checks a run in which this call of this kind fails."""
        chosen = {"FAILING": kind, "AT": number, "ERROR": error, **variables}
        calls = self.calls_of(line, 4, out, f"{program_of(line.split())[0]}: {why}\n", **chosen)
        self.check(line, calls, ends_with(calls, kind, number, kind == "write"), **chosen)

    def check_message(self, line, status, stream):
        """Checks the calls of a run that writes a message or help, and those of runs in which this fails."""
        for error in ERRORS:
            calls = self.calls_of(line, status, FAILING="write", AT=1, ERROR=error)
            written = [call for call in calls if call[0] == "write"]
            self.check(line, calls, written == [("write", stream, -1)], ERROR=error)


class Calls(Checked):
    """The calls of runs that succeed, of runs in which one call fails, and of messages and help."""

    @rows(*LINES)
    def test_success(self, line, names, out):
        """Each file is opened once and read to its end once, and only the output is written, also in small pieces."""
        self.check_success(line, names, out)

    @rows(*LINES)
    def test_failure(self, line, names, out):
        """A call that fails is not made again, although it would succeed. Only the message comes after it."""
        self.check_failures(line, names, out)

    @rows(*MESSAGES)
    def test_message(self, line, status, stream):
        """The message of a fault and help are written once, to their own stream, even if this fails."""
        self.check_message(line, status, stream)


class CallsOfMany(Checked):
    """Those of flowlabel-many."""

    @rows(*LINES_OF_MANY)
    def test_success(self, line, names, out):
        self.check_success(line, names, out)

    @rows(*LINES_OF_MANY)
    def test_failure(self, line, names, out):
        self.check_failures(line, names, out)

    @rows(*MESSAGES_OF_MANY)
    def test_message(self, line, status, stream):
        self.check_message(line, status, stream)
