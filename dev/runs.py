"""How a run of a program ends by the definitions: what it prints for a command line and its files."""

import contextlib
import os
import sys
from collections import namedtuple
from pathlib import Path

import evaluator
from evaluator import CannotEvaluate, Definitions, Malformed, Unknown, cannot, same, with_stack
from headline import Headline
from kit import NONE, UNIT, Case, Record, borrowed, codes, err, is_ok, is_some, ok, own_name, pair, shown, some

USAGE = ("usage: dev/evaluate [--headline] [--many] COMMAND ARGUMENT.. | "
         "--definition CRATE/MODULE.NAME ARGUMENT..")

# What is seen of a run, with None in place of a text that the definitions leave open.
Seen = namedtuple("Seen", "status out err")


class Untrue(CannotEvaluate):
    """The contract is false of a run."""


class Run:
    """A run of a program with these words and files. A function opens and reads a file by its name, and returns None if
    that can't be opened. Each file of a command is read once, also if another one has its name. No device fails, and
    there is memory."""

    PROGRAM, CRATES = "", ()  # its name, and the crates whose modules have its definitions

    def __init__(self, definitions, words, content_of):
        self.all, self.words, self.content_of = definitions, words, content_of
        self.texts = tuple(map(tuple, (self.PROGRAM.encode(), *words)))
        self.names, self.contents, self.asked, self.command, self.is_text = {}, {}, None, None, True

    def place(self, name):
        """Returns where a definition or a constructor MODULE.NAME of the program is: in the first of its crates."""
        module, _, own = name.partition(".")
        found = (key for crate in self.CRATES for key in self.keys(crate, module, own))
        return next(found, None) or cannot(f"there is no definition {name}"), own

    def keys(self, crate, module, own):
        """Yields the module of a crate that has a name, if it has it. A star is any module that defines it."""
        for key, found in self.all.modules.items():
            if key == f"{crate}/{module}" and self.all.meaning(found, own)[0] or (
                    module == "*" and key.startswith(f"{crate}/") and own in found.definitions):
                yield key

    def call(self, name, *args):
        key, own = self.place(name)
        return self.all.call(f"{key}.{own}", *args)

    def named(self, name, count, *args):
        """Calls a definition that has `count` arguments, or one more if its first is the program's name."""
        key, own = self.place(name)
        sort, full = self.all.meaning(self.all.modules[key], own)
        is_given = sort == "definition" and self.all.definition(full).arity > count
        place = len(self.all.definition(full).outer) if is_given else 0
        return self.call(name, *args[:place], *([codes(self.PROGRAM)] if is_given else []), *args[place:])

    def usage(self, fault):
        return err(self.call("Faults.Usage", fault))

    def seen(self, outcome):
        """Returns what is seen of a run that ends so."""
        status, (result,) = self.call("Faults.exit_status_of", outcome), outcome.args
        if is_ok(outcome):
            return Seen(status, bytes(result), b"")
        if self.is_open(outcome):
            return Seen(status, None, b"") if status == 0 else Seen(status, b"", None)
        return Seen(status, b"", bytes(self.named("Faults.fault_text", 1, result)))

    @staticmethod
    def is_open(outcome):
        """Returns whether the definitions leave open what is printed: help, or a refusal of clap."""
        return shown(outcome) in ("(Err (Usage (Help tt)))", "(Err (Usage (Refused tt)))")

    def of_all(self, found, other=()):
        """Returns what is found for each file, and something else for the others."""
        return Record(**{role: found.get(role, other) for role in vars(self.asked)})

    def outcome(self):
        """Returns how the run ends: Ok of the text, or Err of the fault."""
        try:
            b" ".join(self.words).decode()
        except UnicodeDecodeError:
            self.is_text = False
            return self.usage(self.call("Answer.words_fault_of", Case("InvalidData")))
        answer = Unknown()
        if not self.call("Answer.Answers", self.texts, answer):
            faults = [self.call(f"Answer.{name}", UNIT) for name in ("Help", "Refused")]
            return self.usage(next(fault for fault in faults if self.call("Answer.IsFaultAt", self.texts, fault)))
        if not is_ok(answer.value):
            return self.usage(*answer.value.args)
        request, = answer.value.args
        self.asked = self.call(f"Request.{self.NAMED}", request)
        self.names = {role: name.args[0] for role, name in vars(self.asked).items() if is_some(name)}
        self.contents = {role: self.content_of(bytes(name)) for role, name in self.names.items()}
        for role, content in self.contents.items():
            fault = self.fault("CannotOpen", self.names[role])
            if content is None and self.call("Opening.CannotOpenFirst", self.opens, self.asked, fault):
                return err(fault)
        self.contents = {role: tuple(content) for role, content in self.contents.items()}
        self.command = self.command_of(request)
        return self.end()

    def fault(self, kind, name, *args):
        return self.call(f"Faults.{kind}", borrowed(name), *args)

    def opens(self, name):
        """The possible results of opening a file: those that one with its name had."""
        return lambda reader: any(same(reader, NONE if self.contents[role] is None else some(UNIT))
                                  for role, other in self.names.items() if other == name)

    def role_name(self, fault):
        """Returns the name of the file of which a fault is."""
        return self.call("ByFile.at", self.call("BytesFault.role_of", fault), self.of_all(self.names))

    def source(self, request):
        """Returns the map or the list that a request names, as a command names it."""
        kind = {"FromMap": "Map", "FromList": "Prefixes"}[own_name(request.tag)]
        modules = (module for module in ("Sources", "Request") for crate in self.CRATES
                   if any(self.keys(crate, module, kind)))
        return self.call(f"{next(modules)}.{kind}", borrowed(*request.args))

    def sources(self, request):
        return some(self.source(*request.args)) if is_some(request) else request

    def command_of(self, request):
        """Returns the command that asks for a request. Its arguments are those of the request in other forms."""
        name, keep = own_name(request.tag).capitalize(), lambda value: value
        made = self.arguments(name, request.args, keep)
        command = self.call(f"Request.{name}", *made)
        is_its = same(self.call("Request.request_of", command), request)
        return command if is_its else cannot("no command asks for the request")


class Flowlabel(Run):
    PROGRAM, CRATES, NAMED = "flowlabel", ("flowlabel", "flow_files"), "files_of"

    def end(self):
        end = Unknown()
        if not self.call("Output.IsOutput", self.command, self.of_all(self.contents), end):
            cannot("the command has no output")
        if is_ok(end.value):
            return end.value
        fault, = end.value.args
        return err(self.fault("File", self.role_name(fault), fault))

    def arguments(self, name, args, keep):
        address = lambda value: Record(f_version=value.f_0, f_value=value.f_1)
        source, sources = self.source, self.sources
        made = {"Label": (source, address), "Info": (borrowed,), "Rows": (sources, keep, keep, borrowed),
                "Cat": (source,), "Uniq": (keep, sources, keep, keep, keep, borrowed), "Shrink": (borrowed, keep),
                "Check": 3 * (borrowed,), "Recert": (borrowed,)}[name]
        return [make(value) for make, value in zip(made, args)]


    def wrong(self, headline, outcome):
        """Returns the definition that isn't true of the run and its files, or nothing."""
        view, result = lambda view: view, ok(UNIT) if is_ok(outcome) else outcome
        out = headline.written(outcome.args[0] if is_ok(outcome) else b"")
        old = headline.written(b"")
        is_true = self.call("Run.IsRunOf", view, view, self.command, *headline.files(outcome), old, out, result)
        return "" if is_true else "IsRunOf"


class FlowlabelMany(Run):
    """A run of flowlabel-many. A File is opened after those before it are read. One that can't be opened ends the run
    unless an earlier one has a fault."""

    PROGRAM, CRATES, NAMED = "flowlabel-many", ("flow_many", "flow_files"), "labels_named"

    def end(self):
        names = self.call("Request.files_of", self.call("Request.request_of", self.command))
        read = [self.content_of(bytes(name)) for name in names]
        count = next((place for place, content in enumerate(read) if content is None), len(names))
        self.files, self.named_files, self.fault_at = tuple(map(tuple, read[:count])), names, None
        outcome = self.call("Output.outcome_of", self.command, self.of_all(self.contents), self.files)
        if is_ok(outcome):
            return outcome if count == len(names) else err(self.fault("CannotOpen", names[count]))
        found, = outcome.args
        self.fault_at = found.f_file
        name = names[found.f_file - 1] if found.f_file else self.role_name(found.f_fault)
        return err(self.fault("File", name, found.f_fault))

    def wrong(self, headline, outcome):
        """Returns the definition that isn't true of the run and its Files, or nothing."""
        for kind, name in (("MessageView", "file_reading"), ("Placed", "placed_messages")):
            read = [self.all.call(f"ipfix_read/Messages.{name}", text) for text in self.files] if is_ok(outcome) else ()
            headline.found["some", f"List List {kind}"] = [(tuple(found.args[0] for found in read),)]
        view, result = lambda view: view, ok(UNIT) if is_ok(outcome) else outcome
        out, old = headline.written(outcome.args[0] if is_ok(outcome) else b""), headline.written(b"")
        labels = headline.files(outcome if self.fault_at == 0 else ok(UNIT))
        self.note_files(headline.found)
        is_true = self.call("Run.EndsAs", self.opens_file, view, view, self.command, *labels, old, out, result)
        return "" if is_true else "EndsAs"

    def note_files(self, found):
        """Notes the readers of the Files, with the texts and names of those before one with a fault."""
        reader = lambda text, is_read: Record(
            f_failed=False, f_returned=text if is_read else (), f_stopped=is_read, f_left=some(() if is_read else text))
        readers = tuple(pair(reader(text, False), reader(text, True)) for text in self.files)
        names, count = tuple(self.named_files), len(self.files) if self.fault_at is None else self.fault_at - 1
        before = Record(f_earlier=names[:count], f_later=names[count + 1:], f_readers=readers[:count])
        found["some", "List R × R"] = [(readers,)]
        found["some", "value"] = [(before.f_earlier, before.f_later, before.f_readers)]
        found["all", "ByFile Text, List Text"] = [(self.of_all(self.contents), self.files)]
        found["all", "List Text"] = [(self.files[:count],)]
        if self.fault_at:
            last = readers[count]
            found["some", "AreSound refusal names file.now, R"] = [(before, last.f_0, last.f_1)]
            found["all", "List Text, Text"] = [(self.files[:count], self.files[count])]

    def opens_file(self, name):
        """The possible results of opening a File: a reader that reports its bytes, or none."""
        content = self.content_of(bytes(name))
        opened = NONE if content is None else some(Record(
            f_failed=False, f_returned=(), f_stopped=False, f_left=some(tuple(content))))
        return lambda reader: same(reader, opened)

    def arguments(self, name, args, keep):
        if name == "Messages":
            return args
        unit, fields, source, *others = args
        start = lambda unit: self.call("Output.Start", Record(
            f_precision=unit.f_0, f_count=unit.f_1, f_some=UNIT))
        return [(*map(start, unit.args), *fields), self.sources(source), *others]


# The programs, and how their runs end.
PROGRAMS = {run.PROGRAM: run for run in (Flowlabel, FlowlabelMany)}


def content(name):
    """Returns the bytes of a file, or None if it can't be opened."""
    try:
        file = os.open(name, os.O_RDONLY | os.O_CLOEXEC)
    except OSError:
        return None
    try:
        with os.fdopen(file, "rb", buffering=0) as opened:
            return opened.readall()
    except OSError as error:
        return cannot(f"{os.fsdecode(name)}: {error.strerror}")


def seen_of(definitions, words, content_of, program="flowlabel", with_headline=False):
    """Returns what is seen of a run of a program. With its headline, this is also evaluated on the run."""
    run = PROGRAMS[program](definitions, words, content_of)
    outcome = definitions.evaluated(run.outcome)
    if with_headline and (wrong := definitions.evaluated(Headline(definitions, run).wrong, outcome)):
        cannot(f"{wrong} is false of the run", Untrue)
    return run.seen(outcome)


def write(stream, text):
    """Writes a text to the standard output, 1, or to the standard error, 2."""
    try:
        while text:
            text = text[os.write(stream, text):]
    except OSError as error:
        cannot(f"{('standard output', 'standard error')[stream - 1]}: {error.strerror}")


def evaluate(words):
    """Prints what the words of the command line ask for, and returns the exit status. `--help` alone asks for the help
    of dev/evaluate, since the definitions leave that of flowlabel open."""
    if words in (["-h"], ["--help"]):
        write(1, evaluator.__doc__.encode())
        return 0
    if words in ([], ["--headline"], ["--many"], ["--headline", "--many"], ["--definition"]):
        cannot(USAGE, Malformed)
    definitions = Definitions()
    if words[0] == "--definition":
        module = definitions.module(words[1].partition(".")[0])
        args = (tuple(Path(word[1:]).read_bytes()) if word[:1] == "@" else definitions.term(word, module)
                for word in words[2:])
        write(1, definitions.evaluated(shown, definitions.call(words[1], *args)).encode() + b"\n")
        return 0
    with_headline, words = words[0] == "--headline", words[words[0] == "--headline":]
    is_many, words = words[0] == "--many", words[words[0] == "--many":]
    seen = seen_of(definitions, [*map(os.fsencode, words)], content,
                   FlowlabelMany.PROGRAM if is_many else Flowlabel.PROGRAM, with_headline)
    write(1, seen.out or b"")
    write(2, seen.err or b"")
    if None in seen:
        write(2, b"dev/evaluate: the program prints a text that the definitions leave open\n")
    return seen.status


def command():
    """Evaluates what the words of the command line ask for, and ends with its status, or with 125."""
    sys.set_int_max_str_digits(0)
    try:
        status = with_stack(lambda: evaluate(sys.argv[1:]))
    except OSError as error:
        status = f"{error.filename or 'a file'}: {error.strerror}"
    except CannotEvaluate as error:
        status = error
    except MemoryError:
        status = "out of memory"
    except Exception as error:  # pylint: disable=broad-except
        status = f"{type(error).__name__}: {error}"
    if isinstance(status, int):
        os._exit(status)
    with contextlib.suppress(CannotEvaluate):
        write(2, " ".join(f"dev/evaluate: {status}".split()).encode(errors="replace") + b"\n")
    os._exit(125)
