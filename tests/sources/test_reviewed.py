#!/usr/bin/env python3
"""Compares what no proof sees with what was last reviewed: tests/run.py reviewed

The prover can't see that a contract became weaker if nothing proved needs it, that a body reports out of memory
although no allocation failed, that a size is too large, or that a proof by hand sets a `Record` to other bytes. Each
such place is a line of reviewed.txt: its kind, its file, its name or function, and its text, or the SHA-256 of a long
text.

- contract: the functions from `main` down to `run`, all laws, and each public function that nothing on the way from
  `main` calls. Functions are found by their names, so a name that two types share may hide one.
- definition: what the headline says, and what readers and writers have done. The SHA-256 is also that of where each
  imported name comes from.
- constant: the constants of src/ that definitions name.
- memory: each line of code that has an out-of-memory error, an import or another name of one, with the lines that open
  the blocks around it, and the errors of the functions that it calls.
- size: each call that chooses a size, with the lines that give the variables in it their values, and constants. If a
  size is a parameter, each call of that function chooses a size too.
- hand: each file of proofs/ that can be a proof by hand, and each word that needs one. The prover checks the files
  `Invariants.antt` and `Answers.antt` as parts of proofs that it made itself. Lemmas are directly in proofs/.

A test fails if a place is new, has changed or is gone. Then read it, and what `git log -p` shows of it.
`tests/sources/test_reviewed.py --write` stores all places, and the new reviewed.txt is part of the commit.
"""

import collections
import functools
import hashlib
import itertools
import re
import sys
from pathlib import Path
from typing import NamedTuple

ROOT = Path(__file__).resolve().parents[2]
sys.path[:0] = [str(ROOT / "tests"), str(ROOT / "dev")]
from specs import Module
from support import Case

CRATES, STORED = ROOT / "crates", Path(__file__).with_name("reviewed.txt")
OUTERMOST = {"flowlabel_main/src/main.rt main", "flowlabel/src/lib.rt program", "flowlabel/src/lib.rt execute",
             "flowlabel/src/ending.rt end", "flowlabel/src/words.rt parse", "flowlabel/src/commands.rt run",
             "flow_many_main/src/main.rt main", "flow_many/src/lib.rt program", "flow_many/src/lib.rt execute",
             "flow_many/src/words.rt parse", "flow_many/src/commands.rt run"}
# Files whose definitions are stored up to DIVIDER, and single definitions of other files.
HEADLINE = ("flowlabel/specs/Ending", "flowlabel/specs/Headline", "flowlabel/specs/Run", "flow_files/specs/Ending",
            "flow_files/specs/Groups", "flow_files/specs/Opening", "flow_files/specs/Readers", "flow_many/specs/Ending",
            "flow_many/specs/Headline", "flow_many/specs/Joined", "flow_many/specs/Run",
            "flow_io/specs/Ahead", "flow_io/specs/Devices", "flow_io/specs/Watched", "flow_uniq/specs/Grouped",
            "pmap_stretches/specs/Runs")
DEFINITIONS = {"ipfix_read/specs/Lending": ("LeavesMessages", "row"),
               "ipfix_read/specs/Messages": ("AnswersCall", "AnswersNext", "IsIncomplete", "is_read_fault"),
               "pmap_cert/specs/Acceptance": ("HasBlock", "IsInOrder", "IsLeast", "begins_before"),
               "pmap_model/specs/ListModel": ("IsEquivalent",)}
DIVIDER = "-- Below:"
# An out-of-memory error, but no import under its own name, type, variant, comparison or text of it.
MADE = re.compile(r"\b(?:AllocError|NoMemory)\b")
PLAIN = re.compile(r"^use std::alloc::(?:\{AllocError, Global\}|AllocError);$|[<:,] ?AllocError[>,)]|"
                   r"^type Fault = AllocError;|^NoMemory,$|(?:==|!=) \w+::NoMemory|"
                   r"^\w+::NoMemory => (?:true|\"|String::|memory_line\().*")
CHOOSES = re.compile(r"\b(?:with_capacity\w*|reserve\w*|resize\w*|try_\w+|repeat)\(|\bvec!\[in \w+; [^;]+; ")
HAND = re.compile(r"\b(?:unsafe|extern|also_owns|also_shares|Owns|OwnsFields|SharesFields|Move(?= for\b))\b")
AXIOM = re.compile(r"\baxioms?\b", re.IGNORECASE)
# How the clauses of a contract begin, and a function.
CLAUSES = r" *(?:ensures|requires)\b"
FUNCTION = re.compile(r"\s*(pub )?(?:pub\([a-z]+\) )?(?:const )?fn (\w+)")
# What docs/PROOFS.md shows under 'What is left to read', and where it is.
SHOWN = ("fn read(", "fn write(", "fn flush(", "fn new(", "fn note(")
SHOWN_OF = ("flow_io/src/watch.rt", "flow_io/src/record.rt")


def read(path):
    return (CRATES / path).read_text(encoding="utf-8")


def one_line(text):
    return " ".join(text.split())


class Function(NamedTuple):
    """A function of src/: `code` is its text without comments and contracts, `contract` its signature and clauses."""

    file: str
    kind: str
    name: str
    is_public: bool
    takes_self: bool
    code: str
    contract: str

    @property
    def place(self):
        return f"{self.file} {self.kind and self.kind + '::'}{self.name}"

    @property
    def head(self):
        return self.code.partition("{")[0]

    @property
    def body(self):
        return self.code.partition("{")[2]

    def calls(self):
        """Returns the pattern of a call of the function."""
        if self.takes_self:
            return rf"(?:\.|::){self.name}(?:::<[^>(]*>)?\("
        if self.kind:
            return rf"\b(?:{self.kind}|Self)(?:::<[^>(]*>)?::{self.name}\b"
        return rf"(?<![.\w]){self.name}(?:::<[^>(]*>)?\("


def code_of(text):
    """Returns the lines of a source without comments, contracts and ghost imports. They keep their numbers."""
    lines, depth = [], 0
    for line in text.split("\n"):
        if depth or re.match(r"\s*(?:ensures|requires|decreases|ghost)\b", line):
            depth += line.count("{") - line.count("}")
            line = ""
        lines.append(re.sub(r"//.*", "", line))
    return lines


@functools.cache
def sources():
    """Returns the code of each source of the crates, as lines."""
    return {str(path.relative_to(CRATES)): code_of(read(path)) for path in sorted(CRATES.glob("*/src/**/*.rt"))
            if path.relative_to(CRATES).parts[0] != "definition_examples"}


@functools.cache
def functions():
    """Returns the functions of the sources."""
    found = []
    for file, lines in sources().items():
        text, kinds = read(file).split("\n"), [""]
        for line in lines:
            kind = re.match(r"impl(?:<.*?>)? (?:.* for )?(\w+)|(?:pub )?trait (\w+)|\}", line)
            kinds.append(kind[1] or kind[2] or "" if kind else kinds[-1])
        starts = [at for at, line in enumerate(lines) if FUNCTION.match(line)]
        for start, end in zip(starts, [*starts[1:], len(lines)]):
            code = "\n".join(lines[start:end])
            opens = next((at for at in range(start, end) if re.search(r"(?:\{\}?|;)$", lines[at])), start)
            contract = re.sub(r"\s*\{\}?\s*$", "", "\n".join(text[start:opens + 1]))
            public, name = FUNCTION.match(lines[start]).groups()
            takes_self = re.search(r"\bself\b", code.partition("{")[0])
            found.append(Function(file, kinds[start], name, bool(public), bool(takes_self), code, contract))
    return found


def sources_of_names(text, module):
    """Returns where the names of a text come from that its file imports."""
    words = {part for word in re.findall(r"[^\s(){},;]+", text) for part in (word, *word.split("."))}
    names = {**module.names, **{name: (there, "") for name, there in module.modules.items()}}
    return [f"{name} is {there}.{own}" for name, (there, own) in sorted(names.items())
            if all(part in words for part in name.split("◌") if part)]


def with_names(text, file):
    """Returns a text, and where its names come from."""
    return "\n".join([text, *sources_of_names(text, Module("", None, read(file)))])


def ghosts_of(kind):
    """Returns the ghost members of a type, by which contracts speak of it."""
    found = []
    for file in sources():
        for body in re.findall(rf"(?ms)^impl(?:<[^\n]*?>)? (?:[^\n]* for )?{kind}\b.*?^\}}", read(file)):
            found += re.findall(r"(?ms)^    ghost (?!use\b).*?;$", body)
    return "\n".join(found)


def uncalled():
    """Yields the public functions with contracts that nothing on the way from `main` calls, and that are no laws."""
    known, waiting = set(), [function for function in functions() if function.name == "main"]
    named = collections.defaultdict(list)
    for function in functions():
        named[function.name].append((function, re.compile(function.calls())))
    own = {(function.file, function.name) for function in functions() if not function.kind}
    while waiting:
        caller = waiting.pop()
        for function, pattern in itertools.chain(*(named.get(word, ()) for word in {*re.findall(r"\w+", caller.body)})):
            if function.kind == "" and function.file != caller.file and (caller.file, function.name) in own:
                pattern = re.compile(rf"::{function.name}\(")  # without a path, the name is that of the caller's file
            if function not in known and pattern.search(caller.body):
                known.add(function)
                waiting.append(function)
    for function in functions():
        if function.is_public and function not in known and re.search(rf"(?m)^{CLAUSES}", function.contract):
            yield function


def contracts():
    """Yields the contracts: kind and place, and the text."""
    outer = [function for function in functions() if f"{function.file} {function.name}" in OUTERMOST]
    laws = [function for function in functions() if re.match(rf"pub fn \w+\(\)\n{CLAUSES}", function.contract)]
    for function in dict.fromkeys([*outer, *laws, *uncalled()]):
        text = function.code if function.name == "main" else function.contract
        members = ghosts_of(function.kind) if function.kind else ""
        yield f"contract {function.place}", with_names(f"{text}\n{members}".strip(), function.file)


def definitions():
    """Yields the definitions of the headline: kind and place, and the text."""
    for file in (*HEADLINE, *DEFINITIONS):
        text = read(f"{file}.antt")
        if file in HEADLINE:
            text = text.partition(f"\n{DIVIDER}")[0]
        module = Module("", None, text).read()
        for name, definition in module.definitions.items():
            if name in DEFINITIONS.get(file, module.definitions):
                whole = "\n".join(filter(None, [definition.part, *definition.lines]))
                yield f"definition {file}.antt {name}", "\n".join([whole, *sources_of_names(whole, module)])


@functools.cache
def all_constants():
    """Returns the constants of the sources: the file, the name and the text of each."""
    form = re.compile(r"\bconst ([A-Z]\w*): ((?:[^;\[]|\[[^\]]*\])*);")
    return [(file, name, one_line(text)) for file, lines in sources().items()
            for name, text in form.findall("\n".join(lines))]


def constants():
    """Yields the constants of src/ that definitions name."""
    imported = re.compile(r"(?m)^use Rattle\.(\w+)\.specs\.declared\.\S*TheConstants\.\{(.*)\}")
    names = {(crate, name) for path in CRATES.glob("*/specs/*.antt") for crate, items in imported.findall(read(path))
             for name in items.split(", ")}
    for file, name, text in all_constants():
        if (file.split("/")[0], name) in names:
            yield f"constant {file} {name}", text


@functools.cache
def errors():
    """Returns the errors of the functions that return a `Result`, by their names."""
    found = collections.defaultdict(set)
    for function in functions():
        if result := re.search(r"-> .*\bResult<.*\b([A-Z]\w*)(?:<[^<>]*>)?>+(?: where .*)?$", one_line(function.head)):
            found[function.name].add(result[1])
    return found


def statement_to(lines, first, at):
    """Returns the statement that ends with a line, from its first line on."""
    begin = at
    while begin > first and (re.match(r"\s*[.)\]}]", lines[begin]) or lines[begin] == ""):
        begin -= 1
    return one_line(" ".join(lines[begin:at + 1]))


def openings(lines, first, at):
    """Yields the lines that open the blocks around a line, up to the first that is no arm of `match` and no value."""
    depth = 0
    for line in range(at - 1, first - 1, -1):
        depth += lines[line].count("{") - lines[line].count("}")
        if depth > 0:
            text, depth = statement_to(lines, first, line), 0
            yield from [text] if text != "{" else []
            if not re.search(r"=> \{$|^[A-Z]\w* \{$", text):
                return


def memory():
    """Yields the places that make an out-of-memory error."""
    for file, lines in sources().items():
        starts = [at for at, line in enumerate(lines) if FUNCTION.match(line)]
        for at, line in enumerate(lines):
            if MADE.search(PLAIN.sub("", line.strip())) and not FUNCTION.match(line):
                start = max((begin for begin in starts if begin <= at), default=0)
                name = found[2] if (found := FUNCTION.match(lines[start])) else ""
                text = " in ".join([statement_to(lines, start, at), *openings(lines, start, at)])
                called = sorted({*re.findall(r"(\w+)(?:::<[^>(]*>)?\(", text)} & errors().keys())
                failing = (f"{callee}: {' '.join(sorted(errors()[callee]))}" for callee in called)
                yield f"memory {file} {name}", "; ".join([text, *failing])


def call_at(text, found):
    """Returns a call in a text, up to its closing bracket."""
    depth = 0
    for at in range(found.end() - 1, len(text)):
        depth += (text[at] in "([{") - (text[at] in ")]}")
        if depth <= 0 and text[at] in ")]}" and at >= found.end():
            return one_line(text[found.start():at + 1])
    return one_line(text[found.start():])


def with_variables(call, code):
    """Returns a call with the lines of the code that give the variables in it their values, those in these lines, and
    the constants."""
    texts, found = [call], {}
    while texts:
        for name in re.findall(r"(?<!\w)(?<![^.]\.)[A-Za-z_]\w*(?![\w(!:{])", texts.pop()):
            form = rf"\b(?:let (?:mut )?{name}(?:: [^=;]+)?|{name}) [-+*/|]?= [^;]*;"
            lines = [f"const {name}: {text}" for _, own, text in all_constants() if own == name] or [
                one_line(re.sub(r"\n\s*\.", ".", line))[:-1] for line in re.findall(form, code)]
            texts += [line.partition("= ")[2] for line in lines if line not in found]
            found |= dict.fromkeys(lines)
    return "; ".join([call, *sorted(found)])


def sizes():
    """Yields the calls that choose a size."""
    passing, before, places = {}, None, []
    while before != len(passing):
        before, places = len(passing), []
        pattern = re.compile("|".join([CHOOSES.pattern, *(function.calls() for function in passing)]))
        for function in functions():
            numbers = re.findall(r"[(,]\s*(?:mut )?(\w+): (?:usize|u32|u64)\b", function.head)
            for found in pattern.finditer(function.body):
                text = with_variables(call_at(function.body, found), function.body)
                places.append((function, text))
                if any(re.search(rf"(?<![\w.]){name}(?![\w.(])", text) for name in numbers):
                    passing[function] = None
    for function, text in places:
        yield f"size {function.place}", text


def by_hand():
    """Yields what a proof by hand needs."""
    for path in sorted(CRATES.glob("*/proofs/*/**/*")):
        if path.is_file() and path.name not in ("Answers.antt", "Invariants.antt"):
            yield f"hand {path.relative_to(CRATES)}", path.read_text(encoding="utf-8", errors="backslashreplace")
    for pattern, globs in ((HAND, ("*/src/**/*.rt",)), (AXIOM, ("*/proofs/**/*.antt", "*/specs/**/*.antt"))):
        for path in sorted(path for glob in globs for path in CRATES.glob(glob)):
            for line in read(path).split("\n"):
                if pattern.search(line):
                    yield f"hand {path.relative_to(CRATES)}", line.strip()
    for path in sorted(CRATES.glob("*/antt-project.json")):
        yield f"hand {path.relative_to(CRATES)}", read(path)


KINDS = (contracts, definitions, constants, memory, sizes, by_hand)


def stored_as(place, text):
    """Returns what reviewed.txt has of the text of a place."""
    is_long = place.startswith(("contract ", "definition ")) or "\n" in text
    return hashlib.sha256(text.encode()).hexdigest()[:16] if is_long else text


def stripped(text):
    """Returns the lines of a text without the blanks around them."""
    return "\n".join(line.strip() for line in text.strip().split("\n"))


class Reviewed(Case):
    def compare(self, kind, places):
        """Compares all places of a kind with those that are stored."""
        texts = {}
        now, then = (collections.defaultdict(collections.Counter) for _ in range(2))
        for place, text in places:
            now[place][stored_as(place, text)] += 1
            texts[stored_as(place, text)] = text
        for line in STORED.read_text(encoding="utf-8").splitlines():
            place, _, text = line.partition(": ")
            if place.startswith(f"{kind} "):
                then[place][text] += 1
        self.assertTrue(then, "nothing is stored")
        for place in sorted({*now, *then}):
            with self.subTest(place):
                if now[place] != then[place]:
                    changes = [f"now: {texts[text]}" for text in now[place] - then[place]]
                    changes += [f"gone: {text}" for text in then[place] - now[place]]
                    self.fail("\n".join(["not as it was reviewed; read this, and then store it by --write", *changes]))

    def test_contracts(self):
        self.compare("contract", contracts())

    def test_definitions(self):
        self.compare("definition", definitions())

    def test_constants(self):
        self.compare("constant", constants())

    def test_out_of_memory(self):
        self.compare("memory", memory())

    def test_sizes(self):
        self.compare("size", sizes())

    def test_proofs_by_hand(self):
        self.compare("hand", by_hand())

    def test_page_of_proofs(self):
        """docs/PROOFS.md shows under 'What is left to read' the functions that only a reader can judge, as they are."""
        page = (ROOT / "docs/PROOFS.md").read_text(encoding="utf-8")
        shown = re.findall(r"(?m)(?:^ {4}.*\n)+", re.search(r"(?ms)^### What is left to read\n(.*?)^##", page)[1])
        code = [stripped(read(path)) for path in SHOWN_OF]
        for text in shown:
            self.assertTrue(any(stripped(text) in each for each in code), f"no source has this:\n{text}")
        for name in SHOWN:
            self.assertTrue(any(name in text for text in shown), f"the page doesn't show {name}")


if __name__ == "__main__":
    if sys.argv[1:] != ["--write"]:
        sys.exit("test_reviewed.py: the only word is --write; tests/run.py reviewed compares")
    STORED.write_text("".join(
        f"{place}: {stored_as(place, text)}\n" for kind in KINDS for place, text in kind()), encoding="utf-8")
