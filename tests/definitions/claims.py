"""The worked examples, evaluated, and definitions that are changed, for scripts of tests/."""

import collections
import itertools
import re
import sys
from pathlib import Path
from typing import NamedTuple

ROOT = Path(__file__).resolve().parents[2]
sys.path.insert(0, str(ROOT / "dev"))
import evaluator
import runs
from quick import QUICK
from evaluator import CannotEvaluate, Malformed, Module, Record, filling, with_stack

EXAMPLES = ("crates/definition_examples/src/**/*.rt", "tests/definitions/claims.rt.in")
CLAUSE = re.compile(r"\bensures (\w*)\s*\{(.*?)\}\s*(?=\bensures \w*\s*\{|\Z)", re.S)
# Values on which a claim about all values of a type is tried if it can't be evaluated: they can refute it.
MAPPING, PREFIX = {"f_low": 7, "f_high": 7}, {"f_start": 7, "f_bits": 32}
SAMPLES = {"Text": [(), (120,)], "String Global": [Record(f_bytes=Record(f_items=(120,)))]} | {
    kind: [(Record(**fields, f_label=(65,)),) * count for count in (0, 1, 999_999, 1_000_000)]
    for kind, fields in (("List Mapping", MAPPING), ("List Prefix", PREFIX))}

# A word of the library that only changes bring in.
evaluator.LIBRARY["min"] = 2, "the smaller number", min
# A word that claims.samples puts in the place of `length`: lists of two and three items are at the limit of messages.
evaluator.LIBRARY["long_length"] = 1, "4,294,967,293 more than how many items", lambda xs: 4_294_967_293 + len(xs)
# Numbers of ranges as indices of lists.
evaluator.Number.__index__ = lambda number: (lambda first: first if number == first else 0)(number.of(number.span[0]))


def read_samples():
    """Reads claims.samples. Returns the samples by their types, and what is replaced for claims of functions."""
    samples, replaced = collections.defaultdict(list), collections.defaultdict(list)
    text = re.sub(r"^#.*\n", "", (ROOT / "tests/definitions/claims.samples").read_text(encoding="utf-8"), flags=re.M)
    for entry in text.strip().split("\n\n"):
        head, *lines = map(str.strip, entry.splitlines())
        kind, _, rest = head.partition(" ")
        if kind == "under":
            function, module = rest.split(", ")
            replaced[function].append((module, *lines))
        elif rest.startswith("two of "):
            samples[f"{kind} {rest.removeprefix('two of ')}"] += itertools.product(lines, repeat=2)
        else:
            samples[head] += [[term if term != "?" else None for term in line.split(" ; ")] for line in lines]
    return samples, replaced


SAMPLED, REPLACED = read_samples()


class Claim(NamedTuple):
    """A worked example: a clause `ensures NAME { CLAIM }` of a function in a .rt file."""

    file: Path
    function: str
    name: str
    text: str
    line: int

    def __str__(self):
        return f"{self.file.name.split('.')[0]}::{self.function}::{self.name or self.line}"


class Definitions(evaluator.Definitions):
    """The definitions, which may be changed, and the worked examples."""

    def __init__(self, root=ROOT):
        self.noted = set()
        super().__init__(root)
        self.importing = {}
        path = ROOT / "tests/definitions/Claims.antt.in"
        self.modules["tests/Claims"] = Module("tests/Claims", path, path.read_text(encoding="utf-8")).read()
        self.sampled = ""

    def samples(self, some, kind, count):
        """As dev/evaluator.py has it: those of claims.samples."""
        if not self.sampled:
            return []
        module = self.importing[ROOT / "tests/definitions/claims.rt.in"]
        found = SAMPLED.get(f"{some} {kind} in {self.sampled}", SAMPLED.get(f"{some} {kind}", ()))
        made = [[text and self.term(text, module) for text in texts] for texts in found if len(texts) == count]
        return [(values.count(None), filling(values)) for values in made]

    def for_all(self, kind, count, premises, claim):
        """As dev/evaluate has it. If nothing determines a value, SAMPLES may refute the claim, and in
        tests/definitions/claims.rt.in `all` are the samples of a type."""
        try:
            return evaluator.for_all(kind, count, premises, claim)
        except (CannotEvaluate, TypeError):
            for xs in itertools.product(SAMPLES.get(kind, ()), repeat=count):
                if all(premise(*xs) for premise in premises) and not claim(*xs):
                    return False
            if not (found := self.samples("all", kind, count)):
                raise
        return self.all_samples(found, premises, claim)

    def run(self, words, files, with_headline=False):
        """Returns what is seen of a run with these words and files, by their names."""
        return runs.seen_of(self, words, files.get, with_headline=with_headline)

    def replace(self, key, text):
        """Reads a module, or a file of src/, from another text instead."""
        if "/src/" in key:
            self.values.clear()
            self.sources[self.root / "crates" / key] = text
            return
        old, new = self.modules[key], evaluator.Module(key, self.modules[key].path, text).read()
        self.modules[key], new.original = new, getattr(old, "original", old.text)
        self.meaning.cache_clear()
        self.values.clear()
        arities = [{name: definition.arity for name, definition in module.definitions.items()} for module in (old, new)]
        keys = [key] if arities[0] == arities[1] else [*self.modules]
        names = [(key, name) for key in keys for name in self.modules[key].definitions]
        names += [full for full in QUICK if full[0] not in keys]  # which may be computed by other equations now
        made = [full for full in names if self.python_name(full) in self.space]
        for full in made:
            del self.space[self.python_name(full)]
        for full in made:
            self.translated(full)

    def restore(self, key):
        """Reads a module, or a file of src/, from its own text again."""
        if "/src/" in key:
            self.values.clear()
            del self.sources[self.root / "crates" / key]
            return
        self.replace(key, getattr(self.modules[key], "original", self.modules[key].text))

    def claims(self):
        """Returns all worked examples."""
        claims = []
        for path in sorted(path for pattern in EXAMPLES for path in self.root.glob(pattern)):
            text = re.sub(r"(?m)^[ \t]*//.*$", "", path.read_text(encoding="utf-8"))
            for function in re.finditer(r"(?ms)^pub fn (\w+)\(\)\n(.*?)^\{\}", text):
                for clause in re.finditer(CLAUSE, function[2]):
                    line = text.count("\n", 0, function.start(2) + clause.start()) + 1
                    claims.append(Claim(path, function[1], clause[1], clause[2].strip(), line))
        return claims

    def claim(self, text, file):
        """Returns a claim of one's own, with the names that a .rt file imports."""
        return Claim(file, "a_claim", "of_its_own", text, 0)

    def verdict(self, claim):
        """Returns whether a claim is true."""
        if claim.file not in self.importing:
            text = claim.file.read_text(encoding="utf-8")
            self.importing[claim.file] = Module(f"claims/{claim.file.stem}", claim.file, text)
        self.sampled = claim.function if claim.file.name == "claims.rt.in" else ""
        before = {}
        try:
            for key, old, new in REPLACED.get(claim.function, ()) if self.sampled else ():
                before.setdefault(key, text := self.modules[key].text)
                if old not in text:
                    evaluator.cannot(f"{key} has no {old}")
                self.replace(key, text.replace(old, new))
            return bool(self.term(claim.text, self.importing[claim.file]))
        finally:
            self.sampled = ""
            for key, text in before.items():
                self.replace(key, text)

    def tracked(self, function):
        """Returns the value of a function, and the names of the definitions and constants that it reached."""
        self.noted.clear()
        self.constants.clear()
        self.values.clear()
        value = function()
        self.values.clear()
        constants = {f"{self.source_of(place).relative_to(self.root / 'crates')}.{place.rpartition('.')[2]}"
                     for place in self.constants}
        return value, frozenset(self.noted | constants)

    def reached(self, claim):
        """Returns the names of the definitions that the evaluation of a claim reaches."""
        def quiet():
            try:
                self.verdict(claim)
            except CannotEvaluate:
                pass
        return self.tracked(quiet)[1]
