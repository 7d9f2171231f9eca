"""Compares the definitions with the program, and evaluates the worked examples.

dev/evaluate evaluates the definitions of specs/ for a command line and its files, and the program runs with the same
ones. Both must end with the same output, the same standard error and the same status, for the inputs of
tests/definitions/inputs.py, and the contract must be true of the run. If the definitions leave a text open, such as
help and clap's refusals, the program must print one. The inputs are the same in each run, and each fault must occur in
them.

The worked examples are claims of crates/definition_examples, which the prover computes too, and those of
tests/definitions/claims.rt.in.
"""

import itertools
import os
import re

from definitions import inputs
from support import PROGRAM, ROOT, Case, rows, run, write

# The made inputs: a number of seeds, each with inputs of its own. A test tries the first ones of a seed, or the others.
SEED, SEEDS, INPUTS, FIRST = 20261129, 72, 125, 64
# The faults that must occur. P1, a word that isn't UTF-8, has its own input. M12, more than 65,535 labels or a million
# mappings, takes too long to evaluate.
FAULTS = {*(f"M{number}" for number in range(1, 15) if number != 12), *(f"F{number}" for number in range(1, 8)),
          *(f"{kind}{number}" for kind in "CKP" for number in range(1, 7) if (kind, number) != ("P", 1)),
          *(f"{kind}{number}" for kind in "XL" for number in range(1, 4)), "U1", "U2", "cannot open"}
COMMANDS = {"label", "info", "rows", "uniq", "cat", "shrink", "check", "recert"}
# Worked examples that speak of all values of a type: all lists of a million mappings, lists with fewer entries, texts.
# They can't be evaluated.
NOT_EVALUATED = {"a_text_has_at_most_1000000_mappings", "a_list_with_an_entry_too_many_is_not_least",
                 "a_run_reports_any_other_fault", "a_file_may_have_a_text"}
# In how many parts the longest files of claims are evaluated, and the inputs of the worked examples. The examples over
# the Files of examples/ take longer than all others together.
CLAIM_PARTS, KNOWN_PARTS = {"samples.rt": 5, "claims.rt.in": 3}, 4
EXAMPLES = sorted((ROOT / "crates/definition_examples/src").glob("*.rt"))
CLAIMS = [*(path.name for path in EXAMPLES if path.name != "lib.rt"), "claims.rt.in"]
FILES = sorted(path.name for path in (ROOT / "examples").iterdir())


def parts(first, last):
    """Makes a test for each of these parts."""
    return rows(*((part,) for part in range(first, last)))


def difference(seen, ended):
    """Returns what differs between what the definitions give and a run. A text that they leave open must be there."""
    for name, wanted, found in (("status", seen.status, ended.returncode), ("output", seen.out, ended.stdout),
                                ("standard error", seen.err, ended.stderr)):
        if found != wanted if wanted is not None else not found:
            return f"the {name} is {found!r:.300}, and by the definitions {wanted!r:.300}"
    return ""


def run_of(given):
    """Runs the program with an input, whose files are written to the working folder."""
    for name in inputs.NAMES:
        if name not in given.files and os.path.exists(name):
            os.remove(name)
    for name, content in given.files.items():
        write(os.fsdecode(name), content)
    return run(PROGRAM, *given.words)


class Evaluated(Case):
    @classmethod
    def prepare(cls):
        # It imports dev/evaluator.py, which takes longer than an import of tests may.
        from definitions import claims
        cls.claims, cls.definitions = claims, claims.with_stack(claims.Definitions)

    def check(self, faults):
        """Checks that there is no fault: `faults` yields what was tried, and why it failed, if it did."""
        found = self.claims.with_stack(lambda: list(faults))
        for what, fault in found:
            with self.subTest(str(what)):
                self.assertFalse(fault, f"{what}: {fault}")
        self.assertTrue(found, "nothing was tried")

    def compared(self, given):
        """Yields each input with what differs. On each eighth run the contract of the program is evaluated too."""
        for number, each in enumerate(given):
            ended = run_of(each)
            try:
                fault = difference(self.definitions.run(*each, with_headline=number % 8 == 0), ended)
            except self.claims.CannotEvaluate as error:
                fault = f"can't be evaluated: {error}"
            files = "".join(f"\n  {os.fsdecode(name)}: {content[:400]!r}" for name, content in each.files.items()
                            if any(name in word for word in each.words)) if fault else ""
            yield each, fault and fault + files

    def claimed(self, chosen):
        """Yields each worked example with why it isn't true."""
        for claim in chosen:
            try:
                fault = "" if self.definitions.verdict(claim) else "is false"
            except self.claims.CannotEvaluate as error:
                fault = "" if claim.function in NOT_EVALUATED else f"can't be evaluated: {error}"
            yield claim, fault

    def claims_of(self, name):
        return [claim for claim in self.definitions.claims() if claim.file.name == name]


class Claims(Evaluated):
    @rows(*((name, part) for name in CLAIMS for part in range(CLAIM_PARTS.get(name, 1))))
    def test_claims(self, name, part):
        self.check(self.claimed(self.claims_of(name)[part::CLAIM_PARTS.get(name, 1)]))


class Known(Evaluated):
    @parts(0, KNOWN_PARTS)
    def test_worked_examples(self, part):
        self.check(self.compared([*inputs.known()][part::KNOWN_PARTS]))

    @rows(*((name,) for name in FILES if name.endswith(".txt")))
    def test_text(self, name):
        self.check(self.compared(inputs.of_text(name.encode())))


class Files(Evaluated):
    @rows(*((name,) for name in FILES if name.endswith(".ipfix")))
    def test_file(self, name):
        self.check(self.compared(inputs.of_file(name.encode())))


class Made(Evaluated):
    is_long = True
    def compare(self, part):
        given = [*inputs.made(f"{SEED} {part // 2}", INPUTS)]
        self.check(self.compared(given[FIRST:] if part % 2 else given[:FIRST]))


class Made1(Made):
    @parts(0, 36)
    def test_made(self, part):
        self.compare(part)


class Made2(Made):
    @parts(36, 72)
    def test_made(self, part):
        self.compare(part)


class Made3(Made):
    @parts(72, 108)
    def test_made(self, part):
        self.compare(part)


class Made4(Made):
    @parts(108, 2 * SEEDS)
    def test_made(self, part):
        self.compare(part)


class Faults(Case):
    def test_each_fault_occurs(self):
        """Each fault, and a success of each command, is that of some input."""
        missing = FAULTS | COMMANDS
        # A File has the same fault for each command.
        known = (given for given in inputs.known() if given.words[:1] == [b"info"] or b"day.ipfix" not in given.words)
        for given in itertools.chain(known, *(inputs.made(f"{SEED} {seed}", INPUTS) for seed in range(SEEDS))):
            ended = run_of(given)
            if ended.returncode and len(ended.stderr) < 200:
                missing -= {code.decode() for code in re.findall(rb"cannot open|\b[A-Z]\d+\b", ended.stderr)}
            elif not ended.returncode:
                missing -= {os.fsdecode(given.words[0])}
            if not missing:
                return
        self.assertFalse(missing, "these don't occur")
