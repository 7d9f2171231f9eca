"""Compares the definitions with flowlabel-many: dev/evaluate evaluates them for command lines over several Files."""

import itertools
import os
import re

from definitions import inputs
from support import MANY, Case, rows, run, write

# The made inputs: a number of seeds, each with this many inputs and a few more. Of a seed PARTS tests try TRIED each.
SEED, SEEDS, INPUTS, PARTS, TRIED = 20261130, 4, 250, 5, 51
# Of a File's bytes, of templates, of maps and lists, of sums, and of words.
FAULTS = {"F1", "F2", "F3", "F4", "F5", "M1", "S1", "S3", "U4", "P3", "P5", "P7", "L1", "L2", "L3", "cannot open"}


class Many(Case):
    @classmethod
    def prepare(cls):
        from definitions import claims
        cls.claims, cls.definitions = claims, claims.with_stack(claims.Definitions)

    def ended(self, given):
        for name in [*inputs.NAMES, *(b"%d.ipfix" % place for place in range(4))]:
            if name not in given.files and os.path.exists(name):
                os.remove(name)
        for name, content in given.files.items():
            write(os.fsdecode(name), content)
        return run(MANY, *given.words)

    @rows(*((part,) for part in range(SEEDS * PARTS)))
    def test_made(self, part):
        """Both have the same output, the same standard error and the same status, and the headline is true."""
        import runs
        seed, first = part // PARTS, part % PARTS * TRIED
        for given in itertools.islice(inputs.made_many(f"{SEED} {seed}", INPUTS), first, first + TRIED):
            ended = self.ended(given)
            seen = self.claims.with_stack(lambda given=given: runs.seen_of(
                self.definitions, given.words, given.files.get, "flowlabel-many", True))
            with self.subTest(str(given)):
                self.assertEqual(ended.returncode, seen.status)
                for found, wanted in ((ended.stdout, seen.out), (ended.stderr, seen.err)):
                    self.assertEqual(found, wanted) if wanted is not None else self.assertTrue(found)

    def test_each_fault_occurs(self):
        missing = set(FAULTS)
        for given in itertools.chain(*(inputs.made_many(f"{SEED} {seed}", INPUTS) for seed in range(SEEDS))):
            missing -= {code.decode() for code in re.findall(rb"cannot open|\b[A-Z]\d+\b", self.ended(given).stderr)}
            if not missing:
                return
        self.assertFalse(missing, "these don't occur")
