"""Each change of a trusted definition is seen: dev/definitions makes a sample of them, another one on each day."""

import os

from support import PROGRAM, ROOT, Case, run

# How many changes are made, in at most a minute of CPU time.
SAMPLE = 200


class Changes(Case):
    is_long = True

    def test_sample(self):
        ended = run(ROOT / "dev/definitions", "--quiet", "--sample", str(SAMPLE),
                    env={**os.environ, "FLOWLABEL": str(PROGRAM), "JOBS": "1"})
        last = ended.stdout.decode().splitlines()[-1:] or [ended.stderr.decode()]
        self.assertRegex(last[0], r"\A[0-9]+ passed, 0 failed\Z", ended.stdout.decode()[-3000:])
        self.assertEqual(ended.returncode, 0)
