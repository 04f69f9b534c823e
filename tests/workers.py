#!/usr/bin/env python3
"""Counts the threads that the built program begins for its workers.

    python3 tests/workers.py [PROGRAM]

PROGRAM is the built casbench; if it isn't named, the one that ./casbench would run. Each worker has a thread of its
own, the first of them the one that the program has anyway; if no number of workers is named there is one worker. It
needs a C compiler, cc, and is skipped if there is none.
"""

import os
import sys
import tempfile

from program_test import ProgramTest, run_tests
from running import needs_compiler, library_in, run, said
from texts import created, index, yes

# How many documents there are, more than workers, and a call and a reply of each.
DOCUMENTS = 20
HISTORY = "".join(index(n, doc=f"d{n}") + created(n, 1, n, f"d{n}") for n in range(DOCUMENTS))
ANSWER = yes(DOCUMENTS, docs=DOCUMENTS)

# Arguments, and how many workers they ask for.
WORKERS = [
    ("", 1),
    ("check", 1),
    ("check --workers 1", 1),
    ("check --workers 2", 2),
    ("check --workers=4", 4),
    ("check --workers 16", 16),
    ("explain", 1),
    ("explain --workers 3", 3),
]


@needs_compiler
class Workers(ProgramTest):
    """The threads that the program begins."""

    def check_threads(self, library, arguments, workers):
        with tempfile.NamedTemporaryFile() as counted:
            settings = {**os.environ, "LD_PRELOAD": str(library), "TOLD": counted.name}
            status, answer = said(run(self.program, arguments.split(), HISTORY, env=settings))
            self.assertEqual((status, answer[: len(ANSWER)]), (0, ANSWER))
            self.assertEqual(os.path.getsize(counted.name), workers - 1)

    def test_threads(self):
        with tempfile.TemporaryDirectory() as folder:
            library = library_in(folder, "count_threads")
            rows = [(arguments or "no arguments", library, arguments, workers) for arguments, workers in WORKERS]
            self.run_subtests(self.check_threads, rows)


if __name__ == "__main__":
    sys.exit(run_tests())
