#!/usr/bin/env python3
"""Runs each text case on the built program.

    python3 tests/cases.py [PROGRAM]

PROGRAM is the built casbench; if it isn't named, the one that ./casbench would run. A case is a file
tests/cases/NAME.case, whose format tests/case_files.py describes: arguments, texts, and the exit status and standard
output that have to come, byte for byte.
"""

import pathlib
import sys
import tempfile

from case_files import FILES, all_cases
from program_test import ProgramTest, run_tests
from running import run
from texts import no_calls, yes


def note_of(arguments, answer):
    """What standard error has beside the answer: a note, if a history without calls was checked."""
    is_check = not arguments or arguments[0] == "check"
    return no_calls("history" if "history" in arguments else "") if is_check and answer == yes(0, docs=0) else ""


class Cases(ProgramTest):
    """Each case, in a folder that has its files."""

    def check_case(self, texts):
        arguments = texts["args"].decode().split("\n")[:-1]
        reads_standard_input = not set(arguments[1:]) & set(FILES)
        given = texts["history"] if reads_standard_input else b""
        with tempfile.TemporaryDirectory() as folder:
            for name in FILES:
                if name in texts:
                    (pathlib.Path(folder) / name).write_bytes(texts[name])
            ended = run(self.program, arguments, given, cwd=folder)
        answer = texts["stdout"].decode()
        self.assertEqual(ended, (int(texts["status"]), answer, note_of(arguments, answer)))

    def test_cases(self):
        self.run_subtests(self.check_case, all_cases().items())


if __name__ == "__main__":
    sys.exit(run_tests())
