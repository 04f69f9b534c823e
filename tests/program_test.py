"""Tests of the program: subtests that run on several processors, and a last line that counts what passed and failed.

It is no test itself.
"""

import sys
import traceback
import unittest
from concurrent.futures import ThreadPoolExecutor
from itertools import repeat

from program import built_program

# How many failures are printed, and how much of the name of a subtest.
MOST_FAILURES, MOST_LETTERS = 40, 300


def outcome_of(check, arguments):
    """What the check returns, and the traceback if it fails."""
    try:
        return check(*arguments), ""
    except Exception:
        return None, traceback.format_exc()


class ProgramTest(unittest.TestCase):
    """Tests of the program that the command line names."""

    program = ""

    def interrupt(self):
        """Ends what checks have started. It is called if subtests are interrupted, before their checks are waited
        for."""

    def run_subtests(self, check, rows, executor=ThreadPoolExecutor, workers=None, chunksize=1, not_counted=()):
        """Runs a subtest for each row, several at a time; there is one at least. A row is a name and the arguments of
        the check, which raises an exception if the subtest fails. Processes need a check that is a function of a
        module. A row isn't counted as a subtest if the check returns one of the values that are not counted. Returns
        what each check returned, None if it failed."""
        rows = list(rows)
        self.assertNotEqual(rows, [])
        with executor(workers) as pool:
            try:
                outcomes = list(pool.map(outcome_of, repeat(check), [row[1:] for row in rows], chunksize=chunksize))
            except KeyboardInterrupt:
                self.interrupt()
                raise
        for (name, *_), (returned, failure) in zip(rows, outcomes):
            if failure or returned not in not_counted:
                with self.subTest(name[:MOST_LETTERS]):
                    if failure:
                        self.fail(failure)
        return [returned for returned, _ in outcomes]


class CountingResult(unittest.TextTestResult):
    """A result that counts what passed: each subtest, and each test that has none."""

    def __init__(self, *arguments, **options):
        super().__init__(*arguments, **options)
        self.passed, self.has_subtests = 0, False

    @property
    def failed(self):
        return len(self.failures) + len(self.errors) + len(self.unexpectedSuccesses)

    def startTest(self, test):
        super().startTest(test)
        self.has_subtests = False

    def addSubTest(self, test, subtest, failure):
        super().addSubTest(test, subtest, failure)
        self.passed, self.has_subtests = self.passed + (failure is None), True

    def addSuccess(self, test):
        super().addSuccess(test)
        self.passed += not self.has_subtests

    def printErrorList(self, flavour, errors):
        super().printErrorList(flavour, errors[:MOST_FAILURES])
        if errors[MOST_FAILURES:]:
            self.stream.writeln(f"and {len(errors) - MOST_FAILURES} more")


class CountingRunner(unittest.TextTestRunner):
    """A runner with such a result."""

    resultclass = CountingResult


def run_tests(arguments=None, needs_program=True):
    """Runs the tests of the script, and prints why some were skipped and, in the last line, how many passed and failed;
    returns the exit status. The first argument is the program unless it is an option, and the others are those of
    unittest."""
    arguments = sys.argv[1:] if arguments is None else arguments
    has_program = bool(arguments) and not arguments[0].startswith("-")
    if needs_program:
        ProgramTest.program = built_program(arguments[:1] if has_program else [])
    result = unittest.main(argv=[sys.argv[0], *arguments[has_program:]], testRunner=CountingRunner, exit=False).result
    for why in dict.fromkeys(why for _, why in result.skipped):
        print(f"SKIPPED: {why}")
    print(f"{result.passed} passed, {result.failed} failed")
    return 0 if result.wasSuccessful() and (result.passed or result.skipped) else 1
