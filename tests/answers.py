"""Tests of what the program answers to texts.

It is no test itself.
"""

from program_test import ProgramTest
from running import run, run_by_parts, run_on_files
from texts import answer_of, check_of


class AnswersTest(ProgramTest):
    """Tests of what the program answers: its status and both outputs."""

    def check_input(self, text, wanted, *options):
        """A check answers so to this text on standard input."""
        self.assertEqual(run(self.program, ["check", *options], text), check_of(wanted))

    def check_files(self, command, texts, wanted, *options):
        """A command answers so to files with these texts."""
        self.assertEqual(run_on_files(self.program, command, texts, options), answer_of(wanted))

    def check_parts(self, command, text, size, wanted, is_ended=True):
        """A command answers so to a text on standard input, of which each read gives so many bytes."""
        end_of = check_of if command == "check" else answer_of
        self.assertEqual(run_by_parts(self.program, command, text, size, is_ended), end_of(wanted))
