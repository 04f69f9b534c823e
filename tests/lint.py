#!/usr/bin/env python3
"""Lints the Python code: names and imports of all of it, and of the package in recording/ the layout and the types.

    python3 tests/lint.py

The tools are those of the system, and a test whose tool is missing is skipped: `ruff`, else `pyflakes3` and
`pycodestyle`; and `mypy`. The last line says how many tests passed and failed.
"""

import shutil
import subprocess
import sys
import unittest

from program import TOP
from program_test import ProgramTest, run_tests

# What is linted for layout and types; and the folders of all Python code, and its files without a suffix.
PACKAGE = ["recording/casbench_recording", "recording/wheel_builder.py"]
ALL = [*PACKAGE, "tests", "examples", "dist/making", "dist/make-share", "docs/make", "docs/making", "test"]

WIDTH = "110"

# A space before a colon and a line break beside an operator, which `black` writes so.
NOT_HELD = "E203,W503,W504"

RUFF = shutil.which("ruff")
PYFLAKES = shutil.which("pyflakes3") or shutil.which("pyflakes")
PYCODESTYLE = shutil.which("pycodestyle") or shutil.which("pycodestyle-3")
MYPY = shutil.which("mypy")


class Lint(ProgramTest):
    """What the tools report."""

    def assert_clean(self, *command):
        ran = subprocess.run(command, cwd=TOP, stdin=subprocess.DEVNULL, capture_output=True, text=True, check=False)
        self.assertEqual((ran.returncode, ran.stderr), (0, ""), ran.stdout)

    @unittest.skipUnless(RUFF or PYFLAKES, "neither ruff nor pyflakes is installed, so names were not linted")
    def test_names(self):
        """No name is undefined, and none is imported or assigned for nothing."""
        if RUFF:
            self.assert_clean(RUFF, "check", "--isolated", "--no-cache", "--quiet", "--select", "F", *ALL)
        else:
            self.assert_clean(PYFLAKES, *ALL)

    @unittest.skipUnless(RUFF or PYCODESTYLE, "neither ruff nor pycodestyle is installed, so the layout was not linted")
    def test_layout(self):
        """The package is laid out as PEP 8 says, in lines of at most 110 characters."""
        if RUFF:
            options = ["--isolated", "--no-cache", "--quiet", "--select", "E,W", "--line-length", WIDTH]
            self.assert_clean(RUFF, "check", *options, *PACKAGE)
        else:
            self.assert_clean(PYCODESTYLE, f"--max-line-length={WIDTH}", f"--ignore={NOT_HELD}", *PACKAGE)

    @unittest.skipUnless(MYPY, "mypy is not installed, so types were not checked")
    def test_types(self):
        """The package has type hints throughout, and they are right."""
        options = ["--strict", "--python-version", "3.9", "--cache-dir", "/dev/null", "--no-error-summary"]
        self.assert_clean(MYPY, *options, *PACKAGE)


if __name__ == "__main__":
    sys.exit(run_tests(needs_program=False))
