"""The program that the tests run, and the checkout that they stand in."""

import os
import pathlib
import subprocess

# The top of the checkout.
TOP = pathlib.Path(__file__).resolve().parent.parent


def built_program(arguments):
    """The program that the arguments name; if there are none, the one that ./casbench would run."""
    if arguments:
        return os.path.realpath(arguments[0])
    ran = subprocess.run([TOP / "casbench", "--program"], stdout=subprocess.PIPE, text=True, check=True)
    return ran.stdout.strip()
