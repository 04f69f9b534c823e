"""Runs the watch as a command."""

import sys

from . import main

if __name__ == "__main__":
    sys.exit(main())
