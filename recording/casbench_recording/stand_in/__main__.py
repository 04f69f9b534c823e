"""Runs the stand-in as a command."""

import sys

from casbench_recording.stand_in import main

if __name__ == "__main__":
    sys.exit(main())
