#!/usr/bin/env python3
"""Splits a history text by shard: casbench_recording.split of recording/, for a checkout in which the package isn't installed."""

import pathlib
import sys

sys.path.insert(0, str(pathlib.Path(__file__).resolve().parents[2] / "recording"))

from casbench_recording.split import main

if __name__ == "__main__":
    sys.exit(main(sys.argv[1:]))
