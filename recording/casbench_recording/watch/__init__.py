"""Checks a recording while it grows: the command `python3 -m casbench_recording.watch`, and that command as a
process beside a recorder."""

from .command import main

__all__ = ["main"]
