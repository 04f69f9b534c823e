"""Reports the progress of a recording on a terminal: every second the number of calls, of lost calls, and of
new calls."""

import contextlib
import os
import sys
import threading
from typing import IO, Callable, Optional, Tuple

from .console import CLEARED, counted, escaped, report

CountCalls = Callable[[], Tuple[int, int]]
"""Returns how many calls were recorded so far, and how many of them are lost."""


WIDTH = 80
"""The assumed width of a terminal that doesn't report one."""


class Progress:
    """A line that is rewritten every second while the block runs, with a remark at its end if there is one.
    If the stream isn't a terminal, nothing is written."""

    def __init__(
        self,
        counts: CountCalls,
        stream: Optional[IO[str]] = None,
        seconds: float = 1.0,
        remark: Callable[[], str] = lambda: "",
    ) -> None:
        self._counts = counts
        self._remark = remark
        self._stream = stream or sys.stderr
        self._seconds = seconds
        self._is_over = threading.Event()
        self._thread = threading.Thread(target=self._report_on, daemon=True)

    def __enter__(self) -> "Progress":
        if self._stream is not None and self._stream.isatty():
            self._thread.start()
        return self

    def __exit__(self, *_: object) -> None:
        self._is_over.set()
        if self._thread.ident is not None:
            self._thread.join()
            self._write("")

    def _report_on(self) -> None:
        """Reports the counts every second."""
        before, _ = self._counts()
        while not self._is_over.wait(self._seconds):
            calls, lost = self._counts()
            remark = self._remark()
            rate = counted(round((calls - before) / self._seconds), "call")
            self._write(
                f"{counted(calls, 'call')}, {lost} lost, {rate} a second{f', {remark}' if remark else ''}"
            )
            before = calls

    def _write(self, line: str) -> None:
        """Replaces the previous line, truncated to the width of the terminal; drops it if the terminal
        doesn't accept it."""
        descriptor = self._stream.fileno()
        width = 0
        with contextlib.suppress(OSError):
            width = os.get_terminal_size(descriptor).columns
        report(f"{CLEARED}{escaped(line)[: (width or WIDTH) - 1]}", descriptor)
