"""Messages to the operator while requests are served: lines on standard error.

Nothing here waits for a reader, and nothing fails: a line that can't be written at once is dropped.
"""

import contextlib
import os
import select
import sys
import time
from typing import Optional, Sequence

ENDED_EARLY = 3
"""The exit status of a recording that ended early."""

MOST_AT_ONCE = 4096
"""How many bytes a pipe accepts without blocking if it accepts any."""

CLEARED = "\r\x1b[K"
"""The control sequence that clears the line of a terminal."""

PATIENCE = 0.3
"""How many seconds the last lines may take to be written."""


def usage_name(package: str) -> Optional[str]:
    """Returns the name of a command for its usage: that of its package if it runs as a module, else the name
    that it was called by."""
    return f"{package}.py" if os.path.basename(sys.argv[0]) == "__main__.py" else None


def counted(count: int, what: str) -> str:
    """Returns a count with its noun: `1 call`, `2 calls`."""
    return f"{count} {what}{'' if count == 1 else 's'}"


def escaped(text: str) -> str:
    """Returns a text in which everything that isn't printable is escaped, such as control sequences of a
    terminal."""
    return "".join(it if it.isprintable() else it.encode("unicode_escape").decode("ascii") for it in text)


def report(text: str, descriptor: int = 2, seconds: float = 0.0) -> bool:
    """Writes a short text if it is accepted within these seconds; returns whether it was."""
    data = text.encode("utf-8", "backslashreplace")[:MOST_AT_ONCE]
    with contextlib.suppress(OSError):
        waiting = select.poll()
        waiting.register(descriptor, select.POLLOUT)
        if any(events & select.POLLOUT for _, events in waiting.poll(seconds * 1000)):
            os.write(descriptor, data)
            return True
    return False


def report_line(text: str) -> None:
    """Writes a line of the proxy to standard error. On a terminal it replaces the line of progress."""
    start = CLEARED if os.isatty(2) else ""
    report(f"{start}casbench_recording.proxy: {escaped(text)}\n")


def report_fault() -> None:
    """Writes a line on the current exception, with the place where it was raised."""
    kind, fault, trace = sys.exc_info()
    while trace is not None and trace.tb_next is not None:
        trace = trace.tb_next
    place = (
        f"{os.path.basename(trace.tb_frame.f_code.co_filename)}:{trace.tb_lineno}"
        if trace is not None
        else "nowhere"
    )
    report_line(f"internal error at {place}: {kind.__name__ if kind else ''}: {str(fault)[:1000]}")


def report_last(lines: Sequence[str], descriptor: int = 2) -> None:
    """Writes the last lines, which may take a little time together."""
    end = time.monotonic() + PATIENCE
    for it in lines:
        report(f"{escaped(it)}\n", descriptor, max(0.0, end - time.monotonic()))


def open_standard_files() -> None:
    """Opens the standard files that are closed, so that no file that is opened later takes the place of
    one."""
    for descriptor in (0, 1, 2):
        try:
            os.fstat(descriptor)
        except OSError:
            os.open(os.devnull, os.O_RDWR)
