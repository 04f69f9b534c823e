"""A watch as a child process of a recorder, which stops the recorder at the first proved fault."""

import argparse
import contextlib
import os
import pathlib
import signal
import subprocess
import sys
import threading
import time
from typing import Callable, List, Optional, Sequence

from casbench_recording.cluster import number_from
from casbench_recording.history.readings import Reading
from casbench_recording.shrink import ShrinkError, program_at_hand

from .snapshots import CheckError, try_check

EVERY = 5.0
"""The default interval in seconds between the starts of two checks."""

REFUTED, CAN_NOT_CHECK = 1, 4
"""The exit statuses of a watch that ends by itself: the recording is refuted, or can't be checked."""

ANSWERS = (0, 1, 2)
"""The exit statuses of a watch that was asked to end, and gave its last answer."""

SHORTEST_PAUSE, LONGEST_PAUSE = 1.0, 60.0
"""The delay in seconds before a failed watch is restarted; it doubles up to the longest, unless the watch ran
longer than that."""

GRACE = 0.3
"""How many seconds the end of a watch isn't reported: what ended it may also be ending the recorder."""

PACKAGE = str(pathlib.Path(__file__).resolve().parents[2])
"""The directory that contains the package."""


class WatchProcess:
    """A watch of a recording. It ends with the block, after a last check, or with the recorder, however that
    ends.

    If it ends earlier because the recording is refuted, `refuted` is called on another thread. If it ends
    earlier in any other way, for example because it is killed or can't check, this is reported and the watch
    is restarted; the recording goes on.
    """

    def __init__(
        self, out: str, options: Sequence[str], refuted: Callable[[], None], report: Callable[[str], object]
    ) -> None:
        self._start = [sys.executable, "-m", "casbench_recording.watch", out, "--until-closed"]
        self._options = options
        self._refuted = refuted
        self._report = report
        self._is_ending = threading.Event()
        # whether the current watch was ended to be restarted with other options
        self._is_changing = False
        # guards the current process: it is started either before it is asked to end, or after that, for a
        # last check
        self._lock = threading.Lock()
        self._process: "Optional[subprocess.Popen[bytes]]" = None
        self._thread = threading.Thread(target=self._watch, daemon=True)
        # the exit status of the watch, once it ended
        self.status = 0

    def __enter__(self) -> "WatchProcess":
        self._thread.start()
        return self

    def change(self, options: Sequence[str]) -> None:
        """Restarts the watch with other options."""
        with self._lock:
            self._options, self._is_changing = options, True
            if self._process is not None:
                self._process.terminate()

    def _watch(self) -> None:
        """Runs the watch, again and again until it was asked to end and has answered."""
        # (child processes of this thread ignore Ctrl-C, which is for the recorder: it ends the watch after
        # the last line)
        signal.pthread_sigmask(signal.SIG_BLOCK, {signal.SIGINT})
        pause = SHORTEST_PAUSE
        while not self._is_ending.is_set():
            began = time.monotonic()
            self.status = self._run()
            if self._is_ending.is_set():
                break
            if self._is_changing:
                continue
            if self.status == REFUTED:
                self._refuted()
                return
            pause = SHORTEST_PAUSE if time.monotonic() > began + LONGEST_PAUSE else pause
            if not self._is_ending.wait(GRACE):
                how = (
                    f"was killed by signal {-self.status}"
                    if self.status < 0
                    else f"ended with status {self.status}"
                )
                self._report(
                    f"the watch {how}: the recording goes on, and the watch is restarted in {pause:.0f} s"
                )
                self._is_ending.wait(pause)
                pause = min(2 * pause, LONGEST_PAUSE)
        if self.status not in ANSWERS:
            self.status = self._run()
        if self.status not in ANSWERS:
            self._report(f"the watch gave no last answer: it ended with status {self.status}")
            self.status = CAN_NOT_CHECK

    def _run(self) -> int:
        """Runs the watch until it ends; returns its exit status."""
        path = os.pathsep.join(filter(None, [PACKAGE, os.environ.get("PYTHONPATH")]))
        try:
            with self._lock:
                self._is_changing = False
                command = [*self._start, *self._options]
                self._process = subprocess.Popen(
                    command, stdin=subprocess.PIPE, env={**os.environ, "PYTHONPATH": path}
                )
                if self._is_ending.is_set():
                    self._close()
        except OSError as fault:
            self._report(f"the watch can't be started: {fault}")
            return CAN_NOT_CHECK
        return self._process.wait()

    def _close(self) -> None:
        """Asks the watch to end after a last check."""
        if self._process is not None and self._process.stdin is not None:
            with contextlib.suppress(BrokenPipeError):
                self._process.stdin.close()

    def __exit__(self, *_: object) -> None:
        """Ends the watch, and keeps its exit status."""
        with self._lock:
            self._is_ending.set()
            self._close()
        self._thread.join()


def try_watch(setting: argparse.Namespace) -> None:
    """Checks before the recording that the program of the watch works. Raises CheckError."""
    try:
        program = setting.program or program_at_hand()
    except ShrinkError as fault:
        raise CheckError(str(fault)) from fault
    try_check([program, "check", *options_of(setting.reading)])


def options_of(reading: Reading) -> List[str]:
    """Returns the options of the watch's checks in this reading."""
    return ["--rule-out", *reading.options()]


def watch_options(setting: argparse.Namespace) -> List[str]:
    """Returns the options of the watch, from those of the recorder and its reading."""
    program = ["--program", setting.program] if setting.program is not None else []
    return ["--every", str(setting.every), *setting.reading.options(), *program]


def add_watch_options(add: Callable[..., object]) -> None:
    """Adds the options of a recorder with a watch."""
    add(
        "--watch",
        action="store_true",
        help="check the recording while it is made, and stop at the first proved fault",
    )
    add(
        "--every",
        type=number_from(0.1, float),
        default=EVERY,
        help="with --watch: seconds between checks (5)",
    )
    add(
        "--program",
        help="with --watch: the casbench program to check with (./casbench, else the one in PATH)",
    )
