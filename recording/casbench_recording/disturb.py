"""Disturbs a cluster while it is recorded: runs the commands of a plan at its times.

    after 10 s: docker pause node-2
    for 5 s: docker unpause node-2
    every 60 s

The first line is the command that begins a disturbance, and when it runs after the start of the recording.
The second is the command that ends it, and how much later it runs. The third repeats both at this interval.
Without the second line a disturbance ends with its command; without the third it is done once. A plan may
have any number of disturbances, and comment lines that begin with `#`.
"""

import argparse
import contextlib
import heapq
import os
import re
import signal
import subprocess
import tempfile
import threading
import time
from dataclasses import dataclass
from typing import Callable, Dict, List, Optional, Tuple

LONGEST_COMMAND = 60.0
"""The timeout of a command in seconds."""

LONGEST_OUTPUT = 300
"""How many characters of the output of a failed command are reported."""

LINE = re.compile(r"(after|for|every)\s+([0-9]{1,6}(?:\.[0-9]{1,3})?)\s*s(?:\s*:\s*(\S.*))?")

Report = Callable[[str], None]


class PlanError(ValueError):
    """Why a plan is invalid, for the operator."""


@dataclass
class Disturbance:
    """The command that begins a disturbance, and after how many seconds; the one that ends it, if there is
    one, and how many seconds later; and the interval at which both are repeated, if they are."""

    after: float
    begin: str
    lasts: float = 0.0
    undo: str = ""
    every: Optional[float] = None


def plan_of(text: str) -> List[Disturbance]:
    """Parses a plan; returns its disturbances in order."""
    plan: List[Disturbance] = []
    for place, line in enumerate(text.splitlines(), start=1):
        line = line.strip()
        if line and not line.startswith("#"):
            read_line(plan, line, f"line {place}")
    if not plan:
        raise PlanError("it has no line such as `after 10 s: COMMAND`")
    for it in plan:
        if it.every is not None and it.every <= it.lasts:
            raise PlanError(f"`{it.begin}` begins again before it has ended")
    return plan


def read_line(plan: List[Disturbance], line: str, place: str) -> None:
    """Parses a line of a plan, and adds it."""
    found = LINE.fullmatch(line)
    if found is None or (found[1] == "every") != (found[3] is None):
        raise PlanError(f"{place} isn't one of `after N s: COMMAND`, `for N s: COMMAND`, `every N s`")
    kind, seconds, command = found[1], float(found[2]), found[3]
    if kind == "after":
        plan.append(Disturbance(seconds, command))
    elif not plan:
        raise PlanError(f"{place} comes before any `after N s: COMMAND`")
    elif kind == "for" and not plan[-1].undo:
        plan[-1].lasts, plan[-1].undo = seconds, command
    elif kind == "every" and plan[-1].every is None and seconds:
        plan[-1].every = seconds
    else:
        raise PlanError(f"{place} repeats `{kind}` for one disturbance, or is `every 0 s`")


def read_plan(path: str) -> List[Disturbance]:
    """Reads the plan in a file, for the argument parser."""
    try:
        with open(path, encoding="utf-8") as file:
            return plan_of(file.read())
    except (OSError, UnicodeDecodeError) as fault:
        raise argparse.ArgumentTypeError(f"{path}: {getattr(fault, 'strerror', None) or fault}") from fault
    except PlanError as fault:
        raise argparse.ArgumentTypeError(f"{path}: {fault}") from fault


def add_disturb_option(add: Callable[..., object]) -> None:
    """Adds the option with a plan."""
    add(
        "--disturb",
        type=read_plan,
        metavar="PLAN",
        default=[],
        help="disturb the cluster: run the commands of this plan during the recording",
    )


class Disturber:
    """Runs a plan while its block runs, on a thread of its own. What was begun is ended at the end of the
    block, however that ends."""

    def __init__(self, plan: List[Disturbance], note: Report, report: Report) -> None:
        self._plan = plan
        # puts a note on the next line of the history; reports a failure to the operator
        self._note = note
        self._report = report
        self.has_failed = False
        # what was begun and not ended yet, by its identity
        self._begun: Dict[int, Disturbance] = {}
        self._is_over = threading.Event()
        self._thread = threading.Thread(target=self._follow, daemon=True)

    def __enter__(self) -> "Disturber":
        if self._plan:
            self._thread.start()
        return self

    def __exit__(self, *_: object) -> None:
        self._is_over.set()
        if self._thread.ident is not None:
            self._thread.join()
        for it in list(self._begun.values()):
            self._end(it)

    def _follow(self) -> None:
        """Runs the commands at their times, until the block ends or none is left."""
        began = time.monotonic()
        steps: List[Tuple[float, int, bool]] = [
            (it.after, number, True) for number, it in enumerate(self._plan)
        ]
        heapq.heapify(steps)
        while steps:
            at, number, is_begin = heapq.heappop(steps)
            it = self._plan[number]
            if self._is_over.wait(max(0.0, began + at - time.monotonic())):
                return
            if not is_begin:
                self._end(it)
            if not is_begin or id(it) in self._begun:
                # (a disturbance that couldn't be ended isn't begun again)
                continue
            is_done = self._begin(it)
            if it.undo:
                heapq.heappush(steps, (at + it.lasts, number, False))
            if it.every is not None and is_done:
                heapq.heappush(steps, (at + it.every, number, True))

    def _begin(self, it: Disturbance) -> bool:
        """Begins a disturbance; returns whether the command succeeded. If it failed it isn't tried again."""
        self._note(f"begins: {it.begin}")
        if it.undo:
            self._begun[id(it)] = it
        why = self._run(it.begin)
        if not it.undo:
            self._note(f"ended: {it.begin}")
        self._report_fault(it.begin, why)
        return not why

    def _end(self, it: Disturbance) -> None:
        """Ends a disturbance. If that fails it is tried again at the end of the block."""
        why = self._run(it.undo)
        if not why:
            del self._begun[id(it)]
            self._note(f"ended: {it.undo}")
        self._report_fault(it.undo, why)

    def _run(self, command: str) -> str:
        """Runs a command; returns why it failed, or an empty text. The next line of the history notes a
        failure."""
        why = fault_of(command)
        if why:
            self.has_failed = True
            self._note(f"failed: {command}")
        return why

    def _report_fault(self, command: str, why: str) -> None:
        """Reports a failure, if there was one, after the notes for the next line."""
        if why:
            self._report(f"the disturbance failed: {command}: {why}")


def fault_of(command: str) -> str:
    """Runs a command with the shell; returns why it failed, or an empty text. It runs in its own session, so
    that Ctrl-C doesn't reach it."""
    with tempfile.TemporaryFile() as output:
        try:
            process = subprocess.Popen(
                ["/bin/sh", "-c", command],
                stdin=subprocess.DEVNULL,
                stdout=output,
                stderr=subprocess.STDOUT,
                start_new_session=True,
            )
            status = process.wait(LONGEST_COMMAND)
        except OSError as fault:
            return str(fault.strerror)
        except subprocess.TimeoutExpired:
            with contextlib.suppress(OSError):
                os.killpg(process.pid, signal.SIGKILL)
            process.wait()
            return f"it took longer than {LONGEST_COMMAND:.0f} seconds"
        output.seek(0)
        lines = output.read().decode("utf-8", "replace").strip().splitlines()
    said = f": {lines[-1][:LONGEST_OUTPUT]}" if lines else ""
    return f"status {status}{said}" if status else ""
