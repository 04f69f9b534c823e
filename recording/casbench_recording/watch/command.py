"""Checks a recording while it grows, and runs a command at the first proved fault.

    python3 -m casbench_recording.watch carts.ndjson --profile opensearch -- docker pause node-1 node-2 node-3

It takes the options of a reading, as a check does, and always checks with --rule-out. OUT is a history, or a
directory of histories. `refuted` is final: what refutes the first lines refutes every continuation. `yes` and
`no` aren't: docs/RECORDING.md says why. At the first `refuted` it prints the output of `explain`, runs
COMMAND, and exits with status 1. Ctrl-C ends it after a last check. Then the exit status is that of the worst
answer: 0 for `yes`, 1 for `no`, 2 if a text isn't a history or there is none. If a check gives no verdict, or
checked lines are gone, it exits at once with status 4.
"""

import argparse
import contextlib
import json
import os
import re
import select
import signal
import subprocess
import sys
import time
from dataclasses import dataclass
from typing import Dict, List, Optional, Sequence, Tuple

from casbench_recording.cluster import number_from
from casbench_recording.console import counted, escaped, usage_name
from casbench_recording.history.continuing import GROWING
from casbench_recording.history.readings import add_reading_options, reading_of
from casbench_recording.shrink import ShrinkError, program_at_hand

from .process import CAN_NOT_CHECK, EVERY, options_of
from .snapshots import CheckError, ProgramAnswer, Snapshot, try_check
from .terms import TermReader, Terms

REST = 9.0
"""After a check the watch sleeps nine times the check's CPU time, so that checks take about a tenth of a
processor."""

PART = re.compile(r"part-[0-9]+\.ndjson")
"""Matches the name of a finished part of a recording."""


class WatchStop:
    """A request to end after the next round: Ctrl-C, SIGTERM, or the end of standard input. A second signal
    ends at once.

    With --until-closed only the end of standard input is such a request: SIGTERM ends the watch at once,
    without an answer.
    """

    def __init__(self, ends_with_input: bool) -> None:
        self.is_set = False
        self._wake, self._woken = os.pipe()
        self._sources = [self._wake, *([sys.stdin.fileno()] if ends_with_input else [])]
        for kind in (signal.SIGINT, *([] if ends_with_input else [signal.SIGTERM])):
            # (background jobs of a shell ignore Ctrl-C)
            if signal.getsignal(kind) is not signal.SIG_IGN:
                signal.signal(kind, self._ask)

    def _ask(self, *_: object) -> None:
        """Handles a signal."""
        if self.is_set:
            raise KeyboardInterrupt
        self.is_set = True
        os.write(self._woken, b"x")

    def wait_until(self, moment: float) -> None:
        """Waits until this time of the monotonic clock, or until the request."""
        while not self.is_set and time.monotonic() < moment:
            ready, _, _ = select.select(self._sources, [], [], max(0.0, moment - time.monotonic()))
            if any(it != self._wake and not os.read(it, 4096) for it in ready):
                self.is_set = True


@dataclass
class Watched:
    """A watched history: the reader of its terms, the length that was checked last, the answer, whether that
    was printed for the finished part, whether the part was finished then and so may be deleted, and whether
    it is deleted."""

    terms: TermReader
    length: int = 0
    answer: Optional[ProgramAnswer] = None
    is_reported: bool = False
    is_finished: bool = False
    is_deleted: bool = False


class Watch:
    """The histories of a recording, by their names without the suffix of an unfinished part."""

    def __init__(self, setting: argparse.Namespace, stop: WatchStop) -> None:
        self.setting = setting
        self.stop = stop
        self.histories: Dict[str, Watched] = {}
        # by the name of a history; all parts share one
        self.terms: Dict[str, Terms] = {}
        self._program = setting.program or program_at_hand()
        self._options = options_of(reading_of(setting))
        # the earliest time of the next check
        self._rests_until = 0.0

    def run(self) -> int:
        """Checks until it is asked to end, or a history is refuted; returns the exit status. Raises
        CheckError if it can't check."""
        try_check([self._program, "check", *self._options])
        while True:
            is_last, began = self.stop.is_set, time.monotonic()
            for path in self.paths():
                refuted = self.check(path, is_last)
                if refuted is not None:
                    return self.report_refuted(*refuted)
                if self.stop.is_set and not is_last:
                    break
            self.refuse_losses()
            if is_last:
                return self.report_end()
            self.stop.wait_until(began + self.setting.every)

    def paths(self) -> List[str]:
        """Returns the files of the recording, ordered by name."""
        out = self.setting.out
        if not os.path.isdir(out):
            return [out] if os.path.exists(out) else []
        return sorted(
            os.path.join(out, it) for it in os.listdir(out) if it.endswith((".ndjson", f".ndjson{GROWING}"))
        )

    def refuse_losses(self) -> None:
        """Raises CheckError if checked lines are gone. A finished part may be deleted once it was checked as
        finished."""
        checked = {name: it for name, it in self.histories.items() if it.length}
        lost = [name for name, it in checked.items() if not it.is_finished and not is_there(name)]
        if checked and not is_there(name_of(self.setting.out)):
            lost = [self.setting.out]
        if lost:
            raise CheckError(f"{lost[0]} was removed while it was watched")

    def check(self, path: str, is_last: bool) -> Optional[Tuple[Snapshot, str]]:
        """Checks a file if it has grown; if it is refuted, returns the checked lines and the line of the
        verdict."""
        watched = self.watched(name_of(path))
        # (a part that is finished meanwhile has a new name, and is checked in the next round)
        with contextlib.suppress(FileNotFoundError):
            snapshot = Snapshot(path)
            if snapshot.length < watched.length:
                raise CheckError(f"{path} was cut off while it was watched")
            if snapshot.length != watched.length:
                if not is_last:
                    self.stop.wait_until(self._rests_until)
                watched.answer = snapshot.check([self._program, "check", *self._options])
                watched.length = snapshot.length
                self.rest_for(watched.answer.seconds)
                self.report_check(path, watched.answer)
            if watched.answer is not None and watched.answer.word != "refused":
                before = time.process_time()
                watched.terms.read(snapshot.lines_from(watched.terms.length))
                self.rest_for(time.process_time() - before)
                if watched.answer.word == "refuted":
                    return snapshot, watched.answer.line
            watched.is_finished = is_finished(path)
            self.report_finished(path, watched)
            self.delete_if_done(path, watched)
        return None

    def rest_for(self, seconds: float) -> None:
        """Delays the next check, after a check that took this CPU time in seconds."""
        self._rests_until = max(self._rests_until, time.monotonic()) + REST * seconds

    def watched(self, name: str) -> Watched:
        """Returns the history of this name; starts to watch it if it is new."""
        if name not in self.histories:
            of = self.setting.out if PART.fullmatch(os.path.basename(name)) else name
            self.histories[name] = Watched(TermReader(self.terms.setdefault(of, Terms())))
        return self.histories[name]

    def delete_if_done(self, path: str, watched: Watched) -> None:
        """Deletes a finished part whose answer is `yes`, if --delete-parts is given."""
        if (
            self.setting.delete_parts
            and is_finished(path)
            and watched.answer is not None
            and watched.answer.word == "yes"
        ):
            os.remove(path)
            watched.is_deleted = True

    # Output

    def report_check(self, path: str, answer: ProgramAnswer) -> None:
        """Prints a line for a check, on a terminal."""
        if sys.stdout.isatty():
            name = "" if path == self.setting.out else f"{escaped(os.path.basename(path))}  "
            # (this replaces the recorder's line of progress, which it writes again)
            print(
                f"\r\x1b[K{time.strftime('%H:%M:%S')}  {name}{answer.line}  ({answer.seconds:.2f} s)",
                flush=True,
            )

    def report_finished(self, path: str, watched: Watched) -> None:
        """Prints a line for a finished part, once, unless the output is a terminal."""
        if (
            is_finished(path)
            and watched.answer is not None
            and not watched.is_reported
            and not sys.stdout.isatty()
        ):
            watched.is_reported = True
            print(f"{escaped(os.path.basename(path))}: {watched.answer.line}", flush=True)

    def report_refuted(self, snapshot: Snapshot, line: str) -> int:
        """Prints the output of `explain`, or else the line of the verdict; runs the command, and returns the
        exit status.

        The verdict stands, whatever else fails.
        """
        try:
            explained = snapshot.ask([self._program, "explain", *self._options]).text
        except (CheckError, OSError) as fault:
            report_fault(str(fault))
            explained = ""
        try:
            if len(self.histories) > 1 or snapshot.path != self.setting.out:
                print(f"{escaped(snapshot.path)}:")
            print(explained if explained.startswith(f"{line}\n") else f"{line}\n", end="", flush=True)
            self.report_hints(True)
        except OSError as fault:
            # (the reader is gone)
            report_fault(str(fault))
            os.dup2(os.open(os.devnull, os.O_WRONLY), sys.stdout.fileno())
        if self.setting.command:
            run_command(self.setting.command)
        return 1

    def report_end(self) -> int:
        """Prints the last answers, and returns the exit status."""
        answers = [it.answer for it in self.histories.values() if it.answer is not None]
        if not answers:
            report_fault(f"there is nothing to check in {escaped(self.setting.out)}")
            return 2
        if os.path.isdir(self.setting.out):
            counts = ", ".join(
                f"{sum(it.word == word for it in answers)} {word}" for word in ("yes", "no", "refused")
            )
            deleted = sum(it.is_deleted for it in self.histories.values())
            print(f"{counted(len(answers), 'part')}: {counts}" + (f"; {deleted} deleted" if deleted else ""))
        for answer in answers:
            if not os.path.isdir(self.setting.out) or answer.word != "yes":
                print(answer.line)
        self.report_hints(False)
        return max(it.status for it in answers)

    def report_hints(self, is_refuted: bool) -> None:
        """Prints what the answers don't say: which acknowledged writes may be lost, and what isn't judged.

        A history that is refuted already shows that something is wrong: only what may be lost is said of it.
        """
        for terms in self.terms.values():
            for it in terms.hints():
                hint = it.lost() if is_refuted else f"{it}: it may be lost, though no reply shows that"
                print(f"hint: {hint}", flush=True)
        report_unjudged(self.setting.out)


def report_fault(text: str) -> None:
    """Writes a line to standard error."""
    print(f"casbench_recording.watch: {text}", file=sys.stderr)


def name_of(path: str) -> str:
    """Returns the path of a history, without the suffix of an unfinished part."""
    return path[: -len(GROWING)] if path.endswith(GROWING) else path


def is_there(name: str) -> bool:
    """Returns whether a history exists, finished or not. (If it is finished between the two tests, the second
    one finds it.)"""
    return os.path.exists(name + GROWING) or os.path.exists(name)


def is_finished(path: str) -> bool:
    """Returns whether a file is a finished part of a recording."""
    return PART.fullmatch(os.path.basename(path)) is not None


def report_unjudged(out: str) -> None:
    """Prints how much isn't judged, from the list beside a proxy's recording, and why the recording ended
    early.

    The number of calls is at the end of the list, so it is known only for a recording that is over.
    """
    with contextlib.suppress(FileNotFoundError), open(f"{out}.not-judged", encoding="utf-8") as lines:
        listed = [json.loads(it) for it in lines if it.endswith("\n")]
        count, calls = sum("id" in it for it in listed), sum(it.get("calls", 0) for it in listed)
        count += sum(it.get("documents", 0) for it in listed)
        if count:
            left_out = f", {counted(calls, 'call')}" if calls else ""
            print(
                f"not judged: {counted(count, 'document')}{left_out}, listed in {escaped(lines.name)}",
                flush=True,
            )
        for it in listed:
            if it.get("ended"):
                print(f"the recording ended early: {escaped(it['why'])}", flush=True)


def run_command(command: Sequence[str]) -> None:
    """Runs the operator's command; reports if it fails."""
    try:
        status = subprocess.run(command, stdin=subprocess.DEVNULL).returncode
        fault = f"ended with status {status}" if status else ""
    except OSError as it:
        fault = f"can't be run: {it.strerror}"
    if fault:
        report_fault(f"{escaped(' '.join(command))} {fault}")


# The command line


def parse_arguments(arguments: Optional[Sequence[str]]) -> argparse.Namespace:
    """Parses the arguments; those of the process if there are none. After `--` comes the command."""
    own, command = list(sys.argv[1:] if arguments is None else arguments), []
    if "--" in own:
        at = own.index("--")
        own, command = own[:at], own[at + 1 :]
    parser = argparse.ArgumentParser(
        prog=usage_name("watch"),
        description="Checks a recording while it grows, and runs a command at the first proved fault.",
        usage="%(prog)s OUT [OPTIONS] [-- COMMAND ..]",
    )
    add = parser.add_argument
    add("out", metavar="OUT", help="the history, or a directory of histories")
    add(
        "--every",
        type=number_from(0.1, float),
        default=EVERY,
        help="seconds between the starts of two checks (5)",
    )
    add_reading_options(add)
    add("--program", help="the casbench program to check with (./casbench, else the one in PATH)")
    add("--delete-parts", action="store_true", help="delete each finished part whose answer is yes")
    add("--until-closed", action="store_true", help="exit after a last check at the end of standard input")
    setting = parser.parse_args(own)
    setting.command = command
    return setting


def main(arguments: Optional[Sequence[str]] = None) -> int:
    """Watches a recording, and returns the exit status."""
    setting = parse_arguments(arguments)
    try:
        return Watch(setting, WatchStop(setting.until_closed)).run()
    except (CheckError, ShrinkError, OSError) as fault:
        report_fault(escaped(str(fault)))
        return CAN_NOT_CHECK
    except KeyboardInterrupt:
        return 130
    except Exception as fault:
        # (Python's own status for an exception is that of a verdict)
        report_fault(f"an internal error of the watch: {escaped(repr(fault))}")
        return CAN_NOT_CHECK
