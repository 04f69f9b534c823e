"""Runs the program on the complete lines of a growing history."""

import contextlib
import io
import os
import re
import resource
import signal
import subprocess
import tempfile
import threading
import time
from dataclasses import dataclass
from typing import IO, BinaryIO, Iterator, Sequence

from casbench_recording.history.format import LONGEST_LINE

AT_ONCE = 1 << 20
"""How many bytes are written to the program at a time."""

MOST_WRITTEN = 1 << 24
"""The maximum length of the program's output in bytes."""

LONGEST_SHOWN = 300
"""How many characters of the program's output are shown in an error."""

VERDICTS = {"yes": 0, "no": 1, "refuted": 1, "refused": 2}
"""The exit status of each verdict, by its first word."""

VERDICT = re.compile(rf"({'|'.join(VERDICTS)}) [ -~]+\n")
"""Matches the line of a verdict."""


class CheckError(Exception):
    """Why a history can't be checked, for the operator."""


@dataclass(frozen=True)
class ProgramAnswer:
    """The output of the program for a history, its exit status, and its CPU time in seconds."""

    text: str
    status: int
    seconds: float

    @property
    def line(self) -> str:
        """The first line, without its line feed."""
        return self.text.partition("\n")[0]

    @property
    def word(self) -> str:
        """`yes`, `no`, `refuted` or `refused`."""
        return self.line.partition(" ")[0]


class Snapshot:
    """The complete lines of a file at this moment. Lines that are written later are ignored."""

    def __init__(self, path: str) -> None:
        self.path = path
        with open(path, "rb") as file:
            self.length = whole_length(file)

    def lines_from(self, start: int) -> Iterator[bytes]:
        """Returns the lines after this number of bytes, which is the end of a line."""
        with open(self.path, "rb") as file:
            file.seek(start)
            left = self.length - start
            while left > 0:
                line = file.readline()
                left -= len(line)
                yield line

    def ask(self, command: Sequence[str]) -> ProgramAnswer:
        """Runs this command with the lines as its standard input; returns the answer."""
        with open(self.path, "rb") as file:
            return ask(command, file, self.length)

    def check(self, command: Sequence[str]) -> ProgramAnswer:
        """Runs this check on the lines; returns the verdict. Raises CheckError if the output is anything
        else."""
        return verdict(command, self.ask(command))


def try_check(command: Sequence[str]) -> None:
    """Runs this check on an empty text. Raises CheckError if the program can't be run, or doesn't answer as a
    check does."""
    answer = verdict(command, ask(command, io.BytesIO(), 0))
    if answer.word != "yes":
        raise CheckError(f"{command[0]} answers an empty text with {answer.line[:LONGEST_SHOWN]!r}")


def verdict(command: Sequence[str], answer: ProgramAnswer) -> ProgramAnswer:
    """Returns the answer; raises CheckError unless it is a single verdict with its status."""
    if not VERDICT.fullmatch(answer.text) or VERDICTS[answer.word] != answer.status:
        shown = repr(answer.text[:LONGEST_SHOWN])
        raise CheckError(f"{command[0]} ended with status {answer.status} and gave no verdict: {shown}")
    return answer


def ask(command: Sequence[str], file: BinaryIO, length: int) -> ProgramAnswer:
    """Runs this command with the first `length` bytes of a file as its standard input; returns the answer.

    Raises CheckError if it can't be run, writes too much, or ends with a status that no verdict has.
    """
    before = time.process_time() + seconds_of_children()
    with tempfile.TemporaryFile() as fault:
        output, status = run(command, file, length, fault)
        if status not in VERDICTS.values() or len(output) > MOST_WRITTEN:
            fault.seek(0)
            why = fault.read(LONGEST_SHOWN).decode(errors="replace").strip()
            wrote = "wrote too much and " if len(output) > MOST_WRITTEN else ""
            raise CheckError(f"{command[0]} {wrote}ended with status {status}: {why}")
    seconds = time.process_time() + seconds_of_children() - before
    return ProgramAnswer(output.decode(errors="replace"), status, seconds)


def run(command: Sequence[str], file: BinaryIO, length: int, fault: IO[bytes]) -> "tuple[bytes, int]":
    """Runs this command; returns its output, up to one byte more than the maximum, and its exit status. It is
    killed if it writes more."""
    try:
        # (Ctrl-C is for the watch, which lets the check finish)
        program = subprocess.Popen(
            command, stdin=subprocess.PIPE, stdout=subprocess.PIPE, stderr=fault, preexec_fn=ignore_interrupts
        )
    except (OSError, subprocess.SubprocessError) as it:
        raise CheckError(f"{command[0]} can't be run: {it}") from it
    with program:
        assert program.stdin is not None and program.stdout is not None
        # (on a thread, since the program may write before it has read everything)
        feeder = threading.Thread(target=copy, args=(file, program.stdin, length), daemon=True)
        feeder.start()
        output = program.stdout.read(MOST_WRITTEN + 1)
        if len(output) > MOST_WRITTEN:
            program.kill()
        # (the program and the thread end then)
        program.stdout.close()
        feeder.join()
    return output, program.returncode


def whole_length(file: BinaryIO) -> int:
    """Returns the total length of the complete lines of a file."""
    size = file.seek(0, os.SEEK_END)
    start = max(0, size - LONGEST_LINE - 1)
    file.seek(start)
    end = file.read(size - start).rfind(b"\n")
    # (the program refuses a line that is too long)
    return start + end + 1 if end >= 0 or not start else size


def copy(file: BinaryIO, to: IO[bytes], length: int) -> None:
    """Copies this many bytes, and closes the target. A program that needs no more, because it refuses a line,
    closes its end."""
    with contextlib.suppress(BrokenPipeError):
        while length > 0:
            data = file.read(min(AT_ONCE, length))
            if not data:
                break
            to.write(data)
            length -= len(data)
    with contextlib.suppress(BrokenPipeError):
        to.close()


def seconds_of_children() -> float:
    """Returns the CPU time in seconds of the child processes that have ended."""
    used = resource.getrusage(resource.RUSAGE_CHILDREN)
    return used.ru_utime + used.ru_stime


def ignore_interrupts() -> None:
    """Has a new process ignore Ctrl-C."""
    signal.signal(signal.SIGINT, signal.SIG_IGN)
