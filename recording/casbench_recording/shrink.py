"""Reduces a history to a few calls that get the same answer, for a report.

    python3 -m casbench_recording.shrink carts.ndjson >few.ndjson

It takes the options of a check, such as `--profile opensearch`. The reduced history gets the same answer from
casbench: `no` or `refuted`; for a refutation with the same kind and the same calls as evidence, for a `no`
with the same call at whose reply the search fails. With `--witness FILE`, which shows that a `no` is a false
alarm, the part of the witness for the remaining calls stays valid. The remaining lines are unchanged and in
order, and no single call can be removed from them. The result is written at the end, unless it would
overwrite the history itself.
"""

import argparse
import os
import shutil
import stat
import subprocess
import sys
from typing import BinaryIO, Dict, Iterable, List, NamedTuple, Optional, Sequence, Set, Tuple

from .history.parsing import Beginnings, ParsedCall, ParsedHistory, VersionKey
from .history.readings import STRICT, Reading, add_reading_options, is_ruling_out, reading_of

FIRST_WINDOW, WINDOW_FACTOR = 64, 4
"""The number of calls of the first window before the answer, and the factor of each further one."""


class ShrinkError(Exception):
    """Why a history can't be reduced, for the operator."""


class WantedAnswer(NamedTuple):
    """The answer that has to stay: its word, the kind of evidence, and the calls that it names. A `no` names
    one call, and is proved if the outcome of each write of its document is known."""

    word: str
    kind: str
    calls: Tuple[int, ...]
    is_proved: bool


class Program:
    """The program, with the options of its check."""

    def __init__(self, path: str, reading: Reading = STRICT, is_ruling_out: bool = False) -> None:
        self.path = path
        self.reading = reading
        self.options = [*reading.options(), *(["--rule-out"] if is_ruling_out else [])]
        self.runs = 0

    def answer(self, text: bytes) -> str:
        """Returns the answer of a check of a text."""
        return self.run(["check", *self.options], text)

    def verified(self, text: bytes, witness: bytes) -> str:
        """Returns the answer of a verification of the witness."""
        with open(os.memfd_create("witness"), "wb") as file:
            file.write(witness)
            file.flush()
            return self.run(
                ["verify", "/dev/stdin", f"/dev/fd/{file.fileno()}", *self.reading.options()],
                text,
                [file.fileno()],
            )

    def run(self, options: Sequence[str], text: bytes, files: Sequence[int] = ()) -> str:
        """Returns the answer of a command."""
        self.runs += 1
        ran = subprocess.run(
            [self.path, *options], input=text, stdout=subprocess.PIPE, stderr=subprocess.PIPE, pass_fds=files
        )
        if ran.returncode > 2:
            raise ShrinkError(f"{self.path}: {ran.stderr.decode(errors='replace').strip()}")
        return ran.stdout.decode()


class Shrinker:
    """A history that is being reduced."""

    def __init__(self, lines: Iterable[bytes], program: Program, witness: Optional[bytes] = None) -> None:
        self.program = program
        self.has_witness = witness is not None
        self.recorded = ParsedHistory(lines, program.reading)
        text = b"".join(self.recorded.lines)
        answer = program.answer(text)
        if not answer.startswith(("no ", "refuted ")):
            raise ShrinkError(f"it gets {answer.strip()}, so there is nothing to reduce")
        self.recorded.read()
        self.calls = self.recorded.calls
        if witness is not None:
            verified = program.verified(text, witness)
            if not verified.startswith("verified "):
                raise ShrinkError(f"the witness gets {verified.strip()}")
            self.recorded.read_witness(witness)
        self.kept = set(self.calls)
        self.wanted = self.read_answer(answer, self.kept)
        self.before = len(self.kept)
        self.makers: Dict[VersionKey, int] = {it.made: it.number for it in self.calls.values() if it.made}
        self.readers = self.calls_by_version()

    def read_answer(self, answer: str, kept: Set[int]) -> WantedAnswer:
        """Parses an answer to a history of these calls."""
        word = answer.split(" ", 1)[0]
        fields = dict(it.split("=", 1) for it in answer.split()[1:])
        if word != "no":
            calls = tuple(int(it) for it in fields.get("calls", "").split(",") if it)
            return WantedAnswer(word, fields.get("kind", ""), calls, True)
        number = int(fields["call"])
        id = self.calls[number].id
        is_proved = all(
            self.recorded.is_decided(it) for it in map(self.calls.__getitem__, kept) if it.id == id
        )
        return WantedAnswer(word, "", (number,), is_proved)

    def calls_by_version(self) -> Dict[VersionKey, List[int]]:
        """Returns the calls that depend on each version: gets that found it, and writes on the condition of
        its pair."""
        readers: Dict[VersionKey, List[int]] = {}
        for number, it in self.calls.items():
            if it.stands_on is not None:
                readers.setdefault(it.stands_on, []).append(number)
        return readers

    def gets_the_same(self, kept: Set[int]) -> bool:
        """Returns whether the history of these calls gets the wanted answer, and its part of the witness is
        valid."""
        if not kept.issuperset(self.wanted.calls):
            return False
        text = self.recorded.text_of(kept)
        if self.has_witness and not self.program.verified(text, self.recorded.witness_of(kept)).startswith(
            "verified "
        ):
            return False
        return self.read_answer(self.program.answer(text), kept) == self.wanted

    def keep(self, kept: Set[int]) -> bool:
        """Keeps only these calls, if they are fewer and the answer is the same."""
        if len(kept) < len(self.kept) and self.gets_the_same(kept):
            self.kept = kept
            return True
        return False

    def leave_out(self, numbers: Iterable[int]) -> bool:
        """Removes calls, if the answer is the same without them."""
        return self.keep(self.kept.difference(numbers))

    def shrink(self) -> None:
        """Removes what it can: all but a window, then documents, then later calls, then many calls at a time,
        then single calls."""
        self.keep_a_window()
        named = {self.calls[it].id for it in self.wanted.calls}
        self.leave_out([it for it in self.kept if self.calls[it].id not in named])
        last = self.last_line()
        self.leave_out([it for it in self.kept if self.calls[it].line > last])
        size = max(1, len(self.kept) // 2)
        while self.leave_out_pieces(size) or size > 1:
            size = max(1, size // 2)

    def last_line(self) -> int:
        """Returns the last line of the calls that the answer names."""
        named = [self.calls[it] for it in self.wanted.calls]
        return max(it.line if it.ending is None else it.ending for it in named)

    def keep_a_window(self) -> None:
        """Keeps the named calls and the writers of what they show, or these with the smallest window of
        preceding calls that gets the same answer: of the same documents, or of all. So the program never
        reads most of a long history again."""
        makers = [self.maker_of(self.calls[it]) for it in self.wanted.calls]
        base = {*self.wanted.calls, *(it for it in makers if it is not None)}
        if self.keep(base):
            return
        named, last = {self.calls[it].id for it in self.wanted.calls}, self.last_line()
        order = [it for it in self.calls.values() if it.line <= last]
        own = [it for it in order if it.id in named]
        beginnings = Beginnings(order)
        size = FIRST_WINDOW
        while size < len(order):
            for calls in [own, order] if len(own) > size // WINDOW_FACTOR else [order]:
                if self.keep(self.closed(base, calls[-size:], beginnings)):
                    return
            size *= WINDOW_FACTOR

    def closed(self, base: Set[int], window: Sequence[ParsedCall], beginnings: Beginnings) -> Set[int]:
        """Returns the base calls, those that created the documents that exist when the window begins, and the
        calls of the window that don't depend on a write outside of these."""
        makers = (beginnings.maker_at(id, window[0].line) for id in {it.id for it in window})
        kept = base.union(it for it in makers if it is not None)
        inside = kept.union(it.number for it in window)
        outside = [
            it.number for it in window if self.maker_of(it) not in inside and self.maker_of(it) is not None
        ]
        return inside.difference(self.with_readers(outside, inside) - kept)

    def maker_of(self, call: ParsedCall) -> Optional[int]:
        """Returns the number of the call that wrote the version on which a call depends, by its reply."""
        return None if call.stands_on is None else self.makers.get(call.stands_on)

    def with_readers(self, numbers: Iterable[int], among: Set[int]) -> Set[int]:
        """Returns the calls with all that depend on what they wrote, and so on: without them those would show
        values that nobody wrote."""
        found: Set[int] = set()
        left = list(numbers)
        while left:
            number = left.pop()
            if number not in found and number in among:
                found.add(number)
                made = self.calls[number].made
                left += self.readers.get(made, ()) if made else ()
        return found

    def leave_out_pieces(self, size: int) -> bool:
        """Tries to remove each piece of `size` calls, the last ones first; returns whether any was
        removed."""
        is_any_gone = False
        order = [it.number for it in self.recorded.in_order(self.kept)]
        for start in range(len(order) - 1, -1, -size):
            piece = [it for it in order[max(0, start - size + 1) : start + 1] if it in self.kept]
            is_gone = bool(piece) and (
                self.leave_out(self.with_readers(piece, self.kept)) or size == 1 and self.leave_out(piece)
            )
            is_any_gone = is_any_gone or is_gone
        return is_any_gone


# The command line


def program_at_hand() -> str:
    """Returns the program: `./casbench` in a checkout, else the one in PATH."""
    if os.access("./casbench", os.X_OK):
        # (the script prints which program it runs; the program itself has no such option)
        ran = subprocess.run(
            ["./casbench", "--program"], stdout=subprocess.PIPE, stderr=subprocess.DEVNULL, text=True
        )
        return ran.stdout.strip() if ran.returncode == 0 else "./casbench"
    found = shutil.which("casbench")
    if found is None:
        raise ShrinkError("there is no ./casbench, and none in PATH: name one with --program")
    return found


def parse_arguments(arguments: Optional[Sequence[str]]) -> argparse.Namespace:
    """Parses the arguments; those of the process if there are none."""
    parser = argparse.ArgumentParser(
        description="Reduces a history to a few calls that get the same answer from casbench, and prints it."
    )
    add = parser.add_argument
    add("file", help="the history")
    add("--program", help="the casbench program to check with (./casbench, else the one in PATH)")
    add("--rule-out", action="store_true", help="check with --rule-out")
    add_reading_options(add)
    add(
        "--witness",
        help="a witness of the history, which shows that a no is a false alarm; the part of it for the calls "
        "that are left stays valid",
    )
    add("--few-witness", help="the file to write the reduced witness to; must not exist")
    setting = parser.parse_args(arguments)
    if setting.few_witness and not setting.witness:
        parser.error("--few-witness needs --witness")
    return setting


def refuse_as_output(history: BinaryIO) -> None:
    """Refuses a history that is also the standard output, by whatever name: it would be overwritten."""
    its = os.fstat(history.fileno())
    if stat.S_ISREG(its.st_mode) and os.path.samestat(its, os.fstat(sys.stdout.fileno())):
        raise ShrinkError(f"{history.name}: the history would be overwritten")


def write(text: bytes) -> None:
    """Writes the text to standard output."""
    with open(sys.stdout.fileno(), "wb", closefd=False) as out:
        out.write(text)


def read_file(path: Optional[str]) -> Optional[bytes]:
    """Returns the bytes of a file, if one is named."""
    if path is None:
        return None
    with open(path, "rb") as file:
        return file.read()


def main(arguments: Optional[Sequence[str]] = None) -> int:
    """Reduces a history, and returns the exit status: 0, or 1 if there is nothing to reduce, or it can't be
    written."""
    setting = parse_arguments(arguments)
    try:
        program = Program(setting.program or program_at_hand(), reading_of(setting), is_ruling_out(setting))
        with open(setting.file, "rb") as lines:
            refuse_as_output(lines)
            shrinker = Shrinker(lines, program, read_file(setting.witness))
        shrinker.shrink()
        if setting.few_witness:
            with open(setting.few_witness, "xb") as file:
                file.write(shrinker.recorded.witness_of(shrinker.kept))
        write(shrinker.recorded.text_of(shrinker.kept))
    except (ShrinkError, OSError) as fault:
        print(f"shrink.py: {fault}", file=sys.stderr)
        return 1
    print(
        f"{shrinker.before} calls, {len(shrinker.kept)} of them left, after {program.runs} checks",
        file=sys.stderr,
    )
    return 0


if __name__ == "__main__":
    sys.exit(main())
