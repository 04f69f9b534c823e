#!/usr/bin/env python3
"""Runs the built program with reads and writes that fail, and with such as move a few bytes each time.

    python3 tests/failing.py [PROGRAM]

PROGRAM is the built casbench; if it isn't named, the one that ./casbench would run. It needs a C compiler, cc, and is
skipped if there is none.

Each row below is a command with its texts: all six commands, with a history that is named and one that is standard
input. Of each file of a row, a text that is read or an output that is written, each call fails in a run of its own: the
first, the second and so on to the last, and then one that is never made. Calls move 1 to 9 bytes at most, or some more,
or as many as they can. A file that takes 150 calls or more, which is a page or a story, has only the first two fail,
the middle one and the last two. A read fails with EIO or, in turn, as one that is interrupted; a write fails so too,
and in another run takes no byte. These are some 2,700 reads and 5,800 writes that fail, and 500 calls that are never
made.

After a read fault nothing has been written; after a write fault a front of what is written else, just up to that write;
if no call fails the answer is what it is else. A page is there only if no call failed, and whole then; no other file is
left beside it. Each time just those calls are made that are wanted, file by file, and none after the one that fails, but
for the others of several files.
"""

import errno
import os
import pathlib
import subprocess
import sys
import tempfile
from collections import Counter
from concurrent.futures import ThreadPoolExecutor
from typing import NamedTuple, Optional

from program_test import ProgramTest, run_tests
from running import library_in, needs_compiler, run_arguments
from texts import READ_FAULT, WRITE_FAULT, broken, found, get, lost, missing, no_writer, places_of, refused, verified
from texts import witness_of, yes

# How many bytes a call moves at most: a few, more, and as many as it can.
SIZES = [*range(1, 10), 20, 40, 100, 1_000, 2**20]

# The errors that calls fail with, in turn.
ERRORS = (errno.EIO, errno.EINTR)

# The names of the outputs, and of the file in which the calls are noted.
OUT, PAGE, NOTED = "out", "page", "noted"

# A file of so many calls has only some of them fail.
MANY = 150


class Text(NamedTuple):
    """A text that is read: its file's name, and how many bytes have to be read of it; None if it is read to its end."""

    name: str
    text: str
    needed: Optional[int] = None

    def calls(self, size):
        """How many reads there are that give so many bytes at most. The end of a text is a read too."""
        return -(-len(self.text) // size) + 1 if self.needed is None else -(-self.needed // size)


class Output(NamedTuple):
    """An output that is written, and what is written to it."""

    name: str
    text: bytes

    def calls(self, size):
        """How many writes there are that take so many bytes at most."""
        return -(-len(self.text) // size)


class Row(NamedTuple):
    """A command, the exit status and the beginning of its answer, the texts that it reads, in their order, and whether it
    reads the others after one that fails."""

    arguments: str
    status: int
    begins: str
    texts: tuple
    reads_on: bool = False


class Failing(NamedTuple):
    """The call of a file that fails, by its number from 1, with an error, or with 0 by moving no byte; the most bytes
    of a call."""

    name: str
    number: int
    error: int
    size: int


class Ended(NamedTuple):
    """How a run ended: its status, both outputs, the page if there is one, the calls that were made, and the files that
    it left beside these."""

    status: int
    out: bytes
    why: str
    page: Optional[bytes]
    calls: str
    left: tuple


# A get that was not answered, and the same cut short; one that finds nothing, with its witness; one that finds what
# nobody wrote; and one that ends twice, the second time on line 3.
OPEN = get(0)
CUT = OPEN[:20]
MISSED = OPEN + missing(0)
WITNESS = witness_of("d", places_of("0"))
STRAY = OPEN + found(0, 1, 0, k=2)
ENDED = OPEN + lost(0) * 2

# A bulk of two items of which nothing is known.
BODY = '{"index":{"_id":"a"}}\n{"k":1}\n{"delete":{"_id":"b"}}\n'
REPLY = '{"items":[{"index":{"status":503}},{"delete":{"status":503}}]}'


def history(text, needed=None):
    return Text("history", text, needed)


# What comes after a line that is refused is not read, and a witness not at all if the history is refused; both texts of
# a bulk are read before either is judged. A text that ends within a line is read to its end. A run with one client
# writes the same text each time.
ROWS = [
    Row("", 0, yes(1), (history(MISSED),)),
    Row("check history --workers 2 --conflicts maybe", 1, no_writer(1, 0), (history(STRAY),)),
    Row("check", 2, refused(1, "json"), (history(CUT),)),
    Row("check history other", 1, f"history: {yes(1)}other: {no_writer(1, 0)}", (history(MISSED), Text("other", STRAY)), True),
    Row("check history", 2, refused(3, "ended"), (history(ENDED + OPEN, len(ENDED)),)),
    Row("witness", 0, WITNESS, (history(MISSED),)),
    Row("witness history", 2, refused(2, "shape"), (history("\n{}\n" + OPEN, 4),)),
    Row("verify history witness --conflicts maybe", 0, verified(1), (history(MISSED), Text("witness", WITNESS))),
    Row("verify history witness", 1, broken("doc-stranger"), (history(""), Text("witness", WITNESS))),
    Row("verify history witness", 2, refused(2, "shape", "history"), (history("\n{}\n", 4), Text("witness", WITNESS, 0))),
    Row("verify history witness", 2, refused(1, "shape", "witness"), (history(OPEN), Text("witness", "{}\n" + WITNESS, 3))),
    Row("bulk body reply", 0, '{"e":"call","id":"a",', (Text("body", BODY), Text("reply", REPLY))),
    Row("bulk body reply", 2, refused(1, "syntax"), (Text("body", CUT), Text("reply", ""))),
    Row("explain", 2, f'{refused(1, "json")}\n', (history(CUT),)),
    Row("explain history --html page", 0, f"{yes(1, left_out=1)}\n", (history(OPEN),)),
    Row(run_arguments(), 0, '{"e":"call","id":"d0",', ()),
]


def filled(name, row):
    """The folder of this name, with the texts of the row in it."""
    folder = pathlib.Path(name)
    for text in row.texts:
        (folder / text.name).write_text(text.text)
    return folder


def ended(program, row, folder, more):
    """How a run of the row ends in the folder, with more in its environment; None if it doesn't end."""
    arguments = row.arguments.split()
    out, noted, page = (folder / name for name in (OUT, NOTED, PAGE))
    noted.write_bytes(b"")
    page.unlink(missing_ok=True)
    takes_input = row.texts and row.texts[0].name not in arguments
    with open(folder / row.texts[0].name if takes_input else os.devnull, "rb") as given, open(out, "wb") as taken:
        how = {"cwd": folder, "env": {**os.environ, **more}, "stdin": given, "stdout": taken, "stderr": subprocess.PIPE}
        try:
            ran = subprocess.run([program, *arguments], timeout=60, **how)
        except subprocess.TimeoutExpired:
            return None
    written = page.read_bytes() if page.exists() else None
    left = {it.name for it in folder.iterdir()} - {it.name for it in row.texts} - {OUT, PAGE, NOTED}
    return Ended(ran.returncode, out.read_bytes(), ran.stderr.decode(), written, noted.read_text(), tuple(sorted(left)))


def plain_end(program, row):
    """How a run of the row ends if all calls are left alone."""
    with tempfile.TemporaryDirectory() as name:
        return ended(program, row, filled(name, row), {})


def files_of(row, plain):
    """The texts and the outputs of the row, in the order of their calls."""
    outputs = ([] if plain.page is None else [Output(PAGE, plain.page)]) + [Output(OUT, plain.out)]
    return [*row.texts, *outputs]


def wanted(row, plain, failing):
    """How the run has to end, and its calls, if that call fails; as else if it is never made."""
    name, number, _, size = failing
    files = files_of(row, plain)
    at = [it.name for it in files].index(name)
    counts = [it.calls(size) for it in files]
    before, after = "." * sum(counts[:at]), "." * sum(counts[at + 1 :])
    if number > counts[at]:
        return plain._replace(calls=before + "n" * counts[at] + after)
    out = plain.out[: (number - 1) * size] if name == OUT else b""
    why = WRITE_FAULT if name in (OUT, PAGE) else READ_FAULT
    others = [it.calls(size) for it in files[at + 1 :] if row.reads_on and isinstance(it, Text)]
    return Ended(4, out, why, None, before + "n" * (number - 1) + "!" + "." * sum(others), ())


def numbers(count):
    """The numbers of the calls that fail, and that of one which is not made."""
    return range(1, count + 2) if count < MANY else [1, 2, count // 2, count - 1, count, count + 1]


def errors(file, number, size):
    """What a call fails with, one after the other: with an error and, if it is a write that is made, by moving no
    byte."""
    error = ERRORS[(number + size) % 2]
    return [error] if isinstance(file, Text) or number > file.calls(size) else [error, 0]


def failures(row, plain, size):
    """All ways in which a call of the row fails, if calls move so many bytes at most."""
    for file in files_of(row, plain):
        for number in numbers(file.calls(size)):
            for error in errors(file, number, size):
                yield Failing(file.name, number, error, size)


def fault_of(program, library, row, plain, folder, failing):
    """How a run ends in which that call fails, if it ends wrongly; else None."""
    # (what is written of a page gets its name only at last)
    file = "*" if failing.name == PAGE else failing.name
    numbers = {"NUMBER": str(failing.number), "ERROR": str(failing.error), "MOST": str(failing.size)}
    end = ended(program, row, folder, {"FILE": file, **numbers, "TOLD": NOTED, "LD_PRELOAD": str(library)})
    return None if end == wanted(row, plain, failing) else end


def faults_of(program, library, row, plain, failing_calls):
    """The same of each of these calls, one after the other in one folder."""
    with tempfile.TemporaryDirectory() as name:
        folder = filled(name, row)
        return [fault_of(program, library, row, plain, folder, it) for it in failing_calls]


def kind(row, plain, failing):
    """What a failing call is counted as."""
    file = next(it for it in files_of(row, plain) if it.name == failing.name)
    if failing.number > file.calls(failing.size):
        return "calls that are not made"
    return "reads" if isinstance(file, Text) else "writes"


@needs_compiler
class FailingCalls(ProgramTest):
    """Runs in which one call fails."""

    @classmethod
    def setUpClass(cls):
        cls.plains = [plain_end(cls.program, row) for row in ROWS]

    def test_plain(self):
        """Each row gets its answer if all calls are left alone."""
        for row, plain in zip(ROWS, self.plains):
            with self.subTest(row.arguments):
                self.assertIsNotNone(plain)
                self.assertEqual((plain.status, plain.why, plain.left), (row.status, "", ()))
                self.assertEqual(plain.out[: len(row.begins)], row.begins.encode())
                self.assertEqual(plain.page is not None, PAGE in row.arguments)
                self.assertTrue(plain.page is None or plain.page.startswith(b"<!doctype html>"))

    def test_failing_calls(self):
        """A run ends as it has to if one of its calls fails."""
        with tempfile.TemporaryDirectory() as folder, ThreadPoolExecutor() as pool:
            library = library_in(folder, "fail_calls")
            rows = [(row, plain) for row, plain in zip(ROWS, self.plains) if plain]
            groups = [(*it, list(failures(*it, size))) for it in rows for size in SIZES]
            faults = list(pool.map(lambda group: faults_of(self.program, library, *group), groups))
        kinds = Counter()
        for (row, plain, failing_calls), ends in zip(groups, faults):
            for failing, end in zip(failing_calls, ends):
                kinds[kind(row, plain, failing)] += 1
                with self.subTest(f"{row.arguments}: {failing}"):
                    self.assertIsNone(end)
        print(", ".join(f"{count} {name}" for name, count in sorted(kinds.items())))


if __name__ == "__main__":
    sys.exit(run_tests())
