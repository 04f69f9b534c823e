#!/usr/bin/env python3
"""Runs the built program on texts at their limits, and with files and outputs that fail.

    python3 tests/limits.py [PROGRAM]

PROGRAM is the built casbench; if it isn't named, the one that ./casbench would run.
"""

import os
import subprocess
import sys
import tempfile

from answers import AnswersTest
from program_test import run_tests
from running import run_arguments
from texts import DEPTH, EVENTS, ID_BYTES, LINE_BYTES, LINES, READ_FAULT, SETTING_FAULT, WRITE_FAULT
from texts import broken, condition, conflict, created, delete, found, get, index, lost, nested, refused
from texts import refuted, updated, verified, witness_of, written_call, yes

# As many calls as a history may have.
MOST_GETS = "".join(map(get, range(EVENTS)))

EMPTY = yes(0, docs=0)

# Name, text, and the answer of a check.
TEXTS = [
    ("longest line", " " * LINE_BYTES, EMPTY),
    ("a line one byte longer", " " * (LINE_BYTES + 1), refused(1, "long")),
    ("most lines", "\n" * LINES, EMPTY),
    ("one line more", "\n" * (LINES + 1), refused(LINES + 1, "lines")),
    ("most events", MOST_GETS, yes(EVENTS, left_out=EVENTS)),
    ("one event more", MOST_GETS + get(EVENTS), refused(EVENTS + 1, "full")),
    ("longest id", get(0, doc="d" * ID_BYTES), yes(1, left_out=1)),
    ("an id one byte longer", get(0, doc="d" * (ID_BYTES + 1)), refused(1, "id")),
    ("nested as deep as is read", '{"e":"lost","n":0,"x":' + nested(DEPTH - 1) + "}\n", refused(1, "no-call")),
    ("nested one deeper", '{"e":"lost","n":0,"x":' + nested(DEPTH) + "}\n", refused(1, "json")),
]


# Documents of many versions. Each of these gives the lines of so many, whose calls are numbered from 0, and how many
# calls there are.


def answered_versions(count):
    """Each version is shown by the reply to its write, and there is room for another one between each two."""
    return [index(n, k=n) + (updated if n else created)(n, 1, 2 * n + 1) for n in range(count)], count


def versions_after_open_writes(count):
    """The same, after as many writes that are never answered. Each of these may stand between any two of the others."""
    rows = [index(n) for n in range(count)]
    rows += [index(count + n, k=n) + (updated if n else created)(count + n, 1, 2 * n + 1) for n in range(count)]
    return rows, 2 * count


def shown_versions(count):
    """Each version is shown by a get alone, its write being without a reply."""
    return [index(2 * n, k=n) + get(2 * n + 1) + found(2 * n + 1, 1, n, k=n) for n in range(count)], 2 * count


# How many versions these documents have: many more than fit into a page of memory, and as many as the events of a
# history allow with two more; each version is two events, or three.
SOME, MOST_ANSWERED, MOST_SHOWN = 10_000, (EVENTS - 2) // 2, (EVENTS - 2) // 3
LONG = [
    (answered_versions, SOME),
    (answered_versions, MOST_ANSWERED),
    (versions_after_open_writes, SOME),
    (versions_after_open_writes, MOST_SHOWN),
    (shown_versions, SOME),
    (shown_versions, MOST_SHOWN),
]


# 2^63-1, 2^63, 2^64-1 and 2^64.
NUMBERS = [str(it) for it in (2**63 - 1, 2**63, 2**64 - 1, 2**64)]

NESTED = [nested(DEPTH - 1), nested(DEPTH)]
IDS = ["d" * ID_BYTES, "d" * (ID_BYTES + 1)]
SPACES = [" " * LINE_BYTES, " " * (LINE_BYTES + 1)]

# A history of one write that nobody answered, and a reply to a bulk request with one item of unknown outcome.
OPEN_WRITE = index(0)
UNKNOWN_ITEM = '{"items":[{"index":{"status":503}}]}'

LEFT_OUT = yes(1, left_out=1)
EXPLAINED = yes(1)
RANGE = refused(1, "range")
VERIFIED = verified(1)
WITNESS_RANGE = refused(2, "range", "witness")

# The line of a document in a witness, and a witness of the write.
DOCUMENT, WITNESS = witness_of("d", []), witness_of("d", [(0, (1, 0))])


def item_lines(number, more=""):
    """The lines of a bulk request's item of which nothing is known."""
    return written_call(0, "index", "d", f'{more},"k":{number}') + lost(0)


CONDITION = item_lines(1, condition(1, NUMBERS[0]))

# A command, its texts, in which an @ is left for what is put there, what is put there in turn, and the lines that are
# wanted.
PLACES = [
    # numbers of a history
    ("check", [get("@")], NUMBERS, [LEFT_OUT, LEFT_OUT, LEFT_OUT, RANGE]),
    ("check", [index(0, k="@")], NUMBERS, [LEFT_OUT, LEFT_OUT, LEFT_OUT, RANGE]),
    ("check", [delete(0, ',"if_primary_term":1,"if_seq_no":@')], NUMBERS, [LEFT_OUT, RANGE, RANGE, RANGE]),
    ("check", [delete(0, ',"if_seq_no":0,"if_primary_term":@')], NUMBERS, [LEFT_OUT, RANGE, RANGE, RANGE]),
    ("check", [OPEN_WRITE + created(0, 1, "@", "d")], NUMBERS, [EXPLAINED, LEFT_OUT, LEFT_OUT, LEFT_OUT]),
    # numbers of a witness
    ("verify", [OPEN_WRITE, DOCUMENT + '{"rec":@}\n'], NUMBERS, [WITNESS_RANGE] * 4),
    ("verify", [OPEN_WRITE, DOCUMENT + '{"rec":0,"term":1,"seq":@}\n'], NUMBERS, [VERIFIED, *[WITNESS_RANGE] * 3]),
    ("verify", [OPEN_WRITE, DOCUMENT + '{"rec":0,"seq":0,"term":@}\n'], NUMBERS, [VERIFIED, *[WITNESS_RANGE] * 3]),
    # numbers of a bulk request
    ("bulk", ['{"index":{"_id":"d","if_primary_term":1,"if_seq_no":@}}\n{"k":1}\n', UNKNOWN_ITEM], NUMBERS, [CONDITION, RANGE, RANGE, RANGE]),
    ("bulk", ['{"index":{"_id":"d"}}\n{"k":@}\n', UNKNOWN_ITEM], NUMBERS, [*map(item_lines, NUMBERS[:3]), refused(2, "source")]),
    # ids
    ("verify", [OPEN_WRITE, witness_of("@", [])], IDS, [broken("doc-stranger"), refused(1, "id", "witness")]),
    ("bulk", ['{"index":{"_id":"@"}}\n{"k":1}\n', UNKNOWN_ITEM], IDS[1:], [refused(1, "action")]),
    # values in one another, with the object round them
    ("check", [get(0, ',"at":@')], NESTED, [LEFT_OUT, refused(1, "json")]),
    ("verify", [OPEN_WRITE, DOCUMENT + '{"rec":0,"seq":0,"term":1,"at":@}\n'], NESTED, [VERIFIED, refused(2, "json", "witness")]),
    (
        "bulk",
        [f'{{"index":{{"_id":"d"}}}}\n{{"k":{NUMBERS[2]},"at":@}}\n', UNKNOWN_ITEM],
        NESTED,
        [item_lines(NUMBERS[2]), refused(2, "syntax")],
    ),
    # lines
    ("verify", [OPEN_WRITE, f"@\n{WITNESS}"], SPACES, [VERIFIED, refused(1, "long", "witness")]),
    (
        "bulk",
        [f'@\n{{"index":{{"_id":"d"}}}}\n{{"k":{NUMBERS[2]}}}\n', UNKNOWN_ITEM],
        SPACES,
        [item_lines(NUMBERS[2]), refused(1, "syntax")],
    ),
]

# Name, arguments, the file that standard output is, how standard error has to end, and the exit status. If there is no
# such file, nothing may come on standard output.
FAULTS = [
    ("a file that isn't there", "check /nonexistent", None, READ_FAULT, 4),
    ("a folder for a file", "check /", None, READ_FAULT, 4),
    ("an output that is full", "check", "/dev/full", WRITE_FAULT, 4),
    ("more clients than there may be", run_arguments(clients=9), None, SETTING_FAULT, 64),
    ("no calls", run_arguments(calls=0), None, SETTING_FAULT, 64),
    ("more documents than there may be", run_arguments(docs=1_025), None, SETTING_FAULT, 64),
    ("more copies than there may be", run_arguments(copies=6), None, SETTING_FAULT, 64),
]


class Limits(AnswersTest):
    """Texts at their limits, and failing files."""

    def test_texts(self):
        self.run_subtests(self.check_input, TEXTS)

    def test_places(self):
        """What stands in the place of each @."""
        self.run_subtests(self.check_files, place_rows())

    def check_long(self, versions, count):
        rows, calls = versions(count)
        text = "".join(rows) + index(calls) + conflict(calls)
        wanted = refuted("ruled-out", calls, text.count("\n") - 1, calls)
        self.check_input(text, wanted, "--rule-out")

    def test_long(self):
        """A document of many versions is ruled out, in the time that a run has, by an unconditional index that is
        refused at last."""
        rows = [(f"{versions.__name__}, {count} of them", versions, count) for versions, count in LONG]
        self.run_subtests(self.check_long, rows)

    def check_fault(self, arguments, output, wanted, status):
        with open(output, "wb") if output else tempfile.TemporaryFile() as out:
            words = [self.program, *arguments.split()]
            ran = subprocess.run(words, stdin=subprocess.DEVNULL, stdout=out, stderr=subprocess.PIPE, timeout=60)
            size = 0 if output else os.fstat(out.fileno()).st_size
        why = ran.stderr.decode()
        self.assertEqual((ran.returncode, why[-len(wanted) :], size), (status, wanted, 0))

    def test_faults(self):
        self.run_subtests(self.check_fault, FAULTS)


def place_rows():
    """A name, a command, texts in which something is put in the place of each @, and the answer."""
    for command, texts, puts, lines in PLACES:
        for put, line in zip(puts, lines):
            yield f"{command} with {put[:20]}: {texts}", command, [text.replace("@", put) for text in texts], line


if __name__ == "__main__":
    sys.exit(run_tests())
