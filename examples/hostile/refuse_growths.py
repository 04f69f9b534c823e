#!/usr/bin/env python3
"""Refuses each growth in turn: casbench has to answer what it answers with ample memory, or that there is none.

    python3 refuse_growths.py [PROGRAM]

PROGRAM is the built casbench; if it isn't named, the one that the gate builds. The runs below are made with the first
allocation refused, with the second, and so on, until a run asks for no more. It needs a C compiler, cc, and says so if
there is none. Its last line counts the runs that were right with each growth refused.
"""

import os
import shutil
import subprocess
import sys
import tempfile
from concurrent.futures import ThreadPoolExecutor

HERE = os.path.dirname(os.path.realpath(__file__))
PROGRAM = os.path.join(os.path.dirname(os.path.dirname(HERE)), "crates", "casbench", "out", "casbench")

# The arguments of a run, its status and its line.
RUNS = [
    ("check index-then-get.ndjson", 0, "yes docs=1 calls=2 left_out=0\n"),
    ("check lost-write-explains-conflict.ndjson", 0, "yes docs=1 calls=3 left_out=0\n"),
    ("check documents-interleaved.ndjson --workers 2", 0, "yes docs=2 calls=4 left_out=0\n"),
    ("check pair-twice-over-documents.ndjson", 1, "refuted kind=pair-twice calls=0,1 event=3 call=1 before=shown\n"),
    ("explain lost-write-explains-conflict.ndjson", 0, None),
    ("explain pair-twice-over-documents.ndjson", 1, None),
    ("verify verify-good-order.ndjson verify-good-order.witness", 0, "verified docs=1 calls=4 left_out=0\n"),
    ("witness verify-good-order.ndjson", 0, None),
    ("bulk bulk.body bulk.reply", 0, None),
    ("run --seed 1 --clients 1 --calls 20 --docs 2 --copies 3 --fault none", 0, None),
]

# What the program says if it is out of memory.
NO_MEMORY = (3, b"", b"casbench: no memory\n")


class Refusing:
    """Runs programs with one allocation refused."""

    def __init__(self, folder):
        self.folder = folder
        self.library = os.path.join(folder, "refuse_growth.so")
        source = os.path.join(HERE, "refuse_growth.c")
        subprocess.run(["cc", "-O2", "-shared", "-fPIC", "-o", self.library, source], check=True)

    def run(self, words, number):
        """Runs the words; returns the status, both outputs, and whether an allocation of that number was asked for."""
        report = os.path.join(self.folder, f"report-{os.getpid()}-{id(words)}-{number}")
        environment = {**os.environ, "LD_PRELOAD": self.library, "REFUSE": str(number), "REPORT": report}
        ran = subprocess.run(words, env=environment, cwd=HERE, capture_output=True, timeout=60)
        was_refused = os.path.exists(report)
        if was_refused:
            os.remove(report)
        return (ran.returncode, ran.stdout, ran.stderr), was_refused


def each_refused(refusing, words, is_right):
    """How many growths of a run were refused, each in a run of its own; the first answer that is not right, if one is."""
    number = 0
    while True:
        number += 1
        answer, was_refused = refusing.run(words, number)
        if not is_right(answer):
            return number, answer
        if not was_refused:
            return number - 1, None


def tried_run(refusing, program, words, status, line):
    """Tries a run of the program."""
    words = [program, *words.split()]
    ample, _ = refusing.run(words, 0)
    if ample[0] != status or line is not None and ample[1].decode() != line:
        return 0, ample
    return each_refused(refusing, words, lambda answer: answer in (ample, NO_MEMORY))


def main():
    if not shutil.which("cc"):
        print("there is no C compiler here, cc, so no growth was refused")
        print("0 passed, 0 failed")
        return 0
    program = os.path.abspath(sys.argv[1]) if len(sys.argv) > 1 else PROGRAM
    with tempfile.TemporaryDirectory() as folder, ThreadPoolExecutor(os.cpu_count()) as pool:
        refusing = Refusing(folder)
        tried = [(words, pool.submit(tried_run, refusing, program, words, status, line)) for words, status, line in RUNS]
        wrong = 0
        for what, result in tried:
            count, answer = result.result()
            print(f"{count} growths refused: {what}")
            if answer is not None:
                wrong += 1
                print(f"  WRONG at growth {count}: {answer}")
        print(f"{sum(result.result()[0] for _, result in tried)} growths refused")
        print(f"{len(tried) - wrong} passed, {wrong} failed")
    return 1 if wrong else 0


if __name__ == "__main__":
    sys.exit(main())
