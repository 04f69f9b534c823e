#!/usr/bin/env python3
"""Measures how long it takes to cut a false alarm down with its witness. It tests nothing.

    python3 tests/measure_shrinking.py [PROGRAM] [CALLS]

PROGRAM is the built casbench; if it isn't named, the one that ./casbench would run. An honest recording of CALLS calls is drawn
(524,288), with eight clients, 16 documents and 5 % of the calls lost. The program is made to say no of it as long as some calls of one document
are in it, beside all that it does else: six that are near each other, and one more that is far before them. A line is printed for each, with
how many calls are left, after how many checks, and how many seconds of a processor that took, and the program of these.
"""

import resource
import sys

from honest import Recording
from program import built_program
from shrinking import Honest  # (and so the package is found)

from casbench_recording.history.witness import StoreLog, witness_by_log
from casbench_recording.history.witness_checker import Texts
from casbench_recording.shrink import Program, Shrinker

CALLS, DOCUMENTS = 524_288, 16


class Alarmed(Program):
    """A program that finds no order of a history as long as all of these calls are in it. It looks for one all the same."""

    calls = ()

    def answer(self, text):
        answer = super().answer(text)
        is_there = all(b'{"e":"call","n":%d,' % it in text for it in self.calls)
        return f"no event=0 call={self.calls[-1]} before=shown\n" if is_there else answer


def drawn(calls):
    """The text of an honest recording, and its witness by the index's own log."""
    recording = Recording(7, docs=DOCUMENTS, clients=8, calls=calls, loss=0.05)
    recording.index = Honest(recording.draw, DOCUMENTS, 0.0, 1)
    text = "".join(recording.lines()).encode()
    return text, "".join(witness_by_log(text, StoreLog(recording.index.changes, recording.index.seen))).encode()


def seconds_of(who):
    """How many seconds of a processor this process took, or those that it ran."""
    used = resource.getrusage(who)
    return used.ru_utime + used.ru_stime


def measure(program, text, witness, calls):
    """Cuts the text down, of which these calls are needed, and prints what that took."""
    asked = Alarmed(program)
    asked.calls = calls
    before = [seconds_of(it) for it in (resource.RUSAGE_SELF, resource.RUSAGE_CHILDREN)]
    shrinker = Shrinker(text.splitlines(keepends=True), asked, witness)
    shrinker.shrink()
    own, its = (seconds_of(it) - since for it, since in zip((resource.RUSAGE_SELF, resource.RUSAGE_CHILDREN), before))
    left = shrinker.recorded.text_of(shrinker.kept)
    word = asked.verified(left, shrinker.recorded.witness_of(shrinker.kept)).split()[0]
    counts = f"{shrinker.before} calls, {len(shrinker.kept)} of them left ({word}), after {asked.runs} runs of the program"
    print(f"{len(calls)} calls needed, the first {calls[-1] - calls[0]} before the last: {counts}, {own + its:.1f} s, {its:.1f} of these the program's")


def main():
    words = sys.argv[1:]
    count = int(words.pop()) if words and words[-1].isdigit() else CALLS
    program = built_program(words)
    text, witness = drawn(count)
    answered = [it.number for it in Texts(text, b"").calls.values() if it.id == "d3" and it.answered is not None]
    at = len(answered) * 9 // 10
    near = answered[at : at + 60 : 10]
    for calls in (near, [answered[len(answered) // 10], *near]):
        measure(program, text, witness, calls)


if __name__ == "__main__":
    sys.exit(main())
