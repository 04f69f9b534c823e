#!/usr/bin/env python3
"""Measures what a check under the profile of OpenSearch costs beside a strict check of the same text. It tests nothing.

    python3 tests/measure_profile.py [PROGRAM] [EVENTS]

PROGRAM is the built casbench; if it isn't named, the one that ./casbench would run. Honest recordings are drawn of eight
clients and 16 documents, without lost calls and with 5 % of them. Half of the calls are gets, and a third of the writes
have no condition. Such a write takes room for three events under the profile, so that 1,048,576 events don't fit: a text
has as many of its first lines as do, or as EVENTS. Both checks take turns. A line is printed for each text: the medians
of five, in seconds of a processor, and how many times the first the second one is.
"""

import resource
import statistics
import subprocess
import sys
import tempfile
from pathlib import Path

import honest
from program import built_program
from readings import OPENSEARCH, first_without_room, history_of
from texts import EVENTS

DOCUMENTS, CLIENTS, LOSSES, RUNS = 16, 8, (0.0, 0.05), 5

# The options of a check, by how it is named.
CHECKS = {"strict": [], "opensearch": ["--profile", "opensearch"]}

# Which part of the calls are gets, of the writes have no condition, and are deletes.
GETS, UNCONDITIONAL, DELETES = 0.5, 1 / 3, 0.1


class Recording(honest.Recording):
    """Clients whose writes have the last pair that they heard of as their condition, or none."""

    def operation(self, client, doc):
        chance, pair = self.draw.random, self.known[client][doc]
        is_unconditional = chance() < UNCONDITIONAL
        if chance() < GETS or pair is None and not is_unconditional:
            return "get", None, None
        condition = None if is_unconditional else pair
        return ("delete", None, condition) if chance() < DELETES else ("index", self.begun + 1, condition)


def drawn(loss, events):
    """The lines of a recording: so many of the first ones, or as many as there is room for under the profile."""
    recording = Recording(1, docs=DOCUMENTS, clients=CLIENTS, calls=events // 2, loss=loss)
    lines = list(recording.lines())
    lines = [it for it in lines if it][:events]
    return lines[: first_without_room(OPENSEARCH, history_of("".join(lines)))]


def seconds_of(program, path, options):
    """The answer to a text, and how many seconds of a processor that took."""
    before = resource.getrusage(resource.RUSAGE_CHILDREN)
    answer = subprocess.run([program, "check", *options, path], capture_output=True, text=True, check=False).stdout
    after = resource.getrusage(resource.RUSAGE_CHILDREN)
    if not answer.startswith("yes "):
        sys.exit(f"{options}: {answer}")
    return after.ru_utime + after.ru_stime - before.ru_utime - before.ru_stime


def measure(program, path):
    """The median of each check."""
    times = {name: [] for name in CHECKS}
    for _ in range(RUNS):
        for name, options in CHECKS.items():
            times[name].append(seconds_of(program, path, options))
    return {name: statistics.median(its) for name, its in times.items()}


def main():
    words = sys.argv[1:]
    events = int(words.pop()) if words and words[-1].isdigit() else EVENTS
    program = built_program(words)
    with tempfile.TemporaryDirectory() as folder:
        for loss in LOSSES:
            lines, path = drawn(loss, events), Path(folder, "text.ndjson")
            path.write_text("".join(lines), encoding="utf-8")
            medians = measure(program, path)
            shown = ", ".join(f"{name} {seconds:.2f} s" for name, seconds in medians.items())
            ratio = medians["opensearch"] / medians["strict"]
            print(f"{len(lines):,} events, {loss:.0%} of the calls lost: {shown}, {ratio:.2f} times", flush=True)


if __name__ == "__main__":
    sys.exit(main())
