#!/usr/bin/env python3
"""Records a load through the proxy in parts, under each fault of the stand-in, and compares what is said of the parts
with the table of docs/RECORDING.md.

    python3 tests/recorded_without_end.py [PROGRAM] [CALLS] [PART]

PROGRAM is the built casbench; if it isn't named, the one that ./casbench would run. CALLS is how many calls the load
makes (1,600), and PART how many a part has (150). A fault that breaks the promise has to show in a part, by the
evidence that the table names; under any other each part has to get `yes`.
"""

import os
import pathlib
import re
import subprocess
import sys
import tempfile
from collections import Counter

from program import TOP
from program_test import ProgramTest, run_tests
from recordings import Started, environment, judged

# How many calls the load makes, and how many a part has, if they aren't named; how many clients there are, and how many
# loads at once.
CALLS, PART, CLIENTS, AT_ONCE = 1_600, 150, 8, 3

# More options of the stand-in and of the load: an answer that is late comes after the load has given the call up.
OPTIONS = {"late": (("--late", "0.8", "--every", "100"), ("--timeout", "0.5"))}


def table():
    """The faults of the stand-in, each with the answer that docs/RECORDING.md names: `yes`, or `refuted` and the kind
    of its evidence."""
    page = (TOP / "docs" / "RECORDING.md").read_text(encoding="utf-8")
    section = page[page.index("## What the stand-in can do wrong") :]
    return re.findall(r"^\| `(.*)` \| .* \| `(yes|refuted kind=[\w-]+)`", section, re.MULTILINE)


def faults():
    """The names of the faults: a row may have two."""
    for names, answer in table():
        yield from ((name, answer) for name in names.split("`, `"))


def load(store, proxy, calls, folder, options):
    """Makes the load, through the proxy."""
    command = [sys.executable, "-m", "casbench_recording.record", proxy.url, "carts", os.path.join(folder, "itself.ndjson")]
    command += ["--clients", str(CLIENTS), "--calls", str(calls // CLIENTS), *options]
    ran = subprocess.run(command, capture_output=True, text=True, env=environment())
    if ran.returncode:
        raise AssertionError(ran.stderr)


def recorded(program, folder, fault, conflicts, calls, part):
    """Records a load in parts; returns what the program says of each."""
    of_store, of_load = OPTIONS.get(fault, ((), ()))
    out = pathlib.Path(folder) / "parts"
    with Started("stand_in", "--port", "0", "--fault", fault, *of_store) as store:
        arguments = ["--listen", "127.0.0.1:0", "--cluster", store.url, "--index", "carts", "--part", str(part)]
        with Started("proxy", *arguments, "--conflicts", conflicts, str(out)) as proxy:
            load(store, proxy, calls, folder, of_load)
            printed = proxy.ended()
    judged_all = rf"judged: 8 documents, {calls} calls; not judged: 0 documents, 0 calls"
    if not re.fullmatch(rf"recorded {calls} calls in {out}, \d+ of them without a reply\n{judged_all}", printed):
        raise AssertionError(printed)
    parts = sorted(out.iterdir())
    if len(parts) < calls // part // 2 or any(it.suffix != ".ndjson" for it in parts):
        raise AssertionError(f"the parts are {[it.name for it in parts]}")
    return [judged(program, it, "--rule-out", "--conflicts", conflicts) for it in parts]


class Faults(ProgramTest):
    """Recordings in parts, under each fault."""

    calls, part = CALLS, PART

    def check_fault(self, fault, conflicts, wanted):
        with tempfile.TemporaryDirectory(prefix="casbench-recorded-") as folder:
            answers = recorded(self.program, folder, fault, conflicts, self.calls, self.part)
        kinds = Counter(" ".join(it.split(" ")[: 2 if it.startswith("refuted") else 1]) for it in answers)
        counts = ", ".join(f"{count} {kind}" for kind, count in sorted(kinds.items()))
        print(f"{fault}, {conflicts}: {counts}", flush=True)
        if wanted == "yes":
            self.assertEqual(set(kinds), {"yes"})
        else:
            self.assertGreater(kinds[wanted], 0)

    def test_faults(self):
        """The parts of a recording get the answers of the table, which has nine faults."""
        rows = [(f"{fault}, plain", fault, "plain", wanted) for fault, wanted in faults()]
        rows.append(("false-conflict, maybe", "false-conflict", "maybe", "yes"))
        self.assertEqual(len(rows), 10)
        self.run_subtests(self.check_fault, rows, workers=AT_ONCE)


if __name__ == "__main__":
    if len(sys.argv) > 3 and not sys.argv[2].startswith("-"):
        Faults.calls, Faults.part = int(sys.argv.pop(2)), int(sys.argv.pop(2))
    sys.exit(run_tests())
