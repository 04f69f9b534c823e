#!/usr/bin/env python3
"""Runs faulty groups in turns, disturbed and not, and counts how many of them are caught.

    python3 tests/disturbed.py [--seeds 1000] [PROGRAM]

PROGRAM is the built casbench; if it isn't named, the one that ./casbench would run. The counts of the seeds from 1 on
are compared with those of examples/README.md if there are 1,000 seeds, else with those below, which are of 20. Drawn
arguments are run twice, and write the same bytes; if the group is honest the history gets `yes`. One client alone
records the same on a thread as in turns. A search through seeds finds the first of them that gets no `yes`, reports how
to play it again, and writes what that writes.
"""

import argparse
import random
import re
import sys
from collections import Counter
from concurrent.futures import ThreadPoolExecutor

from program import TOP, built_program
from program_test import ProgramTest, run_tests
from running import run, run_arguments, search_arguments

FAULTS = ["none", "dirty", "early", "same-term", "stale", "blind"]
DISTURBANCES = ["none", "cuts", "promotions", "storm"]

# Of the seeds 1 to 20 how many are refuted, by fault and disturbance.
FEW = 20
REFUTED = {
    "none": [0, 0, 0, 0],
    "dirty": [6, 3, 7, 15],
    "early": [19, 12, 20, 20],
    "same-term": [0, 0, 0, 0],
    "stale": [19, 18, 20, 20],
    "blind": [20, 20, 20, 20],
}

# Searches: the fault, the disturbance, the first seed and the last.
SEARCHES = [
    ("dirty", "none", 1, 20),
    ("dirty", "storm", 1, 20),
    ("early", "cuts", 5, 9),
    ("same-term", "promotions", 1, 130),
    ("none", "storm", 300, 500),
    ("none", "none", 7, 7),
    ("dirty", "promotions", 2**64 - 20, 2**64 - 1),
]

# The setting of the groups whose seeds are counted and searched.
SETTING = {"clients": 4, "calls": 50, "docs": 2, "copies": 3}

# How many runs are drawn and made twice.
DRAWN = 50

# A row of the table of examples/README.md: a fault, what it does, and for each disturbance how many are refuted.
ROW = re.compile(r"\| `([a-z-]+)` \| [^|]+ \|" + r" (\d+) \|" * len(DISTURBANCES))


def in_turns(disturbance, **setting):
    """The arguments of a run in turns."""
    return run_arguments(**setting).split() + ["--in-turns", "--disturb", disturbance]


def judged(program, arguments):
    """The first word of the answer to the history that the run with these arguments records."""
    status, history, why = run(program, arguments)
    if status or why:
        raise OSError(f"a run ended with status {status}: {why[:200]}")
    return run(program, ["check", "--rule-out"], history)[1].split()[0]


def counts_of_many():
    """How many of 1,000 seeds are refuted, by fault and disturbance: the counts of examples/README.md."""
    rows = ROW.findall((TOP / "examples" / "README.md").read_text())
    return {(fault, it): int(cell) for fault, *cells in rows for it, cell in zip(DISTURBANCES, cells)}


def counts_of_few():
    """How many of the first seeds are refuted, by fault and disturbance."""
    return {(fault, it): REFUTED[fault][at] for fault in FAULTS for at, it in enumerate(DISTURBANCES)}


def drawn(seed):
    """Drawn arguments of a run in turns, and whether its group is honest."""
    draw = random.Random(seed)
    fault = draw.choice(FAULTS + ["none"] * len(FAULTS))
    setting = {"seed": draw.getrandbits(64), "clients": draw.randint(1, 8), "calls": draw.randint(1, 200)}
    setting |= {"docs": draw.randint(1, 8)}
    return in_turns(draw.choice(DISTURBANCES), copies=draw.randint(1, 5), fault=fault, **setting), fault == "none"


def first_caught(program, fault, disturbance, first, last):
    """The first of the seeds whose run gets no `yes`; None if there is none."""
    for seed in range(first, last + 1):
        if judged(program, in_turns(disturbance, seed=seed, fault=fault, **SETTING)) != "yes":
            return seed
    return None


class Disturbed(ProgramTest):
    """Runs in turns."""

    seeds = FEW

    def check_drawn(self, seed):
        arguments, is_honest = drawn(seed)
        first, second = run(self.program, arguments), run(self.program, arguments)
        self.assertEqual(first[0], 0)
        self.assertTrue(first == second)
        if is_honest:
            self.assertEqual(judged(self.program, arguments), "yes")

    def test_drawn(self):
        """A run that is made twice writes the same, and an honest group a history that gets `yes`."""
        self.run_subtests(self.check_drawn, [(f"seed {seed}", seed) for seed in range(DRAWN)])

    def check_one_client(self, fault, seed):
        arguments = run_arguments(seed=seed, calls=20, docs=2, copies=3, fault=fault).split()
        recorded = run(self.program, arguments)
        self.assertEqual((recorded[0], recorded[2]), (0, ""))
        self.assertTrue(recorded == run(self.program, [*arguments, "--in-turns"]))

    def test_one_client(self):
        """One client alone records the same on a thread of its own as in turns."""
        rows = [(f"{fault}, seed {seed}", fault, seed) for fault in FAULTS for seed in range(1, 11)]
        self.run_subtests(self.check_one_client, rows)

    def test_one_call(self):
        """One call is a call line and its reply, which an order explains."""
        status, text, why = run(self.program, run_arguments().split())
        self.assertEqual((status, text.count("\n"), why), (0, 2, ""))
        self.assertEqual(run(self.program, ["check"], text), (0, "yes docs=1 calls=1 left_out=0\n", ""))

    def check_counts(self, pool, fault, disturbance, wanted):
        runs = [in_turns(disturbance, seed=seed, fault=fault, **SETTING) for seed in range(1, self.seeds + 1)]
        counts = Counter(pool.map(lambda it: judged(self.program, it), runs))
        self.assertLessEqual(set(counts), {"refuted", "yes"})
        self.assertEqual(counts["refuted"], wanted)

    def test_counts(self):
        """So many of the seeds are refuted; the others get `yes`."""
        wanted = counts_of_few() if self.seeds == FEW else counts_of_many()
        with ThreadPoolExecutor() as pool:
            kinds = [(fault, disturbance) for fault in FAULTS for disturbance in DISTURBANCES]
            self.run_subtests(self.check_counts, [(", ".join(it), pool, *it, wanted.get(it)) for it in kinds])

    def check_search(self, fault, disturbance, first, last):
        search = search_arguments(seeds=f"{first}-{last}", fault=fault, **SETTING)
        status, text, why = run(self.program, [*search.split(), "--disturb", disturbance])
        lasts = range(first + 99, last + 1, 100)
        hundreds = [f"casbench: {many}00 seeds tried, the last is {it}" for many, it in enumerate(lasts, 1)]
        wanted = first_caught(self.program, fault, disturbance, first, last)
        if wanted is None:
            self.assertEqual((status, text), (1, ""))
            self.assertEqual(why.splitlines(), [*hundreds, f"casbench: of the seeds {first} to {last} each gets yes"])
            return
        arguments = in_turns(disturbance, seed=wanted, fault=fault, **SETTING)
        answer = run(self.program, ["check", "--rule-out"], text)[1].rstrip()
        lines = [f"casbench: seed {wanted}: {answer}", f"casbench: again by: {' '.join(arguments)}"]
        self.assertEqual((status, why.splitlines()), (0, [*hundreds[: (wanted - first) // 100], *lines]))
        self.assertTrue(run(self.program, arguments) == (0, text, ""))

    def test_searches(self):
        """A search through the seeds finds the first of them that is caught, and reports and writes what it should."""
        rows = [(f"{fault}, {it}, {first}-{last}", fault, it, first, last) for fault, it, first, last in SEARCHES]
        self.run_subtests(self.check_search, rows)


def main():
    parser = argparse.ArgumentParser(description=__doc__, formatter_class=argparse.RawDescriptionHelpFormatter)
    parser.add_argument("--seeds", type=int, choices=[FEW, 1000], default=FEW)
    parser.add_argument("program", nargs="*")
    given, others = parser.parse_known_args()
    Disturbed.seeds = given.seeds
    return run_tests([built_program(given.program), *others])


if __name__ == "__main__":
    sys.exit(main())
