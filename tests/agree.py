#!/usr/bin/env python3
"""Runs several commands of the built program on one history, and checks that their answers agree.

    python3 tests/agree.py [PROGRAM]

PROGRAM is the built casbench; if it isn't named, the one that ./casbench would run. The histories are those of the text
cases, drawn ones of two to four documents, such with some bytes changed, and runs of a group without a fault. A witness
that is written is verified, with the counts of the check; if a check says no, a witness says the same; and if one
command refuses a line, all of them do, and that is the first line that can't stay.
"""

import re
import sys
from collections import Counter

from case_files import all_cases
from drawing import MISSING, Call, Draws, Ending, Op, lines, pair_taken, performed
from program_test import ProgramTest, run_tests
from running import asked, text_of_run
from texts import READINGS, yes

# How many histories are drawn, and how many steps the calls of each take: each call is made, performed and answered.
DRAWN, STEPS = 300, 40
# How many of them have to be explained at least, and how many must not be.
LEAST_YES, LEAST_NO = 100, 20

# How many texts are changed, how many changes each has at most, and how few and how many of them have to be refused.
TEXTS, CHANGES, LEAST_REFUSED, MOST_REFUSED = 500, 6, 100, 450

# What is put into a text.
PIECES = [
    b"0",
    b"-1",
    b"1.5",
    b"1e3",
    b"9223372036854775808",
    b"18446744073709551616",
    b"\\",
    b"\\u0061",
    b"\\ud800",
    b'"',
    b"{",
    b"}",
    b"\n",
    b"\xff",
    b"\xed\xa0\x80",
    b"\x00",
]

# The seeds of runs, and the copies of their groups.
SEEDS, COPIES = range(1, 101), (1, 3)


class Group:
    """Clients of two to four documents on one shard or two, and what was recorded of their calls."""

    def __init__(self, seed):
        self.draw = Draws(seed)
        self.docs = self.draw.below(3) + 2
        self.has_two_shards = self.draw.below(2) == 1
        self.forgets = self.draw.below(3) == 0
        # The number of the next write on each shard.
        self.next = [0, 0]
        self.clients = [None] * 3
        # Of each document what it is, and the pair that was shown last.
        self.states, self.shown = [None] * 4, [None] * 4
        self.calls, self.events = 0, []

    def shard_of(self, doc):
        return int(self.has_two_shards and doc >= 2)

    def call(self):
        """A client makes a call, with what was shown as its condition, or none."""
        doc = self.draw.below(self.docs)
        condition = None if self.draw.below(2) == 0 else self.shown[doc]
        name = self.draw.one_of(["get", "get", "get", "delete", "create", "index", "index", "index"])
        k = self.calls if name in ("index", "create") else None
        op = Op(name, k, condition if name in ("index", "delete") else None)
        self.events.append(Call(self.calls, doc, op))
        self.calls += 1
        return self.events[-1], None

    def perform(self, call, _):
        """A call is performed."""
        shard = self.shard_of(call.doc)
        reply, self.states[call.doc] = performed(self.states[call.doc], call.op, (1, self.next[shard]))
        self.next[shard] += pair_taken(reply) is not None
        return call, reply

    def end(self, call, reply):
        """The ending of a call is recorded. A group that forgets may answer that a document which was found is
        missing."""
        if self.draw.below(6) == 0:
            self.events.append(Ending(call.number, None))
            return
        if reply.kind == "found" and self.forgets and self.draw.below(2) == 0:
            reply = MISSING
        self.events.append(Ending(call.number, reply))
        self.shown[call.doc] = reply.pair

    def step(self):
        """A drawn client takes its next step."""
        at = self.draw.below(3)
        waiting = self.clients[at]
        if waiting is None:
            self.clients[at] = self.call()
        elif waiting[-1] is None:
            self.clients[at] = self.perform(*waiting)
        else:
            self.end(*waiting)
            self.clients[at] = None


def drawn(seed):
    """The text of a drawn history."""
    group = Group(seed)
    for _ in range(STEPS):
        group.step()
    return "".join(lines(group.events, group.shard_of)).encode()


def changed(draw, text):
    """The text after one change: bytes cut out, doubled, put in, or a digit that is another one."""
    at = draw.below(len(text) + 1)
    end = min(len(text), at + draw.below(9))
    span, kind = text[at:end], draw.below(5)
    if kind == 0:
        span = b""
    elif kind == 1:
        span += span
    elif kind == 2:
        span = PIECES[draw.below(len(PIECES))] + span
    else:
        others = [b"%d" % draw.below(10) for _ in span]
        span = b"".join(other if b"0" <= span[i : i + 1] <= b"9" else span[i : i + 1] for i, other in enumerate(others))
    return text[:at] + span + text[end:]


def changed_text(seed):
    """A drawn text with one to six changes."""
    draw, text = Draws(seed + 1_000), drawn(seed)
    for _ in range(draw.below(CHANGES) + 1):
        text = changed(draw, text)
    return text


def agreed(program, text, conflicts):
    """The first word of a check's answer, with which the other commands agree."""
    checked = status, line = asked(program, "check", text, conflicts=conflicts)
    witnessed = asked(program, "witness", text, conflicts=conflicts)
    if status == 0:
        verified = asked(program, "verify", text, witnessed[1], conflicts=conflicts)
        is_right = witnessed[0] == 0 and verified == (0, line.replace("yes ", "verified ", 1))
    elif status == 2:
        verified = asked(program, "verify", text, "", conflicts=conflicts)
        is_right = witnessed == checked and verified == (2, line.replace("refused ", "refused file=history ", 1))
    else:
        verified, is_right = None, witnessed == checked
    if not is_right:
        raise AssertionError(f"{checked}, {witnessed} and {verified}")
    return line.split()[0]


def refused_first(program, text):
    """`refused` if a line is, which is the first that can't stay; else `accepted`."""
    word = agreed(program, text, "plain")
    if word != "refused":
        return "accepted"
    refusal = asked(program, "check", text)
    number = int(re.fullmatch(r"refused line=(\d+) cause=[a-z-]+\n", refusal[1])[1])
    rows = text.split(b"\n")
    before, through = (asked(program, "check", b"\n".join(rows[:count])) for count in (number - 1, number))
    if before[0] == 2 or through != refusal:
        raise AssertionError(f"{refusal}, before it {before}, and alone {through}")
    return word


def judged_run(program, seed, copies):
    """The first word of the answer to a run of two clients, which keep each other company on two documents."""
    return agreed(program, text_of_run(program, seed=seed, clients=2, calls=20, docs=2, copies=copies), "plain")


def print_counts(kind, words):
    """Prints how many texts of this kind got each word; returns the counts."""
    counts = Counter(filter(None, words))
    print(f"{kind}: " + ", ".join(f"{count} {word}" for word, count in sorted(counts.items())))
    return counts


class Agreeing(ProgramTest):
    """Commands that agree on histories."""

    def test_cases(self):
        histories = {name: texts["history"] for name, texts in all_cases().items() if "history" in texts}
        rows = [(f"{name}, {it}", self.program, history, it) for name, history in histories.items() for it in READINGS]
        print_counts("cases", self.run_subtests(agreed, rows))

    def test_drawn(self):
        """Drawn histories: enough are explained, and enough are not. Their faults are gets that answer missing, of
        which there is no evidence."""
        rows = [(f"seed {seed}", self.program, drawn(seed), READINGS[seed % 2]) for seed in range(DRAWN)]
        counts = print_counts("drawn", self.run_subtests(agreed, rows))
        with self.subTest("how many are explained"):
            self.assertGreaterEqual(counts["yes"], LEAST_YES)
            self.assertGreaterEqual(counts["no"], LEAST_NO)
        with self.subTest("how many are refuted or refused"):
            self.assertEqual((counts["refuted"], counts["refused"]), (0, 0))

    def test_changed(self):
        """Changed texts: enough are refused, and not too many."""
        rows = [(f"seed {seed}", self.program, changed_text(seed)) for seed in range(TEXTS)]
        counts = print_counts("changed", self.run_subtests(refused_first, rows))
        with self.subTest("how many are refused"):
            self.assertIn(counts["refused"], range(LEAST_REFUSED, MOST_REFUSED + 1))

    def test_runs(self):
        """Runs without a fault, each of which is explained."""
        rows = [(f"seed {seed}, {copies} copies", self.program, seed, copies) for copies in COPIES for seed in SEEDS]
        counts = print_counts("runs", self.run_subtests(judged_run, rows))
        with self.subTest("how many are explained"):
            self.assertEqual(set(counts), {"yes"})

    def test_run_of_one_call(self):
        """A run of one call is a call and its ending, and is explained."""
        text = text_of_run(self.program)
        self.assertEqual(text.count("\n"), 2)
        self.assertTrue(text.startswith('{"e":"call","id":"d0",'))
        self.assertEqual(asked(self.program, "check", text), (0, yes(1)))


if __name__ == "__main__":
    sys.exit(run_tests())
