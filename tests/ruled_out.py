#!/usr/bin/env python3
"""Draws recordings of an index with faults, and has the built program judge them with --rule-out.

    python3 tests/ruled_out.py [PROGRAM]

PROGRAM is the built casbench; if it isn't named, the one that ./casbench would run. Recordings have one fault each, of
those that a cluster makes; small histories have one or more, and at most nine calls, so that an exact search decides
whether they have an order. If it finds one the program must not refute, and if it finds none the program must not
answer yes, and only seldom no.

The answer has to have the evidence of the four older kinds if a naive body finds it. Of a document that is ruled out the
exact search finds no order of its calls alone, and the call that is named isn't later than the first one up to whose
reply there is none. A witness and a story begin with the same line, and without the option the line is the same, but
`no` for a document that is ruled out.
"""

import copy
import json
import sys
from collections import Counter
from concurrent.futures import ProcessPoolExecutor
from typing import Callable, NamedTuple

import offences
from case_files import all_cases
from drawing import CONFLICT, MISSING, Call, Ending, Op, Reply, pair_taken, performed
from evidence import first_evidence, holds, known_calls
from exact import has_order
from orders import text_of
from program_test import ProgramTest, run_tests
from running import run, said
from texts import OFFENCE, READINGS, status_of

# How many recordings there are, half with each percentage of lost calls, and in how many of them a document is ruled
# out at least, in each reading.
RECORDINGS, LOST, RULED_OUT = 400, (5, 20), 80

# How many small histories there are, how many calls each has at most, and how many of them have no order at least.
SMALL, CALLS, UNORDERED = 3_000, 9, 500

# Of the small histories without an order, how many in a hundred may get no.
MOST_NO = {"plain": 0, "maybe": 1}

# The kinds of evidence that are reported without the option too, and of answers.
OLDER = ("pair-twice", "no-writer", "stale-get", "stale-swap")
KINDS = ("yes", *OLDER, "ruled-out", "no")


class Due(NamedTuple):
    """A fault that the index makes at the first call that can have it, from a call on."""

    since: int
    put: Callable


class Cluster(offences.Clients):
    """Clients of an index that makes faults, and what was recorded of their calls."""

    def __init__(self, seed, docs):
        super().__init__(seed, docs)
        # Of each document what it was before its last change.
        self.before = [None] * docs
        # The faults that are still to be made.
        self.faults = []

    def rightly(self, call):
        """The reply of an index without a fault."""
        was = self.states[call.doc]
        reply = super().answer(call)
        if pair_taken(reply):
            self.before[call.doc] = was
        return reply

    def answer(self, call):
        for due in self.faults:
            reply = due.put(self, call) if due.since <= call.number else None
            if reply:
                self.faults.remove(due)
                return reply
        return self.rightly(call)

    def would_answer(self, call):
        """The reply of an index without a fault; nothing changes."""
        return performed(self.states[call.doc], call.op, (1, self.seq))[0]


# The faults. Each answers a call wrongly, and gives None if the call can't be answered so.


def stale_get(index, call):
    """A get finds what was there before the last change."""
    reply = performed(index.before[call.doc], call.op, None)[0] if call.op.name == "get" else None
    return None if reply == index.would_answer(call) else reply


def lost_update(index, call):
    """A write is answered as performed, and its document stays as it was."""
    was = index.states[call.doc]
    if pair_taken(index.would_answer(call)) is None:
        return None
    reply = index.rightly(call)
    index.states[call.doc] = was
    return reply


def win_as_conflict(index, call):
    """A write is performed, and answered as refused."""
    if pair_taken(index.would_answer(call)) is None:
        return None
    index.rightly(call)
    return CONFLICT


def conflict_as_win(index, call):
    """A write is refused, and answered as performed."""
    if index.would_answer(call) != CONFLICT:
        return None
    index.seq += 1
    pair = 1, index.seq - 1
    if call.op.name == "delete":
        return Reply("deleted", pair, True)
    return Reply("indexed", pair, call.op.name == "create")


def wrong_pair(index, call):
    """The reply has the pair before or after the right one."""
    reply = index.would_answer(call)
    if not reply.pair:
        return None
    seq = reply.pair[1] + (1 if index.draws.below(2) or not reply.pair[1] else -1)
    return index.rightly(call)._replace(pair=(1, seq))


def wrong_flag(index, call):
    """The reply says that a document was there which wasn't, or the other way round."""
    reply = index.would_answer(call)
    if pair_taken(reply) is None or call.op.name == "create":
        return None
    return index.rightly(call)._replace(more=not reply.more)


def pair_twice(index, call):
    """A write takes the pair that the write before it took."""
    if pair_taken(index.would_answer(call)) is None or not index.seq:
        return None
    index.seq -= 1
    return index.rightly(call)


FAULTS = [stale_get, lost_update, win_as_conflict, conflict_as_win, wrong_pair, wrong_flag, pair_twice]


def setting_of(seed):
    """The fault of a recording, and how many percent of its calls are lost."""
    return FAULTS[seed % len(FAULTS)], LOST[seed % len(LOST)]


def recording(seed):
    """The events of a recording of 20 to 160 calls, of one document or four, with one fault."""
    fault, lost = setting_of(seed)
    cluster = Cluster(seed, 1 if seed % 4 < 2 else 4)
    cluster.calls, cluster.lost = cluster.draws.below(141) + 20, lost
    cluster.faults = [Due(cluster.draws.below(cluster.calls * 3 // 4), fault)]
    return cluster.recorded()


def small_history(seed):
    """The events of six to nine calls, of one document or two, with one to three faults; a third of the calls are
    lost."""
    cluster = Cluster(seed, seed % 2 + 1)
    cluster.calls, cluster.lost = CALLS - cluster.draws.below(4), 33
    for _ in range(cluster.draws.below(3) + 1):
        cluster.faults.append(Due(cluster.draws.below(cluster.calls), cluster.draws.one_of(FAULTS)))
    return cluster.recorded()


# How they are answered.


def answer(program, command, text, reading, *options):
    """The first line that a command answers to the text."""
    status, out = said(run(program, [command, "--conflicts", reading, *options], text))
    line = "".join(out.splitlines(keepends=True)[:1])
    if status != status_of(line):
        raise AssertionError(f"{line} with status {status}")
    return line


def kind_of(line):
    """The kind of evidence that the line reports; `no` if it reports none, and `yes`."""
    offence = OFFENCE.fullmatch(line)
    return offence["kind"] or "no" if offence else line.partition(" ")[0]


def evidence_of(line):
    """The kind of evidence that the line reports, with the numbers of its calls; None if it reports none."""
    offence = OFFENCE.fullmatch(line)
    return (offence["kind"], tuple(map(int, offence["calls"].split(",")))) if offence and offence["kind"] else None


def up_to(calls, replied):
    """What was known of the calls at a reply: those that were made before it, and the replies up to it."""
    for call in calls:
        if call.called < replied:
            known = copy.copy(call)
            if call.replied is not None and call.replied > replied:
                known.replied = known.reply = None
            yield known


def known_pairs(calls):
    """The pairs that replies show to be pairs of changes: those that were taken or found, and conditions that were met."""
    for call in calls:
        if call.reply and call.reply.pair:
            yield call.reply.pair
            if pair_taken(call.reply) and call.op.condition:
                yield call.op.condition


def check_ruled_out(calls, number, reading):
    """No order explains the document of the call that is named, in which no write takes a pair that another document is
    known to have. Returns whether the call is later than the first one up to whose reply none does."""
    named = calls[number]
    own = [it for it in calls.values() if it.doc == named.doc]
    elsewhere = set(known_pairs(it for it in calls.values() if it.doc != named.doc))
    if named.reply is None or has_order(own, reading, elsewhere=elsewhere):
        raise AssertionError(f"ruled out at call {number}, and the exact search finds an order of its document")
    earlier = (it.replied for it in own if it.reply and it.replied < named.replied)
    return any(not has_order(list(up_to(own, it)), reading, elsewhere=elsewhere) for it in earlier)


def check_evidence(calls, line, reading):
    """The evidence is that of the four older kinds which a naive body finds, or else a document that is ruled out or
    none. Returns whether a document was ruled out later than it could have been."""
    found, evidence = first_evidence(calls, reading), evidence_of(line)
    if evidence and evidence[0] == "ruled-out" and not found:
        return check_ruled_out(calls, evidence[1][0], reading)
    if evidence != found:
        raise AssertionError(f"{line}, and a naive body finds {found}")
    return False


def without_option(line):
    """The line as it is without the option."""
    return "no " + line[line.index("event=") :] if kind_of(line) == "ruled-out" else line


def line_of(program, text, reading):
    """The line of a check with the option, which agrees with that of a check without it."""
    line, other = (answer(program, "check", text, reading, *options) for options in (["--rule-out"], []))
    if other != without_option(line):
        raise AssertionError(f"{line}, and without the option {other}")
    return line


def judged(program, seed, reading):
    """Judges a recording; returns the kind of its answer."""
    events = recording(seed)
    line, calls = line_of(program, text_of(events), reading), known_calls(events)
    kind, evidence = kind_of(line), evidence_of(line)
    # (the naive bodies take long if there are many calls; tests/evidence.py has them find the older kinds)
    if kind in ("no", "ruled-out") and first_evidence(calls, reading):
        raise AssertionError(f"{line}, and a naive body finds {first_evidence(calls, reading)}")
    if kind in OLDER and not holds(kind, calls, evidence[1], reading):
        raise AssertionError(f"{line}, which doesn't hold")
    return kind


def judged_exactly(program, seed, reading):
    """Judges a small history; returns the kind of its answer, whether it has an order, and whether a document was ruled
    out late."""
    events = small_history(seed)
    text, calls = text_of(events), known_calls(events)
    line, is_explained = line_of(program, text, reading), has_order(list(calls.values()), reading)
    kind = kind_of(line)
    if kind != "no" and (kind == "yes") != is_explained:
        raise AssertionError(f"{line}, and the exact search finds {'an' if is_explained else 'no'} order")
    is_late = False
    if kind != "yes":
        is_late = check_evidence(calls, line, reading)
        others = [answer(program, command, text, reading, "--rule-out") for command in ("witness", "explain")]
        if others != [line, line]:
            raise AssertionError(f"{line}, and a witness and a story begin with {others}")
    return kind, is_explained, is_late


# The cases.

# The results of writes, each with the kind of its reply, and whether it created the document or it was there.
RESULTS = {
    "created": ("indexed", True),
    "updated": ("indexed", False),
    "deleted": ("deleted", True),
    "not_found": ("deleted", False),
}


def reply_of(row):
    """The reply of a line of a case; None if it is a loss."""
    body = row.get("body", {})
    pair = (body["_primary_term"], body["_seq_no"]) if "_seq_no" in body else None
    if "result" in body:
        kind, more = RESULTS[body["result"]]
        return Reply(kind, pair, more)
    if "found" in body:
        return Reply("found", pair, body["_source"]["k"]) if body["found"] else MISSING
    return CONFLICT if "error" in body else None


def events_of(text):
    """The events of a case."""
    docs = {}
    for row in map(json.loads, text.splitlines()):
        if row["e"] == "call":
            condition = (row["if_primary_term"], row["if_seq_no"]) if "if_seq_no" in row else None
            doc = docs.setdefault(row["id"], len(docs))
            yield Call(row["n"], doc, Op(row["op"], row.get("k"), condition))
        else:
            yield Ending(row["n"], reply_of(row))


def check_case(history, reading, line):
    """The exact search and the naive bodies agree with the answer to a case."""
    calls = known_calls(list(events_of(history)))
    if has_order(list(calls.values()), reading) != (kind_of(line) == "yes"):
        raise AssertionError(f"{line}, and the exact search says otherwise")
    check_evidence(calls, line, reading)


def case_rows():
    """The cases that have the option."""
    for name, texts in all_cases().items():
        arguments = texts["args"].decode().split()
        if "--rule-out" in arguments:
            reading = "maybe" if "maybe" in arguments else "plain"
            yield name, texts["history"].decode(), reading, texts["stdout"].decode()


# What came of them.


def row_of(seed):
    fault, lost = setting_of(seed)
    return f"{fault.__name__}, {lost} % lost"


def print_table(reading, rows):
    """Prints how many recordings of each fault, and how many of all, get each kind of answer."""
    counts = Counter(rows) + Counter(("all", kind) for _, kind in rows)
    print(f"{reading:32}" + "".join(f"{kind:>12}" for kind in KINDS))
    for fault in [*sorted({fault for fault, _ in rows}), "all"]:
        print(f"{fault:32}" + "".join(f"{counts[fault, kind]:12}" for kind in KINDS))


class RuledOut(ProgramTest):
    """Drawn recordings and small histories, in each reading of a conflict."""

    def judge_seeds(self, name, judge, count, reading):
        """Judges so many seeds; returns the seeds, each with what is returned of it, but for those that are judged
        wrongly."""
        rows = [(f"{name} {seed}, {reading}", self.program, seed, reading) for seed in range(count)]
        returned = self.run_subtests(judge, rows, ProcessPoolExecutor, chunksize=4)
        return [(seed, it) for seed, it in enumerate(returned) if it]

    def test_cases(self):
        """The cases that have the option are answered as the naive bodies say."""
        self.run_subtests(check_case, case_rows(), ProcessPoolExecutor, chunksize=4)

    def test_recordings(self):
        """Recordings with a fault are answered rightly. Enough of them are ruled out."""
        for reading in READINGS:
            kinds = self.judge_seeds("recording", judged, RECORDINGS, reading)
            print_table(reading, [(row_of(seed), kind) for seed, kind in kinds])
            with self.subTest(f"how many are ruled out, {reading}"):
                self.assertGreaterEqual(sum(kind == "ruled-out" for _, kind in kinds), RULED_OUT)

    def test_small_histories(self):
        """Small histories are answered as the exact search says. Enough of them have no order, and few of these get
        no."""
        for reading in READINGS:
            returned = [it for _, it in self.judge_seeds("small history", judged_exactly, SMALL, reading)]
            kinds = [kind for kind, is_explained, _ in returned if not is_explained]
            counts = ", ".join(f"{kinds.count(kind)} {kind}" for kind in KINDS[1:])
            most = f"which may be {MOST_NO[reading]} in a hundred"
            print(f"{reading}: {len(kinds)} of {SMALL} small histories have no order: {counts}, {most}")
            missed = sum(kind == "no" and is_explained for kind, is_explained, _ in returned)
            late = sum(is_late for _, _, is_late in returned)
            print(f"{reading}: {late} documents are ruled out later than they could be")
            print(f"{reading}: {SMALL - len(kinds)} have an order, of which {missed} get no")
            with self.subTest(f"how many have no order, {reading}"):
                self.assertGreaterEqual(len(kinds), UNORDERED)
            with self.subTest(f"how many of these get no, {reading}"):
                self.assertLessEqual(kinds.count("no") * 100, MOST_NO[reading] * len(kinds))


if __name__ == "__main__":
    sys.exit(run_tests())
