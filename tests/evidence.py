#!/usr/bin/env python3
"""Draws histories of two to four documents on two shards, puts a fault into each, and has the built program judge them.

    python3 tests/evidence.py [PROGRAM]

PROGRAM is the built casbench; if it isn't named, the one that ./casbench would run. The program has to report what a
naive body finds, which tries all evidence in its order by the definitions of docs/MODEL.md: exactly this evidence, and
none if there is none. A history without a fault has to get `yes`.
"""

import itertools
import sys
from collections import Counter
from concurrent.futures import ProcessPoolExecutor

from drawing import CONFLICT, MISSING, Call, Draws, Ending, Op, Reply, lines, pair_taken, performed
from program_test import ProgramTest, run_tests
from running import run, said
from texts import OFFENCE, status_of, yes

# How many seeds each kind of fault has, in how many of them a fault is found at least, and how many seeds have no
# fault.
SEEDS, FAULTS, HONEST = 300, 150, 300

# What the judgement of a seed is if the drawn calls can't have the fault.
NO_FAULT = "no fault"

# How many steps the calls of a history take, if there are three clients: each is made, performed and answered. How many
# clients there are of one document if writes are to overtake one another.
STEPS, MANY = 60, 6


def shard_of(doc):
    return 0 if doc < 2 else 1


class Waiting:
    """A call without an ending; it has a reply once it is performed."""

    def __init__(self, call):
        self.call, self.reply = call, None


class Clients:
    """Clients of one to four documents on two shards, and what was recorded of their calls; if no number is named, of
    two at least."""

    def __init__(self, seed, clients=3, docs=None):
        self.draws = Draws(seed)
        self.docs = docs or self.draws.below(3) + 2
        # Of each document what it is, and the pair that was shown last.
        self.states, self.shown = [None] * 4, [None] * 4
        self.waiting = [None] * clients
        self.calls, self.performed, self.events = 0, 0, []

    def operation(self, doc):
        """A drawn operation, with a pair that was shown as its condition, or none. Each writes its own number."""
        condition = self.shown[doc] if self.draws.below(2) else None
        name = self.draws.one_of(["get", "get", "get", "delete", "create", "index", "index", "index"])
        k = None if name in ("get", "delete") else self.calls
        return Op(name, k, condition if name in ("index", "delete") else None)

    def call(self):
        """A client makes a call. The numbers of calls neither rise nor fall."""
        doc = self.draws.below(self.docs)
        call = Call(self.calls * 37 % 101, doc, self.operation(doc))
        self.calls += 1
        self.events.append(call)
        return Waiting(call)

    def perform(self, waiting):
        """A call is performed. Each has the next number of the shards, also if it takes none."""
        doc = waiting.call.doc
        waiting.reply, self.states[doc] = performed(self.states[doc], waiting.call.op, (1, self.performed))
        self.performed += 1

    def end(self, waiting):
        """The ending of a call is recorded: one of eight is lost."""
        is_lost = self.draws.below(8) == 0
        self.events.append(Ending(waiting.call.number, None if is_lost else waiting.reply))
        if not is_lost:
            self.shown[waiting.call.doc] = waiting.reply.pair

    def step(self):
        """A drawn client takes its next step."""
        client = self.draws.below(len(self.waiting))
        waiting = self.waiting[client]
        if waiting is None:
            self.waiting[client] = self.call()
        elif waiting.reply is None:
            self.perform(waiting)
        else:
            self.end(waiting)
            self.waiting[client] = None


class Known:
    """A call of a history by all events: its place, and the place of its reply and the reply, if it has one."""

    def __init__(self, called, call):
        self.called, self.number, self.doc, self.op = called, call.number, call.doc, call.op
        self.replied, self.reply = None, None
        # Of a call without a reply: the place from which on it isn't performed any more, and the number of an answered
        # call before which it is, if there is one.
        self.over, self.ahead_of = float("inf"), None


def known_calls(events):
    """All calls of the events, by their numbers."""
    calls = {}
    for place, event in enumerate(events):
        if isinstance(event, Call):
            calls[event.number] = Known(place, event)
        elif event.reply:
            calls[event.number].replied, calls[event.number].reply = place, event.reply
    return calls


def found_document(call):
    """Whether it is a get that found its document."""
    return call.reply is not None and call.reply.kind == "found"


def is_pair_twice(one, two):
    """Two different writes of one shard were performed with the same pair."""
    pair = pair_taken(one.reply)
    is_one_shard = one.number != two.number and shard_of(one.doc) == shard_of(two.doc)
    return is_one_shard and pair is not None and pair == pair_taken(two.reply)


def may_take(call, pair, reading):
    """What was heard of a write allows that it took the pair."""
    if call.reply is None:
        return True
    is_taken = call.reply.kind == "indexed" and call.reply.pair == pair
    return is_taken or call.reply.kind == "conflict" and reading == "maybe"


def is_without_writer(get, calls, reading):
    """A get found a pair with a number, and no call before its reply may have given its document both."""

    def is_writer(call):
        gives = call.op.name in ("index", "create") and call.doc == get.doc and call.op.k == get.reply.more
        return gives and call.called < get.replied and may_take(call, get.reply.pair, reading)

    return found_document(get) and not any(is_writer(call) for call in calls)


def is_stale_get(get, write):
    """A write of the get's document was answered before the get was called, which found a lesser pair."""
    pair = pair_taken(write.reply)
    is_before = pair is not None and write.doc == get.doc and write.replied < get.called
    return found_document(get) and is_before and get.reply.pair < pair


def is_stale_swap(one, two):
    """Two different writes of one document were performed, the second with a condition below the pair of the first,
    though the first stands before it: it was answered before the second was called, or has the lesser pair."""
    first, second, asked = pair_taken(one.reply), pair_taken(two.reply), two.op.condition
    if one.number == two.number or one.doc != two.doc or first is None or second is None or asked is None:
        return False
    return asked < first and (one.replied < two.called or first < second)


def holds(kind, calls, numbers, reading):
    """Whether evidence of the kind holds of the calls with these numbers."""
    named = [calls[number] for number in numbers]
    if kind == "no-writer":
        return is_without_writer(*named, calls.values(), reading)
    return {"pair-twice": is_pair_twice, "stale-get": is_stale_get, "stale-swap": is_stale_swap}[kind](*named)


def first_evidence(calls, reading):
    """The first evidence that holds, by its kind, then the number of its first call, then of its second; None if none
    does."""
    for kind, count in (("pair-twice", 2), ("no-writer", 1), ("stale-get", 2), ("stale-swap", 2)):
        for numbers in itertools.product(sorted(calls), repeat=count):
            if holds(kind, calls, numbers, reading):
                return kind, numbers
    return None


# Each of these puts a fault into the events, of drawn answered calls: it gives the place and the other event, and the
# evidence of it; or None if these calls can't have it.


def pair_twice(one, two, _):
    """The pair of a write is given to another one of its shard too."""
    pair = pair_taken(one.reply)
    if pair is None or pair_taken(two.reply) is None:
        return None
    if shard_of(one.doc) != shard_of(two.doc) or one.number == two.number:
        return None
    return two.replied, Ending(two.number, two.reply._replace(pair=pair)), ("pair-twice", (one.number, two.number))


def no_writer(get, *_):
    """A get finds a number that nobody wrote."""
    if not found_document(get):
        return None
    return get.replied, Ending(get.number, get.reply._replace(more=1_000_000)), ("no-writer", (get.number,))


def refused_writer(write, get, _):
    """A get finds the number of a write that was answered with a conflict."""
    if not found_document(get) or write.reply != CONFLICT or write.op.k is None:
        return None
    if write.doc != get.doc or get.replied < write.called:
        return None
    return get.replied, Ending(get.number, get.reply._replace(more=write.op.k)), ("no-writer", (get.number,))


def stale_get(earlier, write, get):
    """A get that was called after a write was answered finds what an earlier write gave."""
    old, new = pair_taken(earlier.reply), pair_taken(write.reply)
    if old is None or new is None or earlier.op.k is None or get.op.name != "get":
        return None
    if not earlier.doc == write.doc == get.doc or new <= old or get.called < write.replied:
        return None
    return get.replied, Ending(get.number, Reply("found", old, earlier.op.k)), ("stale-get", (get.number, write.number))


def overtaken_get(slow, fast, get):
    """The same if the replies of two writes came in the other order than their pairs: a get that was called after both
    were answered finds what the one gave that was answered last."""
    old, new = pair_taken(slow.reply), pair_taken(fast.reply)
    if old is None or new is None or slow.op.k is None or get.op.name != "get":
        return None
    if not slow.doc == fast.doc == get.doc or new <= old or not fast.replied < slow.replied < get.called:
        return None
    return get.replied, Ending(get.number, Reply("found", old, slow.op.k)), ("stale-get", (get.number, fast.number))


def stale_swap(earlier, one, two):
    """A write was performed although its condition asks for a pair that is gone."""
    old, gone, new = (pair_taken(it.reply) for it in (earlier, one, two))
    if None in (old, gone, new) or not earlier.doc == one.doc == two.doc or not old < gone < new:
        return None
    if two.op.name not in ("index", "delete"):
        return None
    other = Call(two.number, two.doc, two.op._replace(condition=old))
    return two.called, other, ("stale-swap", (one.number, two.number))


def forgotten(get, *_):
    """A document that was found is missing: there is no kind of evidence of that."""
    return (get.replied, Ending(get.number, MISSING), None) if found_document(get) else None


FAULT_KINDS = [pair_twice, no_writer, refused_writer, stale_get, overtaken_get, stale_swap, forgotten]


def drawn_fault(draws, calls, put):
    """A fault that is put so, if one is found in so many tries."""
    answered = sorted((it for it in calls.values() if it.reply), key=lambda it: it.replied)
    for _ in range(4_000):
        fault = put(*(draws.one_of(answered) for _ in range(3)))
        if fault:
            return fault
    return None


def is_reply(events, place, number):
    """Whether the event at the place is a reply to the call with the number."""
    event = events[place] if place < len(events) else None
    return isinstance(event, Ending) and event.reply is not None and event.number == number


def reports(events, evidence, line):
    """Whether the line reports just this evidence, or none if there is none."""
    offence = OFFENCE.fullmatch(line)
    if offence is None:
        calls = known_calls(events).values()
        wanted = yes(len(calls), left_out="", docs=len({it.doc for it in calls})).rstrip()
        return evidence is None and line.startswith(wanted)
    kind, numbers = evidence or (None, None)
    is_right = offence["kind"] == kind and offence["calls"] == (numbers and ",".join(map(str, numbers)))
    return is_right and is_reply(events, int(offence["event"]), int(offence["call"]))


def judged(program, put, seed):
    """Judges a seed with a fault that is put so, or without one; returns whether the drawn calls could have such a
    fault."""
    clients = Clients(seed, MANY, docs=1) if put is overtaken_get else Clients(seed)
    for _ in range(STEPS * len(clients.waiting) // 3):
        clients.step()
    reading = "maybe" if clients.draws.below(2) else "plain"
    events, mine = clients.events, None
    if put:
        fault = drawn_fault(clients.draws, known_calls(events), put)
        if fault is None:
            return NO_FAULT
        place, event, mine = fault
        events[place] = event
    if put is refused_writer and reading == "maybe":
        # (the conflict may hide the pair that the get found)
        mine = None
    calls = known_calls(events)
    evidence = first_evidence(calls, reading)
    if (evidence is None) != (mine is None) or mine and not holds(mine[0], calls, mine[1], reading):
        raise AssertionError(f"the naive body finds {evidence}, and {mine} was put in")
    status, line = said(run(program, ["check", "--conflicts", reading], "".join(lines(events, shard_of))))
    if status != status_of(line) or not reports(events, evidence, line) or not (put or line.startswith("yes ")):
        raise AssertionError(f"{reading}, {status}: {line}, and the naive body finds {evidence}")
    return "fault"


class Evidence(ProgramTest):
    """Drawn histories, with a fault and without."""

    def test_faults(self):
        """Evidence of a fault is reported. Enough histories have each fault."""
        puts = [put for put in FAULT_KINDS for _ in range(SEEDS)]
        rows = [(f"{put.__name__}, seed {seed}", self.program, put, seed) for seed, put in enumerate(puts)]
        returned = self.run_subtests(judged, rows, ProcessPoolExecutor, chunksize=20, not_counted=(NO_FAULT,))
        faults = Counter(put for put, it in zip(puts, returned) if it != NO_FAULT)
        for put in FAULT_KINDS:
            print(f"{put.__name__}: {faults[put]} faults, of at least {FAULTS}")
            with self.subTest(f"how many have {put.__name__}"):
                self.assertGreaterEqual(faults[put], FAULTS)

    def test_no_fault(self):
        rows = [(f"seed {seed}", self.program, None, seed) for seed in range(HONEST)]
        self.run_subtests(judged, rows, ProcessPoolExecutor, chunksize=20)


if __name__ == "__main__":
    sys.exit(run_tests())
