#!/usr/bin/env python3
"""Checks the orders that the built program finds: of cases, of the drawn calls of one document, and of honest
recordings.

    python3 tests/orders.py [PROGRAM]

PROGRAM is the built casbench; if it isn't named, the one that ./casbench would run. Of cases the places of an order are
wanted, or the answer to places that are verified against a history, or the answer to histories with and without
evidence.

Drawn calls are judged by two naive bodies. One tries the answered calls in all orders; if it finds one, the program has
to, and gives no pair. The other follows the rules for lost writes word by word (docs/ARCHITECTURE.md, the search for
one document); if what they lead to is valid, the program has to find just that, place by place and pair by pair. If it
isn't, the program may find another order, which gives pairs, or none. Last, one document is taken out of each of many
honest recordings, whose other documents took numbers between: it should have an order. Each order that is found is
verified.
"""

import re
import sys
from collections import Counter
from concurrent.futures import ProcessPoolExecutor
from typing import NamedTuple

from case_files import case_text
from drawing import CONFLICT, MISSING, NAMES, Call, Draws, Ending, Op, Reply, lines, pair_taken, performed
from evidence import Known, known_calls, shard_of
from honest import Recording
from program_test import ProgramTest, run_tests
from running import asked
from texts import READINGS, broken, no, no_writer, pair_of, places_of, refuted, status_of, verified, witness_of

# A case, how a conflict is read, and the places of the order: a record each, with the pair that is given to it. What
# stands in tests/cases with its witness is left out.
ORDERS = [
    ("overlapping-gets", "maybe", "0 3 1 2"),
    ("overlapping-gets-and-lost-delete", "plain", "0 3 1 2"),
    ("overlapping-gets-and-lost-delete", "maybe", "0 3 1 2"),
    ("overlapping-conflict", "maybe", "0 1 2"),
    ("term-before-sequence", "plain", "0 1"),
    ("term-before-sequence", "maybe", "0 1"),
    ("create", "plain", "0 1 2 3"),
    ("create", "maybe", "0 1 2 3"),
    ("status-503-is-unknown", "plain", "0=1/0 1"),
]

# A case, a document with places that are verified against it, and the answer.
VERIFIED = [
    ("index-then-get", "d", "0 1", verified(2)),
    ("index-then-get", "d", "1 0", broken("illegal place=0")),
    ("index-then-get", "d", "0", broken("absent rec=1")),
    ("index-then-get", "x", "0 1", broken("doc-stranger")),
]

# A history without an order, and the answer to it in both readings of a conflict. The documents c and d are on the
# second shard.
UNORDERED = [
    # A pair is taken twice, by calls whose numbers fall; a get finds what nobody wrote.
    (
        "9 index a 1, 9 created 1/0, 8 index b 2, 8 created 1/0, 7 index a 3, 7 updated 1/1, 1 get a, 1 found 1/1 7",
        refuted("pair-twice", "8,9", 3, 8),
    ),
    # The same without the pair that is taken twice.
    (
        "9 index a 1, 9 created 1/0, 7 index a 3, 7 updated 1/1, 1 get a, 1 found 1/1 7",
        no_writer(5, 1),
    ),
    # What follows is no evidence, and has an order; a get that misses its document has none. One pair, on two shards.
    ("0 index a 1, 0 created 1/0, 1 index c 2, 1 created 1/0, 2 get a, 2 missing", no(5, 2)),
    # A get is called before a write is answered, and finds what was there before.
    (
        "0 index a 1, 0 created 1/0, 1 index a 2, 2 get a, 1 updated 1/1, 2 found 1/0 1, 3 get a, 3 missing",
        no(7, 3),
    ),
    # A get finds the number of a write that was lost.
    ("2 create b 2, 2 lost, 3 get b, 3 found 1/1 2, 4 get b, 4 missing", no(5, 4)),
]

# The seeds of the drawn calls, in each reading of a conflict; the last ones reach rules that those before them don't.
SEEDS = [*range(200), 359, 414, 493, 750, 1358, 1549]

# How many drawn histories have an order of the answered calls alone, one by the rules, another one, and none: at least
# so many.
LEAST = {"answered": 100, "rules": 380, "another": 180, "none": 20}

# How many recordings there are in each reading, and how many of them may get no order.
RECORDINGS = 200
MOST = {"plain no": 0, "maybe no": 0}


# Histories in words.


def event_of(words):
    """The event: `0 index a 1` is the call 0, an index of the document a with the number 1; `0 created 1/0` is its
    reply."""
    number, word, *rest = words.split()
    if word in ("get", "index", "create"):
        doc, *k = rest
        return Call(int(number), NAMES.index(doc), Op(word, *map(int, k)))
    replies = {
        "created": lambda pair: Reply("indexed", pair_of(pair), True),
        "updated": lambda pair: Reply("indexed", pair_of(pair), False),
        "found": lambda pair, k: Reply("found", pair_of(pair), int(k)),
        "missing": lambda: MISSING,
        "lost": lambda: None,
    }
    return Ending(int(number), replies[word](*rest))


def text_of(events):
    return "".join(lines(events, shard_of))


# The naive bodies. Their records are the calls of evidence.Known, whose numbers are their places.


def has_order(left, state=None, last=(0, 0), failed=None):
    """Whether the answered calls that are left have an order, if the document is so and had this pair last."""
    failed = set() if failed is None else failed
    if not left:
        return True
    key = frozenset(it.number for it in left), state, last
    if key not in failed:
        failed.add(key)
        first_reply = min(it.replied for it in left)
        for call in left:
            reply, after = performed(state, call.op, call.reply.pair)
            taken = pair_taken(reply)
            if call.called < first_reply and reply == call.reply and (taken is None or last < taken):
                if has_order([it for it in left if it is not call], after, taken or last, failed):
                    return True
    return False


class Stuck(Exception):
    """The rules find no write to take."""


class Link(NamedTuple):
    """A write of the chain, and its pair; None if that is yet to be invented."""

    pair: tuple
    write: Known


DELETES, WRITES = {"delete"}, {"index", "create"}


def needs(write):
    """Whether the document has to be there before the write, or has not to be; None if either will do."""
    if write.reply and write.reply.kind in ("indexed", "deleted"):
        return write.reply.more == (write.reply.kind == "deleted")
    if write.op.name == "create":
        return False
    return True if write.op.condition else None


def is_unrefused(call):
    """A conflict that no document refuses: it has no condition, and is no create."""
    return call.reply == CONFLICT and call.op.condition is None and call.op.name != "create"


def by_reply(calls):
    return sorted(calls, key=lambda it: it.replied)


class Rules:
    """The rules for lost writes, straight from what they say: after each write that comes into the chain all begins
    again, but for conflicts that no document refuses. The stretch 0 lies before the first write of the chain, and the
    stretch j after the j-th."""

    def __init__(self, records, reading):
        self.records, self.is_maybe = records, reading == "maybe"
        self.chain, self.given = [], {}
        pairs = [it.op.condition for it in records] + [it.reply.pair for it in records if it.reply]
        # The greatest term and the greatest number that are seen.
        self.seen = tuple(max((it[at] for it in pairs if it), default=0) for at in (0, 1))

    def order(self):
        """The places of the order to which the rules lead; None if they lead to none."""
        try:
            self.name_writes()
            while self.takes_more():
                pass
            return self.places()
        except Stuck:
            return None

    def outside(self):
        """The records that are not in the chain."""
        inside = {it.write.number for it in self.chain}
        return [it for it in self.records if it.number not in inside]

    def stretch_of(self, pair):
        """The stretch that begins with the write of the pair."""
        return next((at for at, it in enumerate(self.chain, 1) if it.pair == pair), None)

    # The pairs that are named.

    def next_named(self):
        """The least pair that a get found, with its number, and that no write of the chain has; else the least one that
        a condition of the chain names."""
        shown = [(it.reply.pair, it.reply.more) for it in self.records if it.reply and it.reply.kind == "found"]
        named = [(it.write.op.condition, None) for it in self.chain if it.write.op.condition]
        for pairs in (shown, named):
            missing = [it for it in pairs if self.stretch_of(it[0]) is None]
            if missing:
                return min(missing, key=lambda it: it[0])
        return None

    def writer(self, k):
        """The first lost index, of the number if there is one; under maybe else a refused one of the number."""
        outside = self.outside()
        able = [it for it in outside if it.op.name in WRITES and it.op.k == k or it.op.name == "index" and k is None]
        lost = [it for it in able if it.reply is None]
        refused = [it for it in able if it.reply == CONFLICT and self.is_maybe and k is not None]
        return next(iter(lost + refused), None)

    def name_writes(self):
        """The chain of the answered writes, with a write for each pair that is named."""
        self.chain = [Link(pair_taken(it.reply), it) for it in self.records if pair_taken(it.reply)]
        if len({it.pair for it in self.chain}) < len(self.chain):
            raise Stuck
        while True:
            named = self.next_named()
            if named is None:
                break
            write = self.writer(named[1])
            if write is None:
                raise Stuck
            self.chain.append(Link(named[0], write))
        self.chain.sort(key=lambda it: it.pair)

    # What the document is in a stretch, and what may be inserted there.

    def is_live(self, stretch):
        return stretch > 0 and self.chain[stretch - 1].write.op.name in WRITES

    def live_pair(self, stretch):
        return self.chain[stretch - 1].pair if self.is_live(stretch) else None

    def next_needs(self, stretch):
        """What the write at the end of the stretch needs the document to be."""
        return needs(self.chain[stretch].write) if stretch < len(self.chain) else None

    def limit(self, stretch):
        """The place before which a write has to be called to stand in the stretch: the least reply of the later
        writes."""
        return min((it.write.replied for it in self.chain[stretch:] if it.write.reply), default=float("inf"))

    def would_be_performed(self, op, stretch):
        if op.name == "create":
            return not self.is_live(stretch)
        return op.condition in (None, self.live_pair(stretch))

    def candidate(self, stretch, kinds, limit=float("inf")):
        """The first lost write by call of these kinds that would be performed in the stretch, and is called in time."""
        limit = min(limit, self.limit(stretch))
        able = [it for it in self.outside() if it.reply is None and it.op.name in kinds and it.called < limit]
        return next((it for it in able if self.would_be_performed(it.op, stretch)), None)

    def refused(self, stretch, kinds):
        """The first conflict by reply that no document refuses, of these kinds, whose reply stands after the calls of
        all writes before the stretch's end, if it is called in time."""
        latest = max((it.write.called for it in self.chain[:stretch]), default=0)
        able = [it for it in self.outside() if is_unrefused(it) and it.op.name in kinds and latest < it.replied]
        return next((it for it in by_reply(able)[:1] if it.called < self.limit(stretch)), None)

    def is_open(self, stretch):
        """Whether the rules insert a write in the stretch: not between two pairs of one term."""
        before = [it.pair for it in self.chain[:stretch] if it.pair]
        behind = [it.pair for it in self.chain[stretch:] if it.pair]
        return not behind or behind[0][0] != (before[-1][0] if before else 1)

    def insert(self, stretch, write):
        if write is None or stretch is None or not self.is_open(stretch):
            raise Stuck
        self.chain.insert(stretch, Link(None, write))

    # The stretches of the records outside the chain.

    def first_stretch(self, call):
        """The first stretch that is not before a write, or the pair of a get, whose reply stands before the call."""
        writes = [at for at, it in enumerate(self.chain, 1) if it.write.reply and it.write.replied < call.called]
        gets = [it for it in self.records if it.reply and it.reply.kind == "found" and it.replied < call.called]
        return max(writes + [self.stretch_of(it.reply.pair) for it in gets], default=0)

    def last_stretch(self, call):
        """The last stretch that is not after a write, or the stretch of a record, whose call stands after the reply."""
        writes = [at for at, it in enumerate(self.chain) if it.write.called > call.replied]
        others = [at for number, at in self.given.items() if self.records[number].called > call.replied]
        return min(writes + others, default=len(self.chain))

    def allows(self, call, stretch):
        """Whether the call, a missing or a conflict, can be answered so in the stretch."""
        if call.op.name in ("get", "create"):
            return self.is_live(stretch) == (call.op.name == "create")
        return self.live_pair(stretch) != call.op.condition

    def stretch_for(self, call):
        """The stretch of the pair that a get found; of a missing or a conflict the last one that it can have."""
        if call.reply.kind == "found":
            return self.stretch_of(call.reply.pair)
        able = range(self.first_stretch(call), self.last_stretch(call) + 1)
        return next((it for it in reversed(able) if self.allows(call, it)), None)

    def first_unplaced(self):
        """Gives the answered records outside the chain their stretches, by falling call; returns the first that finds
        none."""
        self.given = {}
        for call in reversed(self.outside()):
            if call.reply and not is_unrefused(call):
                stretch = self.stretch_for(call)
                if stretch is None:
                    return call
                self.given[call.number] = stretch
        return None

    # What asks for a write, one after another.

    def takes_more(self):
        """Takes more writes into the chain; false if nothing asks for one."""
        if self.takes_for_flag():
            return True
        unplaced = self.first_unplaced()
        if unplaced:
            self.take_for_call(unplaced)
            return True
        return self.takes_unrefused()

    def takes_for_flag(self):
        """Before the first write whose flag doesn't fit a delete is inserted, or a write of the document; false if all
        fit."""
        for stretch in range(len(self.chain)):
            if self.next_needs(stretch) not in (None, self.is_live(stretch)):
                kinds = WRITES if self.next_needs(stretch) else DELETES
                first = self.refused(stretch, kinds) if self.is_maybe else None
                self.insert(stretch, first or self.candidate(stretch, kinds))
                return True
        return False

    def takes_unrefused(self):
        """The conflicts that no document refuses become writes, by reply; flags are seen to at once. False if none is
        left."""
        takes = False
        while True:
            left = by_reply(it for it in self.outside() if is_unrefused(it))
            if not left:
                return takes
            self.take_refused(left[0])
            takes = True
            while self.takes_for_flag():
                pass

    def wanted_for(self, call):
        """The stretch in which a write is inserted for the call, and its kinds."""
        if call.op.name in ("get", "create"):
            return self.last_stretch(call), DELETES if call.op.name == "get" else WRITES
        stretch = self.stretch_of(call.op.condition)
        following = None if stretch is None else self.next_needs(stretch)
        return stretch, {None: DELETES | WRITES, True: WRITES, False: DELETES}[following]

    def take_for_call(self, call):
        """For a call that finds no stretch a write is inserted; if there is none, a conflict becomes one itself."""
        stretch, kinds = self.wanted_for(call)
        try:
            self.insert(stretch, None if stretch is None else self.candidate(stretch, kinds, call.replied))
        except Stuck:
            if call.reply != CONFLICT:
                raise
            self.take_refused(call)

    def take_refused(self, call):
        """A conflict becomes a write, under maybe alone: directly after its condition's write, or before the first
        write that is called after its reply."""
        if not self.is_maybe:
            raise Stuck
        later = [at for at, it in enumerate(self.chain) if it.write.called > call.replied]
        condition = call.op.condition
        self.insert(self.stretch_of(condition) if condition else min(later, default=len(self.chain)), call)

    # The pairs that are invented.

    def invented(self, at, last, place):
        """The pair of an invented write, after this pair and at this place of the order."""
        following = next((it.pair for it in self.chain[at:] if it.pair), None)
        called = self.chain[at].write.called
        if following is None:
            return self.seen[0] + 1 + place, called
        return last[0] if last else 1, self.seen[1] + 1 + place * 2**20 + called

    def places(self):
        """The places of the order, once nothing asks for a write."""
        places, last = [], None
        for stretch in range(len(self.chain) + 1):
            reads = by_reply(self.records[number] for number, it in self.given.items() if it == stretch)
            places += [(it.number, None) for it in reads]
            if stretch < len(self.chain):
                pair, write = self.chain[stretch]
                last = pair or self.invented(stretch, last, len(places))
                places.append((write.number, None if pair_taken(write.reply) else last))
        return places


# Drawn calls.


class Clients:
    """Two to four clients of one document, which make five to fourteen calls, and what was recorded of them. Other
    documents take numbers between, and now and then the term rises. One of ten gets finds what was there before the
    last change, so that some histories have no order; under maybe one of five writes that were performed is answered as
    refused."""

    def __init__(self, seed, reading):
        self.draws, self.is_maybe = Draws(seed), reading == "maybe"
        self.state, self.before = None, None
        self.term, self.seq = 1, 0
        # The pairs that a condition may name, the last one last.
        self.known = []
        self.calls, self.events = 0, []

    def is_one_in(self, many):
        return self.draws.below(many) == 0

    def condition(self):
        """One of the last three pairs that are known, for one write in three."""
        if not self.is_one_in(3):
            return None
        back = self.draws.below(3) + 1
        return self.known[-back] if back <= len(self.known) else None

    def call(self):
        k, draw = self.draws.below(5), self.draws.below(10)
        if draw <= 2:
            op = Op("get")
        elif draw <= 6:
            op = Op("index", k, self.condition())
        else:
            op = Op("delete", None, self.condition()) if draw <= 8 else Op("create", k)
        self.events.append(Call(self.calls, 0, op))
        self.calls += 1
        return self.events[-1], None

    def next_pair(self):
        if self.is_one_in(8):
            self.term, self.seq = self.term + 1, max(self.seq - 2, 0)
        if self.is_one_in(2):
            self.seq += self.draws.below(3)
        self.seq += 1
        return self.term, self.seq - 1

    def answer(self, op):
        """The document's answer to a call that meets it."""
        if op.name == "get":
            return performed(self.before if self.is_one_in(10) else self.state, op, None)[0]
        reply, after = performed(self.state, op, self.next_pair())
        if reply != CONFLICT:
            self.before, self.state = self.state, after
        return CONFLICT if self.is_maybe and reply != CONFLICT and self.is_one_in(5) else reply

    def go_on(self, waiting, calls):
        """What a client does next: nothing is waited for, or a call that has not met the document, or a call and its
        reply. One call in five is lost, and one reply; the pair of a lost reply may be named all the same."""
        if waiting is None:
            return self.call() if self.calls < calls else None
        call, reply = waiting
        is_lost = self.is_one_in(5)
        if reply is None:
            return None if is_lost else (call, self.answer(call.op))
        if reply.pair and (not is_lost or self.is_one_in(3)):
            self.known.append(reply.pair)
        if not is_lost:
            self.events.append(Ending(call.number, reply))
        return None

    def recorded(self):
        """The events of all calls."""
        calls, clients = self.draws.below(10) + 5, [None] * (self.draws.below(3) + 2)
        for _ in range(80):
            turn = self.draws.below(len(clients))
            clients[turn] = self.go_on(clients[turn], calls)
        return self.events


def shown_at_last(events):
    """The events, then an index that is lost and a get that finds its number: the answered calls alone have no
    order."""
    calls = [it for it in events if isinstance(it, Call)]
    pairs = [it.op.condition for it in calls] + [it.reply.pair for it in events if isinstance(it, Ending)]
    pair = max((it[0] for it in pairs if it), default=0) + 1, 0
    get = len(calls) + 1
    return events + [Call(len(calls), 0, Op("index", 9)), Call(get, 0, Op("get")), Ending(get, Reply("found", pair, 9))]


# Documents that are taken out of honest recordings.


def settings(seed, reading):
    """The settings of a recording: 50 to 400 calls of each of one to five documents, of a hundred of which 1 to 20 are
    lost."""
    draws = Draws(seed)
    docs = draws.below(5) + 1
    return {
        "docs": docs,
        "clients": (draws.below(13) + 4) * docs,
        "calls": (draws.below(351) + 50) * docs,
        "loss": (draws.below(20) + 1) / 100,
        "creates": 0.1,
        "maybe": 0.01 if reading == "maybe" else 0,
    }


def taken_out(recording):
    """The lines of the recording's first document."""
    own = set()
    for line in recording.lines():
        number = re.search('"n":([0-9]+)', line)
        if number and '"id":"d0"' in line:
            own.add(number[1])
        if number and number[1] in own:
            yield line


# How a history is judged.


def is_valid(program, text, witness, reading):
    return asked(program, "verify", text, witness, conflicts=reading)[0] == 0


def answered(program, text, reading):
    """What `witness` answers; an order is verified first."""
    status, answer = asked(program, "witness", text, conflicts=reading)
    if status == 0 and not is_valid(program, text, answer, reading):
        raise AssertionError(f"its own witness is not verified: {answer}")
    return answer


def is_order(answer):
    return answer.startswith('{"doc":')


def gives_pair(answer):
    return '"seq"' in answer


def checked(program, words, reading):
    """The answer to a history in words."""
    return asked(program, "check", text_of([event_of(it) for it in words.split(", ")]), conflicts=reading)


def judged(program, seed, reading, is_shown_at_last):
    """Judges a drawn history by the naive bodies; returns which of them finds an order."""
    events = Clients(seed, reading).recorded()
    events = shown_at_last(events) if is_shown_at_last else events
    records, text = list(known_calls(events).values()), text_of(events)
    answer = answered(program, text, reading)
    if has_order([it for it in records if it.reply]):
        if not is_order(answer) or gives_pair(answer):
            raise AssertionError(f"{answer}, though the answered calls have an order")
        return "answered"
    places = Rules(records, reading).order()
    mine = None if places is None else witness_of("a", places)
    if mine and answer == mine:
        return "rules"
    if mine and is_valid(program, text, mine, reading):
        raise AssertionError(f"{answer}, and not {mine}")
    if is_order(answer) and not gives_pair(answer):
        raise AssertionError(f"{answer} gives no pair")
    return "another" if is_order(answer) else "none"


def judged_alone(program, seed, reading):
    text = "".join(taken_out(Recording(seed, **settings(seed, reading))))
    return f"{reading} yes" if is_order(answered(program, text, reading)) else f"{reading} no"


class Orders(ProgramTest):
    """The orders that are found, and the answers if there is none."""

    def check_case(self, case, reading, places):
        self.assertEqual(answered(self.program, case_text(case), reading), witness_of("d", places_of(places)))

    def test_cases(self):
        self.run_subtests(self.check_case, [(f"{row[0]}, {row[1]}", *row) for row in ORDERS])

    def check_places(self, case, doc, places, wanted):
        texts = case_text(case), witness_of(doc, places_of(places))
        self.assertEqual(asked(self.program, "verify", *texts), (status_of(wanted), wanted))

    def test_places(self):
        """Places that are verified against the history of a case."""
        self.run_subtests(self.check_places, [(f"{row[0]}, {row[1]} {row[2]}", *row) for row in VERIFIED])

    def check_words(self, words, reading, wanted):
        self.assertEqual(checked(self.program, words, reading), (status_of(wanted), wanted))

    def test_histories_in_words(self):
        rows = [(f"{words}, {reading}", words, reading, wanted) for words, wanted in UNORDERED for reading in READINGS]
        self.run_subtests(self.check_words, rows)

    def run_drawn(self, judge, rows):
        """Judges drawn histories; returns the counts of their kinds. Those of which few may be aren't counted as
        subtests."""
        kinds = self.run_subtests(judge, rows, ProcessPoolExecutor, chunksize=4, not_counted=tuple(MOST))
        counts = Counter(filter(None, kinds))
        print(", ".join(f"{count} {kind}" for kind, count in sorted(counts.items())))
        return counts

    def test_drawn(self):
        """Drawn calls are judged as by the naive bodies. Enough histories are of each kind."""
        rows = []
        for reading in READINGS:
            for seed in SEEDS:
                rows.append((f"drawn {seed}, {reading}", self.program, seed, reading, False))
                rows.append((f"drawn {seed}, {reading}, shown at last", self.program, seed, reading, True))
        counts = self.run_drawn(judged, rows)
        for kind, least in LEAST.items():
            with self.subTest(f"how many are {kind}"):
                self.assertGreaterEqual(counts[kind], least)

    def test_recordings(self):
        """Documents of honest recordings have an order, but for few."""
        rows = [(f"recording {seed}, {it}", self.program, seed, it) for it in READINGS for seed in range(RECORDINGS)]
        counts = self.run_drawn(judged_alone, rows)
        for kind, most in MOST.items():
            with self.subTest(f"how many are {kind}"):
                self.assertLessEqual(counts[kind], most)


if __name__ == "__main__":
    sys.exit(run_tests())
