#!/usr/bin/env python3
"""Draws honest histories of a cluster that performs a write up to five times, and judges them by the profile of
OpenSearch.

    python3 tests/repeated_writes.py [PROGRAM]

PROGRAM is the built casbench; if it isn't named, the one that ./casbench would run. The node of OpenSearch that a
client asks sends a write again if it lost a connection, so a write without a condition may be performed several times,
before its reply and after it. A check reckons with two times by a second call of the write, and a document is ruled out
only if no number of times explains it. The latter isn't proved, so it is tested here:

- No history is `refuted`.
- `no` is answered only if a write was performed three times or more.

By two other checks some of the same histories have to be refuted, so that a wrong count would be seen: with
`--writes once`, and by a strict check of what the reading makes of a history, which counts each call as performed once
at most.
"""

import sys
from collections import Counter
from concurrent.futures import ProcessPoolExecutor

from drawing import NAMES, Call, Draws, Ending, Op, pair_taken, performed
from exact import one_shard
from program_test import ProgramTest, run_tests
from reading_answers import answer_by_strict_check, check_all
from readings import OPENSEARCH, History, text_of

# The profile, but that each write is performed once at most.
ONCE = OPENSEARCH._replace(writes="once")

# How many histories are drawn, and of how many the program is asked at once.
DRAWN, AT_ONCE = 12_000, 100

# How many percent of the replies of a history are lost; and how often its writes are sent: each as often as a drawn
# number of one row says.
LOST = (0, 20, 40)
SENT = ((1, 1, 1, 2), (1, 1, 1, 5), (1, 1, 1, 5), (1, 2, 3, 4, 5))

# The operations of a history, one of which each call has: `index if` and `delete if` ask for the pair that was shown
# last. In the last two rows a write is seen to be performed by most replies to the other ones.
OPERATIONS = (
    ("index", "index", "index if", "create", "create", "delete", "delete", "delete if", "get"),
    ("create", "create", "create", "create", "delete", "get"),
    ("delete", "delete", "delete", "delete", "create", "index"),
)

# How many histories have to be of each kind at least.
LEAST = {
    "yes, each write performed twice at most": 3_000,
    "yes, a write performed three times or more": 3_000,
    "no, a write performed three times or more": 100,
    "refuted with writes that are performed once": 1_000,
    "no, and refuted if each call is performed once": 50,
}


class Cluster:
    """An index of one shard, its clients, and what was recorded of their calls."""

    def __init__(self, seed):
        self.draws = Draws(seed)
        self.documents, self.calls = self.draws.one_of((1, 1, 2, 3)), self.draws.below(10) + 3
        self.operations, self.times = self.draws.one_of(OPERATIONS), self.draws.one_of(SENT)
        # of each document what it is, and the pair that was shown last
        self.states, self.shown = [None] * self.documents, [None] * self.documents
        self.seq, self.events = 0, []
        # the calls without an ending, each with its reply, if it has one; the requests that haven't met the index yet
        self.open, self.sent = {}, []
        # how often each write was performed
        self.performed = Counter()

    def operation(self, number, document):
        """A drawn operation."""
        name, _, has_condition = self.draws.one_of(self.operations).partition(" ")
        value = number if name in ("index", "create") else None
        return Op(name, value, self.shown[document] if has_condition else None)

    def begin(self, number):
        """A call is made. A write is sent once, or again and again."""
        document = self.draws.below(self.documents)
        call = Call(number, document, self.operation(number, document))
        self.events.append(call)
        self.open[call] = None
        self.sent += [call] * (1 if call.op.name == "get" else self.draws.one_of(self.times))

    def meet(self):
        """A request meets the index. Its reply is that of the call, if the call has none yet, and else maybe."""
        call = self.sent.pop(self.draws.below(len(self.sent)))
        reply, self.states[call.doc] = performed(self.states[call.doc], call.op, (1, self.seq))
        if pair_taken(reply) is not None:
            self.seq += 1
            self.performed[call] += 1
        if call in self.open and (self.open[call] is None or self.draws.below(2)):
            self.open[call] = reply

    def end(self, lost):
        """A drawn call ends: with its reply, or lost, so many percent of them. Without a reply it may go on."""
        call = self.draws.one_of(list(self.open))
        reply = None if self.draws.below(100) < lost else self.open[call]
        if reply is not None or self.draws.below(100) < lost:
            del self.open[call]
            self.events.append(Ending(call.number, reply))
        if reply is not None and reply.pair is not None:
            self.shown[call.doc] = reply.pair

    def record(self):
        """Has the clients make their calls. Requests still meet the index after the ending of their call."""
        lost, begun = self.draws.one_of(LOST), 0
        while begun < self.calls or self.open:
            turn = self.draws.below(8)
            if turn < 2 and begun < self.calls:
                self.begin(begun)
                begun += 1
            elif turn < 6 and self.sent:
                self.meet()
            elif self.open:
                self.end(lost)

    def text(self):
        """The text of what was recorded."""
        return text_of(History(self.events, frozenset(), NAMES, tuple(map(one_shard, NAMES))))


def recorded(seed):
    """The text of the history of this seed, and how often the write was performed that was performed most often."""
    cluster = Cluster(seed)
    cluster.record()
    return cluster.text(), max(cluster.performed.values(), default=0)


def kind_of(answer, most, text):
    """What the history is, in words, whose writes were performed so often at most, and its answer by the profile."""
    if answer.word not in ("yes", "no"):
        raise AssertionError(f"{answer.line}, and the history is honest:\n{text}")
    if answer.word == "no" and most < 3:
        raise AssertionError(f"{answer.line}, and no write was performed more than twice:\n{text}")
    often = "a write performed three times or more" if most > 2 else "each write performed twice at most"
    return f"{answer.word}, {often}"


def judged(program, first):
    """Judges the histories of some seeds; returns how many are of each kind."""
    rows = [recorded(seed) for seed in range(first, first + AT_ONCE)]
    texts = [text for text, _ in rows]
    counts = Counter()
    for (text, most), answer, once in zip(rows, *(check_all(program, texts, it) for it in (OPENSEARCH, ONCE))):
        counts[kind_of(answer, most, text)] += 1
        if once.word == "refuted":
            if most < 2:
                raise AssertionError(f"{once.line}, and no write was performed twice:\n{text}")
            counts["refuted with writes that are performed once"] += 1
        if answer.word == "no" and answer_by_strict_check(program, text, OPENSEARCH).word == "refuted":
            counts["no, and refuted if each call is performed once"] += 1
    return counts


class RepeatedWrites(ProgramTest):
    """Honest histories of writes that are performed several times."""

    def test_drawn(self):
        """None is refuted, and few get `no`; enough are refuted if writes are taken to be performed once."""
        rows = [(f"from {first} on", self.program, first) for first in range(0, DRAWN, AT_ONCE)]
        counts = sum(filter(None, self.run_subtests(judged, rows, ProcessPoolExecutor)), Counter())
        print(f"of {DRAWN} histories: " + "; ".join(f"{counts[it]} {it}" for it in sorted(counts)))
        for kind, least in LEAST.items():
            with self.subTest(f"how many are {kind}"):
                self.assertGreaterEqual(counts[kind], least)


if __name__ == "__main__":
    sys.exit(run_tests())
