#!/usr/bin/env python3
"""Has the built program explain drawn recordings with one fault each, and checks what it names.

    python3 tests/anomalies.py [PROGRAM] [--each COUNT]

PROGRAM is the built casbench; if it isn't named, the one that ./casbench would run. Clients write and read three
documents honestly; then one reply about one document is wrong, in one of ten ways, and the clients go on. Of each way
COUNT recordings are drawn, 30 unless the option says another number. The answer is never `yes`, the reply that broke it
is the wrong one, the headline names the anomaly and its line, and no reason cites a later line.
"""

import re
import sys

import texts
from drawing import Draws
from program_test import ProgramTest, run_tests
from running import run
from texts import condition, conflict, created, deleted, found, missing, updated

DOCUMENTS = ("a", "b", "c")

# How many recordings are drawn of each way, unless an option says another number.
EACH = 30

# How many events are drawn before the fault, and after it, at most.
MOST_BEFORE, MOST_AFTER = 60, 40


class Recording:
    """The lines of honest clients of an index on one shard, whose calls overlap."""

    def __init__(self, seed):
        self.draws = Draws(seed)
        self.lines = []
        self.calls = 0
        self.numbers = 0
        self.written = 0
        # The pair and the number of each document that is there.
        self.states = {}
        # The open calls: document, operation, and what it was answered if it was performed already.
        self.open = {}

    def call(self, doc, op, more=""):
        """Adds a call, and returns its number. `more` has the members of a write's condition."""
        number, self.calls = self.calls, self.calls + 1
        if op in ("index", "create"):
            self.written += 1
            more = f',"k":{self.written}{more}'
        self.lines.append(texts.call(number, op, more, doc))
        return number

    def answer(self, line):
        self.lines.append(line)

    def pair(self):
        """A pair that no write has."""
        self.numbers += 1
        return 1, self.numbers

    def wrote(self, doc):
        """Performs a write of the number that was written last; returns its reply's maker and its pair."""
        pair, maker = self.pair(), updated if doc in self.states else created
        self.states[doc] = pair, self.written
        return maker, pair

    def write(self, doc, more=""):
        """Adds a write that is answered at once, and returns its pair."""
        number = self.call(doc, "index", more)
        maker, pair = self.wrote(doc)
        self.answer(maker(number, *pair, doc))
        return pair

    def show(self, doc, pair, k):
        """Adds a get that is answered at once, with this version."""
        self.answer_get(self.call(doc, "get"), doc, (pair, k))

    def answer_get(self, number, doc, state):
        self.answer(missing(number, doc) if state is None else found(number, *state[0], state[1], doc))

    def step(self):
        """Begins a call, or ends one."""
        if self.open and self.draws.below(2):
            number = self.draws.one_of(sorted(self.open))
            self.answer(self.open.pop(number))
        else:
            self.begin(self.draws.one_of(DOCUMENTS))

    def begin(self, doc):
        """Begins a call that is performed at once, and answered later."""
        state = self.states.get(doc)
        if self.draws.below(2):
            number = self.call(doc, "get")
            self.open[number] = missing(number, doc) if state is None else found(number, *state[0], state[1], doc)
        else:
            number = self.call(doc, "index", condition(*state[0]) if state and self.draws.below(2) else "")
            maker, pair = self.wrote(doc)
            self.open[number] = maker(number, *pair, doc)

    def drain(self):
        """Ends all open calls."""
        for number in sorted(self.open):
            self.answer(self.open.pop(number))

    def go_on(self, most):
        for _ in range(self.draws.below(most)):
            self.step()
        self.drain()


# Each way makes the wrong reply the last line, and leaves the document as the index has it.


def stale_read(recording, doc):
    before = recording.write(doc), recording.written
    recording.write(doc)
    recording.show(doc, *before)


def not_seen(recording, doc):
    recording.write(doc)
    recording.answer_get(recording.call(doc, "get"), doc, None)


def write_lost(recording, doc):
    recording.write(doc)
    number = recording.call(doc, "create")
    _, pair = recording.wrote(doc)
    recording.answer(created(number, *pair, doc))


def taken_back(recording, doc):
    before = recording.write(doc), recording.written
    recording.call(doc, "index")
    recording.wrote(doc)
    recording.show(doc, *recording.states[doc])
    recording.show(doc, *before)


def lost_update(recording, doc):
    before = recording.write(doc)
    recording.write(doc, condition(*before))
    recording.write(doc, condition(*before))


def not_honoured(recording, doc):
    recording.write(doc)
    number, pair = recording.call(doc, "delete"), recording.pair()
    recording.answer(deleted(number, *pair, doc))
    recording.write(doc, condition(*pair))


def given_twice(recording, doc):
    pair = recording.write(doc)
    other = recording.draws.one_of([it for it in DOCUMENTS if it != doc])
    number = recording.call(other, "index")
    maker, _ = recording.wrote(other)
    recording.states[other] = pair, recording.written
    recording.answer(maker(number, *pair, other))


def unwritten(recording, doc):
    recording.write(doc)
    recording.show(doc, recording.pair(), 1_000_000)


def version_of_nobody(recording, doc):
    recording.write(doc)
    recording.write(doc, condition(*recording.pair()))


def without_cause(recording, doc):
    recording.write(doc)
    recording.answer(conflict(recording.call(doc, "index")))


WAYS = {
    "Stale read": stale_read,
    "Acknowledged write not seen": not_seen,
    "Acknowledged write lost": write_lost,
    "Shown and taken back": taken_back,
    "Lost update": lost_update,
    "Condition not honoured": not_honoured,
    "One version given twice": given_twice,
    "Read of something nobody wrote": unwritten,
    "Version that nobody wrote": version_of_nobody,
    "Conflict without a cause": without_cause,
}


# What "First rule out" says that a healthy OpenSearch does, of the anomalies that this makes; nothing of the others.
DOCUMENTED = {
    "Stale read": "may be answered by any copy, but one in sync has what was acknowledged before the get was made",
    "Acknowledged write not seen": "a delete that its coordinating node sent again",
    "Acknowledged write lost": "a write without a condition that its coordinating node sent again",
    "Shown and taken back": "may be answered by any copy, and one copy shows a write that is not acknowledged yet",
    "Lost update": "it is tested against the primary's own state, which may hold a write that is lost later",
    "Condition not honoured": "",
    "One version given twice": "",
    "Read of something nobody wrote": "its coordinating node sends a write again after it lost the connection",
    "Version that nobody wrote": "its coordinating node sends a write again after it lost the connection",
    "Conflict without a cause": "the second attempt meets a conflict with the first one",
}


def drawn(make_wrong, seed):
    """A recording with a fault that is made so, and the line of the wrong reply."""
    recording = Recording(seed)
    recording.go_on(MOST_BEFORE)
    make_wrong(recording, recording.draws.one_of(DOCUMENTS))
    line = len(recording.lines)
    recording.go_on(MOST_AFTER)
    return "".join(recording.lines), line


class Anomalies(ProgramTest):
    """Drawn recordings with one fault each."""

    each = EACH

    def check_drawn(self, anomaly, seed):
        text, line = drawn(WAYS[anomaly], seed)
        _, out, _ = run(self.program, ["explain"], text)
        answer, _, title, *more = out.splitlines()
        self.assertRegex(answer, rf"^(no|refuted kind=\S+ calls=\S+) event={line - 1} call=\d+ before=shown$")
        self.assertRegex(title, rf"^{anomaly}: .*, line {line}\)\.$")
        begin = more.index("Why no order can have these replies:")
        end = min(more.index(it) for it in ("How much is broken:", "First rule out:") if it in more)
        reasons = " ".join(it for it in more[begin:end] if not it.startswith("The first line names "))
        cited = [int(it) for it in re.findall(r"\blines? (\d+)", reasons)]
        self.assertNotEqual(cited, [])
        self.assertLessEqual(max(cited), line)
        self.check_documented(more[more.index("First rule out:") + 1], DOCUMENTED[anomaly])

    def check_documented(self, rule_out, documented):
        """What is to be ruled out has what OpenSearch documents, and says nothing of it if there is nothing."""
        self.assertIn(documented, rule_out)
        self.assertEqual("OpenSearch" in rule_out, documented != "")

    def test_anomalies(self):
        """The headline and the reasons of each, and what OpenSearch documents of it."""
        rows = [(f"{it}, {seed}", it, seed) for it in WAYS for seed in range(self.each)]
        self.run_subtests(self.check_drawn, rows)


def main():
    arguments = sys.argv[1:]
    if "--each" in arguments:
        at = arguments.index("--each")
        Anomalies.each = int(arguments[at + 1])
        del arguments[at : at + 2]
    return run_tests(arguments)


if __name__ == "__main__":
    sys.exit(main())
