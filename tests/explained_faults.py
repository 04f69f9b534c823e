#!/usr/bin/env python3
"""Has the built program explain drawn recordings with one known fault each, and checks what it says of them.

    python3 tests/explained_faults.py [PROGRAM] [--each COUNT]

PROGRAM is the built casbench; if it isn't named, the one that ./casbench would run. Clients write and read the documents
of an index, whose calls overlap; then the index does one thing wrong, in one of twelve ways, and the clients go on. Half
of the recordings have calls without a reply. After a loss the index counts on in a new term, or in the same one, from
where it was or from where it is now. The one that draws them knows what happened: so the headline is right in 95 of 100,
no recording without a loss is said to have one, and the writes that are lost are counted exactly if all later calls are
answered and the first ones show what is left. Of each way COUNT recordings are drawn, 50 unless the option says another
number.
"""

import collections
import re
import sys

import texts
from anomalies import Recording
from explanations import headline
from program import TOP
from program_test import ProgramTest, run_tests
from running import run
from texts import condition, conflict, created, deleted, found, not_found, updated

# How many recordings are drawn of each way, unless an option says another number.
EACH = 50

# How many events are drawn before the fault, and after it, at most.
MOST_BEFORE, MOST_AFTER = 40, 40

# How many of a hundred headlines have to be right.
RIGHT = 95

STALE, NOT_SEEN, LOST = "Stale read", "Acknowledged write not seen", "Acknowledged write lost"
TAKEN_BACK, LOST_UPDATE, UNMET = "Shown and taken back", "Lost update", "Condition not honoured"
TWICE, UNWRITTEN, CONFLICT = "One version given twice", "Read of something nobody wrote", "Conflict without a cause"

LOST_WRITES = re.compile(r"^Acknowledged writes that are never seen again: (\d+) \(documents: (\d+); ", re.MULTILINE)

# What one recording is drawn with.
Setting = collections.namedtuple("Setting", "seed loses_calls is_constant counts_again")

# What happened: the headlines that are right, and how many acknowledged writes are lost in how many documents; None if the
# calls may not show it.
Truth = collections.namedtuple("Truth", "headlines lost documents")


class Faulty(Recording):
    """The lines of clients of an index that does one thing wrong."""

    def __init__(self, setting):
        super().__init__(setting.seed)
        self.setting = setting
        self.term = 1

    def pair(self):
        self.numbers += 1
        return self.term, self.numbers

    def create(self, doc):
        """Adds a create that is answered at once, and returns its pair."""
        number = self.call(doc, "create")
        _, pair = self.wrote(doc)
        self.answer(created(number, *pair, doc))
        return pair

    def remove(self, doc):
        """Adds a delete that is answered at once, and returns its pair."""
        number, pair = self.call(doc, "delete"), self.pair()
        self.answer((deleted if doc in self.states else not_found)(number, *pair, doc))
        self.states.pop(doc, None)
        return pair

    def get(self, doc):
        self.answer_get(self.call(doc, "get"), doc, self.states.get(doc))

    def swap(self, doc):
        """Adds a write under the version that the document has."""
        return self.write(doc, condition(*self.states[doc][0]))

    def answer_open(self, number):
        """Answers an open call, or loses it."""
        line = self.open.pop(number)
        if self.setting.loses_calls and self.draws.below(6) == 0:
            line = texts.lost(number) if self.draws.below(2) else ""
        self.answer(line)

    def step(self):
        if self.open and self.draws.below(2):
            self.answer_open(self.draws.one_of(sorted(self.open)))
        else:
            self.begin(self.draws.one_of("abc"))

    def drain(self):
        for number in sorted(self.open):
            self.answer_open(number)

    def begin(self, doc):
        if self.draws.below(12) == 0:
            number, pair = self.call(doc, "delete"), self.pair()
            self.open[number] = (deleted if doc in self.states else not_found)(number, *pair, doc)
            self.states.pop(doc, None)
        else:
            super().begin(doc)

    def roll_back(self, states, numbers):
        """Takes back what was done since the index had these states and had counted so far."""
        self.states = dict(states)
        if not self.setting.is_constant:
            self.term += 1
        if self.setting.counts_again:
            self.numbers = numbers


# Each way draws the fault and returns what happened.


def stale_read(recording):
    before = recording.write("a"), recording.written
    recording.write("a")
    recording.show("a", *before)
    return Truth([STALE], 0, 0)


def not_seen(recording):
    if recording.draws.below(2):
        recording.write("a")
    else:
        # an unrelated conflict before the create is answered
        first, second = recording.call("new", "create"), recording.call("new", "create")
        recording.written -= 1
        _, pair = recording.wrote("new")
        recording.written += 1
        recording.answer(conflict(second))
        recording.answer(created(first, *pair, "new"))
        recording.states["new"] = pair, recording.written - 1
        recording.answer_get(recording.call("new", "get"), "new", None)
        recording.get("new")
        return Truth([NOT_SEEN], 0, 0)
    recording.answer_get(recording.call("a", "get"), "a", None)
    return Truth([NOT_SEEN], 0, 0)


def go_on_from(recording, docs):
    """Clients read what is left of the documents and build on it; or only write, without a condition. Returns whether
    they read it."""
    reads = recording.draws.below(3) > 0
    for doc in docs:
        if not reads:
            recording.write(doc)
            continue
        recording.get(doc)
        if doc in recording.states:
            recording.swap(doc)
        else:
            recording.create(doc)
    return reads


def writes_lost(recording):
    docs = ["a", "b"][: 1 + recording.draws.below(2)]
    for doc in docs:
        recording.write(doc)
    states, numbers = dict(recording.states), recording.numbers
    lost = 0
    for doc in docs:
        for _ in range(1 + recording.draws.below(3)):
            if recording.draws.below(2):
                recording.swap(doc)
            else:
                recording.write(doc)
            lost += 1
    recording.roll_back(states, numbers)
    if go_on_from(recording, docs):
        return Truth([LOST], lost, len(docs))
    return Truth([LOST, TWICE, STALE, None], None, None)


def create_lost(recording):
    states, numbers = dict(recording.states), recording.numbers
    recording.create("new")
    lost = 1
    for _ in range(recording.draws.below(3)):
        recording.swap("new")
        lost += 1
    recording.roll_back(states, numbers)
    go_on_from(recording, ["new"])
    return Truth([LOST], lost, 1)


def dirty_read(recording):
    before = recording.write("a"), recording.written
    states, numbers = dict(recording.states), recording.numbers
    recording.call("a", "index")
    recording.wrote("a")
    recording.get("a")
    recording.roll_back(states, numbers)
    recording.show("a", *before)
    return Truth([TAKEN_BACK], 0, 0)


def lost_update(recording):
    """Two writes under one version are performed, one after the other or at the same time."""
    before = recording.write("a")
    if recording.draws.below(2):
        recording.write("a", condition(*before))
        recording.write("a", condition(*before))
        return Truth([LOST_UPDATE], 0, 0)
    first, second = (recording.call("a", "index", condition(*before)) for _ in range(2))
    recording.written -= 1
    _, pair = recording.wrote("a")
    recording.written += 1
    if recording.draws.below(2):
        recording.get("a")
        late = recording.call("a", "index", condition(*pair))
        recording.answer(updated(first, *pair, "a"))
        recording.answer(conflict(late))
        recording.written -= 1
        _, pair = recording.wrote("a")
        recording.written += 1
        recording.states["a"] = pair, recording.written - 1
    else:
        recording.answer(updated(first, *pair, "a"))
        _, pair = recording.wrote("a")
        recording.get("a")
    recording.answer(updated(second, *pair, "a"))
    return Truth([LOST_UPDATE], 0, 0)


def not_honoured(recording):
    recording.write("a")
    pair = recording.remove("a")
    recording.write("a", condition(*pair))
    return Truth([UNMET], 0, 0)


def two_creates(recording):
    first, second = recording.call("new", "create"), recording.call("new", "create")
    pairs = [recording.wrote("new")[1] for _ in range(2)]
    answers = [created(first, *pairs[0], "new"), created(second, *pairs[1], "new")]
    for answer in answers if recording.draws.below(2) else answers[::-1]:
        recording.answer(answer)
    return Truth([UNMET], 0, 0)


def create_beside_delete(recording):
    first, second = recording.call("new", "create"), recording.call("new", "delete")
    _, pair = recording.wrote("new")
    answers = [created(first, *pair, "new"), not_found(second, *recording.pair(), "new")]
    for answer in answers if recording.draws.below(2) else answers[::-1]:
        recording.answer(answer)
    recording.states.pop("new")
    return Truth([UNMET], 0, 0)


def given_twice(recording):
    """Two documents, or two writes of one at the same time, get one pair."""
    if recording.draws.below(2):
        pair = recording.write("a")
        number = recording.call("b", "index")
        maker, _ = recording.wrote("b")
        recording.states["b"] = pair, recording.written
        recording.answer(maker(number, *pair, "b"))
        return Truth([TWICE], 0, 0)
    recording.write("a")
    first, second = recording.call("a", "index"), recording.call("a", "index")
    _, pair = recording.wrote("a")
    recording.answer(updated(first, *pair, "a"))
    recording.answer(updated(second, *pair, "a"))
    return Truth([TWICE], 0, 0)


def unwritten(recording):
    recording.write("a")
    recording.show("a", recording.pair(), 1_000_000)
    return Truth([UNWRITTEN], 0, 0)


def without_cause(recording):
    pair = recording.write("a")
    more = condition(*pair) if recording.draws.below(2) else ""
    recording.answer(conflict(recording.call("a", "index", more)))
    return Truth([CONFLICT], 0, 0)


WAYS = [
    stale_read, not_seen, writes_lost, create_lost, dirty_read, lost_update, not_honoured, two_creates, create_beside_delete,
    given_twice, unwritten, without_cause,
]


# Texts by which each row of FORMATS' table of what comes before the headline that is found first is read back: the row's first
# two columns, and texts with their headlines.
PERFORMED = texts.index(0) + created(0, 1, 1)
REPLACED = PERFORMED + texts.index(1, k=2) + updated(1, 1, 2)
OVERWRITTEN = PERFORMED + texts.index(1, condition(1, 1), k=2) + texts.index(2, condition(1, 1), k=3) + texts.get(3)
GONE, SOON = "an acknowledged write whose reply stands before the broken reply is gone", "a fault of one call or two at about the same time"
PREFERRED = {
    ("any but Condition not honoured", GONE): [
        (REPLACED + texts.get(2) + found(2, 1, 1) + texts.index(3, condition(1, 1), k=3) + updated(3, 2, 3), LOST),
        (REPLACED + texts.index(2, condition(1, 2), k=3) + conflict(2) + texts.get(3) + found(3, 1, 1) + texts.index(4, condition(1, 1), k=4) + updated(4, 2, 3), LOST),
        (PERFORMED + texts.delete(1, condition(1, 1)) + deleted(1, 1, 2) + texts.index(2, condition(1, 2), k=3) + updated(2, 1, 3), UNMET),
    ],
    (TAKEN_BACK, SOON): [
        (PERFORMED + texts.index(1, k=2) + texts.get(2) + found(2, 1, 2, k=2) + texts.get(3) + found(3, 1, 1) + updated(1, 1, 2) + texts.get(4) + found(4, 1, 1), STALE),
    ],
    (UNWRITTEN, SOON): [(OVERWRITTEN + updated(1, 1, 5) + found(3, 1, 7, k=3) + updated(2, 1, 7), LOST_UPDATE)],
    ("Version that nobody wrote", SOON): [(texts.delete(0) + deleted(0, 1, 1) + texts.delete(1) + deleted(1, 1, 1), TWICE)],
    (CONFLICT, SOON): [
        (OVERWRITTEN + found(3, 1, 2, k=2) + texts.index(4, condition(1, 2), k=4) + updated(1, 1, 2) + conflict(4) + updated(2, 1, 3), LOST_UPDATE),
    ],
    (TWICE, "a Stale read, Acknowledged write not seen or Acknowledged write lost at about the same time"): [
        (REPLACED + texts.index(2, doc="f") + created(2, 1, 2) + texts.get(3) + found(3, 1, 1), TWICE),
        (REPLACED + texts.index(2, k=3) + texts.get(3) + updated(2, 1, 2) + found(3, 1, 1), STALE),
    ],
    ("any other", "anything"): [(REPLACED + texts.get(2) + found(2, 1, 1), STALE)],
}

# A row of that table.
ROW = re.compile(r"^\| ([^|]+) \| ([^|]+) \| (?:Acknowledged write lost|that of this fault|the one found first) \|$", re.MULTILINE)


def drawn(way, seed):
    """A recording with a fault of this way, and what happened."""
    setting = Setting(seed, seed % 2 == 1, seed // 2 % 2 == 1, seed // 2 % 2 == 1 or seed // 4 % 2 == 1)
    recording = Faulty(setting)
    recording.go_on(MOST_BEFORE)
    for _ in range(recording.draws.below(4)):
        # calls that are still open during the fault
        recording.begin(recording.draws.one_of("abc"))
    truth = way(recording)
    recording.go_on(MOST_AFTER)
    return "".join(recording.lines), truth, setting


def named(story):
    """The anomaly that an explanation names; None if it names none."""
    found_headline = headline(story)
    return found_headline and found_headline[0]


class ExplainedFaults(ProgramTest):
    """Drawn recordings with one known fault each."""

    each = EACH

    def check_counts(self, story, truth, setting):
        """The writes that are lost are counted exactly if all later calls are answered, and there are none if none is
        lost."""
        counts = [(int(writes), int(documents)) for writes, documents in LOST_WRITES.findall(story)]
        if truth.lost == 0:
            self.assertEqual(counts, [])
        elif truth.lost is not None and not setting.loses_calls:
            self.assertEqual(counts, [(truth.lost, truth.documents)])

    def check_drawn(self, way, seed, wrong):
        text, truth, setting = drawn(way, seed)
        _, story, _ = run(self.program, ["explain"], text)
        name = None if story.startswith("yes") else named(story)
        if name not in truth.headlines:
            wrong.append(f"{way.__name__}, {setting}: {name}")
        if truth.lost == 0:
            self.assertNotEqual(name, LOST)
        if not story.startswith("yes"):
            self.check_counts(story, truth, setting)

    def test_faults(self):
        """The headline is right in 95 of 100; none names a loss if none is; and lost writes are counted."""
        wrong = []
        rows = [(f"{way.__name__}, {seed}", way, seed, wrong) for way in WAYS for seed in range(self.each)]
        self.run_subtests(self.check_drawn, rows)
        self.assertLessEqual(len(wrong) * 100, len(rows) * (100 - RIGHT), "\n".join(wrong))


    def check_preferred(self, row):
        for text, anomaly in PREFERRED[row]:
            _, story, _ = run(self.program, ["explain"], text)
            self.assertEqual(named(story), anomaly, text)

    def test_table(self):
        """Each row of the table of FORMATS says what the program names."""
        rows = ROW.findall((TOP / "docs" / "FORMATS.md").read_text())
        self.assertEqual(rows, list(PREFERRED))
        self.run_subtests(self.check_preferred, [(f"{found_first}, {more}", (found_first, more)) for found_first, more in rows])


def main():
    arguments = sys.argv[1:]
    if "--each" in arguments:
        at = arguments.index("--each")
        ExplainedFaults.each = int(arguments[at + 1])
        del arguments[at : at + 2]
    return run_tests(arguments)


if __name__ == "__main__":
    sys.exit(main())
