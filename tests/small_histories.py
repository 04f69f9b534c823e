#!/usr/bin/env python3
"""Draws small histories, and compares what `check`, `check --rule-out` and `explain` say of each with an exact search.

    python3 tests/small_histories.py [PROGRAM]

PROGRAM is the built casbench; if it isn't named, the one that ./casbench would run. The histories are those of
tests/small_drawing.py, each in both readings of a conflict. What has to hold of every one of them is:

- `yes` is answered only if there is an order.
- `refuted` is answered only if there is none, with --rule-out and without it.
- With --rule-out the line is the same, or it is `refuted kind=ruled-out` in the place of `no`.
- What README says in SENTENCES.
- `explain` begins with the line of `check`; it says that this is proved, or that there is no order, only if there is
  none; and its headline names an anomaly if there is evidence. If a document is ruled out it may name one, or say that
  the replies contradict one another, and else it names none. Both are those of the line, by the table of
  docs/FORMATS.md, unless a call of the evidence is answered after the broken reply. No reason cites a line after that
  reply, unless the text up to it isn't refuted by itself.

Some fixed histories show what is not promised: that a `no` is proved if a write may have been performed that no reply
shows, and that every history without an order is refuted.
"""

import sys
from collections import Counter
from concurrent.futures import ProcessPoolExecutor
from typing import NamedTuple

from drawing import lines
from evidence import known_calls
from explanations import lines_cited, reasons
from exact import has_order, has_known_outcome, one_shard
from program import TOP
from program_test import ProgramTest, run_tests
from ruled_out import answer, events_of, kind_of, without_option
from running import asked, run, said
from small_drawing import small_history
from texts import MOST_OF_PAIR, OFFENCE, READINGS, condition, conflict, created, delete, found, get, index, lost, no, places_of
from texts import refuted, status_of, verified, witness_of

# How many histories are drawn. In each reading, how many of them have to be of each kind at least.
DRAWN = 20_000
LEAST = {
    "settled, an order, yes": 3_000,
    "settled, no order, no, then refuted": 300,
    "settled, no order, refuted": 500,
    "unsettled, an order, yes": 5_000,
    "unsettled, an order, no": 10,
    "unsettled, no order, no, then refuted": 300,
    "unsettled, no order, refuted": 500,
}

# Of a thousand histories without an order, how many may keep a `no` that is undecided, in each reading.
MOST_UNDECIDED = {"plain": 2, "maybe": 10}

# What README says, word for word. The first one is checked in each settled history that gets `no`; of the second one
# the first half in each that has an order, and the second half by the fixed histories.
SENTENCES = (
    "Where every write has a reply that [counts](docs/FORMATS.md#by-check), a `no` is proved: there is no order.",
    "`refuted`: proved. It names one or two calls, and nothing explains the history under the reading",
    "Any other `no` accuses nobody",
)

# How the sentence begins that says how sure a story is.
EVIDENT = "This is proved by evidence:"
LINE_RULED_OUT = "This is proved, since the document is ruled out:"
RULED_OUT = "This is proved, though the line says no more than `no`:"
ANSWERED = "This is proved: every write was answered,"
DOCUMENT_ANSWERED = "This is proved: every write of this document was answered,"
UNDECIDED = "This `no` is undecided, so it is no sign of a fault:"
WEIGHTS = (EVIDENT, LINE_RULED_OUT, RULED_OUT, ANSWERED, DOCUMENT_ANSWERED, UNDECIDED)

# The anomaly that the headline names for evidence, and all anomalies that it may name.
ANOMALY_OF = {
    "pair-twice": "One version given twice",
    "no-writer": "Read of something nobody wrote",
    "stale-get": "Stale read",
    "stale-swap": "Lost update",
}
ANOMALIES = {
    *ANOMALY_OF.values(),
    "Acknowledged write not seen",
    "Acknowledged write lost",
    "Shown and taken back",
    "Condition not honoured",
    "Version that nobody wrote",
    "Conflict without a cause",
}

# The anomalies that the headline may name in place of that of the evidence: a lost write, and a fault of one call or two.
LOST, FAULTS = "Acknowledged write lost", {"Stale read", "Acknowledged write not seen", "Acknowledged write lost"}
INSTEAD = {
    "pair-twice": FAULTS,
    "no-writer": {*FAULTS, "Lost update", "Condition not honoured", "One version given twice"},
    "stale-get": {LOST},
    "stale-swap": {LOST},
}

# The headline if no anomaly is found.
CONTRADICTION = "The replies contradict one another"

# What a story says only if there is no order.
PROVED = ("This is proved", "no order of the calls explains", "No order of the calls explains")


class History(NamedTuple):
    """A history in a reading of a conflict: its text, whether its writes are settled, and whether it has an order."""

    text: str
    reading: str
    is_settled: bool
    is_explained: bool


def is_settled(calls, reading):
    """Whether each write has a reply, under maybe one other than a conflict."""
    return all(it.op.name == "get" or has_known_outcome(it, reading) for it in calls)


def history_of(events, shard_of, reading):
    """The history of these events."""
    calls = list(known_calls(events).values())
    text = "".join(lines(events, shard_of))
    return History(text, reading, is_settled(calls, reading), has_order(calls, reading, shard_of))


def story_of(program, history, line, *options):
    """The story of the history, which begins with this line."""
    status, story = said(run(program, ["explain", "--conflicts", history.reading, *options], history.text))
    if not story.startswith(line) or status != status_of(line):
        raise AssertionError(f"{line}, and a story begins with {story[:100]} and has the status {status}")
    return story


def weight_of(story):
    """How the sentence of a story begins that says how sure it is; None if there is none."""
    begun = [it for it in WEIGHTS if f"\n{it}" in story]
    if len(begun) > 1:
        raise AssertionError(f"a story says {begun}")
    return begun[0] if begun else None


def is_late(history, line):
    """Whether a call that the evidence of a line names is answered only after the broken reply."""
    found = OFFENCE.fullmatch(line)
    if not found or not found["calls"]:
        return False
    calls = known_calls(list(events_of(history.text)))
    return any(calls[int(it)].replied > int(found["event"]) for it in found["calls"].split(","))


def weights_that_fit(history, line, ruled_out):
    """How that sentence may begin, if a check answers these lines, the second one with --rule-out. Reasons that precede
    the broken reply may be others than the evidence of the line."""
    kind, is_settled = kind_of(line), history.is_settled
    if kind == "yes":
        return {None}
    if kind == "ruled-out":
        return {LINE_RULED_OUT}
    if kind != "no":
        return {EVIDENT, LINE_RULED_OUT} if is_late(history, line) else {EVIDENT}
    # (a story says why a document is ruled out, also if the line doesn't)
    by_itself = {ANSWERED} if is_settled else {DOCUMENT_ANSWERED, UNDECIDED}
    return by_itself | {RULED_OUT} if kind_of(ruled_out) == "ruled-out" else by_itself


def check_line(history, line):
    """The line may be the answer to the history."""
    kind = kind_of(line)
    if kind == "yes" and not history.is_explained:
        raise AssertionError(f"{line}, and there is no order")
    if kind not in ("yes", "no") and history.is_explained:
        raise AssertionError(f"{line}, and there is an order")
    if kind == "no" and history.is_settled and history.is_explained:
        raise AssertionError(f"{line}, each write has a reply that shows what became of it, and there is an order")


def check_story(history, line, ruled_out, story):
    """The story may be that of the history that gets the line, and with --rule-out the other one."""
    if history.is_explained and any(it in story for it in PROVED):
        raise AssertionError(f"there is an order, and a story says: {story[:600]}")
    if weight_of(story) not in weights_that_fit(history, line, ruled_out):
        raise AssertionError(f"{line}, and a story says: {story[:600]}")
    check_headline(history, line, story)


def check_headline(history, line, story):
    """The headline of a story names an anomaly if the line has evidence: that of the evidence or one that comes before it,
    if no call of it is answered after the broken reply. Otherwise it names one only if a document is ruled out, or says
    that replies contradict."""
    _, _, title, *_ = story.split("\n")
    anomaly, weight = title.partition(":")[0], weight_of(story)
    fits = anomaly in ANOMALIES if weight == EVIDENT else anomaly not in ANOMALIES
    if weight in (LINE_RULED_OUT, RULED_OUT):
        fits = anomaly in ANOMALIES or anomaly == CONTRADICTION
    kind = kind_of(line)
    is_named = anomaly in {ANOMALY_OF.get(kind, anomaly), *INSTEAD.get(kind, ())}
    if not fits or not is_named and not is_late(history, line):
        raise AssertionError(f"{line}, and the headline is {title}")


def check_reasons(program, history, line, story):
    """The reasons cite a line after the broken reply only if the events up to it aren't refuted by themselves, or if
    reasons without a later line come second."""
    why = reasons(story)
    cited = lines_cited(why)
    if not cited:
        return
    broken = int(OFFENCE.fullmatch(line)["event"]) + 1
    if max(cited) <= broken:
        return
    begin = "".join(history.text.splitlines(keepends=True)[:broken])
    if kind_of(answer(program, "check", begin, history.reading, "--rule-out")) == "no":
        return
    second = why.partition(f"Without the lines after line {broken} that is not seen yet, ")[2].partition("\n")[2]
    if not lines_cited(second) or max(lines_cited(second)) > broken:
        raise AssertionError(f"{line}, and the reasons cite later lines: {story[:1200]}")


def check_explanation(program, history, line, ruled_out, *options):
    """Checks the explanation of a history that gets this line with the options."""
    story = story_of(program, history, line, *options)
    check_story(history, line, ruled_out, story)
    check_reasons(program, history, line, story)


def judged(program, history):
    """Judges a history; returns the lines of `check` and of `check --rule-out`."""
    line, ruled_out = (answer(program, "check", history.text, history.reading, *its) for its in ([], ["--rule-out"]))
    if without_option(ruled_out) != line or kind_of(line) == "ruled-out":
        raise AssertionError(f"{line}, and with --rule-out {ruled_out}")
    for it in (line, ruled_out):
        check_line(history, it)
    check_explanation(program, history, line, ruled_out)
    if ruled_out != line:
        check_explanation(program, history, ruled_out, ruled_out, "--rule-out")
    return line, ruled_out


def judged_small(program, seed):
    """Judges a small history in both readings; returns its kind in each."""
    small = small_history(seed)
    return [kind_in_words(program, history_of(*small, reading)) for reading in READINGS]


def kind_in_words(program, history):
    """Judges a history; returns its kind in words: whether it is settled, whether it has an order, and its answer
    without --rule-out, then with it if that is another one."""
    words = ["settled" if history.is_settled else "unsettled", "an order" if history.is_explained else "no order"]
    for line in dict.fromkeys(judged(program, history)):
        words.append(("then " if line.startswith("refuted kind=ruled-out ") else "") + line.partition(" ")[0])
    return ", ".join(words)


# The fixed histories.

# The least pair of the last term.
LAST = (MOST_OF_PAIR, 0)

# Two conflicts on a version that stood: the first one may hide a write that was performed, and the second one met that.
HIDDEN = index(0) + created(0, *LAST) + index(1, condition(*LAST), k=2) + conflict(1)
HIDDEN += index(2, condition(*LAST), k=3) + conflict(2)

# A delete without a reply, which is needed twice.
NEEDED_TWICE = index(0) + created(0, 1, 0) + delete(1) + lost(1)
NEEDED_TWICE += index(2, k=2) + created(2, 1, 5) + index(3, k=3) + created(3, 1, 9)

# A write without a reply, whose number a get found at the version of another write.
OTHER_NUMBER = index(0) + created(0, 1, 0) + index(1, k=7) + lost(1) + get(2) + found(2, 1, 0, k=7)

# Two documents of a shard that need one number, each for a delete without a reply.
ONE_NUMBER = index(0, doc="a") + created(0, 1, 0) + index(1, doc="b", k=2) + created(1, 1, 1)
ONE_NUMBER += delete(2, doc="a") + lost(2) + delete(3, doc="b") + lost(3)
ONE_NUMBER += index(4, doc="a", k=3) + created(4, 1, 3) + index(5, doc="b", k=4) + created(5, 1, 4)

# Name, text, reading, the lines of `check` and of `check --rule-out`, whether each write is settled, and whether there
# is an order.
FIXED = [
    ("a hidden write", HIDDEN, "maybe", no(3, 1), no(3, 1), False, True),
    ("the same if nothing is hidden", HIDDEN, "plain", no(3, 1), refuted("ruled-out", 1, 3, 1), True, False),
]
FIXED += [("a delete that is needed twice", NEEDED_TWICE, it, no(7, 3), refuted("ruled-out", 3, 7, 3), False, False) for it in READINGS]
FIXED += [("a number of another version", OTHER_NUMBER, it, no(5, 2), refuted("ruled-out", 0, 5, 2), False, False) for it in READINGS]
FIXED += [("two deletes that need one number", ONE_NUMBER, it, no(11, 5), no(11, 5), False, False) for it in READINGS]

# An order of the first one.
HIDDEN_ORDER = witness_of("d", places_of(f"0 1={MOST_OF_PAIR}/1 2"))


class SmallHistories(ProgramTest):
    """Small histories, fixed and drawn."""

    def check_fixed(self, text, reading, *wanted):
        history = history_of(list(events_of(text)), one_shard, reading)._replace(text=text)
        self.assertEqual((*judged(self.program, history), history.is_settled, history.is_explained), wanted)

    def test_fixed(self):
        """The fixed histories get their lines, are settled or not, and have an order or not."""
        self.run_subtests(self.check_fixed, [(f"{row[0]}, {row[2]}", *row[1:]) for row in FIXED])

    def test_order_of_hidden_write(self):
        """The order of a history is verified, if a conflict may hide a write."""
        self.assertEqual(asked(self.program, "verify", HIDDEN, HIDDEN_ORDER, conflicts="maybe"), (0, verified(3)))

    def test_sentences(self):
        """README has the sentences, wherever its lines end and whatever of it is bold."""
        readme = (TOP / "README.md").read_text(encoding="utf-8").replace("**", "")
        for sentence in SENTENCES:
            with self.subTest(sentence):
                self.assertIn(sentence, " ".join(readme.split()))

    def test_drawn(self):
        """Drawn histories, enough of which are of each kind in each reading."""
        rows = [(f"small history {seed}", self.program, seed) for seed in range(DRAWN)]
        returned = self.run_subtests(judged_small, rows, ProcessPoolExecutor, chunksize=20)
        for reading, kinds in zip(READINGS, zip(*filter(None, returned))):
            counts = Counter(kinds)
            print(f"{reading}: " + "; ".join(f"{counts[it]} {it}" for it in sorted(counts)))
            for kind, least in LEAST.items():
                with self.subTest(f"how many are {kind}, {reading}"):
                    self.assertGreaterEqual(counts[kind], least)
            with self.subTest(f"how many are undecided, {reading}"):
                unordered = sum(count for kind, count in counts.items() if ", no order, " in kind)
                self.assertLessEqual(counts["unsettled, no order, no"] * 1000, MOST_UNDECIDED[reading] * unordered)


if __name__ == "__main__":
    sys.exit(run_tests())
