#!/usr/bin/env python3
"""Draws small histories, has the recording's package cut each into parts, and compares the parts with the whole by an
exact search; and has parts of a simulated OpenSearch judged.

    python3 tests/continuing.py [PROGRAM] [HISTORIES]

PROGRAM is the built casbench; if it isn't named, the one that ./casbench would run. HISTORIES is how many are cut at
moments of rest in each strict reading of a conflict (2,000), and half as many in full parts. They have 6 to 12 calls of
1 to 3 documents on one shard or two, up to 30 % of the calls lost, half of these void, honest ones and changed ones.
Each is recorded in parts of 1 to 4 calls, so that a document moves at drawn moments at which none of its calls is open;
and in parts that are full at 3 to 6 calls, so that it moves while its calls are open. In each weaker reading there are
fewer, among them some of a store that keeps no more than this promise. Some fixed histories have a write whose effect
comes late. What has to hold:

- If the whole is explained, by an order in which what a store did before it answered stands before the reply, and no
  void call was performed, each part is explained as a check reads it.
- Of the strict histories without an order, cut at moments of rest, at least 95 % have a part without one, and of those
  in several parts 90 %. What is missed is mostly a pair that two documents took, with one of them in a part of its own:
  pairs are compared within a part. A weaker reading sees less in a part.
- No part of a recording of a simulated cluster that does what OpenSearch's documentation says is refuted under the
  profile.
"""

import json
import pathlib
import sys
import tempfile
from collections import Counter
from concurrent.futures import ProcessPoolExecutor
from enum import Enum
from typing import NamedTuple

from drawing import Draws, pair_taken
from evidence import found_document, known_calls
from exact import has_order
from opensearch import NoFault, Recording, drawn_settings
from program_test import ProgramTest, run_tests
from reading_answers import check
from readings import OPENSEARCH, STRICT, Reading, conflicts_read, history_of, text_of
from recordings import own_reading
from ruled_out import FAULTS, Cluster, Due
from small_drawing import changed
from small_readings import READINGS, WEAKER, in_order, is_explained, shows_what_copies_may, text_with_voids
from texts import condition, conflict, create, created, delete, deleted, found, get, index, lost, missing, updated

from casbench_recording.history import MOST_EVENTS, Operation, Pair
from casbench_recording.history.continuing import Continuing, TooManyLost

# The readings of a conflict that are strict otherwise.
MAYBE = Reading(conflicts="maybe")
STRICTER = {"plain": STRICT, "maybe": MAYBE}

# How many histories are drawn if no number is named, and in each weaker reading.
DRAWN, DRAWN_WEAKER = 2_000, 200


class Percents(NamedTuple):
    """How many percent of the histories are in several parts at least, are explained and aren't; and how many percent
    of those that aren't explained show it in a part, of all and of those in several parts."""

    cut: int
    explained: int
    unexplained: int
    shown: int
    shown_if_cut: int


LEAST, LEAST_WEAKER = Percents(40, 40, 20, 95, 90), Percents(40, 40, 5, 60, 40)

# How many recordings of a cluster are judged in parts, and how many calls their parts have.
CLUSTERS, CALLS_OF_PARTS = 60, (20, 40, 80, 150)


class Cut(Enum):
    """When documents move to the next part."""

    AT_REST = "at rest"
    FULL = "full"


class Recorded(NamedTuple):
    """What came of a history: whether it is explained, and of each of its parts whether that is."""

    whole: bool
    parts: tuple


def drawn_history(draws, seed, faults):
    """The text of a history whose index makes some of these faults."""
    cluster = Cluster(seed, draws.below(3) + 1)
    cluster.calls, cluster.lost = draws.below(7) + 6, draws.one_of((0, 0, 10, 20, 30))
    for _ in range(draws.one_of((0, 0, 1, 2))):
        cluster.faults.append(Due(draws.below(cluster.calls), draws.one_of(faults)))
    return text_with_voids(draws, changed(draws, cluster.recorded()))


# Fixed histories of one document, each with the readings in which they are explained: a conflict that hides a write; the
# same if a get was called before the conflict's reply; two lost writes of one value, of which the one with a condition
# was found first; a write that was refused although nothing is known to refuse it; and gets of a copy that is behind.
STARTED = index(0) + created(0, 1, 0)
HIDDEN = index(2, condition(1, 0), k=2) + conflict(2)
EQUAL = index(1, k=5) + lost(1) + index(2, condition(1, 0), k=5) + lost(2)
EQUAL += get(3) + found(3, 1, 1, k=5) + get(4) + found(4, 1, 2, k=5)
AGAIN = index(1, k=2) + lost(1) + get(2) + found(2, 1, 1, k=2) + index(3, condition(1, 1), k=3) + updated(3, 1, 2)
AGAIN += get(4) + found(4, 1, 3, k=2)
UNKNOWN = Reading(conflicts="unknown")
ANY, ANY_UNKNOWN = Reading(gets="any"), Reading(gets="any", conflicts="unknown")
LATE = [
    ("a hidden write", STARTED + HIDDEN + get(3) + found(3, 1, 1, k=2), (MAYBE, UNKNOWN)),
    (
        "one that a get overlaps",
        STARTED + get(1) + HIDDEN + found(1, 1, 0) + get(3) + found(3, 1, 1, k=2),
        (MAYBE, UNKNOWN),
    ),
    (
        "one that a copy shows late",
        STARTED + HIDDEN + get(3) + found(3, 1, 0) + get(4) + found(4, 1, 1, k=2),
        (ANY_UNKNOWN, OPENSEARCH),
    ),
    ("equal values", STARTED + EQUAL, (STRICT, MAYBE, UNKNOWN, ANY)),
    ("a lost write that is performed again", STARTED + AGAIN, (Reading(writes="repeated"),)),
    (
        "an unacknowledged write that two copies show",
        STARTED + index(1, k=2) + lost(1) + "".join(get(n) + found(n, 1, n % 2, k=1 + n % 2) for n in (3, 4, 5)),
        (ANY, OPENSEARCH),
    ),
    (
        "a create behind a delete, both of which are refused",
        STARTED + delete(1, condition(1, 0)) + conflict(1) + create(2, k=2) + conflict(2) + get(3) + found(3, 1, 2, k=2),
        (UNKNOWN, ANY_UNKNOWN, OPENSEARCH),
    ),
    (
        "a delete that a copy misses",
        STARTED + delete(1) + lost(1) + get(2) + missing(2) + get(3) + found(3, 1, 0) + delete(4) + deleted(4, 1, 1),
        (ANY, OPENSEARCH),
    ),
]


def operation_of(row):
    """The operation of the line of a call."""
    condition = Pair(row["if_primary_term"], row["if_seq_no"]) if "if_seq_no" in row else None
    return Operation(row["op"], row["id"], row.get("k"), condition, row.get("shard", 0))


def end(call, row):
    """Ends a call by its line."""
    if row["e"] == "reply":
        call.reply(row["status"], row["body"])
    elif row.get("void"):
        call.void()
    else:
        call.lost()


def record(recording, rows):
    """Records these lines. A document whose next part can't begin with all of its lost writes is recorded no longer."""
    calls = {}
    for row in map(json.loads, rows):
        if row["e"] == "call":
            try:
                calls[row["n"]] = recording.call_one(operation_of(row))
            except TooManyLost:
                continue
        elif row["n"] in calls:
            end(calls[row["n"]], row)


def done_by_the_reply(history, reading):
    """The calls that an order has to explain, as a store performs them: what it does again stands before what a reply
    shows, and what a conflict hides before each call that was made after its reply."""
    heard = known_calls(history.events)
    for it in in_order(history, reading):
        if it.reply is None and heard[it.number].reply is not None:
            it.over, it.ahead_of = heard[it.number].replied, it.number
        yield it


def may_be_met(write, pair, writes):
    """Whether a write may take the pair although these writes of its document were answered: none of them stands between
    its condition and the pair, and a create has no version before it, unless a delete may be in between."""
    before = [it for it in writes if pair_taken(it.reply) and it.reply.pair < pair]
    last = max(before, key=lambda it: it.reply.pair, default=None)
    if last is None:
        return True
    if write.op.condition is not None:
        return last.reply.pair <= write.op.condition
    open_deletes = [it for it in writes if it.op.name == "delete" and pair_taken(it.reply) is None]
    is_free = any(it.op.condition is None or it.op.condition >= last.reply.pair for it in open_deletes)
    return write.op.name != "create" or last.op.name == "delete" or is_free


def shows_what_was_met(history):
    """Whether each get found what a write may have made whose condition was met: no copy has anything else."""
    calls = [it for it in known_calls(history.events).values() if it.number not in history.voids]
    for shown in filter(found_document, calls):
        writes = [it for it in calls if it.doc == shown.doc and it.op.name != "get" and it.called < shown.replied]
        if not any(it.op.k == shown.reply.more and may_be_met(it, shown.reply.pair, writes) for it in writes):
            return False
    return True


def is_explained_whole(history, reading):
    """Whether the history is explained, by what a store did before it answered, and without what void calls ask for."""
    reading = reading._replace(failed="trusted")
    calls = list(done_by_the_reply(history, reading))
    is_shown = reading.gets == "last" or shows_what_was_met(history) and shows_what_copies_may(history, reading)
    return is_shown and has_order(calls, conflicts_read(reading), history.shard_of)


def parts_of(rows, reading, part, most_events=MOST_EVENTS):
    """Records these lines in parts; returns their texts."""
    with tempfile.TemporaryDirectory() as folder:
        folder = pathlib.Path(folder) / "parts"
        with Continuing(str(folder), part, own_reading(reading), most_events) as recording:
            record(recording, rows)
        texts = [it.read_text() for it in sorted(folder.glob("*.ndjson"))]
        if len(texts) != len(list(folder.iterdir())):
            raise AssertionError("something else is left than finished parts")
    return texts


def recorded_in_parts(text, reading, part, most_events=MOST_EVENTS):
    """Records a history in parts; returns of each part whether it is explained."""
    return tuple(is_explained(history_of(it), reading) for it in parts_of(text.splitlines(), reading, part, most_events))


def recorded(seed, reading, cut):
    """Records a history in parts; returns what came of it."""
    draws = Draws(seed)
    text = drawn_history(draws, seed, FAULTS if reading in STRICTER.values() else FAULTS + WEAKER)
    part, most_events = (draws.below(4) + 1, MOST_EVENTS) if cut is Cut.AT_REST else (3, 2 * (draws.below(4) + 3))
    parts = recorded_in_parts(text, reading, part, most_events)
    if not all(parts) and is_explained_whole(history_of(text), reading):
        raise AssertionError(f"the whole is explained, and the parts: {parts}\n{text}")
    return Recorded(is_explained(history_of(text), reading), parts)


def shown_in(histories):
    """How many aren't explained, and how many of them show it in a part."""
    unexplained = [it for it in histories if not it.whole]
    return len(unexplained), sum(not all(it.parts) for it in unexplained)


def judged_parts(program, seed):
    """Records a simulated cluster without a fault in parts; returns how many there are, and what is said of them."""
    history = Recording(seed, drawn_settings(seed), NoFault()).history()
    text, part = text_of(history), CALLS_OF_PARTS[seed % len(CALLS_OF_PARTS)]
    parts = parts_of(text.splitlines(), OPENSEARCH, part, 3 * part if seed % 3 == 0 else MOST_EVENTS)
    answers = [check(program, it, OPENSEARCH) for it in parts]
    for it, answer in zip(parts, answers):
        if answer.word not in ("yes", "no"):
            raise AssertionError(f"{answer}\n{it[:20_000]}")
    return Counter(it.word for it in answers)


class Parts(ProgramTest):
    """Histories and their parts."""

    drawn = DRAWN

    def check_late(self, text, reading):
        """The fixed history is explained, and so is each of its parts, of one call each."""
        self.assertTrue(is_explained_whole(history_of(text), reading))
        self.assertEqual(set(recorded_in_parts(text, reading, 1)), {True})

    def test_late_effects(self):
        rows = [(f"{name}, {it}", text, it) for name, text, readings in LATE for it in readings]
        self.run_subtests(self.check_late, rows)

    def check_counts(self, name, histories, least):
        """Enough histories are in several parts, explained, and not; and enough of those that aren't show it in a part,
        if that is asked for."""
        are_cut = [it for it in histories if len(it.parts) > 1]
        (unexplained, shown), (unexplained_cut, shown_cut) = shown_in(histories), shown_in(are_cut)
        explained = len(histories) - unexplained
        print(f"{name}: {explained} explained; {unexplained} not, of which {shown} show it in a part")
        of_cut = f"{unexplained_cut} of them not explained, of which {shown_cut} show it in a part"
        print(f"{name}: {len(are_cut)} in several parts; {of_cut}")
        counts = [("in several parts", len(are_cut), least.cut), ("explained", explained, least.explained)]
        for kind, count, percent in [*counts, ("not explained", unexplained, least.unexplained)]:
            with self.subTest(f"how many are {kind}, {name}"):
                self.assertGreaterEqual(count * 100, percent * len(histories))
        in_parts = (unexplained, shown, least.shown), (unexplained_cut, shown_cut, least.shown_if_cut)
        for total, count, percent in in_parts:
            with self.subTest(f"how many of {total} that aren't explained show it in a part, {name}"):
                self.assertGreaterEqual(count * 100, percent * total)

    def check_drawn(self, readings, count, least):
        """Cuts so many histories in each of these readings."""
        for title, reading in readings.items():
            for cut in Cut:
                seeds = range(count if cut is Cut.AT_REST else count // 2)
                name = f"{title}, {cut.value}"
                rows = [(f"history {it}, {name}", it, reading, cut) for it in seeds]
                histories = self.run_subtests(recorded, rows, ProcessPoolExecutor, chunksize=20)
                of_cut = least if cut is Cut.AT_REST else least._replace(shown=0, shown_if_cut=0)
                self.check_counts(name, [it for it in histories if it], of_cut)

    def test_drawn(self):
        """If a drawn history is explained, so is each part; and most of those that aren't have a part that isn't."""
        self.check_drawn(STRICTER, self.drawn, LEAST)

    def test_drawn_in_weaker_readings(self):
        self.check_drawn(READINGS, min(self.drawn, DRAWN_WEAKER), LEAST_WEAKER)

    def test_clusters(self):
        """No part of a cluster without a fault is accused."""
        rows = [(f"cluster {it}", self.program, it) for it in range(CLUSTERS)]
        counts = sum(filter(None, self.run_subtests(judged_parts, rows, ProcessPoolExecutor)), Counter())
        print(f"parts of clusters without a fault: {counts['yes']} yes, {counts['no']} no")
        self.assertGreater(counts["yes"], 5 * CLUSTERS)


if __name__ == "__main__":
    if len(sys.argv) > 2 and not sys.argv[2].startswith("-"):
        Parts.drawn = int(sys.argv.pop(2))
    sys.exit(run_tests())
