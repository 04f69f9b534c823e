#!/usr/bin/env python3
"""Draws small histories, and compares what `check --rule-out` says of each in a reading with an exact search.

    python3 tests/small_readings.py [PROGRAM]

PROGRAM is the built casbench; if it isn't named, the one that ./casbench would run. The histories have three to seven
calls, of an index that makes faults and of one that only does what a weaker promise allows. The exact search reads a
history by itself, straight from what a reading says of each call, without the events that it is turned into. What has
to hold of every history is:

- `yes` is answered only if the history is explained under the reading.
- `refuted` is answered only if it isn't, and the evidence holds.
- What is explained strictly is explained under each reading, unless a loss is trusted.

The last part is of the options of readings: which values of options and of members are refused, and by which line there
is no room for the writes that may be repeated.
"""

import sys
from collections import Counter
from concurrent.futures import ProcessPoolExecutor

from drawing import CONFLICT, NAMES, Call, Draws, Ending, Op, Reply, pair_taken, performed
from evidence import holds, known_calls
from exact import has_order
from program_test import ProgramTest, run_tests
from reading_answers import check_all
from readings import OPENSEARCH, STRICT, History, Reading, conflicts_read, history_of, numbers_read, read_as, text_of
from readings import first_without_room, unexplained_gets
from ruled_out import FAULTS, Cluster, Due, stale_get
from running import run
from small_drawing import LOST, changed
from texts import EVENTS, condition, conflict, create, created, delete, deleted, found, get, index, missing, not_found
from texts import refused, updated, yes

# The readings, how many histories are drawn for each, and of how many the program is asked at once.
READINGS = {
    "gets of any copy": Reading(gets="any"),
    "conflicts that prove nothing": Reading(conflicts="unknown"),
    "writes that may be repeated": Reading(writes="repeated"),
    "losses that are trusted": Reading(failed="trusted"),
    "gets of any copy, conflicts that may hide a write": Reading(gets="any", conflicts="maybe"),
    "conflicts that may hide a write, writes that may be repeated": Reading(conflicts="maybe", writes="repeated"),
    "the profile of OpenSearch, writes performed once": OPENSEARCH._replace(writes="once"),
    "the profile of OpenSearch": OPENSEARCH,
}
TRUSTED = Reading(failed="trusted")
DRAWN, AT_ONCE = 5_000, 100

# How many of the histories of a reading have to be of each kind at least, and how many another than they are strictly.
# How many of them get `no` at most though they are explained.
LEAST, LEAST_CHANGED = {"explained, yes": 2_000, "unexplained, refuted": 300}, 20
MOST_MISSED = 100


# What an index does that keeps a weaker promise. Each answers a call in its way, and gives None if it can't.


def performed_twice(cluster, call):
    """A write is performed, and performed again if it is not refused then."""
    if call.op.name == "get" or pair_taken(cluster.would_answer(call)) is None:
        return None
    cluster.rightly(call)
    return cluster.rightly(call)


def dirty_get(cluster, call):
    """A get finds what a write of its document would have made, with a pair that no other write takes."""
    numbers = [it.op.k for it in cluster.events if isinstance(it, Call) and it.doc == call.doc and it.op.k is not None]
    if call.op.name != "get" or not numbers:
        return None
    cluster.seq += 1
    return Reply("found", (1, cluster.seq - 1), cluster.draws.one_of(numbers))


def refused_by_own_state(cluster, call):
    """A write under a condition is refused, by a state that was lost."""
    return CONFLICT if call.op.condition or call.op.name == "create" else None


WEAKER = [performed_twice, performed_twice, stale_get, stale_get, dirty_get, refused_by_own_state]


def recorded(draws, seed):
    """What clients recorded of an index that makes faults, or keeps a weaker promise."""
    cluster = Cluster(seed, draws.below(3) + 1)
    cluster.calls, cluster.lost = draws.below(5) + 3, draws.one_of(LOST)
    for _ in range(draws.one_of((0, 1, 1, 2))):
        cluster.faults.append(Due(draws.below(cluster.calls), draws.one_of(WEAKER + FAULTS)))
    return cluster.recorded()


class Copies:
    """A document with several copies, one of which answers a get, and what was recorded of it."""

    def __init__(self, draws):
        self.draws, self.events = draws, []
        # The states of the document one after another, how many were acknowledged, and the writes that aren't yet.
        self.states, self.acknowledged, self.waiting = [None], 0, []

    def get(self, number):
        """A get, of a copy that has all that was acknowledged; one of eight of any other."""
        first = self.acknowledged if self.draws.below(8) else 0
        state = self.draws.one_of(self.states[first:])
        self.events += [Call(number, 0, Op("get")), Ending(number, performed(state, Op("get"), None)[0])]

    def write(self, number):
        pair = self.states[-1] and self.states[-1][0]
        writes = Op("index", number), Op("index", number, pair), Op("create", number), Op("delete", None, pair)
        op = self.draws.one_of(writes)
        reply, state = performed(self.states[-1], op, (1, number))
        self.events.append(Call(number, 0, op))
        if reply != CONFLICT:
            self.states.append(state)
        self.waiting.append((Ending(number, reply), len(self.states) - 1))

    def end(self):
        """The ending of a write is recorded: one of five is lost."""
        ending, at = self.waiting.pop(self.draws.below(len(self.waiting)))
        is_lost = self.draws.below(5) == 0
        self.events.append(ending._replace(reply=None) if is_lost else ending)
        if not is_lost:
            self.acknowledged = max(self.acknowledged, at)

    def recorded(self):
        for number in range(self.draws.below(3) + 5):
            if self.waiting and self.draws.below(3) == 0:
                self.end()
            (self.get if self.draws.below(5) < 3 else self.write)(number)
        while self.waiting:
            self.end()
        return self.events


def text_with_voids(draws, small):
    """The text of a small history, half of whose lost calls are void."""
    lost = [it.number for it in small.events if isinstance(it, Ending) and it.reply is None]
    voids = frozenset(it for it in lost if draws.below(2))
    return text_of(History(small.events, voids, NAMES, tuple(map(small.shard_of, range(len(NAMES))))))


def small_history(seed):
    """The small history of this seed."""
    draws = Draws(seed)
    return text_with_voids(draws, changed(draws, Copies(draws).recorded() if seed % 3 == 0 else recorded(draws, seed)))


# The exact search, straight from what a reading says of each call.


def in_order(history, reading):
    """The calls that an order has to explain; those without a reply may be left out."""
    for call in known_calls(history.events).values():
        is_void = reading.failed == "trusted" and call.number in history.voids
        if is_void or call.op.name == "get" and reading.gets == "any":
            continue
        if call.op.name != "get" and call.op.condition is None and reading.writes == "repeated":
            yield again(call)
        if call.reply == CONFLICT and reading.conflicts == "unknown":
            call.replied, call.reply = None, None
        yield call


def again(call):
    """The same write, performed another time: it was called just behind the first one."""
    twin = known_calls([Call(call.number, call.doc, call.op)])[call.number]
    twin.called = call.called + 0.5
    return twin


def shows_what_copy_may(get, history, reading):
    """Whether a copy in sync may have answered the get."""
    calls = known_calls(history.events).values()
    heeded = history.voids if reading.failed == "trusted" else ()
    writes = [it for it in calls if it.doc == get.doc and it.op.name != "get" and it.number not in heeded]
    acknowledged = [it for it in writes if pair_taken(it.reply) and it.replied < get.called]
    begun = [it for it in writes if it.called < get.replied]
    undecided = (None, CONFLICT) if reading.conflicts in ("maybe", "unknown") else (None,)
    is_repeated = reading.writes == "repeated"
    if get.reply.kind == "found":
        fits = [it for it in begun if it.op.name != "delete" and it.op.k == get.reply.more]
        may_be_its = [it for it in fits if is_repeated or it.reply in undecided or it.reply.pair == get.reply.pair]
        return bool(may_be_its) and all(it.reply.pair <= get.reply.pair for it in acknowledged)
    deletes = [it for it in begun if it.op.name == "delete"]
    if any(it.reply in undecided or is_repeated and it.op.condition is None for it in deletes):
        return True
    gone = max((it.reply.pair for it in deletes if pair_taken(it.reply)), default=(0, 0))
    return all(it.reply.pair < gone for it in acknowledged if it.op.name != "delete")


def shows_what_copies_may(history, reading):
    """Whether copies in sync may have answered the gets, if any copy may."""
    gets = [it for it in known_calls(history.events).values() if it.op.name == "get" and it.reply]
    return reading.gets == "last" or all(shows_what_copy_may(it, history, reading) for it in gets)


def is_explained(history, reading):
    """Whether the history is explained under the reading."""
    calls = list(in_order(history, reading))
    return shows_what_copies_may(history, reading) and has_order(calls, conflicts_read(reading), history.shard_of)


# How they are judged.


def is_pair_twice(history, numbers):
    """Whether two different writes of one shard were answered with one pair."""
    one, two = (known_calls(history.events)[it] for it in numbers)
    is_one_shard = one is not two and history.shard_of(one.doc) == history.shard_of(two.doc)
    return is_one_shard and pair_taken(one.reply) is not None and pair_taken(one.reply) == pair_taken(two.reply)


def evidence_holds(history, reading, answer):
    """Whether the evidence that an answer names holds, if it can be seen by the calls that it names."""
    if answer.kind == "pair-twice":
        return is_pair_twice(history, answer.calls)
    if answer.kind == "ruled-out":
        return known_calls(history.events)[answer.calls[0]].reply is not None
    if reading.gets == "any" and answer.kind != "stale-swap":
        return (answer.kind, answer.calls) in unexplained_gets(reading, history.voids, history.events)
    numbers = numbers_read(reading, history.events)
    calls = known_calls(list(read_as(reading, history.voids, history.events)))
    return holds(answer.kind, calls, [numbers[it] for it in answer.calls], conflicts_read(reading))


def judged(text, reading, answer):
    """Judges an answer to a history; returns in words what the history is, and the answer."""
    history = history_of(text)
    was_explained, explained = is_explained(history, STRICT), is_explained(history, reading)
    if was_explained and not explained and not (history.voids and reading.failed == "trusted"):
        raise AssertionError(f"strictly it is explained, and not under {reading}:\n{text}")
    if answer.word not in ("yes", "no", "refuted") or answer.word == ("refuted" if explained else "yes"):
        raise AssertionError(f"{answer}, and whether it is explained under {reading}: {explained}\n{text}")
    if answer.word == "refuted" and not evidence_holds(history, reading, answer):
        raise AssertionError(f"{answer}, which doesn't hold under {reading}\n{text}")
    words = "explained" if explained else "unexplained"
    if explained != was_explained:
        words += " thanks to the reading"
    return f"{words}, {answer.word}"


def judged_some(program, reading, first):
    """Judges the histories of some seeds; returns how many are of each kind."""
    texts = [small_history(seed) for seed in range(first, first + AT_ONCE)]
    answers = check_all(program, texts, reading)
    return Counter(judged(text, reading, answer) for text, answer in zip(texts, answers))


# The fixed histories.

# The loss of a call that was not performed.
VOID = '{"e":"lost","n":0,"void":true}\n'

ANY, COPIES_OF_MAYBE = Reading(gets="any"), Reading(gets="any", conflicts="maybe")
ANY_REPEATED, ANY_UNKNOWN = Reading(gets="any", writes="repeated"), Reading(gets="any", conflicts="unknown")

# A document that is there as 1/0, and a write of it.
MADE = create(0) + created(0, 1, 0)
NEXT = index(1, k=2), updated(1, 1, 1)
GONE = delete(1, condition(1, 0)), deleted(1, 1, 1)

# A get of 1/0, and one that finds nothing.
OLD, NOTHING = (get(2), found(2, 1, 0)), (get(2), missing(2))

# Two copies that don't show the same; what was deleted before it was written; a get of what was refused.
TWO_COPIES = MADE + NEXT[0] + get(3) + found(3, 1, 1, k=2) + "".join(OLD) + NEXT[1]
BACK = delete(1) + not_found(1, 1, 0) + index(0) + created(0, 1, 1)
REFUSED = MADE + create(1, k=2) + conflict(1) + get(2) + found(2, 1, 5, k=2)

# A write of which the coordinating node sees a conflict with itself, a delete of what it wrote, which ends alike, and a
# write after another copy became the primary.
HIDDEN = index(1, condition(1, 0), k=2) + conflict(1) + delete(2, condition(1, 1)) + conflict(2)
AFTER_HIDDEN = MADE + HIDDEN + create(3, k=3) + created(3, 2, 4)

# A write that two primaries performed before a third one did, and what was written in between.
THRICE = index(0) + index(1, condition(1, 0), k=2) + updated(1, 1, 1)
THRICE += index(2, condition(2, 2), k=3) + updated(2, 2, 3) + updated(0, 3, 4)

# Name, text, reading, whether it is explained, and the answer: its kind of evidence, or its first word.
FIXED = [
    ("an old version, after the new one", MADE + "".join(NEXT + OLD), ANY, False, "stale-get"),
    ("an old version, beside the new one", MADE + NEXT[0] + OLD[0] + NEXT[1] + OLD[1], ANY, True, "yes"),
    ("two copies", TWO_COPIES, ANY, True, "yes"),
    ("the same of one copy", TWO_COPIES, STRICT, False, "ruled-out"),
    ("a number before it is written", get(1) + found(1, 1, 0) + MADE, ANY_REPEATED, False, "no-writer"),
    ("another pair of a number", MADE + get(1) + found(1, 1, 5), ANY, False, "no-writer"),
    ("a pair of the first time", MADE + get(1) + found(1, 1, 5), ANY_REPEATED, True, "yes"),
    ("a pair of a lost write", create(0) + get(1) + found(1, 1, 5), ANY, True, "yes"),
    ("a pair of a conflict", REFUSED, ANY, False, "no-writer"),
    ("one that may hide it", REFUSED, COPIES_OF_MAYBE, True, "yes"),
    ("nothing, after a write", MADE + "".join(NOTHING), ANY_UNKNOWN, False, "missed-write"),
    ("nothing, beside a write", create(0) + get(2) + created(0, 1, 0) + missing(2), ANY, True, "yes"),
    ("nothing, beside a delete", MADE + NOTHING[0] + GONE[0] + NOTHING[1] + GONE[1], ANY, True, "yes"),
    ("nothing, before a delete", MADE + "".join(NOTHING + GONE), ANY, False, "missed-write"),
    ("nothing, after a conflict", MADE + GONE[0] + conflict(1) + "".join(NOTHING), ANY_REPEATED, False, "missed-write"),
    ("nothing, after one that proves less", MADE + GONE[0] + conflict(1) + "".join(NOTHING), ANY_UNKNOWN, True, "yes"),
    ("nothing, after a delete before", BACK + "".join(NOTHING), ANY, False, "missed-write"),
    ("one that is repeated", BACK + "".join(NOTHING), ANY_REPEATED, True, "yes"),
    ("a void write that is read", index(0) + VOID + get(1) + found(1, 1, 0), TRUSTED, False, "no-writer"),
    ("the same under the profile", index(0) + VOID + get(1) + found(1, 1, 0), OPENSEARCH, False, "no-writer"),
    ("the same if it may be performed", index(0) + VOID + get(1) + found(1, 1, 0), STRICT, True, "yes"),
    # (its conflict is turned into the write that the delete asks for)
    ("a delete of a hidden write", AFTER_HIDDEN, OPENSEARCH, True, "yes"),
    # (nothing explains it, and no evidence shows that)
    ("a write that was performed three times", THRICE, OPENSEARCH, False, "no"),
]


def check_fixed(program, text, reading, is_so, word):
    """The history is explained or not, and gets the answer."""
    answer = check_all(program, [text], reading)[0]
    if (is_explained(history_of(text), reading), answer.kind or answer.word) != (is_so, word):
        raise AssertionError(f"{answer}, and not {word}")
    judged(text, reading, answer)


def changed_kind(reading):
    """The kind of a history of which the reading makes another than it is strictly: trusted losses explain less."""
    if reading == TRUSTED:
        return "unexplained thanks to the reading, refuted"
    return "explained thanks to the reading, yes"


class SmallReadings(ProgramTest):
    """Small histories in each reading."""

    def test_fixed(self):
        """The fixed histories are explained or not, and get their answers."""
        self.run_subtests(check_fixed, [(name, self.program, *its) for name, *its in FIXED])

    def test_drawn(self):
        """Drawn histories, enough of which are of each kind in each reading."""
        firsts = range(0, DRAWN, AT_ONCE)
        for at, (name, reading) in enumerate(READINGS.items()):
            rows = [(f"{name}, from {it} on", self.program, reading, at * DRAWN + it) for it in firsts]
            counts = sum(filter(None, self.run_subtests(judged_some, rows, ProcessPoolExecutor)), Counter())
            print(f"{name}: " + "; ".join(f"{counts[it]} {it}" for it in sorted(counts)))
            for kind, least in {**LEAST, changed_kind(reading): LEAST_CHANGED}.items():
                with self.subTest(f"how many are {kind}, {name}"):
                    self.assertGreaterEqual(counts[kind], least)
            missed = counts["explained, no"] + counts["explained thanks to the reading, no"]
            with self.subTest(f"how many are explained and get no, {name}"):
                self.assertLessEqual(missed, MOST_MISSED)


# The options of readings.

# Of each option the values that it has.
VALUES = {
    "gets": ("last", "any"),
    "conflicts": ("plain", "maybe", "unknown"),
    "writes": ("once", "repeated"),
    "failed": ("lost", "trusted"),
    "profile": ("strict", "opensearch"),
}
COMMANDS = {"check": ("h",), "witness": ("h",), "verify": ("h", "w"), "explain": ("h",)}

# Values of the member that are neither true nor false.
NO_VOIDS = ("1", "0", "null", '"true"', "[]", "{}")

# A text that gets another answer by each option: gets of two copies, a conflict with the write itself, a write that was
# performed twice, and one that was not performed.
APART = {
    "gets": MADE + index(1, k=2) + get(2) + found(2, 1, 1, k=2) + get(3) + found(3, 1, 0) + updated(1, 1, 1),
    "conflicts": MADE + index(1, condition(1, 0), k=2) + conflict(1) + get(2) + found(2, 1, 1, k=2),
    "writes": index(0) + get(1) + found(1, 1, 0) + updated(0, 1, 5),
    "failed": index(0) + VOID + get(1) + found(1, 1, 0),
}


def options_in_words(reading):
    return " ".join(reading.options())


class Options(ProgramTest):
    """The options of readings, their values, and the member that one of them reads."""

    def check_refused(self, arguments, *words):
        """The arguments are refused, nothing is read, and the first line says why with these words."""
        status, out, why = run(self.program, arguments)
        self.assertEqual((status, out), (64, ""))
        first, *_ = why.splitlines()
        self.assertTrue(first.startswith("error: ") and all(it in first for it in words), why)
        self.assertIn("\nUsage: casbench", why)

    def test_twice(self):
        """An option that comes twice is refused, with the usage of the command."""
        rows = []
        for command, files in COMMANDS.items():
            for name, values in VALUES.items():
                twice = [command, *files, f"--{name}", values[0], f"--{name}", values[-1]]
                rows.append((" ".join(twice), twice, f"'--{name} <", "cannot be used multiple times"))
        self.run_subtests(self.check_refused, rows)

    def test_unknown_values(self):
        """A value that an option doesn't have is refused, and those that it has are named."""
        rows = []
        for command, files in COMMANDS.items():
            for name, values in VALUES.items():
                for value in ("", "none", values[0].upper(), f"{values[0]},{values[-1]}"):
                    arguments = [command, *files, f"--{name}={value}"]
                    rows.append((" ".join(arguments), arguments, f"--{name}", *values))
        self.run_subtests(self.check_refused, rows)

    def check_alike(self, text, one, other):
        """Two lists of options get one answer."""
        first, second = (run(self.program, ["check", *it.split()], text) for it in (one, other))
        self.assertEqual(first, second)

    def test_profiles(self):
        """A profile is short for its options, and an option beside it overrides it. Without an option it is strict."""
        whole = f"{options_in_words(OPENSEARCH)} --rule-out"
        rows = []
        for name, text in APART.items():
            other = OPENSEARCH._replace(**{name: getattr(STRICT, name)})
            rows.append((f"opensearch, {name}", text, "--profile opensearch", whole))
            rows.append((f"strict, {name}", text, "--profile strict", ""))
            overridden = f"--profile opensearch --{name} {getattr(STRICT, name)}"
            rows.append((overridden, text, overridden, f"{options_in_words(other)} --rule-out"))
        self.run_subtests(self.check_alike, rows)

    def check_apart(self, name, text):
        """The value of an option that the profile has gets another first word than the default."""
        reading = STRICT._replace(**{name: getattr(OPENSEARCH, name)})
        answers = [check_all(self.program, [text], it)[0].word for it in (STRICT, reading)]
        self.assertNotEqual(*answers)

    def test_apart(self):
        """Each option makes a difference."""
        self.run_subtests(self.check_apart, [(name, name, text) for name, text in APART.items()])

    def check_answer(self, text, wanted, *options):
        self.assertEqual(run(self.program, ["check", *options], text)[1], wanted)

    def test_voids(self):
        """A void that is neither true nor false is refused if losses are trusted, and else ignored, as it is on other
        lines."""
        rows = []
        for value in NO_VOIDS:
            text = index(0) + f'{{"e":"lost","n":0,"void":{value}}}\n'
            elsewhere = index(0, f',"void":{value}') + created(0, 1, 0).replace('"e"', f'"void":{value},"e"')
            rows.append((f"{value}, trusted", text, refused(2, "shape"), "--failed", "trusted"))
            rows.append((f"{value}, the profile", text, "refused line=2 cause=shape\n", "--profile", "opensearch"))
            rows.append((f"{value}, ignored", text, yes(1, left_out=1)))
            rows.append((f"{value}, on other lines", elsewhere, yes(1), "--failed", "trusted"))
        for value in ("true", "false"):
            text = index(0) + f'{{"e":"lost","n":0,"void":{value}}}\n'
            rows.append((value, text, yes(1, left_out=1), "--failed", "trusted"))
        self.run_subtests(self.check_answer, rows)

    def test_room(self):
        """A write that may be repeated needs room for two calls."""
        text = "".join(map(index, range(EVENTS // 2))) + get(EVENTS)
        line = first_without_room(Reading(writes="repeated"), history_of(text)) + 1
        self.assertEqual(line, EVENTS // 2 + 1)
        self.check_answer(text, refused(line, "full"), "--writes", "repeated")
        self.check_answer(text, yes(line, left_out=line))


if __name__ == "__main__":
    sys.exit(run_tests())
