#!/usr/bin/env python3
"""Draws honest recordings, changes one reply of each, and has the built program report at which event the search first
fails.

    python3 tests/offences.py [PROGRAM]
    python3 tests/offences.py --large 4 [PROGRAM]

The second one draws recordings of 524,288 calls that lack several numbers, of 2, 3 and 4 documents by as many seeds,
and prints the answer to each and the processor time that it took.

PROGRAM is the built casbench; if it isn't named, the one that ./casbench would run. If no order is found, the answer
names the event of a reply. The text up to that event, itself with it, must then get no `yes`; and the text before it
must get `yes` if the answer says `shown`, and none if it says `unshown`. The recordings are of one document or four; in
half of them no call is lost, and there the event must not stand before the changed reply.

Of long recordings the reply is mostly guessed, so that it isn't looked for by some twenty searches more: in nine of ten
the check takes less than ten times the processor time of the check of the recording before the change. (By instructions
it takes at most five times; the rest is for a machine that does other work.) So it is if each document has an order by
itself, and a number is missing for a lost delete; and of some recordings of which several numbers are missing that lost
writes took.
"""

import bisect
import json
import os
import random
import re
import subprocess
import sys
import tempfile
from concurrent.futures import ProcessPoolExecutor

from drawing import CONFLICT, MISSING, Call, Draws, Ending, Op, Reply, lines, pair_taken, performed
from honest import Recording
from program import built_program
from program_test import ProgramTest, run_tests
from running import run, said
from texts import OFFENCE, no, status_of

# How many recordings there are of each change and number of documents. Some changes leave an order; so that not too
# much is tried in vain, so many of each must have none, and so many percent of all.
SEEDS, LEAST, LEAST_PERCENT = 32, 4, 62

# What the judgement of a recording is that keeps an order.
ORDER = "an order"

# How many calls a long recording has, its seed, and how many times the processor time a check may take if the guess is
# right.
LONG_CALLS, LONG_SEED, MOST_TIMES = 60_000, 7, 10

# How many calls the largest ones have: with their endings as many events as a text may have.
LARGE_CALLS = 524_288

# How many numbers are taken out of a long recording of which several are missing; its clients, and its part of lost
# calls; and the documents and the seeds of these recordings.
MISSING_NUMBERS, SHORT_CLIENTS, SHORT_LOSS, SHORT_RECORDINGS = 5, 32, 0.05, ((2, 4), (3, 13), (4, 7), (4, 8))


class Clients:
    """Four to sixteen clients of an index of one shard, and what was recorded of their calls."""

    def __init__(self, seed, docs):
        self.draws, self.docs = Draws(seed), docs
        self.calls = self.draws.below(351) + 50
        # How many calls of a hundred are lost.
        self.lost = self.draws.below(20) + 1
        if seed % 2 == 0:
            self.lost = 0
        # Of each document what it is, and the pair that was shown last.
        self.states, self.shown = [None] * docs, [None] * docs
        # Calls that were given up and may yet meet the index.
        self.late = []
        self.begun, self.seq, self.events = 0, 0, []

    def operation(self, doc):
        """A drawn operation: a condition names the pair that was shown last of the document. Each number is written
        once."""
        k, shown, draw = self.begun, self.shown[doc], self.draws.below(17)
        if 6 <= draw <= 9 and shown:
            return Op("index", k, shown)
        if 10 <= draw <= 11 and shown:
            return Op("delete", None, shown)
        if draw <= 11:
            return Op("get")
        return Op("create", k) if draw == 16 else Op("index", k) if draw <= 13 else Op("delete")

    def answer(self, call):
        """The call meets the index, which gives its reply."""
        reply, self.states[call.doc] = performed(self.states[call.doc], call.op, (1, self.seq))
        self.seq += pair_taken(reply) is not None
        return reply

    def is_lost(self):
        """Whether a call is lost on one of its two ways."""
        return self.draws.below(200) < self.lost

    def go_on(self, waiting):
        """What a client does next: nothing is waited for, or a call that has not met the index, or a call and its
        reply."""
        if waiting is None:
            if self.begun == self.calls:
                return None
            doc = self.draws.below(self.docs)
            call = Call(self.begun, doc, self.operation(doc))
            self.begun += 1
            self.events.append(call)
            return call, None
        call, reply = waiting
        if self.is_lost():
            if reply is None and self.draws.below(2) == 0:
                self.late.append(call)
            self.events.append(Ending(call.number, None))
            return None
        if reply is None:
            return call, self.answer(call)
        self.shown[call.doc] = reply.pair
        self.events.append(Ending(call.number, reply))
        return None

    def recorded(self):
        """The events of the recording."""
        clients = [None] * (self.draws.below(13) + 4)
        for _ in range(self.calls * 4):
            turn = self.draws.below(len(clients))
            clients[turn] = self.go_on(clients[turn])
            if self.draws.below(20) == 0 and self.late:
                self.answer(self.late.pop())
        return self.events


class ScarceClients(Clients):
    """Clients in the midst of whose calls a document is created, deleted by a lost call, and created again two numbers
    later; another document takes the number between."""

    def operation(self, doc):
        if self.begun == self.calls // 2:
            self.events += self.scarce()
            self.seq += 3
        return super().operation(doc)

    def scarce(self):
        """The calls that leave no number for the delete."""
        self.missing = self.seq + 1
        first, second, third = ((1, self.seq + more) for more in range(3))
        one, other, number = self.docs, self.docs + 1, self.calls
        yield from (Call(number, one, Op("create", 1)), Ending(number, Reply("indexed", first, True)))
        yield from (Call(number + 1, one, Op("delete")), Ending(number + 1, None))
        yield from (Call(number + 2, other, Op("create", 2)), Ending(number + 2, Reply("indexed", second, True)))
        yield from (Call(number + 3, one, Op("create", 3)), Ending(number + 3, Reply("indexed", third, True)))


# Each of these changes the reply to an operation, and gives None if it can't; `fresh` is a pair that no write has.


def missing(_, reply, __):
    """A get misses a document that is there."""
    return MISSING if reply.kind == "found" else None


def old_pair(_, reply, __):
    """A get shows the pair before the present one."""
    return reply._replace(pair=(1, reply.pair[1] - 1)) if reply.kind == "found" and reply.pair[1] else None


def other_number(_, reply, __):
    """A get shows the number of another write."""
    return reply._replace(more=reply.more - 1) if reply.kind == "found" and reply.more else None


def other_flag(op, reply, _):
    """An index says the other thing of whether it created the document."""
    return reply._replace(more=not reply.more) if op.name == "index" and reply.kind == "indexed" else None


def performed_after_all(op, reply, fresh):
    """A write is performed although it was refused."""
    return Reply("indexed", fresh, False) if op.name == "index" and reply.kind == "conflict" else None


def refused(_, reply, __):
    """A write that was performed gets the reply that it was refused."""
    return CONFLICT if pair_taken(reply) else None


CHANGES = [missing, old_pair, other_number, other_flag, performed_after_all, refused]


def changed(events, change):
    """Changes the first reply of the later half that can have the change. Gives its place; None if none can."""
    operations = {it.number: it.op for it in events if isinstance(it, Call)}
    named = [it.reply.pair for it in events if isinstance(it, Ending) and it.reply and it.reply.pair]
    named += [it.condition for it in operations.values() if it.condition]
    fresh = (1, max(seq for _, seq in named) + 1)
    for place in range(len(events) // 2, len(events)):
        event = events[place]
        if isinstance(event, Ending) and event.reply:
            other = change(operations[event.number], event.reply, fresh)
            if other:
                events[place] = Ending(event.number, other)
                return place
    return None


def answer(program, rows):
    """The answer to a history of these lines."""
    status, line = said(run(program, ["check"], "".join(rows)))
    if status != status_of(line):
        raise AssertionError(f"{line} with status {status}")
    return line


def is_explained(program, rows):
    return answer(program, rows).startswith("yes ")


def check_offence(program, text, line):
    """Checks that the line names the event with which the search first fails; returns its place."""
    offence = OFFENCE.fullmatch(line)
    if not offence:
        raise AssertionError(f"{line} names no event")
    event = int(offence["event"])
    named = json.loads(text[event])
    if (named["e"], named["n"]) != ("reply", int(offence["call"])):
        raise AssertionError(f"{line}: the event is no reply to the call")
    if is_explained(program, text[: event + 1]):
        raise AssertionError(f"{line}: the events up to it have an order")
    if is_explained(program, text[:event]) != (offence["before"] == "shown"):
        raise AssertionError(f"{line}: it is the other way round with the events before it")
    return event


def judged(program, change, docs, seed):
    """Judges a recording: returns the line, or `an order` if no reply of it can be changed, or an order is found."""
    events = Clients(seed, docs).recorded()
    place = changed(events, change)
    if place is None:
        return ORDER
    text = rows_of(events)
    line = answer(program, text)
    if line.startswith("yes "):
        return ORDER
    event = check_offence(program, text, line)
    if seed % 2 == 0 and event < place:
        raise AssertionError(f"{line}: the changed reply is later, at {place}")
    return line


def rows_of(events):
    """The lines of a history of these events, on one shard."""
    return list(lines(events, lambda doc: 0))


def seconds_of(program, text):
    """The processor time of a check of these lines, the least of three, and its answer."""
    times = []
    with tempfile.NamedTemporaryFile("w", suffix=".ndjson") as file:
        file.writelines(text)
        file.flush()
        for _ in range(3):
            ran = subprocess.Popen([program, "check", file.name], stdout=subprocess.PIPE, text=True)
            line = ran.stdout.read()
            _, status, usage = os.wait4(ran.pid, 0)
            ran.returncode = os.waitstatus_to_exitcode(status)
            ran.stdout.close()
            times.append(usage.ru_utime + usage.ru_stime)
    return min(times), line


def times_longer(program, change, docs):
    """How many times as long the check of a long recording takes after a change; None if the change leaves an order."""
    clients = Clients(LONG_SEED, docs)
    clients.calls = LONG_CALLS
    events = clients.recorded()
    before, line = seconds_of(program, rows_of(events))
    if not line.startswith("yes ") or changed(events, change) is None:
        return None
    after, line = seconds_of(program, rows_of(events))
    return None if line.startswith("yes ") else after / before


def check_scarce(program, docs):
    """Checks the answer to a long recording that lacks a number, and the time that it takes."""
    honest, clients = Clients(LONG_SEED, docs), ScarceClients(LONG_SEED, docs)
    honest.calls = clients.calls = LONG_CALLS
    before, _ = seconds_of(program, rows_of(honest.recorded()))
    events = clients.recorded()
    after, line = seconds_of(program, rows_of(events))
    last = LONG_CALLS + 3
    wanted = no(events.index(Ending(last, Reply("indexed", (1, clients.missing + 1), True))), last)
    if line.strip() != wanted.strip():
        raise AssertionError(f"{line}, and not {wanted}")
    if after >= before * MOST_TIMES:
        raise AssertionError(f"it takes {after:.2f} s, and the honest recording {before:.2f}")


def without_numbers(text, seed):
    """The lines of a history, some sequence numbers being taken out that no reply and no condition shows: lost writes
    took them."""
    numbered = re.compile(r'("(?:_seq_no|if_seq_no)":)(\d+)')
    shown = {int(it[2]) for line in text for it in numbered.finditer(line)}
    hidden = [it for it in range(max(shown)) if it not in shown]
    gone = sorted(random.Random(seed).sample(hidden, MISSING_NUMBERS))

    def less(match):
        return f"{match[1]}{int(match[2]) - bisect.bisect_left(gone, int(match[2]))}"

    return [numbered.sub(less, line) for line in text]


def check_short(program, docs, seed):
    """Checks the answer to a long recording of which several numbers are missing, and the time that it takes."""
    text = "".join(Recording(seed, docs, SHORT_CLIENTS, LONG_CALLS, SHORT_LOSS).lines()).splitlines(keepends=True)
    before, line = seconds_of(program, text)
    if not line.startswith("yes "):
        raise AssertionError(f"{line}, and not yes, with all numbers")
    text = without_numbers(text, seed)
    after, line = seconds_of(program, text)
    check_offence(program, text, line)
    if after >= before * MOST_TIMES:
        raise AssertionError(f"it takes {after:.2f} s, and the honest recording {before:.2f}")


def print_large(program, seeds):
    """Prints the answers to the largest recordings of which several numbers are missing, and what each took."""
    for docs in (2, 3, 4):
        for seed in range(1, seeds + 1):
            text = Recording(seed, docs, SHORT_CLIENTS, LARGE_CALLS, SHORT_LOSS).lines()
            text = without_numbers("".join(text).splitlines(keepends=True), seed)
            seconds, line = seconds_of(program, text)
            print(f"{docs} documents, seed {seed}: {seconds:.2f} s, {line.strip()}", flush=True)


class Offences(ProgramTest):
    """Recordings with one changed reply."""

    def test_drawn(self):
        """The event that is named is right. Of each kind of change enough recordings have no order, and of all."""
        kinds = {f"{change.__name__}, {docs} documents": (change, docs) for change in CHANGES for docs in (1, 4)}
        rows = []
        for kind, settings in kinds.items():
            rows += [(f"{kind}, seed {seed}", self.program, *settings, seed) for seed in range(SEEDS)]
        returned = self.run_subtests(judged, rows, ProcessPoolExecutor, chunksize=4, not_counted=(ORDER,))
        for at, kind in enumerate(kinds):
            count = SEEDS - returned[at * SEEDS : (at + 1) * SEEDS].count(ORDER)
            print(f"{kind}: {count} of {SEEDS} have no order")
            with self.subTest(f"how many have no order: {kind}"):
                self.assertGreaterEqual(count, LEAST)
        count = len(rows) - returned.count(ORDER)
        print(f"{count} of {len(rows)} have no order")
        with self.subTest("how many of all have no order"):
            self.assertGreaterEqual(count * 100, LEAST_PERCENT * len(rows))

    def test_long(self):
        """In long recordings the reply is mostly guessed, so that looking for it takes little time. Enough of them have
        no order."""
        changes = [(self.program, change, docs) for change in CHANGES for docs in (1, 4)]
        with ProcessPoolExecutor() as pool:
            times = [it for it in pool.map(times_longer, *zip(*changes)) if it is not None]
        right = sum(it < MOST_TIMES for it in times)
        checked = f"{right} are checked within {MOST_TIMES} times the time"
        print(f"{len(times)} of {len(changes)} long recordings have no order; {checked}")
        self.assertGreaterEqual(len(times) * 4, len(changes) * 3)
        self.assertGreaterEqual(right * 10, len(times) * 9)

    def test_missing_number(self):
        """A number that is missing for a lost delete is reported in time, if each document has an order by itself."""
        rows = [(f"{docs} documents", self.program, docs) for docs in (1, 2)]
        self.run_subtests(check_scarce, rows, ProcessPoolExecutor)

    def test_missing_numbers(self):
        """If several numbers are missing, the right reply is named in time."""
        rows = [(f"{docs} documents, seed {seed}", self.program, docs, seed) for docs, seed in SHORT_RECORDINGS]
        self.run_subtests(check_short, rows, ProcessPoolExecutor)


if __name__ == "__main__":
    if sys.argv[1:2] == ["--large"]:
        print_large(built_program(sys.argv[3:4]), int(sys.argv[2]))
    else:
        sys.exit(run_tests())
