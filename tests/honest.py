#!/usr/bin/env python3
"""Draws honest recordings, with calls that are lost before or after they took effect, and has the built program judge
them.

    python3 tests/honest.py [PROGRAM]
    python3 tests/honest.py --seed 7 [--docs 4] [--shards 1] [--clients 8] [--calls 800] [--loss 0.05] [--maybe 0.01]
    python3 tests/honest.py --long 200 [--sizes 20000,50000,200000] [--workers 2] [PROGRAM]

The second one writes a recording, and the third one judges so many long ones.

PROGRAM is the built casbench; if it isn't named, the one that ./casbench would run. Each recording is of an index that
kept its promise, so each should get `yes`. If calls were lost the search may miss an order, and so a few may get `no`
all the same: SETS says how many. Each `yes` is verified by its own witness. Long ones have 1 to 1,024 documents, 8 or
32 clients, and 1, 5 or 20 % of their calls lost, by their seeds, from 0 on.
"""

import argparse
import random
import sys
from concurrent.futures import ProcessPoolExecutor
from typing import NamedTuple, Optional

import texts
from program import built_program
from program_test import ProgramTest, run_tests
from running import asked


class Set(NamedTuple):
    """Recordings that are drawn alike: how many, on how many shards, how a conflict is read, how many calls each has (a
    few hundred if none are given), how many of them get `no`, and whether their clients only compare and set."""

    count: int
    shards: int
    reading: str
    calls: Optional[int]
    no: int
    swaps: bool = False


# How many get `no` is no promise: these numbers are what the program of this checkout answers. A change of the search
# may lessen them, and then they are renewed with it; if one grows, or changes without a change of the search, orders
# are missed that were found.
SETS = {
    "plain": Set(200, 1, "plain", None, 0),
    "plain, three shards": Set(200, 3, "plain", None, 0),
    "maybe": Set(600, 1, "maybe", None, 0),
    "maybe, three shards": Set(600, 3, "maybe", None, 0),
    "long": Set(20, 1, "plain", 50_000, 0),
    "longer": Set(6, 1, "plain", 200_000, 0),
    "compare-and-set": Set(160, 1, "maybe", 800, 0, swaps=True),
    "compare-and-set, long": Set(20, 1, "maybe", 4_000, 0, swaps=True),
    "compare-and-set, longer": Set(2, 1, "maybe", 50_000, 0, swaps=True),
}


class Index:
    """An index of some shards. The changes on each shard take rising numbers; a document is on the shard of its
    number."""

    def __init__(self, draw, docs, term, shards):
        self.draw, self.new_term, self.shards = draw, term, shards
        self.term, self.seq = [1] * shards, [0] * shards
        # Of each document the pair of its last change, and its value; None if it isn't there.
        self.last, self.value = [None] * docs, [None] * docs

    def shard_of(self, doc):
        return doc % self.shards

    def next_pair(self, shard):
        """The pair of the next change on a shard; now and then with a new term, which may count from 0 again."""
        if self.draw.random() < self.new_term:
            self.term[shard] += 1
            if self.draw.random() < 0.3:
                self.seq[shard] = 0
        self.seq[shard] += 1
        return self.term[shard], self.seq[shard] - 1

    def perform(self, call):
        """Performs a call, gives the line of its reply, and notes the pair that the document has then."""
        reply = self.reply_to(call)
        call.pair = self.last[call.doc] if self.value[call.doc] is not None else None
        return reply

    def reply_to(self, call):
        """Performs a call, and gives the line of its reply."""
        n, doc, kind, name = call.number, call.doc, call.kind, f"d{call.doc}"
        is_there = self.value[doc] is not None
        if kind == "get":
            return texts.found(n, *self.last[doc], self.value[doc], name) if is_there else texts.missing(n, name)
        if kind == "create" and is_there or call.condition and (not is_there or call.condition != self.last[doc]):
            return texts.conflict(n)
        self.last[doc] = self.next_pair(self.shard_of(doc))
        self.value[doc] = call.value
        if kind == "delete":
            reply = texts.deleted if is_there else texts.not_found
        else:
            reply = texts.updated if is_there else texts.created
        return reply(n, *self.last[doc], name)


class Call:
    """A call of a client. What is lost may take effect before its ending, after it, or never."""

    def __init__(self, number, doc, shard, kind, value, condition):
        self.number, self.doc, self.shard = number, doc, shard
        self.kind, self.value, self.condition = kind, value, condition
        self.reply, self.is_lost, self.is_late, self.has_effect = None, False, False, True
        # The pair of the document after it, if it is there.
        self.pair = None

    def line(self):
        more = "" if self.value is None else ',"k":%d' % self.value
        if self.condition:
            more += texts.condition(*self.condition)
        if self.shard:
            more += f',"shard":{self.shard}'
        return texts.call(self.number, self.kind, more, f"d{self.doc}")


class Recording:
    """Clients at work on an index, and what they know of it."""

    def __init__(self, seed, docs, clients, calls, loss, creates=0.0, term=0.0, maybe=0.0, shards=1):
        self.draw = random.Random(f"honest {seed}")
        self.index = Index(self.draw, docs, term, shards)
        self.docs, self.calls, self.loss, self.creates, self.maybe = docs, calls, loss, creates, maybe
        self.open = [None] * clients
        # Of each client what it last heard of each document.
        self.known = [[None] * docs for _ in range(clients)]
        self.begun, self.ghosts = 0, []

    def condition(self, client, doc):
        """A condition, or none: the pair that the client knows, or one that is old or was never there."""
        chance = self.draw.random
        if chance() < 0.5:
            return None
        if chance() < 0.25:
            shard = self.index.shard_of(doc)
            return self.index.term[shard], self.draw.randrange(self.index.seq[shard] + 2)
        return self.known[client][doc]

    def operation(self, client, doc):
        """A drawn operation of a client: its kind, the value that it writes, and its condition."""
        chance = self.draw.random
        if chance() < 0.35:
            return "get", None, None
        if chance() < 0.1:
            return "delete", None, self.condition(client, doc)
        if chance() < self.creates:
            return "create", self.begun + 1, None
        return "index", self.begun + 1, self.condition(client, doc)

    def begin(self, client):
        """Begins a call."""
        chance, doc = self.draw.random, self.draw.randrange(self.docs)
        kind, value, condition = self.operation(client, doc)
        call = Call(self.begun, doc, self.index.shard_of(doc), kind, value, condition)
        if chance() < self.loss:
            call.is_lost, call.has_effect, call.is_late = True, chance() < 0.6, chance() < 0.5
        self.begun += 1
        self.open[client] = call
        return call.line()

    def end(self, client, call):
        """Ends a call: gives its line, which is empty if nothing more is heard of it."""
        self.open[client] = None
        if call.is_lost:
            if call.has_effect and call.is_late:
                self.ghosts.append(call)
            return self.draw.choice(["", texts.lost(call.number), f'{{"e":"reply","n":{call.number},"status":503}}\n'])
        conflict = texts.conflict(call.number)
        if call.kind != "get" and call.reply != conflict and self.draw.random() < self.maybe:
            return conflict
        if call.reply != conflict:
            self.known[client][call.doc] = self.index.last[call.doc]
        return call.reply

    def lines(self):
        """The lines of the recording."""
        chance = self.draw.random
        while self.begun < self.calls or any(self.open):
            if self.ghosts and chance() < 0.1:
                self.index.perform(self.ghosts.pop(self.draw.randrange(len(self.ghosts))))
            client = self.draw.randrange(len(self.open))
            call = self.open[client]
            if call is None:
                if self.begun < self.calls:
                    yield self.begin(client)
            elif call.reply is None and call.has_effect and not (call.is_lost and call.is_late):
                call.reply = self.index.perform(call)
            else:
                yield self.end(client, call)


class Swaps(Recording):
    """Clients that only compare and set: each writes a document under the pair that it knows, and takes the one that a
    conflict names. A write that was performed may be answered with a conflict, which names its own pair."""

    def operation(self, client, doc):
        pair = self.known[client][doc]
        if pair is None:
            return "create", self.begun + 1, None
        return ("delete", None, pair) if self.draw.random() < 0.05 else ("index", self.begun + 1, pair)

    def end(self, client, call):
        line = super().end(client, call)
        self.known[client][call.doc] = None if call.is_lost else call.pair
        return line


def short_settings(seed, kind):
    """The settings of a short recording: of one document or more, but of several if there are several shards."""
    draw = random.Random(f"settings {seed} {kind.reading}")
    docs = draw.choice([1, 1, 4, 40]) if kind.shards == 1 else draw.choice([4, 7, 40])
    return {
        "docs": docs,
        "clients": draw.choice([4, 16]),
        "calls": draw.choice([50, 200, 400]) if docs == 1 else 800,
        "loss": draw.choice([0.02, 0.05, 0.2]),
        "creates": draw.choice([0, 0.1]),
        "term": draw.choice([0, 0.01]),
        "maybe": 0.01 if kind.reading == "maybe" else 0,
        "shards": kind.shards,
    }


def long_settings(seed, calls):
    """The settings of a long recording."""
    draw = random.Random(f"settings {seed} long")
    settings = {"docs": draw.choice([1, 4, 16, 64]), "clients": draw.choice([8, 32])}
    return settings | {"calls": calls, "loss": draw.choice([0.01, 0.05])}


def judged_with(program, clients, settings, reading, seed):
    """Judges a recording of such clients with these settings: `yes` if that is the answer and its own witness verifies
    it, or else `no`."""
    history = "".join(clients(seed, **settings).lines())
    status, order = asked(program, "witness", history, conflicts=reading)
    if status == 1 and order.startswith("no "):
        return "no"
    status, line = asked(program, "verify", history, order, conflicts=reading)
    if status != 0 or not line.startswith("verified "):
        raise AssertionError(f"{order[:100]}, and {line}")
    return "yes"


def swap_settings(seed, calls):
    """The settings of a recording whose clients only compare and set. 1, 5 or 20 % of the writes that were performed are
    answered with a conflict."""
    draw = random.Random(f"settings {seed} swaps")
    settings = {"docs": draw.choice([1, 4, 16]), "clients": draw.choice([4, 8, 16]), "loss": draw.choice([0, 0, 0.02])}
    return settings | {"calls": calls, "maybe": draw.choice([0.01, 0.05, 0.2])}


def judged(program, kind, seed):
    """Judges a recording of a set."""
    if kind.swaps:
        return judged_with(program, Swaps, swap_settings(seed, kind.calls), kind.reading, seed)
    settings = long_settings(seed, kind.calls) if kind.calls else short_settings(seed, kind)
    return judged_with(program, Recording, settings, kind.reading, seed)


class HonestRecordings(ProgramTest):
    """Sets of recordings."""

    def test_sets(self):
        """Each recording gets `yes`, which its own witness verifies, or else `no`; of each set just so many get `no` as
        SETS says."""
        # (the long ones first, so that none of them is left for the end)
        names = sorted(SETS, key=lambda name: -(SETS[name].calls or 0))
        seeds = [(name, seed) for name in names for seed in range(SETS[name].count)]
        rows = [(f"{name}, {seed}", self.program, SETS[name], seed) for name, seed in seeds]
        answers = dict(zip(seeds, self.run_subtests(judged, rows, ProcessPoolExecutor)))
        for name, kind in SETS.items():
            unfound = [seed for seed in range(kind.count) if answers[name, seed] == "no"]
            print(f"{name}: {len(unfound)} of {kind.count} got no")
            with self.subTest(f"how many get no: {name}"):
                self.assertEqual(len(unfound), kind.no, unfound)


class LongRecordings(ProgramTest):
    """Long recordings of many settings, which are asked for."""

    seeds, sizes, workers = 0, [], 2

    def settings(self, seed):
        draw = random.Random(f"settings {seed} of many")
        settings = {"docs": draw.choice([1, 4, 16, 64, 1024]), "clients": draw.choice([8, 32])}
        return settings | {"calls": draw.choice(self.sizes), "loss": draw.choice([0.01, 0.05, 0.2])}

    def test_recordings(self):
        settings = list(map(self.settings, range(self.seeds)))
        rows = [(f"{seed}: {it}", self.program, Recording, it, "plain", seed) for seed, it in enumerate(settings)]
        answers = self.run_subtests(judged_with, rows, ProcessPoolExecutor, workers=self.workers)
        unfound = [name for (name, *_), it in zip(rows, answers) if it == "no"]
        print(f"{len(unfound)} of {self.seeds} got no", *unfound, sep="\n")


def judge_long(arguments):
    """Judges long recordings of many settings."""
    parser = argparse.ArgumentParser()
    parser.add_argument("--long", type=int)
    sizes = {"type": lambda sizes: [int(it) for it in sizes.split(",")], "default": [20_000, 50_000, 200_000]}
    parser.add_argument("--sizes", **sizes)
    parser.add_argument("--workers", type=int, default=2)
    parser.add_argument("program", nargs="*")
    given = parser.parse_args(arguments)
    LongRecordings.seeds, LongRecordings.sizes, LongRecordings.workers = given.long, given.sizes, given.workers
    return run_tests([built_program(given.program), LongRecordings.__name__])


def write_one(arguments):
    """Writes the recording that the arguments ask for."""
    parser = argparse.ArgumentParser()
    settings = {"seed": 1, "docs": 4, "clients": 8, "calls": 800, "loss": 0.05, "shards": 1}
    settings |= {"creates": 0.0, "term": 0.0, "maybe": 0.0}
    for name, default in settings.items():
        parser.add_argument(f"--{name}", type=type(default), default=default)
    sys.stdout.writelines(Recording(**vars(parser.parse_args(arguments))).lines())


def main():
    arguments = sys.argv[1:]
    if arguments[:1] == ["--long"]:
        return judge_long(arguments)
    if arguments and arguments[0].startswith("--"):
        write_one(arguments)
        return 0
    return run_tests([built_program(arguments[:1]), *arguments[1:], HonestRecordings.__name__])


if __name__ == "__main__":
    sys.exit(main())
