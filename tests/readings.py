"""Readings of a history, by their definition: what each makes of the events, and which gets it leaves unexplained.

It is no test itself. A reading says what a store promises less than a strict check takes it to. `read_as` turns events
into those that a strict check judges; with gets of any copy the gets are judged one by one, by `unexplained_gets`.
Events are those of tests/drawing.py. The voids of a history are the numbers of the calls whose lost line states that
nothing was performed.
"""

import json
from typing import NamedTuple

from drawing import CONFLICT, Call, Ending, Op, lines, pair_taken
from evidence import found_document, known_calls
from ruled_out import events_of
from texts import EVENTS

# The operations that give a document a number.
GIVES = ("index", "create")


class Reading(NamedTuple):
    """How a history is read: the value of each option."""

    gets: str = "last"
    conflicts: str = "plain"
    writes: str = "once"
    failed: str = "lost"

    def options(self):
        """The options that ask for it."""
        return [it for name, value in self._asdict().items() for it in (f"--{name}", value)]


STRICT = Reading()
OPENSEARCH = Reading("any", "unknown", "repeated", "trusted")
PROFILES = {"strict": STRICT, "opensearch": OPENSEARCH}


class History(NamedTuple):
    """A history as its text has it: the events, the voids, and of each document its name and its shard."""

    events: list
    voids: frozenset
    names: tuple
    shards: tuple

    def shard_of(self, doc):
        return self.shards[doc]


def history_of(text):
    """The history of a text, whose lines have the members of tests/texts.py."""
    rows = list(map(json.loads, text.splitlines()))
    shards = {it["id"]: it.get("shard", 0) for it in rows if it["e"] == "call"}
    voids = frozenset(it["n"] for it in rows if it["e"] == "lost" and it.get("void") is True)
    return History(list(events_of(text)), voids, tuple(shards), tuple(shards.values()))


def text_of(history):
    """The text of a history."""
    rows = lines(history.events, history.shard_of, history.names)
    return "".join(void_line(row) if is_void(history, it) else row for it, row in zip(history.events, rows))


def is_void(history, event):
    """Whether the event is a loss which states that nothing was performed."""
    return isinstance(event, Ending) and event.reply is None and event.number in history.voids


def void_line(line):
    """The line of a lost call, with the member that states it."""
    return line.replace("}\n", ',"void":true}\n')


# What is read in the place of the events.


def without_voids(reading, voids, events):
    """The events with a get in the place of each void call, if the reading heeds them: it changes nothing."""
    heeded = voids if reading.failed == "trusted" else ()
    for it in events:
        yield it._replace(op=Op("get")) if isinstance(it, Call) and it.number in heeded else it


def has_twin(reading, op):
    """Whether the store may perform the write a second time: one under a condition would be refused then."""
    return reading.writes == "repeated" and op.name != "get" and op.condition is None


def reply_read(reading, op, reply):
    """The reply that is read in the place of one; None if the call is lost."""
    is_judged_alone = reading.gets == "any" and op.name == "get"
    return None if is_judged_alone or reading.conflicts == "unknown" and reply == CONFLICT else reply


def numbers_read(reading, events):
    """By the numbers of the calls the numbers that they have in what is read: twins need some of their own."""
    calls = [(at, it.number) for at, it in enumerate(events) if isinstance(it, Call)]
    return {number: 2 * at if reading.writes == "repeated" else number for at, number in calls}


def read_as(reading, voids, events):
    """The events that a strict check judges."""
    numbers, ops = numbers_read(reading, events), {}
    for it in without_voids(reading, voids, events):
        number = numbers[it.number]
        if isinstance(it, Call):
            ops[number] = it.op
            yield it._replace(number=number)
            if has_twin(reading, it.op):
                yield it._replace(number=number + 1)
        else:
            yield Ending(number, reply_read(reading, ops[number], it.reply))


def records_read(reading, history):
    """By the documents the numbers of their calls in what is read, in their order: the records of a witness."""
    records = {}
    for it in read_as(reading, history.voids, history.events):
        if isinstance(it, Call):
            records.setdefault(it.doc, []).append(it.number)
    return records


def number_in_text(reading, events, number):
    """The number in the text of the call that has this number in what is read, itself or its twin."""
    return events[number // 2].number if reading.writes == "repeated" else number


def conflicts_read(reading):
    """How a strict check reads the conflicts that are left."""
    return "plain" if reading.conflicts == "unknown" else reading.conflicts


def strict_history(reading, history):
    """The history that a strict check judges."""
    return history._replace(events=list(read_as(reading, history.voids, history.events)), voids=frozenset())


def first_without_room(reading, history):
    """The index of the first event that is one too many; None if there is room for each."""
    count = 0
    for at, it in enumerate(history.events):
        count += 2 if isinstance(it, Call) and has_twin(reading, it.op) else 1
        if count > EVENTS:
            return at
    return None


# The gets that are judged one by one. The writes are those of the get's document.


def is_open(reading, call):
    """Whether what was heard of a write leaves open whether it was performed."""
    return call.reply is None or call.reply == CONFLICT and reading.conflicts != "plain"


def is_before(write, get):
    """Whether a write was answered as performed before the get was called."""
    return pair_taken(write.reply) is not None and write.replied < get.called


def stale_gets(get, writes):
    """The writes that were answered before the get was called, which found a lesser pair."""
    return [it for it in writes if found_document(get) and is_before(it, get) and get.reply.pair < it.reply.pair]


def may_have_written(reading, write, get):
    """Whether a write, called before the get's reply, may have given the document what the get found."""
    if write.op.name not in GIVES or write.op.k != get.reply.more or write.called > get.replied:
        return False
    took_pair = pair_taken(write.reply) == get.reply.pair
    return reading.writes == "repeated" or took_pair or is_open(reading, write)


def is_without_writer(reading, get, writes):
    return found_document(get) and not any(may_have_written(reading, it, get) for it in writes)


def may_have_deleted(reading, delete, pair, get):
    """Whether a delete, called before the get's reply, may stand behind the pair."""
    if delete.op.name != "delete" or delete.called > get.replied:
        return False
    taken = pair_taken(delete.reply)
    return is_open(reading, delete) or taken is not None and taken > pair or has_twin(reading, delete.op)


def missed_writes(reading, get, writes):
    """The writes that were answered before the get was called, which found nothing though no delete can be why."""
    if found_document(get):
        return []
    seen = [it for it in writes if it.op.name in GIVES and is_before(it, get)]
    return [it for it in seen if not any(may_have_deleted(reading, other, it.reply.pair, get) for other in writes)]


def unexplained_gets(reading, voids, events):
    """The evidence of gets that no copy in sync can have answered: its kind, and the numbers of its calls. There is
    none if a get shows the last change: gets are judged with all other calls then."""
    if reading.gets == "last":
        return
    calls = known_calls(list(without_voids(reading, voids, events))).values()
    writes = {}
    for it in calls:
        if it.op.name != "get":
            writes.setdefault(it.doc, []).append(it)
    for get in (it for it in calls if it.op.name == "get" and it.reply):
        its = writes.get(get.doc, [])
        yield from (("stale-get", (get.number, it.number)) for it in stale_gets(get, its))
        if is_without_writer(reading, get, its):
            yield "no-writer", (get.number,)
        yield from (("missed-write", (get.number, it.number)) for it in missed_writes(reading, get, its))


def gets_judged_alone(reading, history):
    """How many gets are judged one by one."""
    calls = known_calls(history.events).values()
    return sum(it.op.name == "get" and it.reply is not None for it in calls) if reading.gets == "any" else 0
