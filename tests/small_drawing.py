"""Small histories that are drawn: three to eight calls, of one to three documents on one shard or two, honest ones and
changed ones.

It is no test itself; tests/small_histories.py judges them.
"""

from typing import Callable, NamedTuple

from drawing import CONFLICT, MISSING, Call, Draws, Ending, Reply
from exact import GREATEST, LEAST, number_of, one_shard, pair_at
from ruled_out import FAULTS, Cluster, Due

# How many percent of the calls of a history are lost.
LOST = (0, 0, 20, 50)

# How far apart the pairs are that follow one another.
STEPS = (1, 1, 1, 2, 5)


class Small(NamedTuple):
    """A small history: its events, and the shard of each document."""

    events: list
    shard_of: Callable


def own_shard(doc):
    """The shard of a document, if the second one is on a shard of its own."""
    return doc % 2


def recorded(draws, seed):
    """What clients recorded of an index that makes one fault, two, or none."""
    cluster = Cluster(seed, draws.below(3) + 1)
    cluster.calls, cluster.lost = draws.below(6) + 3, draws.one_of(LOST)
    for _ in range(draws.one_of((0, 0, 1, 2))):
        cluster.faults.append(Due(draws.below(cluster.calls), draws.one_of(FAULTS)))
    return cluster.recorded()


# Other pairs and other numbers, which leave an honest history honest.


def pair_in(event):
    """The pair that an event shows or asks for; None if there is none."""
    if isinstance(event, Call):
        return event.op.condition
    return event.reply and event.reply.pair


def with_pair(event, pair):
    """The event with this pair in the place of its own."""
    if isinstance(event, Call):
        return event._replace(op=event.op._replace(condition=pair))
    return event._replace(reply=event.reply._replace(pair=pair))


def drawn_pairs(draws, count):
    """So many pairs in their order, close together or with room between: from the least one on, up to the greatest one,
    or about the end of a term."""
    offsets = [0]
    for _ in range(count - 1):
        offsets.append(offsets[-1] + draws.one_of(STEPS))
    start = draws.one_of((LEAST, LEAST, GREATEST - offsets[-1], number_of((2, 0)) - draws.below(offsets[-1] + 1)))
    return [pair_at(start + it) for it in offsets]


def with_drawn_pairs(draws, events):
    """The events with drawn pairs, in the same order, in the place of 1/0, 1/1 and so on."""
    shown = [pair_in(it) for it in events]
    pairs = drawn_pairs(draws, max((seq for _, seq in filter(None, shown)), default=0) + 1)
    return [with_pair(it, pairs[pair[1]]) if pair else it for it, pair in zip(events, shown)]


def with_few_numbers(events):
    """The events with no other numbers than 0 and 1, so that several writes give the same."""
    for it in events:
        if isinstance(it, Call) and it.op.k is not None:
            yield it._replace(op=it.op._replace(k=it.op.k % 2))
        elif isinstance(it, Ending) and it.reply and it.reply.kind == "found":
            yield it._replace(reply=it.reply._replace(more=it.reply.more % 2))
        else:
            yield it


# Changes, which may leave no order.


def near_pair(draws, events):
    """A pair that the events show, or the one before it or after it."""
    shown = list(filter(None, map(pair_in, events))) or [(1, 0)]
    number = number_of(draws.one_of(shown)) + draws.below(3) - 1
    return pair_at(min(max(number, LEAST), GREATEST))


def other_reply(draws, op, events):
    """A drawn reply of those that the operation can have."""
    is_first, pair = draws.below(2) == 0, near_pair(draws, events)
    if op.name == "get":
        return MISSING if is_first else Reply("found", pair, draws.below(len(events)))
    if draws.below(3) == 0:
        return CONFLICT
    if op.name == "delete":
        return Reply("deleted", pair, is_first)
    return Reply("indexed", pair, is_first or op.name == "create")


def change_reply(draws, events):
    """Changes one reply."""
    operations = {it.number: it.op for it in events if isinstance(it, Call)}
    replies = [at for at, it in enumerate(events) if isinstance(it, Ending) and it.reply]
    if replies:
        at = draws.one_of(replies)
        events[at] = events[at]._replace(reply=other_reply(draws, operations[events[at].number], events))


def change_pair(draws, events):
    """Changes one pair, of a reply or of a condition."""
    with_one = [at for at, it in enumerate(events) if pair_in(it)]
    if with_one:
        at = draws.one_of(with_one)
        events[at] = with_pair(events[at], near_pair(draws, events))


def change_places(draws, events):
    """Has an event change places with the next one, if that isn't of the same call."""
    at = draws.below(len(events) - 1)
    if events[at].number != events[at + 1].number:
        events[at : at + 2] = events[at + 1], events[at]


CHANGES = (change_reply, change_reply, change_pair, change_places)


def changed(draws, events):
    """What was recorded, with other pairs, maybe with few numbers, and with up to two changes, on one shard or two."""
    events = with_drawn_pairs(draws, events)
    if draws.below(3) == 0:
        events = list(with_few_numbers(events))
    for _ in range(draws.one_of((0, 0, 0, 1, 1, 2))):
        draws.one_of(CHANGES)(draws, events)
    return Small(events, draws.one_of((one_shard, own_shard)))


def small_history(seed):
    """The small history of this seed."""
    draws = Draws(seed)
    return changed(draws, recorded(draws, seed))
