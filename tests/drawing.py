"""What drawn recordings are made of: drawn numbers, operations, replies, what an index does, and the lines of a
history.

It is no test itself; tests/agree.py, tests/anomalies.py, tests/evidence.py, tests/lines.py, tests/offences.py,
tests/orders.py, tests/readings.py, tests/repeated_writes.py, tests/ruled_out.py, tests/simulated_cluster.py and
tests/small_drawing.py draw with it.
"""

from typing import NamedTuple

import texts

MOST = 2**64


class Draws:
    """Numbers that look drawn at random: each seed has its own, the same in each run."""

    def __init__(self, seed):
        self.state = seed * 0x9E37_79B9_7F4A_7C15 % MOST

    def below(self, bound):
        """A number below the bound."""
        self.state = (self.state * 6_364_136_223_846_793_005 + 1_442_695_040_888_963_407) % MOST
        return (self.state >> 33) % bound

    def one_of(self, things):
        return things[self.below(len(things))]


class Op(NamedTuple):
    """An operation: `get`, `index`, `delete` or `create`, with the number that it writes and the pair that it asks
    for."""

    name: str
    k: int = None
    condition: tuple = None


class Reply(NamedTuple):
    """A reply: `indexed`, `deleted`, `found`, `missing` or `conflict`. If it was indexed, `more` says whether it was
    created; if it was deleted, whether it was there; if it was found, its number."""

    kind: str
    pair: tuple = None
    more: int = None


MISSING, CONFLICT = Reply("missing"), Reply("conflict")


class Call(NamedTuple):
    """The event of a call. Documents are numbered from 0."""

    number: int
    doc: int
    op: Op


class Ending(NamedTuple):
    """The event of a reply, or of a lost call, which has none."""

    number: int
    reply: Reply


def performed(state, op, pair):
    """What an index answers, and the document after it. A document that is there is its last pair and its number, else
    None; a write that is performed takes the pair."""
    is_there = state is not None
    if op.name == "get":
        return (Reply("found", *state) if is_there else MISSING), state
    if op.name == "create" and is_there or op.condition and not (is_there and state[0] == op.condition):
        return CONFLICT, state
    if op.name == "delete":
        return Reply("deleted", pair, is_there), None
    return Reply("indexed", pair, not is_there), (pair, op.k)


def pair_taken(reply):
    """The pair that a reply shows to have been taken; None if it shows none."""
    return reply.pair if reply and reply.kind in ("indexed", "deleted") else None


NAMES = "abcd"


def call_line(call, shard, name):
    more = "" if call.op.k is None else f',"k":{call.op.k}'
    if call.op.condition:
        more += texts.condition(*call.op.condition)
    if shard:
        more += f',"shard":{shard}'
    return texts.call(call.number, call.op.name, more, name)


def reply_line(number, reply, name):
    if reply.kind == "indexed":
        return (texts.created if reply.more else texts.updated)(number, *reply.pair, name)
    if reply.kind == "deleted":
        return (texts.deleted if reply.more else texts.not_found)(number, *reply.pair, name)
    if reply.kind == "found":
        return texts.found(number, *reply.pair, reply.more, name)
    return texts.missing(number, name) if reply == MISSING else texts.conflict(number)


def lines(events, shard_of, names=NAMES):
    """The lines of a history of these events, with the names of the documents: one for each."""
    doc_of = {it.number: it.doc for it in events if isinstance(it, Call)}
    for it in events:
        if isinstance(it, Call):
            yield call_line(it, shard_of(it.doc), names[it.doc])
        elif it.reply:
            yield reply_line(it.number, it.reply, names[doc_of[it.number]])
        else:
            yield texts.lost(it.number)
