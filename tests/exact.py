"""The exact search: whether any order of all calls explains a history, straight from the definitions of docs/MODEL.md.

It is no test itself. The history has a few calls. Its calls are those of evidence.Known.
"""

from typing import NamedTuple

from drawing import CONFLICT, Op, Reply, pair_taken, performed
from texts import MOST_OF_PAIR

# The number of the least pair, and of the greatest: pairs are in order as their numbers are.
LEAST, GREATEST = MOST_OF_PAIR + 1, (MOST_OF_PAIR + 1) ** 2 - 1


def number_of(pair):
    """How many pairs of any term, 0 too, are below the pair."""
    return pair[0] * (MOST_OF_PAIR + 1) + pair[1]


def pair_at(number):
    """The pair that has so many below it."""
    return divmod(number, MOST_OF_PAIR + 1)


def room_between(pairs):
    """How many pairs lie before the first of these, between each two, and after the last."""
    edges = [LEAST - 1, *map(number_of, pairs), GREATEST + 1]
    return [high - low - 1 for low, high in zip(edges, edges[1:])]


def has_known_outcome(call, reading):
    """Whether the reply shows what became of the call: under maybe a write that was answered with a conflict may have
    been performed."""
    return call.reply is not None and not (call.reply == CONFLICT and reading == "maybe")


def one_shard(_):
    """The shard of a document, if all are on one."""
    return 0


class Ranked(NamedTuple):
    """A call with ranks for pairs; if it was not answered there is no reply, and its place is behind all. It stands
    before each call that was made from a place on, and before one of these calls, if one is named by its index."""

    called: int
    replied: float
    over: float
    ahead_of: int
    doc: int
    shard: int
    op: Op
    reply: Reply
    has_known_outcome: bool


class After(NamedTuple):
    """What a front of an order leaves: the calls behind it, of each document what it is and the rank that it took last,
    and how often each rank of each shard was given."""

    left: frozenset
    states: tuple
    last: tuple
    given: tuple


def changed(row, at, item):
    return row[:at] + (item,) + row[at + 1 :]


class Search:
    """The search for an order. The pairs that the history shows have odd ranks, and those between each two, before the
    first and after the last have the even rank between: no reply and no condition distinguishes these. The ranks of a
    shard stand one after the other, and those of the next shard behind them; of a document they are counted from its
    shard's first."""

    def __init__(self, calls, reading, shard_of, elsewhere):
        shown = [it.op.condition for it in calls] + [it.reply.pair for it in calls if it.reply] + list(elsewhere)
        pairs = sorted(set(filter(None, shown)))
        self.ranks = {None: None, **{pair: 2 * at + 1 for at, pair in enumerate(pairs)}}
        self.count = 2 * len(pairs) + 1
        # An unanswered get can be left out of each order.
        kept = [it for it in calls if it.reply or it.op.name != "get"]
        self.answered = {it.number: at for at, it in enumerate(kept) if it.reply}
        shards = sorted({shard_of(it.doc) for it in kept})
        self.calls = [self.ranked(it, reading, shards.index(shard_of(it.doc))) for it in kept]
        self.shown = [self.at(it, pair_taken(it.reply)) for it in self.calls if pair_taken(it.reply)]
        self.room = self.rooms(pairs, len(shards))
        for pair in elsewhere:
            self.room[self.ranks[pair] :: self.count] = [0] * len(shards)
        self.failed = set()

    def ranked(self, call, reading, shard):
        reply = call.reply and call.reply._replace(pair=self.ranks[call.reply.pair])
        replied = float("inf") if reply is None else call.replied
        op = call.op._replace(condition=self.ranks[call.op.condition])
        over, ahead_of = call.over, self.answered.get(call.ahead_of)
        return Ranked(call.called, replied, over, ahead_of, call.doc, shard, op, reply, has_known_outcome(call, reading))

    def at(self, call, rank):
        """Where the rank stands among those of all shards, for a call."""
        return call.shard * self.count + rank

    def rooms(self, pairs, shards):
        """How often each rank of each shard may be given to writes whose reply doesn't show a pair."""
        room = [1] * self.count
        room[::2] = room_between(pairs)
        room *= shards
        for place in self.shown:
            room[place] = 0
        return room

    def has_order(self):
        docs = max((it.doc for it in self.calls), default=0) + 1
        start = After(frozenset(range(len(self.calls))), (None,) * docs, (-1,) * docs, (0,) * len(self.room))
        return len(set(self.shown)) == len(self.shown) and self.goes_on(start)

    def goes_on(self, after):
        """Whether the calls that are left can stand behind; of the unanswered ones none has to."""
        answered = [self.calls[it].replied for it in after.left if self.calls[it].reply]
        if not answered:
            return True
        if after not in self.failed:
            self.failed.add(after)
            able = [it for it in after.left if self.calls[it].called < min(answered) and self.is_in_time(after, it)]
            return any(self.goes_on(it) for number in able for it in self.steps(after, number))
        return False

    def is_in_time(self, after, number):
        """Whether the call still stands before those before which it has to stand."""
        call = self.calls[number]
        if call.ahead_of is not None and call.ahead_of not in after.left:
            return False
        return all(it.called < call.over for at, it in enumerate(self.calls) if at not in after.left)

    def steps(self, after, number):
        """What is left if the call stands next, in each way that it can."""
        call = self.calls[number]
        state, last = after.states[call.doc], after.last[call.doc]
        if call.reply:
            taken = pair_taken(call.reply)
            reply, then = performed(state, call.op, taken)
            if reply == call.reply and (taken is None or last < taken):
                yield self.stepped(after, number, then, last if taken is None else taken)
        if not call.has_known_outcome:
            for rank in range(max(last, 0), self.count):
                # (an even rank can be taken again)
                place = self.at(call, rank)
                is_free = after.given[place] < self.room[place] and (last < rank or rank % 2 == 0)
                reply, then = performed(state, call.op, rank)
                if is_free and reply != CONFLICT:
                    given = changed(after.given, place, after.given[place] + 1)
                    yield self.stepped(after._replace(given=given), number, then, rank)

    def stepped(self, after, number, then, last):
        doc = self.calls[number].doc
        states, last = changed(after.states, doc, then), changed(after.last, doc, last)
        return After(after.left - {number}, states, last, after.given)


def has_order(calls, reading, shard_of=one_shard, elsewhere=()):
    """Whether an order of all calls explains the history, in which no write takes one of the pairs that are elsewhere."""
    is_taken_twice = any(it.reply and pair_taken(it.reply) in elsewhere for it in calls)
    return not is_taken_twice and Search(calls, reading, shard_of, elsewhere).has_order()
