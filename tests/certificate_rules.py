"""The rules of certificates, one by one and without haste: by them tests/certificates.py decides what the package's
checker has to say of a certificate.

It is no test itself. A certificate follows the states that a document may be in along its events. Nothing is kept from
one state to the next here, and each step is looked for among all calls and all pairs, as docs/MODEL.md defines it. The
calls are those that a reading leaves (tests/readings.py); a pair is a number, as in tests/exact.py, and 0 stands for
that of a document that was never changed.
"""

import json
from typing import NamedTuple

from drawing import CONFLICT, pair_taken
from evidence import known_calls
from exact import GREATEST, LEAST, number_of
from readings import conflicts_read, numbers_read, read_as
from ruled_out import known_pairs

NEVER = 0


class State(NamedTuple):
    """What a document may be between two events, as docs/FORMATS.md describes its line."""

    least: int
    exists: bool
    flipped: int
    arrived: int
    owed: frozenset = frozenset()
    spent: frozenset = frozenset()
    deletes: int = 0
    makes: int = 0


class Table(NamedTuple):
    """A table: its event, which is `made` or `answered` and a record (None for the first table); its states, and those
    that wait."""

    event: tuple
    states: list
    waiting: list


def state_of(line):
    least = number_of((line["term"], line["seq"])) if "seq" in line else NEVER
    owed, spent = (frozenset(line.get(it, ())) for it in ("owed", "spent"))
    counts = line.get("deletes", 0), line.get("makes", 0)
    return State(least, line["exists"], line["flipped"], line["arrived"], owed, spent, *counts)


def tables_of(rows):
    """The tables of these lines."""
    tables = []
    for line in rows:
        event = next(((it, line[it]) for it in ("made", "answered") if it in line), None)
        if event or "from" in line:
            tables.append(Table(event, [], []))
        else:
            (tables[-1].waiting if line.get("waits") else tables[-1].states).append(state_of(line))
    return tables


class Records:
    """The records of a document and the pairs that replies show, of it and of other documents of its shard."""

    def __init__(self, reading, history, name):
        events = list(read_as(reading, history.voids, history.events))
        calls = known_calls(events).values()
        doc = history.names.index(name)
        self.numbers = numbers_read(reading, history.events)
        self.records = [it for it in calls if it.doc == doc]
        self.is_maybe = conflicts_read(reading) == "maybe"
        others = [it for it in calls if it.doc != doc and history.shard_of(it.doc) == history.shard_of(doc)]
        self.elsewhere = set(map(number_of, known_pairs(others)))
        self.known = set(map(number_of, known_pairs(self.records)))
        at_calls = [(it.called, ("made", record)) for record, it in enumerate(self.records)]
        at_replies = [(it.replied, ("answered", record)) for record, it in enumerate(self.records) if it.reply]
        self.events = [event for _, event in sorted(at_calls + at_replies)]

    # What the replies say.

    def position(self, pair):
        below = sum(it < pair for it in self.known)
        return 0 if pair == NEVER else 2 * below + 2 if pair in self.known else 2 * below + 1

    def is_hidden(self, record):
        return self.is_maybe and record.reply == CONFLICT

    def is_silent(self, record):
        return record.op.name != "get" and (record.reply is None or self.is_hidden(record))

    def is_reported(self, pair):
        return any(pair_taken(it.reply) and number_of(it.reply.pair) == pair for it in self.records)

    def made_before(self, event):
        """How many records are called before the event."""
        return sum(it.called < event for it in self.records)

    # States.

    def covers(self, one, other):
        return (
            self.position(one.least) == self.position(other.least)
            and one.exists == other.exists
            and one.least <= other.least
            and one.flipped >= other.flipped
            and one.arrived >= other.arrived
            and one.owed <= other.owed
            and one.spent <= other.spent
            and one.deletes <= other.deletes
            and one.makes <= other.makes
        )

    def is_covered(self, states, state):
        return any(self.covers(it, state) for it in states)

    # Steps.

    def pairs_to_take(self, least):
        """The known pairs, and the least one that is free above this one."""
        pair = max(least + 1, LEAST)
        while pair in self.known or pair in self.elsewhere:
            pair += 1
        return [*self.known, pair] if pair <= GREATEST else [*self.known]

    def may_take(self, record, pair):
        """Whether the replies let the record take the pair."""
        found = {it.reply.more for it in self.records if it.reply and it.reply.kind == "found" and number_of(it.reply.pair) == pair}
        if any(it != record.op.k for it in found) or pair in self.elsewhere:
            return False
        if record.reply and pair_taken(record.reply):
            return number_of(record.reply.pair) == pair
        gives = pair not in self.known or record.op.name in ("index", "create")
        return self.is_silent(record) and not self.is_reported(pair) and gives

    def is_next(self, state, pair):
        """Whether the pair is above that of the document, with no known pair between."""
        at = self.position(state.least)
        taken_at = 2 * sum(it < pair for it in self.known) + 1
        is_none_left_out = all(self.position(it) <= at for it in self.known if it < pair)
        return state.least < pair and at <= taken_at and is_none_left_out

    def is_performable(self, state, record):
        """Whether the document's state allows the call, and its reply."""
        op, taken = record.op, record.reply and pair_taken(record.reply)
        if op.condition:
            asked = number_of(op.condition)
            if not state.exists or self.position(state.least) != self.position(asked) or state.least > asked:
                return False
        if op.name == "create" and state.exists:
            return False
        return not taken or record.reply.more == (state.exists if op.name == "delete" else not state.exists)

    def is_left(self, event, state, at):
        """Whether the record is called by now, is open, and is one of those that weren't performed yet."""
        record = self.records[at]
        if not record.called < event or record.reply and record.replied < event:
            return False
        if record.reply == CONFLICT and at in state.spent:
            return False
        for effect, count in ((is_lost_delete, state.deletes), (is_lost_make, state.makes)):
            if effect(record) and count >= sum(effect(it) and it.called < event for it in self.records):
                return False
        return True

    def steps(self, event, state):
        for at, record in enumerate(self.records):
            if record.op.name == "get" or not self.is_left(event, state, at) or not self.is_performable(state, record):
                continue
            for pair in self.pairs_to_take(state.least):
                if self.is_next(state, pair) and self.may_take(record, pair):
                    yield self.performed(event, state, at, pair)

    def performed(self, event, state, at, pair):
        record, exists = self.records[at], self.records[at].op.name != "delete"
        made, has_moved = self.made_before(event), self.position(pair) != self.position(state.least)
        return State(
            pair,
            exists,
            made if exists != state.exists else state.flipped,
            made if has_moved else state.arrived,
            state.owed - {at} if record.reply == CONFLICT else state.owed,
            state.spent | {at} if is_owed(record) else state.spent,
            state.deletes + is_lost_delete(record),
            state.makes + is_lost_make(record),
        )

    # Replies.

    def is_served(self, state, at):
        record, position = self.records[at], self.position(state.least)
        if record.reply.pair:
            return position >= self.position(number_of(record.reply.pair))
        if record.reply != CONFLICT:
            return not state.exists or at < state.flipped
        if record.op.name == "create":
            return state.exists or at < state.flipped
        if not record.op.condition:
            return at not in state.owed
        asked = number_of(record.op.condition)
        has_pair = asked in self.known and state.exists and position == self.position(asked)
        return not has_pair or at < state.arrived

    def may_come_later(self, state, at):
        record = self.records[at]
        asked = record.op.condition and number_of(record.op.condition)
        is_reachable = not asked or self.position(state.least) <= self.position(asked)
        return self.is_hidden(record) and at not in state.spent and is_reachable

    def is_placed(self, table, state, at):
        """Whether a state is in the tables at the reply to a record."""
        settled = state._replace(owed=state.owed - {at}, spent=state.spent - {at})
        is_served = self.is_served(state, at)
        if is_served and not self.is_covered(table.states, settled):
            return False
        is_done = is_served and not self.may_come_later(state, at)
        return is_done or self.is_covered(table.waiting, state)

    def goes_on(self, states, table):
        """Whether the table follows these states at its event."""
        happening, at = table.event
        record = self.records[at]
        if happening == "made":
            is_found = record.reply is not None and record.reply.kind == "found"
            found = self.position(number_of(record.reply.pair)) if is_found else float("inf")
            left = [it for it in states if self.position(it.least) <= found]
            owing = {at} if is_owed(record) else set()
            return all(self.is_covered(table.states, it._replace(owed=it.owed | owing)) for it in left)
        after = [step for it in table.waiting for step in self.steps(record.replied, it)]
        return all(self.is_placed(table, it, at) for it in [*states, *after])

    # The first table.

    def first_states(self, begin):
        """The states that the document may be in right after the reply to a record."""
        event = self.records[begin].replied + 0.25
        before = [it for it in self.records if it.called < event]
        silent = {it.op.name != "delete" for it in before if self.is_silent(it)}
        answered = [it for it in before if it.reply and it.replied < event and it.reply.pair]
        least = max((number_of(it.reply.pair) for it in answered), default=NEVER)
        for pair in [NEVER, *sorted(self.known)]:
            if pair < least:
                continue
            if pair > least and not self.is_taken_by(before, pair, silent):
                return
            writers = [it for it in self.records if pair_taken(it.reply) and number_of(it.reply.pair) == pair]
            for exists in {it.op.name != "delete" for it in writers} or {pair != NEVER}:
                yield State(pair, exists, len(before), len(before))
            free = self.pairs_to_take(pair)[len(self.known) :]
            if free and self.is_next(State(pair, True, 0, 0), *free):
                yield from (State(*free, exists, len(before), len(before)) for exists in silent)

    def is_taken_by(self, before, pair, silent):
        """Whether one of these calls may have taken the pair."""
        if self.is_reported(pair):
            return any(pair_taken(it.reply) and number_of(it.reply.pair) == pair for it in before)
        return True in silent

    def begins(self, begin, table):
        states = [State(NEVER, False, 0, 0)] if begin is None else self.first_states(begin)
        return all(self.is_covered(table.states, it) for it in states)


def is_owed(record):
    """Whether it is a conflict of a write that nothing refuses."""
    return record.reply == CONFLICT and record.op.name in ("index", "delete") and not record.op.condition


def is_lost_delete(record):
    return record.reply is None and record.op.name == "delete" and not record.op.condition


def is_lost_make(record):
    return record.reply is None and record.op.name in ("index", "create") and not record.op.condition


def is_valid(reading, history, text):
    """Whether the text is a certificate of the history in a reading. Its lines are as the format says."""
    answer, *rows = text.splitlines()
    claim, begin, *_ = rows = list(map(json.loads, rows))
    if claim["doc"] not in history.names or f"calls={claim['call']}" not in answer.split():
        return False
    its, tables = Records(reading, history, claim["doc"]), tables_of(rows[1:])
    last, first = ("answered", claim["rec"]), ("answered", begin["from"])
    if claim["rec"] >= len(its.records) or its.records[claim["rec"]].number != its.numbers.get(claim["call"]):
        return False
    if last not in its.events or begin["from"] is not None and first not in its.events[: its.events.index(last)]:
        return False
    start = 0 if begin["from"] is None else its.events.index(first) + 1
    events = its.events[start : its.events.index(last) + 1]
    given = [it.event for it in tables[1:]]
    if [it for it in events if it in given] != given or not its.begins(begin["from"], tables[0]):
        return False
    states, by_event = tables[0].states, dict(zip(given, tables[1:]))
    for event in events:
        table = by_event.get(event, Table(event, states, []))
        if not its.goes_on(states, table):
            return False
        states = table.states
    return not states
