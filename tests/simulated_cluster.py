"""A simulated OpenSearch cluster with one index, on a clock of its own: what its documentation describes, event by
event.

It is no test itself; tests/opensearch.py has clients work on it. Each shard has a primary and copies on other nodes.
The primary performs a write on its own state, replicates it, and answers once every copy in sync holds it. A get is
answered by any copy in sync, or by the primary. The node that a client asks sends a write again if it lost the
connection to the primary's node, or met one that is no primary. If the primary's node is gone another copy in sync
becomes the primary: it raises the term, fills the gaps in its numbers, and the other copies roll back what is above the
global checkpoint and are sent what the new primary holds. Times are in milliseconds; those of a real one are longer.
"""

import bisect
import heapq
from functools import partial
from operator import attrgetter
from typing import NamedTuple

from drawing import CONFLICT, Op, performed

# How long a message takes on the average, and how many times as long a slow one takes.
MESSAGE, TIMES = 0.3, 20

# After how long a node that is gone is noticed by the others, one that is cut off by itself, and a closed connection;
# and for how long a node tries to have a write performed.
NOTICED, STEPS_DOWN, CLOSED, TRIES_FOR = (20, 40), (8, 18), 1, 400

# What the answer to a request may be instead of a reply of the reply table: the node is not, or no longer, the primary;
# it has no copy; the request's term is too old; nothing was performed; the shard is unavailable.
NO_PRIMARY, NO_COPY, OLD_TERM, NOTHING, UNAVAILABLE = "no primary", "no copy", "old term", "nothing", "unavailable"


class Clock:
    """What is still to happen, by its time."""

    def __init__(self):
        self.now, self.queue, self.count = 0.0, [], 0

    def after(self, delay, action, *arguments):
        self.count += 1
        heapq.heappush(self.queue, (self.now + delay, self.count, action, arguments))

    def run(self, is_over):
        """Lets things happen until it is over, or nothing is left."""
        while self.queue and not is_over():
            self.now, _, action, arguments = heapq.heappop(self.queue)
            action(*arguments)


class Entry(NamedTuple):
    """A numbered operation of a shard: what it makes of a document, which it deletes if there is no `k`. Of a gap that
    was filled there is no document."""

    seq: int
    term: int
    doc: int = None
    k: int = None


class Routing(NamedTuple):
    """What the cluster state says of a shard: where its primary is, if there is one, and on which nodes copies are in
    sync."""

    version: int
    term: int
    primary: int
    active: frozenset


class Copy:
    """A copy of a shard."""

    def __init__(self, term):
        self.term, self.entries, self.versions = term, {}, {}
        # The greatest number that it holds; up to which it holds all; and up to which each copy holds all, so far as it
        # was sent.
        self.top, self.checkpoint, self.known = -1, -1, -1

    def put(self, entry):
        if self.entries.get(entry.seq) == entry:
            return
        self.entries[entry.seq] = entry
        self.top = max(self.top, entry.seq)
        while self.checkpoint + 1 in self.entries:
            self.checkpoint += 1
        if entry.doc is not None:
            bisect.insort(self.versions.setdefault(entry.doc, []), entry, key=attrgetter("seq"))

    def state(self, doc):
        """The document as tests/drawing.py has it."""
        its = self.versions.get(doc)
        return ((its[-1].term, its[-1].seq), its[-1].k) if its and its[-1].k is not None else None

    def last(self, doc):
        """The pair of the document's last change; None if there is none."""
        its = self.versions.get(doc)
        return (its[-1].term, its[-1].seq) if its else None

    def above(self, seq):
        return [self.entries[it] for it in range(seq + 1, self.top + 1) if it in self.entries]

    def roll_back(self, seq):
        """Forgets what is above this number."""
        for it in self.above(seq):
            del self.entries[it.seq]
            if it.doc is not None:
                self.versions[it.doc].remove(it)
        self.top, self.checkpoint = min(self.top, seq), min(self.checkpoint, seq)

    def fill_gaps(self, term):
        for seq in range(self.checkpoint + 1, self.top):
            if seq not in self.entries:
                self.put(Entry(seq, term))


class Exchange:
    """A request of one node to another, until it is answered or its connection is closed."""

    def __init__(self, cluster, source, target, answered, failed):
        self.cluster, self.source, self.target = cluster, source, target
        self.answered, self.failed, self.is_over = answered, failed, False
        source.exchanges[self] = target.exchanges[self] = True

    def is_parted(self):
        return self.source is not self.target and (self.source.is_cut or self.target.is_cut)

    def end(self):
        self.is_over = True
        self.source.exchanges.pop(self, None)
        self.target.exchanges.pop(self, None)

    def deliver(self, handle, arguments):
        is_known_gone = self.is_parted() and (self.source.is_lost or self.target.is_lost)
        if not self.target.is_alive or is_known_gone:
            self.fail()
        elif not self.is_parted():
            handle(*arguments, self.respond)

    def respond(self, answer):
        self.cluster.clock.after(self.cluster.delay(), self.arrive, answer)

    def arrive(self, answer):
        if not self.is_over and self.target.is_alive and not self.is_parted():
            self.end()
            if self.source.is_alive:
                self.answered(answer)

    def fail(self):
        if not self.is_over:
            self.end()
            if self.source.is_alive:
                self.failed()


class Replication:
    """A write that the primary performed, until every copy in sync holds it. A conflict is an empty one."""

    def __init__(self, primary, entry, answer, respond):
        self.primary, self.entry, self.answer, self.respond = primary, entry, answer, respond
        self.waits_for = set(primary.targets)
        primary.replications[self] = True
        for number in sorted(self.waits_for):
            primary.send(number, self.entry, self)
        self.end_if_held()

    def is_held_by(self, number):
        self.waits_for.discard(number)
        self.end_if_held()

    def end_if_held(self):
        if not self.waits_for and self in self.primary.replications:
            del self.primary.replications[self]
            if self.entry:
                self.primary.node.cluster.acknowledge(self.primary.shard, self.entry)
            self.respond(self.answer)


class Primary:
    """A primary at work."""

    def __init__(self, node, shard, routing):
        self.node, self.shard, self.term = node, shard, routing.term
        self.copy, self.is_over = node.copies[shard], False
        # The copies that are replicated to, each with the number up to which it holds all; and those that are still
        # brought in sync.
        self.targets = {it: self.copy.known for it in routing.active if it != node.number}
        self.recovering, self.replications = set(), {}
        self.copy.fill_gaps(self.term)
        self.copy.term, self.next = self.term, self.copy.top + 1

    def checkpoint(self):
        """The number up to which each copy in sync holds all."""
        others = [seq for number, seq in self.targets.items() if number not in self.recovering]
        self.copy.known = max(self.copy.known, min([self.copy.checkpoint, *others]))
        return self.copy.known

    def resync(self):
        """Has the other copies roll back what is above the global checkpoint, and sends them what it holds."""
        cluster, base = self.node.cluster, self.copy.known
        entries = self.copy.above(base)
        for number in sorted(self.targets):
            if cluster.settings.rolls_back_at_once:
                target = cluster.nodes[number]
                if target.is_alive and not target.is_cut and self.shard in target.copies:
                    target.resync(self.shard, self.term, base, entries, lambda _: None)
            else:
                arguments = self.shard, self.term, base, entries
                delay = cluster.settings.resync_delay
                cluster.send(self.node, number, "resync", arguments, lambda _: None, lambda: None, delay)

    # Writes.

    def perform(self, write, respond):
        """Performs a write on its own state, whatever the other copies hold."""
        if self.is_over:
            respond(NO_PRIMARY)
            return
        cluster, state = self.node.cluster, self.copy.state(write.doc)
        if write.is_update and (state is None or state[1] == write.op.k):
            respond(NOTHING)
            return
        reply, _ = performed(state, cluster.faults.op(write.op, state), None)
        if reply != CONFLICT:
            self.replicate(write, reply, respond)
        elif cluster.settings.conflicts_are_replicated:
            Replication(self, None, CONFLICT._replace(pair=state[0] if state else None), respond)
        else:
            respond(CONFLICT._replace(pair=state[0] if state else None))

    def replicate(self, write, reply, respond):
        """Gives a write its number, and sends it to the other copies."""
        cluster, seq = self.node.cluster, self.node.cluster.faults.seq(self, write.doc)
        entry, self.next = Entry(seq, self.term, write.doc, write.op.k), seq + 1
        reply = reply._replace(pair=(self.term, seq))
        cluster.performed[self.shard][reply.pair] = Performed(write, self.copy.last(write.doc))
        self.copy.put(entry)
        if cluster.faults.acknowledges_early(self):
            cluster.acknowledge(self.shard, entry)
            respond(reply)
        else:
            Replication(self, entry, reply, respond)

    def send(self, number, entry, replication):
        """Sends an entry to a copy."""
        arguments = self.shard, self.term, self.checkpoint(), entry
        answered, failed = partial(self.heard, number, replication), partial(self.fail_copy, number, replication)
        cluster = self.node.cluster
        cluster.send(self.node, number, "replicate", arguments, answered, failed, cluster.settings.replication_delay)

    def heard(self, number, replication, answer):
        if answer == OLD_TERM:
            self.step_down()
        elif answer == NO_COPY:
            self.fail_copy(number, replication)
        else:
            if number in self.targets:
                self.targets[number] = max(self.targets[number], answer)
            replication.is_held_by(number)

    def fail_copy(self, number, replication):
        """Has the master take a copy out of those in sync; before that nothing is acknowledged without it."""

        def is_out(is_primary):
            if is_primary:
                self.targets.pop(number, None)
                self.recovering.discard(number)
                replication.is_held_by(number)
            else:
                self.step_down()

        self.node.ask_master("fail_copy", (self.shard, number, self.term), is_out)

    def step_down(self):
        if not self.is_over:
            self.is_over = True
            for it in list(self.replications):
                it.respond(NO_PRIMARY)
            self.replications.clear()

    # Copies that are brought in sync.

    def recover(self, number):
        if not self.is_over and number not in self.targets:
            self.recovering.add(number)
            self.targets[number] = -1
            begun, failed = partial(self.send_all, number), partial(self.forget, number)
            self.node.cluster.send(self.node, number, "begin_copy", (self.shard, self.term), begun, failed)

    def forget(self, number):
        if number in self.recovering:
            self.recovering.discard(number)
            self.targets.pop(number, None)
            for it in list(self.replications):
                it.is_held_by(number)

    def send_all(self, number, answer):
        if answer == OLD_TERM:
            self.forget(number)
            return
        arguments = self.shard, self.term, self.checkpoint(), self.copy.above(-1)
        sent, failed = partial(self.is_in_sync, number), partial(self.forget, number)
        self.node.cluster.send(self.node, number, "resync", arguments, sent, failed)

    def is_in_sync(self, number, answer):
        if number in self.targets and answer not in (NO_COPY, OLD_TERM):
            self.targets[number] = max(self.targets[number], answer)
            self.recovering.discard(number)
            self.node.ask_master("add_copy", (self.shard, number, self.term), lambda _: None)
        elif not self.is_over:
            self.forget(number)


class Node:
    """A node: its copies, and what it knows of the cluster state."""

    def __init__(self, cluster, number, copies=None):
        self.cluster, self.number = cluster, number
        self.is_alive, self.is_cut, self.is_lost = True, False, False
        self.copies, self.primaries, self.view = copies or {}, {}, {}
        # Shards whose copy here is being brought in sync, and whose copy doesn't answer until there is another cluster
        # state; what waits for another one; requests under way.
        # (sets of objects have no order, so these are the keys of a dictionary)
        self.recovering, self.silent, self.waiting, self.exchanges = set(), set(), [], {}
        # What to do for the clients that wait for it, if it is killed.
        self.clients = {}

    def ask_master(self, name, arguments, then):
        """Asks the master for a change; its answer may never come."""

        def arrive():
            if not self.is_cut:
                getattr(self.cluster.master, name)(*arguments, lambda answer: self.is_alive and then(answer))

        self.cluster.clock.after(self.cluster.delay(), arrive)

    def apply(self, shard, routing):
        """A new cluster state arrives."""
        if not self.is_alive or self.is_cut or shard in self.view and self.view[shard].version >= routing.version:
            return
        self.view[shard] = routing
        self.silent.discard(shard)
        primary = self.primaries.get(shard)
        if primary and (routing.primary, routing.term) != (self.number, primary.term):
            primary.step_down()
        if self.number in routing.active:
            self.recovering.discard(shard)
        elif shard not in self.recovering:
            self.copies.pop(shard, None)
        if routing.primary == self.number and (primary is None or primary.is_over or primary.term < routing.term):
            self.promote(shard, routing)
        waiting, self.waiting = self.waiting, []
        for it in waiting:
            self.cluster.clock.after(self.cluster.delay(), it)

    def promote(self, shard, routing):
        self.cluster.look_for_losses(shard, self.copies[shard])
        self.primaries[shard] = Primary(self, shard, routing)
        self.primaries[shard].resync()

    # What other nodes ask.

    def perform(self, shard, term, write, respond):
        primary = self.primaries.get(shard)
        if primary and primary.term == term:
            primary.perform(write, respond)
        else:
            respond(NO_PRIMARY)

    def get(self, shard, doc, respond):
        if shard in self.copies and shard not in self.recovering and shard not in self.silent:
            respond(performed(self.copies[shard].state(doc), Op("get"), None)[0])
        else:
            respond(NO_COPY)

    def copy_at(self, shard, term, known, respond):
        """The copy of a shard if the term is the copy's or a later one; from then on it is the copy's."""
        copy = self.copies.get(shard)
        if copy is None or term < copy.term:
            respond(NO_COPY if copy is None else OLD_TERM)
            return None
        if term > copy.term:
            copy.roll_back(max(known, copy.known))
            copy.term = term
        copy.known = max(copy.known, known)
        return copy

    def replicate(self, shard, term, known, entry, respond):
        copy = self.copy_at(shard, term, known, respond)
        if copy:
            if entry and not self.cluster.faults.drops(self, shard):
                copy.put(entry)
            respond(max(copy.checkpoint, -1))

    def resync(self, shard, term, known, entries, respond):
        copy = self.copy_at(shard, term, known, respond)
        if copy:
            for it in entries:
                copy.put(it)
            respond(copy.checkpoint)

    def begin_copy(self, shard, term, respond):
        if shard in self.copies and self.copies[shard].term > term:
            respond(OLD_TERM)
        else:
            self.copies[shard] = Copy(term)
            self.recovering.add(shard)
            respond(None)


class Master:
    """The node that changes the cluster state. It is never disturbed."""

    def __init__(self, cluster, homes):
        self.cluster, self.homes = cluster, homes
        self.routings = [Routing(0, 1, its[0], frozenset(its)) for its in homes]
        # The copies that are in sync, also if their nodes are gone.
        self.in_sync = [set(its) for its in homes]

    def publish(self, shard, routing, then=lambda: None):
        """Sends a new cluster state to all nodes; then all of them have it."""
        self.routings[shard] = routing = routing._replace(version=self.routings[shard].version + 1)
        if routing.active:
            self.in_sync[shard] = set(routing.active)
        longest = 0
        for node in self.cluster.nodes:
            delay = self.cluster.delay()
            longest = max(longest, delay)
            self.cluster.clock.after(delay, node.apply, shard, routing)
        self.cluster.clock.after(longest, then)

    def fail_copy(self, shard, number, term, then):
        now = self.routings[shard]
        if term < now.term or now.primary is None:
            then(False)
        elif number in now.active:
            self.publish(shard, now._replace(active=now.active - {number}), lambda: then(True))
        else:
            then(True)

    def add_copy(self, shard, number, term, then):
        now, node = self.routings[shard], self.cluster.nodes[number]
        if term != now.term or now.primary is None or not node.is_alive or node.is_lost:
            return
        # (meanwhile the primary may have had it taken out)
        if number in self.cluster.nodes[now.primary].primaries[shard].targets:
            self.publish(shard, now._replace(active=now.active | {number}), lambda: then(True))

    def lose(self, node):
        """A node is gone: where it had the primary another copy in sync becomes it."""
        node.is_lost = True
        for exchange in list(node.exchanges):
            if exchange.source is not node:
                exchange.fail()
        for shard, now in enumerate(self.routings):
            left = now.active - {node.number}
            if now.primary == node.number and left:
                promoted = self.cluster.faults.promoted(shard, sorted(left))
                raised = self.cluster.faults.raised(now.term)
                self.publish(shard, now._replace(term=raised, primary=promoted, active=left), lambda: self.complete())
            elif now.primary == node.number:
                self.publish(shard, now._replace(primary=None, active=left))
            elif left != now.active:
                self.publish(shard, now._replace(active=left))

    def join(self, node):
        """A node is there again."""
        for shard, now in enumerate(self.routings):
            if now.primary is None and node.number in self.in_sync[shard]:
                raised = self.cluster.faults.raised(now.term)
                self.publish(shard, now._replace(term=raised, primary=node.number, active=frozenset({node.number})))
            else:
                self.cluster.clock.after(self.cluster.delay(), node.apply, shard, now)
        self.cluster.clock.after(5, self.complete)

    def complete(self):
        """Has each shard's copies that are missing brought in sync."""
        for shard, now in enumerate(self.routings):
            primary = now.primary is not None and self.cluster.nodes[now.primary].primaries.get(shard)
            for number in self.homes[shard]:
                node = self.cluster.nodes[number]
                if primary and number not in now.active and node.is_alive and not node.is_cut:
                    primary.recover(number)


class Cluster:
    """The cluster: its nodes, its master, and what was acknowledged."""

    def __init__(self, clock, draw, settings, faults):
        self.clock, self.draw, self.settings, self.faults = clock, draw, settings, faults
        self.nodes = [Node(self, number) for number in range(settings.nodes)]
        copies = range(settings.copies)
        homes = [[(shard + it) % settings.nodes for it in copies] for shard in range(settings.shards)]
        self.master = Master(self, homes)
        self.acknowledged = [set() for _ in range(settings.shards)]
        # Of each shard the writes that were performed, by their pairs, whatever became of them.
        self.performed = [{} for _ in range(settings.shards)]
        for shard, routing in enumerate(self.master.routings):
            for number in routing.active:
                self.nodes[number].copies[shard] = Copy(1)
            for node in self.nodes:
                node.apply(shard, routing)

    def delay(self):
        """How long a message takes."""
        length = self.draw.expovariate(1 / MESSAGE)
        return length * TIMES if self.draw.random() * 100 < self.settings.slow else length

    def send(self, source, number, name, arguments, answered, failed, more=0):
        """Sends a request; either it is answered or, unless the source is gone, it fails."""
        target = self.nodes[number]
        exchange = Exchange(self, source, target, answered, failed)
        delay = self.delay() + (self.draw.expovariate(1 / more) if more else 0)
        self.clock.after(delay, exchange.deliver, getattr(target, name), arguments)
        return exchange

    def acknowledge(self, shard, entry):
        self.acknowledged[shard].add(entry)

    def order(self, shard):
        """The pairs of the writes that came to stand, in their order: those that the last primary holds, and those that
        it lacks though a write that it holds met what they made."""
        now, performed = self.master.routings[shard], self.performed[shard]
        numbers = self.master.in_sync[shard] if now.primary is None else [now.primary]
        last = max((self.nodes[it].copies[shard] for it in numbers), key=lambda it: it.term)
        pairs = [(it.term, it.seq) for it in last.above(-1) if it.doc is not None]
        standing, tops = set(pairs), {}
        for pair in pairs:
            its, doc = performed[pair], performed[pair].write.doc
            is_seen = self.is_there(shard, its.base) != self.is_there(shard, tops.get(doc))
            if is_seen or its.write.op.condition:
                standing |= self.below(shard, its.base, standing)
            tops[doc] = pair
        return sorted(standing)

    def is_there(self, shard, pair):
        return pair is not None and self.performed[shard][pair].write.op.k is not None

    def below(self, shard, pair, standing):
        """The pair, and those that it stands on down to one that came to stand."""
        its = set()
        while pair is not None and pair not in standing:
            its.add(pair)
            pair = self.performed[shard][pair].base
        return its

    def look_for_losses(self, shard, copy):
        """Notes what the new primary lacks of what was acknowledged."""
        self.faults.lost |= {it for it in self.acknowledged[shard] if copy.entries.get(it.seq) != it}

    # Disturbances.

    def kill(self, number, restarts_after):
        """Kills a node, which comes again later with what it had on its disk."""
        node = self.nodes[number]
        node.is_alive = False
        for hang_up in node.clients.values():
            self.clock.after(CLOSED, hang_up)
        self.clock.after(self.draw.uniform(*NOTICED), self.master.lose, node)
        for exchange in list(node.exchanges):
            self.clock.after(CLOSED, exchange.fail)
        self.clock.after(restarts_after, self.restart, node)

    def restart(self, node):
        kept = {shard: copy for shard, copy in node.copies.items() if shard not in node.recovering}
        self.nodes[node.number] = Node(self, node.number, kept)
        self.master.join(self.nodes[node.number])

    def cut(self, number, heals_after):
        """Cuts a node off from the others, but not from its clients."""
        node = self.nodes[number]
        node.is_cut = True
        self.clock.after(self.draw.uniform(*NOTICED), self.master.lose, node)
        self.clock.after(self.faults.time_to_step_down(self.draw.uniform(*STEPS_DOWN)), self.step_down, node)
        self.clock.after(heals_after, self.heal, node)

    def step_down(self, node):
        """A node notices that it is cut off."""
        node.silent |= set(node.copies)
        for primary in node.primaries.values():
            primary.step_down()
        for exchange in list(node.exchanges):
            if exchange.is_parted():
                exchange.fail()

    def heal(self, node):
        self.step_down(node)
        node.is_cut, node.is_lost = False, False
        self.master.join(node)


class Write(NamedTuple):
    """What a client asks for: of an update the primary finds out whether it would change anything."""

    number: int
    doc: int
    op: Op
    is_update: bool = False


class Performed(NamedTuple):
    """A write as a primary performed it, and the pair that the document had before."""

    write: Write
    base: tuple


class WriteRequest:
    """A write as the node that a client asked sees to it: it sends it to the primary, again and again if it must."""

    def __init__(self, node, shard, write, finish):
        self.node, self.shard, self.write, self.finish = node, shard, write, finish
        self.clock = node.cluster.clock
        self.ends, self.seen, self.waits = self.clock.now + TRIES_FOR, 0, 0

    def route(self):
        cluster, routing = self.node.cluster, self.node.view[self.shard]
        self.seen = routing.version
        if routing.primary is None:
            self.retry()
            return
        arguments = self.shard, routing.term, self.write
        exchange = cluster.send(self.node, routing.primary, "perform", arguments, self.answered, self.retry)
        if routing.primary != self.node.number and cluster.draw.random() < cluster.settings.dropped_connections:
            self.clock.after(cluster.draw.expovariate(1 / MESSAGE), exchange.fail)

    def answered(self, answer):
        if answer == NO_PRIMARY:
            self.retry()
        else:
            self.finish(answer)

    def retry(self):
        """Sends it again as soon as there is another cluster state, and one last time when the time is over."""
        if self.clock.now >= self.ends:
            self.finish(UNAVAILABLE)
        elif self.node.view[self.shard].version > self.seen:
            self.clock.after(self.node.cluster.delay(), self.route)
        else:
            wake = partial(self.wake, self.waits)
            self.node.waiting.append(wake)
            self.clock.after(self.ends - self.clock.now, wake)

    def wake(self, waits):
        if waits == self.waits and self.node.is_alive:
            self.waits += 1
            self.route()


class GetRequest:
    """A get as the node that a client asked sees to it: if one copy is gone it asks the next."""

    def __init__(self, node, shard, doc, finish):
        self.node, self.shard, self.doc, self.finish = node, shard, doc, finish
        routing, cluster = node.view[shard], node.cluster
        if cluster.settings.gets == "primary":
            self.copies = [] if routing.primary is None else [routing.primary]
        else:
            self.copies = sorted(routing.active)
            cluster.draw.shuffle(self.copies)

    def route(self):
        if self.copies:
            cluster = self.node.cluster
            cluster.send(self.node, self.copies.pop(), "get", (self.shard, self.doc), self.answered, self.route)
        else:
            self.finish(UNAVAILABLE)

    def answered(self, answer):
        if answer == NO_COPY:
            self.route()
        else:
            self.finish(answer)
