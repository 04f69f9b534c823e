#!/usr/bin/env python3
"""Draws recordings of a simulated OpenSearch cluster, and has them judged under the profile for it.

    python3 tests/opensearch.py [PROGRAM]
    python3 tests/opensearch.py --seed 7 [--fault NAME]

The second one writes a recording, and what is known of it to standard error. PROGRAM is the built casbench; if it isn't
named, the one that ./casbench would run. Of a cluster that does what its documentation says each recording has to get
`yes`, and its witness has to be verified. Of one with a fault each recording in which a rule of the profile is seen to
be broken has to be refuted by such a rule, and nine of ten of those of compare-and-set in which the fault came about.
Each answer to one with a fault is also that of a strict check of what the profile makes of the history, with the gets
judged by themselves.
"""

import random
import sys
from collections import Counter
from concurrent.futures import ProcessPoolExecutor
from functools import partial
from typing import NamedTuple

from drawing import Call, Ending, Op, pair_taken
from evidence import known_calls
from program_test import ProgramTest, run_tests
from reading_answers import answer_by_strict_check, check, counts_of, verify, witness_of_text
from readings import OPENSEARCH, STRICT, History, numbers_read, read_as, records_read, text_of, unexplained_gets
from simulated_cluster import NOTHING, UNAVAILABLE, Clock, Cluster, GetRequest, Write, WriteRequest
from texts import witness_of

# How many recordings there are of a cluster without a fault and of one with a fault.
HONEST, FAULTY = 600, 300

# After how long a client gives a call up, between two calls, and after one that was refused by all.
PATIENCE, THINKS, WAITS = 150, 1.0, 10.0

# How many recordings without a fault a strict check accuses at least, and how many percent of those of compare-and-set
# with a fault the profile does.
LEAST_STRICT, LEAST_PERCENT = 200, 90


class Settings(NamedTuple):
    """What a cluster is like, what its clients do, and how it is disturbed."""

    clients: int
    calls: int
    docs: int
    shards: int
    nodes: int
    copies: int
    load: str
    kills: int
    gets: str
    # How many of a hundred writes under a condition are deletes, messages are slow and disturbances are cuts; and how
    # many of a thousand answers are dropped and calls are refused unheard.
    deletes: int
    slow: int
    cuts: int
    loss: int
    void: int
    dropped_connections: float
    conflicts_are_replicated: bool
    # How many milliseconds longer it takes to replicate a write, and after a promotion what the primary holds; whether
    # copies have that at once.
    replication_delay: float
    rolls_back_at_once: bool = True
    resync_delay: float = 0.0
    # Which part of the writes without a condition are updates, of which the recorder takes it that nothing was performed
    # if the answer says so. (It may have been, before the write was sent again.)
    updates: float = 0.0


LOADS = ("compare-and-set", "conditions from conflicts", "mixed")


def drawn_settings(seed):
    """The settings of a recording."""
    draw = random.Random(f"settings {seed} opensearch")
    copies = draw.choice([2, 3, 3])
    shards = draw.choice([1, 1, 1, 2])
    clients = draw.choice([4, 8, 16, 32])
    return Settings(
        clients=clients,
        calls=draw.choice([100, 200, 400, 800]) + 10 * clients,
        docs=shards * draw.choice([1, 2, 4, 8]),
        shards=shards,
        nodes=copies + draw.choice([0, 1, 2]),
        copies=copies,
        load=LOADS[seed % 3],
        kills=draw.choice([0, 0, 1, 2, 4, 8]),
        gets=draw.choice(["any", "any", "primary"]),
        deletes=draw.choice([0, 8, 30]),
        slow=draw.choice([3, 10, 25]),
        cuts=draw.choice([0, 30]),
        loss=draw.choice([0, 5, 30]),
        void=draw.choice([0, 10]),
        dropped_connections=draw.choice([0, 0, 0.01, 0.05]),
        conflicts_are_replicated=draw.random() < 0.5,
        replication_delay=draw.choice([0.0, 0.0, 3.0, 10.0]),
    )


# Loads: each draws the next operation of a client on a document, of which it knows a pair or none.


def swap(client, doc, k):
    """A write under a condition; without a pair to name, a create."""
    pair = client.known.get(doc)
    if pair is None:
        return Op("create", k)
    is_delete = client.draw.random() * 100 < client.recording.settings.deletes
    return Op("delete", None, pair) if is_delete else Op("index", k, pair)


def compare_and_set(client, doc, k):
    """A get, and then writes under the condition of what it found."""
    if doc not in client.known or client.draw.random() < 0.25:
        return Op("get")
    return swap(client, doc, k)


def mixed(client, doc, k):
    draw = client.draw.random()
    if draw < 0.35:
        return Op("get")
    if draw < 0.60:
        return Op("index", k)
    if draw < 0.68:
        return Op("delete")
    return Op("create", k) if draw < 0.75 else swap(client, doc, k)


OPERATION = dict(zip(LOADS, (compare_and_set, swap, mixed)))


class Client:
    """A client, and what it knows of the documents: the pair of each that is there, None if it isn't."""

    def __init__(self, recording):
        self.recording, self.draw, self.clock = recording, recording.draw, recording.clock
        self.known, self.call, self.node = {}, None, None

    def begin(self):
        recording = self.recording
        if recording.is_over():
            return
        doc = self.draw.randrange(recording.settings.docs)
        self.call = recording.called(doc, OPERATION[recording.settings.load](self, doc, len(recording.events)))
        alive = [it for it in recording.cluster.nodes if it.is_alive and it.view]
        self.node = self.draw.choice(alive) if alive else recording.cluster.nodes[0]
        self.node.clients[self] = partial(self.give_up, self.call)
        self.clock.after(recording.cluster.delay(), self.arrive, self.call)
        self.clock.after(PATIENCE, self.give_up, self.call)

    def arrive(self, call):
        """The call meets the node, which has it seen to, or refuses it at once."""
        settings, node = self.recording.settings, self.node
        finish, shard = partial(self.finish, call), call.doc % settings.shards
        if not node.is_alive or shard not in node.view:
            self.give_up(call)
            return
        if self.draw.random() * 1000 < settings.void:
            finish(NOTHING)
        elif call.op.name == "get":
            GetRequest(node, shard, call.doc, finish).route()
        else:
            is_update = call.op.name == "index" and not call.op.condition and self.draw.random() < settings.updates
            WriteRequest(node, shard, Write(call.number, call.doc, call.op, is_update), finish).route()

    def finish(self, call, answer):
        """The node has an answer, which may be dropped on its way."""
        if self.draw.random() * 1000 < self.recording.settings.loss:
            if self.draw.random() < 0.5:
                self.clock.after(self.recording.cluster.delay(), self.give_up, call)
        else:
            self.clock.after(self.recording.cluster.delay(), self.hear, call, answer)

    def hear(self, call, answer):
        if call is not self.call:
            return
        if answer in (NOTHING, UNAVAILABLE):
            self.recording.ended(call, None, answer == NOTHING)
        else:
            self.recording.ended(call, answer._replace(pair=None) if answer.kind == "conflict" else answer)
            self.learn(call, answer)
        self.go_on(WAITS if answer == UNAVAILABLE else THINKS)

    def learn(self, call, answer):
        """A conflict's reason names the pair that the primary has, if the document is there."""
        if answer.kind == "conflict" and self.recording.settings.load == "compare-and-set":
            self.known.pop(call.doc, None)
        else:
            self.known[call.doc] = None if answer.kind in ("deleted", "missing") else answer.pair

    def give_up(self, call):
        if call is self.call:
            if self.draw.random() < 0.7:
                self.recording.ended(call, None)
            self.go_on(THINKS)

    def go_on(self, waits):
        self.node.clients.pop(self, None)
        self.call = None
        self.clock.after(self.draw.expovariate(1 / waits), self.begin)


class Recording:
    """Clients at work on a cluster, which is disturbed meanwhile, and what was recorded of them."""

    def __init__(self, seed, settings, faults):
        self.draw, self.clock = random.Random(f"opensearch {seed}"), Clock()
        self.settings, self.faults = settings, faults
        faults.recording = self
        self.cluster = Cluster(self.clock, self.draw, settings, faults)
        self.events, self.voids, self.begun = [], set(), 0
        self.disturbed_at = set(faults.disturbed_at(self.draw, settings))
        clients = [Client(self) for _ in range(settings.clients)]
        for it in clients:
            self.clock.after(self.draw.uniform(0, THINKS), it.begin)
        self.clock.run(lambda: self.is_over() and not any(it.call for it in clients))

    def is_over(self):
        return self.begun >= self.settings.calls

    def called(self, doc, op):
        self.events.append(Call(self.begun, doc, op))
        self.begun += 1
        if self.begun in self.disturbed_at:
            self.disturb()
        return self.events[-1]

    def ended(self, call, reply, is_void=False):
        self.events.append(Ending(call.number, reply))
        if is_void:
            self.voids.add(call.number)

    def disturb(self):
        """Kills the node of a primary, or another one, or cuts it off."""
        cluster, draw = self.cluster, self.draw
        primary = draw.choice(cluster.master.routings).primary
        number = draw.randrange(self.settings.nodes) if primary is None or draw.random() < 0.15 else primary
        if cluster.nodes[number].is_alive and not cluster.nodes[number].is_cut:
            disturbance = cluster.cut if draw.random() * 100 < self.settings.cuts else cluster.kill
            disturbance(number, draw.uniform(60, 200))

    def history(self):
        docs = range(self.settings.docs)
        shards = tuple(it % self.settings.shards for it in docs)
        return History(self.events, frozenset(self.voids), tuple(f"d{it}" for it in docs), shards)

    def standing(self):
        """By the numbers of the calls the pairs with which they came to stand."""
        pairs = {}
        for shard, writes in enumerate(self.cluster.performed):
            for pair in self.cluster.order(shard):
                pairs.setdefault(writes[pair].write.number, []).append(pair)
        return pairs

    def own_order(self):
        """The witness of the order in which the cluster performed the writes, of what the profile reads. (The third
        time that it performed a write is left out: the profile has no place for it.)"""
        history = self.history()
        calls, numbers = known_calls(history.events), numbers_read(OPENSEARCH, history.events)
        places = {doc: [] for doc in records_read(OPENSEARCH, history)}
        for number, pairs in self.standing().items():
            shown = pair_taken(calls[number].reply)
            hidden = iter([it for it in pairs if it != shown][: 1 if shown else 2])
            its = places[calls[number].doc]
            if shown or pairs:
                its.append((shown or next(hidden), numbers[number], shown is None))
            its += [(it, numbers[number] + 1, True) for it in hidden]
        return "".join(witness_of(history.names[doc], self.placed(doc, its)) for doc, its in places.items())

    def placed(self, doc, places):
        """The places of a document by their pairs, each with its record and with the pair if no reply shows it."""
        records = {number: at for at, number in enumerate(records_read(OPENSEARCH, self.history())[doc])}
        rows = [(records.get(number, len(records)), pair, is_given) for pair, number, is_given in sorted(places)]
        return [(record, pair if is_given else None) for record, pair, is_given in rows]


# Faults. Each is asked where it may do something wrong.


class NoFault:
    """What a cluster without a fault does."""

    def __init__(self):
        self.recording, self.lost, self.count = None, set(), 0

    def disturbed_at(self, draw, settings):
        """The numbers of the calls at which a node is disturbed. Every other time it is soon after the time before."""
        first, last = settings.calls // 10, settings.calls * 9 // 10
        numbers = []
        for at in range(settings.kills):
            is_soon = at % 2 and draw.random() < 0.5
            soon = numbers[-1] + draw.randrange(1, 3 * settings.clients) if is_soon else None
            numbers.append(soon or draw.randrange(first, last))
        return numbers

    def op(self, op, state):
        """The operation that the primary performs in the place of one, on a document in this state."""
        return op

    def seq(self, primary, doc):
        """The number that the primary gives to a write."""
        return primary.next

    def acknowledges_early(self, primary):
        """Whether the primary answers before the other copies hold a write."""
        return False

    def drops(self, node, shard):
        """Whether a copy forgets what it is sent."""
        return False

    def promoted(self, shard, left):
        """Where the next primary is."""
        return self.recording.draw.choice(left)

    def raised(self, term):
        """The next term."""
        return term + 1

    def time_to_step_down(self, time):
        return time

    def is_since(self, part):
        """Whether this part of the calls, of a hundred, was made."""
        return self.recording.begun * 100 >= part * self.recording.settings.calls

    def came_about(self):
        """Whether something wrong was done."""
        return bool(self.lost) or self.count > 0


class AcknowledgedEarly(NoFault):
    """Before a primary is killed its writes are answered early, and the other copies don't get them."""

    def disturbed_at(self, draw, settings):
        self.until = draw.randrange(settings.calls * 3 // 10, settings.calls * 7 // 10)
        self.since = self.until - 10 - settings.clients
        return [self.until]

    def is_early(self):
        return self.since <= self.recording.begun < self.until

    def acknowledges_early(self, primary):
        self.count += self.is_early()
        return self.is_early()

    def drops(self, node, shard):
        return self.is_early()


class ConditionIgnored(NoFault):
    """Three conditions that name another version than the document has are ignored."""

    def op(self, op, state):
        if op.condition and state and state[0] != op.condition and self.count < 3 and self.is_since(30):
            self.count += 1
            return op._replace(condition=None)
        return op


class PairTwice(NoFault):
    """The primary gives the number of a write to the next one too, which is of another document."""

    def seq(self, primary, doc):
        last = primary.copy.entries.get(primary.next - 1)
        if self.count < 3 and self.is_since(30) and last and last.doc not in (None, doc):
            self.count += 1
            return last.seq
        return primary.next


class CopyOutOfSync(NoFault):
    """A copy forgets what it is sent, and goes on to answer gets."""

    def drops(self, node, shard):
        routing = self.recording.cluster.master.routings[shard]
        is_chosen = node.number == max(routing.active) and node.number != routing.primary
        if is_chosen and self.is_since(30):
            self.count += 1
        return is_chosen and self.is_since(30)


class CutPrimaryGoesOn(NoFault):
    """A primary that is cut off answers gets long after another one was promoted."""

    def time_to_step_down(self, time):
        self.count += 1
        return time * 20


class AnswersBeforeResync(NoFault):
    """At a promotion a copy forgets what is above the global checkpoint, and answers gets before it is sent that
    again."""

    def came_about(self):
        return len(self.recording.disturbed_at) > 0


# The faults, the settings that each needs, and those that writes show by themselves if the clients compare and set.
THREE_COPIES = {"copies": 3, "nodes": 4}
FAULTS = {
    AcknowledgedEarly: {},
    ConditionIgnored: {},
    PairTwice: {"docs": 4},
    CopyOutOfSync: {"gets": "any"},
    CutPrimaryGoesOn: {"gets": "any", "kills": 4, "cuts": 100},
    AnswersBeforeResync: {**THREE_COPIES, "gets": "any", "kills": 4, "rolls_back_at_once": False, "resync_delay": 30.0},
}
SHOWN_BY_WRITES = ("AcknowledgedEarly", "ConditionIgnored", "PairTwice")


def faulty_settings(seed, fault):
    """The settings of a recording with a fault."""
    settings = drawn_settings(seed)
    drawn = {"load": LOADS[seed // len(FAULTS) % 3], "loss": 0, "cuts": 0, "kills": min(settings.kills, 2)}
    return settings._replace(**drawn | FAULTS[fault])


def fault_of(seed):
    return list(FAULTS)[seed % len(FAULTS)]


# The rules of the profile, and what is seen to break them.


def performed_writes(history):
    """The writes that were answered as performed, in what is read, by the documents."""
    writes = {}
    for it in known_calls(list(read_as(OPENSEARCH, history.voids, history.events))).values():
        if pair_taken(it.reply):
            writes.setdefault(it.doc, []).append(it)
    return writes


def is_stale_swap(one, two):
    """The second write was performed under a condition below the first one's pair, though it stands behind it."""
    first, second, asked = pair_taken(one.reply), pair_taken(two.reply), two.op.condition
    return one is not two and asked is not None and asked < first and (one.replied < two.called or first < second)


def rules_broken(history):
    """The kinds of evidence that there is by the replies of writes and by the gets."""
    writes = performed_writes(history)
    kinds = {kind for kind, _ in unexplained_gets(OPENSEARCH, history.voids, history.events)}
    taken = [(history.shard_of(doc), it.reply.pair) for doc, its in writes.items() for it in its]
    if len(set(taken)) < len(taken):
        kinds.add("pair-twice")
    if any(is_stale_swap(one, two) for its in writes.values() for two in its if two.op.condition for one in its):
        kinds.add("stale-swap")
    return kinds


# How they are judged.


def judged_honest(program, seed):
    """Judges a recording without a fault; returns its load and what a strict check says of it."""
    settings, faults = drawn_settings(seed), NoFault()
    recording = Recording(seed, settings, faults)
    if faults.came_about():
        raise AssertionError(f"the simulated cluster lost {sorted(faults.lost)[:5]}")
    text = text_of(recording.history())
    check_own_order(program, recording, text)
    check_explained(program, text)
    return settings.load, check(program, text, STRICT).word


def check_own_order(program, recording, text):
    """The order in which the cluster performed the writes explains the recording, unless it performed one more than
    twice."""
    line = verify(program, text, recording.own_order(), OPENSEARCH)
    if not line.startswith("verified ") and max(map(len, recording.standing().values())) <= 2:
        raise AssertionError(f"the cluster's own order: {line}")


def check_explained(program, text):
    """The answer to a text is `yes`, verified by the program's witness."""
    answer = check(program, text, OPENSEARCH)
    if answer.word != "yes":
        raise AssertionError(answer)
    witness = witness_of_text(program, text, OPENSEARCH)
    line = verify(program, text, witness, OPENSEARCH)
    docs, calls, left_out, gets = counts_of(OPENSEARCH, text, witness)
    counts = f"docs={docs} calls={calls} left_out={left_out} gets={gets}\n"
    if answer.line != f"yes {counts}" or line != f"verified {counts}":
        raise AssertionError(f"{answer}, and of the witness {line}, and not {counts}")


class Faulty(NamedTuple):
    """What came of a recording with a fault: the fault, the load, what is seen of it, and the kind of the answer."""

    fault: str
    load: str
    seen: str
    answer: str


SEEN, NOT_SEEN, NOT_MADE = "a broken rule is seen", "it is not seen", "it did not come about"


def judged_faulty(program, seed):
    """Judges a recording with a fault; returns the fault, the load, what came of it, and the answer."""
    faults = fault_of(seed)()
    settings = faulty_settings(seed, type(faults))
    history = Recording(seed, settings, faults).history()
    text, rules = text_of(history), rules_broken(history)
    answer, strictly = check(program, text, OPENSEARCH), answer_by_strict_check(program, text, OPENSEARCH)
    if (answer.word, answer.kind) != (strictly.word, strictly.kind):
        raise AssertionError(f"{answer}, and by a strict check {strictly}")
    if rules and answer.kind not in rules or not faults.came_about() and answer.word != "yes":
        raise AssertionError(f"{answer}, broken are {rules}, and the fault came about: {faults.came_about()}")
    seen = SEEN if rules else NOT_SEEN if faults.came_about() else NOT_MADE
    return Faulty(type(faults).__name__, settings.load, seen, answer.kind or answer.word)


class OpenSearch(ProgramTest):
    """Recordings of a simulated cluster."""

    def test_honest(self):
        """Each recording of a cluster without a fault gets `yes` under the profile. A strict check accuses many."""
        rows = [(f"recording {seed} of a cluster without a fault", self.program, seed) for seed in range(HONEST)]
        returned = self.run_subtests(judged_honest, rows, ProcessPoolExecutor, chunksize=4)
        strictly = Counter(filter(None, returned))
        for load in LOADS:
            counts = ", ".join(f"{strictly[load, it]} {it}" for it in ("yes", "no", "refuted"))
            print(f"{load}: a strict check says {counts}")
        self.assertGreaterEqual(sum(count for (_, word), count in strictly.items() if word == "refuted"), LEAST_STRICT)

    def test_faulty(self):
        """Each recording in which a rule is seen to be broken is refuted by such a rule, and nearly all of those of
        compare-and-set in which a fault came about that writes show."""
        rows = [(f"recording {seed} of a cluster with a fault", self.program, seed) for seed in range(FAULTY)]
        returned = list(filter(None, self.run_subtests(judged_faulty, rows, ProcessPoolExecutor, chunksize=4)))
        for row, count in sorted(Counter(returned).items()):
            print(", ".join(row) + f": {count}")
        swaps = [it for it in returned if it.fault in SHOWN_BY_WRITES and it.load != "mixed" and it.seen != NOT_MADE]
        refuted = [it for it in swaps if it.answer not in ("yes", "no")]
        print(f"{len(refuted)} of {len(swaps)} of compare-and-set are refuted")
        self.assertGreaterEqual(len(refuted) * 100, LEAST_PERCENT * len(swaps))


def write_one(arguments):
    """Writes the recording that the arguments ask for."""
    named = dict(zip(arguments[::2], arguments[1::2]))
    seed, name = int(named["--seed"]), named.get("--fault")
    fault = next((it for it in FAULTS if it.__name__ == name), NoFault)
    faults, settings = fault(), faulty_settings(seed, fault) if name else drawn_settings(seed)
    history = Recording(seed, settings, faults).history()
    print(settings, f"\nlost {faults.lost}, wrong {faults.count}, broken {rules_broken(history)}", file=sys.stderr)
    sys.stdout.write(text_of(history))


if __name__ == "__main__":
    if sys.argv[1:2] == ["--seed"]:
        write_one(sys.argv[1:])
        sys.exit(0)
    sys.exit(run_tests())
