"""The clients of a load, and the interface of a store.

    with History("carts.ndjson", most_events=10_000) as history:
        load = Load(history, seed=1)
        load.add_clients(8, store)
        load.run()

A `Store` implements how to connect to a node, what to send for a call, and what its answer means. Each client
makes one call after another. The line of a call is written before its request is sent, and that of its reply
after the complete answer. A call is lost if its answer doesn't come, or says nothing; then the client goes on
to the next node.
"""

import contextlib
import enum
import os
import random
import sys
import threading
import time
import traceback
from dataclasses import dataclass
from typing import (
    Callable,
    Dict,
    Iterator,
    List,
    Mapping,
    Optional,
    Protocol,
    Sequence,
    Set,
    Tuple,
    Type,
    TypeVar,
    cast,
    runtime_checkable,
)

from casbench_recording.console import escaped
from casbench_recording.history.format import Operation, Pair
from casbench_recording.history.writing import Call, CallWriter, Ended, HistoryError
from casbench_recording.history.writing import NoOutcome as NoOutcome

WRITES = ("index", "create", "delete", "index-if", "delete-if")

MIXTURE = {"get": 6, "index": 2, "create": 1, "delete": 1, "index-if": 6, "delete-if": 1}
"""The relative frequency of each kind of turn. `index-if` and `delete-if` read the document, and write it on
the condition of its pair. `bulk`, for stores that support it, makes several writes by one request, on the
condition of the pairs that the client received last."""

ANY_NUMBER = 2**62
"""The number of calls of a client that goes on until the history is full, or the load is over."""

RECONNECTS = 0.02
"""How many seconds a client waits before it tries the next node, if it couldn't connect."""

AT_ONCE = 0.05
"""A call that is lost within so many seconds was answered with an error. Its client pauses: otherwise a node
that is out of order would use up the calls of the history."""

LONGEST_PAUSE = 0.5
"""How many seconds a client pauses at most. The first pause takes RECONNECTS seconds, and each further one in
a row twice as long as the one before."""


class Unreachable(Exception):
    """No connection to a node could be made, so nothing was requested."""


class Dropped(NoOutcome):
    """The client dropped the answer itself."""


@contextlib.contextmanager
def lost_by(*faults: Type[Exception]) -> Iterator[None]:
    """Converts exceptions of these types to NoOutcome, so that the call is lost."""
    try:
        yield
    except faults as fault:
        raise NoOutcome(str(fault)) from fault


class Kind(enum.Enum):
    """What the answer of a store may say, as in the table of replies of docs/RECORDING.md."""

    FOUND = "found"
    MISSING = "missing"
    CREATED = "created"
    UPDATED = "updated"
    DELETED = "deleted"
    NOT_FOUND = "not found"
    CONFLICT = "conflict"


@dataclass(frozen=True)
class Outcome:
    """The answer to a call. `pair` is that of the change, or of the version that was found, with the value
    `k`. `seen` is the pair of the last change that the answer had seen, if the store says so: a witness needs
    it for gets and conflicts. It may be the last change of the shard, or of this document alone, if the store
    says no more. Before the first change of all it is any lesser pair, such as `Pair(1, 0)`."""

    kind: Kind
    pair: Optional[Pair] = None
    k: Optional[int] = None
    seen: Optional[Pair] = None

    def write(self, call: Call) -> None:
        """Writes the reply of a call."""
        if self.kind is Kind.MISSING:
            call.missing()
        elif self.kind is Kind.CONFLICT:
            call.conflict()
        elif self.pair is None:
            raise NoOutcome(f"{self.kind.value}, and no pair")
        elif self.kind is Kind.FOUND:
            call.found(self.pair, self.k if self.k is not None else 0)
        elif self.kind in (Kind.CREATED, Kind.UPDATED):
            call.indexed(self.pair, created=self.kind is Kind.CREATED)
        else:
            call.deleted(self.pair, found=self.kind is Kind.DELETED)

    @property
    def there(self) -> Optional[Pair]:
        """The pair of the document after this answer, if the document exists."""
        return self.pair if self.kind in (Kind.FOUND, Kind.CREATED, Kind.UPDATED) else None


class CallResult(Protocol):
    """The answer to a call: an `Outcome`, or the reply as received."""

    @property
    def seen(self) -> Optional[Pair]:
        """The pair of the last change that the answer had seen, if the store says so."""

    @property
    def there(self) -> Optional[Pair]:
        """The pair of the document after this answer, if the document exists."""

    def write(self, call: Call) -> None:
        """Writes the reply of a call. Raises NoOutcome if it is none."""


class Session(Protocol):
    """A connection of one client to one node. It sends each request once, and never again."""

    @property
    def is_open(self) -> bool:
        """Whether a request can be sent. If the node has closed it, the client leaves it before the next
        call."""

    def send(self, call: Call) -> None:
        """Sends the request of a call. Raises NoOutcome if it may not have been sent completely."""

    def outcome(self, call: Call) -> CallResult:
        """Waits for the answer to the request, up to the store's deadline, and returns it. Raises
        NoOutcome."""

    def close(self) -> None:
        """Closes the connection, even if an answer is outstanding."""


class BulkSession(Session, Protocol):
    """A session that supports several writes in one request."""

    def send_all(self, calls: Sequence[Call]) -> None:
        """Sends the request of several calls. Raises NoOutcome."""

    def outcomes(self, calls: Sequence[Call]) -> Sequence[Optional[CallResult]]:
        """Waits for the answer, and returns what it says about each call, or None if it says nothing. Raises
        NoOutcome."""


class Store(Protocol):
    """A store of documents with versions."""

    nodes: int

    def connect(self, node: int) -> Session:
        """Connects to a node, numbered from 0. Raises Unreachable."""


@runtime_checkable
class NamedStore(Store, Protocol):
    """A store whose nodes have names, which are written to the lines of calls."""

    names: Sequence[str]


class Draw:
    """Random choices from a seed. Only `random()` is called, since its numbers are the same in every release
    of Python."""

    def __init__(self, seed: str) -> None:
        self.random = random.Random(seed).random

    def below(self, count: int) -> int:
        """Returns an integer from 0 to count - 1."""
        return int(self.random() * count)

    def one_of(self, weights: Mapping[str, int]) -> str:
        """Returns one of the names, according to their weights."""
        left = self.below(sum(weights.values()))
        for name, weight in weights.items():
            if left < weight:
                return name
            left -= weight
        raise ValueError("no weights")

    def between(self, least: float, most: float) -> float:
        """Returns a number between these bounds."""
        return least + self.random() * (most - least)


def one_shard(_: str) -> int:
    """Returns the shard of a document if all are on one shard, whose changes are counted together."""
    return 0


def own_shard(id: str) -> int:
    """Returns the shard of a document of the load if each is a shard of its own: the number in its id."""
    return int(id[1:])


@dataclass(frozen=True)
class Habits:
    """How a client behaves: the frequency of each kind of turn, the number of documents, how many of a
    thousand answers it drops, whether it stays with its node after a fault, the maximum number of its calls,
    the number of writes in a bulk request, and the shard of a document by its id. `shard_of=own_shard` is for
    a store that counts the changes of each document by themselves."""

    mixture: Mapping[str, int]
    documents: int = 8
    dropped: int = 0
    is_bound: bool = False
    calls: int = ANY_NUMBER
    bulk_items: int = 4
    shard_of: Callable[[str], int] = one_shard

    @property
    def writes(self) -> Mapping[str, int]:
        """The frequency of each kind of write in a bulk request."""
        weights = {it: self.mixture.get(it, 0) for it in WRITES}
        return weights if any(weights.values()) else {"index": 1}


Received = TypeVar("Received")


class Client(threading.Thread):
    """A client, which makes one call after another and records each."""

    def __init__(self, load: "Load", store: Store, node: int, habits: Habits, draw: Draw) -> None:
        super().__init__(daemon=True)
        self.load, self.store, self.node, self.habits, self.draw = (
            load,
            store,
            node % store.nodes,
            habits,
            draw,
        )
        self.session: Optional[Session] = None
        self.names = store.names if isinstance(store, NamedStore) else [""] * store.nodes
        self.calls = 0
        # the last pair that the client received, by document
        self.known: Dict[str, Pair] = {}
        # how long it pauses before its next call, in seconds
        self.pause = 0.0

    def run(self) -> None:
        """Makes calls until the load is over."""
        try:
            while True:
                self.take_turn()
        except Ended:
            pass
        except BaseException as fault:
            # (`Load.run` raises it again)
            self.load.faults.append(fault)
        finally:
            self.leave()

    def take_turn(self) -> None:
        """Makes the calls of one turn."""
        self.load.wait_if_held(self)
        document, kind = self.document(), self.draw.one_of(self.habits.mixture)
        if kind == "bulk":
            drawn = [
                (self.document(), self.draw.one_of(self.habits.writes)) for _ in range(self.habits.bulk_items)
            ]
            self.make_bulk([operation_of(it, id, self.known.get(id)) for id, it in drawn])
        else:
            pair = self.make(Operation("get", document)) if kind.endswith("-if") else None
            self.make(operation_of(kind, document, pair))

    def document(self) -> str:
        """Returns the id of a random document."""
        return f"d{self.draw.below(self.habits.documents)}"

    def make(self, it: Operation) -> Optional[Pair]:
        """Makes a call; returns the pair of the document, if it exists then."""
        session = self.connected()
        (call,) = self.begin([it])
        result: Optional[CallResult] = None
        with call, self.lost_by_fault(call):
            session.send(call)
            answer = self.received(lambda: session.outcome(call))
            answer.write(call)
            result = answer
        return None if result is None else self.learn(call, result)

    def make_bulk(self, operations: Sequence[Operation]) -> None:
        """Makes a bulk request. Its items are separate calls, all of which are made before any is
        answered."""
        session = cast(BulkSession, self.connected())
        calls = self.begin(operations[: min(self.left, self.load.history.room)])
        outcomes: Sequence[Optional[CallResult]] = [None] * len(calls)
        with self.lost_by_fault(calls[0]):
            session.send_all(calls)
            outcomes = self.received(lambda: session.outcomes(calls))
        for call, result in zip(calls, outcomes):
            with call, contextlib.suppress(NoOutcome), self.load.lost_by_any(call):
                if result is not None:
                    result.write(call)
                    self.learn(call, result)

    @contextlib.contextmanager
    def lost_by_fault(self, call: Call) -> Iterator[None]:
        """Leaves the node if the block raises an exception, by which its calls are lost. If that comes at
        once the client pauses before its next call."""
        began = time.monotonic()
        try:
            with self.load.lost_by_any(call):
                yield
        except NoOutcome as fault:
            self.leave()
            is_error = not isinstance(fault, Dropped) and time.monotonic() - began < AT_ONCE
            self.pause = min(2 * self.pause or RECONNECTS, LONGEST_PAUSE) if is_error else 0.0
        else:
            self.pause = 0.0

    def begin(self, operations: Sequence[Operation]) -> List[Call]:
        """Writes the lines of calls. The value of a write is the number of its call."""
        name, shard_of = self.names[self.node], self.habits.shard_of
        calls = self.load.history.write_all(
            [it._replace(node=name, shard=shard_of(it.id)) for it in operations]
        )
        self.calls += len(calls)
        return calls

    def received(self, receive: Callable[[], Received]) -> Received:
        """Returns the answer, unless it is dropped: then the connection breaks before or after it is
        received."""
        if self.draw.below(1000) >= self.habits.dropped:
            return receive()
        if self.draw.below(2):
            receive()
        raise Dropped

    def learn(self, call: Call, result: CallResult) -> Optional[Pair]:
        """Keeps what an answer says; returns the pair of the document, if it exists then."""
        if result.seen is not None:
            self.load.seen[call.number] = result.seen
        there = result.there
        if there is None:
            self.known.pop(call.operation.id, None)
        else:
            self.known[call.operation.id] = there
        return there

    @property
    def left(self) -> int:
        """How many more calls the client makes."""
        return self.habits.calls - self.calls

    def connected(self) -> Session:
        """Returns the connection, which is made before the call is recorded. Raises Ended if the load is
        over."""
        if self.pause:
            time.sleep(self.pause)
        while self.left > 0 and not self.load.is_over():
            if self.session is not None and self.session.is_open:
                return self.session
            self.disconnect()
            try:
                self.session = self.store.connect(self.node)
            except Unreachable:
                self.leave()
                time.sleep(RECONNECTS)
        raise Ended

    def disconnect(self) -> None:
        """Closes the connection, if there is one."""
        if self.session is not None:
            self.session.close()
            self.session = None

    def leave(self) -> None:
        """Closes the connection, and goes on to the next node."""
        self.disconnect()
        if not self.habits.is_bound:
            self.node = (self.node + 1) % self.store.nodes


def operation_of(kind: str, id: str, pair: Optional[Pair]) -> Operation:
    """Returns the operation of a kind of turn. A conditional write without a known pair is a create, or has
    no condition."""
    op, _, is_swap = kind.partition("-")
    if not is_swap:
        return Operation(op, id)
    return Operation("create" if pair is None and op == "index" else op, id, None, pair)


class Load:
    """The clients of a history. For a witness, it keeps what each answer had seen, by the number of the
    call."""

    def __init__(self, history: CallWriter, seed: int, has_ended: Callable[[], bool] = lambda: False) -> None:
        self.history, self.seed, self.has_ended = history, seed, has_ended
        self.draw = Draw(f"{seed}/disturbance")
        self.clients: List[Client] = []
        self.faults: List[BaseException] = []
        self.seen: Dict[int, Pair] = {}
        # what was reported: the types of exceptions, and the lines of source that raised them
        self.reported: Set[Tuple[str, str]] = set()
        # the first exception that no `lost_by` names
        self.unnamed: Optional[Exception] = None
        self.held: Dict[Client, threading.Event] = {}

    def add_clients(
        self, count: int, store: Store, habits: Habits = Habits(MIXTURE), node: Optional[int] = None
    ) -> List[Client]:
        """Adds clients; they start with the given node, or else with different ones."""
        first = len(self.clients)
        added = [
            Client(self, store, it if node is None else node, habits, Draw(f"{self.seed}/{it}"))
            for it in range(first, first + count)
        ]
        self.clients += added
        return added

    @contextlib.contextmanager
    def lost_by_any(self, call: Call) -> Iterator[None]:
        """Converts exceptions that no `lost_by` names to NoOutcome, and reports them; but not those of the
        history."""
        try:
            yield
        except (NoOutcome, Ended, HistoryError):
            raise
        except Exception as fault:
            self.unnamed = self.unnamed or fault
            self.report(call, fault)
            raise NoOutcome(str(fault)) from fault

    def report(self, call: Call, fault: Exception) -> None:
        """Writes a line to standard error about an exception that lost a call, the first time that this line
        of the store's mapping raises one of its type."""
        frames = traceback.extract_tb(fault.__traceback__)
        outside = [it for it in frames if it.filename != __file__] or frames
        last = [it for it in outside if it.filename == outside[0].filename][-1]
        kind, place = type(fault).__name__, f"{os.path.basename(last.filename)}:{last.lineno}"
        if (kind, place) not in self.reported:
            self.reported.add((kind, place))
            text = f"load: call {call.number} is lost by {kind}, which no lost_by names, at {place}: {fault}"
            print(escaped(text), file=sys.stderr, flush=True)

    def is_over(self) -> bool:
        """Returns whether no more calls are made."""
        return bool(self.faults) or not self.history.room or self.has_ended()

    def run(self, disturb: Callable[[], None] = lambda: None, calls_between: int = 600) -> None:
        """Runs the clients until all have made their calls, and disturbs the store after each `calls_between`
        calls. If it is interrupted, it doesn't wait for open calls. If no call was answered, it raises the
        first exception that no `lost_by` names: a history without replies would get `yes`."""
        for client in self.clients:
            client.start()
        try:
            while self.wait_for(self.history.calls + calls_between):
                disturb()
        except Exception as fault:
            self.faults.append(fault)
        for client in self.clients:
            self.release([client])
            client.join()
        if self.faults:
            raise self.faults[0]
        if self.unnamed is not None and not self.history.replies:
            raise self.unnamed

    def wait_for(self, calls: int) -> bool:
        """Waits until there are this many calls; returns whether the load goes on."""
        while self.history.calls < calls and self.is_running():
            time.sleep(0.005)
        return self.is_running()

    def wait_for_each(self, clients: List[Client], most: float) -> None:
        """Waits until each of these clients has made one more call, for `most` seconds at most."""
        before, last = [it.calls for it in clients], time.monotonic() + most
        while (
            any(it.calls == calls for it, calls in zip(clients, before))
            and time.monotonic() < last
            and self.is_running()
        ):
            time.sleep(0.005)

    def is_running(self) -> bool:
        """Returns whether a client is making calls."""
        return not self.is_over() and any(it.is_alive() for it in self.clients)

    def wait(self, least: float, most: float) -> None:
        """Waits for a random time between these bounds, in seconds."""
        time.sleep(self.draw.between(least, most))

    def hold(self, clients: List[Client]) -> None:
        """Pauses clients after their current turn, until they are released."""
        for it in clients:
            self.held.setdefault(it, threading.Event())

    def release(self, clients: List[Client]) -> None:
        """Resumes clients."""
        for it in clients:
            event = self.held.pop(it, None)
            if event is not None:
                event.set()

    def wait_if_held(self, client: Client) -> None:
        """Waits while this client is paused."""
        event = self.held.get(client)
        if event is not None:
            event.wait()
