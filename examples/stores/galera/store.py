"""A Galera cluster as a store of documents: what each call is there, and what its answer says.

A document is a row with the number of its last change and its value, which is null if the document isn't
there. Each document counts its changes by itself. A write is one transaction: it locks the row, compares the
number, changes the row, and notes the change in another table. README.md has why that is exact.
"""

from typing import Dict, List, NamedTuple, Optional

from protocol import Connection, MariaDBError, Row

from casbench_recording.history import Call, Pair
from casbench_recording.history.format import Operation
from casbench_recording.load import Kind, Outcome, Session, Unreachable, lost_by

TERM = 1
"""The term of all pairs. If a number is given twice, acknowledged changes were lost."""

SCHEMA = """
CREATE DATABASE casbench
CREATE TABLE casbench.documents (id VARCHAR(64) PRIMARY KEY, number BIGINT NOT NULL DEFAULT 0, value BIGINT)
CREATE TABLE casbench.changes (id VARCHAR(64), number BIGINT, made_by BIGINT, PRIMARY KEY (id, number))
"""

READ = "SELECT number, value FROM documents WHERE id = '{}'"

DEADLOCK = 1213
"""The error of a transaction that was rolled back since another one was in its way: nothing was done."""


class Version(NamedTuple):
    """What a row has: the number of its last change, and its value if the document is there."""

    number: int
    value: Optional[int]


def version_of(rows: List[Row]) -> Version:
    """What the row has that was read. Raises ValueError if there is none."""
    ((number, value),) = rows
    return Version(int(number or 0), None if value is None else int(value))


def kind_of(it: Operation, was: Version) -> Kind:
    """What a write comes to, if its document was so."""
    is_there = was.value is not None
    is_met = it.condition is None or is_there and was.number == it.condition.seq
    if it.op == "create" and is_there or not is_met:
        return Kind.CONFLICT
    if it.op == "delete":
        return Kind.DELETED if is_there else Kind.NOT_FOUND
    return Kind.UPDATED if is_there else Kind.CREATED


class GaleraSession:
    """A connection of a client to a node."""

    is_open = True

    def __init__(self, connection: Connection) -> None:
        self.connection = connection

    def send(self, call: Call) -> None:
        it = call.operation
        with lost_by(OSError):
            self.connection.send(READ.format(it.id) if it.op == "get" else "START TRANSACTION")

    def outcome(self, call: Call) -> Outcome:
        with lost_by(OSError, MariaDBError, ValueError):
            return self.get() if call.operation.op == "get" else self.write(call)

    def get(self) -> Outcome:
        it = version_of(self.connection.receive())
        pair = Pair(TERM, it.number)
        if it.value is None:
            return Outcome(Kind.MISSING, seen=pair)
        return Outcome(Kind.FOUND, pair, it.value, pair)

    def write(self, call: Call) -> Outcome:
        """Makes the transaction, and begins again if it was rolled back."""
        while True:
            try:
                self.connection.receive()
                return self.change(call)
            except MariaDBError as fault:
                if fault.args[0] != DEADLOCK:
                    raise
            self.send(call)

    def change(self, call: Call) -> Outcome:
        """Compares and changes, in the transaction that has begun, and ends it."""
        it, ask = call.operation, self.connection.ask
        was = version_of(ask(READ.format(it.id) + " FOR UPDATE"))
        kind, number = kind_of(it, was), was.number + 1
        if kind is Kind.CONFLICT:
            ask("ROLLBACK")
            return Outcome(kind, seen=Pair(TERM, was.number))
        value = "NULL" if it.value is None else it.value
        ask(f"UPDATE documents SET number = {number}, value = {value} WHERE id = '{it.id}'")
        ask(f"INSERT INTO changes VALUES ('{it.id}', {number}, {call.number})")
        ask("COMMIT")
        return Outcome(kind, Pair(TERM, number))

    def close(self) -> None:
        self.connection.close()


class Galera:
    """The store: the nodes on these ports, each statement to be answered in so many seconds. With `waits` a
    statement waits until its node has applied what was committed on any node before."""

    def __init__(self, ports: List[int], deadline: float = 2.0, waits: bool = True) -> None:
        self.ports, self.deadline, self.waits = ports, deadline, waits
        self.nodes = len(ports)

    def connect(self, node: int) -> Session:
        """A connection to a node. Raises Unreachable."""
        connection = Connection(self.ports[node], self.deadline, "casbench")
        try:
            connection.ask(f"SET SESSION wsrep_sync_wait = {7 if self.waits else 0}")
        except (OSError, MariaDBError) as fault:
            connection.close()
            raise Unreachable(str(fault)) from fault
        return GaleraSession(connection)


def changes_at(port: int) -> Dict[int, Pair]:
    """A node's own log: by the number of the call that made it, the pair of each change. If a call made two,
    which it should not, the first one counts."""
    connection, changes = Connection(port, 30, "casbench"), {}
    connection.ask("SET SESSION wsrep_sync_wait = 7")
    for call, number in connection.ask("SELECT made_by, number FROM changes ORDER BY number"):
        changes.setdefault(int(call or 0), Pair(TERM, int(number or 0)))
    connection.close()
    return changes
