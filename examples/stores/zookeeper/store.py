"""ZooKeeper as a store of documents: what each call is there, and what its answer says. README.md has why that is exact.

A document is a node `/doc/ID` that is never deleted: it holds the value, or nothing if the document isn't there. So its version never begins
again, and stands for the number of its last change, the `mzxid`. A write reads both, compares the number, and changes the node under the
version that it read; the same transaction notes the call in a node of its own under `/log`.
"""

import struct
from typing import Dict, List, NamedTuple, Optional

from protocol import BAD_VERSION, CHILDREN, CREATE, GET, MULTI, SEQUENTIAL, SET, STAT, SYNC, Connection, ZooKeeperError, created, text

from casbench_recording.history import Call, Pair
from casbench_recording.load import Kind, Outcome, Session, lost_by

TERM = 1
"""The term of all pairs. A `zxid` has the leader's epoch in it, and never falls."""


class Version(NamedTuple):
    """What a node was when it was read: the number of its last change, its version, and its value if it has one."""

    number: int
    version: int
    value: Optional[int]


class ZooKeeperSession:
    """A connection of a client to a member. Without `is_synced` a read shows what the member knows."""

    is_open = True

    def __init__(self, connection: Connection, is_synced: bool) -> None:
        self.connection, self.is_synced = connection, is_synced

    def send(self, call: Call) -> None:
        with lost_by(OSError):
            self.send_read(f"/doc/{call.operation.id}")

    def outcome(self, call: Call) -> Outcome:
        with lost_by(OSError, ZooKeeperError, struct.error):
            return self.get() if call.operation.op == "get" else self.write(call)

    def send_read(self, path: str) -> None:
        if self.is_synced:
            self.connection.send(SYNC, text(path))
        self.connection.send(GET, text(path) + b"\0")

    def receive_read(self) -> Version:
        if self.is_synced:
            self.connection.receive()
        answer = self.connection.receive()
        (length,) = struct.unpack_from("!i", answer)
        stat = STAT.unpack_from(answer, 4 + max(length, 0))
        return Version(stat[1], stat[4], int(answer[4 : 4 + length]) if length > 0 else None)

    def get(self) -> Outcome:
        it = self.receive_read()
        pair = Pair(TERM, it.number)
        return Outcome(Kind.MISSING, seen=pair) if it.value is None else Outcome(Kind.FOUND, pair, it.value, pair)

    def write(self, call: Call) -> Outcome:
        """Compares and changes, and begins again if the node was changed meanwhile: then nothing was done."""
        it, path = call.operation, f"/doc/{call.operation.id}"
        while True:
            was = self.receive_read()
            is_there = was.value is not None
            if it.op == "create" and is_there or it.condition is not None and not (is_there and was.number == it.condition.seq):
                return Outcome(Kind.CONFLICT, seen=Pair(TERM, was.number))
            change = text(path) + text("" if it.value is None else str(it.value)) + struct.pack("!i", was.version)
            note = created("/log/n-", str(call.number), SEQUENTIAL)
            head, end = struct.Struct("!i?i"), struct.pack("!i?i", -1, True, -1)
            answer = self.connection.ask(MULTI, head.pack(SET, False, -1) + change + head.pack(CREATE, False, -1) + note + end)
            if struct.unpack_from("!i", answer)[0] == SET:
                number = Pair(TERM, STAT.unpack_from(answer, head.size)[1])
                if it.op == "delete":
                    return Outcome(Kind.DELETED if is_there else Kind.NOT_FOUND, number)
                return Outcome(Kind.UPDATED if is_there else Kind.CREATED, number)
            if struct.unpack_from("!i", answer, head.size)[0] != BAD_VERSION:
                raise ZooKeeperError(answer)
            self.send_read(path)

    def close(self) -> None:
        self.connection.close()


class ZooKeeper:
    """The store: the members on these ports, each request to be answered in so many seconds."""

    def __init__(self, ports: List[int], deadline: float = 1.0, is_synced: bool = True) -> None:
        self.ports, self.deadline, self.is_synced = ports, deadline, is_synced
        self.nodes = len(ports)

    def connect(self, node: int) -> Session:
        """A connection to a member. Raises Unreachable."""
        return ZooKeeperSession(Connection(self.ports[node], self.deadline), self.is_synced)


def changes_at(port: int) -> Dict[int, Pair]:
    """The store's own log: by the number of the call that made it, the pair of each change."""
    connection, changes = Connection(port, 30), {}
    connection.ask(SYNC, text("/log"))
    answer = connection.ask(CHILDREN, text("/log") + b"\0")
    at = 4
    while at < len(answer):
        (length,) = struct.unpack_from("!i", answer, at)
        node = connection.ask(GET, text("/log/" + answer[at + 4 : at + 4 + length].decode()) + b"\0")
        (size,) = struct.unpack_from("!i", node)
        changes[int(node[4 : 4 + size])] = Pair(TERM, STAT.unpack_from(node, 4 + size)[0])
        at += 4 + length
    connection.close()
    return changes
