"""PostgreSQL as a store of documents: what each call is there, and what its answer says. README.md has why that is exact.

A document is a row with the number of its last change and its value, which is null if the document isn't there. A write is one call of a
function, so one transaction: it locks the row, compares the number, takes the next one while the row is locked, and notes the change.
"""

import socket
import struct
from typing import Dict, List, Optional

from casbench_recording.history import Call, Pair
from casbench_recording.load import Kind, Outcome, Session, Unreachable, lost_by

TERM = 1
"""The term of all pairs. A sequence that goes back has lost acknowledged changes, and shall be seen to have done so."""

SCHEMA = """
CREATE TABLE documents (id text PRIMARY KEY, number bigint NOT NULL DEFAULT 0, value bigint);
CREATE TABLE changes (call bigint NOT NULL, number bigint NOT NULL);
CREATE SEQUENCE numbers;
CREATE FUNCTION write(op text, its_id text, its_value bigint, expected bigint, call bigint, OUT kind text, OUT number bigint)
LANGUAGE plpgsql AS $$
DECLARE was documents;
BEGIN
  INSERT INTO documents (id) VALUES (its_id) ON CONFLICT DO NOTHING;
  SELECT * INTO was FROM documents WHERE id = its_id FOR UPDATE;
  kind := 'conflict';
  number := was.number;
  IF op = 'create' AND was.value IS NOT NULL OR expected IS NOT NULL AND (was.value IS NULL OR was.number <> expected) THEN RETURN; END IF;
  number := nextval('numbers');
  UPDATE documents SET number = write.number, value = its_value WHERE id = its_id;
  INSERT INTO changes VALUES (call, write.number);
  kind := CASE WHEN op = 'delete' THEN CASE WHEN was.value IS NULL THEN 'not found' ELSE 'deleted' END
               ELSE CASE WHEN was.value IS NULL THEN 'created' ELSE 'updated' END END;
END $$
"""

GET = "SELECT CASE WHEN value IS NULL THEN 'missing' ELSE 'found' END, number, value FROM documents WHERE id = '{}'"

Row = List[Optional[str]]


class PostgresError(Exception):
    """An error that a server answered."""


class Connection:
    """A connection to a server, by simple queries of its own protocol."""

    def __init__(self, port: int, deadline: float) -> None:
        try:
            self.socket = socket.create_connection(("127.0.0.1", port), timeout=deadline)
            self.file = self.socket.makefile("rb")
            words = b"user\0postgres\0database\0postgres\0\0"
            self.socket.sendall(struct.pack("!ii", 8 + len(words), 196_608) + words)
            self.receive()
        except (OSError, PostgresError) as fault:
            raise Unreachable(str(fault)) from fault

    def send(self, query: str) -> None:
        """Sends a query."""
        coded = query.encode() + b"\0"
        self.socket.sendall(b"Q" + struct.pack("!i", 4 + len(coded)) + coded)

    def receive(self) -> List[Row]:
        """The rows that answer what was sent. Raises PostgresError, or OSError if no whole answer came in time."""
        rows: List[Row] = []
        kind = error = b""
        while kind != b"Z":
            kind = self.read(1)
            body = self.read(struct.unpack("!i", self.read(4))[0] - 4)
            rows += [row_of(body)] if kind == b"D" else []
            error = body if kind == b"E" else error
        if error:
            raise PostgresError(error.replace(b"\0", b" ").decode(errors="replace"))
        return rows

    def read(self, count: int) -> bytes:
        """So many bytes. Raises ConnectionError if the connection ends before."""
        body = self.file.read(count)
        if len(body) < count:
            raise ConnectionError("no whole answer")
        return body

    def ask(self, query: str) -> List[Row]:
        """The rows that answer a query."""
        self.send(query)
        return self.receive()

    def close(self) -> None:
        """Closes the connection."""
        self.file.close()
        self.socket.close()


def row_of(body: bytes) -> Row:
    """The columns of a row as texts."""
    row: Row = []
    at = 2
    while at < len(body):
        (length,) = struct.unpack_from("!i", body, at)
        row.append(None if length < 0 else body[at + 4 : at + 4 + length].decode())
        at += 4 + max(length, 0)
    return row


class PostgresSession:
    """A connection of a client."""

    is_open = True

    def __init__(self, connection: Connection) -> None:
        self.connection = connection

    def send(self, call: Call) -> None:
        it = call.operation
        value, expected = ("NULL" if number is None else number for number in (it.value, it.condition and it.condition.seq))
        write = f"SELECT kind, number, NULL FROM write('{it.op}', '{it.id}', {value}, {expected}, {call.number})"
        with lost_by(OSError):
            self.connection.send(GET.format(it.id) if it.op == "get" else write)

    def outcome(self, call: Call) -> Outcome:
        with lost_by(OSError, PostgresError):
            rows = self.connection.receive()
        kind, number, value = rows[0] if rows else ("missing", "0", None)
        pair, has_pair = Pair(TERM, int(number or 0)), kind not in ("missing", "conflict")
        return Outcome(Kind(kind), pair if has_pair else None, None if value is None else int(value), pair)

    def close(self) -> None:
        self.connection.close()


class Postgres:
    """The store: the servers on these ports, each call to be answered in so many seconds."""

    def __init__(self, ports: List[int], deadline: float = 2.0) -> None:
        self.ports, self.deadline = ports, deadline
        self.nodes = len(ports)

    def connect(self, node: int) -> Session:
        """A connection to a server. Raises Unreachable."""
        return PostgresSession(Connection(self.ports[node], self.deadline))


def changes_at(port: int) -> Dict[int, Pair]:
    """A server's own log: by the number of the call that made it, the pair of each change."""
    connection = Connection(port, 30)
    rows = connection.ask("SELECT call, number FROM changes")
    connection.close()
    return {int(call or 0): Pair(TERM, int(number or 0)) for call, number in rows}
