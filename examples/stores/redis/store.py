"""Redis as a store of documents: what each call is there, and what its answer says. README.md has why that is exact.

A document is a hash, `doc:ID`, with the number of its last change and its value. A script compares the number and makes the change in one
step, takes the number from the one counter `changes`, and notes the change in the list `log`.
"""

import socket
from typing import List, Union

from casbench_recording.history import Call, Pair
from casbench_recording.load import Kind, NoOutcome, Outcome, Session, Unreachable, lost_by

TERM = 1
"""The term of all pairs. A counter that goes back has lost acknowledged changes, and shall be seen to have done so."""

SCRIPT = """
local id, op, value, expected, call = KEYS[1], ARGV[1], ARGV[2], ARGV[3], ARGV[4]
local doc = redis.call('HMGET', 'doc:' .. id, 'number', 'value')
local number, seen = doc[1], redis.call('GET', 'changes') or '0'
if op == 'get' then
  if number then return {'found', number, seen, doc[2]} end
  return {'missing', seen, seen}
end
if op == 'create' and number or expected ~= '' and number ~= expected then return {'conflict', seen, seen} end
local change = redis.call('INCR', 'changes')
redis.call('RPUSH', 'log', call .. ' ' .. change)
if op == 'delete' then
  redis.call('DEL', 'doc:' .. id)
  return {number and 'deleted' or 'not found', tostring(change), tostring(change)}
end
redis.call('HSET', 'doc:' .. id, 'number', change, 'value', value)
return {number and 'updated' or 'created', tostring(change), tostring(change)}
"""

Reply = Union[str, int, List["Reply"], None]


class RedisError(Exception):
    """An error that a node answered."""


class Connection:
    """A connection to a node, in Redis's own protocol (RESP)."""

    def __init__(self, port: int, deadline: float) -> None:
        try:
            self.socket = socket.create_connection(("127.0.0.1", port), timeout=deadline)
        except OSError as fault:
            raise Unreachable(str(fault)) from fault
        self.socket.setsockopt(socket.IPPROTO_TCP, socket.TCP_NODELAY, 1)
        self.file = self.socket.makefile("rb")

    def send(self, *words: Union[str, int]) -> None:
        """Sends a command."""
        coded = [str(it).encode() for it in words]
        self.socket.sendall(b"*%d\r\n" % len(coded) + b"".join(b"$%d\r\n%s\r\n" % (len(it), it) for it in coded))

    def receive(self) -> "Reply":
        """The answer to a command. Raises RedisError, or OSError if none came in time."""
        line = self.file.readline()
        if not line.endswith(b"\r\n"):
            raise ConnectionError("no whole answer")
        kind, text = line[:1], line[1:-2].decode()
        if kind == b"-":
            raise RedisError(text)
        if kind == b":":
            return int(text)
        if kind == b"$" and text != "-1":
            body = self.file.read(int(text) + 2)
            if len(body) < int(text) + 2:
                raise ConnectionError("no whole answer")
            return body[:-2].decode()
        if kind == b"*" and text != "-1":
            return [self.receive() for _ in range(int(text))]
        return text if kind == b"+" else None

    def ask(self, *words: Union[str, int]) -> "Reply":
        """The answer to a command that is sent now."""
        self.send(*words)
        return self.receive()

    def close(self) -> None:
        """Closes the connection."""
        self.file.close()
        self.socket.close()


class RedisSession:
    """A connection of a client. With `copies` a call is answered when so many replicas have what it changed, or has seen."""

    is_open = True

    def __init__(self, connection: Connection, copies: int, deadline: float) -> None:
        self.connection, self.copies, self.deadline = connection, copies, deadline

    def send(self, call: Call) -> None:
        it = call.operation
        expected = "" if it.condition is None else str(it.condition.seq)
        with lost_by(OSError):
            self.connection.send("EVAL", SCRIPT, 1, it.id, it.op, "" if it.value is None else it.value, expected, call.number)

    def outcome(self, call: Call) -> Outcome:
        with lost_by(OSError, RedisError, ValueError):
            told = self.connection.receive()
            if self.copies:
                self.wait_for_copies()
        if not isinstance(told, list) or not all(isinstance(it, str) for it in told):
            raise NoOutcome(f"{told}")
        kind, number, seen, *value = map(str, told)
        pair = None if kind in ("missing", "conflict") else Pair(TERM, int(number))
        return Outcome(Kind(kind), pair, int(value[0]) if value else None, Pair(TERM, int(seen)))

    def wait_for_copies(self) -> None:
        """Waits until replicas have all that was done before, also what others did: for that this client changes a mark."""
        self.connection.ask("INCR", "mark")
        got = self.connection.ask("WAIT", self.copies, int(self.deadline * 1000))
        if not isinstance(got, int) or got < self.copies:
            raise RedisError(f"{got} of {self.copies} copies")

    def close(self) -> None:
        self.connection.close()


class Redis:
    """The store: the nodes on these ports, each call to be answered in so many seconds."""

    def __init__(self, ports: List[int], deadline: float = 1.0, copies: int = 0) -> None:
        self.ports, self.deadline, self.copies = ports, deadline, copies
        self.nodes = len(ports)

    def connect(self, node: int) -> Session:
        """A connection to a node. Raises Unreachable."""
        return RedisSession(Connection(self.ports[node], self.deadline), self.copies, self.deadline)


def changes_at(port: int) -> "dict[int, Pair]":
    """A node's own log: by the number of the call that made it, the pair of each change."""
    connection = Connection(port, 30)
    told = connection.ask("LRANGE", "log", 0, -1)
    connection.close()
    rows = [it.split() for it in told if isinstance(it, str)] if isinstance(told, list) else []
    return {int(number): Pair(TERM, int(change)) for number, change in rows}
