"""ZooKeeper's protocol, as much of it as the mapping needs: a connection that sends each request once, and answers in their order."""

import socket
import struct

from casbench_recording.load import Unreachable

CREATE, GET, SET, CHILDREN, SYNC, MULTI = 1, 4, 5, 8, 9, 14
NODE_EXISTS, BAD_VERSION = -110, -103
SEQUENTIAL = 2
STAT = struct.Struct("!qqqqiiiqiiq")


class ZooKeeperError(Exception):
    """An error that a member answered, by its number."""


def text(value: str) -> bytes:
    """A text, or bytes, as the protocol has it."""
    return struct.pack("!i", len(value.encode())) + value.encode()


def created(path: str, data: str, flags: int = 0) -> bytes:
    """The words of a creation, of a node that everybody may use."""
    return text(path) + text(data) + struct.pack("!ii", 1, 31) + text("world") + text("anyone") + struct.pack("!i", flags)


class Connection:
    """A connection to a member, with a session of its own, in ZooKeeper's protocol."""

    def __init__(self, port: int, deadline: float) -> None:
        try:
            self.socket = socket.create_connection(("127.0.0.1", port), timeout=deadline)
            self.file = self.socket.makefile("rb")
            self.send_frame(struct.pack("!iqiq", 0, 0, 10_000, 0) + text("\0" * 16))
            self.receive_frame()
        except OSError as fault:
            raise Unreachable(str(fault)) from fault

    def send_frame(self, frame: bytes) -> None:
        self.socket.sendall(struct.pack("!i", len(frame)) + frame)

    def receive_frame(self) -> bytes:
        """A whole message. Raises ConnectionError if the connection ends before."""
        head = self.file.read(4)
        frame = self.file.read(struct.unpack("!i", head)[0]) if len(head) == 4 else b""
        if not frame or len(frame) < struct.unpack("!i", head)[0]:
            raise ConnectionError("no whole answer")
        return frame

    def send(self, kind: int, words: bytes) -> None:
        """Sends a request. Answers come in the order of requests."""
        self.send_frame(struct.pack("!ii", 1, kind) + words)

    def receive(self) -> bytes:
        """The answer to the first request that has none yet. Raises ZooKeeperError, or OSError if none came in time."""
        frame = self.receive_frame()
        (error,) = struct.unpack_from("!i", frame, 12)
        if error:
            raise ZooKeeperError(error)
        return frame[16:]

    def ask(self, kind: int, words: bytes) -> bytes:
        """The answer to a request that is sent now."""
        self.send(kind, words)
        return self.receive()

    def close(self) -> None:
        """Closes the connection."""
        self.file.close()
        self.socket.close()
