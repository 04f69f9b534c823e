"""NATS's text protocol, as much of it as the mapping needs.

A connection sends each request once, with a reply subject of its own.
"""

import json
import os
import socket
from typing import Any, Dict, NamedTuple, Tuple

from casbench_recording.load import Unreachable

OPTIONS = json.dumps({"verbose": False, "headers": True, "no_responders": True, "lang": "python"})
"""The options of a client. It takes headers, and gets an error at once if no server handles its request."""

VERSION = b"NATS/1.0"
"""What a block of headers begins with, and the status after it if there is one."""


class NatsError(Exception):
    """An error that a server answered."""


class Message(NamedTuple):
    """A message: its headers, and its text. One that is missing was asked for and isn't there."""

    headers: Dict[str, str]
    text: str
    is_missing: bool = False


def block_of(headers: Dict[str, str]) -> bytes:
    """A block of headers."""
    return b"\r\n".join([VERSION, *(f"{key}: {value}".encode() for key, value in headers.items()), b"", b""])


def message_of(block: bytes, body: bytes) -> Message:
    """A message with a block of headers, if it has one. Raises NatsError if that has another status than 404,
    such as 503: nobody serves the request."""
    first, *lines = (block or VERSION).decode().split("\r\n")
    status = first[len(VERSION) :].split()
    if status and status[0] != "404":
        raise NatsError(first)
    headers = {key: value.strip() for key, _, value in (it.partition(":") for it in lines if it)}
    return Message(headers, body.decode(), bool(status))


class Connection:
    """A connection to a server."""

    def __init__(self, port: int, deadline: float) -> None:
        self.inbox, self.requests = f"_INBOX.{os.urandom(9).hex()}", 0
        try:
            self.socket = socket.create_connection(("127.0.0.1", port), timeout=deadline)
            self.socket.setsockopt(socket.IPPROTO_TCP, socket.TCP_NODELAY, 1)
            self.file = self.socket.makefile("rb")
            self.socket.sendall(f"CONNECT {OPTIONS}\r\nSUB {self.inbox}.* 1\r\nPING\r\n".encode())
            while self.line()[0] != "PONG":
                pass
        except (OSError, NatsError) as fault:
            raise Unreachable(str(fault)) from fault

    def line(self) -> Tuple[str, ...]:
        """The words of the next line. Raises NatsError, or OSError if none came in time."""
        line = self.file.readline()
        if not line.endswith(b"\r\n"):
            raise ConnectionError("no whole answer")
        if line.startswith(b"-ERR"):
            raise NatsError(line.decode().strip())
        return tuple(line.decode().split()) or ("",)

    def send(self, subject: str, text: str, headers: Dict[str, str] = {}) -> None:
        """Sends a request."""
        self.requests += 1
        block, body = block_of(headers), text.encode()
        head = f"HPUB {subject} {self.inbox}.{self.requests} {len(block)} {len(block) + len(body)}\r\n"
        self.socket.sendall(head.encode() + block + body + b"\r\n")

    def receive(self) -> Message:
        """The answer to the request that was sent last. Raises NatsError, or OSError if none came in time."""
        while True:
            kind, *words = self.line()
            if kind == "PING":
                self.socket.sendall(b"PONG\r\n")
            if kind not in ("MSG", "HMSG"):
                continue
            size, length = int(words[-2]) if kind == "HMSG" else 0, int(words[-1])
            body = self.file.read(length + 2)
            if len(body) < length + 2:
                raise ConnectionError("no whole answer")
            if words[0] == f"{self.inbox}.{self.requests}":
                return message_of(body[:size], body[size:length])

    def ask(self, subject: str, text: str = "", headers: Dict[str, str] = {}) -> Message:
        """The answer to a request that is sent now."""
        self.send(subject, text, headers)
        return self.receive()

    def ask_api(self, subject: str, **members: object) -> Dict[str, Any]:
        """What JetStream answers to a request of its API. Raises NatsError if it isn't an object."""
        answer = json.loads(self.ask(f"$JS.API.{subject}", json.dumps(members) if members else "").text)
        if not isinstance(answer, dict):
            raise NatsError(f"{answer}")
        return answer

    def close(self) -> None:
        """Closes the connection."""
        self.file.close()
        self.socket.close()
