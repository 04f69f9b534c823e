"""The connection of a client, whose requests are answered one after the other."""

import asyncio
import gzip
import json
import random
import re
from http import HTTPStatus
from typing import TYPE_CHECKING, Any, Optional, cast

from casbench_recording.http1 import BadMessage, Body, Request, request_of, split_head

from .answers import error
from .parsed_request import ParsedRequest, read_request

if TYPE_CHECKING:
    from .server import Server

PHRASES = {it.value: it.phrase for it in HTTPStatus}

PACKED = re.compile(rb"\r\naccept-encoding:[^\r]*gzip", re.IGNORECASE)
"""Matches a head that accepts a compressed answer."""


class ServerConnection(asyncio.BufferedProtocol):
    """Answers the requests of a connection."""

    transport: asyncio.Transport

    def __init__(self, server: "Server") -> None:
        self.server = server
        self.data = b""
        self.head = b""
        self.request: Optional[Request] = None
        self.body: Optional[Body] = None
        self.is_busy = False

    def connection_made(self, transport: asyncio.BaseTransport) -> None:
        """Keeps the transport. A connection that was accepted just before the node was killed is reset like
        the others."""
        self.transport = cast(asyncio.Transport, transport)
        self.server.connections.add(self)
        if not self.server.is_up:
            self.transport.abort()

    def connection_lost(self, fault: Optional[Exception]) -> None:
        """Answers nothing more."""
        self.server.connections.discard(self)

    def get_buffer(self, sizehint: int) -> memoryview:
        """Returns the buffer for received data. All connections share it, since data is taken from it at
        once."""
        return self.server.buffer

    def buffer_updated(self, nbytes: int) -> None:
        """Handles received data."""
        self.data += self.server.buffer[:nbytes]
        self.go_on()

    def go_on(self) -> None:
        """Answers the next request, if it is complete. An invalid request ends the connection."""
        try:
            if not self.is_busy and not self.transport.is_closing() and self.take_request():
                self.is_busy = True
                self.server.node.run(self.answer(cast(Request, self.request), cast(Body, self.body)))
        except BadMessage:
            self.transport.close()

    def take_request(self) -> bool:
        """Reads the request as far as it was received; returns whether it is complete."""
        if self.body is None:
            self.head, self.data = split_head(self.data)
            if not self.head:
                return False
            self.request = request_of(self.head)
            self.body = self.request.body()
            if self.request.fields.expects:
                self.transport.write(b"HTTP/1.1 100 Continue\r\n\r\n")
        self.data = self.data[self.body.take(self.data) :]
        return self.body.is_done

    async def answer(self, request: Request, body: Body) -> None:
        """Answers a request, and goes on with the next one."""
        await self.pass_time()
        if self.is_known():
            await self.answer_to(read_request(request, body.content()))
        else:
            self.send(*error(401, "security_exception", "the credentials are missing or wrong"))
        self.is_busy, self.body = False, None
        self.go_on()

    async def answer_to(self, request: ParsedRequest) -> None:
        """Answers a request, unless a fault is injected."""
        faults = self.server.faults
        if not request.is_of_documents:
            self.send(*await self.server.act(request))
            return
        if faults.strikes("drop-before"):
            self.transport.close()
            return
        status, body = await self.server.act(request)
        await self.pass_time()
        if faults.strikes("drop-after"):
            self.transport.close()
        elif faults.strikes("garbled"):
            self.send_bytes(502, "text/html", b"<html>no upstream</html>")
        else:
            if faults.strikes("late"):
                await asyncio.sleep(self.server.setting.late)
            self.send(status, body)

    async def pass_time(self) -> None:
        """Waits for the delay of a step, and while the node is paused."""
        if self.server.setting.delay:
            await asyncio.sleep(random.random() * self.server.setting.delay)
        await self.server.node.awake()

    def is_known(self) -> bool:
        """Returns whether the request has the required credentials."""
        wanted = self.server.wanted
        return wanted is None or re.search(wanted, self.head) is not None

    def send(self, status: int, body: Any) -> None:
        """Sends an answer."""
        self.send_bytes(
            status, "application/json; charset=UTF-8", json.dumps(body, separators=(",", ":")).encode()
        )

    def send_bytes(self, status: int, kind: str, body: bytes) -> None:
        """Sends an answer in one piece, compressed if the client accepts that."""
        fields = [f"HTTP/1.1 {status} {PHRASES[status]}", f"content-type: {kind}", *self.server.fields]
        if PACKED.search(self.head):
            body = gzip.compress(body, 1)
            fields.append("content-encoding: gzip")
        head = "\r\n".join([*fields, f"content-length: {len(body)}", "", ""]).encode()
        self.transport.write(head if cast(Request, self.request).method == "HEAD" else head + body)
