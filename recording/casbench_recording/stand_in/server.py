"""The HTTP server of a node."""

import asyncio
import base64
import os
import re
import socket
import ssl
import sys
from typing import Mapping, NamedTuple, Optional, Set

from .answers import Answer
from .api import answer_to, greet_as_elasticsearch
from .cluster import Cluster
from .connection import ServerConnection
from .coordinator import Coordinator
from .faults import Faults
from .node import Node
from .parsed_request import ParsedRequest

BACKLOG = 256
"""The maximum number of pending connections."""


class ServerSetting(NamedTuple):
    """How requests are answered: the maximum delay before and after each request in seconds, the delay of
    --fault late, the value of X-Elastic-Product, and the file of the TLS certificate, if there is one."""

    delay: float = 0.0
    late: float = 2.0
    product: Optional[str] = None
    certificate: Optional[str] = None


class Server:
    """The server of a node, or of a second node beside it if it has its own coordinator."""

    def __init__(
        self,
        cluster: Cluster,
        number: int,
        setting: ServerSetting,
        port: int,
        second: Optional[Coordinator] = None,
    ) -> None:
        self.cluster = cluster
        self.number = number
        self.setting = setting
        self.faults: Faults = cluster.faults
        self.wanted = wanted_header(os.environ)
        self.connections: Set[ServerConnection] = set()
        # (a memoryview: asyncio receives into slices of it, and slices of a bytearray would be copies)
        self.buffer = memoryview(bytearray(65_536))
        self.fields = [f"X-Elastic-Product: {setting.product}"] if setting.product else []
        # whether it accepts connections
        self.is_up = False
        self._port = port
        self._second = second
        self._place: Optional[socket.socket] = None
        self._listener: Optional[asyncio.AbstractServer] = None
        self._trust: Optional[ssl.SSLContext] = None
        if setting.certificate is not None:
            self._trust = ssl.SSLContext(ssl.PROTOCOL_TLS_SERVER)
            self._trust.load_cert_chain(setting.certificate)

    @property
    def node(self) -> Node:
        """The node that currently runs."""
        return self.cluster.nodes[self.number]

    async def act(self, request: ParsedRequest) -> Answer:
        """Performs a request, and returns the answer."""
        coordinator = self._second or self.node.coordinator
        if request.path == [""] and self.setting.product:
            return await greet_as_elasticsearch(coordinator, request)
        return await answer_to(coordinator, request)

    async def listen(self) -> None:
        """Starts to listen, also after the node was restarted."""
        if self._place is None:
            # (this keeps the port while the node is down, and clients are refused)
            self._place = bound(self._port)
            self._port = self._place.getsockname()[1]
        self.is_up = True
        self._listener = await asyncio.get_running_loop().create_server(
            self.connection, sock=bound(self._port), ssl=self._trust, backlog=BACKLOG
        )

    def connection(self) -> ServerConnection:
        """Returns the protocol of an accepted connection. If the server was stopped meanwhile, it raises,
        which closes the connection."""
        if not self.is_up:
            raise ConnectionAbortedError
        return ServerConnection(self)

    def report(self) -> None:
        """Reports its address."""
        scheme = "http" if self._trust is None else "https"
        print(f"{scheme}://127.0.0.1:{self._port}", file=sys.stderr, flush=True)

    def stop(self) -> None:
        """Stops to listen, and resets its connections."""
        self.is_up = False
        if self._listener is not None:
            self._listener.close()
        for it in list(self.connections):
            it.transport.abort()


def bound(port: int) -> socket.socket:
    """Returns a socket bound to this port of the loopback, or to a free one."""
    place = socket.socket()
    place.setsockopt(socket.SOL_SOCKET, socket.SO_REUSEADDR, 1)
    place.bind(("127.0.0.1", port))
    return place


def wanted_header(environment: Mapping[str, str]) -> Optional[bytes]:
    """Returns the pattern of the required header; None if none is required."""
    if "OPENSEARCH_USER" in environment:
        parameters = f"{environment['OPENSEARCH_USER']}:{environment.get('OPENSEARCH_PASSWORD', '')}"
        name, value = "Authorization", "Basic " + base64.b64encode(parameters.encode()).decode()
    elif "OPENSEARCH_HEADER" in environment:
        name, _, value = environment["OPENSEARCH_HEADER"].partition(":")
    else:
        return None
    return rf"\r\n(?i:{re.escape(name.strip())}): {re.escape(value.strip())}\r\n".encode()
