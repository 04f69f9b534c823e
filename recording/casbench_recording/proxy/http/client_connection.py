"""The connection of a client, with its own connection to the cluster: connecting, closing, flow control and
timeouts."""

import socket
from typing import TYPE_CHECKING, Optional, Union

from casbench_recording.http1 import BadMessage
from casbench_recording.proxy.recording.recorded_requests import Requester

from .cluster_side import ClusterSide
from .connecting import Connecting
from .exchange import SENT, TAKING, WITH_ANSWER, Exchange
from .loop import Stream
from .refusal import refusal

if TYPE_CHECKING:
    from casbench_recording.proxy.server import ProxiedNode, Proxy

MOST_AHEAD = 65_536
"""How many bytes of later requests are read while one is open."""

MOST_TO_CONNECT = 10.0
"""How many seconds a client waits for the connection to the cluster."""


def address_of(connection: socket.socket) -> str:
    """Returns the address of the other side, such as `127.0.0.1:40000`; empty if it is gone."""
    try:
        host, port, *_ = connection.getpeername()
    except (OSError, ValueError):
        return ""
    return f"[{host}]:{port}" if ":" in host else f"{host}:{port}"


class ClientConnection:
    """The connection of a client. It has its own connection to the cluster, which is closed with it."""

    stream: Stream
    exchange: Optional[Exchange]
    is_cluster_full: bool
    active_at: float
    held: int

    def __init__(self, proxy: "Proxy", node: "ProxiedNode", connection: socket.socket) -> None:
        self.proxy = proxy
        self.node = node
        # the client in the lines of its calls, unless it sends an X-Opaque-Id
        self.default_requester = Requester(address_of(connection), node.name)
        self.stream = Stream(proxy.loop, connection, self)
        self.data = b""
        self.exchange = None
        self.cluster: Optional[ClusterSide] = None
        self.connecting: Optional[Connecting] = None
        self.is_connected = False
        self.is_cluster_full = self.is_paused = False
        # when the connection to the cluster has to be made
        self.connected_by = 0.0
        # the time of the last activity; how many bytes are buffered here and on the cluster's side
        self.active_at = proxy.loop.now
        self.held = self.last_weight = 0
        proxy.clients.add(self)

    def received(self, data: bytes) -> None:
        """Handles data from the client. The first data opens the connection to the cluster, before anything
        is recorded."""
        self.active_at = self.proxy.loop.now
        self.data = self.data + data if self.data else data
        if self.is_connected:
            self.go_on()
            return
        if self.connecting is None:
            self.connected_by = self.proxy.loop.now + MOST_TO_CONNECT
            self.connecting = self.proxy.connect(self.node, self.connection_made)
        self.update_flow()

    def connection_made(self, made: Union[socket.socket, OSError]) -> None:
        """Takes the connection to the cluster, or the error if there is none."""
        if isinstance(made, OSError):
            self.cluster_connected(made)
        elif self.stream.is_closing:
            made.close()
        else:
            self.cluster = ClusterSide(self, made)

    def cluster_connected(self, fault: Optional[OSError]) -> None:
        """Goes on when the cluster is connected, or answers the client that it can't be reached."""
        if fault is None:
            self.is_connected = True
            self.go_on()
        else:
            self.close(refusal("502 Bad Gateway", f"the cluster can't be reached: {fault}"))

    def go_on(self) -> None:
        """Processes the data from the client as far as possible."""
        try:
            while not self.stream.is_closing and self.do_step():
                pass
        except BadMessage as fault:
            self.close(
                refusal("400 Bad Request", f"the request can't be read: {fault}")
                if self.exchange is None
                else b""
            )
        exchange = self.exchange
        if self.stream.is_at_end and (exchange is None or exchange.state is TAKING):
            self.close()
        if (
            self.data
            or self.held
            or self.is_paused
            or exchange is None
            or exchange.weight
            or exchange.state is not SENT
        ):
            self.update_flow()

    def ended(self) -> None:
        """Called when the client sends no more. The answer to its request is still passed on."""
        if not self.data and self.exchange is None:
            self.close()
        elif self.is_connected:
            self.go_on()

    # Requests

    def do_step(self) -> bool:
        """Does the next step with the data from the client; returns whether there may be another one."""
        raise NotImplementedError

    def answered(self) -> None:
        """Goes on with the next request after an answer was passed on."""
        raise NotImplementedError

    def give_up(self) -> None:
        """Writes the open calls as lost."""
        raise NotImplementedError

    def lose(self, exchange: Exchange) -> None:
        """Writes the calls of a request as lost."""
        raise NotImplementedError

    # Flow control and timeouts

    def close(self, last: bytes = b"") -> None:
        """Closes the connection after these last bytes, and the connection to the cluster."""
        if not self.stream.is_closing:
            self.stream.write(last)
            self.stream.linger()
        if self.connecting is not None:
            self.connecting.cancel()
        if self.cluster is not None:
            self.cluster.stream.abort()

    def update_flow(self) -> None:
        """Stops reading from the client while the send buffer to the cluster is full, or while an answer is
        awaited and much of the next requests was received."""
        exchange = self.exchange
        is_taken = exchange is not None and exchange.state is not TAKING
        is_paused = (
            self.is_cluster_full or len(self.data) > MOST_AHEAD and (is_taken or not self.is_connected)
        )
        if is_paused != self.is_paused:
            self.is_paused = is_paused
            (self.stream.pause_reading if is_paused else self.stream.resume_reading)()
        if self.data or self.held or exchange is not None and (exchange.state is not SENT or exchange.weight):
            self.account()

    def account(self) -> None:
        """Reports to the proxy how many bytes are buffered for this client."""
        exchange = self.exchange
        held = len(self.data) + (len(self.cluster.data) if self.cluster is not None else 0)
        if exchange is not None:
            held += exchange.weight + (exchange.recorded.weight if exchange.recorded is not None else 0)
            held += len(exchange.answer) + (len(exchange.body.kept) if exchange.body is not None else 0)
            held += (
                len(exchange.incoming.held) + len(exchange.incoming.body.kept)
                if exchange.incoming is not None
                else 0
            )
        if held != self.held:
            self.proxy.hold(held - self.held)
            self.held = held

    def weight(self) -> int:
        """Returns how many bytes are buffered for this client, in both directions."""
        return (
            self.held + self.stream.waiting + (self.cluster.stream.waiting if self.cluster is not None else 0)
        )

    def check_timeouts(self, now: float, most_idle: float) -> None:
        """Closes the connection if connecting to the cluster takes too long, or if the client is idle."""
        weight = self.weight()
        if weight != self.last_weight:
            self.last_weight, self.active_at = weight, now
        if self.connecting is not None and not self.is_connected and now > self.connected_by:
            self.cluster_connected(TimeoutError(f"it took longer than {MOST_TO_CONNECT:.0f} seconds"))
        elif now > self.active_at + most_idle and not self.waits_for_cluster():
            self.stream.abort()

    def waits_for_cluster(self) -> bool:
        """Returns whether the client, which is still there, waits for the cluster."""
        is_asked = self.exchange is not None and self.exchange.state is not TAKING
        return is_asked and not self.stream.waiting and not self.stream.is_at_end

    def pause_writing(self) -> None:
        """Called when the send buffer to the client is full: stops reading from the cluster."""
        if self.cluster is not None:
            self.cluster.stream.pause_reading()

    def resume_writing(self) -> None:
        """Called when the send buffer to the client is empty: reads from the cluster again."""
        is_answered = self.exchange is not None and self.exchange.state in WITH_ANSWER
        if self.cluster is not None and not is_answered and not self.stream.is_paused:
            self.cluster.stream.resume_reading()

    def connection_lost(self) -> None:
        """Closes the connection to the cluster. Open calls of the client are lost: it will get no answer."""
        self.proxy.clients.discard(self)
        self.proxy.hold(-self.held)
        self.held = 0
        self.give_up()
        self.close()
        # (reference cycles would stay until the garbage collector runs, which is seldom)
        self.connecting = self.cluster = None
