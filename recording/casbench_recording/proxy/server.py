"""The running proxy: its nodes, its clients, the memory that it holds for them, and its recording."""

import argparse
import functools
import resource
import socket
from dataclasses import replace
from typing import Callable, Iterator, List, NamedTuple, Optional, Sequence, Set

from casbench_recording.cluster import ClusterAccess
from casbench_recording.console import report_line
from casbench_recording.default_reading import DefaultReading
from casbench_recording.disturb import Disturbance
from casbench_recording.history.readings import Reading, is_named
from casbench_recording.http1 import Request
from casbench_recording.index_inspection import IndexShape, Inspector
from casbench_recording.watch.process import WatchProcess, watch_options

from .http.client_connection import ClientConnection
from .http.client_side import ClientSide
from .http.connecting import Addresses, Connecting, Made
from .http.loop import Listener, Loop, Stream
from .http.refusal import refusal
from .recording.index_discovery import IndexDiscovery
from .recording.judge import Judge
from .routing.paths import Paths
from .routing.routes import shown_request
from .state.documents import DocumentState

MOST_HELD = 64 * 1024 * 1024
"""The total number of buffered bytes above which no more bodies are held back for reading."""

MOST_WAITING = 2 * MOST_HELD
"""The total number of buffered bytes above which the connection with the most of them is closed."""

MOST_CLIENTS = 8192
"""The maximum number of clients, if the limit of open files allows it."""

SPARE = 32
"""How many file descriptors are reserved for other purposes than clients."""

LEAST_IDLE = 1.0
"""How many seconds a connection has to be idle to be closed in favour of a new one."""

ADVICE = (
    "requests are still passed on, and no longer recorded: end the proxy, check what was recorded, "
    "and record again on an empty index"
)
"""What the operator should do about a recording that ended early."""

SECONDS_BETWEEN = 10.0
"""The minimum number of seconds between two messages that there are too many clients."""


class ProxiedNode(NamedTuple):
    """A node of the cluster: the address to listen on for its clients; how to reach it, its IP addresses and
    its name; how the paths of requests lead to it; and the host to set in requests, or an empty one to keep
    that of the client."""

    host: str
    port: int
    cluster: ClusterAccess
    addresses: Addresses
    name: str
    paths: Paths
    sent_host: bytes


class RefusedConnection:
    """A connection for which there is no room: it is answered with status 503."""

    def __init__(self, loop: Loop, connection: socket.socket) -> None:
        self.stream = Stream(loop, connection, self)
        self.stream.write(refusal("503 Service Unavailable", "too many clients are connected"))
        self.stream.linger()

    def received(self, data: bytes) -> None:
        """Ignores the data."""

    def ended(self) -> None:
        """Does nothing: the connection is closed."""

    def pause_writing(self) -> None:
        """Writes nothing more."""

    def resume_writing(self) -> None:
        """Writes nothing more."""

    def connection_lost(self) -> None:
        """Has nothing to release."""


class Proxy:
    """The proxy: its nodes, its clients, and the judge of their requests."""

    def __init__(
        self, setting: argparse.Namespace, nodes: Sequence[ProxiedNode], inspector: Inspector, judge: Judge
    ) -> None:
        self.setting = setting
        self.nodes = nodes
        self.inspector = inspector
        self.judge = judge
        self.clients: Set[ClientConnection] = set()
        self.loop = Loop()
        self._listeners: List[Listener] = []
        # (None after the index was found, or the recording ended)
        self.discovery: Optional[IndexDiscovery] = (
            None if judge.shape is not None else IndexDiscovery(self.loop, inspector, setting.index, judge)
        )
        # how many bytes of messages are buffered
        self.held = 0
        self._reported_room_at = float("-inf")
        # the time until which recording is delayed, if the index isn't empty
        self._settles_to = self.loop.now + setting.settle
        self._has_warned_of_nodes = False
        judge.writer.on_ended = self._ended
        # the check that fits, which is reported when the index is known
        self.default_reading = DefaultReading(setting.file, judge.history, len(nodes), is_named(setting))
        self.default_reading.on_reading = self._judged_in
        # the watch of the recording, if there is one
        self.watcher: Optional[WatchProcess] = None
        judge.on_shape = self._found
        self.loop.ticks[self._tick] = None

    def begin(self) -> List[str]:
        """Takes the description of the index at the start; returns messages on it, to be reported after the
        addresses."""
        lines: List[str] = []
        if self.judge.shape is not None:
            self._found(self.judge.shape, lambda text: lines.append(f"casbench_recording.proxy: {text}"))
        return lines

    def _found(self, shape: IndexShape, report: Callable[[str], object] = report_line) -> None:
        """Takes the description of the index: it decides which check fits, and when the recording begins. If
        others wrote to the index, it begins once their requests are over."""
        self.default_reading.take(shape, report)
        seconds = self._settles_to - self.loop.now
        if not shape.is_empty and self.judge.documents.first is DocumentState.UNSURE and seconds > 0:
            self.judge.settle()
            begins = f"the index {shape.name} isn't empty: the recording begins in {seconds:.0f} s"
            report(f"{begins}, and requests are passed on meanwhile (--settle)")

    def plan(self) -> List[Disturbance]:
        """Returns the planned disturbances, with times since the start of the recording."""
        waits = self.setting.settle if self.judge.documents.is_settling else 0.0
        return [replace(it, after=it.after + waits) for it in self.setting.disturb]

    def _judged_in(self, reading: Reading) -> None:
        """Has the watch check in the reading of the recording."""
        self.setting.reading = reading
        if self.watcher is not None:
            self.watcher.change(watch_options(self.setting))

    def accept(self, node: ProxiedNode, connection: socket.socket) -> None:
        """Accepts the connection of a client of a node. If there are too many, closes the one that was idle
        longest, or refuses this one."""
        if len(self.clients) >= self.most_clients:
            waited = self.loop.now - LEAST_IDLE
            idle = min(
                (it for it in self.clients if it.exchange is None and it.active_at <= waited),
                key=lambda it: it.active_at,
                default=None,
            )
            if idle is None:
                self._report_no_room()
                RefusedConnection(self.loop, connection)
                return
            idle.stream.abort()
            self.clients.discard(idle)
        ClientSide(self, node, connection)

    @property
    def most_clients(self) -> int:
        """For how many clients there are file descriptors."""
        limit, _ = resource.getrlimit(resource.RLIMIT_NOFILE)
        return max(1, min(MOST_CLIENTS, (limit - SPARE - len(self.judge.history.histories)) // 2))

    def _report_no_room(self) -> None:
        """Reports, from time to time, that clients are refused."""
        if self.loop.now >= self._reported_room_at + SECONDS_BETWEEN:
            self._reported_room_at = self.loop.now
            report_line(f"{len(self.clients)} clients are connected, and more are answered with status 503")

    def warn_of_nodes(self, request: Request) -> None:
        """Warns the operator, once, that a client asks for the nodes, and may then bypass the proxy."""
        if not self._has_warned_of_nodes:
            self._has_warned_of_nodes = True
            request_line = shown_request(request.method, request.target.partition(b"?")[0].decode("latin-1"))
            advice = "what it asks them itself isn't recorded, so turn sniffing off"
            report_line(f"a client asks where the nodes are ({request_line}): {advice}")

    def connect(self, node: ProxiedNode, made: Made) -> Connecting:
        """Starts to connect to a node of the cluster."""
        return Connecting(self.loop, node.addresses, made)

    def work(self, steps: Iterator[None], done: Callable[[], None]) -> None:
        """Does work in steps, between which other events are handled."""
        for _ in steps:
            self.loop.later(lambda: self.work(steps, done))
            return
        done()

    def has_room(self) -> bool:
        """Returns whether more may be held back."""
        return self.held + self.loop.waiting <= MOST_HELD

    def hold(self, count: int) -> None:
        """Accounts for this many more buffered bytes. If there are too many, the client with the most of them
        is disconnected."""
        self.held += count
        if self.held + self.loop.waiting > MOST_WAITING:
            self.loop.soon(self._shed)

    def _shed(self) -> None:
        """Disconnects the client with the most buffered bytes, as long as there are too many."""
        while self.clients and self.held + self.loop.waiting > MOST_WAITING:
            most = max(self.clients, key=ClientConnection.weight)
            most.close()
            most.stream.abort()
            most.connection_lost()

    def _ended(self, why: str) -> None:
        """Reports at once that the recording ended early, and what to do; ends the proxy too with
        --stop-when-ended."""
        if self.setting.stop_when_ended:
            self.loop.stop()
        advice = "the proxy ends" if self.setting.stop_when_ended else ADVICE
        report_line(f"the recording ended early: {why}; {advice}")

    def _tick(self, now: float) -> None:
        """Checks timeouts, and whether the files were changed."""
        for client in list(self.clients):
            client.check_timeouts(now, self.setting.idle)
        if self.judge.documents.is_settling and now >= self._settles_to:
            self.judge.settled()
            report_line("the recording begins")
        if self.discovery is not None and self.discovery.is_over and not self.discovery.has_queue:
            self.discovery = None
        damage = next(filter(None, (it.damage() for it in self.judge.history.histories)), None)
        if damage is not None:
            self.judge.end(damage)

    def listen(self, report_address: Callable[[str], object]) -> None:
        """Listens for the clients of each node, and reports the addresses."""
        for node in self.nodes:
            own = self.loop.listen(node.host, node.port, functools.partial(self.accept, node))
            shown = f"[{node.host}]" if ":" in node.host else node.host
            report_address(f"http://{shown}:{own[0].port}")
            self._listeners += own

    def serve(self) -> None:
        """Serves until the loop is stopped. Open calls are lost then, and all connections are closed."""
        self.loop.run()
        for it in self._listeners:
            it.close()
        self._tick(self.loop.now)
        self.judge.close()
        for client in list(self.clients):
            client.stream.abort()
        self.loop.close()
        self.inspector.connection.close()
