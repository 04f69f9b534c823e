"""The requests of a client: they are passed on unchanged, after the lines of their calls are written."""

import functools
from typing import Iterator, Optional

from casbench_recording.http1 import (
    LONGEST_REMEMBERED,
    Request,
    decoded,
    head_end,
    passed_head,
    read_request,
    remembered_request,
    without_empty_lines,
)
from casbench_recording.proxy.json_bodies import MOST_READ
from casbench_recording.proxy.recording.index_discovery import IndexDiscovery
from casbench_recording.proxy.recording.judge import Passed
from casbench_recording.proxy.recording.recorded_requests import (
    IndexMakingRequest,
    RecordedBulkRequest,
    Requester,
)
from casbench_recording.proxy.routing.routes import BULK, CALL, NODES, PASS, READS, SWEEP, RouteKind

from .client_connection import ClientConnection
from .exchange import HELD, SENT, TAKING, WITH_ANSWER, Exchange, IncomingBulkRequest, IncomingRequest

FEW_PARTS = 16
"""Requests with at most this many parts are not accounted for."""

MAKERS = (CALL, BULK, RouteKind.NEW, RouteKind.UPDATE, RouteKind.UNJUDGED, RouteKind.MAKE)
"""Requests that may create the index, except for gets."""

HEADS = 4
"""How many copies of a long head are kept at most: the head, its target, and its parameters."""

CONTINUE = b"HTTP/1.1 100 Continue\r\n\r\n"


class ClientSide(ClientConnection):
    """The connection of a client, from which requests are read one by one."""

    def do_step(self) -> bool:
        """Does the next step with the data from the client; returns whether there may be another one."""
        exchange = self.exchange
        if exchange is None:
            return self.take_request()
        if exchange.state is not TAKING or exchange.incoming is None:
            return False
        if isinstance(exchange.incoming, IncomingBulkRequest):
            exchange.hold()
            self.proxy.work(
                self.pass_on_items(exchange, exchange.incoming), functools.partial(self.go_on_with, exchange)
            )
        else:
            self.take_piece(exchange, exchange.incoming)
        return exchange.state is SENT

    def go_on_with(self, exchange: Exchange) -> None:
        """Goes on with a request after what had to be done for it is done."""
        exchange.go_on()
        if not self.stream.is_closing and (self.data or self.stream.is_at_end):
            self.proxy.loop.soon(self.go_on)

    def take_request(self) -> bool:
        """Reads the head of a request, and all of it if it was received in one piece; returns whether there
        may be another step."""
        data = self.data
        if data.startswith(b"\r\n"):
            data = self.data = without_empty_lines(data)
        end = head_end(data)
        if not end:
            return False
        head = data[:end]
        request = remembered_request(head) if end <= LONGEST_REMEMBERED else read_request(head)
        node = self.node
        if node.sent_host or request.fields.offers_upgrade:
            head, rest = passed_head(head, node.sent_host), data[end:]
            data, end = head + rest, len(head)
        route = self.proxy.judge.route(request.method, request.target, node.paths)
        exchange = self.exchange = Exchange(request, route)
        if end > LONGEST_REMEMBERED:
            exchange.weight = HEADS * end
        is_bulk = route.kind is BULK
        length = request.length
        if (
            is_bulk
            and self.proxy.discovery is not None
            and length is not None
            and end + length <= MOST_READ
            and not request.fields.encoding
        ):
            # (it may create the index, and is read as a whole)
            is_bulk = False
        if (
            length is not None
            and len(data) >= (whole := end + length)
            and not (is_bulk and request.fields.encoding)
        ):
            self.data = data[whole:]
            self.record_and_send(exchange, data[end:whole], data[:whole], True)
            return False
        if is_bulk:
            exchange.incoming = IncomingBulkRequest(data[:end], request.body(), request.fields.encoding)
            exchange.recorded = self.proxy.judge.requests.begin_bulk(route, self.requester_of(request))
        else:
            exchange.incoming = IncomingRequest(data[:end], request.body(), route is not PASS)
        self.data = data[end:]
        return True

    def requester_of(self, request: Request) -> Requester:
        """Returns who sends a request, by its X-Opaque-Id or else the address, and the node."""
        client = request.fields.opaque_id
        return Requester(client, self.node.name) if client else self.default_requester

    def record_and_send(
        self,
        exchange: Exchange,
        content: Optional[bytes],
        data: bytes,
        is_all: bool,
        is_its_turn: bool = False,
    ) -> None:
        """Has the calls of a request written, and passes it on. The content is None if it is too long to be
        read."""
        route, request, proxy = exchange.route, exchange.request, self.proxy
        if route is not PASS:
            if proxy.discovery is not None and not is_its_turn and proxy.discovery.concerns(route, content):
                self.wait_for_turn(proxy.discovery, exchange, content, data, is_all)
                return
            if route.kind is SWEEP:
                exchange.recorded = proxy.judge.requests.begin_sweep(route)
                exchange.hold()
                proxy.work(proxy.judge.requests.sweeping(route), lambda: self.swept(exchange, data, is_all))
                return
            if route is NODES:
                proxy.warn_of_nodes(request)
            if content and (request.fields.encoding or len(content) > MOST_READ):
                content = decoded(content, request.fields.encoding, MOST_READ)
            requester = self.requester_of(request) if request.fields.opaque_id else self.default_requester
            recorded = exchange.recorded = proxy.judge.requests.record(
                route, request.method, content, requester
            )
            if recorded is not None and len(recorded.parts) > FEW_PARTS:
                self.account()
        self.send(exchange, data, is_all)

    def wait_for_turn(
        self,
        discovery: IndexDiscovery,
        exchange: Exchange,
        content: Optional[bytes],
        data: bytes,
        is_all: bool,
    ) -> None:
        """Holds a request for an index that doesn't exist yet until it is its turn."""
        exchange.hold()
        exchange.weight += len(data)
        self.account()
        discovery.queue.wait_for(lambda: self.take_turn(discovery, exchange, content, data, is_all))

    def take_turn(
        self,
        discovery: IndexDiscovery,
        exchange: Exchange,
        content: Optional[bytes],
        data: bytes,
        is_all: bool,
    ) -> None:
        """Passes on a request for an index that doesn't exist yet. If it may create the index, the next turn
        comes after its answer."""
        exchange.go_on()
        exchange.weight -= len(data)
        route, request = exchange.route, exchange.request
        if self.stream.is_closing:
            discovery.queue.end()
            return
        if discovery.is_over or route.kind not in MAKERS or route.op == "get":
            discovery.queue.end()
            self.record_and_send(exchange, content, data, is_all, True)
        else:
            plain = decoded(content, request.fields.encoding, MOST_READ) if content else content
            making = exchange.recorded = IndexMakingRequest(
                route, request.method, plain, self.requester_of(request)
            )
            discovery.begin_making(making, lambda: self.lose(exchange))
            self.send(exchange, data, is_all)
        if exchange.state is not HELD:
            self.go_on_with(exchange)

    def swept(self, exchange: Exchange, data: bytes, is_all: bool) -> None:
        """Passes on a request that may change every document, after the existing ones are not judged any
        more."""
        if not self.stream.is_closing:
            self.send(exchange, data, is_all)
        self.go_on_with(exchange)

    def send(self, exchange: Exchange, data: bytes, is_all: bool) -> None:
        """Passes on a part of a request; `is_all` if it is the last one."""
        assert self.cluster is not None
        if is_all:
            exchange.send_all()
        discovery = self.proxy.discovery
        if discovery is not None and exchange.request.method not in READS:
            discovery.note_passed(
                exchange,
                Passed(exchange.request.method, exchange.request.target, self.node.paths, exchange.route),
            )
        self.cluster.stream.write(data)

    def take_piece(self, exchange: Exchange, incoming: IncomingRequest) -> None:
        """Reads a part of a request, holds it back as long as its body has to be read, and passes it on."""
        body = incoming.body
        count = body.take(self.data)
        if count:
            incoming.held += self.data[:count]
            self.data = self.data[count:]
        if incoming.is_read:
            if not body.is_done and len(incoming.held) <= MOST_READ and self.proxy.has_room():
                if exchange.request.fields.expects and not exchange.was_continued:
                    exchange.was_continued = True
                    self.stream.write(CONTINUE)
                return
            incoming.is_read = body.is_kept = False
            content = body.content()
            self.record_and_send(exchange, content if body.is_done else None, incoming.taken(), body.is_done)
        else:
            self.send(exchange, incoming.taken(), body.is_done)

    def pass_on_items(self, exchange: Exchange, incoming: IncomingBulkRequest) -> Iterator[None]:
        """Reads a part of a bulk request, in steps, and passes it on as far as the calls of its items are
        written."""
        judge, body, recorded = self.proxy.judge, incoming.body, exchange.recorded
        assert isinstance(recorded, RecordedBulkRequest)
        count = body.take(self.data)
        raw, self.data = self.data[:count], self.data[count:]
        for number, plain in enumerate(incoming.unpacker.slices(body.content(), body.is_done)):
            if number:
                yield
                if self.stream.is_closing:
                    return
            judge.requests.record_items(recorded, plain, False, self.proxy.has_room())
            incoming.length += len(plain or b"")
            self.account()
            if judge.has_ended:
                break
        incoming.add(raw)
        if body.is_done:
            judge.requests.record_items(recorded, b"", True)
            exchange.recorded = recorded if recorded.has_calls else None
        if not self.stream.is_closing:
            is_all = body.is_done or judge.has_ended
            self.send(exchange, incoming.ready(recorded.items.end, is_all), body.is_done)
        if judge.has_ended:
            exchange.incoming, exchange.recorded = IncomingRequest(b"", body, False), None

    def answered(self) -> None:
        """Goes on with the next request after an answer was passed on."""
        self.exchange = None
        if self.data or self.stream.is_at_end:
            self.go_on()

    def give_up(self) -> None:
        """Writes the open calls as lost."""
        exchange, discovery = self.exchange, self.proxy.discovery
        if exchange is None or exchange.state in WITH_ANSWER:
            return
        self.lose(exchange)
        if discovery is not None:
            discovery.note_never_answered(exchange)

    def lose(self, exchange: Exchange) -> None:
        """Writes the calls of a request as lost. If it might have created the index, others go on."""
        recorded, exchange.recorded = exchange.recorded, None
        if recorded is not None:
            self.proxy.judge.lost(recorded)
        if isinstance(recorded, IndexMakingRequest) and self.proxy.discovery is not None:
            self.proxy.discovery.end_making(False)
