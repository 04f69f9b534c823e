"""The connection to the cluster: answers are passed on unchanged, after the lines of their replies are
written."""

import socket
from typing import TYPE_CHECKING, Iterator, Optional, Union

from casbench_recording.http1 import (
    LONGEST_REMEMBERED,
    BadMessage,
    Body,
    Response,
    decoded,
    head_end,
    read_response,
    remembered_response,
)
from casbench_recording.proxy.json_bodies import MOST_READ
from casbench_recording.proxy.recording.answer_recorder import MOST_AT_ONCE
from casbench_recording.proxy.recording.index_discovery import IndexDiscovery
from casbench_recording.proxy.recording.recorded_requests import IndexMakingRequest
from casbench_recording.proxy.routing.routes import BULK, READS, RouteKind

from .exchange import ANSWERED, WITH_ANSWER, Exchange
from .loop import Stream
from .refusal import refusal
from .tls import TlsStream

if TYPE_CHECKING:
    from .client_connection import ClientConnection

OF_OTHERS = (RouteKind.PASS, BULK, RouteKind.CHECK_BODY)
"""Requests that are not for the index by its known names, unless their bodies name it."""

MOST_OF_ITEMS = 32 * 1024 * 1024
"""The maximum length in bytes of an answer to a bulk request that is held back to be read."""


class ClusterSide:
    """The connection to the cluster of a client's connection."""

    stream: Union[Stream, TlsStream]

    def __init__(self, client: "ClientConnection", connection: socket.socket) -> None:
        self.client = client
        self.data = b""
        loop, cluster = client.proxy.loop, client.node.cluster
        if cluster.trust is None:
            self.stream = Stream(loop, connection, self)
            loop.soon(lambda: client.cluster_connected(None))
        else:
            self.stream = TlsStream(
                loop, connection, self, cluster.trust, str(cluster.url.hostname), client.cluster_connected
            )

    def received(self, data: bytes) -> None:
        """Handles data from the cluster."""
        client = self.client
        client.active_at = client.proxy.loop.now
        self.data = self.data + data if self.data else data
        try:
            while self.data and self.do_step():
                pass
        except BadMessage as fault:
            self.fail(f"the answer can't be read: {fault}")
        if self.data or client.held or client.exchange is not None and client.exchange.body is not None:
            client.account()

    def do_step(self) -> bool:
        """Does the next step with the data from the cluster; returns whether there may be another one."""
        client = self.client
        exchange = client.exchange
        if exchange is None or exchange.state in WITH_ANSWER:
            self.fail("there was an answer without a request")
            return False
        if exchange.response is None:
            return self.take_head(exchange)
        assert exchange.body is not None
        self.take_piece(exchange, exchange.response, exchange.body)
        return True

    def take_head(self, exchange: Exchange) -> bool:
        """Reads the head of an answer, and all of it if it was received in one piece; returns whether there
        may be another step."""
        data = self.data
        end = head_end(data)
        if not end:
            return False
        head = data[:end]
        response = remembered_response(head) if end <= LONGEST_REMEMBERED else read_response(head)
        if response.status < 200:
            self.data = data[end:]
            self.go_on(exchange, response, head)
        elif len(data) - end == response.length_for(exchange.request.method):
            self.data = b""
            exchange.answer = data
            self.finish(exchange, response, data[end:])
        else:
            self.data = data[end:]
            body = response.body(exchange.request.method)
            body.is_kept = exchange.recorded is not None
            exchange.response, exchange.body = response, body
            exchange.answer = bytearray(head)
            if body.is_done:
                self.finish(exchange, response, b"")
        return True

    def go_on(self, exchange: Exchange, response: Response, head: bytes) -> None:
        """Passes on an interim answer."""
        if response.status == 101:
            raise BadMessage("it switches to a protocol that wasn't offered")
        if not exchange.was_continued or response.status != 100:
            self.client.stream.write(head)

    def take_piece(self, exchange: Exchange, response: Response, body: Body) -> None:
        """Reads a part of an answer. Answers to calls are held back until their replies are written."""
        count = body.take(self.data)
        exchange.answer += self.data[:count]
        self.data = self.data[count:]
        if body.is_done:
            self.finish(exchange, response, body.content())
            return
        most = MOST_OF_ITEMS if exchange.route.kind is BULK else MOST_READ
        if exchange.recorded is None or len(exchange.answer) > most or not self.client.proxy.has_room():
            self.give_up_reply(exchange, body)
            self.pass_on(exchange)

    def give_up_reply(self, exchange: Exchange, body: Body) -> None:
        """Writes the calls as lost whose answer can't be held back."""
        self.client.lose(exchange)
        body.is_kept = False
        body.kept.clear()

    def pass_on(self, exchange: Exchange) -> None:
        """Passes on what was received of the answer."""
        exchange.has_begun = True
        answer, exchange.answer = exchange.answer, b""
        self.client.stream.write(answer)

    def finish(self, exchange: Exchange, response: Response, content: bytes) -> None:
        """Writes the replies of a complete answer, in steps if there are many."""
        recorded = exchange.recorded
        exchange.end_answer()
        if recorded is None:
            self.discover_index(exchange)
            return
        exchange.recorded = None
        fields, proxy = response.fields, self.client.proxy
        plain: Optional[bytes] = content
        if fields.encoding or len(content) > MOST_READ:
            plain = decoded(content, fields.encoding, MOST_OF_ITEMS if recorded.kind is BULK else MOST_READ)
        if isinstance(recorded, IndexMakingRequest):
            self.discover_made_index(exchange, recorded, response, plain)
        elif len(recorded.parts) <= MOST_AT_ONCE:
            proxy.judge.answers.record(recorded, response.status, plain, fields.length)
            if proxy.discovery is None:
                self.deliver(exchange)
            else:
                self.discover_index(exchange)
        else:
            self.work(proxy.judge.answers.record_in_steps(recorded, response.status, plain), exchange)

    def work(self, steps: Iterator[None], exchange: Exchange) -> None:
        """Does work in steps, and then goes on with the answer. Nothing is read from the cluster
        meanwhile."""
        self.stream.pause_reading()

        def go_on() -> None:
            self.take_more()
            self.discover_index(exchange)

        self.client.proxy.work(steps, go_on)

    def discover_made_index(
        self, exchange: Exchange, making: IndexMakingRequest, response: Response, content: Optional[bytes]
    ) -> None:
        """Has the index inspected after the answer to a request that may have created it; then writes the
        call and the reply, and others go on."""
        proxy = self.client.proxy
        assert proxy.discovery is not None
        discovery: IndexDiscovery = proxy.discovery
        self.stream.pause_reading()

        def go_on() -> None:
            discovery.end_making(proxy.judge.made(making, response.status, content, response.fields.length))
            self.found(exchange)

        discovery.answered(exchange, go_on, True)

    def discover_index(self, exchange: Exchange) -> None:
        """Has the index looked for, if it didn't exist and the request may have created it; then passes the
        answer on."""
        discovery = self.client.proxy.discovery
        if discovery is None or exchange.request.method in READS:
            self.deliver(exchange)
            return
        self.stream.pause_reading()
        discovery.answered(exchange, lambda: self.found(exchange), exchange.route.kind not in OF_OTHERS)

    def found(self, exchange: Exchange) -> None:
        """Goes on after the index was looked for."""
        self.take_more()
        self.deliver(exchange)

    def take_more(self) -> None:
        """Reads from the cluster again, unless the send buffer to the client is full."""
        if not self.client.stream.is_paused:
            self.stream.resume_reading()

    def deliver(self, exchange: Exchange) -> None:
        """Passes on an answer, or the last part of it, and goes on with the next request."""
        client = self.client
        if exchange.state is ANSWERED and not self.data and not self.stream.is_closing:
            # (the exchange is over, so nothing is noted in it)
            client.stream.write(exchange.answer)
            client.answered()
        elif self.data:
            self.pass_on(exchange)
            self.fail("there was data after the answer")
        else:
            # (the cluster closed the connection, or answered before it had read the whole request: it would
            # take the rest of it for the beginning of the next one)
            self.pass_on(exchange)
            client.close()
        if client.held:
            client.account()

    def fail(self, why: str) -> None:
        """Gives up the exchange: its calls are lost, and the client gets status 502 unless a part of the
        answer was passed on."""
        client = self.client
        client.give_up()
        can_report = client.exchange is not None and not client.exchange.has_begun
        client.exchange = None
        client.close(refusal("502 Bad Gateway", why) if can_report else b"")

    def pause_writing(self) -> None:
        """Called when the send buffer to the cluster is full: stops reading from the client."""
        self.client.is_cluster_full = True
        self.client.update_flow()

    def resume_writing(self) -> None:
        """Called when the send buffer to the cluster is empty: reads from the client again."""
        self.client.is_cluster_full = False
        self.client.update_flow()

    def ended(self) -> None:
        """Called when the cluster sends no more."""
        self.stream.close()

    def connection_lost(self) -> None:
        """Closes the connection of the client: after an answer that ends with its connection, or with status
        502."""
        client = self.client
        exchange = client.exchange
        if client.stream.is_closing or exchange is not None and exchange.state in WITH_ANSWER:
            return
        if (
            exchange is not None
            and exchange.body is not None
            and exchange.body.at_close()
            and self.stream.is_at_end
        ):
            assert exchange.response is not None
            self.finish(exchange, exchange.response, exchange.body.content())
        elif exchange is not None:
            self.fail("the cluster closed the connection before the answer was complete")
        else:
            client.close()
