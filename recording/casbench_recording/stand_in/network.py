"""Messages between the nodes: each has a delay, waits while the connection is cut or the receiver is paused,
or fails with its connection."""

import asyncio
import random
from typing import TYPE_CHECKING, Any, Awaitable, Callable, TypeVar

from .changes import Changes

if TYPE_CHECKING:
    from .node import Node

SLOW = 0.1
"""The fraction of messages with a delay."""

Returned = TypeVar("Returned")


class RequestRefused(Exception):
    """A node refuses what another one asks for."""


class NotPrimary(RequestRefused):
    """The node doesn't have the primary of the shard, or not any more."""


class NoCopy(RequestRefused):
    """The node has no copy of the shard that can answer."""


class OldTerm(RequestRefused):
    """The sender was the primary, and another copy was promoted since."""


class Disconnected(Exception):
    """The connection to a node failed. What was asked for may have been done, or not."""


class NodeRequest:
    """A request of one node to another, until it is answered or its connection fails."""

    def __init__(self, source: "Node", target: "Node") -> None:
        self.source, self.target = source, target
        self.answer: "asyncio.Future[Any]" = asyncio.get_running_loop().create_future()
        source.exchanges[self] = target.exchanges[self] = None

    @property
    def is_over(self) -> bool:
        """Whether it was answered, or its connection failed."""
        return self.answer.done()

    @property
    def is_cut(self) -> bool:
        """Whether no message arrives now."""
        return self.source.is_cut or self.target.is_cut

    def fail(self) -> None:
        """Breaks the connection."""
        if not self.is_over:
            self.answer.set_exception(Disconnected(f"the connection to {self.target.name} was lost"))

    def end(self) -> None:
        """Releases the request."""
        self.answer.cancel()
        self.source.exchanges.pop(self, None)
        self.target.exchanges.pop(self, None)


class Network:
    """Delivers the messages. Some of them have a delay of `lag` seconds on average."""

    def __init__(self, lag: float, draw: random.Random, changes: Changes) -> None:
        self.lag = lag
        self._draw = draw
        self._changes = changes
        self._carrying: "set[asyncio.Task[None]]" = set()

    def delay(self) -> float:
        """Returns the delay of the next message in seconds."""
        return self._draw.expovariate(1 / self.lag) if self.lag and self._draw.random() < SLOW else 0.0

    async def ask(
        self, source: "Node", target: "Node", act: Callable[..., Awaitable[Returned]], *arguments: Any
    ) -> Returned:
        """Has a node do something for another one, or for itself without a message. Raises RequestRefused, or
        Disconnected."""
        if source is target:
            return await act(target, *arguments)
        if source.is_removed or target.is_removed or not target.is_alive:
            await asyncio.sleep(self.delay())
            raise Disconnected(f"{target.name} can't be reached")
        exchange = NodeRequest(source, target)
        task = asyncio.ensure_future(self._carry(exchange, act, arguments))
        self._carrying.add(task)
        task.add_done_callback(self._carrying.discard)
        try:
            returned: Returned = await exchange.answer
            return returned
        finally:
            exchange.end()

    async def _carry(self, exchange: NodeRequest, act: Callable[..., Awaitable[Any]], arguments: Any) -> None:
        """Delivers a request, and its answer. A request arrives even if nobody waits for it any more."""
        await self._arrive(exchange, exchange.target)
        if not exchange.target.is_alive or exchange.is_cut:
            return
        task = exchange.target.run(act(exchange.target, *arguments))
        await asyncio.wait((task,))
        if task.cancelled():
            return
        fault = task.exception()
        await self._arrive(exchange, exchange.source)
        if exchange.is_over:
            return
        if fault is None:
            exchange.answer.set_result(task.result())
        else:
            exchange.answer.set_exception(fault)

    async def _arrive(self, exchange: NodeRequest, receiver: "Node") -> None:
        """Waits for the delay of a message, and until it can be received. Meanwhile a connection that is cut
        may fail."""
        await asyncio.sleep(self.delay())
        if exchange.is_cut or receiver.is_paused:
            await self._changes.until(
                lambda: not receiver.is_paused and (exchange.is_over or not exchange.is_cut)
            )
