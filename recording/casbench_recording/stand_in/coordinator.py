"""The coordinating part of a node: it finds the shard of each document, and sends gets to the copies and
writes to the primary."""

import base64
import itertools
import re
import time
from typing import TYPE_CHECKING, Any, Awaitable, Callable, Dict, List, Optional, Sequence

from .answers import Answer, RequestParameters, error, no_document, no_index, shown, unchanged
from .indexes import Index, ShardId
from .manager import Routing
from .network import Disconnected, NoCopy, NotPrimary, Returned
from .primary import Write
from .shard_copy import Entry
from .updates import prepared

if TYPE_CHECKING:
    from .node import Node

SECONDS = {"ms": 0.001, "s": 1.0, "m": 60.0, "h": 3600.0}
"""The units of time values, in seconds."""

IDS = itertools.count()


class Unavailable(Exception):
    """The primary of a shard, or each copy, couldn't be reached in time; it isn't known whether anything was
    performed."""

    def __init__(self, answer: Answer) -> None:
        super().__init__(answer)
        self.answer = answer


class Coordinator:
    """The coordinating part of a node."""

    def __init__(self, node: "Node") -> None:
        self.node = node
        self._turn = 0

    def index(self, name: str) -> Optional[Index]:
        """Returns the index with this name or alias."""
        indexes = self.node.state.indexes
        return indexes.get(name) or next((it for it in indexes.values() if name in it.aliases), None)

    async def index_to_write(self, name: str) -> Index:
        """The same for a write that creates the index if it doesn't exist."""
        index = self.index(name)
        while index is None:
            await self.node.ask_manager(self.node.cluster.manager.create, name, {})
            index = self.index(name)
        return index

    # Gets

    async def get(self, name: str, document: str, parameters: RequestParameters) -> Answer:
        """Answers a get."""
        return (await self.get_all(name, [document], [parameters]))[0]

    async def get_all(
        self, name: str, documents: Sequence[str], parameters: Sequence[RequestParameters]
    ) -> List[Answer]:
        """Answers gets of documents of an index; those of one shard are answered by the same copy."""
        index = self.index(name)
        if index is None:
            return [no_index(name) for _ in documents]
        shards = [index.shard(*it) for it in zip(documents, parameters)]
        answers: Dict[int, Answer] = {}
        for shard in dict.fromkeys(shards):
            places = [at for at, it in enumerate(shards) if it == shard]
            try:
                entries = await self._entries(
                    shard, [documents[at] for at in places], parameters[places[0]].get("preference")
                )
            except Unavailable as fault:
                answers.update((at, fault.answer) for at in places)
            else:
                answers.update(
                    (at, shown(index.name, documents[at], it, parameters[at]))
                    for at, it in zip(places, entries)
                )
        return [answers[at] for at, _ in enumerate(documents)]

    async def _entries(
        self, shard: ShardId, documents: Sequence[str], preference: Optional[str]
    ) -> List[Optional[Entry]]:
        """Returns the last changes of documents of a shard according to one copy; if it can't be reached the
        next one is asked. Raises Unavailable."""
        refused = self.node.cluster.overload.of_get()
        if refused is not None:
            raise Unavailable(refused)
        for number in self._copies(self.node.state.routings.get(shard), preference):
            try:
                return await self.node.ask(number, type(self.node).get, shard, documents)
            except (Disconnected, NoCopy):
                continue
        raise Unavailable(
            error(
                503,
                "no_shard_available_action_exception",
                f"No shard available for [get [{shard.index_name}]]",
            )
        )

    def _copies(self, routing: Optional[Routing], preference: Optional[str]) -> List[int]:
        """Returns the nodes whose copies are asked, in order: all active ones in rotation, unless the request
        has a preference."""
        if routing is None:
            return []
        self._turn += 1
        numbers = sorted(routing.active)
        turned = [numbers[(self._turn + at) % len(numbers)] for at, _ in enumerate(numbers)]
        if preference is None:
            return turned
        if preference in ("_primary", "_replica"):
            return [it for it in turned if (it == routing.primary) == (preference == "_primary")]
        replicas = [it for it in turned if it != routing.primary]
        firsts: Dict[str, Sequence[Optional[int]]] = {
            "_primary_first": [routing.primary],
            "_local": [self.node.number],
            "_replica_first": replicas,
        }
        if preference.startswith("_") and preference not in firsts:
            raise ValueError(f"no Preference for [{preference}]")
        first = [it for it in firsts.get(preference, numbers) if it in routing.active]
        return first + [it for it in turned if it not in first]

    # Writes

    async def write(
        self, shard: ShardId, writes: Sequence[Write], parameters: RequestParameters
    ) -> List[Answer]:
        """Has the primary perform writes, in order."""
        overload = self.node.cluster.overload
        refused = overload.of_waiting()
        answers = (
            await self._performed(shard, writes, parameters)
            if refused is None or overload.performs_it()
            else []
        )
        return answers if refused is None else [refused for _ in writes]

    async def _performed(
        self, shard: ShardId, writes: Sequence[Write], parameters: RequestParameters
    ) -> List[Answer]:
        """Returns the primary's answers to writes, or that it couldn't be reached."""
        try:
            return await self._rerouted(
                shard, seconds_of(parameters.get("timeout", "1m")), type(self.node).perform, writes
            )
        except Unavailable as fault:
            return [fault.answer for _ in writes]

    async def _rerouted(
        self, shard: ShardId, seconds: float, act: Callable[..., Awaitable[Returned]], *arguments: Any
    ) -> Returned:
        """Has the node with the primary of a shard do something. If the connection fails, or it isn't the
        primary, this is repeated with each new cluster state, and a last time after these seconds. Raises
        Unavailable."""
        node, end = self.node, time.monotonic() + seconds
        while True:
            state, is_last = node.state, time.monotonic() >= end
            routing = state.routings.get(shard)
            try:
                if node.is_alone or routing is None or routing.primary is None:
                    raise NotPrimary("primary shard is not active")
                return await node.ask(routing.primary, act, shard, routing.term, *arguments)
            except (Disconnected, NotPrimary) as fault:
                if is_last:
                    raise Unavailable(self._unavailable(shard, fault, seconds)) from fault
            left = end - time.monotonic()
            await node.cluster.changes.until(
                lambda: node.state.version > state.version and not node.is_alone, left
            )
            await node.awake()

    def _unavailable(self, shard: ShardId, fault: Exception, seconds: float) -> Answer:
        """Returns the answer if the primary couldn't be reached in time."""
        if self.node.is_alone:
            return error(
                503, "cluster_block_exception", "blocked by: [SERVICE_UNAVAILABLE/2/no cluster-manager];"
            )
        if isinstance(fault, Disconnected):
            return error(500, "node_disconnected_exception", f"{fault}: disconnected")
        return error(
            503,
            "unavailable_shards_exception",
            f"[{shard.index_name}][{shard.number}] {fault} Timeout: [{seconds:g}s]",
        )

    async def update(self, shard: ShardId, write: Write) -> Answer:
        """Answers an update: the primary's node reads the document and writes it. This is retried like a
        write."""
        try:
            return await self._rerouted(
                shard, seconds_of(write.parameters.get("timeout", "1m")), type(self.node).update, write
            )
        except Unavailable as fault:
            return fault.answer

    async def write_update(self, shard: ShardId, write: Write, last: Optional[Entry]) -> Answer:
        """Writes the result of an update, on the condition of the pair that was read unless the update has
        one. After a conflict it is retried as often as `retry_on_conflict` says."""
        change = prepared(write.source or {}, last)
        if change.is_missing:
            return no_document(write.document)
        if change.is_noop and last is not None:
            return unchanged(shard, last)
        refused = self.node.cluster.overload.of_coordinating()
        if refused is not None:
            return refused
        parameters = dict(write.parameters)
        if last is not None and last.source is not None and "if_seq_no" not in parameters:
            parameters.update(if_seq_no=last.number, if_primary_term=last.term)
        (answer,) = await self._performed(
            shard, [Write(change.kind, write.document, change.source, parameters)], parameters
        )
        tries = int(write.parameters.get("retry_on_conflict", 0))
        if answer[0] == 409 and tries:
            return await self.update(
                shard, write._replace(parameters={**write.parameters, "retry_on_conflict": tries - 1})
            )
        return answer

    async def act(
        self, name: str, kind: str, document: str, source: Any, parameters: RequestParameters
    ) -> Answer:
        """Answers a write of one document."""
        index = await self.index_to_write(name) if kind in ("index", "create") else self.index(name)
        if index is None:
            return no_index(name)
        shard, write = index.shard(document, parameters), Write(kind, document, source, parameters)
        if kind == "update":
            # (it may be rejected by the primary's node, after an attempt that was performed)
            return await self.update(shard, write)
        refused = self.node.cluster.overload.of_coordinating()
        return refused if refused is not None else (await self.write(shard, [write], parameters))[0]


def new_id() -> str:
    """Returns a generated id: 20 characters."""
    return base64.urlsafe_b64encode(next(IDS).to_bytes(15, "big")).decode()


def seconds_of(text: str) -> float:
    """Parses a time value such as 30s or 1m."""
    found = re.fullmatch(r"([0-9]+)(ms|s|m|h)", str(text))
    if found is None:
        raise ValueError(f"failed to parse [{text}] as a time")
    return int(found[1]) * SECONDS[found[2]]
