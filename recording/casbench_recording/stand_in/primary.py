"""A primary: it performs writes on its own copy, replicates them to the copies in sync, and answers when each
has them."""

import asyncio
import time
from typing import (
    TYPE_CHECKING,
    Any,
    Awaitable,
    Callable,
    Dict,
    FrozenSet,
    List,
    NamedTuple,
    Optional,
    Sequence,
)

from .answers import Answer, RequestParameters, conflict, no_document, pair_of, performed, unchanged
from .indexes import ShardId
from .network import Disconnected, NoCopy, NotPrimary, OldTerm
from .shard_copy import Entry
from .updates import prepared

if TYPE_CHECKING:
    from .manager import Routing
    from .node import Node

GC_DELETES = 60.0
"""After how many seconds a deleted document is forgotten, so that `_version` starts at 1 again
(`index.gc_deletes`)."""


class Write(NamedTuple):
    """A requested write: an index, a create, a delete, or an update, whose source is the body of the
    request."""

    kind: str
    document: str
    source: Optional[Dict[str, Any]]
    parameters: RequestParameters


class Replication(NamedTuple):
    """What a primary sends to a copy: operations, and the global checkpoint. For the resync of a new primary,
    also the number above which there are no operations."""

    term: int
    known: int
    entries: Sequence[Entry]
    top: Optional[int] = None


NO_OPERATION = Entry(-1, 0)
"""Stands for the operation of a write that has none."""


class WriteResult(NamedTuple):
    """The result of a write on the primary: the answer, unless the write was performed; the operation, which
    is replicated before the answer; and whether the document existed."""

    answer: Optional[Answer] = None
    entry: Entry = NO_OPERATION
    was_there: bool = False


class Target:
    """Another copy to which writes are replicated. A copy that is recovered again on the same node is a new
    target."""

    def __init__(self, number: int, held: int = -1, is_in_sync: bool = False) -> None:
        # the number of its node, the number up to which it has all, and whether it is in sync
        self.number = number
        self.held = held
        self.is_in_sync = is_in_sync


class Primary:
    """The primary of a shard, in one term."""

    def __init__(self, node: "Node", shard: ShardId, routing: "Routing") -> None:
        self.node, self.shard, self.term = node, shard, routing.term
        self.copy = node.copies[shard]
        # the other copies, by the numbers of their nodes
        others = sorted(routing.active - {node.number})
        self.targets = {it: Target(it, self.copy.known, True) for it in others}
        # the number of recoveries so far
        self.attempts = 0
        self.is_over = False
        self.copy.fill_gaps(self.term)
        self.copy.term = self.term
        self.next = self.copy.top + 1
        self.is_ready = not self.targets or self.copy.top < 0

    @property
    def checkpoint(self) -> int:
        """The number up to which each copy in sync has all (the global checkpoint)."""
        held = [it.held for it in self.targets.values() if it.is_in_sync]
        return max(self.copy.known, min([self.copy.checkpoint, *held]))

    async def resync(self) -> None:
        """Has the other copies roll back what is above the global checkpoint, and sends them its own
        operations. After that it accepts writes."""
        known, entries = self.copy.known, self.copy.above(self.copy.known)
        message = Replication(self.term, known, entries, self.copy.top)
        await self._send_all(message)
        self.is_ready = True
        self.node.cluster.changes.notify()

    def step_down(self) -> None:
        """Accepts and acknowledges no more writes."""
        self.is_over = True
        self.node.cluster.changes.notify()

    # Writes

    async def perform(self, writes: Sequence[Write]) -> List[Answer]:
        """Performs writes one after the other, and replicates them together. Raises NotPrimary."""
        if not self.is_ready:
            await self.node.cluster.changes.until(lambda: self.is_ready or self.is_over)
        if self.is_over:
            raise NotPrimary("actual shard is not a primary")
        outcomes = [self._act(it) for it in writes]
        if self.copy.beginning is None and self.next >= self.node.cluster.faults.every:
            self.copy.note_beginning()
        copies = len(self.targets) + 1
        if self.targets:
            entries = [it.entry for it in outcomes if it.entry is not NO_OPERATION]
            await self._send_all(Replication(self.term, self.checkpoint, entries))
        if self.is_over:
            raise NotPrimary("the primary was replaced")
        self.copy.note_known(self.checkpoint)
        shards = self._shards(copies)
        return [it.answer or performed(self.shard, it.entry, it.was_there, shards) for it in outcomes]

    def _shards(self, copies: int) -> Dict[str, int]:
        """Returns the `_shards` of an answer: how many copies there are, have the write, and have failed."""
        index = self.node.state.indexes.get(self.shard.index_name)
        total = index.replicas + 1 if index is not None else copies
        holding = sum(it.is_in_sync for it in self.targets.values()) + 1
        return {"total": total, "successful": holding, "failed": max(0, copies - len(self.targets) - 1)}

    def _act(self, write: Write) -> WriteResult:
        """Performs a write on its own copy."""
        last = self.copy.last(write.document)
        if write.kind == "update":
            write, answer = self._updating(write, last)
            if answer is not None:
                return WriteResult(answer)
        is_there = last is not None and last.source is not None
        faults = self.node.cluster.faults
        if not is_met(write, last) and not (
            pair_of(write.parameters) is not None and faults.strikes("lost-update")
        ):
            return WriteResult(conflict(self.shard, write.document, last, write.parameters))
        entry = self._entry(write, last)
        self.copy.put(entry)
        if faults.strikes("false-conflict"):
            return WriteResult(conflict(self.shard, write.document, last, write.parameters), entry)
        return WriteResult(None, entry, is_there)

    def _updating(self, write: Write, last: Optional[Entry]) -> "tuple[Write, Optional[Answer]]":
        """Returns the write that results from an update, or its answer if it changes nothing."""
        change = prepared(write.source or {}, last)
        if change.is_missing:
            return write, no_document(write.document)
        if change.is_noop and last is not None:
            return write, unchanged(self.shard, last)
        return write._replace(kind=change.kind, source=change.source), None

    def _entry(self, write: Write, last: Optional[Entry]) -> Entry:
        """Returns the operation of a write, with its number."""
        now = time.monotonic()
        is_forgotten = last is not None and last.source is None and now - last.time > GC_DELETES
        changes = 1 if last is None or is_forgotten else last.changes + 1
        source = None if write.kind == "delete" else write.source
        return Entry(
            self._number(),
            self.term,
            write.document,
            int(write.parameters.get("version", changes)),
            source,
            now,
        )

    def _number(self) -> int:
        """Returns the number of the next operation."""
        if self.next and self.node.cluster.faults.strikes("pair-twice"):
            return self.next - 1
        self.next += 1
        return self.next - 1

    # Copies

    async def _send_all(self, message: Replication) -> None:
        """Sends a message to the other copies; returns when each has applied it, or isn't in sync any
        more."""
        await asyncio.gather(*[self._send(it, message) for it in self.targets.values()])

    async def _send(self, target: Target, message: Replication) -> None:
        """Sends a message to a copy."""
        node = self.node
        try:
            held = await node.ask(target.number, type(node).replicate, self.shard, message)
        except OldTerm:
            self.step_down()
        except (Disconnected, NoCopy):
            await self._fail(target)
        else:
            target.held = max(target.held, held)

    def _is_current(self, target: Target) -> bool:
        """Returns whether writes are still replicated to a copy."""
        return self.targets.get(target.number) is target

    async def _fail(self, target: Target) -> None:
        """Has the manager remove a copy from those in sync. Before that, nothing is acknowledged without
        it."""
        if await self._asks_manager(self.node.cluster.manager.fail_copy, target):
            self._forget(target)
        else:
            self.step_down()

    def _asks_manager(self, act: Callable[..., Awaitable[bool]], target: Target) -> Awaitable[bool]:
        """Has the manager do something with a copy, unless it isn't a target any more."""
        return self.node.ask_manager(
            act, self.shard, target.number, self.term, lambda: self._is_current(target)
        )

    def _forget(self, target: Target) -> None:
        """Stops replicating to a copy."""
        if self._is_current(target):
            del self.targets[target.number]

    def keep(self, active: FrozenSet[int]) -> None:
        """Forgets the copies in sync that aren't active in the cluster state any more."""
        for it in list(self.targets.values()):
            if it.is_in_sync and it.number not in active:
                self._forget(it)

    async def recover(self, number: int) -> None:
        """Makes a copy on a node, and brings it in sync. Raises Disconnected or RequestRefused."""
        node = self.node
        if self.is_over or not self.is_ready or number in self.targets:
            return
        self.attempts += 1
        attempt = self.term, self.attempts
        await node.ask(number, type(node).begin_copy, self.shard, attempt)
        target = self.targets[number] = Target(number)
        try:
            held = await node.ask(number, type(node).take_copy, self.shard, attempt, self.copy.contents())
            target.held = max(target.held, held)
            target.is_in_sync = await self._asks_manager(node.cluster.manager.add_copy, target)
        finally:
            if not target.is_in_sync:
                self._forget(target)


def is_met(write: Write, last: Optional[Entry]) -> bool:
    """Returns whether a write may be performed on a document with this last change."""
    is_there = last is not None and last.source is not None
    condition = pair_of(write.parameters)
    if write.kind == "create" or write.parameters.get("op_type") == "create":
        return not is_there
    if str(write.parameters.get("version_type", "internal")).startswith("external"):
        return last is None or int(write.parameters["version"]) > last.changes
    return condition is None or last is not None and is_there and condition == last.pair
