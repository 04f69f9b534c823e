"""A node: its copies of shards, its cluster state, and what other nodes ask of it."""

import asyncio
from typing import TYPE_CHECKING, Any, Awaitable, Callable, Dict, List, Optional, Sequence, Set, Tuple

from .answers import Answer
from .coordinator import Coordinator
from .indexes import ShardId
from .manager import EMPTY, ClusterState, Routing
from .network import NoCopy, NodeRequest, NotPrimary, OldTerm, Returned
from .primary import Primary, Replication, Write
from .shard_copy import Contents, Entry, ShardCopy

if TYPE_CHECKING:
    from .cluster import Cluster


class Node:
    """A node, from its start until it is killed."""

    def __init__(
        self, cluster: "Cluster", number: int, copies: Optional[Dict[ShardId, ShardCopy]] = None
    ) -> None:
        self.cluster = cluster
        self.number = number
        self.name = f"node-{number + 1}"
        # its copies, as on its disk; those that are being recovered; and its primaries
        self.copies = copies or {}
        self.recovering: Set[ShardId] = set()
        self.primaries: Dict[ShardId, Primary] = {}
        self.state: ClusterState = EMPTY
        # whether it runs; is paused; is cut off from other nodes; was removed by the manager; and has noticed
        # that it has no manager
        self.is_alive = True
        self.is_paused = self.is_cut = self.is_removed = self.is_alone = False
        self.exchanges: Dict[NodeRequest, None] = {}
        self.coordinator = Coordinator(self)
        self._tasks: "Set[asyncio.Task[Any]]" = set()

    @property
    def is_reachable(self) -> bool:
        """Whether the manager can reach it."""
        return self.is_alive and not self.is_paused and not self.is_cut

    # Tasks

    def run(self, work: Awaitable[Returned]) -> "asyncio.Task[Returned]":
        """Runs a task, which ends if the node is killed."""
        task = asyncio.ensure_future(work)
        self._tasks.add(task)
        task.add_done_callback(self._tasks.discard)
        return task

    def ask(
        self, number: int, act: Callable[..., Awaitable[Returned]], *arguments: Any
    ) -> Awaitable[Returned]:
        """Has a node do something. Raises RequestRefused or Disconnected."""
        return self.cluster.network.ask(self, self.cluster.nodes[number], act, *arguments)

    async def ask_manager(self, act: Callable[..., Awaitable[Returned]], *arguments: Any) -> Returned:
        """Has the manager do something, as soon as the node can reach it."""
        await self.cluster.changes.until(lambda: self.is_reachable and not self.is_removed)
        return await act(*arguments)

    async def awake(self) -> None:
        """Waits while the node is paused."""
        if self.is_paused:
            await self.cluster.changes.until(lambda: not self.is_paused)

    def kill(self) -> None:
        """Ends its tasks and its connections."""
        self.is_alive = False
        for task in list(self._tasks):
            task.cancel()
        self.disconnect()

    def disconnect(self) -> None:
        """Breaks the connections to other nodes. A paused node notices that when it is resumed."""
        for it in list(self.exchanges):
            if not it.source.is_paused:
                it.fail()

    # The cluster state

    def apply(self, state: ClusterState) -> None:
        """Applies a new cluster state."""
        if state.version <= self.state.version:
            return
        self.state = state
        self.is_alone = False
        for shard in [it for it in self.copies if it not in state.routings]:
            del self.copies[shard]
        for shard, routing in state.routings.items():
            self._apply_routing(shard, routing)
        self.cluster.changes.notify()

    def _apply_routing(self, shard: ShardId, routing: Routing) -> None:
        """Applies the routing of a shard."""
        primary = self.primaries.get(shard)
        if primary is not None and (routing.primary, routing.term) != (self.number, primary.term):
            primary.step_down()
            del self.primaries[shard]
        elif primary is not None:
            primary.keep(routing.active)
        if self.number in routing.active:
            self.recovering.discard(shard)
            self.copies.setdefault(shard, ShardCopy(routing.term))
        elif routing.primary is not None and shard not in self.recovering:
            self.copies.pop(shard, None)
        if routing.primary == self.number and shard not in self.primaries:
            self._promote(shard, routing)

    def _promote(self, shard: ShardId, routing: Routing) -> None:
        """Makes its copy the primary."""
        copy, lost = self.copies[shard], self.cluster.faults.lost_at_promotion()
        if routing.term > 1 and lost:
            copy.roll_back(copy.top - lost)
        primary = self.primaries[shard] = Primary(self, shard, routing)
        if not primary.is_ready:
            self.run(primary.resync())

    # Requests of other nodes

    def primary_of(self, shard: ShardId, term: int) -> Primary:
        """Returns the primary of this term. Raises NotPrimary."""
        primary = self.primaries.get(shard)
        if primary is None or primary.term != term:
            raise NotPrimary("actual shard is not a primary")
        return primary

    async def perform(self, shard: ShardId, term: int, writes: Sequence[Write]) -> List[Answer]:
        """Performs writes on its primary."""
        refused = self.cluster.overload.of_primary()
        if refused is not None:
            return [refused for _ in writes]
        return await self.primary_of(shard, term).perform(writes)

    async def update(self, shard: ShardId, term: int, write: Write) -> Answer:
        """Reads a document from its primary, and writes the result of the update, unless the document was
        changed meanwhile."""
        copy = self.primary_of(shard, term).copy
        return await self.coordinator.write_update(shard, write, copy.last(write.document))

    async def get(self, shard: ShardId, documents: Sequence[str]) -> List[Optional[Entry]]:
        """Returns the last changes of documents according to its copy."""
        if shard not in self.copies or shard in self.recovering:
            raise NoCopy(f"{self.name} has no copy of {shard} that answers")
        copy, faults = self.copies[shard], self.cluster.faults
        found = []
        for document in documents:
            last = copy.last(document)
            found.append(copy.before(document) if last is not None and faults.strikes("stale-get") else last)
        return found

    async def replicate(self, shard: ShardId, message: Replication) -> int:
        """Applies operations of the primary; returns the number up to which the copy has all."""
        copy = self._copy_at(shard, message.term)
        if message.term > copy.term:
            base = max(message.known, copy.known)
            copy.roll_back(base if message.top is None else min(base, message.top))
            copy.term = message.term
        for it in message.entries:
            is_dropped = message.top is None and self.cluster.faults.strikes("lagging-copy")
            copy.put(Entry(it.number, it.term) if is_dropped else it)
        copy.note_known(message.known)
        return copy.checkpoint

    async def begin_copy(self, shard: ShardId, attempt: Tuple[int, int]) -> None:
        """Starts a new copy in place of the old one."""
        copy = self.copies.get(shard)
        if copy is not None and (copy.term, copy.attempt) >= attempt:
            raise OldTerm(f"{self.name} has a later copy of {shard}")
        self.copies[shard] = ShardCopy(*attempt)
        self.recovering.add(shard)

    async def take_copy(self, shard: ShardId, attempt: Tuple[int, int], contents: Contents) -> int:
        """Takes the contents of the primary; returns the number up to which the copy has all."""
        copy = self._copy_at(shard, attempt[0])
        if (copy.term, copy.attempt) != attempt:
            raise OldTerm(f"{self.name} has a later copy of {shard}")
        copy.take(contents)
        return copy.checkpoint

    def _copy_at(self, shard: ShardId, term: int) -> ShardCopy:
        """Returns the copy of a shard, for a primary of this term. Raises NoCopy or OldTerm."""
        copy = self.copies.get(shard)
        if copy is None:
            raise NoCopy(f"{self.name} has no copy of {shard}")
        if term < copy.term:
            raise OldTerm(f"operation term [{term}] is too old (current [{copy.term}])")
        return copy
