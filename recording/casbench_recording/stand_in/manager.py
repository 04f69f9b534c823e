"""The cluster manager: which nodes are members, where the copies of each shard are, and which of them is the
primary.

It stands for a dedicated manager that is never disturbed. Its state is published to every member, and a
change is complete when each member has it.
"""

import asyncio
import contextlib
from typing import (
    TYPE_CHECKING,
    Any,
    Callable,
    Dict,
    FrozenSet,
    List,
    Mapping,
    NamedTuple,
    Optional,
    Set,
    Tuple,
)

from .indexes import Index, ShardId
from .network import Disconnected, RequestRefused

if TYPE_CHECKING:
    from .cluster import Cluster
    from .node import Node

JOINS_AFTER = 0.05
"""After how many seconds a node that is back joins the cluster."""

TRIES_AGAIN_AFTER = 0.1
"""The interval in seconds between attempts to recover a copy."""


class Routing(NamedTuple):
    """The primary term of a shard, the node with the primary (if there is one), and the nodes with active
    copies."""

    term: int
    primary: Optional[int]
    active: FrozenSet[int]


class ClusterState(NamedTuple):
    """A cluster state."""

    version: int
    indexes: Mapping[str, Index]
    routings: Mapping[ShardId, Routing]


EMPTY = ClusterState(0, {}, {})


class Manager:
    """The cluster manager."""

    def __init__(self, cluster: "Cluster", nodes: int) -> None:
        self.cluster = cluster
        self.state = EMPTY
        self.members = set(range(nodes))
        # the nodes that should have a copy of a shard, and those with copies in sync, even if they are gone
        self.homes: Dict[ShardId, List[int]] = {}
        self.in_sync: Dict[ShardId, FrozenSet[int]] = {}
        self._count = nodes
        self._generation = 0
        self._lock = asyncio.Lock()
        self._tasks: "Set[asyncio.Task[None]]" = set()
        # the copies that are being recovered
        self._recovering: "Set[Tuple[ShardId, int]]" = set()

    # Indexes

    async def create(self, name: str, request: Mapping[str, Any]) -> bool:
        """Creates an index, unless it exists; returns whether it did."""
        async with self._lock:
            if name in self.state.indexes:
                return False
            cluster = self.cluster
            self._generation += 1
            index = Index(name, request, self._generation, cluster.shards, cluster.replicas)
            routings = {shard: self._placed(shard, index.replicas) for shard in index.shards}
            await self._publish({**self.state.indexes, name: index}, {**self.state.routings, **routings})
        return True

    def _placed(self, shard: ShardId, replicas: int) -> Routing:
        """Places the copies of a new shard: the primary on the last node, or those before it, the replicas on
        the next ones."""
        homes = [
            (self._count - 1 - shard.number + it) % self._count
            for it in range(min(self._count, replicas + 1))
        ]
        self.homes[shard] = homes
        present = [it for it in homes if it in self.members]
        for it in homes:
            if it not in self.members:
                self._bring_in_sync(shard, it)
        return Routing(1, present[0] if present else None, frozenset(present))

    async def remove(self, name: str) -> bool:
        """Deletes an index, if it exists; returns whether it did."""
        async with self._lock:
            if name not in self.state.indexes:
                return False
            left = {key: it for key, it in self.state.indexes.items() if key != name}
            gone = set(self.state.indexes[name].shards)
            await self._publish(left, {key: it for key, it in self.state.routings.items() if key not in gone})
        return True

    # Copies

    async def fail_copy(self, shard: ShardId, number: int, term: int, is_current: Callable[[], bool]) -> bool:
        """Removes a copy from those in sync for the primary of this term, if `is_current()`; returns False if
        that isn't the primary any more."""
        async with self._lock:
            now = self.state.routings.get(shard)
            if now is None or now.primary is None or term < now.term:
                return False
            if number in now.active and is_current():
                await self._reroute({shard: now._replace(active=now.active - {number})})
                self._bring_in_sync(shard, number)
        return True

    async def add_copy(self, shard: ShardId, number: int, term: int, is_current: Callable[[], bool]) -> bool:
        """Adds a copy that was recovered by the primary of this term to those in sync, if `is_current()`;
        returns whether it did."""
        async with self._lock:
            now = self.state.routings.get(shard)
            if (
                now is None
                or now.primary is None
                or term != now.term
                or number not in self.members
                or not is_current()
            ):
                return False
            await self._reroute({shard: now._replace(active=now.active | {number})})
        return True

    async def give_up_primary(self, shard: ShardId, number: int) -> bool:
        """Moves the primary of a shard from a node to another copy in sync, and recovers the node's copy;
        returns False if the node doesn't have the primary, or if there is no other copy.

        When the other copy is promoted, no node regards the old one as the primary any more, so no get is
        answered by it.
        """
        async with self._lock:
            now = self.state.routings.get(shard)
            left = now.active - {number} if now is not None else frozenset()
            if now is None or now.primary != number or not left:
                return False
            await self._reroute({shard: Routing(now.term, None, left)})
            left = left & self.members or left
            await self._reroute({shard: Routing(now.term + 1, max(left), left)})
            self._bring_in_sync(shard, number)
        return True

    def _bring_in_sync(self, shard: ShardId, number: int) -> None:
        """Starts to recover a copy."""
        if (shard, number) not in self._recovering:
            self._recovering.add((shard, number))
            task = asyncio.ensure_future(self._recover(shard, number))
            self._tasks.add(task)
            task.add_done_callback(self._tasks.discard)

    async def _recover(self, shard: ShardId, number: int) -> None:
        """Has the primary recover a copy, until it is in sync."""
        while shard in self.state.routings and number not in self.state.routings[shard].active:
            primary = self.state.routings[shard].primary
            if primary is not None and number in self.members and self.cluster.nodes[primary].is_reachable:
                at_work = self.cluster.nodes[primary].primaries.get(shard)
                if at_work is not None:
                    with contextlib.suppress(Disconnected, RequestRefused):
                        await at_work.recover(number)
            await asyncio.sleep(TRIES_AGAIN_AFTER)
        self._recovering.discard((shard, number))

    # Nodes

    async def lose(self, node: "Node") -> None:
        """Removes a node. For each primary on it, another copy in sync is promoted in the next term."""
        self.members.discard(node.number)
        node.is_removed = True
        node.disconnect()
        self.cluster.changes.notify()
        async with self._lock:
            rows = self.state.routings.items()
            await self._reroute(
                {shard: self._without(shard, node.number) for shard, now in rows if node.number in now.active}
            )

    def _without(self, shard: ShardId, number: int) -> Routing:
        """Returns the routing of a shard without the copies of a node."""
        now = self.state.routings[shard]
        left = now.active - {number}
        if now.primary != number:
            return now._replace(active=left)
        return Routing(now.term + 1, max(left), left) if left else Routing(now.term, None, left)

    async def join(self, node: "Node") -> None:
        """Adds a node again. It gets the primary of a shard without one, if its copy is in sync."""
        await asyncio.sleep(JOINS_AFTER)
        async with self._lock:
            if self.cluster.nodes[node.number] is not node or not node.is_reachable:
                return
            self.members.add(node.number)
            node.is_removed = False
            promoted = {}
            for shard, now in self.state.routings.items():
                if now.primary is None and node.number in self.in_sync[shard]:
                    promoted[shard] = Routing(now.term + 1, node.number, frozenset({node.number}))
            await self._reroute(promoted)
        for shard, homes in list(self.homes.items()):
            if node.number in homes:
                self._bring_in_sync(shard, node.number)

    # States

    async def _reroute(self, routings: Mapping[ShardId, Routing]) -> None:
        """Publishes new routings."""
        await self._publish(self.state.indexes, {**self.state.routings, **routings})

    async def _publish(self, indexes: Mapping[str, Index], routings: Mapping[ShardId, Routing]) -> None:
        """Publishes a new state; returns when each member has it, or is no member any more."""
        self.state = ClusterState(self.state.version + 1, indexes, routings)
        for shard, routing in routings.items():
            if routing.active:
                self.in_sync[shard] = routing.active
        self.homes = {shard: it for shard, it in self.homes.items() if shard in routings}
        if self._count == 1:
            self.cluster.nodes[0].apply(self.state)
            return
        await asyncio.gather(*[self._hand_over(self.state, it) for it in sorted(self.members)])

    async def _hand_over(self, state: ClusterState, number: int) -> None:
        """Sends a state to a member; returns when it has that one or a later one, or is no member any
        more."""
        cluster = self.cluster
        await asyncio.sleep(cluster.network.delay())

        def is_over() -> bool:
            return number not in self.members or cluster.nodes[number].state.version >= state.version

        await cluster.changes.until(lambda: is_over() or cluster.nodes[number].is_reachable)
        if not is_over():
            cluster.nodes[number].apply(state)
