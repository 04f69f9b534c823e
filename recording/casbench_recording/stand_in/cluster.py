"""The cluster: its nodes, its manager, and disturbances of it."""

import asyncio
import random
from typing import Any, Coroutine, NamedTuple, Optional, Set

from .changes import Changes
from .faults import Faults
from .manager import Manager
from .network import Network
from .node import Node
from .overload import Overload

KILLED_NOTICED = 0.1
"""After how many seconds it is noticed that a node was killed: its connections are closed."""


class ClusterSetting(NamedTuple):
    """The settings of a cluster: the number of nodes, the default numbers of shards and replicas of an index,
    the average delay of slow messages between nodes in seconds, the seconds until an unresponsive node is
    removed, and the percentage of rejected requests."""

    nodes: int = 1
    shards: int = 1
    replicas: int = 0
    lag: float = 0.02
    detection: float = 30.0
    overload: float = 0.0


class Cluster:
    """A cluster in one process."""

    def __init__(self, setting: ClusterSetting = ClusterSetting(), faults: Optional[Faults] = None) -> None:
        draw = random.Random()
        self.shards, self.replicas, self.detection = setting.shards, setting.replicas, setting.detection
        self.faults = faults or Faults()
        self.changes = Changes()
        self.network = Network(setting.lag, draw, self.changes)
        self.overload = Overload(setting.overload, draw)
        self.manager = Manager(self, setting.nodes)
        self.nodes = [Node(self, number) for number in range(setting.nodes)]
        self._tasks: "Set[asyncio.Task[Any]]" = set()

    def kill(self, number: int) -> None:
        """Kills a node."""
        node = self.nodes[number]
        node.kill()
        self._spawn(self._lose(node, KILLED_NOTICED))

    async def restart(self, number: int) -> None:
        """Restarts a node that was killed, with the copies on its disk; returns when it has joined the
        cluster."""
        old = self.nodes[number]
        await self.changes.until(lambda: old.is_removed)
        kept = {shard: it for shard, it in old.copies.items() if shard not in old.recovering}
        node = self.nodes[number] = Node(self, number, kept)
        node.is_removed = True
        await self.manager.join(node)

    def pause(self, number: int) -> None:
        """Pauses a node: it does nothing, and keeps its connections."""
        self.nodes[number].is_paused = True
        self._spawn(self._lose(self.nodes[number], self.detection))

    def resume(self, number: int) -> None:
        """Resumes a paused node. If it was removed, it joins again once it has noticed that."""
        self.nodes[number].is_paused = False
        self._come_back(number)

    def cut(self, number: int) -> None:
        """Cuts a node off from the other nodes, but not from its clients."""
        self.nodes[number].is_cut = True
        self._spawn(self._lose(self.nodes[number], self.detection))

    def heal(self, number: int) -> None:
        """Reconnects a node to the other nodes."""
        self.nodes[number].is_cut = False
        self._come_back(number)

    def _come_back(self, number: int) -> None:
        """Has a removed node join again."""
        node = self.nodes[number]
        if node.is_removed:
            node.disconnect()
            self._spawn(self.manager.join(node))
        self.changes.notify()

    async def _lose(self, node: Node, seconds: float) -> None:
        """Removes a node after these seconds, unless it can be reached then. A node that is cut off notices
        that it is alone."""
        await asyncio.sleep(seconds)
        if not node.is_reachable and not node.is_removed:
            node.is_alone = True
            await self.manager.lose(node)

    def _spawn(self, work: Coroutine[Any, Any, None]) -> None:
        """Runs a task in the background."""
        task = asyncio.ensure_future(work)
        self._tasks.add(task)
        task.add_done_callback(self._tasks.discard)
