"""Disturbances of the cluster: nodes are repeatedly killed, paused or cut off for a while, one at a time."""

import asyncio
import random
from typing import Awaitable, Callable, Dict, NamedTuple, Optional, Sequence

from casbench_recording.console import report

from .cluster import Cluster
from .server import Server

ELSEWHERE = 5
"""One in how many disturbances may choose a node without a primary."""


class Plan(NamedTuple):
    """The plan of the disturbances: the interval of each kind in seconds, how long each lasts (half its
    interval by default), and how many of the first nodes are never disturbed."""

    every: Dict[str, float]
    lasting: Optional[float]
    spared: int


class NodeDisturber:
    """Disturbs the nodes of a cluster and their servers."""

    def __init__(self, cluster: Cluster, servers: Sequence[Server], plan: Plan, draw: random.Random) -> None:
        self._cluster = cluster
        self._servers = servers
        self._plan = plan
        self._draw = draw
        self._count = 0
        self._lock = asyncio.Lock()
        self._kinds: Dict[str, Callable[[int, float], Awaitable[None]]] = {
            "kill": self.kill,
            "pause": self.pause,
            "cut": self.cut,
        }

    async def run(self) -> None:
        """Disturbs the cluster according to the plan, without end."""
        await asyncio.gather(*[self._repeat(kind, seconds) for kind, seconds in self._plan.every.items()])

    async def _repeat(self, kind: str, seconds: float) -> None:
        """Repeats disturbances of one kind."""
        while True:
            await asyncio.sleep(seconds)
            async with self._lock:
                number = self._chosen()
                report(f"{self._cluster.nodes[number].name}: {kind}\n")
                await self._kinds[kind](
                    number, seconds / 2 if self._plan.lasting is None else self._plan.lasting
                )
                report(f"{self._cluster.nodes[number].name}: over\n")

    def _chosen(self) -> int:
        """Returns the node to disturb next: mostly one with a primary."""
        self._count += 1
        left = list(range(self._plan.spared, len(self._cluster.nodes)))
        routings = self._cluster.manager.state.routings.values()
        primaries = [number for number in left if any(it.primary == number for it in routings)]
        return self._draw.choice(primaries if primaries and self._count % ELSEWHERE else left)

    async def kill(self, number: int, seconds: float) -> None:
        """Kills a node, and restarts it."""
        self._servers[number].stop()
        self._cluster.kill(number)
        await asyncio.sleep(seconds)
        await self._cluster.restart(number)
        await self._servers[number].listen()

    async def pause(self, number: int, seconds: float) -> None:
        """Pauses a node, and resumes it."""
        self._cluster.pause(number)
        await asyncio.sleep(seconds)
        self._cluster.resume(number)

    async def cut(self, number: int, seconds: float) -> None:
        """Cuts a node off, and reconnects it."""
        self._cluster.cut(number)
        await asyncio.sleep(seconds)
        self._cluster.heal(number)
