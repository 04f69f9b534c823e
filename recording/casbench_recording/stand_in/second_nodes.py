"""Second nodes beside a cluster of one node, whose gets return old versions. Writes go to the first node."""

from typing import List, Optional, Sequence

from .answers import Answer, RequestParameters, error
from .coordinator import Coordinator
from .indexes import ShardId
from .primary import Write
from .shard_copy import Entry


class LaggingCoordinator(Coordinator):
    """A lagging node: its gets return the version before the last."""

    async def _entries(
        self, shard: ShardId, documents: Sequence[str], preference: Optional[str]
    ) -> List[Optional[Entry]]:
        return list(map(self.node.copies[shard].before, documents))


class CutOffCoordinator(Coordinator):
    """A node that is cut off after the first changes of a shard: its gets return the versions of that time,
    and it accepts no more writes."""

    async def _entries(
        self, shard: ShardId, documents: Sequence[str], preference: Optional[str]
    ) -> List[Optional[Entry]]:
        beginning = self.node.copies[shard].beginning
        return (
            await super()._entries(shard, documents, preference)
            if beginning is None
            else list(map(beginning.get, documents))
        )

    async def write(
        self, shard: ShardId, writes: Sequence[Write], parameters: RequestParameters
    ) -> List[Answer]:
        if self.node.copies[shard].beginning is None:
            return await super().write(shard, writes, parameters)
        refused = error(
            503, "cluster_block_exception", "blocked by: [SERVICE_UNAVAILABLE/2/no cluster-manager];"
        )
        return [refused for _ in writes]

    async def update(self, shard: ShardId, write: Write) -> Answer:
        if self.node.copies[shard].beginning is None:
            return await super().update(shard, write)
        return (await self.write(shard, [write], {}))[0]
