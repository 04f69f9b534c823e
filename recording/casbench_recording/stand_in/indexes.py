"""An index: its shards and settings."""

from typing import Any, Dict, Mapping, NamedTuple

from casbench_recording.shard_routing import shard_of


class ShardId(NamedTuple):
    """A shard of an index. An index that is created again under the same name has other shards."""

    index_name: str
    generation: int
    number: int


class Index:
    """An index with its settings; for others the cluster has defaults."""

    def __init__(
        self, name: str, request: Mapping[str, Any], generation: int = 0, shards: int = 1, replicas: int = 0
    ) -> None:
        settings = request.get("settings", {})
        settings = {**settings, **settings.get("index", {})}
        count, replicas = int(settings.get("number_of_shards", shards)), int(
            settings.get("number_of_replicas", replicas)
        )
        self.name = name
        self.settings = {key: str(it) for key, it in settings.items() if not isinstance(it, dict)}
        self.settings.update({"number_of_shards": str(count), "number_of_replicas": str(replicas)})
        self.mappings, self.aliases = request.get("mappings", {}), request.get("aliases", {})
        self.replicas = replicas
        self.routing_shards = count << max(1, 10 - (count - 1).bit_length())
        self.shards = [ShardId(name, generation, number) for number in range(count)]

    def shard_number(self, routing: str) -> int:
        """Returns the number of the shard of a routing."""
        return shard_of(routing, len(self.shards), self.routing_shards)

    def shard(self, document: str, parameters: Mapping[str, Any]) -> ShardId:
        """Returns the shard of a document, or of the routing in the parameters."""
        return self.shards[self.shard_number(str(parameters.get("routing", document)))]

    def described(self) -> Dict[str, Any]:
        """Returns the answer to a request for the index."""
        return {"aliases": self.aliases, "mappings": self.mappings, "settings": {"index": self.settings}}
