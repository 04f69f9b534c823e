"""What a recorder asks a cluster about an index before it records it: its names and shards, and whether it
can be judged."""

import urllib.parse
from enum import Enum
from typing import Any, Dict, NamedTuple, Optional

from .cluster import ClusterAnswer, ClusterError, Connection, NoAnswer
from .index_names import Names
from .shard_routing import shard_of

PROBES = 16
"""For how many routings the computed shard is compared with the cluster's, if there are several shards."""

SECONDS = 10.0
"""How many seconds the inspection of an index may take."""

WHO_ASKS = "OPENSEARCH_USER, OPENSEARCH_PASSWORD, OPENSEARCH_HEADER, --client-cert"
"""Where the credentials come from."""


class Right(Enum):
    """The rights that the requests need, as OpenSearch's security plugin names them."""

    SHAPE = "indices:admin/get"
    CHANGES = "indices:monitor/stats"
    STATE = "cluster:monitor/state"
    SHARDS = "indices:admin/shards/search_shards"
    DOCUMENT = "indices:data/read/get"
    NODES = "cluster:monitor/health"


class RightMissing(ClusterError):
    """The user lacks the right for a request."""


class IndexShape(NamedTuple):
    """An index: its own name and all names by which it is reached; its shards; whether nothing was ever
    written to it, and how many changes its documents had; its replicas, whether their number follows that of
    the nodes, and the replication type; and the number of nodes of the cluster, as far as the user may
    know."""

    name: str
    names: Names
    shards: int
    routing_shards: int
    is_empty: bool
    changes: int = 0
    replicas: int = 0
    is_expanding: bool = False
    replication: str = "DOCUMENT"
    nodes: int = 1

    @property
    def has_replicas(self) -> bool:
        """Whether a document may have more copies than the primary's."""
        return self.replicas > 0 or self.is_expanding

    def shard_of(self, id: str) -> int:
        """Returns the shard of a document."""
        return shard_of(id, self.shards, self.routing_shards) if self.shards > 1 else 0


class Inspector:
    """Inspects an index, on its own connection to the cluster."""

    def __init__(self, connection: Connection) -> None:
        self.connection = connection

    def inspect(self, name: str) -> Optional[IndexShape]:
        """Returns the description of an index, or None if there is none. Raises ClusterError if it can't be
        judged, or if the cluster doesn't answer in time."""
        with self.connection.within(SECONDS):
            return self.look(name)

    def look(self, name: str) -> Optional[IndexShape]:
        """The same without a limit of time."""
        answer = self.ask(f"/{quoted(name)}", Right.SHAPE)
        if answer is None:
            return None
        if len(answer) != 1:
            raise ClusterError(f"{name} names {len(answer)} indexes: name one of them")
        ((index, described),) = answer.items()
        try:
            return self.shape(name, index, described)
        except (KeyError, TypeError, ValueError, AttributeError) as fault:
            raise ClusterError(
                f"the cluster's description of {name} isn't that of OpenSearch: {fault!r}"
            ) from fault

    def shape(self, name: str, index: str, described: Dict[str, Any]) -> IndexShape:
        """Returns the description of an index, by its name in the request, its own name, and the cluster's
        answer."""
        settings = flattened(described["settings"]["index"])
        refuse_changed_sources(index, settings, described.get("mappings", {}))
        shards = int(settings["number_of_shards"])
        routing_shards = self.routing_shards(index) if shards > 1 else 1
        names = names_of(name, index, described.get("aliases", {}))
        changes = self.changes(index)
        replicas, is_expanding = (
            int(settings.get("number_of_replicas", 0)),
            settings.get("auto_expand_replicas", "false") != "false",
        )
        copies = (replicas, is_expanding, settings.get("replication.type", "DOCUMENT"))
        # (a real cluster always has this setting; with replicas the number of nodes doesn't matter)
        nodes = self.nodes() if settings.get("number_of_replicas") == "0" and not is_expanding else 1
        shape = IndexShape(index, names, shards, routing_shards, changes == 0, changes, *copies, nodes)
        self.compare_shards(shape)
        return shape

    def check_rights(self, name: str) -> None:
        """Sends the requests that are needed for an index with several shards, so that a missing right is
        reported now."""
        with self.connection.within(SECONDS):
            for path, right in (
                (stats_of(name), Right.CHANGES),
                (state_of(name), Right.STATE),
                (shards_of(name, 0), Right.SHARDS),
            ):
                self.answer(path, right)

    def answer(self, path: str, right: Right) -> ClusterAnswer:
        """Returns the cluster's answer to a request that needs this right. Raises ClusterError if there is no
        answer, or the user lacks the right."""
        try:
            self.connection.open(0)
            answer = self.connection.ask("GET", path)
        except NoAnswer as fault:
            raise ClusterError(f"the cluster didn't answer GET {path}: {fault}") from fault
        if answer.status == 401:
            raise ClusterError(f"the cluster refuses the credentials (HTTP 401): see {WHO_ASKS}")
        if answer.status == 403:
            raise RightMissing(
                f"the user lacks the right {right.value}, which GET {path} needs (HTTP 403): see {WHO_ASKS}"
            )
        return answer

    def ask(self, path: str, right: Right) -> Optional[Dict[str, Any]]:
        """Returns the members of the cluster's answer, or None if it is a 404."""
        answer = self.answer(path, right)
        if answer.status == 404:
            return None
        if answer.status != 200 or not answer.members:
            raise ClusterError(f"the cluster answered GET {path} with HTTP {answer.status}")
        return answer.members

    def has(self, shape: IndexShape, id: str) -> bool:
        """Returns whether a document exists."""
        return self.ask(f"/{quoted(shape.name)}/_doc/{quoted(id)}", Right.DOCUMENT) is not None

    def changes(self, index: str) -> int:
        """Returns how many sequence numbers the shards of the index have assigned, in total."""
        answer = self.ask(stats_of(index), Right.CHANGES) or {}
        shards = answer["indices"][index]["shards"]
        return sum(
            max(int(copy["seq_no"]["max_seq_no"]) for copy in copies) + 1 for copies in shards.values()
        )

    def nodes(self) -> int:
        """Returns the number of nodes; 1 if the user may not ask for it, or the cluster doesn't know the
        request."""
        try:
            answered = self.ask("/_cluster/health", Right.NODES)
        except RightMissing:
            return 1
        return int(answered["number_of_nodes"]) if answered is not None else 1

    def routing_shards(self, index: str) -> int:
        """Returns the number of routing shards, from which the cluster computes the shard of a document."""
        answer = self.ask(state_of(index), Right.STATE) or {}
        return int(answer["metadata"]["indices"][index]["routing_num_shards"])

    def compare_shards(self, shape: IndexShape) -> None:
        """Checks that shards are computed here as the cluster computes them."""
        for number in range(PROBES if shape.shards > 1 else 0):
            answer = self.ask(shards_of(shape.name, number), Right.SHARDS) or {}
            if {copy["shard"] for copies in answer["shards"] for copy in copies} != {
                shape.shard_of(f"casbench-{number}")
            }:
                raise ClusterError(f"the shards of {shape.name} aren't computed as OpenSearch does")


def names_of(name: str, index: str, aliases: Dict[str, Any]) -> Names:
    """Returns the names of an index: its own, the requested one, and its aliases, including those of several
    indexes: an answer names its index."""
    for alias, answer in aliases.items():
        if answer.get("filter"):
            raise ClusterError(f"the alias {alias} has a filter: reads through it can't be judged")
    routed = [it for it in aliases if {"routing", "index_routing", "search_routing"} & set(aliases[it])]
    return Names([index, name, *aliases], routed)


def flattened(settings: Dict[str, Any], prefix: str = "") -> Dict[str, str]:
    """Returns the settings by their full names."""
    flat: Dict[str, str] = {}
    for key, it in settings.items():
        flat.update(flattened(it, f"{prefix}{key}.") if isinstance(it, dict) else {prefix + key: str(it)})
    return flat


def refuse_changed_sources(name: str, settings: Dict[str, str], mappings: Dict[str, Any]) -> None:
    """Refuses an index that stores other sources than it is given."""
    for key in ("default_pipeline", "final_pipeline"):
        if settings.get(key, "_none") != "_none":
            raise ClusterError(f"the index {name} has a {key}: it doesn't store what clients write")
    is_derived = settings.get("derived_source.enabled", "false") == "true"
    has_vectors = (
        settings.get("knn", "false") == "true"
        and settings.get("knn.derived_source.enabled", "true") == "true"
    )
    if is_derived or has_vectors or "_source" in mappings:
        why = "what clients write can't be compared with what they read"
        raise ClusterError(f"the index {name} doesn't store complete sources: {why}")


def stats_of(index: str) -> str:
    """Returns the path for the sequence numbers of an index."""
    return f"/{quoted(index)}/_stats?level=shards"


def state_of(index: str) -> str:
    """Returns the path for the routing shards of an index."""
    return f"/_cluster/state/metadata/{quoted(index)}"


def shards_of(index: str, number: int) -> str:
    """Returns the path for the shard of a routing."""
    return f"/{quoted(index)}/_search_shards?routing=casbench-{number}"


def quoted(name: str) -> str:
    """Returns a name as it is spelled in a path."""
    return urllib.parse.quote(name, safe="")
