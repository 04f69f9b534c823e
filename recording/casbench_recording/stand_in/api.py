"""The requests that the stand-in supports, and the handler of each."""

from typing import Any, Awaitable, Callable, Dict, List, Optional, Set, Tuple

from .answers import Answer, error, no_index
from .coordinator import Coordinator, new_id
from .indexes import ShardId
from .parsed_request import ParsedRequest
from .several import bulk, change_all, multiple_get

Action = Callable[[Coordinator, ParsedRequest], Awaitable[Answer]]
"""The handler of a request."""

VERSION = {
    "distribution": "opensearch",
    "number": "2.19.1",
    "build_type": "tar",
    "build_snapshot": False,
    "lucene_version": "9.12.1",
    "minimum_wire_compatibility_version": "7.10.0",
    "minimum_index_compatibility_version": "7.0.0",
}
"""The version that OpenSearch 2.x reports."""

OF_ELASTICSEARCH = {"number": "7.17.0", "build_flavor": "default", "lucene_version": "8.11.1"}
"""The version that Elasticsearch reports, which its clients check."""


async def answer_to(coordinator: Coordinator, request: ParsedRequest) -> Answer:
    """Performs a request, and returns the answer."""
    try:
        action = action_for(request)
        if action is not None:
            return await action(coordinator, request)
    except (KeyError, TypeError, ValueError, AttributeError) as fault:
        return error(400, "parse_exception", str(fault))
    return error(
        400, "illegal_argument_exception", f"the stand-in has no {request.method} /{'/'.join(request.path)}"
    )


def action_for(request: ParsedRequest) -> Optional[Action]:
    """The handler of this request, or None if there is none."""
    for methods, path, action in ROUTES:
        if request.method in methods and len(path) == len(request.path):
            if all(it in ("*", word) for it, word in zip(path, request.path)):
                return action
    return None


def write_by(kind: str) -> Action:
    """The handler of a write of this kind to one document."""

    async def write(coordinator: Coordinator, request: ParsedRequest) -> Answer:
        name, document = request.path[0], request.path[2] if len(request.path) > 2 else new_id()
        source = None if kind == "delete" else request.value
        is_create = kind == "create" or request.parameters.get("op_type") == "create"
        return await coordinator.act(
            name, "create" if is_create else kind, document, source, request.parameters
        )

    return write


async def get(coordinator: Coordinator, request: ParsedRequest) -> Answer:
    """Answers a get of one document."""
    return await coordinator.get(request.path[0], request.path[2], request.parameters)


async def write_several(coordinator: Coordinator, request: ParsedRequest) -> Answer:
    """Answers a bulk request."""
    return await bulk(
        coordinator, request.path[0] if len(request.path) > 1 else "", request.body, request.parameters
    )


async def get_several(coordinator: Coordinator, request: ParsedRequest) -> Answer:
    """Answers a get of several documents."""
    return await multiple_get(
        coordinator, request.path[0] if len(request.path) > 1 else "", request.value, request.parameters
    )


async def change_by_query(coordinator: Coordinator, request: ParsedRequest) -> Answer:
    """Answers a change of all documents."""
    return await change_all(
        coordinator, request.path[0], "delete" if request.path[1] == "_delete_by_query" else "index"
    )


async def refresh(coordinator: Coordinator, request: ParsedRequest) -> Answer:
    """Answers a refresh: there is nothing to do."""
    return 200, {"_shards": {"failed": 0}}


async def make(coordinator: Coordinator, request: ParsedRequest) -> Answer:
    """Answers a request to make an index."""
    name, node = request.path[0], coordinator.node
    if not await node.ask_manager(node.cluster.manager.create, name, request.value):
        return error(400, "resource_already_exists_exception", f"index [{name}] already exists", index=name)
    return 200, {"acknowledged": True, "shards_acknowledged": True, "index": name}


async def remove(coordinator: Coordinator, request: ParsedRequest) -> Answer:
    """Answers a request to delete an index."""
    node = coordinator.node
    if not await node.ask_manager(node.cluster.manager.remove, request.path[0]):
        return no_index(request.path[0])
    return 200, {"acknowledged": True}


async def describe(coordinator: Coordinator, request: ParsedRequest) -> Answer:
    """Answers with the description of an index."""
    index = coordinator.index(request.path[0])
    return no_index(request.path[0]) if index is None else (200, {index.name: index.described()})


async def describe_settings(coordinator: Coordinator, request: ParsedRequest) -> Answer:
    """Answers with the settings of an index."""
    index = coordinator.index(request.path[0])
    return (
        no_index(request.path[0])
        if index is None
        else (200, {index.name: {"settings": {"index": index.settings}}})
    )


async def report_stats(coordinator: Coordinator, request: ParsedRequest) -> Answer:
    """Answers with the sequence numbers of the copies of each shard."""
    index = coordinator.index(request.path[0])
    if index is None:
        return no_index(request.path[0])
    return 200, {
        "indices": {
            index.name: {"shards": {str(it.number): copies_of(coordinator, it) for it in index.shards}}
        }
    }


def copies_of(coordinator: Coordinator, shard: ShardId) -> List[Dict[str, Any]]:
    """What is reported of each active copy of a shard: its node, and its greatest sequence number, -1 if it
    has none."""
    cluster, routing = coordinator.node.cluster, coordinator.node.state.routings[shard]
    rows = []
    for number in sorted(routing.active):
        copy = cluster.nodes[number].copies.get(shard)
        if copy is not None and cluster.nodes[number].is_reachable:
            numbers = {
                "max_seq_no": copy.top,
                "local_checkpoint": copy.checkpoint,
                "global_checkpoint": copy.known,
            }
            place = {
                "state": "STARTED",
                "primary": number == routing.primary,
                "node": cluster.nodes[number].name,
            }
            rows.append({"seq_no": numbers, "routing": place})
    return rows


async def report_state(coordinator: Coordinator, request: ParsedRequest) -> Answer:
    """Answers with the metadata of an index."""
    state = coordinator.node.state
    index = state.indexes[request.path[3]]
    terms = {str(it.number): state.routings[it].term for it in index.shards}
    return 200, {
        "metadata": {
            "indices": {index.name: {"routing_num_shards": index.routing_shards, "primary_terms": terms}}
        }
    }


async def report_shard(coordinator: Coordinator, request: ParsedRequest) -> Answer:
    """Answers with the shard of a routing, and with the nodes of its active copies."""
    state, nodes = coordinator.node.state, coordinator.node.cluster.nodes
    index = state.indexes[request.path[0]]
    shard = index.shards[index.shard_number(request.parameters["routing"])]
    routing = state.routings[shard]
    numbers = sorted(routing.active, key=lambda it: it != routing.primary)
    place = {"index": index.name, "shard": shard.number}
    return 200, {
        "shards": [[{**place, "primary": it == routing.primary, "node": nodes[it].name} for it in numbers]]
    }


async def list_shards(coordinator: Coordinator, request: ParsedRequest) -> Answer:
    """Answers with the nodes of the active copies of an index, in the format of `_cat/shards?format=json`."""
    state, nodes = coordinator.node.state, coordinator.node.cluster.nodes
    rows = []
    for shard in state.indexes[request.path[2]].shards:
        routing = state.routings[shard]
        for it in sorted(routing.active):
            kind = "p" if it == routing.primary else "r"
            rows.append(
                {"shard": str(shard.number), "prirep": kind, "state": "STARTED", "node": nodes[it].name}
            )
    return 200, rows


async def reroute(coordinator: Coordinator, request: ParsedRequest) -> Answer:
    """Has nodes give up primaries, by the command `cancel`; no other command is supported."""
    node = coordinator.node
    names = [it.name for it in node.cluster.nodes]
    for command in request.value["commands"]:
        cancel = command["cancel"]
        shard, number = node.state.indexes[cancel["index"]].shards[cancel["shard"]], names.index(
            cancel["node"]
        )
        if not cancel["allow_primary"] or not await node.ask_manager(
            node.cluster.manager.give_up_primary, shard, number
        ):
            return error(
                400,
                "illegal_argument_exception",
                f"[cancel] {cancel['node']} has no primary that it can give up",
            )
    return 200, {"acknowledged": True}


async def report_health(coordinator: Coordinator, request: ParsedRequest) -> Answer:
    """Answers with the number of active copies."""
    state, manager = coordinator.node.state, coordinator.node.cluster.manager
    wanted = sum(len(it.shards) * (it.replicas + 1) for it in state.indexes.values())
    active = sum(len(it.active) for it in state.routings.values())
    has_primaries = all(it.primary is not None for it in state.routings.values())
    status = "red" if not has_primaries else "green" if active == wanted else "yellow"
    counts = {
        "number_of_nodes": len(manager.members),
        "active_shards": active,
        "unassigned_shards": wanted - active,
    }
    return 200, {"cluster_name": "stand-in", "status": status, "timed_out": False, **counts}


async def greet(coordinator: Coordinator, request: ParsedRequest) -> Answer:
    """Answers with name and version, as OpenSearch does."""
    names = {
        "name": coordinator.node.name,
        "cluster_name": "stand-in",
        "cluster_uuid": "c3RhbmQtaW4tb2YtYS1jbA",
    }
    return 200, {**names, "version": VERSION, "tagline": "The OpenSearch Project: https://opensearch.org/"}


async def greet_as_elasticsearch(coordinator: Coordinator, request: ParsedRequest) -> Answer:
    """Answers with name and version, as Elasticsearch does."""
    return 200, {"name": "stand-in", "version": OF_ELASTICSEARCH, "tagline": "You Know, for Search"}


ROUTES: List[Tuple[Set[str], Tuple[str, ...], Action]] = [
    ({"GET", "HEAD"}, ("*", "_doc", "*"), get),
    ({"PUT", "POST"}, ("*", "_doc", "*"), write_by("index")),
    ({"PUT", "POST"}, ("*", "_create", "*"), write_by("create")),
    ({"DELETE"}, ("*", "_doc", "*"), write_by("delete")),
    ({"POST"}, ("*", "_doc"), write_by("index")),
    ({"POST"}, ("*", "_update", "*"), write_by("update")),
    ({"POST", "PUT"}, ("_bulk",), write_several),
    ({"POST", "PUT"}, ("*", "_bulk"), write_several),
    ({"GET", "POST"}, ("_mget",), get_several),
    ({"GET", "POST"}, ("*", "_mget"), get_several),
    ({"POST"}, ("*", "_update_by_query"), change_by_query),
    ({"POST"}, ("*", "_delete_by_query"), change_by_query),
    ({"GET", "POST"}, ("*", "_refresh"), refresh),
    ({"GET", "HEAD"}, ("",), greet),
    ({"GET", "HEAD"}, ("*",), describe),
    ({"PUT"}, ("*",), make),
    ({"DELETE"}, ("*",), remove),
    ({"GET"}, ("*", "_settings"), describe_settings),
    ({"GET"}, ("*", "_stats"), report_stats),
    ({"GET"}, ("_cluster", "health"), report_health),
    ({"GET"}, ("_cluster", "state", "metadata", "*"), report_state),
    ({"GET"}, ("*", "_search_shards"), report_shard),
    ({"GET"}, ("_cat", "shards", "*"), list_shards),
    ({"POST"}, ("_cluster", "reroute"), reroute),
]
