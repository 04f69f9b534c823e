"""Requests on several documents: bulk requests, multi-gets, and changes of all documents of an index."""

import asyncio
import json
from typing import Any, Dict, List, NamedTuple

from .answers import Answer, RequestParameters, no_index
from .coordinator import Coordinator, new_id
from .indexes import ShardId
from .primary import Write

KINDS = ("index", "create", "update", "delete")
"""The actions of a bulk request's item."""


class BulkWrite(NamedTuple):
    """An item of a bulk request: its index and its write."""

    index_name: str
    write: Write


def items_of(name: str, text: str) -> List[BulkWrite]:
    """Returns the items of a bulk request; `name` is the index in the path, if any. Raises ValueError if it
    is invalid."""
    lines = iter([json.loads(it) for it in text.split("\n") if it.strip()])
    items = []
    for action in lines:
        ((kind, parameters),) = action.items()
        if kind not in KINDS:
            raise ValueError(f"unknown action [{kind}]")
        source = next(lines, None) if kind != "delete" else None
        if not isinstance(parameters, dict) or kind != "delete" and not isinstance(source, dict):
            raise ValueError("a bulk request that can't be read")
        items.append(
            BulkWrite(
                parameters.get("_index", name),
                Write(kind, parameters.get("_id") or new_id(), source, parameters),
            )
        )
    return items


async def bulk(coordinator: Coordinator, name: str, text: str, parameters: RequestParameters) -> Answer:
    """Answers a bulk request: the items of each shard are sent to its primary together."""
    items = items_of(name, text)
    refused = coordinator.node.cluster.overload.of_coordinating()
    if refused is not None:
        return refused
    answers: Dict[int, Answer] = {}
    groups: Dict[ShardId, List[int]] = {}
    for at, item in enumerate(items):
        makes = item.write.kind in ("index", "create")
        index = (
            await coordinator.index_to_write(item.index_name) if makes else coordinator.index(item.index_name)
        )
        if index is None:
            answers[at] = no_index(item.index_name)
        else:
            groups.setdefault(index.shard(item.write.document, item.write.parameters), []).append(at)
    work = [
        coordinator.write(shard, [items[at].write for at in places], parameters)
        for shard, places in groups.items()
    ]
    for places, given in zip(groups.values(), await together(work)):
        answers.update(zip(places, given))
    rows = [item_answer(item, *answers[at]) for at, item in enumerate(items)]
    return 200, {
        "took": 1,
        "errors": any("error" in it for row in rows for it in row.values()),
        "items": rows,
    }


async def together(work: List[Any]) -> List[Any]:
    """Returns the results of tasks that run concurrently."""
    return [await work[0]] if len(work) == 1 else [*await asyncio.gather(*work)]


def item_answer(item: BulkWrite, status: int, body: Dict[str, Any]) -> Dict[str, Any]:
    """Returns an item of the answer to a bulk request."""
    if "error" in body:
        cause = {key: it for key, it in body["error"].items() if key != "root_cause"}
        body = {"_index": item.index_name, "error": cause}
    return {item.write.kind: {**body, "_id": item.write.document, "status": status}}


async def multiple_get(
    coordinator: Coordinator, name: str, request: Dict[str, Any], parameters: RequestParameters
) -> Answer:
    """Answers a multi-get, one index after the other."""
    places = request.get("docs") or [{"_id": it} for it in request["ids"]]
    names = [it.get("_index", name) for it in places]
    found: Dict[int, Any] = {}
    for index in dict.fromkeys(names):
        ats = [at for at, it in enumerate(names) if it == index]
        answers = await coordinator.get_all(
            index, [places[at]["_id"] for at in ats], [{**parameters, **places[at]} for at in ats]
        )
        found.update(
            (at, place_answer(index, places[at]["_id"], body)) for at, (_, body) in zip(ats, answers)
        )
    return 200, {"docs": [found[at] for at, _ in enumerate(places)]}


def place_answer(index: str, document: str, body: Dict[str, Any]) -> Dict[str, Any]:
    """Returns a document of the answer to a multi-get."""
    return {"_index": index, "_id": document, "error": body["error"]} if "error" in body else body


async def change_all(coordinator: Coordinator, name: str, kind: str) -> Answer:
    """Answers a change of all documents of an index: each is deleted, or written again."""
    index = coordinator.index(name)
    node = coordinator.node
    for shard in index.shards if index else ():
        routing = node.state.routings[shard]
        if routing.primary is not None:
            copy = node.cluster.nodes[routing.primary].copies[shard]
            for last in [
                it for it in map(copy.last, list(copy.versions)) if it is not None and it.source is not None
            ]:
                await coordinator.write(shard, [Write(kind, str(last.document), last.source, {})], {})
    return 200, {"took": 1, "failures": []}
