"""The answers of the document API, each a status and a body."""

from typing import Any, Dict, Mapping, Optional, Tuple

from .indexes import ShardId
from .shard_copy import Entry

Answer = Tuple[int, Any]
"""A status and a body."""

RequestParameters = Mapping[str, Any]
"""The parameters of a request, or those of one document in a multi-get or a bulk request."""


def error(status: int, kind: str, reason: str, **more: Any) -> Answer:
    """Returns the answer with an error."""
    cause = {"type": kind, "reason": reason, **more}
    return status, {"error": {"root_cause": [cause], **cause}, "status": status}


def no_index(name: str) -> Answer:
    """Returns the answer if an index doesn't exist."""
    return error(404, "index_not_found_exception", f"no such index [{name}]", index=name)


def no_document(document: str) -> Answer:
    """Returns the answer to an update of a document that doesn't exist."""
    return error(404, "document_missing_exception", f"[{document}]: document missing")


def rejected(what: str) -> Answer:
    """Returns the answer of an overloaded node. The attempt that it answers performed nothing."""
    return error(429, "opensearch_rejected_execution_exception", f"rejected execution of {what}")


def pair_of(parameters: RequestParameters) -> Optional[Tuple[int, int]]:
    """Returns the condition in the parameters, if any: a term and a number."""
    number, term = parameters.get("if_seq_no"), parameters.get("if_primary_term")
    return None if number is None or term is None else (int(term), int(number))


def shown(index: str, document: str, entry: Optional[Entry], parameters: RequestParameters) -> Answer:
    """Returns the answer to a get that shows this change of the document, or that the document doesn't
    exist."""
    if entry is None or entry.source is None:
        return 404, {"_index": index, "_id": document, "found": False}
    body = {"_index": index, "_id": document, "_version": entry.changes, "_seq_no": entry.number}
    return 200, {**body, "_primary_term": entry.term, "found": True, **shown_source(entry.source, parameters)}


def shown_source(source: Dict[str, Any], parameters: RequestParameters) -> Dict[str, Any]:
    """Returns the member with the source, as far as the parameters select it."""
    wanted = parameters.get("_source", "true")
    if wanted in ("false", False) or "stored_fields" in parameters:
        return {}
    fields = parameters.get("_source_includes", "" if wanted in ("true", True) else wanted)
    fields = fields if isinstance(fields, list) else fields.split(",") if fields else list(source)
    left_out = parameters.get("_source_excludes", "").split(",")
    return {"_source": {key: it for key, it in source.items() if key in fields and key not in left_out}}


def performed(shard: ShardId, entry: Entry, was_there: bool, shards: Dict[str, int]) -> Answer:
    """Returns the answer to a performed write."""
    if entry.source is None:
        status, result = (200, "deleted") if was_there else (404, "not_found")
    else:
        status, result = (200, "updated") if was_there else (201, "created")
    body = {
        "_index": shard.index_name,
        "_id": entry.document,
        "_version": entry.changes,
        "result": result,
        "_shards": shards,
    }
    return status, {**body, "_seq_no": entry.number, "_primary_term": entry.term}


def unchanged(shard: ShardId, entry: Entry) -> Answer:
    """Returns the answer to an update that would change nothing."""
    body = {"_index": shard.index_name, "_id": entry.document, "_version": entry.changes, "result": "noop"}
    shards = {"total": 0, "successful": 0, "failed": 0}
    return 200, {**body, "_shards": shards, "_seq_no": entry.number, "_primary_term": entry.term}


def conflict(shard: ShardId, document: str, last: Optional[Entry], parameters: RequestParameters) -> Answer:
    """Returns the answer to a write with a conflict; its reason has the pair of the primary."""
    condition = pair_of(parameters)
    if condition is not None:
        why = f"required seqNo [{condition[1]}], primary term [{condition[0]}]. "
        is_there = last is not None and last.source is not None
        found = f"current document has seqNo [{last.number}] and primary term [{last.term}]" if last else ""
        why += found if is_there else "but no document was found"
    elif "version" in parameters:
        current, provided = last.changes if last else -1, parameters["version"]
        why = f"current version [{current}] is higher or equal to the one provided [{provided}]"
    else:
        why = f"document already exists (current version [{last.changes if last else 1}])"
    reason = f"[{document}]: version conflict, {why}"
    return error(
        409, "version_conflict_engine_exception", reason, index=shard.index_name, shard=str(shard.number)
    )
