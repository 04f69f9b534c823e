"""Replies that prove that OpenSearch didn't perform a write, at any attempt.

The node that coordinates a request may send it again after a connection failed, so the result of the last
attempt may differ from an earlier one. The replies here come before any attempt, or would come at each: the
coordinating node refuses the request, or its content is invalid. Other servers on the way prove nothing. So
the body has to be what OpenSearch writes: an object with `error` and with a `status` equal to the reply's,
and in an item of a bulk request with the names of the document.
"""

from typing import Optional

from .format import JsonObject

CONTENT_REFUSED = {
    *(
        "mapper_parsing_exception",
        "strict_dynamic_mapping_exception",
        "document_parsing_exception",
        "illegal_argument_exception",
    ),
    *(
        "parse_exception",
        "parsing_exception",
        "x_content_parse_exception",
        "not_x_content_exception",
        "json_parse_exception",
    ),
    *(
        "json_e_o_f_exception",
        "action_request_validation_exception",
        "routing_missing_exception",
        "invalid_index_name_exception",
    ),
}
"""The types of errors with status 400 that concern the content of a request: its mapping, parsing or
validation."""

ACCESS_REFUSED = "security_exception"
"""The type of errors with status 401 and 403 that concern the user. A block of the index has 403 too, and may
be set between attempts."""

REJECTED, BY_COORDINATOR = "rejected_execution_exception", "rejected execution of coordinating operation"
"""The type of errors with status 429, and the start of the reason if the coordinating node rejects, rather
than the primary."""

ALWAYS_REFUSED = (405, 406, 413, 415)
"""The statuses for a method, a content type or a length that no node accepts. Their `error` may be a
string."""

MAY_BE_UNPERFORMED = {400, 401, 403, 429, *ALWAYS_REFUSED}
"""The statuses of replies that may prove that a write was not performed."""

NAMES_OF_AN_ITEM = {"_index", "_type", "_id"}
"""The members of an item in the answer to a bulk request, besides its status and its error."""

MISSING = "document_missing_exception"
"""The type of the error of an update if its document doesn't exist."""


def is_unperformed(status: int, body: Optional[JsonObject], is_handed_on: bool = False) -> bool:
    """Returns whether a reply proves that the write was not performed.

    A request with a single update is forwarded to the primary's node, which coordinates the write and may
    reject it after an earlier attempt. A bulk request with several documents is forwarded shard by shard, and
    may be rejected as a whole after a part of it was performed (shard indexing pressure). For these, a
    rejection by the coordinating node proves nothing.
    """
    if status not in MAY_BE_UNPERFORMED or not isinstance(body, dict) or body.get("status") != status:
        return False
    if body.keys() - NAMES_OF_AN_ITEM != {"error", "status"}:
        return False
    error = body["error"]
    if status in ALWAYS_REFUSED:
        return isinstance(error, str) or type_of(error) is not None
    if status == 400:
        return type_of(error) in CONTENT_REFUSED
    if status in (401, 403):
        return type_of(error) == ACCESS_REFUSED
    is_rejected = status == 429 and type_of(error) == REJECTED
    return is_rejected and not is_handed_on and str(error.get("reason")).startswith(BY_COORDINATOR)


def changed_nothing(status: int, body: JsonObject) -> bool:
    """Returns whether a reply says that the last attempt of an update changed nothing: the document was as
    requested, or didn't exist."""
    return (
        (status, body.get("result")) == (200, "noop")
        or status == 404
        and type_of(body.get("error")) == MISSING
    )


def type_of(error: object) -> Optional[str]:
    """Returns the type of an error."""
    kind = error.get("type") if isinstance(error, dict) else None
    return kind if isinstance(kind, str) else None
