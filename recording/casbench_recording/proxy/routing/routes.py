"""What a request does, by its method and target: to which document of which index, or what else it may
change.

Requests that write, and of which it isn't known what they write, are never regarded as harmless.
"""

import functools
import re
import urllib.parse
from enum import Enum
from typing import Dict, List, Mapping, NamedTuple

from casbench_recording.index_names import Names
from casbench_recording.shard_routing import PRIMARY

from .body_checks import BodyCheck
from .cluster_requests import body_check_of
from .paths import AS_SENT, MAY_CHANGE, Paths, has_dots, normalised_parts, parts_of, path_of


class RouteKind(Enum):
    """What the recorder does with a request before it is passed on."""

    PASS = "nothing"
    CALL = "records a call on one document"
    NEW = "records a write whose id comes with the answer"
    UPDATE = "records an update of one document"
    BULK = "records the items of a bulk request"
    MULTIPLE_GET = "records a multi-get"
    UNJUDGED = "stops judging the document"
    SWEEP = "stops judging all documents that are seen before the answer"
    CHECK_BODY = "ends the recording if the body says that it may change documents of the index"
    END = "ends the recording"
    MAKE = "nothing, but the request may create the index"
    NODES = "warns that the client may bypass the proxy"


CALL, BULK, SWEEP = RouteKind.CALL, RouteKind.BULK, RouteKind.SWEEP
"""These kinds have names of their own, since looking up a member of an Enum by its name is slow."""


class Route(NamedTuple):
    """What a request does. For a call the operation, the id and the parameters; for several calls the index
    in the path; how to check the body; and the reason if the recording ends."""

    kind: RouteKind
    op: str = ""
    id: str = ""
    parameters: Mapping[str, str] = {}
    index_name: str = ""
    why: str = ""
    check: BodyCheck = BodyCheck.NOTHING


PASS = Route(RouteKind.PASS)

NODES = Route(RouteKind.NODES)
"""Requests for the addresses of the nodes, after which a client may bypass the proxy."""

OF_STATISTICS = {"stats", "usage", "hot_threads"}
"""Requests about nodes that don't return addresses."""


MOST_REMEMBERED = 8192
"""How many routes are cached."""

LONGEST_REMEMBERED = 256
"""The maximum length in bytes of the target of a cached route."""

LONGEST_WHY = 200
"""The maximum length of a request in a reason."""

PLAIN_QUERY = re.compile(r"\w+=\w*(?:&\w+=\w*)*", re.ASCII)
"""Matches a query in which nothing is encoded."""


READS = ("GET", "HEAD", "OPTIONS")

HARMLESS_OF_AN_INDEX = {
    *(
        "_search",
        "_msearch",
        "_count",
        "_refresh",
        "_flush",
        "_forcemerge",
        "_cache",
        "_validate",
        "_explain",
        "_field_caps",
    ),
    *(
        "_termvectors",
        "_mtermvectors",
        "_analyze",
        "_search_shards",
        "_rank_eval",
        "_open",
        "_close",
        "_block",
        "_pit",
    ),
}
"""Requests on an index that change none of its documents, by the part after the index."""

OF_SETTINGS = ("_settings", "_mapping", "_mappings")
"""Requests on an index that change its settings or its mapping."""

RESIZES = ("_clone", "_split", "_shrink")
"""Requests that make another index from one, which stays as it is."""

MAKES_ANOTHER = (*RESIZES, "_rollover")
NAMES_AN_ALIAS = ("_alias", "_aliases")
"""Requests on another index that create one, or give it an alias."""

MEANS_NOTHING = {
    *(
        "pretty",
        "human",
        "error_trace",
        "filter_path",
        "format",
        "timeout",
        "refresh",
        "wait_for_active_shards",
    ),
    *("master_timeout", "cluster_manager_timeout", "require_alias", "include_type_name"),
}
"""Parameters that don't change what a call means."""

OF_A_KIND = ("_bulk", "_delete_by_query", "_update_by_query", "_mapping", "_mappings")
"""Last parts of a path after an index and a type, as older servers accept them; for others they are ids."""


OF_A_WRITE = MEANS_NOTHING | {
    "op_type",
    "if_seq_no",
    "if_primary_term",
    "version",
    "version_type",
    "routing",
    "parent",
    "pipeline",
}
OF_AN_UPDATE = (OF_A_WRITE - {"op_type"}) | {
    "retry_on_conflict",
    "_source",
    "_source_includes",
    "_source_excludes",
    "lang",
}
OF_AN_ITEM = {"_index", "_type", "_id", "op_type", "batch_size", *OF_AN_UPDATE}
"""The members of the action of a bulk request's item, and the parameters of the request."""

PARTS_OF_A_SOURCE = {
    "_source",
    "_source_includes",
    "_source_excludes",
    "_source_include",
    "_source_exclude",
    "stored_fields",
}
OF_A_GET = (
    MEANS_NOTHING
    | PARTS_OF_A_SOURCE
    | {"version", "version_type", "routing", "parent", "realtime", "preference"}
)


def route_of(method: str, target: bytes, names: Names, paths: Paths = AS_SENT) -> Route:
    """Returns the route of a request."""
    if len(target) <= LONGEST_REMEMBERED:
        return remembered_route(method, target, names, paths)
    return read_route(method, target, names, paths)


def read_route(method: str, target: bytes, names: Names, paths: Paths) -> Route:
    """Returns the route of a request. A write whose target servers may read differently ends the
    recording."""
    try:
        return route_of_text(method, target.decode("ascii"), names, paths, "strict")
    except UnicodeDecodeError:
        if method in READS:
            return PASS
    readings = [
        route_of_text(method, target.decode(it, "replace"), names, paths, "replace")
        for it in ("latin-1", "utf-8")
    ]
    if readings == [PASS, PASS]:
        return PASS
    path, _, _ = target.partition(b"?")
    return Route(RouteKind.END, why=f"{shown_request(method, repr(path))}, which can be read in several ways")


remembered_route = functools.lru_cache(maxsize=MOST_REMEMBERED)(read_route)
"""The same, cached."""


def route_of_text(method: str, target: str, names: Names, paths: Paths, faults: str) -> Route:
    """Returns the route for the text of a target."""
    path, parameters = path_of(target), parameters_of(target.partition("?")[2], faults)
    route = route_of_parts(method, paths.own(parts_of(path, faults)), parameters, names)
    if paths.are_unchanged or not MAY_CHANGE.search(path):
        return route
    if not has_dots(path, faults):
        normalised = normalised_parts(path, faults)
        if (
            method in READS
            or normalised is None
            or route_of_parts(method, paths.own(normalised), parameters, names) in (PASS, route)
        ):
            return route
    if method in READS:
        # (it may return another document than the one that it names)
        return PASS
    why = "a path that a server on the way may normalise (see --paths-unchanged)"
    return Route(RouteKind.END, why=f"{shown_request(method, path)}, {why}")


def route_of_parts(method: str, texts: List[str], parameters: Dict[str, str], names: Names) -> Route:
    """Returns the route for the parts of a path and the parameters."""
    first, rest = texts[0], texts[1:]
    if "_bulk" in texts[:-1] and method not in READS:
        return Route(
            RouteKind.END, why=f"{shown_request(method, '/'.join(['', *texts]))}, a bulk request in pieces"
        )
    if first in names.all:
        return route_on_index(method, first, rest, parameters, names)
    if rest[-1:] in (["_bulk"], ["_mget"]) or first in ("_bulk", "_mget"):
        return route_of_several(method, first, rest, parameters)
    if method in READS:
        return NODES if asks_for_nodes(first, rest) else PASS
    if first.startswith("_") and first != "_all" or not first:
        return route_of_cluster(method, first, rest, parameters, names)
    return (
        route_of_expression(method, first, rest, parameters)
        if names.may_be_among(first)
        else route_on_other(method, first, rest, parameters, names)
    )


def asks_for_nodes(first: str, rest: List[str]) -> bool:
    """Returns whether a request asks for the addresses of the nodes, as clients do that sniff."""
    if first == "_nodes":
        return not OF_STATISTICS & set(rest)
    return first == "_cat" and rest[:1] == ["nodes"] or first == "_cluster" and rest[:1] == ["state"]


def shown_request(method: str, path: str) -> str:
    """Returns a request as it is shown in a reason."""
    return f"{method[:20]} {path[:LONGEST_WHY]}{'...' if len(path) > LONGEST_WHY else ''}"


def parameters_of(query: str, faults: str) -> Dict[str, str]:
    """Returns the parameters of a query; of a duplicate one the last value."""
    if not query:
        return {}
    if PLAIN_QUERY.fullmatch(query):
        return dict([it.split("=") for it in query.split("&")])
    return dict(urllib.parse.parse_qsl(query.replace(";", "&"), keep_blank_values=True, errors=faults))


def route_on_index(
    method: str, name: str, rest: List[str], parameters: Dict[str, str], names: Names
) -> Route:
    """Returns the route of a request on the index."""
    if name in names.routed:
        parameters = {"routing": name, **parameters}
    first = rest[0] if rest else ""
    is_of_a_kind = len(rest) > 1 and rest[-1] in OF_A_KIND and method not in READS
    if len(rest) == 2 and first in ("_doc", "_create") and rest[1] and not is_of_a_kind:
        return route_on_document(method, first, rest[1], parameters)
    request = shown_request(method, "/".join(["", name, *rest]))
    if is_of_a_kind:
        return Route(RouteKind.END, why=f"{request}, which only some servers read as a document")
    if rest[-1:] in (["_bulk"], ["_mget"]):
        return route_of_several(method, name, rest, parameters)
    if method in READS:
        return PASS
    if first == "_doc" and len(rest) == 1 and method == "POST":
        route = route_of_write(RouteKind.NEW, "index", "", parameters)
        # (servers use the id in the query, or generate one)
        return (
            route._replace(op="new", id=parameters["id"])
            if route.kind is RouteKind.UNJUDGED and "id" in parameters
            else route
        )
    if first == "_update" and len(rest) == 2 and method == "POST":
        return checked(Route(RouteKind.UPDATE, "index", rest[1], parameters), OF_AN_UPDATE)
    if first in ("_update_by_query", "_delete_by_query"):
        is_answered_at_end = parameters.get("wait_for_completion", "true") == "true"
        return Route(
            RouteKind.SWEEP, parameters=parameters, why=request, op="" if is_answered_at_end else "goes on"
        )
    if first in OF_SETTINGS:
        return Route(RouteKind.CHECK_BODY, parameters=parameters, check=BodyCheck.SETTINGS, why=request)
    if first in RESIZES and len(rest) == 2 and not names.may_be_among(rest[1]):
        return Route(RouteKind.CHECK_BODY, parameters=parameters, check=BodyCheck.NAME, why=request)
    if not rest and method == "PUT":
        return Route(RouteKind.MAKE)
    if first in HARMLESS_OF_AN_INDEX:
        return PASS
    if first and not first.startswith("_") and len(rest) in (2, 3):
        return Route(RouteKind.UNJUDGED, id=rest[1], why=f"it was written by {request}")
    return Route(RouteKind.END, why=request)


def route_on_document(method: str, endpoint: str, id: str, parameters: Dict[str, str]) -> Route:
    """Returns the route of a request on one document of the index."""
    if method in ("GET", "HEAD") and endpoint == "_doc":
        return Route(RouteKind.CALL, "get", id, parameters) if asks_for_latest(parameters, OF_A_GET) else PASS
    if method in ("PUT", "POST"):
        return route_of_write(RouteKind.CALL, "create" if endpoint == "_create" else "index", id, parameters)
    if method == "DELETE" and endpoint == "_doc":
        return route_of_write(RouteKind.CALL, "delete", id, parameters)
    return (
        PASS
        if method in READS
        else Route(RouteKind.UNJUDGED, id=id, why=f"it was asked for by {method[:20]}")
    )


def asks_for_latest(parameters: Mapping[str, object], known: "set[str]") -> bool:
    """Returns whether a get has only known parameters, and asks any copy, or the primary, for the latest
    version. Other copies, and gets without `realtime`, may be stale."""
    is_latest = (
        parameters.get("realtime", "true") in (True, "true")
        and parameters.get("preference", PRIMARY) == PRIMARY
    )
    return is_latest and known.issuperset(parameters)


def route_of_write(kind: RouteKind, op: str, id: str, parameters: Mapping[str, str]) -> Route:
    """Returns the route of a write of one document."""
    op_type = parameters.get("op_type", op).lower()
    if op != "delete" and op_type in ("index", "create"):
        op = "create" if "create" in (op, op_type) else op
    elif op_type != op:
        return Route(RouteKind.UNJUDGED, id=id, why=f"it was written with op_type={op_type[:LONGEST_WHY]}")
    return checked(Route(kind, op, id, parameters), OF_A_WRITE)


def checked(route: Route, known: "set[str]") -> Route:
    """Returns the route of a write, if its parameters are known; otherwise its document isn't judged. A
    pipeline may write anything."""
    parameters = route.parameters
    if parameters.get("pipeline", "_none") != "_none":
        return Route(RouteKind.END, why=f"a write with pipeline={parameters['pipeline'][:LONGEST_WHY]}")
    if known.issuperset(parameters):
        return route
    strange = min(set(parameters) - known)
    return Route(
        RouteKind.UNJUDGED, id=route.id, why=f"it was written with the parameter {strange[:LONGEST_WHY]}"
    )


def route_of_several(method: str, first: str, rest: List[str], parameters: Dict[str, str]) -> Route:
    """Returns the route of a request on several documents, of any indexes."""
    last = rest[-1] if rest else first
    index = first if rest else ""
    if last == "_mget":
        is_plain = asks_for_latest(parameters, OF_A_GET) and method in ("GET", "POST")
        return (
            Route(RouteKind.MULTIPLE_GET, "get", parameters=parameters, index_name=index)
            if is_plain
            else PASS
        )
    if method not in ("POST", "PUT"):
        return PASS
    return Route(RouteKind.BULK, parameters=parameters, index_name=index)


def route_of_cluster(
    method: str, first: str, rest: List[str], parameters: Dict[str, str], names: Names
) -> Route:
    """Returns the route of a write without an index in its path."""
    check = body_check_of([first, *rest], names)
    request = shown_request(method, "/".join(["", first, *rest]))
    if check is None:
        return Route(RouteKind.END, why=request)
    return (
        PASS
        if check is BodyCheck.NOTHING
        else Route(RouteKind.CHECK_BODY, parameters=parameters, check=check, why=request)
    )


def route_on_other(
    method: str, index: str, rest: List[str], parameters: Dict[str, str], names: Names
) -> Route:
    """Returns the route of a write on another index, which may create an index with one of our names, or give
    it as an alias."""
    word = rest[0] if rest else ""
    if word not in MAKES_ANOTHER and (word not in NAMES_AN_ALIAS or method not in ("PUT", "POST")):
        return PASS
    request = shown_request(method, "/".join(["", index, *rest]))
    if any(names.may_be_among(it) for it in rest[1:]):
        return Route(RouteKind.END, why=request)
    return Route(RouteKind.CHECK_BODY, parameters=parameters, check=BodyCheck.NAME, why=request)


def route_of_expression(method: str, expression: str, rest: List[str], parameters: Dict[str, str]) -> Route:
    """Returns the route of a write on an index expression that may include our index."""
    request = shown_request(method, "/".join(["", expression, *rest]))
    if rest and rest[0] in OF_SETTINGS:
        return Route(RouteKind.CHECK_BODY, parameters=parameters, check=BodyCheck.SETTINGS, why=request)
    if rest and rest[0] in HARMLESS_OF_AN_INDEX:
        return PASS
    if rest and rest[0] in ("_update_by_query", "_delete_by_query"):
        return Route(RouteKind.SWEEP, why=request, op="goes on")
    if len(rest) == 2 and rest[0] in ("_doc", "_create", "_update") and rest[1] not in OF_A_KIND:
        return Route(RouteKind.UNJUDGED, id=rest[1], why=f"it was written by {request}")
    return Route(RouteKind.END, why=request)
