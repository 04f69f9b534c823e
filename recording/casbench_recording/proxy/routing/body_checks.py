"""Checks of request bodies that say where the request writes: which indexes it restores or fills, which
aliases it changes.

A body that can't be read, or that servers may read differently, may write anywhere.
"""

import re
from enum import Enum
from typing import TYPE_CHECKING, Any, Callable, Dict, Iterator, Mapping, NamedTuple, Optional

from casbench_recording.history.format import JsonObject
from casbench_recording.proxy.json_bodies import read_spelled

if TYPE_CHECKING:
    from casbench_recording.index_names import Names

MOST_LOOKED_AT = 512 * 1024
"""The maximum length of a body that is checked, in bytes."""

PIPELINES = ("default_pipeline", "final_pipeline")
"""Settings with which an index stores other sources than it is given."""

OF_SOURCES = {"_source", "_routing"}
"""Parts of a mapping that change how an index stores a source, or on which shard."""

TARGETS = ("target_index", "result_index", "index_name", "index")
"""Members that name the index that a job of a plugin writes to."""

WITH_LOSSES = ("allocate_stale_primary", "allocate_empty_primary")
"""Commands that give up acknowledged writes."""

WHOLE_NAME = "(.+)"
"""The pattern of a restore that matches a whole name."""

WORD = re.compile(r"[\w.+*-]+")
COMMENT = re.compile(r"/\*|--|#")
READ = re.compile(r"[ (]*(?:select|show|describe|desc|explain|with)\b", re.IGNORECASE)
DELETES = re.compile(r"(?:^|;) ?delete\b", re.IGNORECASE)
DELETE_FROM = re.compile(r"delete from (`?)([^ `,;]+)\1(?: where\b[^;]*)? ?;?", re.IGNORECASE)
QueryParameters = Mapping[str, str]


class BodyCheck(Enum):
    """How a body is checked, and what in it may change documents of the index."""

    NOTHING = "not at all: the request changes no document of the index"
    SETTINGS = "a pipeline of the index, or a mapping of its sources"
    ALIASES = "an alias of the index, or one with a name of it"
    REINDEX = "the target of copies, or a script, which may copy documents anywhere"
    RESTORE = "the indexes that are restored"
    STATEMENT = "an SQL statement that deletes from the index"
    TARGET = "the index that a job writes to"
    NAME = "any string that may name the index"
    MENTION = "any string that has a name of the index as a word, such as a webhook URL"
    REROUTE = "an allocation of a shard of the index that loses acknowledged writes"


def may_write(
    check: BodyCheck, content: Optional[bytes], parameters: QueryParameters, names: "Names"
) -> bool:
    """Returns whether a request may change documents of the index, or what its names refer to."""
    if check is BodyCheck.NOTHING:
        return False
    body = body_of(content)
    return body is None or CHECKS[check](body, parameters, names)


def body_of(content: Optional[bytes]) -> Optional[JsonObject]:
    """Returns the members of a body, none if it is empty; None if it can't be read."""
    if content is None or len(content) > MOST_LOOKED_AT:
        return None
    if not content.strip():
        return {}
    try:
        body = read_spelled(content.decode("utf-8"))
    except (ValueError, RecursionError):
        return None
    return body if isinstance(body, dict) else None


class Member(NamedTuple):
    """A member of an object: the key of that object, if it has one, the member's own key, and its value."""

    parent: str
    key: str
    value: Any


def members_of(value: Any) -> Iterator[Member]:
    """Yields all members of a value, at any depth."""
    waiting = [("", value)]
    while waiting:
        parent, it = waiting.pop()
        for key, member in it.items() if isinstance(it, dict) else ():
            yield Member(parent, key, member)
            waiting.append((key, member))
        waiting += [(parent, member) for member in it] if isinstance(it, list) else []


def texts_of(value: Any) -> Iterator[str]:
    """Yields all keys and strings of a value, at any depth."""
    waiting = [value]
    while waiting:
        it = waiting.pop()
        if isinstance(it, str):
            yield it
        elif isinstance(it, (dict, list)):
            waiting += it
            waiting += it.values() if isinstance(it, dict) else []


def may_name(value: Any, names: "Names") -> bool:
    """Returns whether a string in a value may name the index."""
    return any(names.may_be_among(it) for it in texts_of(value))


def changes_sources(body: JsonObject, parameters: QueryParameters, names: "Names") -> bool:
    """Returns whether settings or mappings change what the index stores."""
    return any(is_of_sources(it.parent, it.key) for it in members_of([body, dict(parameters)]))


def is_of_sources(parent: str, key: str) -> bool:
    """Returns whether a setting or a part of a mapping does. A search pipeline changes no document, and no
    get."""
    is_of_searches = (
        key.endswith("search.default_pipeline") or key == "default_pipeline" and parent.endswith("search")
    )
    return key.endswith(PIPELINES) and not is_of_searches or not OF_SOURCES.isdisjoint(key.split("."))


def changes_alias(body: JsonObject, parameters: QueryParameters, names: "Names") -> bool:
    """Returns whether an action changes an alias of the index, or an alias with one of its names."""
    actions = body.get("actions")
    return (
        any(is_on_alias(it, names) for it in actions) if isinstance(actions, list) else may_name(body, names)
    )


def is_on_alias(action: Any, names: "Names") -> bool:
    """The same for one action. A filter names no index, and removing an alias from another index doesn't
    matter."""
    described = next(iter(action.values())) if isinstance(action, dict) and len(action) == 1 else None
    if not isinstance(described, dict):
        return may_name(action, names)
    counting = {key: it for key, it in described.items() if key != "filter"}
    indexes = {key: counting[key] for key in ("index", "indices") if key in counting}
    return may_name(indexes if indexes and "remove" in action else counting, names)


def copies(body: JsonObject, parameters: QueryParameters, names: "Names") -> bool:
    """Returns whether documents are copied to the index. A script may choose another index for each
    document."""
    return "script" in body or "dest" not in body or may_name(body["dest"], names)


def restores(body: JsonObject, parameters: QueryParameters, names: "Names") -> bool:
    """Returns whether the index may be restored, or an alias of it with another one."""
    targets = body.get("indices")
    pattern, replacement = body.get("rename_pattern"), body.get("rename_replacement")
    if (pattern, replacement) != (None, None):
        is_plain = (
            pattern == WHOLE_NAME
            and isinstance(replacement, str)
            and re.fullmatch(r"(?:[^$\\]|\$1(?![0-9]))+", replacement)
        )
        targets = replacement.replace("$1", "*") if is_plain and isinstance(replacement, str) else None
    brings_aliases = len(names.all) > 1 and body.get("include_aliases") not in (False, "false")
    return not targets or brings_aliases or may_name(targets, names)


def deletes(body: JsonObject, parameters: QueryParameters, names: "Names") -> bool:
    """Returns whether an SQL statement may delete from the index. A request without a statement continues an
    earlier one."""
    query = body.get("query")
    if query is None:
        return False
    statement = " ".join(without_comments(query).split()) if isinstance(query, str) else ""
    if not DELETES.search(statement):
        return READ.match(statement) is None
    found = DELETE_FROM.fullmatch(statement)
    return found is None or names.may_be_among(found[2])


def without_comments(statement: str) -> str:
    """Returns an SQL statement with a space in place of each comment."""
    pieces, at = [], 0
    while at >= 0:
        start = COMMENT.search(statement, at)
        pieces.append(statement[at : start.start() if start is not None else None])
        end = ("*/" if start[0] == "/*" else "\n") if start is not None else ""
        found = statement.find(end, start.end()) if start is not None else -1
        at = found + len(end) if found >= 0 else -1
    return " ".join(pieces)


def targets(body: JsonObject, parameters: QueryParameters, names: "Names") -> bool:
    """Returns whether a job writes to the index."""
    return any(it.key in TARGETS and may_name(it.value, names) for it in members_of(body))


def names_it(body: JsonObject, parameters: QueryParameters, names: "Names") -> bool:
    """Returns whether the body may name the index, other than in the filter of an alias."""
    return may_name({key: it for key, it in body.items() if key != "filter"}, names)


def mentions(body: JsonObject, parameters: QueryParameters, names: "Names") -> bool:
    """Returns whether a name or a pattern of the index is a word of a string. A dry run does nothing."""
    return parameters.get("dryrun") != "true" and any(
        is_name(it, names) for text in texts_of(body) for it in WORD.findall(text)
    )


def is_name(word: str, names: "Names") -> bool:
    """Returns whether a word names the index. A star alone doesn't."""
    plain = word.strip(".")
    return plain in names.all or "*" in plain and plain.strip("*") != "" and names.has(plain)


def gives_up_writes(body: JsonObject, parameters: QueryParameters, names: "Names") -> bool:
    """Returns whether a shard of the index is allocated without acknowledged writes."""
    commands = body.get("commands", [])
    listed = [it for it in commands if isinstance(it, dict)] if isinstance(commands, list) else [body]
    return any(it.key in WITH_LOSSES and may_name(it.value, names) for it in members_of(listed))


CHECKS: Dict[BodyCheck, Callable[[JsonObject, QueryParameters, "Names"], bool]] = {
    BodyCheck.SETTINGS: changes_sources,
    BodyCheck.ALIASES: changes_alias,
    BodyCheck.REINDEX: copies,
    BodyCheck.RESTORE: restores,
    BodyCheck.STATEMENT: deletes,
    BodyCheck.TARGET: targets,
    BodyCheck.NAME: names_it,
    BodyCheck.MENTION: mentions,
    BodyCheck.REROUTE: gives_up_writes,
}
"""The function of each check."""
