"""Reads replies in the usual form of a cluster without parsing all of their JSON.

The result has the same relevant members, with the same values, as the JSON parser returns: the patterns match
the whole reply, without duplicate members or escapes. Only the source is parsed, unless it was parsed before.
Replies in any other form aren't read here.
"""

import re
from typing import Optional

from casbench_recording.history.format import JsonObject
from casbench_recording.proxy.state.documents import digest_of_text

TEXT = rb'"([ !#-\[\]-~]*)"'
COUNT = rb"(?:0|[1-9][0-9]{0,17})"
START = rb'\{"_index":' + TEXT + rb',(?:"_type":"_doc",)?"_id":' + TEXT
PAIR = rb'"_seq_no":(' + COUNT + rb'),"_primary_term":(' + COUNT + rb")"
SHARDS = rb'"_shards":\{"total":' + COUNT + rb',"successful":' + COUNT + rb',"failed":' + COUNT + rb"\}"

WRITTEN = re.compile(
    START + rb',"_version":' + COUNT + rb',"result":"(created|updated|deleted|not_found)",'
    rb'(?:"forced_refresh":(?:true|false),)?' + SHARDS + rb"," + PAIR + rb"\}"
)
"""Matches the reply to a performed write."""

FOUND = re.compile(START + rb',"_version":' + COUNT + rb"," + PAIR + rb',"found":true,"_source":')
"""Matches the reply to a get that found a version, up to its source, after which there is one brace."""

MISSING = re.compile(START + rb',"found":false\}')
"""Matches the reply to a get that found nothing."""


def read_reply(op: str, status: int, content: Optional[bytes]) -> Optional[JsonObject]:
    """Returns the relevant members of a reply, with the digest of the source in its place; None if it hasn't
    the usual form."""
    if content is None:
        return None
    if op != "get":
        match = WRITTEN.fullmatch(content)
        return written(match) if match is not None else None
    if status == 200:
        match = FOUND.match(content)
        return found(match, content) if match is not None else None
    match = MISSING.fullmatch(content)
    return (
        {"_index": match[1].decode(), "_id": match[2].decode(), "found": False} if match is not None else None
    )


def written(match: "re.Match[bytes]") -> JsonObject:
    """Returns the members of the reply to a write."""
    index, id, result, seq, term = match.groups()
    return {
        "_index": index.decode(),
        "_id": id.decode(),
        "result": result.decode(),
        "_seq_no": int(seq),
        "_primary_term": int(term),
    }


def found(match: "re.Match[bytes]", content: bytes) -> Optional[JsonObject]:
    """Returns the members of the reply to a get that found a version."""
    digest = digest_of_text(content[match.end() : -1]) if content.endswith(b"}") else None
    if digest is None:
        return None
    index, id, seq, term = match.groups()
    return {
        "_index": index.decode(),
        "_id": id.decode(),
        "_seq_no": int(seq),
        "_primary_term": int(term),
        "found": True,
        "_source": digest,
    }
