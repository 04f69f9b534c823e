"""etcd's own log of changes: a watch from revision 1 reports each of them."""

import contextlib
import json
import time
from typing import Dict, Iterator, Tuple

from store import TERM, coded, decoded, put

from casbench_recording.cluster import connection_to
from casbench_recording.history import Pair

SETTLED = 0.5
"""How many seconds a write may take whose client went away."""


def changes_at(url: str) -> Dict[int, Pair]:
    """The store's own log: by the number of the call that made it, the pair of each change. A watch from revision 1 reports each change; a
    document's changes have the number of their call, and so do the marks of deletes."""
    time.sleep(SETTLED)
    changes: Dict[int, Pair] = {}
    with contextlib.closing(connection_to(url, 30)) as connection:
        asked = {"compare": [], "success": [put("", "end", 0)], "failure": []}
        last = int(connection.ask("POST", "/v3/kv/txn", json.dumps(asked)).members["header"]["revision"])
    for revision, key, value in events_until(url, last):
        # (a document's deletion has no value; it has the revision of its mark)
        if key != "end" and value and changes.setdefault(int(value), Pair(TERM, revision)).seq != revision:
            raise ValueError(f"the call {value} changed something twice, at {changes[int(value)].seq} and {revision}")
    return changes


def events_until(url: str, last: int) -> Iterator[Tuple[int, str, str]]:
    """All changes up to a revision, each with its revision, its key and its value."""
    keys, revision = coded("\0"), 0
    asked = {"create_request": {"key": keys, "range_end": keys, "start_revision": "1"}}
    with contextlib.closing(connection_to(url, 30)) as connection:
        connection.http.request("POST", "/v3/watch", json.dumps(asked), connection.headers)
        reported = connection.http.getresponse()
        while revision < last:
            line = reported.readline()
            if not line:
                raise OSError("the watch ended before the last change")
            for event in json.loads(line)["result"].get("events", []):
                kept, revision = event["kv"], int(event["kv"]["mod_revision"])
                yield revision, decoded(kept["key"]), decoded(kept.get("value", ""))
