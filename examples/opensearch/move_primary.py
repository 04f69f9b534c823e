#!/usr/bin/env python3
"""Has the node of shard 0's primary give it up: a copy in sync becomes the primary.

    python3 move_primary.py [PATIENCE]

CASBENCH_NODES has the addresses of the nodes; the request goes to the first that answers. CASBENCH_INDEX is the index, CASBENCH_CA_FILE
has the authorities to trust, and OPENSEARCH_USER and OPENSEARCH_PASSWORD are the credentials. If it fails, as while no other copy has
started, it is tried again for PATIENCE seconds, 20 by default; then the exit status is 1.
"""

import base64
import json
import os
import ssl
import sys
import time
import urllib.request

SECONDS, PATIENCE = 20, 20


def ask(url, body=None, known=os.environ):
    """Sends a request to a node; returns the JSON value of the response. Raises OSError if that is an error, or if there is none."""
    request = urllib.request.Request(url, json.dumps(body).encode() if body is not None else None, {"Content-Type": "application/json"})
    if known.get("OPENSEARCH_USER"):
        pair = f"{known['OPENSEARCH_USER']}:{known.get('OPENSEARCH_PASSWORD', '')}".encode()
        request.add_header("Authorization", "Basic " + base64.b64encode(pair).decode())
    trust = ssl.create_default_context(cafile=known.get("CASBENCH_CA_FILE")) if url.startswith("https:") else None
    with urllib.request.urlopen(request, timeout=SECONDS, context=trust) as answer:
        return json.load(answer)


def move(url, index):
    """Finds the node that has the primary, and has it give the primary up; returns its name."""
    shards = [it for it in ask(f"{url}/_cat/shards/{index}?format=json&h=shard,prirep,state,node") if it["shard"] == "0"]
    started = {kind: [it["node"] for it in shards if (it["prirep"], it["state"]) == (kind, "STARTED")] for kind in "pr"}
    if not started["p"] or not started["r"]:
        raise ValueError("no other copy has started")
    (node,) = started["p"]
    cancel = {"index": index, "shard": 0, "node": node, "allow_primary": True}
    ask(f"{url}/_cluster/reroute", {"commands": [{"cancel": cancel}]})
    return node


def main():
    until = time.monotonic() + float(sys.argv[1] if len(sys.argv) > 1 else PATIENCE)
    while True:
        for url in os.environ["CASBENCH_NODES"].split(","):
            try:
                print(f"the primary leaves {move(url, os.environ['CASBENCH_INDEX'])}")
                return 0
            except (OSError, ValueError, KeyError) as why:
                fault = f"{url}: {why}"
        if time.monotonic() > until:
            print(fault, file=sys.stderr)
            return 1
        time.sleep(0.2)


if __name__ == "__main__":
    sys.exit(main())
