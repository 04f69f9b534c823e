#!/usr/bin/env python3
"""Publishes twice at once on one expected last sequence of a subject, many times.

    python3 examples/stores/nats/two_publishes.py PORT PORT [--rounds 1000] [--replicas 3]

Two servers of a cluster listen on these ports of the loopback. The stream is that of a bucket of the
key-value store with a history of one value. It is made for this, and deleted at last. It prints how often
both publishes were acknowledged; the exit status is 1 if they ever were.
"""

import argparse
import json
import pathlib
import sys
from typing import List

HERE = pathlib.Path(__file__).resolve().parent
sys.path[:0] = [str(HERE.parents[2] / "recording")]

from protocol import Connection

STREAM, SUBJECT = "KV_casbench", "$KV.casbench.key"

BUCKET = {
    "name": STREAM,
    "subjects": ["$KV.casbench.>"],
    "max_msgs_per_subject": 1,
    "storage": "file",
    "retention": "limits",
    "discard": "new",
    "duplicate_window": 120 * 10**9,
    "allow_direct": True,
    "allow_rollup_hdrs": True,
    "deny_delete": True,
}


def acknowledged(connections: List[Connection], last: int) -> List[int]:
    """Has each connection publish, expecting this last sequence, before any answer is read; returns the
    sequences that were acknowledged."""
    for number, it in enumerate(connections):
        it.send(SUBJECT, f"{number}", {"Nats-Expected-Last-Subject-Sequence": str(last)})
    answers = [json.loads(it.receive().text) for it in connections]
    return [it["seq"] for it in answers if "error" not in it]


def main() -> int:
    parser = argparse.ArgumentParser(description=__doc__.splitlines()[0])
    parser.add_argument("ports", type=int, nargs=2, metavar="PORT")
    parser.add_argument("--rounds", type=int, default=1000)
    parser.add_argument("--replicas", type=int, default=3)
    words = parser.parse_args()
    connections = [Connection(it, 10) for it in words.ports]
    answer = connections[0].ask_api(f"STREAM.CREATE.{STREAM}", num_replicas=words.replicas, **BUCKET)
    if "error" in answer:
        raise SystemExit(f"the stream wasn't made: {answer['error']}")
    last, twice = 0, []
    for _ in range(words.rounds):
        sequences = acknowledged(connections, last)
        if len(sequences) > 1:
            twice.append((last, sequences))
        last = max([last, *sequences])
    connections[0].ask_api(f"STREAM.DELETE.{STREAM}")
    print(f"{words.rounds} rounds, in {len(twice)} of which both publishes were acknowledged")
    for before, sequences in twice[:3]:
        print(f"expected last sequence {before}: acknowledged as {sequences[0]} and {sequences[1]}")
    return 1 if twice else 0


if __name__ == "__main__":
    sys.exit(main())
