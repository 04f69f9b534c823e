"""A stand-in for an OpenSearch cluster, to try recorders on: its nodes are in one process, its indexes in
memory, and it serves HTTP on the loopback.

    python3 -m casbench_recording.stand_in --nodes 3 --replicas 2 --port 9201 --kill-every 5

It answers as OpenSearch 2.x is documented, with document replication, and keeps the compare-and-set promise
unless a fault is injected. Nothing is stored on disk.
"""

from .command import main

__all__ = ["main"]
