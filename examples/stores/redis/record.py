#!/usr/bin/env python3
"""Records clients of Redis nodes, which are disturbed meanwhile, as a history text.

    python3 examples/stores/redis/record.py FILE [--scenario NAME] [--witness WITNESS]

README.md has the scenarios: which of them Redis promises to survive, and which not.
"""

import contextlib
import pathlib
import sys
from typing import Dict

HERE = pathlib.Path(__file__).resolve().parent
sys.path[:0] = [str(HERE.parent), str(HERE.parents[2] / "recording")]

from copies import IMPATIENCE, Group
from nodes import free_ports, once
from recorder import Changes, Recording, Scenario, main
from store import Connection, Redis, RedisError, changes_at

from casbench_recording.load import Unreachable


class RedisGroup(Group[Redis]):
    """A primary and, if it is asked for, a replica. Each writes its log to the disk before it answers. With `copies` a call waits for so
    many replicas."""

    def __init__(self, recording: Recording, has_replica: bool = False, copies: int = 0) -> None:
        super().__init__(recording)
        self.copies = copies
        self.ports = free_ports(3)
        self.nowhere = self.ports.pop()  # a port at which nobody listens
        self.start(0)
        if has_replica:
            self.start(1)
            self.join()
            self.nodes.wait_until(self.name(1), lambda: "master_link_status:up" in str(self.ask(1, "INFO", "replication")))

    def start(self, node: int) -> None:
        words = ["redis-server", "--bind", "127.0.0.1", "--port", str(self.ports[node]), "--appenddirname", self.name(node)]
        words += ["--appendonly", "yes", "--appendfsync", "always", "--save", "", "--repl-diskless-sync-delay", "0"]
        self.nodes.start(self.name(node), words)
        self.nodes.wait_until(self.name(node), lambda: self.is_ready(node))

    def is_ready(self, node: int) -> bool:
        try:
            return self.ask(node, "PING") == "PONG"
        except (Unreachable, OSError, RedisError):
            return False

    def ask(self, node: int, *words: "str | int") -> object:
        """The answer of a node to a command."""
        with contextlib.closing(Connection(self.ports[node], 10)) as connection:
            return connection.ask(*words)

    def store(self, node: int = 0) -> Redis:
        return Redis([self.ports[node]], IMPATIENCE if self.copies else 1.0, self.copies)

    def changes_at(self, port: int) -> Changes:
        return changes_at(port)

    def cut(self) -> None:
        self.ask(1, "REPLICAOF", "127.0.0.1", self.nowhere)

    def join(self) -> None:
        self.ask(1, "REPLICAOF", "127.0.0.1", self.ports[0])

    def promote(self) -> None:
        self.ask(1, "REPLICAOF", "NO", "ONE")

    def fail_over(self, store: Redis) -> None:
        super().fail_over(store)
        # (no replica is left to wait for)
        store.copies = 0

    def split(self) -> Changes:
        """The replica becomes a primary while the old one goes on: half of the clients ask the one, half the other."""
        stores = [self.store(), self.store()]

        def disturb() -> None:
            self.promote()
            stores[1].ports[0] = self.ports[1]
            self.ask(0, "CLIENT", "KILL", "TYPE", "normal", "SKIPME", "yes")

        for store in stores:
            self.load.add_clients(self.recording.clients // 2, store, self.recording.habits)
        self.load.run(once(disturb))
        return self.changes_at(self.ports[0])


SCENARIOS: Dict[str, Scenario] = {
    "healthy": lambda it: RedisGroup(it).healthy(),
    "paused": lambda it: RedisGroup(it).paused(),
    "restarted": lambda it: RedisGroup(it).restarted(),
    "waited": lambda it: RedisGroup(it, has_replica=True, copies=1).failover(16),
    "failover": lambda it: RedisGroup(it, has_replica=True).failover(100),
    "split": lambda it: RedisGroup(it, has_replica=True).split(),
    "replica-reads": lambda it: RedisGroup(it, has_replica=True).copy_reads(),
}

if __name__ == "__main__":
    sys.exit(main(sys.argv[1:], "redis-server", ["redis-server"], SCENARIOS))
