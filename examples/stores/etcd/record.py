#!/usr/bin/env python3
"""Records clients of an etcd of three members, which are disturbed meanwhile, as a history text.

    python3 examples/stores/etcd/record.py FILE [--scenario NAME] [--witness WITNESS]

docs/RECORDING.md has what each call is in the store.
"""

import contextlib
import pathlib
import sys
from typing import Any, Dict, Mapping

HERE = pathlib.Path(__file__).resolve().parent
sys.path[:0] = [str(HERE.parent), str(HERE.parents[2] / "recording")]

from log import changes_at
from members import COUNT, LONG_DEADLINE, Members
from nodes import free_ports
from recorder import Changes, Recording, Scenario, main
from store import Etcd

from casbench_recording.cluster import ClusterError, NoAnswer, connection_to


class EtcdMembers(Members):
    """The members of etcd."""

    faults = (OSError, NoAnswer, ClusterError, KeyError)

    def __init__(self, recording: Recording) -> None:
        super().__init__(recording)
        ports = free_ports(2 * COUNT)
        self.urls = [f"http://127.0.0.1:{it}" for it in ports[:COUNT]]
        self.peers = [f"http://127.0.0.1:{it}" for it in ports[COUNT:]]
        self.start_all()

    def start(self, member: int) -> None:
        cluster = ",".join(f"{self.name(it)}={url}" for it, url in enumerate(self.peers))
        words = ["etcd", "--name", self.name(member), "--data-dir", str(self.nodes.folder / self.name(member))]
        words += ["--listen-client-urls", self.urls[member], "--advertise-client-urls", self.urls[member]]
        words += ["--listen-peer-urls", self.peers[member], "--initial-advertise-peer-urls", self.peers[member]]
        words += ["--initial-cluster", cluster, "--heartbeat-interval", "50", "--election-timeout", "500"]
        self.nodes.start(self.name(member), words)

    def status(self, member: int) -> Mapping[str, Any]:
        """What a member says of itself, or nothing."""
        connection = connection_to(self.urls[member], 2)
        with contextlib.suppress(NoAnswer, ClusterError), contextlib.closing(connection):
            connection.open(0)
            return connection.ask("POST", "/v3/maintenance/status", "{}").members
        return {}

    def leads(self, member: int) -> bool:
        status = self.status(member)
        return "leader" in status and status["leader"] == status["header"]["member_id"]

    def serves(self, member: int) -> bool:
        return "leader" in self.status(member)

    def store(self) -> Etcd:
        return Etcd(self.urls)

    def old_store(self) -> Etcd:
        return Etcd(self.urls, LONG_DEADLINE, is_serializable=True)

    def changes_at(self, member: int) -> Changes:
        return changes_at(self.urls[member])


SCENARIOS: Dict[str, Scenario] = {
    "healthy": lambda it: EtcdMembers(it).healthy(),
    "killed": lambda it: EtcdMembers(it).killed(2),
    "stopped": lambda it: EtcdMembers(it).stopped(0.2, 1.5),
    "stale": lambda it: EtcdMembers(it).old_reads(),
}

if __name__ == "__main__":
    sys.exit(main(sys.argv[1:], "etcd-server", ["etcd"], SCENARIOS))
