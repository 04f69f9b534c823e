#!/usr/bin/env python3
"""Records clients of a JetStream of three NATS servers, which are disturbed meanwhile, as a history text.

    python3 examples/stores/nats/record.py FILE [--scenario NAME] [--witness WITNESS]

README.md has the scenarios: which of them JetStream promises to survive, and which not.
"""

import contextlib
import dataclasses
import json
import pathlib
import shutil
import sys
import time
from typing import Any, ContextManager, Dict, List, Mapping

HERE = pathlib.Path(__file__).resolve().parent
sys.path[:0] = [str(HERE.parent), str(HERE.parents[2] / "recording")]

from log import changes_of, differences, messages_by_leaders, messages_by_replica
from members import COUNT, LONG_DEADLINE, Members
from nodes import PATIENCE, NotReady, free_ports, once
from protocol import Connection, NatsError
from recorder import LAST_CALLS, Changes, Recording, Scenario, main
from store import Layout, Nats

from casbench_recording.load import Unreachable, own_shard

STREAMS, BUCKET = Layout(has_bucket=False, is_confirmed=True), Layout(has_bucket=True)
LEADERS, DIRECT = Layout(has_bucket=False), Layout(has_bucket=False, is_direct=True)
"""Streams with confirmed gets; a bucket; streams with gets by their leaders; and streams with direct gets."""

SETTINGS = {"storage": "file", "retention": "limits", "discard": "new"}
"""What all streams have."""

CONFIGURATION = """server_name: {name}
listen: "127.0.0.1:{port}"
jetstream {{ store_dir: "{folder}" }}
cluster {{
  name: casbench
  listen: "127.0.0.1:{route}"
  routes: [{routes}]
}}
"""


class NatsMembers(Members):
    """The servers of NATS, and the streams that the documents are in."""

    reads_at_last = True
    faults = (OSError, Unreachable, NatsError, KeyError, ValueError)

    def __init__(self, recording: Recording, layout: Layout = STREAMS, replicas: int = COUNT) -> None:
        super().__init__(recording)
        if not layout.has_bucket:
            recording.habits = dataclasses.replace(recording.habits, shard_of=own_shard)
        self.layout, self.replicas = layout, replicas
        ports = free_ports(2 * COUNT)
        self.ports, self.routes = ports[:COUNT], ports[COUNT:]
        ids = [f"d{it}" for it in range(recording.habits.documents)]
        self.streams = list(dict.fromkeys(map(layout.stream, ids)))
        for member in range(COUNT):
            self.start(member)
        for stream in self.streams:
            self.make_stream(stream, sorted(layout.subject(it) for it in ids if layout.stream(it) == stream))
        self.leader()

    def data(self, member: int) -> pathlib.Path:
        """The folder of a server's files."""
        return self.nodes.folder / self.name(member)

    def kept(self, member: int) -> pathlib.Path:
        """The folder of what is left of them after a power failure."""
        return self.nodes.folder / f"{self.name(member)}-kept"

    def start(self, member: int) -> None:
        routes = ", ".join(f'"nats://127.0.0.1:{it}"' for it in self.routes)
        words = {"name": self.name(member), "port": self.ports[member], "route": self.routes[member]}
        path = self.nodes.folder / f"{self.name(member)}.conf"
        path.write_text(CONFIGURATION.format(folder=self.data(member), routes=routes, **words))
        self.nodes.start(self.name(member), ["nats-server", "-c", str(path)])

    def make_stream(self, name: str, subjects: List[str]) -> None:
        """Makes a stream, once the servers have found each other, and waits until its replicas follow."""
        last = time.monotonic() + PATIENCE
        asked = {"name": name, "subjects": subjects, "num_replicas": self.replicas, "allow_direct": True}
        while True:
            with contextlib.suppress(*self.faults), self.connection(0) as connection:
                answer = connection.ask_api(f"STREAM.CREATE.{name}", **SETTINGS, **asked)
                if "error" not in answer and len(self.current(0, name)) == self.replicas:
                    return
            if time.monotonic() > last:
                raise NotReady(f"{name} wasn't made:\n{self.nodes.end_of_log(self.name(0))}")
            time.sleep(0.1)

    def connection(self, member: int) -> ContextManager[Connection]:
        """A connection to a member, which is closed at the end of the block. Raises Unreachable."""
        return contextlib.closing(Connection(self.ports[member], 2))

    def info(self, member: int, stream: str) -> Mapping[str, Any]:
        """What the stream's leader says of the replicas through a member, or nothing."""
        with contextlib.suppress(*self.faults), self.connection(member) as connection:
            cluster: Mapping[str, Any] = connection.ask_api(f"STREAM.INFO.{stream}")["cluster"]
            return cluster
        return {}

    def current(self, member: int, stream: str) -> List[str]:
        """The names of the leader of a stream and of its current followers, as a member reports them."""
        cluster = self.info(member, stream)
        replicas = cluster.get("replicas", [])
        followers = [it["name"] for it in replicas if it["current"] and not it.get("offline")]
        return [*filter(None, [cluster.get("leader")]), *followers]

    def leads(self, member: int) -> bool:
        return bool(self.info(member, self.streams[0]).get("leader") == self.name(member))

    def serves(self, member: int) -> bool:
        return all(self.name(member) in self.current(member, it) for it in self.streams)

    def store(self) -> Nats:
        return Nats(self.ports, self.layout)

    def old_store(self) -> Nats:
        return Nats(self.ports, self.layout._replace(is_confirmed=False, is_direct=True), LONG_DEADLINE)

    def changes_at(self, member: int) -> Changes:
        messages = list(messages_by_leaders(self.ports[member], self.streams))
        if self.recording.logs is not None:
            replicas = [messages_by_replica(it, self.streams) for it in self.ports]
            self.recording.keep_log("streams.log", (json.dumps(it._asdict()) for it in messages))
            self.recording.keep_log("differences.log", differences(messages, replicas))
        return changes_of(messages)

    # Scenarios

    def tails(self) -> Changes:
        """All servers are killed, and two of them lose the ends of their files, as by a power failure: what
        they wrote since a moment, and hadn't synced. They start again, and the third one after them."""
        spared = self.load.draw.below(COUNT)
        gone = [it for it in range(COUNT) if it != spared]

        def disturb() -> None:
            for member in gone:
                self.nodes.stop(self.name(member))
                shutil.copytree(self.data(member), self.kept(member))
                self.nodes.go_on(self.name(member))
            self.load.wait_for(self.load.history.calls + 300)
            for member in range(COUNT):
                self.nodes.kill(self.name(member))
            for member in gone:
                shutil.rmtree(self.data(member))
                self.kept(member).rename(self.data(member))
                self.start(member)
            self.leader()
            self.start(spared)

        return self.run(once(disturb))


SCENARIOS: Dict[str, Scenario] = {
    "healthy": lambda it: NatsMembers(it).healthy(),
    "killed": lambda it: NatsMembers(it).killed(1),
    "stopped": lambda it: NatsMembers(it).stopped(6.0, 12.0),
    "leader-reads": lambda it: NatsMembers(it, LEADERS).stopped(6.0, 12.0),
    "bucket": lambda it: NatsMembers(it, BUCKET).healthy(),
    "bucket-killed": lambda it: NatsMembers(it, BUCKET).killed(1),
    "bucket-alone": lambda it: NatsMembers(it, BUCKET, replicas=1).healthy(),
    "direct": lambda it: NatsMembers(it, DIRECT).healthy(),
    "tails": lambda it: NatsMembers(it).tails(),
}

if __name__ == "__main__":
    sys.exit(main(sys.argv[1:], "nats-server", ["nats-server"], SCENARIOS, LAST_CALLS))
