#!/usr/bin/env python3
"""Records clients of a ZooKeeper of three members, which are disturbed meanwhile, as a history text.

    python3 examples/stores/zookeeper/record.py FILE [--scenario NAME] [--witness WITNESS]

README.md has the scenarios: which of them ZooKeeper promises to survive, and which not.
"""

import contextlib
import pathlib
import socket
import sys
from typing import Dict

HERE = pathlib.Path(__file__).resolve().parent
sys.path[:0] = [str(HERE.parent), str(HERE.parents[2] / "recording")]

from members import COUNT, LONG_DEADLINE, Members
from nodes import PATIENCE, free_ports
from protocol import CREATE, NODE_EXISTS, Connection, ZooKeeperError, created
from recorder import Changes, Recording, Scenario, main
from store import ZooKeeper, changes_at

from casbench_recording.load import Unreachable

TICK, SHORT_TICK = 2000, 200
"""How many milliseconds a tick has: after five without the leader another one is elected. With the short one a stopped leader is soon replaced."""

CONFIGURATION = """tickTime={tick}
initLimit=50
syncLimit=5
clientPortAddress=127.0.0.1
maxClientCnxns=0
admin.enableServer=false
maxSessionTimeout=10000
dataDir={folder}
clientPort={port}
{servers}
"""


class ZooKeeperMembers(Members):
    """The members of ZooKeeper, and the nodes that the documents are."""

    calls_between = 1000
    faults = (OSError, Unreachable, ZooKeeperError)

    def __init__(self, recording: Recording, tick: int = TICK) -> None:
        super().__init__(recording)
        self.tick = tick
        ports = free_ports(3 * COUNT)
        self.ports = ports[:COUNT]
        self.servers = "\n".join(f"server.{it + 1}=127.0.0.1:{ports[COUNT + it]}:{ports[2 * COUNT + it]}" for it in range(COUNT))
        self.start_all()
        self.asked_of_leader(self.make_documents)

    def make_documents(self, member: int) -> None:
        """Makes the nodes that aren't there yet."""
        with contextlib.closing(Connection(self.ports[member], PATIENCE)) as connection:
            for path in ("/log", "/doc", *(f"/doc/d{it}" for it in range(self.recording.habits.documents))):
                try:
                    connection.ask(CREATE, created(path, ""))
                except ZooKeeperError as fault:
                    if fault.args != (NODE_EXISTS,):
                        raise

    def start(self, member: int) -> None:
        folder = self.nodes.folder / self.name(member)
        folder.mkdir(exist_ok=True)
        (folder / "myid").write_text(str(member + 1))
        text = CONFIGURATION.format(tick=self.tick, folder=folder, port=self.ports[member], servers=self.servers)
        (folder / "zoo.cfg").write_text(text)
        words = ["java", "-Xmx128m", "-XX:+UseSerialGC", "-XX:TieredStopAtLevel=1", "-cp", "/usr/share/java/zookeeper.jar"]
        words += ["org.apache.zookeeper.server.quorum.QuorumPeerMain", str(folder / "zoo.cfg")]
        self.nodes.start(self.name(member), words)

    def status(self, member: int) -> str:
        """What a member says of itself, or nothing."""
        with contextlib.suppress(OSError), socket.create_connection(("127.0.0.1", self.ports[member]), timeout=2) as connection:
            connection.sendall(b"srvr")
            with connection.makefile("r") as told:
                return told.read()
        return ""

    def leads(self, member: int) -> bool:
        return "Mode: leader" in self.status(member)

    def serves(self, member: int) -> bool:
        return "Mode: " in self.status(member)

    def store(self) -> ZooKeeper:
        return ZooKeeper(self.ports)

    def old_store(self) -> ZooKeeper:
        return ZooKeeper(self.ports, LONG_DEADLINE, is_synced=False)

    def changes_at(self, member: int) -> Changes:
        return changes_at(self.ports[member])

    def recovering(self) -> Changes:
        """A member is killed and misses changes. While it starts again the leader is killed; it is started again when the others have had time
        to find each other."""

        def disturb() -> None:
            leader = self.leader()
            first = (leader + 1) % COUNT
            self.nodes.kill(self.name(first))
            self.load.wait_for(self.load.history.calls + 300)
            self.start(first)
            self.nodes.kill(self.name(leader))
            self.nodes.wait_until(self.name(first), lambda: self.status(first) != "")
            self.load.wait(1.5, 3.0)
            self.start(leader)
            for member in (first, leader):
                self.nodes.wait_until(self.name(member), lambda: self.serves(member))

        self.calls_between = 300
        return self.run(disturb)


SCENARIOS: Dict[str, Scenario] = {
    "healthy": lambda it: ZooKeeperMembers(it).healthy(),
    "killed": lambda it: ZooKeeperMembers(it).killed(1),
    "stopped": lambda it: ZooKeeperMembers(it, SHORT_TICK).stopped(1.0, 4.0),
    "recovering": lambda it: ZooKeeperMembers(it, SHORT_TICK).recovering(),
    "unsynced": lambda it: ZooKeeperMembers(it).old_reads(),
}

if __name__ == "__main__":
    sys.exit(main(sys.argv[1:], "zookeeper", ["java", "/usr/share/java/zookeeper.jar"], SCENARIOS))
