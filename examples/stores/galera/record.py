#!/usr/bin/env python3
"""Records clients of a Galera cluster of three nodes, which are disturbed meanwhile, as a history text.

    python3 examples/stores/galera/record.py FILE [--scenario NAME] [--witness WITNESS]

README.md has the scenarios: which of them Galera promises to survive, and which not.
"""

import contextlib
import dataclasses
import os
import pathlib
import re
import shutil
import subprocess
import sys
from typing import Dict, List, Optional

HERE = pathlib.Path(__file__).resolve().parent
sys.path[:0] = [str(HERE.parent), str(HERE.parents[2] / "recording")]

from members import COUNT, Members
from nodes import PATIENCE, NotReady, free_ports, once
from protocol import Connection, MariaDBError, Row
from recorder import LAST_CALLS, Changes, Recording, Scenario, main
from store import SCHEMA, Galera, changes_at

from casbench_recording.load import Unreachable, own_shard

USER = "mysql" if os.geteuid() == 0 else None
"""Who the nodes run as, since they refuse to run as root."""

PROVIDER = "/usr/lib/galera/libgalera_smm.so"

OPTIONS = ["--wsrep-on=ON", f"--wsrep-provider={PROVIDER}", "--wsrep-cluster-name=casbench"]
OPTIONS += ["--wsrep-sst-method=rsync", "--binlog-format=ROW", "--innodb-autoinc-lock-mode=2"]
OPTIONS += ["--innodb-buffer-pool-size=32M", "--innodb-log-file-size=16M", "--performance-schema=OFF"]
OPTIONS += ["--bind-address=127.0.0.1", "--skip-name-resolve", "--skip-log-bin"]

TIMEOUTS = "evs.keepalive_period=PT0.3S;evs.inactive_check_period=PT0.3S;evs.suspect_timeout=PT1S"
TIMEOUTS += ";evs.inactive_timeout=PT3S;evs.install_timeout=PT3S"
"""How soon the others go on without a node that doesn't answer: after 1 to 3 s; by default after 5 to 15."""

POSITION = re.compile(r"Recovered position: (\S+:-?\d+)")


class GaleraMembers(Members):
    """The nodes of the cluster. All of them take writes, so each that serves counts as one that leads."""

    reads_at_last = True
    faults = (OSError, Unreachable, MariaDBError, ValueError)

    def __init__(self, recording: Recording, flushes: int = 1) -> None:
        super().__init__(recording)
        recording.habits = dataclasses.replace(recording.habits, shard_of=own_shard)
        os.chmod(self.nodes.folder, 0o711)
        self.flushes = flushes
        ports = free_ports(4 * COUNT)
        rows = [ports[it * COUNT : (it + 1) * COUNT] for it in range(4)]
        self.ports, self.group, self.transfers, self.copies = rows
        self.make_data()
        self.start_all()

    def make_data(self) -> None:
        """Makes the data of the first node, with the tables, and copies it: no node has to be sent all."""
        data = self.data(0)
        data.mkdir(mode=0o700)
        if USER is not None:
            shutil.chown(data, USER, USER)
        words = ["--auth-root-authentication-method=normal", "--skip-test-db", "--innodb-log-file-size=16M"]
        self.run_program(0, "mariadb-install-db", "--no-defaults", f"--datadir={data}", *words)
        self.start_node(0, ["--wsrep-new-cluster"])
        self.nodes.wait_until(self.name(0), lambda: self.serves(0))
        for statement in SCHEMA.strip().splitlines():
            self.ask(0, statement)
        for it in range(self.recording.habits.documents):
            self.ask(0, f"INSERT INTO casbench.documents (id) VALUES ('d{it}')")
        self.nodes.processes[self.name(0)].terminate()
        self.nodes.processes[self.name(0)].wait(PATIENCE)
        self.nodes.kill(self.name(0))
        for member in range(1, COUNT):
            shutil.copytree(data, self.data(member))
            for it in [self.data(member), *self.data(member).rglob("*")] if USER is not None else []:
                shutil.chown(it, USER, USER)

    def data(self, member: int) -> pathlib.Path:
        """The folder of a node's data, which belongs to it."""
        return self.nodes.folder / self.name(member)

    def temporary(self, member: int) -> List[str]:
        """What stands before the program of a node, and has it make its temporary files where it may."""
        return ["env", f"TMPDIR={self.data(member)}"]

    def run_program(self, member: int, program: str, *words: str) -> str:
        """Runs a program of the package to its end; returns what it prints, which is kept as a log too."""
        started = [*self.nodes.words_as(USER), *self.temporary(member), program, *words]
        path = self.nodes.log(f"{self.name(member)}-{program}")
        with open(path, "wb") as log:
            subprocess.run(started, cwd=self.nodes.folder, stdin=subprocess.DEVNULL, stdout=log, stderr=log)
        return path.read_text(errors="replace")

    def start_all(self) -> None:
        """Starts the cluster with the node that has most."""
        positions = [self.position(it) for it in range(COUNT)]
        first = max(range(COUNT), key=lambda it: int(positions[it].rpartition(":")[2]))
        state = self.data(first) / "grastate.dat"
        state.write_text(state.read_text().replace("safe_to_bootstrap: 0", "safe_to_bootstrap: 1"))
        self.start_node(first, ["--wsrep-new-cluster", f"--wsrep-start-position={positions[first]}"])
        self.nodes.wait_until(self.name(first), lambda: self.serves(first))
        for member in range(COUNT):
            if member != first:
                self.start(member)
        for member in range(COUNT):
            self.nodes.wait_until(self.name(member), lambda: self.serves(member))

    def position(self, member: int) -> str:
        """What a node has that doesn't run: the cluster it is of, and the number of its last transaction."""
        printed = self.run_program(member, "mariadbd", *self.words(member), "--wsrep-recover")
        found = POSITION.search(printed)
        if not found:
            raise NotReady(f"{self.name(member)} has no position:\n{printed[-2000:]}")
        return found[1]

    def words(self, member: int) -> List[str]:
        """The options of a node."""
        data, group = self.data(member), [f"127.0.0.1:{it}" for it in self.group]
        transfers, copies = (f"127.0.0.1:{it[member]}" for it in (self.transfers, self.copies))
        provider = f"gmcast.listen_addr=tcp://{group[member]};ist.recv_addr={transfers};gcache.size=32M"
        words = ["--no-defaults", f"--datadir={data}", f"--socket={data}/socket", f"--pid-file={data}/pid"]
        words += [f"--port={self.ports[member]}", f"--innodb-flush-log-at-trx-commit={self.flushes}"]
        words += [f"--wsrep-cluster-address=gcomm://{','.join(group)}"]
        words += [f"--wsrep-node-name={self.name(member)}", f"--wsrep-node-address={group[member]}"]
        words += [f"--wsrep-provider-options={provider};{TIMEOUTS}", f"--wsrep-sst-receive-address={copies}"]
        return [*words, *OPTIONS]

    def start_node(self, member: int, words: List[str]) -> None:
        """Starts a node with these options besides."""
        started = [*self.temporary(member), "mariadbd", *self.words(member), *words]
        self.nodes.start(self.name(member), started, USER)

    def start(self, member: int) -> None:
        self.start_node(member, [f"--wsrep-start-position={self.position(member)}"])

    def ask(self, member: int, statement: str, deadline: float = PATIENCE) -> List[Row]:
        """The rows that a node answers in so many seconds."""
        with contextlib.closing(Connection(self.ports[member], deadline)) as connection:
            return connection.ask(statement)

    def status(self, member: int, name: str) -> Optional[str]:
        """The value of a status variable of a node, or nothing."""
        with contextlib.suppress(*self.faults):
            for _, value in self.ask(member, f"SHOW STATUS LIKE '{name}'", 2):
                return value
        return None

    def serves(self, member: int) -> bool:
        return self.status(member, "wsrep_local_state_comment") == "Synced"

    def leads(self, member: int) -> bool:
        return self.serves(member)

    def store(self) -> Galera:
        return Galera(self.ports)

    def old_store(self) -> Galera:
        return Galera(self.ports, waits=False)

    def changes_at(self, member: int) -> Changes:
        return changes_at(self.ports[member])

    # Scenarios

    def unsynced(self) -> Changes:
        """Nothing happens, but no statement waits."""
        self.recording.run(self.old_store())
        return self.changes_at(0)

    def all_killed(self) -> Changes:
        """All nodes are killed at once, and started again."""

        def disturb() -> None:
            for member in range(COUNT):
                self.nodes.kill(self.name(member))
            self.start_all()

        return self.run(disturb)

    def split(self) -> Changes:
        """A node is cut off and made a cluster of its own, while the others go on. Half of the clients ask
        it, half the others."""
        apart = COUNT - 1
        name = self.name(apart)

        def disturb() -> None:
            self.ask(apart, "SET GLOBAL wsrep_provider_options = 'gmcast.isolate=1'")
            self.nodes.wait_until(name, lambda: self.status(apart, "wsrep_cluster_status") == "non-Primary")
            self.ask(apart, "SET GLOBAL wsrep_provider_options = 'pc.bootstrap=YES'")

        for ports in (self.ports[:apart], self.ports[apart:]):
            self.load.add_clients(self.recording.clients // 2, Galera(ports), self.recording.habits)
        self.load.run(once(disturb))
        return self.changes_at(0)


SCENARIOS: Dict[str, Scenario] = {
    "healthy": lambda it: GaleraMembers(it).healthy(),
    "killed": lambda it: GaleraMembers(it).killed(1),
    "stopped": lambda it: GaleraMembers(it).stopped(0.5, 5.0),
    "all-killed": lambda it: GaleraMembers(it).all_killed(),
    "unflushed": lambda it: GaleraMembers(it, flushes=0).all_killed(),
    "unsynced": lambda it: GaleraMembers(it).unsynced(),
    "split": lambda it: GaleraMembers(it).split(),
}

if __name__ == "__main__":
    needed = ["mariadbd", "rsync", PROVIDER]
    sys.exit(main(sys.argv[1:], "mariadb-server galera-4", needed, SCENARIOS, LAST_CALLS))
