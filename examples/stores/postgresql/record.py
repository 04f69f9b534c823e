#!/usr/bin/env python3
"""Records clients of PostgreSQL servers, which are disturbed meanwhile, as a history text.

    python3 examples/stores/postgresql/record.py FILE [--scenario NAME] [--witness WITNESS]

README.md has the scenarios: which of them PostgreSQL promises to survive, and which not.
"""

import contextlib
import os
import pathlib
import shutil
import subprocess
import sys
import time
from typing import Dict, List, Optional

HERE = pathlib.Path(__file__).resolve().parent
sys.path[:0] = [str(HERE.parent), str(HERE.parents[2] / "recording")]

from copies import Group
from nodes import PATIENCE, NotReady
from recorder import Changes, Recording, Scenario, main
from store import SCHEMA, Connection, Postgres, PostgresError, changes_at

from casbench_recording.load import Unreachable

USER = "postgres" if os.geteuid() == 0 else None
"""Who the servers run as, since they refuse to run as root."""


def programs() -> pathlib.Path:
    """The folder of the newest release's programs."""
    return max(pathlib.Path("/usr/lib/postgresql").glob("*/bin"), key=lambda it: int(it.parent.name))


class PostgresGroup(Group[Postgres]):
    """A primary and, if it is asked for, a standby; one that is synchronous has each change before that is acknowledged."""

    calls_between = 1000

    def __init__(self, recording: Recording, has_standby: bool = False, is_synchronous: bool = False) -> None:
        super().__init__(recording)
        os.chmod(self.nodes.folder, 0o711)
        self.run_program("initdb", "-D", self.data(0), "-U", "postgres", "-A", "trust", "--no-sync", "-N")
        self.start(0)
        if has_standby:
            words = ["-D", self.data(1), "-h", "127.0.0.1", "-p", self.ports[0], "-U", "postgres", "-R", "-N"]
            self.run_program("pg_basebackup", *words)
            self.start(1)
            self.nodes.wait_until(self.name(1), lambda: self.ask(0, "SELECT state FROM pg_stat_replication") == [["streaming"]])
        if is_synchronous:
            self.ask(0, "ALTER SYSTEM SET synchronous_standby_names = '*'")
            self.ask(0, "SELECT pg_reload_conf()")
        self.ask(0, SCHEMA)

    def data(self, node: int) -> pathlib.Path:
        """The folder of a server's data, which belongs to it."""
        folder = self.nodes.folder / self.name(node)
        if not folder.exists():
            folder.mkdir(mode=0o700)
            if USER is not None:
                shutil.chown(folder, USER, USER)
        return folder

    def run_program(self, program: str, *words: object) -> None:
        """Runs a program of the package to its end."""
        with open(self.nodes.folder / f"{program}.log", "wb") as log:
            started = [*self.nodes.words_as(USER), str(programs() / program), *map(str, words)]
            subprocess.run(started, cwd=self.nodes.folder, stdin=subprocess.DEVNULL, stdout=log, stderr=log, check=True)

    def start(self, node: int) -> None:
        # (a server that was killed holds its memory until all of its processes are gone)
        settings = ["listen_addresses=127.0.0.1", "unix_socket_directories=", "shared_buffers=16MB", "max_connections=50"]
        words = [str(programs() / "postgres"), "-D", str(self.data(node)), "-p", str(self.ports[node])]
        last = time.monotonic() + PATIENCE
        while True:
            self.nodes.start(self.name(node), [*words, *(it for setting in settings for it in ("-c", setting))], USER)
            try:
                return self.nodes.wait_until(self.name(node), lambda: self.is_ready(node))
            except NotReady:
                if time.monotonic() > last:
                    raise
                self.nodes.kill(self.name(node))
                time.sleep(0.1)

    def is_ready(self, node: int) -> bool:
        try:
            return self.ask(node, "SELECT 1") == [["1"]]
        except (Unreachable, OSError, PostgresError):
            return False

    def ask(self, node: int, query: str) -> List[List[Optional[str]]]:
        """The rows that a server answers."""
        with contextlib.closing(Connection(self.ports[node], PATIENCE)) as connection:
            return connection.ask(query)

    def store(self, node: int = 0) -> Postgres:
        return Postgres([self.ports[node]])

    def changes_at(self, port: int) -> Changes:
        return changes_at(port)

    def cut(self) -> None:
        self.ask(1, "ALTER SYSTEM SET primary_conninfo = ''")
        self.ask(1, "SELECT pg_reload_conf()")
        self.nodes.wait_until(self.name(1), lambda: self.ask(1, "SELECT pid FROM pg_stat_wal_receiver") == [])

    def join(self) -> None:
        self.ask(1, "ALTER SYSTEM RESET primary_conninfo")
        self.ask(1, "SELECT pg_reload_conf()")

    def promote(self) -> None:
        self.ask(1, "SELECT pg_promote()")


SCENARIOS: Dict[str, Scenario] = {
    "healthy": lambda it: PostgresGroup(it).healthy(),
    "paused": lambda it: PostgresGroup(it).paused(),
    "restarted": lambda it: PostgresGroup(it).restarted(),
    "synchronous": lambda it: PostgresGroup(it, has_standby=True, is_synchronous=True).failover(0),
    "failover": lambda it: PostgresGroup(it, has_standby=True).failover(300),
    "standby-reads": lambda it: PostgresGroup(it, has_standby=True).copy_reads(),
}

if __name__ == "__main__":
    sys.exit(main(sys.argv[1:], "postgresql", ["/usr/lib/postgresql/*/bin/postgres"], SCENARIOS))
