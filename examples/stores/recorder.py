"""The command that records a store in one of its scenarios, with the witness by the store's own log.

    python3 examples/stores/redis/record.py FILE [--scenario healthy] [--witness WITNESS] [--logs FOLDER]

Neither file may be there, nor the folder. The nodes run on free ports of the loopback, in a directory of their
own, and end with the command.
"""

import argparse
import contextlib
import dataclasses
import pathlib
import re
import shutil
import signal
import sys
import tempfile
import time
from typing import Callable, Iterable, Iterator, List, Mapping, Optional, Sequence

from nodes import PATIENCE, Nodes, are_installed

from casbench_recording.history import History, Pair
from casbench_recording.history.format import Operation
from casbench_recording.history.witness_checker import Texts
from casbench_recording.load import MIXTURE, Client, Habits, Load, Store
from casbench_recording.witness import StoreLog, witness_by_log

PRINTED = re.compile(r"recorded (\d+) calls in \S+, (\d+) of them without a reply, of which (\d+) took effect\n")
"""What the command prints: how many calls there are, how many were lost, and how many of these took effect by the store's log."""

Changes = Mapping[int, Pair]
"""The changes in a store's own log: by the number of the call that made it, the pair of each."""


class Recording:
    """A store as it is recorded: its nodes, the load on them, how many clients ask, with which habits, and the
    folder for logs if they are kept."""

    def __init__(
        self, nodes: Nodes, load: Load, clients: int, habits: Habits, logs: Optional[pathlib.Path] = None
    ) -> None:
        self.nodes, self.load, self.clients, self.habits, self.logs = nodes, load, clients, habits, logs

    def keep_log(self, name: str, lines: Iterable[str]) -> None:
        """Writes a log of the store beside those of its nodes, such as what one replica has, if logs are kept."""
        if self.logs is not None:
            (self.logs / name).write_text("".join(f"{it}\n" for it in lines), encoding="utf-8")

    def run(self, store: Store, disturb: Callable[[], None] = lambda: None, calls_between: int = 600) -> None:
        """Runs the clients; the nodes are disturbed each time there are so many more calls."""
        self.load.add_clients(self.clients, store, self.habits)
        self.load.run(disturb, calls_between)

    def read_at_last(self, store: Store) -> None:
        """Reads each document once more, so that what was lost after the last get of it is seen."""
        load, history = Load(self.load.history, self.load.seed), self.load.history
        (reader,) = load.add_clients(1, store, self.habits)
        until = time.monotonic() + PATIENCE
        for id in map("d{}".format, range(self.habits.documents)):
            replies = history.replies
            while history.replies == replies and time.monotonic() < until:
                reader.make(Operation("get", id))
        reader.leave()
        self.load.seen.update(load.seen)

    def run_beside_readers(
        self, store: Store, others: Store, disturb: Callable[[List[Client]], None], node: Optional[int] = None
    ) -> None:
        """Runs half of the clients on the store. The others only read, from one node of another store, and are handed to who disturbs."""
        self.load.add_clients(self.clients // 2, store, self.habits)
        reads = dataclasses.replace(self.habits, mixture={"get": 1}, is_bound=True)
        readers = self.load.add_clients(self.clients // 2, others, reads, node)
        self.load.run(lambda: disturb(readers))


LAST_CALLS = 500
"""Room for the calls by which all documents are read at last, of which many may be lost: a store may still look
for its leaders."""

Scenario = Callable[[Recording], Changes]
"""Starts the nodes, runs the load and disturbs them; returns the changes of the surviving log."""


def words_of(arguments: Sequence[str], scenarios: Mapping[str, Scenario]) -> argparse.Namespace:
    """Reads the words of the command."""
    parser = argparse.ArgumentParser(description="Records clients of a store as a history for casbench.")
    add = parser.add_argument
    add("file", help="the file that the history is written to, and must not be there")
    add("--scenario", choices=scenarios, default="healthy", help="what happens to the nodes meanwhile (healthy)")
    add("--witness", help="a file that the witness by the store's log is written to, and must not be there")
    add("--logs", type=pathlib.Path, help="a folder that the logs of the nodes are kept in, and must not be there")
    add("--calls", type=int, default=3000, help="how many calls are made in all (3000)")
    add("--clients", type=int, default=8, help="how many clients ask at once (8)")
    add("--documents", type=int, default=8, help="how many documents they share (8)")
    add("--seed", type=int, default=1, help="what turns and disturbances are drawn from (1)")
    add("--dropped", type=int, default=0, help="of a thousand answers so many are dropped (0)")
    return parser.parse_args(arguments)


def interrupted(*_: object) -> None:
    """Ends the recording, as Ctrl-C does."""
    raise KeyboardInterrupt


@contextlib.contextmanager
def kept_logs(nodes: Nodes, logs: Optional[pathlib.Path]) -> Iterator[None]:
    """Copies what the nodes printed to the folder at the end of the block, however it ends, if logs are kept."""
    if logs is not None:
        logs.mkdir()
    try:
        yield
    finally:
        for it in nodes.folder.glob("*.log") if logs is not None else []:
            shutil.copy(it, logs / it.name)


def recorded(words: argparse.Namespace, scenario: Scenario, last_calls: int) -> StoreLog:
    """Records, with room for so many calls after those of the load; returns what the store's log says of the
    calls."""
    habits, room = Habits(MIXTURE, words.documents, words.dropped), words.calls + last_calls
    with tempfile.TemporaryDirectory(prefix="casbench-store-") as folder, Nodes(pathlib.Path(folder)) as nodes:
        with kept_logs(nodes, words.logs), History(words.file, most_events=2 * room) as history:
            load = Load(history, words.seed, has_ended=lambda: history.calls >= words.calls)
            changes = scenario(Recording(nodes, load, words.clients, habits, words.logs))
        return StoreLog(changes, load.seen)


def main(
    arguments: Sequence[str],
    package: str,
    programs: Sequence[str],
    scenarios: Mapping[str, Scenario],
    last_calls: int = 0,
) -> int:
    """Records by the words given, with room for so many calls after those of the load. Returns the exit status:
    0, 1 if the store isn't installed, 130 if it was interrupted."""
    words = words_of(arguments, scenarios)
    if not are_installed(programs):
        print(f"record.py: not installed here: apt-get install {package}", file=sys.stderr)
        return 1
    for kind in (signal.SIGINT, signal.SIGTERM):
        signal.signal(kind, interrupted)
    try:
        report(words, recorded(words, scenarios[words.scenario], last_calls))
    except KeyboardInterrupt:
        return 130
    return 0


def report(words: argparse.Namespace, log: StoreLog) -> None:
    """Writes the witness, and prints how many calls there are."""
    history = pathlib.Path(words.file).read_bytes()
    if words.witness:
        with open(words.witness, "x", encoding="utf-8") as file:
            file.writelines(witness_by_log(history, log))
    calls = Texts(history, b"").calls
    lost = [it.number for it in calls.values() if it.answered is None]
    effects = sum(1 for it in lost if it in log.changes)
    print(f"recorded {len(calls)} calls in {words.file}, {len(lost)} of them without a reply, of which {effects} took effect")
