#!/usr/bin/env python3
"""Measures what casbench says of many recordings of the stores, and what is true of them by the stores' own logs.

    python3 examples/stores/measure.py FOLDER [STORE ..] [--recordings 10] [--calls 3000] [--keep-all]

FOLDER is made. STORE is the name of a folder beside this file, such as redis or etcd; all are measured if none is named. Two tables are
printed, with a row for each fault of a store. The first has how many recordings there are, with the seeds 1
and on; how many calls had no answer, the least, the middle and the most of a recording; how many of these took effect by the log; what
`check --rule-out` answers, and in how many seconds of a processor; and what `verify` says of the witness by the log. The second has
what README shows of it, folded. A recording is kept there, with the logs of its nodes, unless it gets `yes` and its witness is valid;
with --keep-all each one is.

The exit status is 1 if a store that keeps its promise was accused, or a recording got `yes` that its log contradicts: what nobody read
is to be looked for there by hand.
"""

import argparse
import pathlib
import shutil
import subprocess
import sys
from collections import Counter
from concurrent.futures import ThreadPoolExecutor
from dataclasses import dataclass
from typing import Iterable, List, NamedTuple, Sequence

HERE = pathlib.Path(__file__).resolve().parent
sys.path.insert(0, str(HERE.parents[1] / "recording"))

from recorder import PRINTED


class Row(NamedTuple):
    """A row of the tables: a scenario of a store, what happens meanwhile, whether the store survives that, and how many of a thousand answers
    are dropped."""

    store: str
    scenario: str
    happens: str
    is_survived: bool = True
    dropped: int = 0


STOPPED, RESTARTED = "the node is stopped for a while, and goes on", "the node is killed, and started again from its log"
FAILOVER = "a failover to a {} that had lost its link: acknowledged writes are lost"
OLD_READS = "reads from a {} that had lost its link for a while"

ROWS = (
    Row("redis", "healthy", "nothing"),
    Row("redis", "paused", STOPPED),
    Row("redis", "restarted", RESTARTED),
    Row("redis", "waited", "a failover, each answer waiting for the replica (`WAIT`)"),
    Row("redis", "failover", FAILOVER.format("replica"), False),
    Row("redis", "split", "a split brain: two primaries", False),
    Row("redis", "replica-reads", OLD_READS.format("replica"), False),
    Row("postgresql", "healthy", "nothing"),
    Row("postgresql", "paused", STOPPED),
    Row("postgresql", "restarted", RESTARTED),
    Row("postgresql", "synchronous", "a failover, each change waiting for the standby"),
    Row("postgresql", "failover", FAILOVER.format("standby"), False),
    Row("postgresql", "standby-reads", OLD_READS.format("standby"), False),
    Row("zookeeper", "healthy", "nothing"),
    Row("zookeeper", "killed", "a member is killed, the leader every second time, and started again"),
    Row("zookeeper", "stopped", "the leader is stopped until another one leads, and goes on"),
    Row("zookeeper", "recovering", "the leader is killed while another member starts again", False),
    Row("zookeeper", "unsynced", "reads without `sync` from a member that was stopped", False),
    Row("etcd", "healthy", "nothing"),
    Row("etcd", "healthy", "4 % of the answers are lost", dropped=40),
    Row("etcd", "killed", "one or two members are killed, and started again"),
    Row("etcd", "stopped", "the leader is stopped for 0.2 to 1.5 s, and goes on"),
    Row("etcd", "stale", "serializable reads from a member that was stopped", False),
    Row("nats", "healthy", "nothing"),
    Row("nats", "bucket-alone", "nothing; a bucket of one replica"),
    Row("nats", "killed", "a server is killed, the leader every second time, and started again"),
    Row("nats", "bucket", "nothing; a bucket of three replicas", False),
    Row("nats", "stopped", "the leader is stopped for 6 to 12 s, and goes on", False),
    Row("nats", "tails", "two of three servers lose what they hadn't synced", False),
    Row("nats", "leader-reads", "the leader is stopped, and goes on; gets from leaders", False),
    Row("nats", "direct", "nothing; direct gets", False),
    Row("galera", "healthy", "nothing"),
    Row("galera", "killed", "a node is killed, and started again"),
    Row("galera", "stopped", "a node is stopped for 0.5 to 5 s, and goes on"),
    Row("galera", "all-killed", "all nodes are killed, and started again from the one that has most"),
    Row("galera", "unflushed", "the same, the log of InnoDB not flushed at commits", False),
    Row("galera", "split", "a split brain: a node that is cut off is made a cluster of its own", False),
    Row("galera", "unsynced", "nothing; `wsrep_sync_wait` is 0", False),
)

NAMES = {"redis": "Redis", "postgresql": "PostgreSQL", "zookeeper": "ZooKeeper", "etcd": "etcd", "nats": "JetStream", "galera": "Galera"}

TIMED = """
import resource, subprocess, sys
subprocess.run(sys.argv[1:])
print(sum(resource.getrusage(resource.RUSAGE_CHILDREN)[:2]))
"""
"""Runs the words behind it, and prints how many seconds of a processor they took."""


@dataclass(frozen=True)
class Measured:
    """What was found of a recording."""

    history: pathlib.Path
    lost: int
    effects: int
    answer: str
    seconds: float
    by_log: str


def printed_by(*words: object) -> str:
    """What a command prints."""
    return subprocess.run([str(it) for it in words], stdout=subprocess.PIPE, text=True).stdout


def kind_of(line: str) -> str:
    """An answer without its numbers."""
    return " ".join(it for it in line.split() if "=" not in it or it.startswith("kind="))


def measured(setting: argparse.Namespace, row: Row, seed: int) -> Measured:
    """Makes a recording, and has it checked."""
    name = f"{row.store}-{row.scenario}-{row.dropped}-{seed}"
    history, witness, logs = (setting.folder / f"{name}.{it}" for it in ("ndjson", "witness", "logs"))
    words = ["--scenario", row.scenario, "--calls", setting.calls, "--seed", seed, "--dropped", row.dropped]
    words += ["--witness", witness, "--logs", logs]
    printed = PRINTED.fullmatch(printed_by(sys.executable, HERE / row.store / "record.py", history, *words))
    if not printed:
        raise SystemExit(f"{name} was not recorded")
    *answer, seconds = printed_by(sys.executable, "-c", TIMED, setting.program, "check", "--rule-out", history).splitlines()
    by_log = printed_by(setting.program, "verify", history, witness).split()[0]
    found = Measured(history, int(printed[2]), int(printed[3]), kind_of("".join(answer)), float(seconds), by_log)
    if (found.answer, by_log) == ("yes", "verified") and not setting.keep_all:
        history.unlink()
        witness.unlink()
        shutil.rmtree(logs)
    return found


def faults_of(row: Row, found: Iterable[Measured]) -> List[str]:
    """What shouldn't have been found: an accusation of a store that keeps its promise, or a `yes` that the log contradicts."""
    wanted = {("yes", "verified")}
    if not row.is_survived:
        wanted |= {(it.answer, "broken") for it in found if it.answer.startswith("refuted ")}
    return [f"{it.history}: {it.answer}, {it.by_log} by the log" for it in found if (it.answer, it.by_log) not in wanted]


# The tables


def counted(answers: Sequence[str]) -> str:
    """How often each answer came."""
    return ", ".join(f"{count} `{it}`" for it, count in Counter(answers).most_common())


def spread(numbers: Sequence[int]) -> str:
    """The least, the middle and the most."""
    row = sorted(numbers)
    return f"{row[0]}, {row[len(row) // 2]}, {row[-1]}"


def line_of(*cells: object) -> str:
    """A line of a table."""
    return "| " + " | ".join(map(str, cells)) + " |"


def heads_of(row: Row, found: Sequence[Measured]) -> List[object]:
    """The cells with which a row begins in both tables."""
    return [NAMES[row.store], row.happens, len(found)]


def full_line(row: Row, found: Sequence[Measured]) -> str:
    """The line of a row in the first table."""
    seconds = [it.seconds for it in found]
    lost = [spread([it.lost for it in found]), spread([it.effects for it in found])]
    took = f"{min(seconds):.2f} to {max(seconds):.2f}"
    return line_of(*heads_of(row, found), *lost, counted([it.answer for it in found]), took, counted([it.by_log for it in found]))


def short_line(row: Row, found: Sequence[Measured]) -> str:
    """The line of a row in the table that README folds."""
    return line_of(*heads_of(row, found), counted([it.answer for it in found]), counted([it.by_log for it in found]))


HEADS = ["store", "what happens meanwhile", "recordings"]
FULL_HEADS = [*HEADS, "calls without an answer", "of these took effect", "`check --rule-out`", "seconds", "by the store's log"]
SHORT_HEADS = [*HEADS, "`check --rule-out`", "by the store's log"]


def print_heads(heads: Sequence[str]) -> None:
    """Prints the first lines of a table."""
    print(line_of(*heads))
    print("|" + "---|" * len(heads), flush=True)


def store_named(name: str) -> str:
    """The name of a store. Raises ArgumentTypeError if it has no rows."""
    if name not in NAMES:
        raise argparse.ArgumentTypeError(f"the stores are {', '.join(NAMES)}, and not {name!r}")
    return name


def words_of(arguments: Sequence[str]) -> argparse.Namespace:
    """Reads the words of the command."""
    parser = argparse.ArgumentParser(description=__doc__.splitlines()[0])
    add = parser.add_argument
    add("folder", type=pathlib.Path)
    add("stores", nargs="*", type=store_named, metavar="STORE")
    add("--recordings", type=int, default=10)
    add("--calls", type=int, default=3000)
    add("--at-once", type=int, default=2)
    add("--keep-all", action="store_true")
    add("--program", default=str(HERE.parents[1] / "casbench"))
    return parser.parse_args(arguments)


def main() -> int:
    setting = words_of(sys.argv[1:])
    setting.folder.mkdir()
    lines: List[str] = []
    faults: List[str] = []
    print_heads(FULL_HEADS)
    with ThreadPoolExecutor(setting.at_once) as pool:
        for row in (it for it in ROWS if it.store in (setting.stores or NAMES)):
            found = list(pool.map(lambda seed: measured(setting, row, seed), range(1, setting.recordings + 1)))
            print(full_line(row, found), flush=True)
            lines.append(short_line(row, found))
            faults += faults_of(row, found)
    print()
    print_heads(SHORT_HEADS)
    print("\n".join(lines))
    for it in faults:
        print(it, file=sys.stderr)
    return 1 if faults else 0


if __name__ == "__main__":
    sys.exit(main())
