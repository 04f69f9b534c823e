#!/usr/bin/env python3
"""Tests the checker on recordings of real stores, of Debian's packages, whose nodes run on the loopback: etcd,
Galera, JetStream, PostgreSQL, Redis and ZooKeeper.

    python3 tests/recorded_stores.py [PROGRAM]

PROGRAM is the built casbench; if it isn't named, the one that ./casbench would run. A line says which stores aren't
installed; of these nothing is tested. The last line says how many tests passed and failed.

Each recording is made by a command of its own (examples/stores/*/record.py). Its nodes are ended with it, however it
ends; and it ends with this test.
"""

import contextlib
import io
import os
import pathlib
import re
import signal
import subprocess
import sys
import tempfile
import threading
import time
from collections import Counter

from explanations import headline, lines_cited, reasons
from program import TOP
from program_test import ProgramTest, run_tests
from recordings import environment, judged
from running import asked, ended, run, started
from texts import OFFENCE

from casbench_recording.history.witness import checked

STORES = TOP / "examples" / "stores"
sys.path.insert(0, str(STORES))

from measure import NAMES, ROWS, words_of
from nodes import Nodes, are_installed, processes_in
from recorder import LAST_CALLS, PRINTED, interrupted

# What each store is of: its programs, and its package.
PACKAGES = {
    "etcd": (["etcd"], "etcd-server"),
    "galera": (["mariadbd", "rsync", "/usr/lib/galera/libgalera_smm.so"], "mariadb-server, with galera-4"),
    "nats": (["nats-server"], "nats-server"),
    "postgresql": (["/usr/lib/postgresql/*/bin/postgres"], "postgresql"),
    "redis": (["redis-server"], "redis-server"),
    "zookeeper": (["java", "/usr/share/java/zookeeper.jar"], "zookeeper"),
}

# The stores whose documents are read once more after the load, so that there are a few calls more than it has.
READ_AT_LAST = {"galera", "nats"}

# The most lines of a store's mapping.
MOST_LINES = 150

# How many seconds anything may take. A machine that has too much to do starts a node in minutes.
MOST_SECONDS = 600

# How many recordings are made at once, the commands that run now, and whether the tests are interrupted, so that nothing is
# waited for.
AT_ONCE = 3
RUNNING = set()
IS_INTERRUPTED = threading.Event()


@contextlib.contextmanager
def reachable_folder(prefix):
    """A folder that is removed at last, and that servers of another user reach."""
    with tempfile.TemporaryDirectory(prefix=prefix) as folder:
        os.chmod(folder, 0o711)
        yield folder


@contextlib.contextmanager
def recording(store, folder, *arguments, starts=()):
    """A recording as it runs, with what it makes in this folder; it is ended with this test."""
    words = [*starts, "setpriv", "--pdeathsig", "TERM", sys.executable, STORES / store / "record.py", *arguments]
    with started(words, stdin=subprocess.DEVNULL, env=environment(TMPDIR=str(folder))) as child:
        RUNNING.add(child)
        try:
            yield child
        finally:
            RUNNING.remove(child)


def recorded(store, folder, name, *arguments):
    """A recording: its file, that of the witness by the store's log, and how many calls there are, were lost, and took
    effect of these. What its nodes printed is kept."""
    history, witness, logs = (folder / f"{store}-{name}.{it}" for it in ("ndjson", "witness", "logs"))
    with recording(store, folder, history, "--witness", witness, "--logs", logs, *arguments) as child:
        status, out, err = ended(child, MOST_SECONDS)
    printed = PRINTED.fullmatch(out)
    if status or not printed:
        raise AssertionError(f"the recording ended with {status}: {out[-500:]}{err[-1000:]}")
    if not any(it.stat().st_size for it in logs.glob("*.log")):
        raise AssertionError("no log of a node was kept")
    return history, witness, tuple(int(it) for it in printed.groups())


def answer_by_log(program, history, witness):
    """What the program says of the witness by the store's own log, and the package's checker too."""
    texts = history.read_bytes(), witness.read_bytes()
    line, own = asked(program, "verify", *texts)[1], checked(*texts)[1]
    if line.strip() != own.partition("\n")[0]:
        raise AssertionError(f"{line}, and the checker says {own}")
    return line


# What is left behind


def processes_of(folder):
    """The processes that work in this folder, or have it among their arguments."""
    processes = set(processes_in(pathlib.Path(folder)))
    for it in pathlib.Path("/proc").glob("[0-9]*"):
        with contextlib.suppress(OSError):  # (it has ended)
            if os.fsencode(folder) in (it / "cmdline").read_bytes():
                processes.add(int(it.name))
    return processes


def wait_until(holds, why):
    """Waits until it holds."""
    last = time.monotonic() + MOST_SECONDS
    while not holds():
        if time.monotonic() > last or IS_INTERRUPTED.is_set():
            raise AssertionError(why)
        time.sleep(0.05)


# What is stopped

# The command of a node that starts one more process, as a server of PostgreSQL does.
A_NODE = ["sh", "-c", "sleep 600 & wait"]

# A recorder that starts such a node in a folder and stops it on request.
A_RECORDER = """
import pathlib, signal, sys
from nodes import Nodes
with Nodes(pathlib.Path(sys.argv[1])) as nodes:
    nodes.start("node", sys.argv[2:])
    sys.stdin.readline()
    nodes.stop("node")
    signal.pause()
"""


def state_of(process):
    """The state of a process: T if it is stopped, S if it sleeps; nothing if it has ended."""
    with contextlib.suppress(OSError):
        return pathlib.Path(f"/proc/{process}/stat").read_text().rpartition(") ")[2][0]
    return ""


def states_in(folder):
    """The states of the processes of a folder."""
    return "".join(sorted(map(state_of, processes_of(folder))))


@contextlib.contextmanager
def folder_of_nodes():
    """A folder, and what waits until the processes that work in it have these states. They are killed at last."""
    with reachable_folder("casbench-stopped-") as folder:
        try:
            why = "the states never were {}"
            yield folder, lambda states: wait_until(lambda: states_in(folder) == states, why.format(states))
        finally:
            for it in processes_of(folder):
                with contextlib.suppress(ProcessLookupError):
                    os.kill(it, signal.SIGKILL)


# The command that runs another one, and waits for it.
A_SHELL = ["sh", "-c", '"$@"; exit', "sh"]

# Scenarios in which the log may contradict a `yes`: what it lost was read by nobody, or no call could read it.
UNREAD = {("nats", "stopped")}


class Table(ProgramTest):
    """The table of docs/BENCHMARKS.md, which README folds, and the mappings of the stores."""

    def check_row(self, row, happens, count, answers, by_log):
        """The row is that of a scenario, of ten recordings or more, none of which was answered against the store's
        log, unless nobody read what was lost."""
        self.assertEqual(happens, row.happens)
        answers, by_log = counts_of(answers), counts_of(by_log)
        unread = answers.get("yes", 0) - by_log.get("verified", 0)
        self.assertEqual(answers.get("refuted", 0) + unread, by_log.get("broken", 0))
        self.assertTrue(unread == 0 or unread > 0 and (row.store, row.scenario) in UNREAD, unread)
        self.assertEqual((sum(answers.values()), sum(by_log.values())), (int(count), int(count)))
        self.assertGreaterEqual(int(count), 10)
        self.assertTrue(answers.keys() == {"yes"} or not row.is_survived)

    def test_table(self):
        page = (TOP / "docs" / "BENCHMARKS.md").read_text(encoding="utf-8")
        names = "|".join(NAMES.values())
        rows = re.findall(rf"^\| ({names}) \| (.*) \| (\d+) \| .* \| .* \| (.*) \| .* \| (.*) \|$", page, re.MULTILINE)
        with self.subTest("the stores of the rows"):
            self.assertEqual([it[0] for it in rows], [NAMES[it.store] for it in ROWS])
        for row, (store, *cells) in zip(ROWS, rows):
            with self.subTest(f"{store}, {row.happens}"):
                self.check_row(row, *cells)

    def test_folded_table(self):
        """The rows in README have as many recordings as there are."""
        readme = (TOP / "README.md").read_text(encoding="utf-8")
        names = "|".join([*NAMES.values(), "all six"])
        counts = re.findall(rf"^\| (?:{names}) \| .* \| (\d+) \|", readme, re.MULTILINE)
        self.assertEqual(sum(map(int, counts)), 10 * len(ROWS))

    def test_stores_by_name(self):
        self.assertEqual(words_of(["folder", "nats", "galera"]).stores, ["nats", "galera"])
        self.assertEqual(words_of(["folder"]).stores, [])
        with contextlib.redirect_stderr(io.StringIO()) as errors, self.assertRaises(SystemExit):
            words_of(["folder", "nats", "nothing"])
        self.assertIn("and not 'nothing'", errors.getvalue())

    def test_lengths_of_mappings(self):
        for store in PACKAGES:
            with self.subTest(store):
                lines = (STORES / store / "store.py").read_text(encoding="utf-8").splitlines()
                self.assertLessEqual(len(lines), MOST_LINES)


def counts_of(cell):
    """How often each word stands in a cell."""
    counts = Counter()
    for count, word in re.findall(r"(\d+) `(\w+)", cell):
        counts[word] += int(count)
    return counts


class StoppedNodes(ProgramTest):
    """What is done to nodes, whichever store they are of."""

    def test_node_that_is_stopped(self):
        """A node and what it started are stopped, and go on, also if the node is killed in the meantime. Both end with
        the nodes."""
        with folder_of_nodes() as (folder, wait_for):
            with Nodes(pathlib.Path(folder)) as nodes:
                nodes.start("node", A_NODE)
                wait_for("SS")
                nodes.stop("node")
                wait_for("TT")
                nodes.go_on("node")
                wait_for("SS")
                nodes.stop("node")
                wait_for("TT")
                nodes.kill("node")
                wait_for("S")
            self.assertEqual(processes_of(folder), set())

    def test_node_whose_recorder_is_killed(self):
        """What a node has started goes on when the recorder is killed that had stopped both; the node ends with it."""
        with folder_of_nodes() as (folder, wait_for):
            words = [sys.executable, "-c", A_RECORDER, folder, *A_NODE]
            with subprocess.Popen(words, stdin=subprocess.PIPE, env=environment(PYTHONPATH=str(STORES))) as recorder:
                wait_for("SSS")
                recorder.stdin.write(b"\n")
                recorder.stdin.flush()
                wait_for("STT")
                recorder.kill()
            wait_for("S")


# Honest recordings, by their stores: a name, how many calls there are, the name of the recording, its options, and how
# many calls are lost at least, and take effect of these. What takes longest comes first.
LONGER = ["--calls", "5000"]
HONEST = {
    "etcd": [
        ("etcd, the leader stopped", 5000, "stopped", [*LONGER, "--scenario", "stopped"], 1),
        ("etcd, members killed", 5000, "killed", [*LONGER, "--scenario", "killed"], 1),
        ("etcd, answers dropped", 5000, "dropped", [*LONGER, "--dropped", "40"], 1, 1),
        ("etcd", 5000, "healthy", LONGER),
    ],
    "galera": [
        ("Galera, all nodes killed", 2000, "all-killed", ["--calls", "2000", "--scenario", "all-killed"], 1),
        ("Galera", 3000, "healthy", ["--dropped", "20"], 1, 1),
    ],
    "nats": [
        ("JetStream, servers killed", 2000, "killed", ["--calls", "2000", "--scenario", "killed"], 1),
        ("JetStream, a bucket of one replica", 3000, "bucket-alone", ["--scenario", "bucket-alone"]),
        ("JetStream", 3000, "healthy", ["--dropped", "20"], 1, 1),
    ],
    "redis": [
        ("Redis", 3000, "healthy", ["--dropped", "20"], 1, 1),
        ("Redis, restarted", 3000, "restarted", ["--scenario", "restarted"], 1),
    ],
    "postgresql": [
        ("PostgreSQL", 3000, "healthy", ["--dropped", "20"], 1, 1),
        ("PostgreSQL, paused", 3000, "paused", ["--scenario", "paused"], 1, 1),
        ("PostgreSQL, restarted", 3000, "restarted", ["--scenario", "restarted"], 1),
    ],
    "zookeeper": [
        ("ZooKeeper", 3000, "healthy", ["--dropped", "20"], 1),
        ("ZooKeeper, members killed", 3000, "killed", ["--scenario", "killed"], 1),
    ],
}

# Recordings of stores that broke their promise: a name, the scenario, the kind of evidence, and the anomalies that an
# explanation may name. A get that is behind shows an old version, or no document, or neither a write that another get
# has shown before. A failover that loses writes, deletes among them, and gives their versions anew may show by any call
# first, and so as any anomaly; but one is named.
BEHIND = ("Stale read", "Acknowledged write not seen", "Shown and taken back")
LOST = (*BEHIND, "One version given twice", "Acknowledged write lost", "Lost update", "Condition not honoured")
LOST += ("Version that nobody wrote", "Read of something nobody wrote", "Conflict without a cause")
BROKEN = {
    "etcd": [("etcd, stale gets", "stale", "stale-get", BEHIND)],
    "galera": [("Galera, without a wait", "unsynced", "stale-get", BEHIND)],
    "nats": [
        ("JetStream, two publishes on one expected sequence", "bucket", "stale-swap", LOST),
        ("JetStream, the ends of files lost", "tails", "pair-twice", LOST),
    ],
    "redis": [("Redis, a failover", "failover", "pair-twice", LOST)],
    "postgresql": [("PostgreSQL, a failover", "failover", "pair-twice", LOST)],
    "zookeeper": [("ZooKeeper, gets without sync", "unsynced", "stale-get", BEHIND)],
}

# Recordings that are interrupted: a name, the scenario, what starts the recording, the signal, and how many nodes run.
INTERRUPTED = {
    "etcd": [
        ("etcd, Ctrl-C", "killed", [], signal.SIGINT, 1),
        ("etcd, ended", "stopped", [], signal.SIGTERM, 3),
        ("etcd, its parent killed", "healthy", A_SHELL, signal.SIGKILL, 3),
    ],
    "galera": [
        ("Galera, Ctrl-C", "killed", [], signal.SIGINT, 2),
        ("Galera, its parent killed", "healthy", A_SHELL, signal.SIGKILL, 3),
    ],
    "nats": [
        ("JetStream, Ctrl-C", "killed", [], signal.SIGINT, 2),
        ("JetStream, its parent killed", "healthy", A_SHELL, signal.SIGKILL, 3),
    ],
    "redis": [
        ("Redis, Ctrl-C", "paused", [], signal.SIGINT, 1),
        ("Redis, its parent killed", "restarted", A_SHELL, signal.SIGKILL, 1),
    ],
    "postgresql": [
        ("PostgreSQL, Ctrl-C", "paused", [], signal.SIGINT, 1),
        ("PostgreSQL, its parent killed", "healthy", A_SHELL, signal.SIGKILL, 1),
    ],
    "zookeeper": [
        ("ZooKeeper, Ctrl-C", "killed", [], signal.SIGINT, 2),
        ("ZooKeeper, its parent killed", "healthy", A_SHELL, signal.SIGKILL, 3),
    ],
}


class Recordings(ProgramTest):
    """Recordings of the stores that are installed, several at once."""

    def interrupt(self):
        IS_INTERRUPTED.set()
        for child in list(RUNNING):
            child.terminate()

    def check_honest(self, folder, store, calls, name, options, least_lost=0, least_effects=0):
        """The recording is explained, and the witness that the store's own log is explains it, whatever calls are left
        out."""
        history, witness, (count, lost, effects) = recorded(store, folder, name, *options)
        self.assertIn(count, range(calls, calls + 1 + LAST_CALLS * (store in READ_AT_LAST)))
        self.assertGreaterEqual(lost, least_lost)
        self.assertGreaterEqual(effects, least_effects)
        answers = judged(self.program, history, "--rule-out"), answer_by_log(self.program, history, witness)
        answers = [it.partition(" left_out=")[0] for it in answers]
        self.assertEqual(answers, [f"yes docs=8 calls={count}", f"verified docs=8 calls={count}"])

    def check_broken(self, folder, store, scenario, kind, anomalies):
        """There is evidence of this kind, the store's log doesn't explain the recording, and an explanation names one of
        these anomalies."""
        history, witness, _ = recorded(store, folder, scenario, "--scenario", scenario)
        line = judged(self.program, history)
        self.assertEqual(line.partition(" calls=")[0], f"refuted kind={kind}")
        self.assertEqual(answer_by_log(self.program, history, witness).split()[0], "broken")
        self.check_explanation(history, int(OFFENCE.match(f"{line}\n")["event"]) + 1, anomalies)

    def check_explanation(self, history, broken, anomalies):
        """The headline names one of these anomalies. It and the reasons cite no line after the broken reply if the text up to
        that reply is refuted by itself."""
        _, story, _ = run(self.program, ["explain", history])
        anomaly, line = headline(story)
        self.assertIn(anomaly, anomalies)
        if max([line, *lines_cited(reasons(story))]) > broken:
            begin = "".join(history.read_text().splitlines(keepends=True)[:broken])
            self.assertEqual(run(self.program, ["check", "--rule-out"], begin)[1].split()[0], "no")

    def check_interrupted(self, store, scenario, starts, sent, nodes):
        """A recording gets this signal, or what started it does, in the midst of its work. The history is explained, no
        process is left, and no folder."""
        with reachable_folder("casbench-interrupted-") as folder:
            history = pathlib.Path(folder) / "history.ndjson"
            with recording(store, folder, history, "--scenario", scenario, "--calls", "500000", starts=starts) as child:
                wait_until(lambda: history.exists() and history.stat().st_size > 200_000, "nothing was recorded")
                # (a node that was killed is started again)
                wait_until(lambda: len(list(processes_in(pathlib.Path(folder)))) >= nodes, "no nodes run")
                child.send_signal(sent)
                ended(child, MOST_SECONDS)
            wait_until(lambda: not processes_of(folder), "a process was left")
            self.assertEqual(os.listdir(folder), [history.name])
            self.assertEqual(judged(self.program, history).split()[0], "yes")

    def rows(self, store, folder):
        """A name, what is checked, and of what."""
        yield from ((name, self.check_honest, folder, store, *row) for name, *row in HONEST[store])
        yield from ((name, self.check_broken, folder, store, *row) for name, *row in BROKEN[store])
        yield from ((name, self.check_interrupted, store, *row) for name, *row in INTERRUPTED[store])

    def test_stores(self):
        installed = [it for it, (programs, _) in PACKAGES.items() if are_installed(programs)]
        for store in sorted(PACKAGES.keys() - installed):
            with self.subTest(store):
                package = f"Debian's package {PACKAGES[store][1]}"
                self.skipTest(f"{store} isn't installed here ({package}), so nothing was recorded of it")
        with reachable_folder("casbench-stores-test-") as folder:
            rows = [row for store in installed for row in self.rows(store, pathlib.Path(folder))]
            if rows:
                self.run_subtests(lambda check, *arguments: check(*arguments), rows, workers=AT_ONCE)


if __name__ == "__main__":
    for kind in (signal.SIGINT, signal.SIGTERM):
        signal.signal(kind, interrupted)
    try:
        sys.exit(run_tests())
    except KeyboardInterrupt:
        sys.exit(130)
