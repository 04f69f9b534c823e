#!/usr/bin/env python3
"""Records an application through the proxy, on a stand-in of three nodes that is disturbed or goes wrong, and has each
recording judged strictly and under the profile for OpenSearch.

    python3 tests/recorded_cluster.py [PROGRAM]
    python3 tests/recorded_cluster.py --row NAME OUT

The second one makes the recording of one row, to be looked at. PROGRAM is the built casbench; if it isn't named, the
one that ./casbench would run. A cluster that does what OpenSearch documents gets `yes` under the profile, however it is
disturbed, and a strict check accuses it. Each fault is refuted under the profile by a rule that it breaks. The last
line says how many tests passed and failed.
"""

import contextlib
import json
import os
import re
import shutil
import subprocess
import sys
import tempfile
import time
import urllib.error
from concurrent.futures import ProcessPoolExecutor
from typing import NamedTuple

from cluster_application import Application, Load
from program import TOP
from program_test import run_tests
from recorded_real_client import PYTHON, needs_client
from recordings import FolderTest, Started, judged

# How many nodes there are, how many recordings are made at once, how many times a proxy is started and the index is made, and how many
# seconds lie between two tries of the latter.
NODES, AT_ONCE, STARTS, BETWEEN = 3, 3, 5, 0.5

# How the nodes are disturbed. Where they are stopped or cut off the application reads from the first one alone, which is
# spared: one that is cut off goes on answering gets, and what these show may be old.
KILL = "--kill-every 0.6 --lasting 0.5"
PAUSE = "--pause-every 0.6 --lasting 0.8 --detection 0.3 --spare 1"
CUT = "--cut-every 0.6 --lasting 0.8 --detection 0.3 --spare 1"

# Few documents that are read again and again, while messages between nodes take long: two copies show what they have.
READS = Load(documents=3, turns="swap swap put put update delete bulk mget get get get", least=500)

READS_OF_THE_FIRST = READS._replace(readers=(0,))

# If nothing is disturbed a strict check accuses the first 340 lines on the average, and of one recording of 128 the first 1,700: so there
# are some 6,000.
MORE_READS = READS._replace(least=1_200)

# Few writes in a row of one document, so that versions are read before they are written again; more documents than
# writes wait for a new primary; and writes of one node that are read from the others. (Of lost writes some 1,000 lines lie before the first
# reply that shows them.)
WRITES = Load(documents=6, turns="swap swap swap put delete bulk update mget get")
MANY_DOCUMENTS = WRITES._replace(documents=24, seconds=4, least=2_400)
READS_OF_THE_OTHERS = WRITES._replace(readers=(1, 2), writers=(0,))


class Row(NamedTuple):
    """A recording: the options of the stand-in, what the application does, and the patterns of what the profile says and
    of what a strict check does."""

    words: str
    load: Load
    profile: str
    strict: str = "refuted kind="


HEALTHY = {
    "nothing": Row("--lag 0.08", MORE_READS, "yes "),
    "kill": Row(f"--lag 0.08 {KILL}", READS, "yes "),
    "pause": Row(f"--lag 0.08 {PAUSE}", READS_OF_THE_FIRST, "yes "),
    "cut": Row(f"--lag 0.08 {CUT}", READS_OF_THE_FIRST, "yes "),
    # (so many calls are lost that nothing follows of what a strict check says)
    "overload": Row("--lag 0.08 --overload 20", READS, "yes ", "(yes|no|refuted) "),
    "two shards, kill": Row(f"--lag 0.08 --shards 2 {KILL}", READS, "yes "),
    # (README names this one: a node that is cut off shows something older than what was acknowledged)
    "gets of a node that is cut off": Row(f"{CUT} --lasting 1.5", READS_OF_THE_OTHERS, "refuted kind=(stale-get|missed-write) "),
}

# Each fault, and the rule of the profile by which it is visible.
FAULTS = {
    # what was acknowledged is gone: a get shows something older, or a write was performed under a pair before it
    "lost-writes, kill": Row(f"--fault lost-writes --every 40 {KILL}", MANY_DOCUMENTS, "refuted kind=(stale-get|stale-swap|missed-write) "),
    # nothing is promoted, so nothing is lost
    "lost-writes, nothing": Row("--fault lost-writes --lag 0.08", MORE_READS, "yes "),
    # a write was performed although its condition named another version
    "lost-update, nothing": Row("--fault lost-update --every 3", READS, "refuted kind=stale-swap "),
    "lost-update, kill": Row(f"--fault lost-update --every 3 {KILL}", READS, "refuted kind=stale-swap "),
    # two writes were answered with one pair
    "pair-twice, nothing": Row("--fault pair-twice", WRITES, "refuted kind=pair-twice "),
    "pair-twice, kill": Row(f"--fault pair-twice {KILL}", WRITES, "refuted kind=pair-twice "),
    # a get shows something older than what was acknowledged; if the copy is promoted that is lost
    "lagging-copy, nothing": Row("--fault lagging-copy", WRITES, "refuted kind=(stale-get|missed-write) "),
    "lagging-copy, kill": Row(f"--fault lagging-copy {KILL}", WRITES, "refuted kind=(stale-get|missed-write|stale-swap) "),
    # no rule: a conflict proves nothing under the profile, so a write that was performed is one whose outcome is open
    "false-conflict, nothing": Row("--fault false-conflict --every 5", WRITES, "yes "),
    "false-conflict, kill": Row(f"--fault false-conflict --every 5 {KILL}", WRITES, "yes "),
}

ROWS = {**HEALTHY, **FAULTS}


class Recorded:
    """A proxy before a stand-in, which run until the block ends."""

    def __init__(self, words, file):
        self.stack = contextlib.ExitStack()
        words = ["--port", "0", "--nodes", str(NODES), "--replicas", str(NODES - 1), *words]
        self.store = self.stack.enter_context(Started("stand_in", *words))
        first, *others = [self.store.url, *self.store.addresses(NODES - 1)]
        self.make_index()
        nodes = [it for url in others for it in ("--node", f"127.0.0.1:0={url}")]
        arguments = ["--listen", "127.0.0.1:0", "--cluster", first, *nodes, "--index", "carts", file]
        self.proxy = self.started_proxy(arguments)
        self.urls = [self.proxy.url, *self.proxy.addresses(NODES - 1)]

    def __enter__(self):
        return self

    def __exit__(self, *_):
        self.stack.close()

    def make_index(self):
        """Makes the index: again if the node that was asked is killed just then, which may have made it."""
        for _ in range(STARTS):
            try:
                return self.store.make("carts")
            except urllib.error.HTTPError as fault:
                if b"resource_already_exists_exception" in fault.read():
                    return None
            except OSError:
                time.sleep(BETWEEN)
        raise AssertionError("the index couldn't be made")

    def started_proxy(self, arguments):
        """A proxy that listens: one that ended at once, since the node that it asked was killed just then, is started again."""
        for _ in range(STARTS):
            proxy = self.stack.enter_context(Started("proxy", *arguments))
            if proxy.port is not None:
                return proxy
        raise AssertionError(f"the proxy didn't start: {proxy.url}")

    @property
    def ports(self):
        return [int(it.rpartition(":")[2]) for it in self.urls]


def record(row, file, seed):
    """Records the application; returns what the proxy says at its end."""
    with Recorded(row.words.split(), file) as recorded:
        answered = Application(recorded.ports, row.load, seed).run()
        said = recorded.proxy.ended()
    if answered < row.load.least:
        raise AssertionError(f"{answered} requests were answered: {said}")
    if "; not judged: 0 documents, 0 calls" not in said:
        raise AssertionError(said)
    return said


def check_row(program, name):
    """Records a row and holds what is said of it to what has to be."""
    row = ROWS[name]
    with tempfile.TemporaryDirectory(prefix="casbench-recorded-") as folder:
        file = os.path.join(folder, "carts.ndjson")
        said = record(row, file, name)
        profile, strict = judged(program, file, "--profile", "opensearch"), judged(program, file, "--rule-out")
        if not re.match(row.profile, profile) or not re.match(row.strict, strict):
            kept = os.path.join(tempfile.gettempdir(), f"casbench-{name.replace(' ', '-').replace(',', '')}-{os.getpid()}.ndjson")
            shutil.move(file, kept)
            raise AssertionError(f"under the profile: {profile}; strictly: {strict}; {said}; the recording is kept: {kept}")
    return profile.split(" calls=")[0], strict.split(" calls=")[0]


class Matrix(FolderTest):
    """The application on the stand-in, healthy and with each fault, disturbed and not."""

    def test_each_row(self):
        rows = [(name, self.program, name) for name in ROWS]
        answers = self.run_subtests(check_row, rows, ProcessPoolExecutor, workers=AT_ONCE)
        for name, answer in zip(ROWS, answers):
            print(f"{name}: {answer}")


@needs_client(PYTHON, "python3-elasticsearch 7.17")
class RealClients(FolderTest):
    """The client of python3-elasticsearch on a cluster whose nodes are killed."""

    def test_clients_that_try_again(self):
        """Several clients read and write the same documents, and ask the next node after a fault."""
        with Recorded(["--product", "Elasticsearch", *KILL.split()], self.file) as recorded:
            words = [PYTHON, TOP / "tests" / "real_client.py", ",".join(recorded.urls), "10", "igwubmdcgiws" * 10]
            how = {"stdout": subprocess.PIPE, "stderr": subprocess.PIPE, "text": True}
            clients = [subprocess.Popen(words, **how) for _ in range(4)]
            ends = [(it.communicate(timeout=100), it.returncode) for it in clients]
            said = recorded.proxy.ended()
        for (out, err), status in ends:
            self.assertEqual(status, 0, err)
            self.assertEqual(len(json.loads(out)), 120)
        self.assertRegex(self.check("--profile", "opensearch"), "^yes ", said)


def main():
    if sys.argv[1:2] == ["--row"]:
        name, file = sys.argv[2:]
        print(record(ROWS[name], file, name))
        return 0
    return run_tests()


if __name__ == "__main__":
    sys.exit(main())
