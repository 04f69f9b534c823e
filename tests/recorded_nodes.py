#!/usr/bin/env python3
"""Tests recordings over several nodes, of which one lags or is cut off: what is seen of it only where both are asked.

    python3 tests/recorded_nodes.py [PROGRAM]

PROGRAM is the built casbench; if it isn't named, the one that ./casbench would run. The last line says how many tests
passed and failed.
"""

import os
import subprocess
import sys

from program_test import run_tests
from recordings import FolderTest, Started, environment, judged


class Nodes(FolderTest):
    """A cluster of two nodes."""

    def started(self, *words):
        """A command that serves two addresses, and runs until the test ends; both addresses."""
        command = Started(*words)
        self.addCleanup(command.__exit__)
        return command, command.url, *command.addresses(1)

    def record(self, *words):
        """Runs the load of the recorder to its end."""
        words = [sys.executable, "-m", "casbench_recording.record", *words, "--calls", "250", "--timeout", "60"]
        ran = subprocess.run(words, env=environment(), capture_output=True, text=True, timeout=100)
        self.assertEqual(ran.returncode, 0, ran.stderr)

    def verdict(self, second, asked):
        """What is said of the recording of a proxy before both nodes where clients ask one of them or both."""
        _, *nodes = self.started("stand_in", "--port", "0", second, "0")
        file = os.path.join(self.folder, f"{len(os.listdir(self.folder))}.ndjson")
        words = ["--listen", "127.0.0.1:0", "--cluster", nodes[0], "--node", f"127.0.0.1:0={nodes[1]}", "--index", "carts", file]
        proxy, *addresses = self.started("proxy", *words)
        self.record(",".join(addresses[it] for it in asked), "carts", f"{file}.load")
        self.assertRegex(proxy.ended(), "^recorded 1000 calls ")
        own, load = judged(self.program, file, "--rule-out"), judged(self.program, f"{file}.load", "--rule-out")
        self.assertEqual(own.split()[:2], load.split()[:2])
        return own

    def test_a_node_that_is_cut_off_is_seen_only_where_both_are_asked(self):
        for asked in ([0], [1]):
            self.assertRegex(self.verdict("--cut-off-node", asked), "^yes ", asked)
        self.assertRegex(self.verdict("--cut-off-node", [0, 1]), "^refuted kind=stale-get ")

    def test_a_node_that_lags_is_seen_where_it_is_asked(self):
        self.assertRegex(self.verdict("--lagging-node", [0]), "^yes ")
        self.assertRegex(self.verdict("--lagging-node", [0, 1]), "^refuted kind=stale-get ")


if __name__ == "__main__":
    sys.exit(run_tests())
