#!/usr/bin/env python3
"""Tests the examples of pipelines: runs the commands that they have for the check and for the pages.

    python3 tests/pipelines.py [PROGRAM]

PROGRAM is the built casbench; if it isn't named, the one that ./casbench would run. The last line says how many tests passed and failed.
"""

import json
import os
import pathlib
import re
import shutil
import subprocess
import sys
import tempfile
import textwrap

from program import TOP
from program_test import ProgramTest, run_tests
from running import run

PIPELINES = TOP / "examples" / "pipelines"
RIGHT = "run --seed 1 --clients 4 --calls 300 --docs 8 --copies 3 --fault none --in-turns".split()


def commands_of(name):
    """The commands of a pipeline that run casbench: that of the check, and those that make the pages."""
    text = (PIPELINES / name).read_text(encoding="utf-8")
    pattern = r"run: \|\n((?: {10}.*\n)+)" if name.endswith(".yml") else r"sh '''\n(.*?)\n *'''"
    check, explain = [textwrap.dedent(it) for it in re.findall(pattern, text, re.DOTALL if not name.endswith(".yml") else 0)]
    return check, explain


class Pipelines(ProgramTest):
    """The commands of each pipeline, where histories were left."""

    def setUp(self):
        folder = tempfile.TemporaryDirectory(prefix="casbench-pipelines-")
        self.addCleanup(folder.cleanup)
        self.folder = pathlib.Path(folder.name)
        self.histories = self.folder / "build" / "histories"
        self.histories.mkdir(parents=True)
        (self.folder / "casbench").mkdir()
        os.symlink(self.program, self.folder / "casbench" / "casbench")
        (self.histories / "right.ndjson").write_text(run(self.program, RIGHT)[1])

    def status_of(self, command):
        """The status of a command, as both have a shell run it."""
        return subprocess.run(["/bin/sh", "-e", "-c", command], cwd=self.folder, stdin=subprocess.DEVNULL, capture_output=True).returncode

    def test_commands(self):
        for name in ("github-actions.yml", "Jenkinsfile"):
            check, explain = commands_of(name)
            verdicts = self.folder / "verdicts.json"
            for added in (None, "right", "stale-get", "cut-in-mid-line"):
                with self.subTest(f"{name}, {added}"):
                    if added:
                        shutil.copy(TOP / "examples" / f"{added}.ndjson", self.histories / f"{added}-added.ndjson")
                    self.assertEqual(self.status_of(check) == 0, added is None)
                    answers = [json.loads(it)["answer"] for it in verdicts.read_text().splitlines()]
                    self.assertEqual(len(answers), len(list(self.histories.iterdir())))
            with self.subTest(f"{name}, pages"):
                self.assertEqual(self.status_of(explain), 0)
                pages = self.folder / "pages"
                self.assertEqual({it.stem for it in pages.iterdir()}, {it.stem for it in self.histories.iterdir()})
                self.assertIn("<h1>Stale read", (pages / "stale-get-added.html").read_text(encoding="utf-8"))
            for it in self.histories.glob("*-added.ndjson"):
                it.unlink()
            shutil.rmtree(self.folder / "pages", ignore_errors=True)

    def test_workflow_is_yaml(self):
        """The workflow is YAML, and has the steps that its text has."""
        try:
            import yaml
        except ImportError:
            self.skipTest("Python's package yaml isn't here (Debian's python3-yaml), so the workflow was not read")
        steps = yaml.safe_load((PIPELINES / "github-actions.yml").read_text(encoding="utf-8"))["jobs"]["histories"]["steps"]
        commands = [it["run"] for it in steps if "casbench/casbench" in it.get("run", "")]
        self.assertEqual(commands, list(commands_of("github-actions.yml")))


if __name__ == "__main__":
    sys.exit(run_tests())
