#!/usr/bin/env python3
"""Tests checks on several machines: the script of a job, what its verdicts are together, and an array job of Slurm on one node.

    python3 tests/recorded_verdicts.py [PROGRAM]

PROGRAM is the built casbench; if it isn't named, the one that ./casbench would run. Without Debian's slurm-wlm no array job is run; a line
says so. The last line says how many tests passed and failed.
"""

import itertools
import json
import os
import pathlib
import random
import re
import shutil
import signal
import socket
import subprocess
import sys
import time

from program import TOP
from program_test import run_tests
from recordings import FolderTest, environment, judged
from running import free_ports

from casbench_recording.history import History, Pair
from casbench_recording.split import split

MACHINES = TOP / "examples" / "machines"
SHARDS = 4

CONFIGURATION = """ClusterName=casbench
SlurmctldHost={host}(127.0.0.1)
SlurmctldPort={port}
SlurmdPort={other}
AuthType=auth/none
CredType=cred/none
SlurmUser={user}
SlurmdUser={user}
StateSaveLocation={folder}/state
SlurmdSpoolDir={folder}/spool
SlurmctldPidFile={folder}/slurmctld.pid
SlurmdPidFile={folder}/slurmd.pid
MailProg=/bin/true
MpiDefault=none
ProctrackType=proctrack/pgid
TaskPlugin=task/none
JobAcctGatherType=jobacct_gather/none
SelectType=select/cons_tres
SelectTypeParameters=CR_CPU
NodeName=here NodeAddr=127.0.0.1 CPUs=2 RealMemory=2000 State=UNKNOWN
PartitionName=all Nodes=here Default=YES State=UP
"""


def record(path, seed, stale_shard=None):
    """Records calls one after the other on documents of several shards, some of them lost; a get of one shard may be stale."""
    draw = random.Random(seed)
    versions, numbers = {}, [itertools.count() for _ in range(SHARDS)]
    with History(path) as history:
        for turn in range(2000):
            document = draw.randrange(16)
            id, shard = f"d{document}", document % SHARDS
            last = versions.get(id)
            if draw.random() < 0.5:
                call = history.call("get", id, shard=shard)
                if last is None:
                    call.missing()
                else:
                    call.found(*last[-2 if shard == stale_shard and len(last) > 1 and turn > 1000 else -1])
            else:
                call = history.call("index", id, turn, shard=shard)
                if draw.random() < 0.05:
                    call.lost()
                else:
                    pair = Pair(1, next(numbers[shard]))
                    call.indexed(pair, created=last is None)
                    versions.setdefault(id, []).append((pair, turn))


class VerdictTest(FolderTest):
    """A folder of parts, and the package's command on it."""

    def setUp(self):
        super().setUp()
        self.parts = pathlib.Path(self.folder) / "parts"
        self.parts.mkdir()

    def put(self, name, printed, status):
        """Puts a history there, and a verdict that a job may have left."""
        (self.parts / f"{name}.ndjson").write_text("")
        if printed is not None:
            text = printed if isinstance(printed, str) else json.dumps(printed)
            (self.parts / f"{name}.ndjson.verdict").write_text(f"{text}\n{status}\n")

    def together(self, *options, **more):
        """The status of the verdicts together, and what is printed of them."""
        words = [sys.executable, "-m", "casbench_recording.verdicts", self.parts, *options]
        ran = subprocess.run(words, env=environment(**more), capture_output=True, text=True, timeout=60)
        return ran.returncode, ran.stdout.splitlines() or ran.stderr.splitlines()


def yes(calls, **more):
    """The object of a `yes`."""
    return {"answer": "yes", "counts": {"docs": 2, "calls": calls, "left_out": 1, **more}, "proved": True}


NO = {"answer": "no", "event": 7, "call": 3, "before": "shown", "proved": False}
REFUTED = {"answer": "refuted", "kind": "stale-get", "calls": [3, 1], "event": 7, "call": 3, "before": "shown"}
REFUSED = {"answer": "refused", "line": 8, "cause": "json"}


class Together(VerdictTest):
    """Verdicts, and what they are together."""

    def test_each_is_explained(self):
        self.put("a", yes(10), 0)
        self.put("b", yes(20), 0)
        self.assertEqual(self.together(), (0, ["yes histories=2 docs=4 calls=30 left_out=2"]))
        self.assertEqual(self.together("--at-least", "30")[0], 0)
        self.assertEqual(self.together("--at-least", "31"), (6, ["yes histories=2 docs=4 calls=30 left_out=2, fewer calls than 31"]))

    def test_gets_that_are_judged_by_themselves(self):
        for name in "ab":
            self.put(name, {**yes(10, gets=4), "reading": {"gets": "any"}}, 0)
        self.assertEqual(self.together(), (0, ["yes histories=2 docs=4 calls=20 left_out=2 gets=8"]))

    def test_the_gravest_status_counts(self):
        """Each status against all that are less grave; each verdict that isn't `yes` has its line."""
        rows = [
            ("a", yes(10), 0, None),
            ("b", yes(1), 6, "b.ndjson: yes docs=2 calls=1 left_out=1, fewer calls than asked for"),
            ("c", REFUSED, 2, "c.ndjson: refused line=8 cause=json"),
            ("d", NO, 1, "d.ndjson: no event=7 call=3 before=shown"),
            ("e", REFUTED, 1, "e.ndjson: refuted kind=stale-get calls=3,1 event=7 call=3 before=shown"),
            ("f", "", 5, "f.ndjson: the check failed, with status 5"),
            ("g", "", 4, "g.ndjson: the check failed, with status 4"),
            ("h", "", 3, "h.ndjson: the check failed, with status 3"),
        ]
        words, wanted = ["yes", "yes", "refused", "no", "refuted", *["not judged"] * 3], []
        for (name, printed, status, line), word in zip(rows, words):
            self.put(name, printed, status)
            wanted += [line] if line else []
            got, lines = self.together()
            with self.subTest(name):
                self.assertEqual((got, lines[:-1], re.split("[: ]* (?:of|histories)", lines[-1])[0].rstrip(":")), (status, wanted, word))

    def test_what_was_not_judged(self):
        """A history without a verdict, with half of one, one that isn't of this status, one of another kind, and one that is too old."""
        rows = [(None, 0), ("", 0), (NO, 0), (yes(1), 1), ('{"answer":"yes"}', 0), ("[]", 0), (yes(1), 64), (yes(1), 137), (yes(1), "x"), (yes(1), "")]
        rows += [(yes("x"), 0), ("[" * 100_000, 0)]
        for at, (printed, status) in enumerate(rows):
            with self.subTest(f"{printed}, {status}"):
                self.put("a", yes(10), 0)
                self.put("b", printed, status)
                got, lines = self.together()
                self.assertEqual((got, lines[1]), (4, "not judged: of 2 histories 1 not judged, 1 yes"))
        self.put("b", yes(10), 0)
        os.utime(self.parts / "b.ndjson.verdict", (1, 1))
        self.assertEqual(self.together(), (4, ["b.ndjson: its verdict is older than the history", "not judged: of 2 histories 1 not judged, 1 yes"]))

    def test_a_name_that_is_no_text(self):
        """It is written with escapes, and the status is still that of the verdicts."""
        self.put("\udcff", None, 0)
        status, lines = self.together(PYTHONIOENCODING="utf-8:strict")
        self.assertEqual((status, lines[0].partition(":")[0], lines[-1]), (4, "\\udcff.ndjson", "not judged: of 1 histories 1 not judged"))

    def test_what_cannot_be_put_together(self):
        self.assertEqual(self.together(), (4, ["not judged: there is no history"]))
        self.put("a", yes(10), 0)
        self.put("b", {**yes(10), "reading": {"gets": "any"}}, 0)
        self.assertEqual(self.together(), (4, ["not judged: the histories were checked in different readings"]))
        shutil.rmtree(self.parts)
        self.assertEqual(self.together(), (4, [f"casbench_recording.verdicts: {self.parts}: No such file or directory"]))


class Jobs(VerdictTest):
    """The parts of a recording, by jobs of their own, against the recording on one machine."""

    def recorded(self, stale_shard=None):
        """Records, and splits the recording by shard."""
        record(self.file, 1, stale_shard)
        with open(self.file, "rb") as lines:
            split(lines, str(self.parts))
        return judged(self.program, self.file, "--rule-out")

    def jobs(self, *options):
        """Runs the script for each part, in a folder that a link names; the statuses."""
        link = self.parts.with_name("link")
        link.symlink_to(self.parts)
        script = [MACHINES / "judge-one.sh", link]
        how = {"env": environment(CASBENCH=str(self.program)), "stderr": subprocess.DEVNULL}
        return [subprocess.run([*script, str(at), *options], **how).returncode for at in range(SHARDS)]

    def test_what_is_explained(self):
        whole = self.recorded()
        self.assertEqual(whole.split()[0], "yes")
        self.assertEqual(self.jobs("--rule-out"), [0] * SHARDS)
        self.assertEqual(self.together(), (0, [whole.replace("yes", f"yes histories={SHARDS}")]))

    def test_what_is_refuted(self):
        """The part that is refuted has the line of the whole, but for the place of its event."""
        whole = self.recorded(stale_shard=2)
        self.assertEqual(whole.split()[:2], ["refuted", "kind=stale-get"])
        self.assertEqual(self.jobs("--rule-out"), [0] * SHARDS)
        status, lines = self.together()
        self.assertEqual((status, lines[1]), (1, f"refuted: of {SHARDS} histories 1 refuted, {SHARDS - 1} yes"))
        self.assertEqual(lines[0].split()[:4], ["shard-2.ndjson:", *whole.split()[:3]])

    def test_a_job_that_cannot_check(self):
        """Its status is that of the check, so it may be tried again, and its verdict says that nothing was judged."""
        self.recorded()
        self.assertEqual(self.jobs("--no-such-option"), [64] * SHARDS)
        self.assertEqual(self.together()[1][-1], f"not judged: of {SHARDS} histories {SHARDS} not judged")
        script = [MACHINES / "judge-one.sh", self.parts, str(SHARDS)]
        self.assertEqual(subprocess.run(script, stderr=subprocess.DEVNULL).returncode, 4)

    def test_kubernetes(self):
        """The command of the Indexed Job, on a folder in the place of its volume."""
        whole = self.recorded()
        text = (MACHINES / "kubernetes.yaml").read_text(encoding="utf-8")
        (command,) = re.findall(r"args: \['(.*)'\]", text)
        shutil.copy(MACHINES / "judge-one.sh", self.parts)
        os.symlink(self.program, self.parts / "casbench")
        command = command.replace("/histories", str(self.parts)).replace("--profile opensearch", "--rule-out")
        for at in range(SHARDS):
            subprocess.run(["/bin/sh", "-c", command], env=environment(JOB_COMPLETION_INDEX=str(at)), check=True)
        self.assertEqual(self.together(), (0, [whole.replace("yes", f"yes histories={SHARDS}")]))

    def test_slurm(self):
        """An array job on one node: the same answer as on one machine."""
        if not all(map(shutil.which, ("slurmctld", "slurmd", "sbatch"))):
            self.skipTest("Debian's package slurm-wlm isn't here, so no array job was run")
        whole = self.recorded()
        with Slurm(pathlib.Path(self.folder)) as slurm:
            words = ["sbatch", "--output=/dev/null", f"--array=0-{SHARDS - 1}", MACHINES / "slurm.sbatch", self.parts, "--rule-out"]
            submitted = subprocess.run(words, cwd=TOP, env=slurm.environment(self.program), capture_output=True, text=True, timeout=60)
            self.assertEqual(submitted.returncode, 0, submitted.stderr)
            slurm.wait_until(lambda: len(list(self.parts.glob("*.verdict"))) == SHARDS)
        self.assertEqual(self.together(), (0, [whole.replace("yes", f"yes histories={SHARDS}")]))


class Slurm:
    """A manager and one node, in a folder, which end with the block."""

    def __init__(self, folder):
        self.folder, self.path = folder, folder / "slurm.conf"
        for it in ("state", "spool"):
            (folder / it).mkdir()
        (port, other), host = free_ports(2), socket.gethostname().partition(".")[0]
        user = subprocess.run(["id", "-un"], stdout=subprocess.PIPE, text=True, check=True).stdout.strip()
        self.path.write_text(CONFIGURATION.format(host=host, port=port, other=other, user=user, folder=folder))
        self.running = []

    def environment(self, program):
        return environment(SLURM_CONF=str(self.path), CASBENCH=str(program))

    def __enter__(self):
        for words in (["slurmctld", "-D"], ["slurmd", "-D", "-N", "here"]):
            log = open(self.folder / f"{words[0]}.log", "wb")
            self.running.append(subprocess.Popen([*words, "-f", self.path], stdin=subprocess.DEVNULL, stdout=log, stderr=log))
            log.close()
        state = ["sinfo", "--noheader", "--format=%T"]
        how = {"env": self.environment(""), "stdout": subprocess.PIPE, "stderr": subprocess.DEVNULL, "text": True}
        try:
            self.wait_until(lambda: subprocess.run(state, **how).stdout.strip() == "idle")
        except BaseException:
            self.__exit__()
            raise
        return self

    def wait_until(self, is_so):
        """Waits until something is so; shows what the manager and the node say if it takes too long."""
        until = time.monotonic() + 60
        while not is_so():
            if time.monotonic() > until:
                raise AssertionError("".join(it.read_text(errors="replace")[-3000:] for it in self.folder.glob("slurm*.log")))
            time.sleep(0.2)

    def __exit__(self, *_):
        for it in reversed(self.running):
            it.send_signal(signal.SIGTERM)
            try:
                it.wait(20)
            except subprocess.TimeoutExpired:
                it.kill()
                it.wait()


if __name__ == "__main__":
    sys.exit(run_tests())
