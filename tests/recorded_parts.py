#!/usr/bin/env python3
"""Tests the recorder past the limit of one history, a history that is split, and what checks a folder of parts side by side.

    python3 tests/recorded_parts.py [PROGRAM]

PROGRAM is the built casbench; if it isn't named, the one that ./casbench would run. The last line says how many tests
passed and failed.
"""

import os
import pathlib
import re
import resource
import shutil
import signal
import subprocess
import sys
import time

from program import TOP
from program_test import run_tests
from recordings import FolderTest, Started, environment, judged
from texts import created, found, get, index, refused, refuted, updated, yes

from casbench_recording.history import MOST_EVENTS, Operation, Pair
from casbench_recording.history.continuing import Continuing
from casbench_recording.history.format import text_of_write


def record(*words):
    """How the recorder ends with these words."""
    words = [sys.executable, "-m", "casbench_recording.record", *words]
    return subprocess.run(words, capture_output=True, text=True, env=environment())


class Long(FolderTest):
    """Recordings that go on past the limit of one history."""

    def test_the_recorder_goes_on_in_the_next_part(self):
        parts = pathlib.Path(self.folder) / "parts"
        with Started("stand_in", "--port", "0") as store:
            words = [store.url, "carts", str(parts), "--calls", "500", "--part", "300"]
            ran = record(*words)
            self.assertEqual(ran.stdout, f"recorded 2000 calls in {parts}, 0 of them without a reply\n", ran.stderr)
            # (an index that is there is refused, and nothing is left)
            again = [*words[:2], os.path.join(self.folder, "again"), *words[3:]]
            self.assertIn("the index carts exists", record(*again).stderr)
            self.assertFalse(os.path.exists(again[2]))
        counts = []
        for part in sorted(parts.iterdir()):
            answer = re.fullmatch(r"yes docs=8 calls=(\d+) left_out=0", judged(self.program, part))
            counts.append(int(answer[1]))
        self.assertEqual([it.name for it in sorted(parts.iterdir())], [f"part-{it:06}.ndjson" for it in range(1, len(counts) + 1)])
        # (2,000 calls are seven parts of 300, with those that come before a document moves; and a document begins with one more)
        self.assertTrue(len(counts) in (6, 7) and 2000 <= sum(counts) <= 2000 + 8 * 6, counts)

    def test_a_folder_and_a_file_that_are_there(self):
        os.mkdir(self.file)
        kept = pathlib.Path(self.file) / "part-000001.ndjson"
        kept.write_text("old")
        for words in ((), ("--part", "300")):
            ran = record("http://127.0.0.1:9", "carts", self.file, *words)
            self.assertEqual((ran.returncode, ran.stderr), (1, f"record.py: {self.file}: File exists\n"))
            self.assertEqual((os.listdir(self.file), kept.read_text()), (["part-000001.ndjson"], "old"))
        link = os.path.join(self.folder, "link")
        os.symlink(kept, link)
        for file in (kept, link):
            ran = record("http://127.0.0.1:9", "carts", file)
            self.assertEqual((ran.returncode, ran.stderr), (1, f"record.py: {file}: File exists\n"))
            self.assertEqual(kept.read_text(), "old")

    def test_a_part_that_no_history_is(self):
        for part in ("524289", "0", "many"):
            ran = record("http://127.0.0.1:9", "carts", self.file, "--part", part)
            self.assertEqual((ran.returncode, os.path.exists(self.file)), (2, False), ran.stderr)
            self.assertIn("a part has 1 to 524288 calls", ran.stderr)

    def test_calls_past_the_most_of_a_history(self):
        documents, more = [f"d{it}" for it in range(512)], 2
        rounds = MOST_EVENTS // 2 // len(documents)
        with Continuing(os.path.join(self.folder, "parts"), MOST_EVENTS // 2) as history:
            for turn in range(rounds + more):
                calls = history.call_all([Operation("index", it, turn) for it in documents])
                result = (200, "updated") if turn else (201, "created")
                pairs = [Pair(1, turn * len(documents) + it) for it in range(len(documents))]
                texts = [text_of_write(it, result[1], pair) for it, pair in zip(documents, pairs)]
                history.end_all([(call, (result[0], text)) for call, text in zip(calls, texts)])
        answers = [judged(self.program, os.path.join(history.path, f"part-{it:06}.ndjson")) for it in (1, 2)]
        # (each document begins the second part with one call)
        counts = [len(documents) * it for it in (rounds, 1 + more)]
        self.assertEqual(answers, [f"yes docs=512 calls={it} left_out=0" for it in counts])


def limit_files():
    """Has files take 100 bytes and no more: a write past that fails."""
    signal.signal(signal.SIGXFSZ, signal.SIG_IGN)
    resource.setrlimit(resource.RLIMIT_FSIZE, (100, 100))


class Split(FolderTest):
    """A history that is split has all of its parts or none, and they come over nothing that is there."""

    def setUp(self):
        super().setUp()
        self.parts = os.path.join(self.folder, "parts")
        self.words = [sys.executable, "-m", "casbench_recording.split", self.file, self.parts]
        self.write(self.file, index(0) + index(1, ',"shard":3', "e") + created(1, 1, 0) + created(0, 1, 0))

    def write(self, name, text):
        """Writes a file."""
        with open(name, "w", encoding="utf-8") as file:
            file.write(text)

    def split(self, **how):
        """How the command ends: its status, and what it says."""
        ran = subprocess.run(self.words, stdout=subprocess.PIPE, stderr=subprocess.STDOUT, text=True, env=environment(), **how)
        return ran.returncode, ran.stdout

    def left(self):
        """What is in the folder beside the history, with what the files have."""
        paths = pathlib.Path(self.folder).rglob("*")
        return {str(it.relative_to(self.folder)): it.read_text() for it in paths if it.is_file() and str(it) != self.file}

    def test_parts(self):
        for folder in (self.parts, self.parts + "/"):
            self.words[-1] = folder
            self.assertEqual(self.split(), (0, ""))
            wanted = {"parts/shard-0.ndjson": index(0) + created(0, 1, 0), "parts/shard-3.ndjson": index(1, ',"shard":3', "e") + created(1, 1, 0)}
            self.assertEqual(self.left(), wanted)
            self.assertEqual(sorted(os.listdir(self.folder)), ["carts.ndjson", "parts"])
            shutil.rmtree(self.parts)

    def test_a_folder_and_a_file_that_are_there(self):
        refused = (1, f"split_by_shard.py: {self.parts}: File exists\n")
        os.mkdir(self.parts)
        self.assertEqual((self.split(), self.left()), (refused, {}))
        self.write(os.path.join(self.parts, "shard-0.ndjson"), "old")
        self.assertEqual((self.split(), self.left()), (refused, {"parts/shard-0.ndjson": "old"}))
        shutil.rmtree(self.parts)
        self.write(self.parts, "old")
        self.assertEqual((self.split(), self.left()), (refused, {"parts": "old"}))
        self.words[-1] = self.file
        self.assertEqual(self.split()[0], 1)
        self.assertEqual(pathlib.Path(self.file).read_text().count("\n"), 4)

    def test_a_line_and_a_disk_that_stop_it(self):
        self.assertEqual(self.split(preexec_fn=limit_files), (1, "split_by_shard.py: [Errno 27] File too large\n"))
        self.assertEqual(os.listdir(self.folder), ["carts.ndjson"])
        with open(self.file, "a", encoding="utf-8") as history:
            history.write("{}\n")
        status, printed = self.split()
        self.assertEqual((status, os.listdir(self.folder)), (1, ["carts.ndjson"]))
        self.assertIn("line 5 can't be given to a shard", printed)

    def test_an_interruption(self):
        os.remove(self.file)
        os.mkfifo(self.file)
        with subprocess.Popen(self.words, stderr=subprocess.PIPE, env=environment()) as child, open(self.file, "w", encoding="utf-8") as history:
            history.write(index(0) + created(0, 1, 0))
            history.flush()
            while len(os.listdir(self.folder)) == 1:
                self.assertIsNone(child.poll())
                time.sleep(0.01)
            child.send_signal(signal.SIGINT)
            self.assertEqual((child.wait(60), child.stderr.read()), (130, b""))
        self.assertEqual(os.listdir(self.folder), ["carts.ndjson"])


WRITES = index(0) + created(0, 1, 0, "d") + index(1) + updated(1, 1, 1, "d")

# What a folder has: right histories, one of which has a space in its name, a refuted one, and a text that is none.
RIGHT = {f"{name}.ndjson": WRITES for name in ("shard-0", "shard-1", "carts 2")}
WRONG = {"shard-7.ndjson": WRITES + get(2) + found(2, 1, 0)}
NO_TEXT = {"shard-8.ndjson": "{}\n"}

YES = yes(2)
REFUTED = refuted("stale-get", "2,1", 5, 2)
REFUSED = refused(1, "shape")


def commands_shown():
    """The commands by which docs/RECORDING.md checks a folder, by the names of what runs them."""
    page = (TOP / "docs" / "RECORDING.md").read_text(encoding="utf-8")
    section = page[page.index("### Side by side") :]
    return dict(re.findall(r"^\*\*By ([\w ]+)\*\*.*?^```\n(.*?)^```$", section, re.MULTILINE | re.DOTALL))


class SideBySide(FolderTest):
    """The commands of docs/RECORDING.md that check a folder."""

    def ended(self, name, *folders):
        """How a command ends that checks the files of these folders: its status, and the lines that it writes."""
        parts = pathlib.Path(self.folder) / "out" / "parts"
        parts.mkdir(parents=True, exist_ok=True)
        for file in parts.iterdir():
            file.unlink()
        for file, text in (it for folder in folders for it in folder.items()):
            (parts / file).write_text(text)
        program = pathlib.Path(self.folder) / "casbench"
        if not program.exists():
            program.symlink_to(self.program)
        how = {"cwd": self.folder, "capture_output": True, "text": True, "timeout": 100, "env": environment(HOME=self.folder)}
        ran = subprocess.run(["sh", "-c", commands_shown()[name]], stdin=subprocess.DEVNULL, **how)
        return ran.returncode, sorted(ran.stdout.splitlines(keepends=True))

    def test_by_xargs(self):
        self.assertEqual(self.ended("xargs", RIGHT), (0, [YES] * 3))
        self.assertEqual(self.ended("xargs", RIGHT, WRONG, NO_TEXT), (123, [REFUSED, REFUTED] + [YES] * 3))

    def test_by_check_itself(self):
        rows = [(f"out/parts/{name}", YES) for name in RIGHT]
        self.assertEqual(self.ended("check itself", RIGHT), (0, sorted(f"{name}: {line}" for name, line in rows)))
        rows += [("out/parts/shard-7.ndjson", REFUTED), ("out/parts/shard-8.ndjson", REFUSED)]
        lines = sorted(f"{name}: {line}" for name, line in rows)
        self.assertEqual(self.ended("check itself", RIGHT, WRONG, NO_TEXT), (1, lines))


if __name__ == "__main__":
    sys.exit(run_tests())
