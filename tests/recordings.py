"""What the tests of recorders have in common: the package in recording/, folders of their own, and casbench's verdict
on a file.

It is no test itself.
"""

import argparse
import contextlib
import json
import os
import re
import signal
import subprocess
import sys
import tempfile
import threading
import time
import urllib.request

from program import TOP
from program_test import ProgramTest

# A command that runs for more seconds has failed.
SECONDS = 60

PACKAGE = TOP / "recording"
sys.path.insert(0, str(PACKAGE))

from casbench_recording.history.readings import CHOICES, Reading, add_reading_options, reading_of


def own_reading(reading):
    """A reading of tests/readings.py, as the package has it."""
    return Reading(*(CHOICES[name](value) for name, value in reading._asdict().items()))


def reading_of_options(words):
    """The reading of these options, as the package parses them among other words."""
    parser = argparse.ArgumentParser()
    add_reading_options(parser.add_argument)
    return reading_of(parser.parse_known_args(words)[0])


def judged(program, file, *options):
    """The output of a check of a history."""
    ran = subprocess.run([program, "check", file, *options], stdout=subprocess.PIPE, text=True)
    return ran.stdout.strip()


def empty_stats(index):
    """A cluster's answer about the shards of an index to which nothing was written."""
    shards = {str(it.number): [{"seq_no": {"max_seq_no": -1}}] for it in index.shards}
    return {"indices": {index.name: {"shards": shards}}}


def environment(**more):
    """The environment of the package's commands, with no credentials but those given."""
    kept = {key: it for key, it in os.environ.items() if not key.startswith("OPENSEARCH_")}
    return {**kept, "PYTHONPATH": str(PACKAGE), **more}


# The background jobs of a shell ignore this signal, and so would the commands that are started here.
if signal.getsignal(signal.SIGINT) is signal.SIG_IGN:
    signal.signal(signal.SIGINT, signal.default_int_handler)


class Output:
    """The output on a stream. It is read at once, so that its writer never has to wait; its lines are taken one by one."""

    def __init__(self, stream):
        # each line with its time; how many were taken; and whether there are no more
        self.lines, self.taken, self.is_over = [], 0, False
        self.changed = threading.Condition()
        self.thread = threading.Thread(target=self.read_stream, args=(stream,), daemon=True)
        self.thread.start()

    def read_stream(self, stream):
        with contextlib.suppress(ValueError), stream:
            for line in stream:
                with self.changed:
                    self.lines.append((time.time(), line))
                    self.changed.notify_all()
        with self.changed:
            self.is_over = True
            self.changed.notify_all()

    def has_line(self, seconds=None):
        """Whether there is a line to take, or one comes within these seconds or, without them, before the end."""
        with self.changed:
            self.changed.wait_for(lambda: self.taken < len(self.lines) or self.is_over, seconds)
            return self.taken < len(self.lines)

    def readline(self, seconds=None):
        """Takes the next line; empty if none comes."""
        if not self.has_line(seconds):
            return ""
        self.taken += 1
        return self.lines[self.taken - 1][1]

    def read(self):
        """Waits for the end of the stream, and takes all lines that are left."""
        self.thread.join(SECONDS)
        first, self.taken = self.taken, len(self.lines)
        return "".join(text for _, text in self.lines[first:])

    def first(self, pattern):
        """The first line of all that begins with a pattern, with its time, or None."""
        return next(((moment, line.rstrip("\n")) for moment, line in list(self.lines) if re.match(pattern, line)), None)


class Started:
    """A command of the package that listens, and runs until the block ends. Its first line on standard error is its
    address. The other lines there are in `errors`, unless standard error is redirected."""

    def __init__(self, name, *arguments, start=(), stderr=subprocess.PIPE, **more):
        command = [*(start or (sys.executable, "-m", f"casbench_recording.{name}")), *arguments]
        pipes = {"stdin": subprocess.DEVNULL, "stdout": subprocess.PIPE, "stderr": stderr}
        self.process = subprocess.Popen(command, **pipes, text=True, env=environment(**more))
        self.printed = Output(self.process.stdout)
        self.errors = Output(self.process.stderr) if self.process.stderr else None
        self.url = self.errors.readline().strip() if self.errors else ""
        self.port = int(self.url.rpartition(":")[2]) if self.url.startswith("http") else None

    def __enter__(self):
        return self

    def __exit__(self, *_):
        self.process.kill()
        self.process.wait()

    def addresses(self, count):
        """The next lines on standard error: further addresses."""
        return [self.errors.readline().strip() for _ in range(count)]

    def outputs(self):
        """Waits for its end; returns its standard output, and its standard error after its address."""
        self.process.wait(SECONDS)
        return self.printed.read(), self.errors.read() if self.errors else ""

    def ended(self, sent=signal.SIGTERM):
        """Ends it by a signal; returns its standard output, and its standard error after its address, as one text."""
        self.process.send_signal(sent)
        return "".join(self.outputs()).strip()

    def processor_time(self):
        """How many seconds of a processor it took so far."""
        with open(f"/proc/{self.process.pid}/stat", encoding="ascii") as file:
            fields = file.read().rpartition(")")[2].split()
        return (int(fields[11]) + int(fields[12])) / os.sysconf("SC_CLK_TCK")

    def make(self, index, **settings):
        """Makes an index on it, which has these settings."""
        body = json.dumps({"settings": settings}).encode()
        asked = urllib.request.Request(f"{self.url}/{index}", body, {"Content-Type": "application/json"}, method="PUT")
        with urllib.request.urlopen(asked, timeout=60):
            pass


class FolderTest(ProgramTest):
    """A test with a folder of its own, in which a history is recorded."""

    def setUp(self):
        folder = tempfile.TemporaryDirectory(prefix="casbench-recorded-")
        self.addCleanup(folder.cleanup)
        self.folder = folder.name
        self.file = os.path.join(folder.name, "carts.ndjson")

    def check(self, *options):
        """The output of a check of the history."""
        return judged(self.program, self.file, *options)

    def lines(self):
        """The lines of the history."""
        with open(self.file, encoding="utf-8") as lines:
            return [json.loads(it) for it in lines]
