"""What the tests of the watch have in common: a watch of a file or a directory, and programs in the place of casbench.

It is no test itself.
"""

import os
import pathlib
import re
import signal
import subprocess
import sys
import time

from recordings import FolderTest, environment

# How long anything may take.
SECONDS = 60.0


def heeds_signals(child):
    """Whether a program has said what it does at SIGTERM."""
    caught = re.search(r"^SigCgt:\s*(\w+)$", pathlib.Path(f"/proc/{child.pid}/status").read_text(), re.MULTILINE)
    return int(caught[1], 16) & 1 << signal.SIGTERM - 1


class WatchTest(FolderTest):
    """A test with a watch of a file or a directory."""

    def append(self, text, name="carts.ndjson"):
        with open(os.path.join(self.folder, name), "a", encoding="utf-8") as file:
            file.write(text)

    def watched(self, *words, program=None, **how):
        """The watch as it runs; standard input is the test's."""
        words = [sys.executable, "-m", "casbench_recording.watch", self.file, "--program", program or self.program, *words]
        pipes = {"stdin": subprocess.PIPE, "stdout": subprocess.PIPE, "stderr": subprocess.PIPE, "text": True, **how}
        child = subprocess.Popen(words, env=environment(), **pipes)
        self.addCleanup(child.wait)
        self.addCleanup(child.kill)
        return child

    def script(self, text, name="script", first="#!/bin/sh"):
        """A program of the shell, whose text may run casbench by $casbench."""
        path = pathlib.Path(self.folder) / name
        path.write_text(f"{first}\ncasbench={self.program}\n{text}\n")
        path.chmod(0o755)
        return str(path)

    def logging(self, log):
        """A program that checks as casbench does, and writes each text that it is given to the end of a log."""
        return self.script(f"tee -a '{log}' | $casbench \"$@\"")

    def wait_for_checks(self, log, text):
        """Waits until the texts that were checked are this one together."""
        self.wait_for(lambda: log.exists() and log.read_text() == text)

    def ended(self, child, sent=None):
        """How it ends, after a signal if one is sent: its status, and what it writes on both outputs."""
        if sent is not None:
            child.send_signal(sent)
        printed, fault = child.communicate(timeout=SECONDS)
        return child.returncode, printed, fault

    def wait_for(self, is_so):
        """Waits until something is so."""
        end = time.monotonic() + SECONDS
        while not is_so():
            self.assertLess(time.monotonic(), end)
            time.sleep(0.02)
