"""Nodes of a store on the loopback: processes that are started, killed, stopped and continued.

They have a directory of their own, and end with who started them, however that ends.
"""

import contextlib
import glob
import os
import pathlib
import random
import shutil
import signal
import socket
import subprocess
import time
from typing import Callable, Dict, Iterator, List, Optional, Sequence

PATIENCE = 120.0
"""How many seconds a node may take to get ready, or to end: on a machine that has too much to do it takes long."""


class NotReady(Exception):
    """A node didn't get ready in time, or ended; with the end of its log."""


def are_installed(programs: Sequence[str]) -> bool:
    """Whether these programs can be started here. They are names, or patterns of files."""
    return all(shutil.which(it) or glob.glob(it) for it in ("setpriv", *programs))


def once(act: Callable[[], None]) -> Callable[[], None]:
    """The act, which is done the first time and then no more."""
    left = [act]
    return lambda: left.pop()() if left else None


def free_ports(count: int) -> List[int]:
    """Ports of the loopback that nobody has now, and that are not among those which connections are given."""
    ports: List[int] = []
    for port in random.SystemRandom().sample(range(10_000, 30_000), 1_000):
        with socket.socket() as probe:
            try:
                probe.bind(("127.0.0.1", port))
            except OSError:
                continue
        ports.append(port)
        if len(ports) == count:
            return ports
    raise NotReady("no free ports")


def processes_in(folder: pathlib.Path) -> Iterator[int]:
    """The processes that work in a folder, or in one within it."""
    for it in pathlib.Path("/proc").glob("[0-9]*"):
        # (one that has ended has no folder, and that of another user can't be read)
        with contextlib.suppress(OSError):
            if pathlib.Path(os.readlink(it / "cwd")).is_relative_to(folder.resolve()):
                yield int(it.name)


HOLD = 'kill -STOP $1; all="$1 $(cat /proc/$1/task/*/children)"; kill -STOP $all; echo; read -r _; kill -CONT $all'
"""Stops a process, which then starts no more, and those that it has started. They go on at the end of standard input."""


class Nodes:
    """The processes by their names. They run until the block ends, and so does what they have started."""

    def __init__(self, folder: pathlib.Path) -> None:
        self.folder = folder
        self.processes: Dict[str, "subprocess.Popen[bytes]"] = {}
        # what holds those that are stopped
        self.holds: Dict[str, "subprocess.Popen[bytes]"] = {}

    def __enter__(self) -> "Nodes":
        return self

    def __exit__(self, *_: object) -> None:
        for name in list(self.processes):
            self.kill(name)
        # (what a node has started ends later, and may still write here; and a node whose start was interrupted has no name)
        last = time.monotonic() + PATIENCE
        while time.monotonic() < last:
            left = list(processes_in(self.folder))
            for it in left:
                with contextlib.suppress(ProcessLookupError):
                    os.kill(it, signal.SIGKILL)
            if not left:
                return
            time.sleep(0.01)

    @staticmethod
    def words_as(user: Optional[str]) -> List[str]:
        """What stands before the words of a process that ends with this one, and runs as a user if one is named."""
        whose = [] if user is None else ["--reuid", user, "--regid", user, "--clear-groups"]
        return ["setpriv", *whose, "--pdeathsig", "KILL"]

    def start(self, name: str, words: Sequence[str], user: Optional[str] = None) -> None:
        """Starts a process; what it prints goes to a log in the directory."""
        with open(self.log(name), "ab") as log:
            words = [*self.words_as(user), *words]
            self.processes[name] = subprocess.Popen(words, cwd=self.folder, stdin=subprocess.DEVNULL, stdout=log, stderr=log)

    def kill(self, name: str) -> None:
        """Kills a process, a stopped one too."""
        process = self.processes.pop(name)
        # (one that has ended is left alone)
        process.kill()
        process.wait()
        if name in self.holds:
            self.go_on(name)

    def stop(self, name: str) -> None:
        """Stops a process, with those that it has started: they do nothing any more, and don't know of it. They go on by `go_on`, or when
        this process ends, so that what a killed one has started ends too."""
        words, pipe = ["sh", "-c", HOLD, "sh", str(self.processes[name].pid)], subprocess.PIPE
        # (Ctrl-C isn't for it)
        self.holds[name] = hold = subprocess.Popen(words, stdin=pipe, stdout=pipe, stderr=subprocess.DEVNULL, start_new_session=True)
        assert hold.stdout is not None
        hold.stdout.readline()

    def go_on(self, name: str) -> None:
        """Has a stopped process go on where it was."""
        self.holds.pop(name).communicate()

    def log(self, name: str) -> pathlib.Path:
        """Where a process prints to."""
        return self.folder / f"{name}.log"

    def end_of_log(self, name: str) -> str:
        """The last that a process printed."""
        return self.log(name).read_text(errors="replace")[-2000:]

    def wait_until(self, name: str, is_ready: Callable[[], bool]) -> None:
        """Waits until a node is ready. Raises NotReady."""
        last = time.monotonic() + PATIENCE
        while not is_ready():
            if time.monotonic() > last or self.processes[name].poll() is not None:
                raise NotReady(f"{name} isn't ready:\n{self.end_of_log(name)}")
            time.sleep(0.02)
