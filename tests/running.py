"""Runs of the program: with arguments, on texts in files, and on texts that come a few bytes at a time.

It is no test itself. A run ends with its status and what was written on standard output and on standard error.
"""

import contextlib
import os
import pathlib
import random
import re
import shutil
import socket
import socketserver
import subprocess
import tempfile
import unittest

from program import TOP

# A run that takes longer has failed.
SECONDS = 120

# What a check says of a history without calls.
NO_CALLS = re.compile(r"casbench: ([^\n]*: )?no calls, so nothing was judged\n")


def run_arguments(seed=1, clients=1, calls=1, docs=1, copies=1, fault="none"):
    """The arguments of a run of a group."""
    return f"run --seed {seed} --clients {clients} --calls {calls} --docs {docs} --copies {copies} --fault {fault}"


def search_arguments(seeds="1-1", until="refuted", clients=1, calls=1, docs=1, copies=1, fault="none"):
    """The arguments of a search through seeds for a run of a group that is refuted."""
    setting = f"--clients {clients} --calls {calls} --docs {docs} --copies {copies} --fault {fault}"
    return f"run --until {until} --seeds {seeds} {setting}"


def bytes_of(text):
    """The bytes of a text, which may be bytes already."""
    return text.encode() if isinstance(text, str) else text


def run(program, arguments, given="", **how):
    """Runs the program with this text on standard input; returns how it ends."""
    done = subprocess.run([program, *arguments], input=bytes_of(given), capture_output=True, timeout=SECONDS, **how)
    return done.returncode, done.stdout.decode(), done.stderr.decode()


def run_on_files(program, command, texts, options=()):
    """The same of a command on files with these texts, and with options behind them."""
    with tempfile.TemporaryDirectory() as folder:
        files = [pathlib.Path(folder) / str(at) for at, _ in enumerate(texts)]
        for file, text in zip(files, texts):
            file.write_bytes(bytes_of(text))
        return run(program, [command, *files, *options])


def said(end):
    """The status and the answer of a run that has nothing to say on standard error, but that a history has no calls."""
    status, out, err = end
    if err and not NO_CALLS.fullmatch(err):
        raise OSError(err[:300])
    return status, out


def asked(program, command, *texts, conflicts="plain"):
    """The status and the answer of a command on files with these texts, in this reading of a conflict."""
    return said(run_on_files(program, command, texts, ["--conflicts", conflicts]))


def text_of_run(program, **how):
    """The text that a run of a group writes; how it is run is as for the arguments of a run."""
    status, text = said(run(program, run_arguments(**how).split()))
    if status:
        raise OSError(f"a run ended with status {status}")
    return text


@contextlib.contextmanager
def started(command, **how):
    """The command as it runs, with both outputs at hand; it is ended at last, if it hasn't by itself."""
    with subprocess.Popen(command, stdout=subprocess.PIPE, stderr=subprocess.PIPE, **how) as child:
        try:
            yield child
        finally:
            child.kill()


def ended(child, seconds=SECONDS):
    """Waits for the end; returns how it ends."""
    out, err = child.communicate(timeout=seconds)
    return child.returncode, out.decode(), err.decode()


def fed(command, its, ours, text, size, is_ended, **how):
    """How a command ends that reads the one end of a channel, if so many bytes of the text at a time are sent from the
    other end."""
    given = bytes_of(text)
    with ours, its, started(command, **how) as child:
        its.close()
        # (behind a line that is refused nothing is read)
        with contextlib.suppress(BrokenPipeError, ConnectionResetError):
            for at in range(0, len(given), size):
                os.write(ours.fileno(), given[at : at + size])
        if is_ended:
            ours.close()
        return ended(child)


def run_by_parts(program, command, text, size, is_ended=True):
    """How a command ends if each read of standard input gives so many bytes of the text, and no more: a socket keeps
    the bounds of what is sent. If the text is not ended, the answer has to come all the same."""
    its, ours = socket.socketpair(socket.AF_UNIX, socket.SOCK_SEQPACKET)
    return fed([program, command], its, ours, text, size, is_ended, stdin=its)


def run_on_parts(program, arguments, text, size):
    """The same of a file that is named behind the arguments: a pipe, which can be opened by a name, and keeps the
    bounds of 4096 bytes or fewer."""
    its, ours = os.pipe2(os.O_DIRECT | os.O_CLOEXEC)
    command = [program, *arguments, f"/dev/fd/{its}"]
    how = {"stdin": subprocess.DEVNULL, "pass_fds": [its]}
    return fed(command, open(its, "rb", 0), open(ours, "wb", 0), text, size, True, **how)


def free_ports(count):
    """Ports of the loopback that nobody has now, and that are not among those which connections are given."""
    ports = []
    for port in random.sample(range(10_000, 30_000), 1_000):
        with contextlib.suppress(OSError), socketserver.TCPServer(("127.0.0.1", port), None):
            ports.append(str(port))
        if len(ports) == count:
            break
    return ports


# Tests that need a C compiler, cc, are skipped if there is none.
needs_compiler = unittest.skipUnless(shutil.which("cc"), "there is no C compiler here, cc, so no library was preloaded")


def library_in(folder, name):
    """The library of this name, compiled into the folder from its source beside the tests."""
    library = pathlib.Path(folder) / f"{name}.so"
    subprocess.run(["cc", "-O2", "-shared", "-fPIC", "-o", library, TOP / "tests" / f"{name}.c"], check=True)
    return library
