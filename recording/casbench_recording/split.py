"""Splits a history text by shard, for histories with more events than one check takes.

    python3 -m casbench_recording.split carts.ndjson parts

Writes parts/shard-0.ndjson and so on, one file for each shard. Each line is copied, in order, to the file of
its call's shard, so that each file is a history text. The history is correct if and only if each of them is
(docs/RECORDING.md). What they can't show is checked here: each ending is that of an open call, and no
document is on two shards. The directory gets its name when all lines are in it; after an error or an
interruption there is none.
"""

import argparse
import contextlib
import errno
import json
import os
import shutil
import sys
from typing import Any, BinaryIO, Dict, Iterable, Iterator, Optional, Sequence


class Shards:
    """Finds the shard of each line, in order."""

    def __init__(self) -> None:
        self.of_open_calls: Dict[int, int] = {}
        self.of_documents: Dict[str, int] = {}

    def of_line(self, event: Dict[str, Any]) -> int:
        """Returns the shard of an event's call. Raises ValueError, KeyError or TypeError if the event is
        invalid here."""
        number = event["n"]
        if event["e"] != "call":
            return self.of_open_calls.pop(number)
        shard = event.get("shard", 0)
        if type(shard) is not int or not 0 <= shard <= 1023:
            raise ValueError("no shard")
        if number in self.of_open_calls or self.of_documents.setdefault(event["id"], shard) != shard:
            raise ValueError("a call that is open already, or a document on a second shard")
        self.of_open_calls[number] = shard
        return shard


class SplitError(Exception):
    """Why a history can't be split, for the operator."""


def split(lines: Iterable[bytes], folder: str) -> None:
    """Writes each line to the file of its shard."""
    shards = Shards()
    files: Dict[int, BinaryIO] = {}
    with contextlib.ExitStack() as stack:
        for place, line in enumerate(lines, start=1):
            if not line.strip():
                continue
            try:
                shard = shards.of_line(json.loads(line))
            except (ValueError, KeyError, TypeError) as fault:
                raise SplitError(f"line {place} can't be given to a shard: {fault}") from fault
            if shard not in files:
                files[shard] = stack.enter_context(open(os.path.join(folder, f"shard-{shard}.ndjson"), "xb"))
            files[shard].write(line.rstrip(b"\n") + b"\n")


@contextlib.contextmanager
def named_at_last(folder: str) -> Iterator[str]:
    """A temporary directory beside the named one, which is renamed at the end of the block; if the block
    fails it is removed.

    A directory that exists is refused, and left as it is.
    """
    folder = folder.rstrip("/") or folder
    if os.path.lexists(folder):
        raise FileExistsError(errno.EEXIST, os.strerror(errno.EEXIST), folder)
    unfinished = f"{folder}.{os.getpid()}.unfinished"
    os.mkdir(unfinished)
    try:
        yield unfinished
        os.rename(unfinished, folder)
    except BaseException:
        shutil.rmtree(unfinished, ignore_errors=True)
        raise


def main(arguments: Optional[Sequence[str]] = None) -> int:
    """Splits a history into the files of a new directory. Returns the exit status."""
    parser = argparse.ArgumentParser(description="Splits a history by shard.")
    parser.add_argument("history", metavar="HISTORY", help="the history")
    parser.add_argument(
        "folder", metavar="FOLDER", help="the directory to create, with one file for each shard"
    )
    setting = parser.parse_args(arguments)
    try:
        with open(setting.history, "rb") as lines, named_at_last(setting.folder) as parts:
            split(lines, parts)
    except SplitError as fault:
        print(f"split_by_shard.py: {fault}", file=sys.stderr)
        return 1
    except OSError as fault:
        print(
            f"split_by_shard.py: {fault.filename}: {fault.strerror}"
            if fault.filename
            else f"split_by_shard.py: {fault}",
            file=sys.stderr,
        )
        return 1
    except KeyboardInterrupt:
        return 130
    return 0


if __name__ == "__main__":
    sys.exit(main())
