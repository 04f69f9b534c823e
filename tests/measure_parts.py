#!/usr/bin/env python3
"""Measures recordings without end: the memory of what the proxy knows after many calls in parts, and what a watch costs. It tests nothing.

    python3 tests/measure_parts.py [PROGRAM] [CALLS] [SECONDS]
    python3 tests/measure_parts.py documents written|missed [DOCUMENTS]

PROGRAM is the built casbench; if it isn't named, the one that ./casbench would run. CALLS is how many calls are recorded in parts of
50,000 calls (2,000,000), of 1,000 documents whose sources are always new: index and get by turns. SECONDS is how long a history is watched
that grows by 1,000 calls a second (60). With `documents` each call is of a document that is new: one that is written and read, or one that
is missed; DOCUMENTS is how many there are (400,000).
"""

import os
import pathlib
import resource
import shutil
import signal
import subprocess
import sys
import tempfile
import time

from program import built_program
from recordings import environment

from casbench_recording.history import History, Pair
from casbench_recording.history.continuing import Continuing
from casbench_recording.index_inspection import IndexShape
from casbench_recording.index_names import Names
from casbench_recording.proxy.recording.judge import Judge
from casbench_recording.proxy.state.unjudged_list import UnjudgedList

CALLS, PART, DOCUMENTS, STEPS = 2_000_000, 50_000, 1_000, 8
NEW_DOCUMENTS = 400_000
SECONDS, A_SECOND = 60, 1_000


def memory(process="self"):
    """How many bytes of memory a process takes now, this one unless the id of another is given."""
    pages = int(pathlib.Path(f"/proc/{process}/statm").read_text().split()[1])
    return pages * os.sysconf("SC_PAGE_SIZE")


def judge_of_parts(out):
    """A judge that records in parts."""
    return Judge(IndexShape("carts", Names(["carts"], []), 1, 1, True), "carts", Continuing(out, PART), UnjudgedList(out))


class Turns:
    """Turns of which each is of a document of its own: `written` and read, or `missed`."""

    def __init__(self, judge, kind):
        self.judge, self.kind, self.made = judge, kind, 0

    def make(self, count):
        """Makes so many more turns."""
        for turn in range(self.made, self.made + count):
            id = f"cart-{turn:012}"
            if self.kind == "written":
                judged_turn(self.judge, turn, id, True)
            else:
                asked = self.judge.requests.record(self.judge.route("GET", f"/carts/_doc/{id}".encode()), "GET", b"")
                self.judge.answers.record(asked, 404, b'{"_index":"carts","_id":"%s","found":false}' % id.encode(), None)
        self.made += count


def measure_documents(folder, kind, count):
    """Records documents that are always new; prints the memory after each eighth of them."""
    out = os.path.join(folder, "parts")
    judge, before = judge_of_parts(out), memory()
    turns = Turns(judge, kind)
    for _ in range(STEPS):
        turns.make(count // STEPS)
        print(f"{turns.made} documents: {memory() / 2**20:.1f} MiB, {(memory() - before) / turns.made:.0f} bytes each", flush=True)
        for it in pathlib.Path(out).glob("*.ndjson"):
            it.unlink()
    judge.close()


def judged_turn(judge, turn, id, is_new):
    """Has the judge record an index and a get of a document."""
    source = b'{"a":%d}' % turn
    result, status = ("created", 201) if is_new else ("updated", 200)
    head = '{"_index":"carts","_id":"%s","_version":1,' % id
    pair = '"_seq_no":%d,"_primary_term":1' % turn
    written = head + '"result":"%s","_shards":{"total":1,"successful":1,"failed":0},%s}' % (result, pair)
    found = head + '%s,"found":true,"_source":%s}' % (pair, source.decode())
    for method, content, answer in (("PUT", source, (status, written)), ("GET", b"", (200, found))):
        asked = judge.requests.record(judge.route(method, f"/carts/_doc/{id}".encode()), method, content)
        judge.answers.record(asked, answer[0], answer[1].encode(), None)


def measure_memory(program, folder, calls):
    """Records calls in parts; prints the memory after each eighth of them."""
    out = os.path.join(folder, "parts")
    judge, began = judge_of_parts(out), time.process_time()
    for step in range(STEPS):
        for turn in range(step * calls // STEPS // 2, (step + 1) * calls // STEPS // 2):
            judged_turn(judge, turn, f"d{turn % DOCUMENTS}", turn < DOCUMENTS)
        spent = (time.process_time() - began) / ((step + 1) * calls // STEPS) * 1e6
        print(f"{(step + 1) * calls // STEPS} calls: {memory() / 2**20:.1f} MiB, {spent:.1f} us of a processor a call", flush=True)
        finished = sorted(pathlib.Path(out).glob("*.ndjson"))
        for it in finished:
            print(f"  {it.name}: " + subprocess.run([program, "check", it], stdout=subprocess.PIPE, text=True).stdout, end="")
            it.unlink()
    judge.close()
    shutil.rmtree(out, ignore_errors=True)


def measure_watch(program, folder, seconds):
    """Watches a history that grows; prints what the watch, with its checks, takes of a processor."""
    file = os.path.join(folder, "carts.ndjson")
    words = [sys.executable, "-m", "casbench_recording.watch", file, "--every", "1", "--program", program]
    before = resource.getrusage(resource.RUSAGE_CHILDREN)
    with History(file) as history:
        watch = subprocess.Popen(words, env=environment())
        began, number = time.monotonic(), 0
        while time.monotonic() < began + seconds:
            for number in range(number, number + A_SECOND // 10):
                history.call("index", f"d{number % DOCUMENTS}", number).indexed(Pair(1, number), created=number < DOCUMENTS)
            number += 1
            time.sleep(max(0.0, began + number / A_SECOND - time.monotonic()))
    watch.send_signal(signal.SIGTERM)
    watch.wait()
    after = resource.getrusage(resource.RUSAGE_CHILDREN)
    spent = after.ru_utime + after.ru_stime - before.ru_utime - before.ru_stime
    print(f"watched {number} calls for {seconds} s: {spent:.2f} s of a processor, {100 * spent / seconds:.1f} % of one")


def main():
    if sys.argv[1:2] == ["documents"]:
        with tempfile.TemporaryDirectory() as folder:
            measure_documents(folder, sys.argv[2], int(sys.argv[3]) if len(sys.argv) > 3 else NEW_DOCUMENTS)
        return 0
    program = built_program(sys.argv[1:2])
    calls, seconds = map(int, sys.argv[2:4]) if len(sys.argv) > 3 else (CALLS, SECONDS)
    with tempfile.TemporaryDirectory() as folder:
        measure_memory(program, folder, calls)
        measure_watch(program, folder, seconds)
    return 0


if __name__ == "__main__":
    sys.exit(main())
