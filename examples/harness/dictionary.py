#!/usr/bin/env python3
"""Records four clients that read and write a dictionary behind a lock, as a history text.

    python3 examples/harness/dictionary.py FILE [FAULT]

FAULT is stale-get, where a read may show what was there before the last change, or lost-update, where conditions are not compared.
"""

import pathlib
import sys
import threading
import time

sys.path.insert(0, str(pathlib.Path(__file__).resolve().parents[2] / "recording"))

from casbench_recording.history import History, Pair
from casbench_recording.load import MIXTURE, Habits, Kind, Load, Outcome


class Dictionary:
    """The store, of one node. Each document has the pair of its last change and its value; one number counts the changes of all."""

    nodes = 1

    def __init__(self, fault):
        self.fault, self.lock, self.count, self.kept, self.before = fault, threading.Lock(), 0, {}, {}

    def connect(self, node):
        """A session of a client; nothing has to be connected here."""
        return Session(self)

    def get(self, id):
        """What a get answers."""
        with self.lock:
            there = (self.before if self.fault == "stale-get" else self.kept).get(id)
        return Outcome(Kind.FOUND, *there) if there else Outcome(Kind.MISSING)

    def write(self, it):
        """What a write answers: its condition is compared and it is performed in one step."""
        with self.lock:
            there = self.kept.get(it.id)
            is_met = it.condition is None or there is not None and there[0] == it.condition
            if it.op == "create" and there or not (is_met or self.fault == "lost-update"):
                return Outcome(Kind.CONFLICT)
            self.count += 1
            pair = Pair(1, self.count)
            self.before[it.id], self.kept[it.id] = there, None if it.op == "delete" else (pair, it.value)
        if it.op == "delete":
            return Outcome(Kind.DELETED if there else Kind.NOT_FOUND, pair)
        return Outcome(Kind.UPDATED if there else Kind.CREATED, pair)


class Session:
    """What one client does with the store."""

    is_open = True

    def __init__(self, store):
        self.store = store

    def send(self, call):
        time.sleep(0.0005)  # (so that clients meet)

    def outcome(self, call):
        it = call.operation
        return self.store.get(it.id) if it.op == "get" else self.store.write(it)

    def close(self):
        pass


if __name__ == "__main__":
    with History(sys.argv[1], most_events=2 * 800) as history:
        load = Load(history, seed=1)
        load.add_clients(4, Dictionary(*sys.argv[2:] or ["none"]), Habits(MIXTURE, documents=3))
        load.run()
