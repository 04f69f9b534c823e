"""An application that keeps counters and texts in an index: what a service would do, with eight threads.

It is no test itself. It reads before it writes under a condition and tries again after a conflict, writes without a
condition, updates a part, deletes, and reads and writes several documents at once. It asks the nodes that it is given
by turns, tries nothing again that it got no answer to, and goes on to the next node.
"""

import contextlib
import gzip
import http.client
import itertools
import json
import math
import random
import threading
import time
from typing import NamedTuple

# How many threads there are, how many times a write under a condition is tried, how many times a page reads a document,
# and how many seconds an answer may take.
THREADS, TRIES, POLLS, PATIENCE = 8, 4, 4, 20

# How long a thread rests behind a request that nobody answered, in seconds.
RESTS = 0.02

INDEX = "carts"


class Load(NamedTuple):
    """What the application does: on how many documents, the first of which it updates in part, which turns it takes, from
    which of the nodes it reads and to which it writes, all if none is named, for how many seconds at least and how many
    turns; after how many seconds it goes on to new documents; and in which coding it takes answers."""

    documents: int
    turns: str
    readers: tuple = ()
    writers: tuple = ()
    seconds: float = 3.0
    least: int = 300
    renewed: float = math.inf
    coding: str = "identity"


class Application:
    """The application at work."""

    def __init__(self, ports, load, seed):
        self.ports, self.load, self.seed = ports, load, seed
        self.turns, self.answers = itertools.count(), itertools.count()
        self.values = itertools.count(1)
        self.began = self.ends = None

    def run(self):
        """Works as long as it is asked to; returns how many requests were answered."""
        self.began = time.monotonic()
        self.ends = self.began + self.load.seconds
        threads = [threading.Thread(target=Worker(self, f"{self.seed}/{it}").run) for it in range(THREADS)]
        for it in threads:
            it.start()
        for it in threads:
            it.join()
        return next(self.answers)

    def is_over(self):
        """Whether no more turns are made; otherwise there is one more."""
        return next(self.turns) >= self.load.least and time.monotonic() >= self.ends

    def stop(self):
        """Has it make no more turns, if it made as many as it has to."""
        self.ends = self.began

    def first(self):
        """The number of the first of the documents that it works on now."""
        return int((time.monotonic() - self.began) / self.load.renewed) * self.load.documents


class Worker:
    """One thread of it, with a connection to each node."""

    def __init__(self, application, seed):
        self.application, self.load = application, application.load
        self.draw = random.Random(seed)
        self.connections = [http.client.HTTPConnection("127.0.0.1", it, timeout=PATIENCE) for it in application.ports]
        everywhere = range(len(self.connections))
        # which nodes it asks, and how often it went on to the next one
        self.readers, self.writers = self.load.readers or everywhere, self.load.writers or everywhere
        self.place = self.draw.randrange(len(self.connections))

    def run(self):
        turns = self.load.turns.split()
        with contextlib.ExitStack() as stack:
            for it in self.connections:
                stack.callback(it.close)
            while not self.application.is_over():
                getattr(self, self.draw.choice(turns))(self.document())

    def document(self):
        """One of the documents."""
        return f"d{self.application.first() + self.draw.randrange(self.load.documents)}"

    # Requests

    def ask(self, method, target, body=None):
        """Asks a node; gives the status and what the answer's body holds, or None and nothing if there is no answer."""
        nodes = self.readers if method == "GET" or target == "_mget" else self.writers
        connection = self.connections[nodes[self.place % len(nodes)]]
        text = body if body is None or isinstance(body, bytes) else json.dumps(body).encode()
        try:
            connection.request(method, f"/{INDEX}/{target}", text, {"Content-Type": "application/json", "Accept-Encoding": self.load.coding})
            answer = connection.getresponse()
            content = answer.read()
            value = json.loads(gzip.decompress(content) if answer.getheader("Content-Encoding") == "gzip" else content)
        except (OSError, ValueError, http.client.HTTPException):
            connection.close()
            self.place += 1
            time.sleep(RESTS)
            return None, {}
        next(self.application.answers)
        self.place += answer.status >= 500
        return answer.status, value

    def source(self):
        return {"count": next(self.application.values), "by": "application", "items": [{"name": "Käse"}]}

    # Turns, each on a document

    def read(self, id):
        return self.ask("GET", f"_doc/{id}")

    def get(self, id):
        """Reads the document again and again, as a page does that is kept up to date."""
        for _ in range(POLLS):
            self.read(id)

    def swap(self, id):
        """Reads the document and writes it under the pair that was read, or creates it; again after a conflict."""
        for _ in range(TRIES):
            status, found = self.read(id)
            if status == 200:
                pair = f"if_seq_no={found['_seq_no']}&if_primary_term={found['_primary_term']}"
                status, _ = self.ask("PUT", f"_doc/{id}?{pair}", self.source())
            elif status == 404:
                status, _ = self.ask("PUT", f"_create/{id}", self.source())
            if status != 409:
                return

    def put(self, id):
        self.ask("PUT", f"_doc/{id}", self.source())

    def update(self, _):
        """Updates a part of one document: of a source that is written so no recorder knows the whole."""
        count = next(self.application.values)
        body = {"doc": {"count": count}, "upsert": {"count": count}}
        self.ask("POST", f"_update/d{self.application.first()}?retry_on_conflict=1", body)

    def delete(self, id):
        self.ask("DELETE", f"_doc/{id}")

    def mget(self, id):
        self.ask("POST", "_mget", {"ids": [id, self.document()]})

    def bulk(self, id):
        lines = []
        for _ in range(3):
            action = self.draw.choice(["index", "index", "create", "delete"])
            lines.append({action: {"_id": self.document()}})
            lines += [self.source()] if action != "delete" else []
        self.ask("POST", "_bulk", b"".join(json.dumps(it).encode() + b"\n" for it in lines))
