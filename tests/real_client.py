#!/usr/bin/env python3
"""Asks a cluster through the client of Debian's package python3-elasticsearch, and prints what that client saw, as JSON.

    python3 tests/real_client.py URL SECONDS LETTERS

It is no test itself: recorded_real_client.py runs it. SECONDS is how long the client waits for an answer before it tries again, as it
does after a connection that breaks too; LETTERS are the turns that it makes.
"""

import json
import sys
import warnings

warnings.simplefilter("ignore")

from elasticsearch import Elasticsearch, helpers
from elasticsearch.exceptions import ConflictError, NotFoundError


class Turns:
    """The turns, each by its letter."""

    def __init__(self, client):
        self.client, self.count = client, 0

    def source(self):
        self.count += 1
        return {"count": self.count, "items": [{"name": "Käse", "price": 1.5 * self.count}]}

    def i(self):
        """Indexes a document."""
        return self.client.index(index="carts", id="d", document=self.source())["result"]

    def c(self):
        """Creates one, which may be there."""
        return self.client.create(index="carts", id="e", document=self.source())["result"]

    def g(self):
        """Gets a document."""
        return self.client.get(index="carts", id="d")["_source"]["count"]

    def s(self):
        """Gets a part of it."""
        return self.client.get(index="carts", id="d", _source_includes="count")["_source"]

    def h(self):
        """Asks whether documents are there."""
        return [self.client.exists(index="carts", id=it) for it in ("d", "nowhere")]

    def w(self):
        """Reads a document, and writes it twice under the pair that was read: the second time in vain."""
        read = self.client.get(index="carts", id="d")
        pair = {"if_seq_no": read["_seq_no"], "if_primary_term": read["_primary_term"]}
        self.client.index(index="carts", id="d", document=self.source(), **pair)
        return self.client.index(index="carts", id="d", document=self.source(), **pair)["result"]

    def d(self):
        """Deletes a document."""
        return self.client.delete(index="carts", id="d")["result"]

    def b(self):
        """Writes several, by the client's own helper."""
        actions = [{"_index": "carts", "_id": f"b{it}", "_source": self.source()} for it in range(3)]
        actions += [{"_op_type": "delete", "_index": "carts", "_id": "b0"}, {"_index": "carts", "_source": self.source()}]
        return helpers.bulk(self.client, actions)[0]

    def m(self):
        """Gets several."""
        answer = self.client.mget(index="carts", body={"ids": ["d", "b1", "nowhere"]})
        return [it["found"] for it in answer["docs"]]

    def n(self):
        """Indexes a document without an id, and gets it."""
        id = self.client.index(index="carts", document=self.source())["_id"]
        return self.client.get(index="carts", id=id)["found"]

    def u(self):
        """Updates a document by a part of it."""
        return self.client.update(index="carts", id="d", doc={"count": -1})["result"]


def tried(turn):
    """What a turn gives, or the name of the exception that the client raises."""
    try:
        return turn()
    except (ConflictError, NotFoundError) as fault:
        return type(fault).__name__


def main():
    url, seconds, letters = sys.argv[1:]
    client = Elasticsearch(url, timeout=float(seconds), max_retries=5, retry_on_timeout=True)
    turns = Turns(client)
    print(json.dumps([tried(getattr(turns, it)) for it in letters]))


if __name__ == "__main__":
    main()
