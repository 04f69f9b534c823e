"""The proxy, which records the requests of an application's clients.

`command` is its command line, and `server` the running proxy. The subpackages are `http` (connections and
messages), `routing` (what a request does, by its method, path and query), `recording` (the calls and replies
that are written), and `state` (what is known of the documents).
"""

from .command import main

__all__ = ["main"]
