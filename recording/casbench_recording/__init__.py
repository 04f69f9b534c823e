"""Recorders for casbench: they write what clients request from a store, and what it answers, as history
texts.

`history` has the history texts, on which everything else is built. `proxy` records the clients of an
application, and `load` has clients of its own. `watch` checks a recording while it is made. `stand_in` is a
cluster to try them on.
"""
