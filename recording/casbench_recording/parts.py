"""`Parts`, which writes a history for each shard, under the name by which recorders import it."""

from .history.by_shard import Parts

__all__ = ["Parts"]
