"""`Continuing`, a recording without a limit, under the name by which recorders import it."""

from .history.continuing import Continuing, TooManyLost

__all__ = ["Continuing", "TooManyLost"]
