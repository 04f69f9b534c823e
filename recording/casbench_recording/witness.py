"""Checks a witness or a certificate without casbench. Recorders import from here what makes a witness from
the log of a store.

    python3 -m casbench_recording.witness check HISTORY WITNESS

prints what `casbench verify` prints and, if the witness isn't valid, a sentence that names the calls. Of a
certificate, which `casbench witness --rule-out` writes of a document that is ruled out, it prints `certified`
or `broken`. It takes the options of a reading, such as `--profile opensearch`.
"""

import argparse
import sys
from typing import Optional, Sequence

from .history.readings import add_reading_options, reading_of
from .history.witness import StoreLog, checked, witness_by_log

__all__ = ["StoreLog", "checked", "witness_by_log"]


def main(arguments: Optional[Sequence[str]] = None) -> int:
    """Checks a witness or a certificate, and returns the exit status: 0 if it is valid, 1 if it isn't, 2 if a
    text is refused."""
    parser = argparse.ArgumentParser(
        description="Checks a witness or a certificate with a checker that shares no code with casbench."
    )
    check = parser.add_subparsers(required=True).add_parser(
        "check", help="check whether a witness or a certificate is valid"
    )
    check.add_argument("history", help="the history text")
    check.add_argument(
        "witness",
        help="the witness text; or, of a document that is ruled out, the certificate: what casbench witness "
        "--rule-out writes",
    )
    add_reading_options(check.add_argument)
    setting = parser.parse_args(arguments)
    try:
        with open(setting.history, "rb") as history, open(setting.witness, "rb") as witness:
            status, output = checked(history.read(), witness.read(), reading_of(setting))
    except OSError as fault:
        print(f"witness: {fault}", file=sys.stderr)
        return 4
    print(output)
    return status


if __name__ == "__main__":
    sys.exit(main())
