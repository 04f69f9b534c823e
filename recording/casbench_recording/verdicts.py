"""Combines the verdicts on histories that were checked on several machines into one.

    python3 -m casbench_recording.verdicts parts

For each parts/NAME.ndjson a job has written parts/NAME.ndjson.verdict: the output of `casbench check --json`,
and on the last line the exit status. If the histories are those of the shards of a recording, one for each,
an order of all calls explains the recording exactly if each history is explained (docs/RECORDING.md). A
history without a verdict, or whose verdict is older than it, was not judged.
"""

import argparse
import json
import os
import sys
from collections import Counter
from typing import Any, Dict, List, NamedTuple, Optional, Sequence, Tuple

SUFFIX, OF_A_VERDICT = ".ndjson", ".verdict"

SEVERITY = (3, 4, 5, 1, 2, 6, 0)
"""The exit statuses of checks, the most severe first: not judged (3, 4, 5), not explained, refused, too few
calls, explained."""

NOT_JUDGED, NOT_EXPLAINED, REFUSED, TOO_FEW, EXPLAINED = 4, 1, 2, 6, 0

ANSWERS = {EXPLAINED: {"yes"}, TOO_FEW: {"yes"}, NOT_EXPLAINED: {"no", "refuted"}, REFUSED: {"refused"}}
"""The answers that a check may print with each exit status."""

MEMBERS = {
    "no": ("event", "call", "before"),
    "refuted": ("kind", "calls", "event", "call", "before"),
    "refused": ("line", "cause"),
}
"""The members of an answer's line, in order."""

COUNTS = ("docs", "calls", "left_out", "gets")
"""The counts of a `yes`, in order."""


class Verdict(NamedTuple):
    """The result of a check: the exit status and the answer, or why there is no answer."""

    file: str
    status: int
    answer: Dict[str, Any]
    fault: str = ""

    @property
    def word(self) -> str:
        """The first word of the answer."""
        return str(self.answer["answer"]) if not self.fault else "not judged"

    @property
    def line(self) -> str:
        """The line that a check without `--json` prints."""
        if self.fault:
            return f"{self.file}: {self.fault}"
        values = (
            counts_of(self.answer)
            if self.word == "yes"
            else {key: self.answer[key] for key in MEMBERS[self.word]}
        )
        few = ", fewer calls than asked for" if self.status == TOO_FEW else ""
        return f"{self.file}: {line_of(self.word, values)}{few}"


def counts_of(answer: Dict[str, Any]) -> Dict[str, int]:
    """Returns the counts of a `yes`, in order."""
    return {key: answer["counts"][key] for key in COUNTS if key in answer["counts"]}


def line_of(word: str, values: Dict[str, Any]) -> str:
    """Returns the line of an answer, from its word and its values."""
    shown = {key: ",".join(map(str, it)) if isinstance(it, list) else it for key, it in values.items()}
    return " ".join([word, *(f"{key}={it}" for key, it in shown.items())])


def verdict_of(history: str) -> Verdict:
    """Reads the verdict beside a history."""
    file = os.path.basename(history)
    try:
        if os.stat(history + OF_A_VERDICT).st_mtime_ns < os.stat(history).st_mtime_ns:
            return Verdict(file, NOT_JUDGED, {}, "its verdict is older than the history")
        with open(history + OF_A_VERDICT, encoding="utf-8") as text:
            *printed, last = text.read().splitlines() or [""]
    except (OSError, UnicodeDecodeError) as fault:
        return Verdict(file, NOT_JUDGED, {}, f"it has no verdict: {fault}")
    status = int(last) if last.isdecimal() else NOT_JUDGED
    answer = answer_of(status, printed)
    if answer is None:
        return Verdict(
            file,
            status if status in (3, 5) else NOT_JUDGED,
            {},
            f"the check failed, with status {last or 'unknown'}",
        )
    return Verdict(file, status, answer)


def answer_of(status: int, printed: Sequence[str]) -> Optional[Dict[str, Any]]:
    """Returns the object that a check printed, or None if no check with this exit status prints it."""
    try:
        answer = json.loads("\n".join(printed))
        word = answer["answer"]
        needed = answer["counts"] if word == "yes" else answer
        is_whole = all(it in needed for it in (COUNTS[:3] if word == "yes" else MEMBERS[word]))
        is_whole = is_whole and (
            word != "yes" or all(isinstance(it, int) for it in counts_of(answer).values())
        )
    except (ValueError, KeyError, TypeError, RecursionError):
        return None
    return answer if word in ANSWERS.get(status, ()) and is_whole else None


def together(verdicts: Sequence[Verdict], at_least: int) -> Tuple[int, str]:
    """Returns the combined exit status, which is the most severe one, and the line for all verdicts."""
    if not verdicts:
        return NOT_JUDGED, "not judged: there is no history"
    if len({json.dumps(it.answer.get("reading"), sort_keys=True) for it in verdicts if not it.fault}) > 1:
        return NOT_JUDGED, "not judged: the histories were checked in different readings"
    status = min((it.status for it in verdicts), key=SEVERITY.index)
    words = Counter(it.word for it in verdicts)
    if status not in (EXPLAINED, TOO_FEW):
        word = next(
            it for it in ("not judged", "refuted", "no", "refused") if words[it] and status_fits(it, status)
        )
        return status, f"{word}: of {len(verdicts)} histories " + ", ".join(
            f"{count} {it}" for it, count in sorted(words.items())
        )
    counts: Dict[str, int] = {"histories": len(verdicts)}
    for it in verdicts:
        for key, value in counts_of(it.answer).items():
            counts[key] = counts.get(key, 0) + value
    line = line_of("yes", counts)
    if status == EXPLAINED and counts["calls"] < at_least:
        return TOO_FEW, f"{line}, fewer calls than {at_least}"
    return status, line


def status_fits(word: str, status: int) -> bool:
    """Returns whether a check with this status may have this answer."""
    return (word == "not judged") == (status in (3, 4, 5)) and (word == "refused") == (status == REFUSED)


def histories_of(folder: str) -> List[str]:
    """Returns the histories of a directory, ordered by the bytes of their names, as the jobs number them."""
    names = [it.name for it in os.scandir(folder) if it.name.endswith(SUFFIX)]
    return [os.path.join(folder, it) for it in sorted(names, key=os.fsencode)]


def main() -> int:
    """Prints the verdicts that aren't `yes`, and then the combined one; returns the most severe status."""
    parser = argparse.ArgumentParser(description="Combines the verdicts on the histories of a directory.")
    parser.add_argument(
        "folder",
        metavar="DIR",
        help="the directory of the histories (*.ndjson) and their verdicts (*.ndjson.verdict)",
    )
    parser.add_argument(
        "--at-least",
        type=int,
        default=0,
        metavar="CALLS",
        help="minimum number of calls of all histories together; with fewer, a yes has status 6",
    )
    options = parser.parse_args()
    sys.stdout.reconfigure(errors="backslashreplace")  # type: ignore[attr-defined]
    try:
        verdicts = [verdict_of(it) for it in histories_of(options.folder)]
    except OSError as fault:
        print(f"casbench_recording.verdicts: {options.folder}: {fault.strerror}", file=sys.stderr)
        return NOT_JUDGED
    for it in verdicts:
        if it.status != EXPLAINED:
            print(it.line)
    status, line = together(verdicts, options.at_least)
    print(line)
    return status


if __name__ == "__main__":
    sys.exit(main())
