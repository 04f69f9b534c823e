"""What the program answers to a history in a reading: the one place where the tests of readings ask it.

It is no test itself. `answer_by_strict_check` has a strict check judge the text that tests/readings.py makes of a
history, and judges the gets itself: so an answer in a reading is compared without an exact search.
"""

import json
import pathlib
import tempfile
from typing import NamedTuple

from evidence import known_calls
from readings import OPENSEARCH, conflicts_read, history_of, number_in_text, numbers_read, records_read, strict_history
from readings import text_of, unexplained_gets
from running import bytes_of, run, run_on_files, said
from texts import OFFENCE, status_of


class Answer(NamedTuple):
    """An answer: its first word; the kind of evidence and the numbers of its calls, if there is evidence; the line."""

    word: str
    kind: str
    calls: tuple
    line: str


def answer_of_line(line):
    """The answer that a line is."""
    found = OFFENCE.fullmatch(line)
    calls = tuple(map(int, found["calls"].split(","))) if found and found["calls"] else ()
    return Answer(line.partition(" ")[0], found["kind"] if found else None, calls, line)


def options_of(reading):
    """The options that ask for the reading: those of the profile, if it is one."""
    return ["--profile", "opensearch"] if reading == OPENSEARCH else reading.options()


def lines_of_check(program, texts, options):
    """The lines that a check with --rule-out writes of some texts, of which the program is asked at once."""
    with tempfile.TemporaryDirectory() as folder:
        files = [pathlib.Path(folder) / str(at) for at, _ in enumerate(texts)]
        for file, text in zip(files, texts):
            file.write_bytes(bytes_of(text))
        status, out = said(run(program, ["check", "--rule-out", *options, *files]))
    lines = out.splitlines(keepends=True)
    if len(texts) > 1:
        lines = [it.removeprefix(f"{file}: ") for file, it in zip(files, lines)]
    if len(lines) != len(texts) or status != max(map(status_of, lines)):
        raise AssertionError(f"status {status}, and {len(lines)} lines for {len(texts)} texts: {out[:300]}")
    return lines


def check_all(program, texts, reading):
    """The answers to some texts, of which the program is asked at once."""
    return [answer_of_line(it) for it in lines_of_check(program, texts, options_of(reading))]


def check(program, text, reading):
    """The answer to a text."""
    return check_all(program, [text], reading)[0]


def answer_by_strict_check(program, text, reading):
    """The answer to a text, by a strict check of what the reading makes of it, and by the gets that are judged one by
    one. Its line is that of the check."""
    history = history_of(text)
    options = ["--conflicts", conflicts_read(reading)]
    answer = answer_of_line(lines_of_check(program, [text_of(strict_history(reading, history))], options)[0])
    answer = answer._replace(calls=tuple(number_in_text(reading, history.events, it) for it in answer.calls))
    if answer.kind not in (None, "ruled-out"):
        return answer
    # (a document is ruled out only if there is no other evidence)
    calls = known_calls(history.events)
    gets = unexplained_gets(reading, history.voids, history.events)
    first = min(gets, key=lambda it: (calls[it[1][0]].replied, it[0] != "no-writer"), default=None)
    return Answer("refuted", *first, answer.line) if first else answer


def witness_of_text(program, text, reading):
    """The witness that the program writes of a text, or the line that it has instead."""
    return said(run_on_files(program, "witness", [text], ["--rule-out", *options_of(reading)]))[1]


def verify(program, text, witness, reading):
    """What `verify` answers to a witness of what is read of a text."""
    return said(run_on_files(program, "verify", [text, witness], options_of(reading)))[1]


def counts_of(reading, text, witness):
    """What `yes` counts of a text with a witness: the documents, the calls, those of them in no place, and the gets
    that are judged one by one, which aren't among these. A twin's place is not that of its call."""
    history = history_of(text)
    records = {history.names[doc]: its for doc, its in records_read(reading, history).items()}
    placed, doc = set(), None
    for row in map(json.loads, witness.splitlines()):
        doc = row.get("doc", doc)
        if "rec" in row:
            placed.add(records[doc][row["rec"]])
    calls, numbers = known_calls(history.events), numbers_read(reading, history.events)
    gets = {it for it, call in calls.items() if reading.gets == "any" and call.op.name == "get" and call.reply}
    left_out = [it for it in calls if numbers[it] not in placed and it not in gets]
    return len(history.names), len(calls), len(left_out), len(gets)
