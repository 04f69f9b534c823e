#!/usr/bin/env python3
"""Measures what a check of unusual texts costs beside a plain text of as many bytes.

    python3 tests/measure_reading.py [--megabytes N] [--runs N] PROGRAM

PROGRAM is the built casbench. Each text is a history of calls that are answered one after the other, and gets `yes`. The time is that
of a processor, the system's not counted, the least of some runs; beside it stands how many times that of the plain text it is.
"""

import argparse
import json
import random
import resource
import subprocess
import sys
import tempfile
from pathlib import Path

# How many documents a text has, and what the bytes of a line may be at most.
DOCUMENTS, LINE_BYTES = 64, 65_536


def written(members):
    """A line without spaces, its members in their order."""
    return json.dumps(dict(members), separators=(",", ":"))


def escaped(line):
    """The line with each id spelled by an escape."""
    return line.replace('"id":"d', '"id":"\\u0064').replace('"_id":"d', '"_id":"\\u0064')


def shuffled(draws):
    """A function that puts the members of a line, and of its body, in a drawn order."""

    def of(line):
        value = json.loads(line)
        for part in (value, value.get("body", {})):
            members = list(part.items())
            draws.shuffle(members)
            part.clear()
            part.update(members)
        return written(value)

    return of


def with_strangers(line):
    """The line with a hundred members that are no fields."""
    return "{" + "".join(f'"x{n}":{n},' for n in range(100)) + line[1:]


def longest(line):
    """The line with a member that makes it as long as a line may be."""
    return '{"x":"' + "x" * (LINE_BYTES - len(line) - len('"x":"",')) + '",' + line[1:]


def calls(number, document, seq):
    """An index of a document and a get of what it wrote, each with its reply, as lines; the numbers of the calls follow each other."""
    pair = {"_seq_no": seq, "_primary_term": 1}
    first = seq < DOCUMENTS
    body = {"_id": document, "result": "created" if first else "updated", **pair}
    yield [("e", "call"), ("id", document), ("k", seq), ("n", number(2 * seq)), ("op", "index")]
    yield [("body", body), ("e", "reply"), ("n", number(2 * seq)), ("status", 201 if first else 200)]
    yield [("e", "call"), ("id", document), ("n", number(2 * seq + 1)), ("op", "get")]
    yield [("body", {"_id": document, "found": True, "_source": {"k": seq}, **pair}), ("e", "reply"), ("n", number(2 * seq + 1)), ("status", 200)]


def text(size, change=lambda line: line, number=lambda n: n, name=lambda n: f"d{n}"):
    """A text of about so many bytes, each line of which was changed."""
    lines, length, seq = [], 0, 0
    while length < size and 4 * seq < 1_048_576:
        for members in calls(number, name(seq % DOCUMENTS), seq):
            lines.append(change(written(members)))
            length += len(lines[-1]) + 1
        seq += 1
    return "\n".join(lines) + "\n"


def kinds(size):
    """Each kind of text by its name, the plain one first."""
    yield "plain", text(size)
    yield "an escape in each id", text(size, escaped)
    yield "members in drawn orders", text(size, shuffled(random.Random(1)))
    yield "a hundred members that are no fields", text(size, with_strangers)
    yield "lines of 65,536 bytes", text(size, longest)
    yield "numbers of calls that fall", text(size, number=lambda n: (1 << 40) - n)
    yield "ids of 512 bytes that differ in the last two", text(size, name=lambda n: "d" * 510 + f"{n:02}")
    yield "an é in each id", text(size, lambda line: line.replace('id":"d', 'id":"é'))


def seconds(program, path, runs):
    """The least processor time of some checks of the text, which gets `yes`."""
    least = None
    for _ in range(runs):
        before = resource.getrusage(resource.RUSAGE_CHILDREN).ru_utime
        answer = subprocess.run([program, "check", path], capture_output=True, text=True, check=False).stdout
        took = resource.getrusage(resource.RUSAGE_CHILDREN).ru_utime - before
        if not answer.startswith("yes "):
            sys.exit(f"{path}: {answer}")
        least = took if least is None else min(least, took)
    return least


def main():
    """Prints the table."""
    parser = argparse.ArgumentParser()
    parser.add_argument("program")
    parser.add_argument("--megabytes", type=int, default=32)
    parser.add_argument("--runs", type=int, default=5)
    given = parser.parse_args()
    print("| text | bytes | seconds a gigabyte | times the plain |\n|---|---|---|---|")
    with tempfile.TemporaryDirectory() as folder:
        plain = None
        for name, text in kinds(given.megabytes << 20):
            path = Path(folder, "text.ndjson")
            path.write_text(text, encoding="utf-8")
            size = path.stat().st_size
            cost = seconds(given.program, path, given.runs) / size * 1e9
            plain = plain or cost
            print(f"| {name} | {size:,} | {cost:.1f} | {cost / plain:.2f} |", flush=True)


if __name__ == "__main__":
    main()
