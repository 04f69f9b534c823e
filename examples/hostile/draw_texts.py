#!/usr/bin/env python3
"""Draws good texts, changes some of their bytes, and looks at what casbench answers to them.

    python3 draw_texts.py [--seed 1] [--texts 20000] [PROGRAM]

PROGRAM is the built casbench; where it is not named, the one that the gate builds. Each text is a history with a witness, or
the two texts of a bulk request, each with one to six changes: other digits, escapes, lines and bytes cut out, doubled and moved,
brackets, bytes that are no text. Each answer has to be one of the lines of its command, with its status and nothing on standard error; and a
check, a witness and a verification of one history have to refuse it alike.
"""

import argparse
import json
import os
import random
import re
import subprocess
import sys
import tempfile
from concurrent.futures import ProcessPoolExecutor

HERE = os.path.dirname(os.path.realpath(__file__))
PROGRAM = os.path.join(os.path.dirname(os.path.dirname(HERE)), "crates", "casbench", "out", "casbench")

REFUSED = rb"refused (file=(history|witness) )?line=\d+ cause=[a-z-]+\n"
# What each command may write, by status.
LINES = {
    "check": {
        0: rb"yes docs=\d+ calls=\d+ left_out=\d+\n",
        1: rb"(no|refuted kind=[a-z-]+ calls=\d+(,\d+)?) event=\d+ call=\d+ before=(shown|[a-z-]+)\n",
        2: REFUSED,
    },
    "witness": {
        0: rb"(\{.*\}\n)*",
        1: rb"(no|refuted kind=[a-z-]+ calls=\d+(,\d+)?) event=\d+ call=\d+ before=(shown|[a-z-]+)\n",
        2: REFUSED,
    },
    "verify": {
        0: rb"verified docs=\d+ calls=\d+ left_out=\d+\n",
        1: rb"broken .*\n",
        2: REFUSED,
    },
    "bulk": {
        0: rb"(\{.*\}\n)*",
        2: rb"refused (line=\d+ cause=[a-z]+|cause=count|item=\d+ cause=kind)\n",
    },
}


class Index:
    """An index of one shard that answers as it should."""

    def __init__(self, draw):
        self.draw, self.next, self.documents = draw, 0, {}

    def answer(self, document, operation, condition, number):
        """The status and the body of the answer."""
        held = self.documents.get(document)
        if operation == "get":
            if held is None:
                return 404, {"_id": document, "found": False}
            sequence, value = held
            return 200, {"_id": document, "found": True, "_seq_no": sequence, "_primary_term": 1, "_source": {"k": value}}
        if condition is not None and (held is None or held[0] != condition) or operation == "create" and held is not None:
            return 409, {"error": {"type": "version_conflict_engine_exception"}}
        sequence, self.next = self.next, self.next + 1
        body = {"_id": document, "_seq_no": sequence, "_primary_term": 1}
        if operation == "delete":
            self.documents.pop(document, None)
            return (200, {**body, "result": "deleted"}) if held else (404, {**body, "result": "not_found"})
        self.documents[document] = (sequence, number)
        return (200, {**body, "result": "updated"}) if held else (201, {**body, "result": "created"})


def history_lines(draw):
    """The lines of a drawn history of a few calls, of which two may be open at once."""
    index, lines, waiting = Index(draw), [], []
    for number in range(draw.randint(2, 8)):
        document, operation = draw.choice("ab"), draw.choice(("get", "get", "index", "index", "delete", "create"))
        call = {"e": "call", "n": number, "id": document, "op": operation}
        if operation in ("index", "create"):
            call["k"] = number
        held = index.documents.get(document)
        condition = held[0] if held and operation in ("index", "delete") and draw.random() < 0.5 else None
        if condition is not None:
            call |= {"if_seq_no": condition, "if_primary_term": 1}
        lines.append(call)
        status, body = index.answer(document, operation, condition, number)
        lost = draw.random() < 0.1
        waiting.append({"e": "lost", "n": number} if lost else {"e": "reply", "n": number, "status": status, "body": body})
        while waiting and draw.random() < 0.7:
            lines.append(waiting.pop(draw.randrange(len(waiting))))
    return lines + waiting


def told(draw, line):
    """A line as JSON, with its keys in a drawn order, and with spaces or without."""
    keys = list(line)
    draw.shuffle(keys)
    return json.dumps({key: line[key] for key in keys}, separators=draw.choice(((",", ":"), (", ", ": "))))


def witness_lines(draw):
    """The lines of a drawn witness."""
    lines = []
    for document in draw.sample("abc", draw.randint(1, 2)):
        lines.append({"doc": document})
        for record in range(draw.randint(0, 4)):
            place = {"rec": record}
            lines.append(place | {"seq": draw.randint(0, 9), "term": 1} if draw.random() < 0.3 else place)
    return lines


def bulk_texts(draw):
    """The lines of a drawn bulk request, and of its reply."""
    index, body, items = Index(draw), [], []
    for number in range(draw.randint(1, 4)):
        document, operation = draw.choice("ab"), draw.choice(("index", "delete", "create"))
        body.append({operation: {"_id": document}})
        if operation != "delete":
            body.append({"k": number})
        status, answer = index.answer(document, operation, None, number)
        items.append({operation: {**answer, "_id": document, "status": status}})
    return body, [{"took": 1, "errors": False, "items": items}]


DIGITS = [b"0", b"1", b"9", b"-1", b"1.5", b"1e3", b"9223372036854775807", b"9223372036854775808", b"18446744073709551616"]
PIECES = [b"\\", b"\\u0061", b"\\ud800", b"\\n", b'"', b"{", b"}", b"[" * 127, b"[" * 128, b",", b":", b"null", b"true", b"\n", b" "]
NO_TEXT = [b"\xff", b"\xc3\x28", b"\xed\xa0\x80", b"\x00", b"\xef\xbb\xbf", b"\xf4\x90\x80\x80"]


def other_digits(draw, text):
    """Another number stands where one stood."""
    numbers = list(re.finditer(rb"\d+", text))
    if not numbers:
        return text
    number = draw.choice(numbers)
    digits = draw.choice(DIGITS) if draw.random() < 0.3 else b"%d" % draw.randrange(12)
    return text[: number.start()] + digits + text[number.end() :]


def escaped(draw, text):
    """A letter is written as an escape."""
    letters = list(re.finditer(rb"[a-z]", text))
    if not letters:
        return text
    letter = draw.choice(letters)
    return text[: letter.start()] + b"\\u%04x" % letter[0][0] + text[letter.end() :]


def by_lines(draw, text):
    """A line is cut out, doubled, or moved."""
    lines = text.splitlines(keepends=True)
    if not lines:
        return text
    line = lines.pop(draw.randrange(len(lines)))
    for _ in range(draw.randrange(3)):
        lines.insert(draw.randrange(len(lines) + 1), line)
    return b"".join(lines)


def by_bytes(draw, text):
    """Bytes are cut out, doubled, put in, or one is another."""
    at = draw.randrange(len(text) + 1)
    end = min(len(text), at + draw.randint(1, 20))
    put_in = draw.choice(PIECES + NO_TEXT)
    return draw.choice((text[:at] + text[end:], text[:end] + text[at:], text[:at] + put_in + text[at:], text[:at] + bytes([draw.randrange(256)]) + text[at + 1 :]))


def hostile(draw, lines):
    """The bytes of the lines after one to six changes."""
    text = "".join(told(draw, line) + "\n" for line in lines).encode()
    for _ in range(draw.choice((1, 1, 1, 2, 3, 4, 5, 6))):
        text = draw.choice((other_digits, other_digits, other_digits, escaped, by_lines, by_lines, by_bytes))(draw, text)
    return text


def answer(program, command, texts):
    """What the program answers: its status and its line, or why that can't be."""
    ran = subprocess.run([program, command, *texts], capture_output=True, timeout=60)
    line = LINES[command].get(ran.returncode)
    if line is None or ran.stderr or not re.fullmatch(line, ran.stdout):
        return None, f"{command}: status {ran.returncode}, {ran.stdout[:200]!r}, {ran.stderr[:200]!r}"
    return (ran.returncode, ran.stdout), ""


def judged_history(program, folder, draw):
    """Judges a changed history by three commands."""
    history, witness = os.path.join(folder, "history"), os.path.join(folder, "witness")
    for path, text in ((history, hostile(draw, history_lines(draw))), (witness, hostile(draw, witness_lines(draw)))):
        with open(path, "wb") as file:
            file.write(text)
    answers = [answer(program, "check", [history]), answer(program, "witness", [history]), answer(program, "verify", [history, witness])]
    for got, why in answers:
        if got is None:
            return why, ""
    (check, line), (_, other), (verify, verified) = (got for got, _ in answers)
    refused = line if check == 2 else b""
    alike = (other if other.startswith(b"refused") else b"") == refused
    by_verify = verified.replace(b"file=history ", b"") if b"file=history" in verified else b""
    if not alike or by_verify != refused:
        return f"not refused alike: {line!r}, {other[:100]!r}, {verified!r}", ""
    return "", ("refused history" if refused else "refused witness" if verify == 2 else "taken")


def judged_bulk(program, folder, draw):
    """Judges a changed bulk request."""
    paths = [os.path.join(folder, "body"), os.path.join(folder, "reply")]
    body, reply = bulk_texts(draw)
    for path, lines in zip(paths, (body, reply)):
        with open(path, "wb") as file:
            file.write(hostile(draw, lines).replace(b"\n", b"") + b"\n" if path == paths[1] else hostile(draw, lines))
    got, why = answer(program, "bulk", paths)
    return why, "" if got is None else "refused bulk" if got[0] == 2 else "taken"


def judged(work):
    """Judges the texts of some seeds; tells how many ended in which way, and what was wrong."""
    program, seeds = work
    counts, wrong = {}, []
    with tempfile.TemporaryDirectory() as folder:
        for seed in seeds:
            draw = random.Random(seed)
            judge = judged_bulk if draw.random() < 0.2 else judged_history
            why, kind = judge(program, folder, draw)
            if why:
                wrong.append(f"seed {seed}: {why}")
            counts[kind] = counts.get(kind, 0) + 1
    return counts, wrong


def main():
    words = argparse.ArgumentParser(description=__doc__.splitlines()[0])
    words.add_argument("--seed", type=int, default=1)
    words.add_argument("--texts", type=int, default=20_000)
    words.add_argument("program", nargs="?", default=PROGRAM)
    asked = words.parse_args()
    seeds = range(asked.seed * 1_000_000, asked.seed * 1_000_000 + asked.texts)
    shares = [(os.path.abspath(asked.program), seeds[at : at + 200]) for at in range(0, len(seeds), 200)]
    counts, wrong = {}, []
    with ProcessPoolExecutor() as pool:
        for some, bad in pool.map(judged, shares):
            wrong += bad
            for kind, count in some.items():
                counts[kind] = counts.get(kind, 0) + count
    for line in wrong[:20]:
        print(line)
    print(", ".join(f"{count} {kind}" for kind, count in sorted(counts.items())))
    print(f"{asked.texts - len(wrong)} passed, {len(wrong)} failed")
    return 1 if wrong else 0


if __name__ == "__main__":
    sys.exit(main())
