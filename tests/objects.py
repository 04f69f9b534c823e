#!/usr/bin/env python3
"""Compares the objects that the program writes with --json with the lines that it writes without.

    python3 tests/objects.py [PROGRAM]

PROGRAM is the built casbench; if it isn't named, the one that ./casbench would run. The members of an object are those
of the line of the same case of tests/cases; what an object says beside its line is found here from the text.
"""

import datetime
import json
import os
import pathlib
import re
import subprocess
import sys
import tempfile
import threading
import time

from case_files import FILES, all_cases, case_text
from program_test import ProgramTest, run_tests
from readings import PROFILES, STRICT, Reading
from running import SECONDS, run
from texts import OFFENCE, conflict, created, get, index, lost, missing, no_calls, status_of, too_few

# The commands that answer in objects if they are asked for, and the first words of the lines that are answers of one.
COMMANDS = {"check", "verify", "witness", "explain"}
ANSWERS = re.compile(r"(?:yes|no|refuted|refused|verified|broken) [^\n]*\n")

# Replies to a write that say whether it was performed, by their results or statuses.
RESULTS = {"created", "updated", "deleted", "not_found"}

# The other reading that leaves each event as it is.
MAYBE = STRICT._replace(conflicts="maybe")

# An id that is escaped in JSON, and a history of it for which no order is found, with a blank line and times.
ODD = '\\"\\u00e9\\u0001'
TIMED = (
    index(0, doc=ODD)
    + "\n"
    + created(0, 1, 0).replace("}\n", ',"t":1764079389123}\n')
    + index(1, doc=ODD, k=2)
    + conflict(1).replace("}\n", ',"t":1764079389456}\n')
)


def value_of(text):
    """What a name of a line has for a value."""
    return int(text) if text.isdecimal() else text


def members_of(line):
    """The members that the object of a line has for what the line says."""
    word, *pairs = line.split()
    said = {key: value_of(value) for key, _, value in (it.partition("=") for it in pairs)}
    if word in ("yes", "verified"):
        said = {"counts": said}
    if "calls" in said:
        said["calls"] = [int(it) for it in str(said["calls"]).split(",")]
    if "file" in said:
        said["text"] = said.pop("file")
    if said.get("cause") == "pair-twice":
        said.setdefault("shard", 0)
    return {"answer": word, **said}


def events_of(history):
    """The events of a history, with their lines, from 1."""
    rows = enumerate(history.splitlines(), 1)
    return [(number, json.loads(row)) for number, row in rows if row.strip(" \t\r")]


def is_settled(events, reading):
    """Whether each write that is judged has a reply that says whether it was performed. A second attempt has none."""
    replies = {event["n"]: event for _, event in events if event["e"] == "reply"}
    for _, event in events:
        if event["e"] == "call" and event["op"] != "get":
            reply = replies.get(event["n"], {"status": 0})
            if reading.writes == "repeated":
                return False
            if reply["status"] == 409 and reading.conflicts == "plain":
                continue
            body = reply.get("body")
            if not (isinstance(body, dict) and body.get("result") in RESULTS and "_seq_no" in body):
                return False
    return True


def facts_of(line, history, reading):
    """What the object of a line says beside it, of this history."""
    word = line.split()[0]
    if word in ("yes", "verified"):
        return {"proved": True}
    offence = OFFENCE.fullmatch(line)
    if not offence:
        return {}
    events, number = events_of(history), int(offence["call"])
    called, call = next((it, event) for it, event in events if event["e"] == "call" and event["n"] == number)
    replied, reply = events[int(offence["event"])]
    facts = {
        "proved": word == "refuted" or is_settled(events, reading),
        "document": call["id"],
        "shard": call.get("shard", 0),
        "lines": {"call": called, "reply": replied},
    }
    # A reading that leaves each event as it is isn't named.
    if reading not in (STRICT, MAYBE):
        facts["reading"] = reading._asdict()
    if "t" in reply:
        time = datetime.datetime.fromtimestamp(reply["t"] / 1000, datetime.timezone.utc)
        facts["time"] = time.isoformat(timespec="milliseconds").replace("+00:00", "Z")
    return facts


def compact(members):
    """The text of an object, as the program writes it."""
    return json.dumps(members, ensure_ascii=False, separators=(",", ":"), sort_keys=True) + "\n"


def reading_of(arguments):
    """The reading that these arguments choose."""
    words = [part for argument in arguments for part in argument.split("=", 1)]
    options = {one[2:]: two for one, two in zip(words, words[1:]) if one.startswith("--")}
    chosen = {name: options[name] for name in Reading._fields if name in options}
    return PROFILES[options.get("profile", "strict")]._replace(**chosen)


class Objects(ProgramTest):
    """Each object, and what it has beside the members of its line."""

    def check_object(self, out, line, history, files, reading=STRICT):
        """Compares an object with the line, and with what else is known of the files; of `explain` it has the explanation."""
        said = json.loads(out)
        milliseconds = said.pop("milliseconds")
        self.assertTrue(type(milliseconds) is int and 0 <= milliseconds < 120_000)
        self.assertEqual(said, {**members_of(line), **files, **facts_of(line, history, reading)})
        self.assertEqual(out, compact({**said, "milliseconds": milliseconds}))

    def check_case(self, arguments, texts):
        text = texts["stdout"].decode()
        named = [it for it in arguments[1:] if it in FILES]
        with tempfile.TemporaryDirectory() as folder:
            for name in FILES:
                if name in texts:
                    (pathlib.Path(folder) / name).write_bytes(texts[name])
            given = b"" if named else texts["history"]
            status, out, why = run(self.program, [*(arguments or ["check"]), "--json"], given, cwd=folder)
        self.assertEqual(status, int(texts["status"]))
        is_explained = arguments[:1] == ["explain"]
        is_noted = text.startswith("yes docs=0") and not is_explained
        self.assertEqual(why, no_calls("history" if named else "") if is_noted else "")
        if not ANSWERS.match(text):
            self.assertEqual(out, text)
            return
        line, rest = text[: text.index("\n") + 1], text[text.index("\n") + 1 :]
        files = {"file": "history" if named else "-"}
        if is_explained:
            files["explanation"] = rest
        elif rest:
            # A certificate follows the object as it follows the line.
            self.assertTrue(out.endswith(f"\n{rest}"), out)
            out = out.removesuffix(rest)
        if arguments[:1] == ["verify"]:
            files["witness"] = "witness"
        self.check_object(out, line, texts["history"].decode(errors="replace"), files, reading_of(arguments))

    def test_cases(self):
        """The object of each case has the members of its line; a witness and a certificate are written as without."""
        rows = []
        for name, texts in all_cases().items():
            arguments = texts["args"].decode().split("\n")[:-1]
            if not arguments or arguments[0] in COMMANDS:
                rows.append((name, arguments, texts))
        self.run_subtests(self.check_case, rows)

    def run_in(self, arguments, files, given=""):
        """Runs the program in a folder that has these files, and a folder `d`."""
        with tempfile.TemporaryDirectory() as folder:
            (pathlib.Path(folder) / "d").mkdir()
            for name, text in files.items():
                (pathlib.Path(folder) / name).write_text(text)
            return run(self.program, arguments, given, cwd=folder)

    def test_places(self):
        """Blank lines count, the document's id is escaped, and the time is that of the reply's line."""
        status, line, _ = self.run_in(["check", "h"], {"h": TIMED})
        self.assertEqual((status, line.split()[0]), (status_of(line), "no"))
        for command in ("check", "witness"):
            for name, given in (("h", ""), ("-", TIMED)):
                with self.subTest(f"{command} {name}"):
                    status, out, why = self.run_in([command, name, "--json"], {"h": TIMED}, given)
                    self.assertEqual((status, why), (status_of(line), ""))
                    self.check_object(out, line, TIMED, {"file": name})

    def test_place_in_a_pipe(self):
        """What can be read only once is not opened again for a time."""
        _, line, _ = self.run_in(["check", "h"], {"h": TIMED})
        words = [self.program, "check", "pipe", "--json"]
        with tempfile.TemporaryDirectory() as folder:
            pipe = pathlib.Path(folder) / "pipe"
            os.mkfifo(pipe)
            # (on a thread, since it waits until the program opens the pipe)
            threading.Thread(target=pipe.write_text, args=(TIMED,), daemon=True).start()
            out = subprocess.run(words, cwd=folder, stdout=subprocess.PIPE, text=True, timeout=SECONDS, check=False).stdout
        self.check_object(out, line, TIMED, {"file": "pipe"})

    def test_several_files(self):
        """Each file has an object, in the order of the arguments, whose status is as without, however many workers there are."""
        right, wrong = case_text("index-then-get"), case_text("hidden-conflict")
        files = {"a": right, "b": wrong, "é \"": "", "torn": "{"}
        arguments = ["check", "a", "b", "é \"", "-", "torn"]
        plain = self.run_in(arguments, files, right)
        texts = [*zip(arguments[1:], [right, wrong, "", right, "{"])]
        for workers in ("1", "2", "3", "16"):
            self.assertEqual(self.run_in([*arguments, "--workers", workers], files, right), plain)
            status, out, why = self.run_in([*arguments, "--json", "--workers", workers], files, right)
            self.assertEqual((status, why), (plain[0], plain[2]))
            self.assertEqual(out.count("\n"), len(texts))
            for (name, text), line, written in zip(texts, plain[1].splitlines(True), out.splitlines(True)):
                self.check_object(written, line.removeprefix(f"{name}: "), text, {"file": name})

    def test_too_few(self):
        """The exit status and the note of too few calls are as without."""
        right = case_text("index-then-get")
        status, out, why = self.run_in(["check", "--json", "--at-least", "3"], {}, right)
        self.assertEqual((status, why), (6, too_few("2 calls", 3)))
        self.check_object(out, "yes docs=1 calls=2 left_out=0\n", right, {"file": "-"})

    def check_unsettled(self, history, reading, proved):
        status, out, why = run(self.program, ["check", "--json", "--conflicts", reading], history)
        said = json.loads(out)
        self.assertEqual((status, why, said["answer"], said["proved"]), (1, "", "no", proved))

    def test_proved(self):
        """A `no` is proved if each write has a reply that says whether it was performed, and not else."""
        settled = index(0) + created(0, 1, 0) + index(1) + conflict(1)
        unseen = index(0) + created(0, 1, 0) + get(1) + missing(1)
        self.run_subtests(
            self.check_unsettled,
            [
                ("settled", settled, "plain", True),
                ("a write is lost", settled + index(2, doc="e") + lost(2), "plain", False),
                ("a write is open", settled + index(2, doc="e"), "plain", False),
                ("a get is lost", settled + get(2) + lost(2), "plain", True),
                ("no conflict", unseen, "maybe", True),
                ("a conflict that may have been a write", unseen + index(2) + conflict(2), "maybe", False),
            ],
        )

    def test_nothing_in_pieces(self):
        """After a fault nothing was written: not of a file that was judged before either."""
        for name, fault in (("absent", "no such file"), ("d", "is a directory")):
            with self.subTest(name):
                status, out, why = self.run_in(["check", "--json", "h", name], {"h": index(0)})
                self.assertEqual((status, out), (4, ""))
                self.assertIn(f"{name}: {fault}", why)

    def test_page(self):
        """A page that is written beside an object is the one that is written beside the text."""
        with tempfile.TemporaryDirectory() as folder:
            (pathlib.Path(folder) / "h").write_text(TIMED)
            pages = []
            for words in ([], ["--json"]):
                run(self.program, ["explain", "h", "--html", "page", *words], cwd=folder)
                pages.append((pathlib.Path(folder) / "page").read_text())
        self.assertEqual(pages[0], pages[1])
        self.assertTrue(pages[0].startswith("<!doctype html>"))

    def test_milliseconds(self):
        """They count the time in which the text is read."""
        words = [self.program, "check", "--json"]
        with subprocess.Popen(words, stdin=subprocess.PIPE, stdout=subprocess.PIPE, text=True) as child:
            child.stdin.write(index(0))
            child.stdin.flush()
            # (long enough for a program that begins late)
            time.sleep(2)
            out, _ = child.communicate(created(0, 1, 0))
        self.assertGreaterEqual(json.loads(out)["milliseconds"], 300)


if __name__ == "__main__":
    sys.exit(run_tests())
