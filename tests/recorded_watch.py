#!/usr/bin/env python3
"""Tests the watch, which checks a recording while it grows, and runs a command at the first fault that is proved.

    python3 tests/recorded_watch.py [PROGRAM]

PROGRAM is the built casbench; if it isn't named, the one that ./casbench would run. The last line says how many tests passed and
failed.
"""

import contextlib
import io
import itertools
import os
import pathlib
import pty
import select
import shutil
import signal
import subprocess
import sys
import time
import unittest

from program_test import run_tests
from recordings import own_reading
from small_readings import READINGS
from texts import created, delete, found, get, index, lost, updated
from watching import SECONDS, WatchTest, heeds_signals

from casbench_recording import record
from casbench_recording.history import MOST_EVENTS, Pair
from casbench_recording.history.readings import reading_of
from casbench_recording.proxy import command as proxy
from casbench_recording.watch import command as watch
from casbench_recording.watch.process import watch_options
from casbench_recording.watch.snapshots import Snapshot
from casbench_recording.watch.terms import TermReader, Terms

# A history that is right, what makes it stale, and what no history is.
RIGHT = index(0) + created(0, 1, 0) + index(1, k=2) + updated(1, 1, 1)
STALE = get(2) + found(2, 1, 0)
NONE = "{}\n"

# A write that one copy shows before it is acknowledged, and another one doesn't.
TWO_COPIES = index(0) + created(0, 1, 0) + index(1, k=2) + get(2) + found(2, 1, 1, k=2) + get(3) + found(3, 1, 0) + updated(1, 1, 1)

# A write of another document is acknowledged, and then a term starts behind it, or at its number, so that it may be lost.
ACKNOWLEDGED = RIGHT + index(2, doc="e") + created(2, 1, 2433, doc="e")
GOES_ON = index(3, doc="f") + created(3, 2, 2434, doc="f")
STARTS_LOW = index(3, doc="f") + created(3, 2, 2431, doc="f")
HINT = "hint: shard 0: term 2 starts at 2431, but 1/2433 was acknowledged: it may be lost, though no reply shows that\n"
LOST_HINT = "hint: shard 0: 1/2431 to 1/2433 were acknowledged and may be lost\n"

# What is written of a part that is finished.
PART_LINE = "part-%06d.ndjson: yes docs=%d calls=%d left_out=0\n"

# A program in the place of casbench, which takes so many seconds of a processor and then answers yes. It writes when it began and ended.
SLOW = """#!{python}
import sys, time
began = time.time()
sys.stdin.buffer.read()
while time.process_time() < {seconds}:
    pass
print(began, time.time(), file=open({log!r}, "a"), flush=True)
print("yes docs=1 calls=1 left_out=0")
"""

# Scripts in the place of casbench that give no verdict of a history, and what is reported of each.
NO_VERDICTS = {
    "says nothing": ("exit 0", "gave no verdict: ''"),
    "fails without a word": ("exit 1", "gave no verdict: ''"),
    "says a word alone": ("echo yes", "gave no verdict: 'yes\\n'"),
    "says it and more": ("echo yes docs=1 calls=1; echo and more", "gave no verdict: "),
    "says yes with the status of no": ("echo yes docs=1 calls=1 left_out=0; exit 1", "ended with status 1 and gave no verdict: "),
    "says refuted with the status of yes": ("echo refuted kind=stale-get; exit 0", "ended with status 0 and gave no verdict: "),
    "repeats the history": ("echo \"$history\"", "gave no verdict: "),
    "says too much": ("yes yes docs=1 calls=1 left_out=0", "wrote too much and ended with status -9: "),
    "has another status": ("echo a fault >&2; exit 64", "ended with status 64: a fault"),
    "is killed": ("kill -9 $$", "ended with status -9: "),
}

READ = "read"
"""What is shown by a get, and not by the reply to a write."""


class OneHistory(WatchTest):
    """A watch of one history."""

    def test_a_fault_that_comes_while_it_watches(self):
        mark = os.path.join(self.folder, "mark")
        self.append(RIGHT)
        child = self.watched("--every", "0.1", "--", sys.executable, "-c", f"open({mark!r}, 'x'); raise SystemExit(3)")
        time.sleep(0.5)
        self.append(STALE)
        status, printed, fault = self.ended(child)
        self.assertEqual(status, 1, fault)
        self.assertRegex(printed, r"\Arefuted kind=stale-get calls=2,1 event=5 call=2 before=shown\n\n?.*\n")
        self.assertGreater(printed.count("\n"), 5)
        self.assertTrue(os.path.exists(mark))
        self.assertRegex(fault, r"\Acasbench_recording\.watch: .* ended with status 3\n\Z")

    def test_a_reading(self):
        """The checks and the explanation are those of the reading."""
        for options, ended in (
            ((), (1, "refuted kind=ruled-out ")),
            (("--profile", "opensearch"), (0, "yes docs=1 calls=4 left_out=0 gets=2\n")),
            (("--profile", "opensearch", "--gets", "last"), (1, "refuted kind=ruled-out ")),
            (("--gets", "any"), (0, "yes docs=1 calls=4 left_out=0 gets=2\n")),
        ):
            with self.subTest(options):
                pathlib.Path(self.file).write_text(TWO_COPIES)
                status, printed, fault = self.ended(self.closed(*options))
                self.assertEqual((status, printed[: len(ended[1])]), ended, fault)

    def closed(self, *options):
        """A watch whose standard input is at its end, so that its first check is its last one."""
        return self.watched("--until-closed", *options, stdin=subprocess.DEVNULL)

    def test_whole_lines_alone(self):
        whole = RIGHT + STALE
        for cut in range(0, len(whole) + 1, 7):
            pathlib.Path(self.file).write_text(whole[:cut])
            snapshot = Snapshot(self.file)
            self.assertEqual(snapshot.length, whole[:cut].rfind("\n") + 1)
        self.append(RIGHT[-5:])
        snapshot = Snapshot(self.file)
        self.append("what comes later")
        self.assertEqual(snapshot.ask(["cat"]).text, whole[:cut] + RIGHT[-5:])

    def test_half_a_line_is_not_looked_at(self):
        self.append(RIGHT + STALE[:-20])
        child = self.watched("--every", "0.1")
        time.sleep(0.5)
        self.append(STALE[-20:])
        self.assertEqual(self.ended(child)[0], 1)

    def test_the_end(self):
        for text, status, wanted in (
            (RIGHT, 0, "yes docs=1 calls=2 left_out=0\n"),
            (NONE, 2, "refused line=1 cause=shape\n"),
            ("", 2, ""),
        ):
            for sent in (signal.SIGINT, signal.SIGTERM):
                pathlib.Path(self.file).write_text("")
                child = self.watched("--every", "60")
                self.wait_for(lambda child=child: heeds_signals(child))
                pathlib.Path(self.file).write_text(text)
                ended = self.ended(child, sent)
                self.assertEqual(ended[:2], (status, wanted), ended[2])
                self.assertEqual("there is nothing to check" in ended[2], not text)

    def test_what_is_not_judged(self):
        """It is printed with the last answer."""
        self.append(RIGHT)
        self.append('{"id": "d1", "why": "x"}\n{"id": "d2", "why": "x"}\n{"ended": true, "why": "the disk\\u001b is full"}\n', "carts.ndjson.not-judged")
        for last, count in (('{"id": "d', "2 documents"), ('3"}\n{"calls": 1}\n', "3 documents, 1 call")):
            self.append(last, "carts.ndjson.not-judged")
            child = self.watched()
            self.wait_for(lambda: heeds_signals(child))
            wanted = f"yes docs=1 calls=2 left_out=0\nnot judged: {count}, listed in {self.file}.not-judged\n"
            wanted += "the recording ended early: the disk\\x1b is full\n"
            self.assertEqual(self.ended(child, signal.SIGTERM)[:2], (0, wanted))

    def test_a_term_that_starts_too_low(self):
        """It is reported with the last answer, which is yes all the same."""
        for more, hint in ((GOES_ON, ""), (STARTS_LOW, HINT)):
            pathlib.Path(self.file).write_text(ACKNOWLEDGED)
            log = os.path.join(self.folder, "log")
            child = self.watched("--every", "0.1", "--", "touch", log)
            self.wait_for(lambda child=child: heeds_signals(child))
            time.sleep(0.3)
            self.append(more)
            status, printed, fault = self.ended(child, signal.SIGTERM)
            self.assertEqual((status, printed), (0, f"yes docs=3 calls=4 left_out=0\n{hint}"), fault)
            # (the command is for what is proved)
            self.assertFalse(os.path.exists(log))

    def test_a_term_that_starts_too_low_beside_a_fault(self):
        self.append(ACKNOWLEDGED + STARTS_LOW + STALE.replace('"n":2', '"n":9'))
        status, printed, _ = self.ended(self.watched())
        self.assertEqual((status, printed.partition(" ")[0]), (1, "refuted"))
        self.assertTrue(printed.endswith(LOST_HINT), printed)

    def test_the_end_of_standard_input(self):
        child = self.watched("--every", "60", "--until-closed")
        time.sleep(0.5)
        self.append(RIGHT + STALE)
        child.stdin.close()
        child.stdin = None
        status, printed, _ = self.ended(child)
        self.assertEqual((status, printed.partition(" ")[0]), (1, "refuted"))

    def test_a_program_that_is_not_there(self):
        self.append(RIGHT)
        status, printed, fault = self.ended(self.watched(program="/dev/null/casbench"))
        self.assertEqual((status, printed), (4, ""))
        self.assertIn("Not a directory: '/dev/null/casbench'", fault)

    def no_verdict(self, name, text, fault):
        """A program that gives a verdict of an empty text, and none of a history that is refuted, is reported at once."""
        script = self.script(f"history=$(cat); if [ \"$history\" ]; then {text}; else exec $casbench \"$@\" </dev/null; fi", name)
        status, printed, errors = self.ended(self.watched("--every", "0.1", program=script))
        self.assertEqual((status, printed), (4, ""), errors)
        self.assertIn(fault, errors)

    def test_programs_that_give_no_verdict(self):
        self.append(RIGHT + STALE)
        self.run_subtests(self.no_verdict, [(name, name, *it) for name, it in NO_VERDICTS.items()])

    def test_programs_that_are_none(self):
        """What can't check is reported at once, before there is a recording."""
        for name, program in (
            ("says nothing", "/bin/true"),
            ("has no such command", "/bin/cat"),
            ("isn't there", f"{self.folder}/casbench"),
            ("is run by what isn't there", self.script("", first=f"#!{self.folder}/sh")),
            ("is a directory", self.folder),
            ("refutes nothing", self.script("echo refuted kind=stale-get calls=2,1; exit 1", "refutes")),
        ):
            with self.subTest(name):
                status, printed, fault = self.ended(self.watched("--every", "60", program=program))
                self.assertEqual((status, printed), (4, ""))
                self.assertRegex(fault, rf"\Acasbench_recording\.watch: {program} (can't be run: |ended with |answers an empty text with ).*\n\Z")

    def test_a_program_that_vanishes(self):
        """What was checked before doesn't stand for what came later."""
        log = pathlib.Path(self.folder) / "log"
        program = self.logging(log)
        self.append(RIGHT)
        child = self.watched("--every", "0.1", program=program)
        self.wait_for_checks(log, RIGHT)
        os.remove(program)
        self.append(STALE)
        status, printed, fault = self.ended(child)
        self.assertEqual((status, printed), (4, ""))
        self.assertIn("No such file or directory", fault)

    def test_a_history_that_is_gone(self):
        """Lines that were checked, and are there no more, are no recording that is right."""
        for name, lose in (("removed", os.remove), ("cut off", lambda path: os.truncate(path, 0))):
            with self.subTest(name):
                log = pathlib.Path(self.folder) / name
                pathlib.Path(self.file).write_text(RIGHT)
                child = self.watched("--every", "0.1", program=self.logging(log))
                self.wait_for_checks(log, RIGHT)
                time.sleep(0.3)
                lose(self.file)
                status, printed, fault = self.ended(child)
                self.assertEqual((status, printed), (4, ""))
                self.assertIn(f"{self.file} was {name} while it was watched", fault)

    def test_a_refutation_that_nobody_explains(self):
        """The verdict stands, and the command is run, if `explain` fails, or nobody reads what is printed."""
        self.append(RIGHT + STALE)
        mark = os.path.join(self.folder, "mark")
        for name, text in (("fails", "exit 3"), ("is killed", "kill -9 $$"), ("says nothing", "exit 0"), ("is not read", 'exec $casbench "$@"')):
            with self.subTest(name):
                program = self.script(f"if [ $1 = explain ]; then {text}; else exec $casbench \"$@\"; fi")
                read, write = os.pipe()
                if name == "is not read":
                    os.close(read)
                child = self.watched("--", "touch", mark, program=program, stdout=write)
                os.close(write)
                self.assertEqual(self.ended(child)[0], 1)
                if name != "is not read":
                    with open(read, encoding="utf-8") as printed:
                        self.assertEqual(printed.read(), "refuted kind=stale-get calls=2,1 event=5 call=2 before=shown\n")
                self.assertTrue(os.path.exists(mark))
                os.remove(mark)

    def test_checks_take_a_tenth_of_a_processor(self):
        log, slow = os.path.join(self.folder, "log"), pathlib.Path(self.folder) / "slow"
        slow.write_text(SLOW.format(python=sys.executable, log=log, seconds=0.2))
        slow.chmod(0o755)
        self.append(RIGHT)
        child = self.watched("--every", "0.1", program=str(slow))
        for number in itertools.count(10):
            self.append(get(number))
            time.sleep(0.1)
            if os.path.exists(log) and pathlib.Path(log).read_text().count("\n") == 4:
                break
            self.assertLess(number, 10 * SECONDS)
        self.assertEqual(self.ended(child, signal.SIGTERM)[0], 0)
        times = [float(it) for it in pathlib.Path(log).read_text().split()]
        # (each takes 0.2 seconds at least; the first one is of no line, and tries whether the program checks)
        rests = [began - ended for ended, began in zip(times[3:7:2], times[4:7:2])]
        self.assertGreater(min(rests), 9 * 0.2)

    def test_a_terminal(self):
        """Each check is a line, which takes the place of a line on progress."""
        self.append(RIGHT)
        ours, its = pty.openpty()
        child = self.watched("--every", "0.1", stdout=its)
        os.close(its)
        shown = b""
        with contextlib.closing(open(ours, "rb", 0)) as terminal:
            while b"(" not in shown:
                self.assertTrue(select.select([terminal], [], [], SECONDS)[0])
                shown += terminal.read(4096)
            self.assertEqual(self.ended(child, signal.SIGTERM)[0], 0)
        line = rb"\r\x1b\[K\d\d:\d\d:\d\d  yes docs=1 calls=2 left_out=0  \(\d\.\d\d s\)"
        self.assertRegex(shown, rb"\A" + line)


class Directory(WatchTest):
    """A watch of a directory of parts."""

    def setUp(self):
        super().setUp()
        self.file = os.path.join(self.folder, "parts")
        os.mkdir(self.file)
        self.part = "parts/part-000001.ndjson"

    def test_parts(self):
        self.append(RIGHT, self.part)
        self.append(RIGHT, "parts/part-000002.ndjson.growing")
        self.append("old", "parts/notes")
        child = self.watched("--every", "0.1", "--delete-parts")
        self.wait_for(lambda: not os.path.exists(os.path.join(self.folder, self.part)))
        time.sleep(0.5)
        self.assertEqual(sorted(os.listdir(self.file)), ["notes", "part-000002.ndjson.growing"])
        os.rename(os.path.join(self.folder, "parts/part-000002.ndjson.growing"), os.path.join(self.folder, "parts/part-000002.ndjson"))
        self.append(RIGHT, "parts/shard-0.ndjson")
        finished = "".join(PART_LINE % (number, 1, 2) for number in (1, 2))
        self.assertEqual(self.ended(child, signal.SIGTERM)[:2], (0, f"{finished}3 parts: 3 yes, 0 no, 0 refused; 2 deleted\n"))
        self.assertEqual(sorted(os.listdir(self.file)), ["notes", "shard-0.ndjson"])

    def test_a_part_that_is_finished_without_more_lines(self):
        """It has its line once, though it isn't checked again."""
        self.append(RIGHT, f"{self.part}.growing")
        log = pathlib.Path(self.folder) / "log"
        child = self.watched("--every", "0.1", program=self.logging(log))
        self.wait_for_checks(log, RIGHT)
        os.rename(os.path.join(self.folder, f"{self.part}.growing"), os.path.join(self.folder, self.part))
        self.assertEqual(child.stdout.readline(), PART_LINE % (1, 1, 2))
        self.append(RIGHT, "parts/shard-0.ndjson")
        self.wait_for_checks(log, 2 * RIGHT)
        self.assertEqual(self.ended(child, signal.SIGTERM)[:2], (0, "2 parts: 2 yes, 0 no, 0 refused\n"))

    def test_lines_that_are_gone(self):
        """It ends at once: the directory, or a part that grows, or a history that is no part, isn't deleted while it is watched."""
        growing = "parts/part-000002.ndjson.growing"
        for name, lose, gone in (
            ("the directory", shutil.rmtree, "parts"),
            ("a part that grows", lambda path: os.remove(os.path.join(self.folder, growing)), "parts/part-000002.ndjson"),
            ("a shard", lambda path: os.remove(os.path.join(path, "shard-0.ndjson")), "parts/shard-0.ndjson"),
        ):
            with self.subTest(name):
                shutil.rmtree(self.file)
                os.mkdir(self.file)
                for it in (self.part, growing, "parts/shard-0.ndjson"):
                    self.append(RIGHT, it)
                log = pathlib.Path(self.folder) / name
                child = self.watched("--every", "0.1", program=self.logging(log))
                self.wait_for_checks(log, 3 * RIGHT)
                lose(self.file)
                status, printed, fault = self.ended(child)
                self.assertEqual((status, printed), (4, PART_LINE % (1, 1, 2)), fault)
                self.assertEqual(fault, f"casbench_recording.watch: {self.folder}/{gone} was removed while it was watched\n")
                os.makedirs(self.file, exist_ok=True)

    def test_finished_parts_that_others_delete(self):
        """They aren't lost, whether they were finished at first or meanwhile."""
        self.append(RIGHT, self.part)
        self.append(RIGHT, "parts/part-000002.ndjson.growing")
        self.append(RIGHT, "parts/part-000003.ndjson.growing")
        child = self.watched("--every", "0.1")
        self.assertEqual(child.stdout.readline(), PART_LINE % (1, 1, 2))
        os.rename(os.path.join(self.folder, "parts/part-000002.ndjson.growing"), os.path.join(self.folder, "parts/part-000002.ndjson"))
        self.assertEqual(child.stdout.readline(), PART_LINE % (2, 1, 2))
        os.remove(os.path.join(self.folder, self.part))
        os.remove(os.path.join(self.folder, "parts/part-000002.ndjson"))
        self.append(RIGHT, "parts/part-000004.ndjson")
        self.assertEqual(child.stdout.readline(), PART_LINE % (4, 1, 2))
        self.assertEqual(self.ended(child, signal.SIGTERM)[:2], (0, "4 parts: 4 yes, 0 no, 0 refused\n"))

    def test_a_part_that_is_refuted(self):
        self.append(RIGHT, self.part)
        child = self.watched("--every", "0.1", "--delete-parts")
        self.wait_for(lambda: not os.path.exists(os.path.join(self.folder, self.part)))
        self.append(RIGHT + STALE, "parts/part-000002.ndjson.growing")
        status, printed, _ = self.ended(child)
        self.assertEqual(status, 1)
        path = os.path.join(self.file, "part-000002.ndjson.growing")
        self.assertTrue(printed.startswith(f"{PART_LINE % (1, 1, 2)}{path}:\nrefuted kind=stale-get calls=2,1 "), printed)
        self.assertTrue(os.path.exists(path))

    def test_a_term_that_starts_too_low_in_a_later_part(self):
        self.append(ACKNOWLEDGED, self.part)
        child = self.watched("--every", "0.1", "--delete-parts")
        self.wait_for(lambda: not os.path.exists(os.path.join(self.folder, self.part)))
        self.append(STARTS_LOW, "parts/part-000002.ndjson.growing")
        wanted = f"{PART_LINE % (1, 2, 3)}2 parts: 2 yes, 0 no, 0 refused; 1 deleted\n{HINT}"
        self.assertEqual(self.ended(child, signal.SIGTERM)[:2], (0, wanted))

    def test_histories_that_are_no_parts_have_terms_of_their_own(self):
        self.append(ACKNOWLEDGED, "parts/one.ndjson")
        self.append(STARTS_LOW, "parts/two.ndjson")
        child = self.watched("--every", "60")
        self.wait_for(lambda: heeds_signals(child))
        self.assertEqual(self.ended(child, signal.SIGTERM)[:2], (0, "2 parts: 2 yes, 0 no, 0 refused\n"))

    def test_a_text_that_is_no_history(self):
        self.append(NONE, self.part)
        child = self.watched("--every", "0.1", "--delete-parts")
        self.wait_for(lambda: heeds_signals(child))
        refused = "refused line=1 cause=shape\n"
        wanted = f"part-000001.ndjson: {refused}1 part: 0 yes, 0 no, 1 refused\n{refused}"
        self.assertEqual(self.ended(child, signal.SIGTERM)[:2], (2, wanted))
        self.assertEqual(os.listdir(self.file), ["part-000001.ndjson"])


class Readings(unittest.TestCase):
    """The options of a reading, as recorders take them and hand them on to the watch."""

    RECORDERS = {
        "record": lambda words: record.parse_arguments(["http://127.0.0.1", "carts", "OUT", *words]),
        "proxy": lambda words: proxy.parse_arguments(["--cluster", "http://127.0.0.1", "--index", "carts", "OUT", *words]),
    }

    def test_readings_that_are_handed_on(self):
        for (recorder, read), (name, reading) in itertools.product(self.RECORDERS.items(), READINGS.items()):
            with self.subTest(f"{recorder}, {name}"):
                setting = read(["--watch", *reading.options()])
                watched = watch.parse_arguments(["OUT", *watch_options(setting)])
                self.assertEqual((setting.reading, reading_of(watched)), (own_reading(reading),) * 2)

    def test_profiles(self):
        """A profile stands for its values, but for those that are named beside it, before or behind."""
        profile = READINGS["the profile of OpenSearch"]
        for words, reading in (
            ((), profile._replace(gets="last", conflicts="plain", writes="once", failed="lost")),
            (("--profile", "opensearch"), profile),
            (("--writes", "once", "--profile", "opensearch", "--conflicts", "maybe"), profile._replace(writes="once", conflicts="maybe")),
            (("--profile", "strict", "--gets", "any"), READINGS["gets of any copy"]),
        ):
            for recorder, read in self.RECORDERS.items():
                with self.subTest(f"{recorder} {words}"):
                    self.assertEqual(read(words).reading, own_reading(reading))

    def test_bad_options(self):
        """An option that comes twice and a value that it doesn't have are refused, with the usage and status 2."""
        readers = {**self.RECORDERS, "watch": lambda words: watch.parse_arguments(["OUT", *words])}
        for (name, read), words in itertools.product(readers.items(), (["--gets", "any"] * 2, ["--profile", "none"], ["--failed", ""])):
            with self.subTest(f"{name} {words}"), contextlib.redirect_stderr(io.StringIO()) as errors:
                with self.assertRaises(SystemExit) as ended:
                    read(words)
                self.assertEqual(ended.exception.code, 2)
                self.assertRegex(errors.getvalue(), rf"\Ausage: (?s:.*)error: argument {words[0]}: ")

    def test_room(self):
        """A recording whose writes may be repeated has room for fewer calls."""
        calls = MOST_EVENTS // 3
        for more in (0, 1):
            words = ["--writes", "repeated", "--clients", "1", "--calls", str(calls + more)]
            with self.subTest(more), contextlib.redirect_stderr(io.StringIO()) as errors:
                if more:
                    self.assertRaises(SystemExit, self.RECORDERS["record"], words)
                    self.assertIn(f"over {calls} calls, the maximum of one history", errors.getvalue())
                else:
                    self.assertEqual(self.RECORDERS["record"](words).reading.most_events, 2 * calls)


class TermsOfShards(unittest.TestCase):
    """Which terms start too low."""

    def hints(self, *shown):
        """The hints of what replies show: each a term, a number and, for one that isn't an acknowledged write of shard 0, more."""
        terms = Terms()
        for term, seq, *more in shown:
            terms.show(*more[:1] or [0], Pair(term, seq), READ not in more)
        return [str(it) for it in terms.hints()]

    def test_terms_that_go_on(self):
        self.assertEqual(self.hints((1, 5), (1, 7), (2, 8), (4, 9), (4, 20)), [])
        # of a write that nobody acknowledged nothing is known, nor of another shard
        self.assertEqual(self.hints((1, 5), (1, 9, 0, READ), (2, 8)), [])
        self.assertEqual(self.hints((1, 9), (2, 3, 1), (2, 10)), [])

    def test_terms_that_start_too_low(self):
        self.assertEqual(self.hints((1, 2433), (2, 2431)), ["shard 0: term 2 starts at 2431, but 1/2433 was acknowledged"])
        # at the same number, whichever was shown first, and by a read
        self.assertEqual(self.hints((2, 7), (1, 7)), ["shard 0: term 2 starts at 7, but 1/7 was acknowledged"])
        self.assertEqual(self.hints((1, 7), (2, 8), (2, 6, 0, READ)), ["shard 0: term 2 starts at 6, but 1/7 was acknowledged"])
        self.assertEqual(self.hints((1, 7, 3), (2, 7, 3)), ["shard 3: term 2 starts at 7, but 1/7 was acknowledged"])

    def test_a_loss_is_hinted_at_once(self):
        wanted = ["shard 0: term 2 starts at 50, but 1/100 was acknowledged"]
        self.assertEqual(self.hints((1, 100), (2, 50), (2, 60), (3, 61)), wanted)
        self.assertEqual(self.hints((1, 100), (2, 50), (2, 60), (3, 60)), [*wanted, "shard 0: term 3 starts at 60, but 2/60 was acknowledged"])
        # a term of which nothing was acknowledged hides none
        self.assertEqual(self.hints((1, 100), (2, 101, 0, READ), (3, 90)), ["shard 0: term 3 starts at 90, but 1/100 was acknowledged"])

    def test_what_a_line_shows(self):
        terms = Terms()
        reader = TermReader(terms)
        conflict = delete(3) + '{"e":"reply","n":3,"status":409,"body":{"error":{"type":"x"}}}\n'
        text = index(0, ',"shard":2') + "\n" + created(0, 1, 9) + get(1, ',"shard":2') + lost(1) + conflict
        lines = text.encode().splitlines(keepends=True)
        reader.read(lines[:2])
        reader.read(lines[2:])
        self.assertEqual((reader.length, terms.hints()), (len(text), []))
        reader.read((get(4, ',"shard":2') + found(4, 3, 9)).encode().splitlines(keepends=True))
        self.assertEqual([str(it) for it in terms.hints()], ["shard 2: term 3 starts at 9, but 1/9 was acknowledged"])


if __name__ == "__main__":
    sys.exit(run_tests())
