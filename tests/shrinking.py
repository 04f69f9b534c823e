#!/usr/bin/env python3
"""Cuts drawn recordings down by the package's `shrink`, and checks what is left.

    python3 tests/shrinking.py [PROGRAM]

PROGRAM is the built casbench; if it isn't named, the one that ./casbench would run. The recordings are those of
tests/ruled_out.py, with one fault each, that get another answer than yes: strictly, or in a weaker reading, for which
every other loss states that nothing was performed. What is left has to be lines of the recording as they stood, to get
the same answer, to be few calls if the evidence is two calls alone, and to lose that answer if any one call more is left
out. None of it comes into the history, whatever name that has. With a witness its part that is left has to be verified:
honest recordings are cut down by a program that is made to answer them with no.
"""

import itertools
import json
import os
import pathlib
import subprocess
import sys
import tempfile

from honest import Index, Recording
from orders import text_of
from program_test import ProgramTest, run_tests
from readings import STRICT, Reading, void_line
from recordings import environment, own_reading  # (for the package too)
from ruled_out import evidence_of, kind_of, recording
from running import run, run_on_files, said
from small_readings import READINGS
from texts import OFFENCE, created, get, index, missing

from casbench_recording.history import Pair
from casbench_recording.history.witness import StoreLog, witness_by_log
from casbench_recording.shrink import Program, Shrinker

# The readings of a conflict that are strict otherwise.
CONFLICTS = (STRICT, Reading(conflicts="maybe"))

# How many recordings are drawn for each of these and each way to ask, and for each weaker reading.
RECORDINGS, RECORDINGS_WEAKER = 60, 20

# How many honest recordings are cut down with their witnesses, and how many in each weaker reading.
FALSE_ALARMS, FALSE_ALARMS_WEAKER = 20, 3

# The most calls that are left by the kind of evidence. A get that is stale shows what a third call wrote.
MOST = {"no-writer": 1, "pair-twice": 2, "stale-get": 3, "stale-swap": 2, "missed-write": 2}

# The kinds of answers that have to be among those that are cut down, strictly and in the weaker readings.
# (a get that finds nothing is cut down by the tests of the command)
KINDS_WEAKER = {*MOST, "ruled-out"} - {"missed-write"}
KINDS = {*KINDS_WEAKER, "no"}


def numbers_of(text):
    """The numbers of the calls of a text."""
    return [it["n"] for it in map(json.loads, text.splitlines()) if it["e"] == "call"]


def without(text, number):
    """The text without a call."""
    return "".join(it for it in text.splitlines(keepends=True) if json.loads(it)["n"] != number)


def is_decided(reading, call, ending):
    """Whether it is known which writes were performed of a call, by its line and by that of its ending, if it has one."""
    is_void = reading.failed == "trusted" and ending is not None and "void" in ending
    if call["op"] == "get" or is_void:
        return True
    is_repeated = reading.writes == "repeated" and "if_seq_no" not in call
    is_answered = ending is not None and ending["e"] == "reply"
    is_open = not is_answered or ending["status"] == 409 and reading.conflicts != "plain"
    return not is_open and not is_repeated


def is_proved(text, number, reading):
    """Whether of each write of the document of this call the outcome is known, so that its having no order is proved."""
    rows = [json.loads(it) for it in text.splitlines()]
    calls = {it["n"]: it for it in rows if it["e"] == "call"}
    endings = {it["n"]: it for it in rows if it["e"] != "call"}
    own = [it for it in calls.values() if it["id"] == calls[number]["id"]]
    return all(is_decided(reading, it, endings.get(it["n"])) for it in own)


def reported(program, text, reading, options):
    """What an answer says that has to stay: the kind and the calls of evidence, else the call that is named and whether
    that is proved."""
    line = said(run(program, ["check", *reading.options(), *options], text))[1]
    if kind_of(line) != "no":
        return kind_of(line), evidence_of(line)
    number = int(OFFENCE.fullmatch(line)["call"])
    return "no", (number, is_proved(text, number, reading))


def cut_down(program, text, reading, options):
    """The text of the calls that are left."""
    asked = Program(program, own_reading(reading), "--rule-out" in options)
    shrinker = Shrinker(text.encode().splitlines(keepends=True), asked)
    shrinker.shrink()
    return shrinker.recorded.text_of(shrinker.kept).decode()


def with_voids(text):
    """The text with every other loss stating that nothing was performed."""
    lines = text.splitlines(keepends=True)
    losses = [at for at, it in enumerate(lines) if it.startswith('{"e":"lost"')]
    for at in losses[::2]:
        lines[at] = void_line(lines[at])
    return "".join(lines)


def shrunk(program, seed, reading, options):
    """Cuts a recording down; returns the kind of its answer."""
    text = text_of(recording(seed)) if reading in CONFLICTS else with_voids(text_of(recording(seed)))
    wanted = reported(program, text, reading, options)
    if wanted[0] == "yes":
        return "yes"
    few = cut_down(program, text, reading, options)
    numbers = numbers_of(few)
    if few != "".join(it for it in text.splitlines(keepends=True) if json.loads(it)["n"] in numbers):
        raise AssertionError(f"other lines are left: {few}")
    if reported(program, few, reading, options) != wanted:
        raise AssertionError(f"{reported(program, few, reading, options)}, and not {wanted}")
    if len(numbers) > MOST.get(wanted[0], len(numbers)):
        raise AssertionError(f"{len(numbers)} calls are left of {wanted}")
    for number in numbers:
        if reported(program, without(few, number), reading, options) == wanted:
            raise AssertionError(f"the call {number} can be left out too, of {few}")
    return wanted[0]


# With a witness


class Honest(Index):
    """An index that notes what its own log says of the calls."""

    def __init__(self, *settings):
        super().__init__(*settings)
        self.changes, self.seen = {}, {}

    def perform(self, call):
        shard = self.shard_of(call.doc)
        before = self.term[shard], self.seq[shard]
        reply = super().perform(call)
        last = Pair(self.term[shard], self.seq[shard] - 1)
        (self.seen if before == (self.term[shard], self.seq[shard]) else self.changes)[call.number] = last
        return reply


class Alarmed(Program):
    """A program that finds no order of a history as long as all of these calls are in it."""

    calls = ()

    def answer(self, text):
        is_there = set(numbers_of(text.decode())) >= set(self.calls)
        return f"no event=0 call={self.calls[-1]} before=shown\n" if is_there else "yes docs=1 calls=1 left_out=0\n"


def witness_of(program, text, reading, index):
    """The witness of an honest recording: strictly that by the index's log, and else the program's."""
    if reading == STRICT:
        return "".join(witness_by_log(text, StoreLog(index.changes, index.seen))).encode()
    return said(run_on_files(program, "witness", [text], reading.options()))[1].encode()


def false_alarm(program, seed, reading):
    """Cuts down an honest recording, of which the program says no as long as three calls are in it, with its witness.
    Gives the answers to what is left: with the witness, and without one."""
    recording = Recording(seed, docs=2, clients=4, calls=80, loss=0.1)
    recording.index = Honest(recording.draw, 2, 0.0, 1)
    text = "".join(recording.lines()).encode()
    witness = witness_of(program, text, reading, recording.index)
    answered = [it["n"] for it in map(json.loads, text.splitlines()) if it["e"] == "reply" and it["status"] < 500]
    calls = sorted(recording.draw.sample(answered, 3))
    answers = []
    for own in (witness, None):
        asked = Alarmed(program, own_reading(reading))
        asked.calls = calls
        shrinker = Shrinker(text.splitlines(keepends=True), asked, own)
        shrinker.shrink()
        left = shrinker.recorded.text_of(shrinker.kept)
        if not set(calls) <= set(numbers_of(left.decode())):
            raise AssertionError(f"of {calls} not all are left: {left.decode()}")
        left_of_own = shrinker.recorded.witness_of(shrinker.kept) if own else None
        line = asked.verified(left, left_of_own) if own else Program(program, own_reading(reading)).answer(left)
        answers.append(line.split()[0])
    return tuple(answers)


# The command

OTHER, WROTE, MISSED = index(0, doc="a") + created(0, 1, 0), index(1) + created(1, 1, 1), get(2) + missing(2)


def command(program, text, *options, stdout=subprocess.PIPE):
    """How the command ends on this text."""
    words = [sys.executable, "-m", "casbench_recording.shrink", *options, "--program", program, "/dev/stdin"]
    ran = subprocess.run(words, input=text, stdout=stdout, stderr=subprocess.PIPE, text=True, env=environment())
    return ran.returncode, ran.stdout, ran.stderr.partition(" after ")[0]


class Recordings(ProgramTest):
    """Recordings that are cut down."""

    def test_drawn(self):
        """What is left of a recording is as it should be. Recordings with each kind of answer are cut down."""
        settings = itertools.product(range(RECORDINGS), CONFLICTS, ((), ("--rule-out",)))
        self.check_drawn(settings, KINDS)

    def test_drawn_in_weaker_readings(self):
        """The same in weaker readings."""
        settings = itertools.product(range(RECORDINGS_WEAKER), READINGS.values(), (("--rule-out",),))
        self.check_drawn(settings, KINDS_WEAKER)

    def check_drawn(self, settings, wanted):
        """Cuts recordings down in these settings; some have an answer of each kind."""
        kinds = set(self.run_subtests(shrunk, [(f"recording {it}", self.program, *it) for it in settings]))
        for kind in wanted:
            with self.subTest(f"whether a recording with the answer {kind} was cut down"):
                self.assertIn(kind, kinds)

    def test_false_alarms(self):
        """All false alarms that are cut down with their witness are verified; some that are cut down without one have
        no order."""
        rows = [(f"seed {seed}", self.program, seed, STRICT) for seed in range(FALSE_ALARMS)]
        for name, reading in READINGS.items():
            rows += [(f"{name}, seed {it}", self.program, it, reading) for it in range(FALSE_ALARMS_WEAKER)]
        answers = self.run_subtests(false_alarm, rows)
        with_witness, without_one = zip(*filter(None, answers))
        self.assertEqual(set(with_witness), {"verified"})
        self.assertNotEqual(set(without_one), {"yes"})


class Command(ProgramTest):
    """The command."""

    def test_stale_get(self):
        """Of a get that misses a write both are left."""
        for options in ((), ("--rule-out",), ("--conflicts", "maybe"), ("--gets", "any"), ("--profile", "opensearch")):
            with self.subTest(options=options):
                ended = command(self.program, f"\n{OTHER} \n{WROTE}{MISSED[:-1]}", *options)
                self.assertEqual(ended, (0, WROTE + MISSED, "3 calls, 2 of them left,"))

    def test_nothing_to_cut_down(self):
        for text, answer in ((OTHER, "yes docs=1 calls=1 left_out=0"), ("{}", "refused line=1 cause=shape")):
            with self.subTest(answer):
                why = f"shrink.py: it gets {answer}, so there is nothing to reduce\n"
                self.assertEqual(command(self.program, text), (1, "", why))

    def test_bad_witness(self):
        """A witness that isn't valid, and a part of one that isn't named."""
        with tempfile.TemporaryDirectory() as folder:
            history, witness = (pathlib.Path(folder) / it for it in ("history", "witness"))
            history.write_text(WROTE + MISSED)
            witness.write_text("")
            ends = []
            for option in ("--witness", "--few-witness"):
                words = [sys.executable, "-m", "casbench_recording.shrink", "--program", self.program, history]
                ran = subprocess.run([*words, option, witness], capture_output=True, text=True, env=environment())
                ends.append((ran.returncode, ran.stdout, ran.stderr.splitlines()[-1].partition(": ")[2]))
        is_not_valid = "the witness gets broken doc=0 cause=doc-missing"
        is_not_named = "error: --few-witness needs --witness"
        self.assertEqual(ends, [(1, "", is_not_valid), (2, "", is_not_named)])

    def test_options(self):
        """An option that comes twice, and a value that it doesn't have."""
        for options, why in (
            (("--profile", "strict", "--profile", "strict"), "argument --profile: it may be given only once"),
            (("--failed", "void"), "argument --failed: invalid choice: 'void' (choose from 'lost', 'trusted')"),
        ):
            with self.subTest(options=options):
                status, out, err = command(self.program, OTHER, *options)
                self.assertEqual((status, out), (2, ""))
                self.assertTrue(err.startswith("usage: ") and err.endswith(f"error: {why}\n"), err)

    def test_no_program(self):
        absent = "/dev/null/casbench"
        self.assertEqual(command(absent, OTHER), (1, "", f"shrink.py: [Errno 20] Not a directory: '{absent}'\n"))

    def check_itself(self, given, way):
        with tempfile.TemporaryDirectory() as folder:
            history = pathlib.Path(folder) / "history"
            history.write_text(WROTE + MISSED)
            (history.parent / "link").symlink_to("history")
            os.link(history, history.parent / "other")
            words = [sys.executable, "-m", "casbench_recording.shrink", "--program", self.program, given]
            out = os.open(history, way)
            ran = subprocess.run(words, cwd=folder, stdout=out, stderr=subprocess.PIPE, text=True, env=environment())
            os.close(out)
            text = history.read_text()
        self.assertEqual((ran.returncode, ran.stderr), (1, f"shrink.py: {given}: the history would be overwritten\n"))
        self.assertEqual(text, WROTE + MISSED)

    def test_history_itself(self):
        """A history stays as it is, which the command is given by one name, and its output goes to by another. A shell
        opens the output so if the command ends with `>>history` or `1<>history`."""
        names, ways = ("history", "./history", "link", "other"), (os.O_WRONLY | os.O_APPEND, os.O_RDWR)
        self.run_subtests(self.check_itself, [(name, name, way) for name in names for way in ways])

    def test_full_disk(self):
        with open("/dev/full", "wb") as full:
            ended = command(self.program, WROTE + MISSED, stdout=full)
        self.assertEqual(ended, (1, None, "shrink.py: [Errno 28] No space left on device\n"))


if __name__ == "__main__":
    sys.exit(run_tests())
