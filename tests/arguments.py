#!/usr/bin/env python3
"""Runs the built program with arguments of all kinds: accepted ones, refused ones, and such as name files that fail.

    python3 tests/arguments.py [PROGRAM]

PROGRAM is the built casbench; if it isn't named, the one that ./casbench would run. Each row is run in a new folder
that has the files below; if a row names no standard input, that is empty.
"""

import contextlib
import errno
import fcntl
import gzip
import os
import pathlib
import re
import select
import shlex
import struct
import subprocess
import sys
import tempfile
import termios
import time

from case_files import case_text
from program import TOP
from program_test import ProgramTest, run_tests
from running import SECONDS, ended, run, run_arguments, search_arguments, started
from readings import PROFILES
from texts import READ_FAULT, SETTING_FAULT, WRITE_FAULT, created, found, get, index, no, no_calls, no_writer
from texts import refused, refuted, status_of, too_few, updated, verified, yes

EXAMPLES = TOP / "examples"

# Histories that readings tell apart: two gets are answered by two copies, one of which lacks a write in flight; a
# write is performed again, with the next pair; and a get finds the write of a call that is marked as void.
COPIES = index(0) + created(0, 1, 0) + index(1, k=2)
COPIES += get(2) + found(2, 1, 1, k=2) + get(3) + found(3, 1, 0) + updated(1, 1, 1)
AGAIN = index(0) + get(1) + found(1, 1, 0) + updated(0, 1, 1)
VOID = index(0) + '{"e":"lost","n":0,"void":true}\n' + get(1) + found(1, 1, 0)

# The files of the folder; `broken` is a directory, which opens but can't be read, and `packed.gz` is compressed. All of
# the odd names have one text.
FILES = {
    "empty": b"",
    "other": b"",
    "verify": b"",
    "story": (EXAMPLES / "stale-get.ndjson").read_bytes(),
    "hidden": case_text("hidden-conflict").encode(),
    "copies": COPIES.encode(),
    "again": AGAIN.encode(),
    "void": VOID.encode(),
    "packed.gz": gzip.compress(case_text("index-then-get").encode()),
    "one": get(0).encode(),
    "torn": b"{\n",
    "few": case_text("index-then-get").encode(),
    "none": b"",
    "few.not-judged": b"",
    "none.not-judged": b"",
    **dict.fromkeys(["check", "help", "-", "a b", "a\nb", "--help"], case_text("index-then-get").encode()),
}

ANSWER, NOTHING, VERIFIED_NOTHING = yes(2), yes(0, docs=0), verified(0, docs=0)
STORY_OF_NOTHING = case_text("empty-text-explained", "stdout")


def absent(name, fault):
    """The message about a file that isn't there."""
    return f"casbench: {name}: no such file\n{fault}"


DIRECTORY = f"casbench: broken: is a directory\n{READ_FAULT}"
TWO_INPUTS = f"casbench: standard input is named twice\n{READ_FAULT}"
PROGRESS = re.compile(rb"(\r\x1b\[Kcasbench: (reading|searching for an order|looking for the broken reply) \(\d+ s\))+\r\x1b\[K")
TERMINAL = "casbench: reads from the terminal until Ctrl-D on a line of its own; for help: casbench --help\n"
PACKED = "casbench: packed.gz is compressed; try: zcat packed.gz | casbench check\n"


STALE = refuted("stale-get", "3,1", 7, 3)
LISTED = "casbench: what was not judged is listed in {}.not-judged\n"

VERSION = "casbench 0.1.0\n"

# The commands that have --rule-out, and those that take a reading, of a file that isn't there.
RULING_OUT = ("check", "witness", "explain")
READING_COMMANDS = ("check absent", "witness absent", "explain absent", "verify absent lost")

# The values of each option of a reading, in the order of the help.
READ_BY = {
    "profile": ("strict", "opensearch"),
    "gets": ("last", "any"),
    "conflicts": ("plain", "maybe", "unknown"),
    "writes": ("once", "repeated"),
    "failed": ("lost", "trusted"),
}


def option_shown(name):
    """The option of a reading as messages and the help have it."""
    return f"--{name} <{'NAME' if name == 'profile' else 'READING'}>"


def weakest(command):
    """The command with the last value of each option of a reading."""
    return " ".join([command, *(f"--{name}={values[-1]}" for name, values in READ_BY.items())])



# Arguments, and the status, standard output and standard error that they get.
ANSWERED = [
    ("check check", 0, ANSWER, ""),
    ("check help", 0, ANSWER, ""),
    ("check ./-", 0, ANSWER, ""),
    ("check 'a b'", 0, ANSWER, ""),
    ("check ''", 4, "", absent("", READ_FAULT)),
    ("check --rule-out check", 0, ANSWER, ""),
    ("witness check --rule-out", 0, case_text("index-then-get-witness", "stdout"), ""),
    ("check -- --rule-out", 4, "", absent("--rule-out", READ_FAULT)),
    ("witness -- --help", 0, case_text("index-then-get-witness", "stdout"), ""),
    ("verify verify verify", 0, VERIFIED_NOTHING, ""),
    ("--version", 0, VERSION, ""),
    ("-V", 0, VERSION, ""),
    ([b"check", b"\xff"], 64, "", "casbench: an argument is not UTF-8\n"),
    # the files of a check
    ("check", 0, NOTHING, no_calls()),
    ("check empty", 0, NOTHING, no_calls("empty")),
    ("", 0, NOTHING, no_calls()),
    ("check broken", 4, "", DIRECTORY),
    ("check absent", 4, "", absent("absent", READ_FAULT)),
    # standard input, named as a file
    ("check -", 0, NOTHING, no_calls()),
    ("witness -", 0, "", ""),
    ("explain -", 0, STORY_OF_NOTHING, ""),
    ("verify - empty", 0, VERIFIED_NOTHING, ""),
    ("verify empty -", 0, VERIFIED_NOTHING, ""),
    ("verify - absent", 4, "", absent("absent", READ_FAULT)),
    ("verify - -", 4, "", TWO_INPUTS),
    ("bulk empty -", 2, "refused line=1 cause=syntax\n", ""),
    ("bulk - -", 4, "", TWO_INPUTS),
    # several files: a line for each behind its name, and the status of the worst: 1, then 2, 6 and 0
    ("check check help", 0, f"check: {ANSWER}help: {ANSWER}", ""),
    ("check help check --workers 3", 0, f"help: {ANSWER}check: {ANSWER}", ""),
    ("check help --conflicts maybe check", 0, f"help: {ANSWER}check: {ANSWER}", ""),
    ("check check check", 0, f"check: {ANSWER}check: {ANSWER}", ""),
    ("check 'a b' -- --help", 0, f"a b: {ANSWER}--help: {ANSWER}", ""),
    # a line feed in a name makes no line
    ("check 'a\nb' check", 0, f"a\\x0ab: {ANSWER}check: {ANSWER}", ""),
    ("check check story hidden", 1, f"check: {ANSWER}story: {STALE}hidden: {no(3, 2)}", ""),
    ("check packed.gz story", 1, f"packed.gz: {refused(1, 'json')}story: {STALE}", PACKED),
    ("check story packed.gz check", 1, f"story: {STALE}packed.gz: {refused(1, 'json')}check: {ANSWER}", PACKED),
    ("check check -", 0, f"check: {ANSWER}-: {NOTHING}", no_calls()),
    ("check empty check", 0, f"empty: {NOTHING}check: {ANSWER}", no_calls("empty")),
    ("check - check -", 4, "", TWO_INPUTS),
    ("check check absent lost", 4, "", absent("absent", READ_FAULT)),
    ("check story broken", 4, "", DIRECTORY),
    ("check one check --at-least 2", 6, f"one: {yes(1, left_out=1)}check: {ANSWER}", too_few("1 call", 2, "one")),
    (
        "check few packed.gz --at-least 3",
        2,
        f"few: {ANSWER}packed.gz: {refused(1, 'json')}",
        too_few("2 calls", 3, "few") + LISTED.format("few") + PACKED,
    ),
    ("check story few --at-least 3", 1, f"story: {STALE}few: {ANSWER}", too_few("2 calls", 3, "few") + LISTED.format("few")),
    # the least number of calls, which is asked of a yes alone; a list of what was not judged lies beside `few`
    ("check check --at-least 2", 0, ANSWER, ""),
    ("check check --at-least=3", 6, ANSWER, too_few("2 calls", 3, "check")),
    ("check --at-least 0 check", 0, ANSWER, ""),
    ("check --at-least 18446744073709551615 check", 6, ANSWER, too_few("2 calls", 2**64 - 1, "check")),
    ("check --at-least 1", 6, NOTHING, too_few("0 calls", 1)),
    ("check --at-least 1 -", 6, NOTHING, too_few("0 calls", 1)),
    ("check --at-least 0", 0, NOTHING, no_calls()),
    ("check one --at-least 2", 6, yes(1, left_out=1), too_few("1 call", 2, "one")),
    ("check few --at-least 3", 6, ANSWER, too_few("2 calls", 3, "few") + LISTED.format("few")),
    ("check few", 0, ANSWER, ""),
    ("check none", 0, NOTHING, no_calls("none") + LISTED.format("none")),
    ("check story --at-least 100", 1, STALE, ""),
    ("check hidden --at-least 100", 1, no(3, 2), ""),
    ("check packed.gz --at-least 100", 2, "refused line=1 cause=json\n", PACKED),
    ("check absent --at-least 100", 4, "", absent("absent", READ_FAULT)),
    # a compressed file
    ("check packed.gz", 2, "refused line=1 cause=json\n", PACKED),
    ("verify empty packed.gz", 2, "refused file=witness line=1 cause=json\n", PACKED),
    # the files of a witness
    ("witness", 0, "", ""),
    ("witness empty", 0, "", ""),
    ("witness broken", 4, "", DIRECTORY),
    ("witness absent", 4, "", absent("absent", READ_FAULT)),
    # the files of a verification, of which both are opened before one is read
    ("verify empty other", 0, VERIFIED_NOTHING, ""),
    ("verify broken other", 4, "", DIRECTORY),
    ("verify empty broken", 4, "", DIRECTORY),
    ("verify absent other", 4, "", absent("absent", READ_FAULT)),
    ("verify empty absent", 4, "", absent("absent", READ_FAULT)),
    ("verify other lost", 4, "", absent("lost", READ_FAULT)),
    ("verify absent lost", 4, "", absent("absent", READ_FAULT)),
    ("verify broken absent", 4, "", DIRECTORY),
    # the files of a bulk, of which both are read before either is judged; an empty reply is no JSON
    ("bulk empty other", 2, "refused line=1 cause=syntax\n", ""),
    ("bulk empty broken", 4, "", DIRECTORY),
    ("bulk hidden broken", 4, "", DIRECTORY),
    ("bulk absent other", 4, "", absent("absent", READ_FAULT)),
    # the files of a story; a page that can't be written fails behind the story
    ("explain", 0, STORY_OF_NOTHING, ""),
    ("explain empty", 0, STORY_OF_NOTHING, ""),
    ("explain empty --html /dev/full", 4, STORY_OF_NOTHING, WRITE_FAULT),
    ("explain empty --html empty", 4, "", f"casbench: empty: the history would be overwritten\n{WRITE_FAULT}"),
    ("explain empty --html absent/page", 4, "", absent("absent/page", WRITE_FAULT)),
    ("explain absent --html page", 4, "", absent("absent", READ_FAULT)),
    # readings: each value is accepted, also beside the others
    *(
        (f"{command} --{name} {value}", 4, "", absent("absent", READ_FAULT))
        for command in READING_COMMANDS
        for name, values in READ_BY.items()
        for value in values
    ),
    *((weakest(command), 4, "", absent("absent", READ_FAULT)) for command in READING_COMMANDS),
    # runs: these arguments are accepted, but nine clients are too many
    *(
        (run_arguments(seed=2**64 - 1, clients=9, calls=200, docs=3, copies=5, fault=fault), 64, "", SETTING_FAULT)
        for fault in ("none", "dirty", "early", "same-term", "stale", "blind")
    ),
    *(
        (f"{run_arguments(clients=9)} --in-turns --disturb={name}", 64, "", SETTING_FAULT)
        for name in ("none", "cuts", "promotions", "storm")
    ),
    *(
        (f"{search_arguments(seeds=seeds, clients=9)}{more}", 64, "", SETTING_FAULT)
        for seeds in ("0-0", "1-2", "+7-8", "0-18446744073709551615")
        for more in ("", " --in-turns --disturb storm")
    ),
]

# Arguments with a reading, and how the answer begins.
OLD_COPY, HIDDEN, UNWRITTEN = no(6, 3), no(3, 2), refuted("no-writer", 1, 3, 0)
RULED_OUT = "refuted kind=ruled-out calls=2 event=3 call=2 "
READ = [
    ("check copies", OLD_COPY),
    ("check copies --gets last", OLD_COPY),
    ("check copies --gets any", "yes docs=1 calls=4 left_out=0 gets=2\n"),
    ("check hidden --conflicts plain", HIDDEN),
    ("check hidden --conflicts maybe", ANSWER),
    ("check hidden --conflicts unknown", yes(2, left_out=1)),
    ("check again", UNWRITTEN),
    ("check again --writes once", UNWRITTEN),
    ("check again --writes repeated", ANSWER),
    ("check void", ANSWER),
    ("check void --failed lost", ANSWER),
    ("check void --failed trusted", no_writer(3, 1)),
    # profiles
    ("check copies --profile strict", OLD_COPY),
    ("check copies --profile opensearch", "yes docs=1 calls=4 left_out=0 gets=2\n"),
    ("check hidden --profile strict", HIDDEN),
    ("check hidden --profile opensearch", "yes docs=1 calls=2 left_out=1 gets=0\n"),
    ("check again --profile opensearch", "yes docs=1 calls=2 left_out=0 gets=1\n"),
    ("check void --profile opensearch", "refuted kind=no-writer calls=1 "),
    # an option beside a profile overrides that part of it, and no other; documents are still ruled out
    ("check copies --gets any --profile strict", "yes docs=1 calls=4 left_out=0 gets=2\n"),
    ("check hidden --profile strict --conflicts maybe", ANSWER),
    ("check again --profile strict --writes repeated", ANSWER),
    ("check void --profile strict --failed trusted", no_writer(3, 1)),
    ("check copies --profile opensearch --gets last", refuted("ruled-out", 3, 6, 3)),
    ("check again --profile opensearch --writes once", "refuted kind=no-writer calls=1 "),
    ("check void --profile opensearch --failed lost", "yes docs=1 calls=2 left_out=1 gets=1\n"),
    *(
        (f"{command} hidden --conflicts plain --profile opensearch --writes once", RULED_OUT)
        for command in RULING_OUT
    ),
]

UNKNOWN = "unexpected argument '{}' found"
COMMAND = "unrecognized subcommand '{}'"
TWICE = "the argument '{}' cannot be used multiple times"
NO_VALUE = "a value is required for '{}' but none was supplied"
A_VALUE = "unexpected value '{}' for '{}' found; no more were expected"
VALUES = {
    "profile": "the value of --profile is strict or opensearch",
    "gets": "the value of --gets is last or any",
    "conflicts": "the value of --conflicts is plain, maybe or unknown",
    "writes": "the value of --writes is once or repeated",
    "failed": "the value of --failed is lost or trusted",
}
FAULT = "the value of --fault is none, dirty, early, same-term, stale or blind"
DISTURBANCE = "the value of --disturb is none, cuts, promotions or storm"
RUN = "run --seed {} --clients {} --calls 200 --docs 3 --copies 5"
SEED = "a run takes --seed, or else --until and --seeds"
UNTIL = "the value of --until is refuted"
SEEDS = "the value of --seeds is two numbers below 2^64, the least first, as 1-1000"
LINES = "the value of --lines is two numbers below 2^64, the least first, as 1-1000"
NO_PAGE = "--document needs the page on which it is drawn, with --html"
NO_DOCUMENT = "--lines needs the --document whose calls are drawn"


def missing(*names):
    """The message that these are missing."""
    return "the following required arguments were not provided:\n" + "\n".join(f"  {name}" for name in names)


def wrong(value, name):
    """The message that the value isn't one of this argument."""
    return f"invalid value '{value}' for '{name}': "


def wrong_numbers(command, option, name):
    """The arguments of a command with an option that takes a number below 2^64, with other texts or twice, and how the
    message begins."""
    for text in ("few", "", "-1", "1.0", "18446744073709551616"):
        yield f"{command} {option}={text}", wrong(text, name)
    yield f"{command} {option}=1 {option}=1", TWICE.format(name)


def read_as_nothing():
    """Arguments with options of a reading that are refused, and how the message begins."""
    for name, wanted in VALUES.items():
        shown, first = option_shown(name), READ_BY[name][0]
        for command in READING_COMMANDS:
            yield f"{command} --{name}=no", wanted
            yield f"{command} --{name}", NO_VALUE.format(shown)
            yield f"{command} --{name}={first} --{name}={first}", TWICE.format(shown)
        for value in ("''", first.capitalize(), f"{first}x", "plain,maybe"):
            yield f"check --{name} {value}", wanted
        yield f"bulk b r --{name}={first}", UNKNOWN.format(f"--{name}")
        yield f"{run_arguments()} --{name}={first}", UNKNOWN.format(f"--{name}")
        yield f"--{name} {first}", UNKNOWN.format(f"--{name}")
    # of several the first is named, wherever it stands, and beside a profile too
    names = list(VALUES)
    for at, name in enumerate(names):
        unknown = " ".join(f"--{it}=no" for it in reversed(names[at:]))
        yield f"check h {unknown}", VALUES[name]
        if at:
            yield from ((f"check h {unknown} --profile {profile}", VALUES[name]) for profile in PROFILES)


# Arguments that are refused, and how the message begins behind `error: `.
REFUSED = [
    ("h.ndjson", COMMAND.format("h.ndjson")),
    ("Check", COMMAND.format("Check")),
    ("''", COMMAND.format("")),
    ("help nothing", COMMAND.format("nothing")),
    ("--workers", UNKNOWN.format("--workers")),
    ("check --file", UNKNOWN.format("--file")),
    ("check -f", UNKNOWN.format("-f")),
    ("check --version", UNKNOWN.format("--version")),
    ("witness a b", UNKNOWN.format("b")),
    ("verify", missing("<FILE>", "<WITNESS>")),
    ("verify a", missing("<WITNESS>")),
    ("verify a b c", UNKNOWN.format("c")),
    ("check --html p", UNKNOWN.format("--html")),
    # what is drawn on a page
    ("check --document d", UNKNOWN.format("--document")),
    ("explain --document", NO_VALUE.format("--document <ID>")),
    ("explain --document=d --document=e --html p", TWICE.format("--document <ID>")),
    ("explain --document d", NO_PAGE),
    ("explain --document d --lines 1-2", NO_PAGE),
    ("explain --lines 1-2", NO_DOCUMENT),
    ("explain --html p --lines 1-2", NO_DOCUMENT),
    *((f"explain --html p --document d --lines {it}", LINES) for it in ("2-1", "1", "1-", "1-2-3", "a-b", "''")),
    ("explain --html p --document d --lines 1-18446744073709551616", LINES),
    ("explain --html p --document d --conflicts no", VALUES["conflicts"]),
    # numbers of workers
    ("check --workers 0", wrong("0", "--workers <N>")),
    ("check --workers 17", wrong("17", "--workers <N>")),
    ("check --workers two", wrong("two", "--workers <N>")),
    ("check --workers", NO_VALUE.format("--workers <N>")),
    ("check --workers=1 --workers=1", TWICE.format("--workers <N>")),
    ("witness --workers=1", UNKNOWN.format("--workers")),
    ("--workers 2", UNKNOWN.format("--workers")),
    # least numbers of calls
    ("check --at-least", NO_VALUE.format("--at-least <CALLS>")),
    *wrong_numbers("check", "--at-least", "--at-least <CALLS>"),
    ("witness --at-least 1", UNKNOWN.format("--at-least")),
    ("explain --at-least 1", UNKNOWN.format("--at-least")),
    ("bulk --json story story", UNKNOWN.format("--json")),
    ("run --json", UNKNOWN.format("--json")),
    ("check --json=1", A_VALUE.format("1", "--json")),
    ("check --json --json", TWICE.format("--json")),
    ("verify h w --at-least 1", UNKNOWN.format("--at-least")),
    ("--at-least 1", UNKNOWN.format("--at-least")),
    # readings
    *read_as_nothing(),
    # what else is looked for
    *((f"{command} --rule-out --rule-out", TWICE.format("--rule-out")) for command in RULING_OUT),
    *((f"{command} --rule-out=x", A_VALUE.format("x", "--rule-out")) for command in RULING_OUT),
    ("check --rule-out=", A_VALUE.format("", "--rule-out")),
    ("witness --rule-out a b", UNKNOWN.format("b")),
    ("explain a b", UNKNOWN.format("b")),
    ("verify h w --rule-out", UNKNOWN.format("--rule-out")),
    ("bulk b r --rule-out", UNKNOWN.format("--rule-out")),
    (run_arguments() + " --rule-out", UNKNOWN.format("--rule-out")),
    ("--rule-out", UNKNOWN.format("--rule-out")),
    # bulks
    ("bulk", missing("<BODY>", "<REPLY>")),
    ("bulk b --first 1", missing("<REPLY>")),
    ("bulk b r 1", UNKNOWN.format("1")),
    *wrong_numbers("bulk b r", "--first", "--first <N>"),
    ("check h --first=1", UNKNOWN.format("--first")),
    # runs
    (RUN.format("18446744073709551616", "1") + " --fault none", wrong("18446744073709551616", "--seed <S>")),
    (RUN.format("1", "4294967296") + " --fault none", wrong("4294967296", "--clients <A>")),
    (RUN.format("1", "1") + " --fault cut", FAULT),
    (RUN.format("1", "1"), missing("--fault <F>")),
    ("run --clients 1 --calls 1 --docs 1 --copies 1 --fault none", SEED),
    (run_arguments() + " --until refuted", SEED),
    (run_arguments() + " --seeds 1-2", SEED),
    (run_arguments() + " --until refuted --seeds 1-2", SEED),
    ("run --clients 1 --calls 1 --docs 1 --copies 1 --fault none --seeds 1-2", SEED),
    *((search_arguments(until=name), UNTIL) for name in ("no", "Refuted", "''")),
    *((search_arguments(seeds=seeds), SEEDS) for seeds in ("2-1", "1", "1-", "1-2-3", "a-b", "1..2")),
    *((search_arguments(seeds=seeds), SEEDS) for seeds in ("1-18446744073709551616", "''")),
    (search_arguments(fault="cut"), FAULT),
    (search_arguments() + " --disturb Storm", DISTURBANCE),
    (search_arguments() + " --until refuted", TWICE.format("--until <ANSWER>")),
    (search_arguments() + " --seeds 1-2", TWICE.format("--seeds <A-B>")),
    ("check --until refuted", UNKNOWN.format("--until")),
    (run_arguments() + " --disturb Storm", DISTURBANCE),
    (run_arguments() + " --disturb=", DISTURBANCE),
    (run_arguments(fault="cut") + " --disturb cut", FAULT),
    (run_arguments() + " --disturb cuts --disturb cuts", TWICE.format("--disturb <NAME>")),
    (run_arguments() + " --disturb", NO_VALUE.format("--disturb <NAME>")),
    (run_arguments() + " --in-turns --in-turns", TWICE.format("--in-turns")),
    (run_arguments() + " --in-turns=1", A_VALUE.format("1", "--in-turns")),
    ("check --in-turns", UNKNOWN.format("--in-turns")),
    ("check --disturb cuts", UNKNOWN.format("--disturb")),
]

EXAMPLE = {
    "check": "\n  casbench check history.ndjson\n",
    "witness": "\n  casbench witness history.ndjson > history.witness\n",
    "verify": "\n  casbench verify history.ndjson history.witness\n",
    "bulk": "\n  casbench bulk bulk.body bulk.reply --first 100 >> history.ndjson\n",
}

# Arguments that ask for help, and what it has: an example, and an option.
HELP = [(form, example) for form in ("help", "--help", "-h") for example in EXAMPLE.values()]
FORMS = ("help {}", "{} --help", "{} -h")
HELP += [(form.format(name), example) for form in FORMS for name, example in EXAMPLE.items()]
HELP += [(form.format(name), "\n      --rule-out ") for form in FORMS for name in RULING_OUT]
HELP += [
    (form.format(command.split()[0]), f"\n      {option_shown(name)}")
    for form in FORMS
    for command in READING_COMMANDS
    for name in READ_BY
]
HELP += [("--help", "\nExit status:\n  0   yes"), ("--help", "\n  6   yes, with fewer calls")]
HELP += [(form.format("check"), "\n      --at-least <CALLS>") for form in FORMS]
HELP += [(form.format(name), "\n      --json ") for form in FORMS for name in ("check", "witness", "verify")]

# What a page has at its top: the file of the history, and the options.
FILE, OPTIONS = "<dt>file</dt><dd>{}</dd>", "<dt>options</dt><dd>--conflicts {} {}--workers {}{}</dd>"

# Arguments that ask for a story with a page, the page's name, how the story begins, and the page if it is known.
STORIES = [
    ("explain story --html page", "page", "refuted kind=stale-get ", EXAMPLES / "stale-get.html"),
    ("explain --html=- --workers 3 --conflicts=maybe story", "-", "refuted kind=stale-get ", EXAMPLES / "stale-get.html"),
    ("explain --html=- --workers 3 --conflicts=maybe hidden", "-", ANSWER, None),
    ("explain --html=- --workers 3 hidden", "-", no(3, 2), None),
    ("explain --html=- --rule-out hidden", "-", refuted("ruled-out", "2", 3, 2), None),
    ("explain --html=- --rule-out story", "-", "refuted kind=stale-get ", EXAMPLES / "stale-get.html"),
    ("explain story --html page --document d", "page", "refuted kind=stale-get ", None),
    ("explain story --html page --document d --lines 2-6", "page", "refuted kind=stale-get ", None),
    ("explain torn --html=- --conflicts=maybe", "-", refused(1, "json"), None),
]

# The documents and calls of a run, as the answer to it has them.
MADE = "docs=3 calls=200"

# Each fault of a group, how the answer to a run with it begins, and whether the term rises in it: a promotion keeps it
# if the fault is same-term.
FAULTS = [
    ("none", f"yes {MADE} ", True),
    ("dirty", f"yes {MADE} ", True),
    ("early", "refuted ", True),
    ("same-term", f"yes {MADE} ", False),
    ("stale", "refuted ", True),
    ("blind", "no ", True),
]


def filled(folder):
    """The folder, with the files in it."""
    for name, text in FILES.items():
        (folder / name).write_bytes(text)
    (folder / "broken").mkdir()
    return folder


@contextlib.contextmanager
def at_terminal(command, has_output):
    """The command as it runs, and the other end of the terminal to which it writes its errors, and its output if so asked; it
    is ended at last, if it hasn't by itself."""
    leader, follower = os.openpty()
    try:
        with subprocess.Popen(
            command, stdin=subprocess.PIPE, stdout=follower if has_output else subprocess.DEVNULL, stderr=follower
        ) as child:
            os.close(follower)
            try:
                yield child, leader
            finally:
                child.kill()
    finally:
        os.close(leader)


def first_shown(leader):
    """What a terminal shows first; it has to come in time."""
    assert select.select([leader], [], [], SECONDS)[0], "nothing is said"
    return os.read(leader, 4096)


def rest_shown(leader):
    """What a terminal shows until nobody writes to it."""
    shown = b""
    with contextlib.suppress(OSError):  # (the terminal is gone at its end)
        while more := first_shown(leader):
            shown += more
    return shown


class Pipe:
    """A named pipe that the program reads."""

    def __init__(self, path):
        os.mkfifo(path)
        self.path, self.end = path, None

    def open(self):
        """Opens it to be written, once the program has opened it."""

        def is_open():
            try:
                self.end = os.open(self.path, os.O_WRONLY | os.O_NONBLOCK)
            except OSError as fault:
                if fault.errno != errno.ENXIO:
                    raise
            return self.end is not None

        return comes(is_open)

    def unread(self):
        """How many bytes in it the program has not read."""
        return struct.unpack("i", fcntl.ioctl(self.end, termios.FIONREAD, struct.pack("i", 0)))[0]


def comes(is_there):
    """Waits until it is there; returns whether it came within ten seconds."""
    until = time.monotonic() + 10
    while time.monotonic() < until:
        if is_there():
            return True
        time.sleep(0.01)
    return False


def in_turn(command, case, *sections):
    """A row of files that are read in turn: the texts of a case."""
    return command, *(case_text(case, it).encode() for it in sections)


TURNS = [
    in_turn("verify", "verify-good-order", "history", "witness", "stdout"),
    in_turn("bulk", "bulk", "body", "reply", "stdout"),
]


class Arguments(ProgramTest):
    """Rows of arguments, each in a folder of its own."""

    def ran(self, arguments, folder, given=""):
        """How the program ends on the arguments in the folder."""
        return run(self.program, shlex.split(arguments) if isinstance(arguments, str) else arguments, given, cwd=folder)

    def in_folder(self, check, *row):
        with tempfile.TemporaryDirectory() as folder:
            check(filled(pathlib.Path(folder)), *row)

    def run_rows(self, check, rows):
        """Runs a subtest for each row, in a new folder that has the files."""
        self.run_subtests(self.in_folder, [(str(row[0]), check, *row) for row in rows])

    def check_answered(self, folder, arguments, *wanted):
        self.assertEqual(self.ran(arguments, folder), wanted)
        kept = {it.name: it.read_bytes() for it in folder.iterdir() if it.is_file()}
        self.assertEqual(kept, FILES)

    def test_answered(self):
        """The arguments get what is wanted, and no file is made or changed."""
        self.run_rows(self.check_answered, ANSWERED)

    def check_read(self, folder, arguments, wanted):
        status, out, why = self.ran(arguments, folder)
        self.assertEqual((status, out[: len(wanted)], why), (status_of(wanted), wanted, ""))

    def test_read(self):
        """A history is read as its options say."""
        self.run_rows(self.check_read, READ)

    def check_refused(self, folder, arguments, wanted):
        status, out, why = self.ran(arguments, folder)
        self.assertEqual((status, out, why[: len(f"error: {wanted}")]), (64, "", f"error: {wanted}"))

    def test_refused(self):
        self.run_rows(self.check_refused, REFUSED)

    def check_usage(self, folder, arguments, command):
        _, _, why = self.ran(arguments, folder)
        self.assertIn(f"\nUsage: casbench {command} ", why)

    def test_usage(self):
        """An option with an unknown value, or given twice, is refused with the usage of its command."""
        commands = ["check", "witness", "verify h w", "explain"]
        twice = [(f"{it} --gets last --gets last", it.split()[0]) for it in commands]
        unknown = [(f"{it} --{name} no", it.split()[0]) for it in commands for name in READ_BY]
        self.run_rows(self.check_usage, [*twice, *unknown, (run_arguments(fault="no"), "run")])

    def test_suggestion(self):
        """Arguments that begin with a file get the command by which it is checked."""
        status, _, why = run(self.program, ["h.ndjson"])
        self.assertEqual((status, why.splitlines()[-1]), (64, "To check a history text: casbench check FILE"))

    def test_closed_pipe(self):
        """If the reader of its output is gone, the program ends without a message."""
        reader, writer = os.pipe()
        os.close(reader)
        how = {"stdin": subprocess.DEVNULL, "stdout": writer, "stderr": subprocess.PIPE, "timeout": SECONDS}
        child = subprocess.run([self.program, "check"], **how, check=False)
        os.close(writer)
        self.assertEqual((child.returncode, child.stderr), (4, b""))

    def test_terminal(self):
        """At a terminal the program says that it reads from there, and how the text is ended."""
        leader, follower = os.openpty()
        how = {"stdin": follower, "stdout": subprocess.PIPE, "stderr": subprocess.PIPE, "text": True}
        with subprocess.Popen([self.program, "check"], **how) as child:
            os.close(follower)
            self.assertEqual(child.stderr.readline(), TERMINAL)
            os.write(leader, b"\x04")
            self.assertEqual(child.communicate(timeout=SECONDS), (NOTHING, no_calls()))
            self.assertEqual(child.returncode, 0)
        os.close(leader)

    def check_progress(self, command):
        """Gives the first line of a text, and the rest once something is said."""
        first, *rest = case_text("index-then-get").encode().splitlines(True)
        with at_terminal([self.program, *command.split()], has_output=True) as (child, leader):
            child.stdin.write(first)
            child.stdin.flush()
            shown = first_shown(leader)
            child.stdin.write(b"".join(rest))
            child.stdin.close()
            shown += rest_shown(leader)
            self.assertEqual(child.wait(SECONDS), 0)
        progress = PROGRESS.match(shown)
        self.assertTrue(progress, f"it begins otherwise: {shown}")
        answer = b'{"answer":"yes"' if "--json" in command else ANSWER.replace("\n", "\r\n").encode()
        self.assertEqual(shown[progress.end() :][: len(answer)], answer)

    def test_progress(self):
        """At a terminal a command that takes two seconds says what it is doing, and clears the line before it answers. Here it
        reads; searches that take so long are too large for a test."""
        rows = ["check", "check --json", "explain", "explain --json"]
        self.run_subtests(self.check_progress, [(it, it) for it in rows])

    def test_progress_ends(self):
        """The line is cleared before a page that can't be written is reported."""
        with at_terminal([self.program, "explain", "--html", "/absent/page"], has_output=False) as (child, leader):
            shown = first_shown(leader)
            child.stdin.close()
            shown += rest_shown(leader)
            self.assertEqual(child.wait(SECONDS), 4)
        progress = PROGRESS.match(shown)
        self.assertTrue(progress, f"it begins otherwise: {shown}")
        said = absent("/absent/page", WRITE_FAULT).replace("\n", "\r\n").encode()
        self.assertEqual(shown[progress.end() :], said)

    def check_help(self, folder, arguments, example):
        status, out, why = self.ran(arguments, folder)
        self.assertEqual((status, why), (0, ""))
        self.assertIn(example, out)

    def test_help(self):
        self.run_rows(self.check_help, HELP)

    def check_story(self, folder, arguments, page, wanted, known):
        status, out, why = self.ran(arguments, folder)
        self.assertEqual((status, why, out[: len(wanted)]), (status_of(wanted), "", wanted))
        text = (folder / page).read_text()
        options = self.options_shown(arguments)
        self.assertEqual(text.count(options), 1)
        if known:
            known_text = known.read_text().replace(FILE.format(f"{known.stem}.ndjson"), FILE.format("story"))
            known_text = known_text.replace(OPTIONS.format("plain", "", 1, ""), options)
            self.assertTrue(text == known_text, f"the page is not {known}")
        else:
            self.assertTrue(text.startswith("<!doctype html>"))
            self.assertIn(wanted.strip(), text)

    def options_shown(self, arguments):
        """The options of a page that is made with these arguments."""
        reading = "maybe" if "=maybe" in arguments else "plain"
        ruling = "--rule-out " if "--rule-out" in arguments else ""
        drawn = re.search(r" --document (\S+)(.*)", arguments)
        drawn = f" --document &quot;{drawn[1]}&quot;{drawn[2]}" if drawn else ""
        return OPTIONS.format(reading, ruling, 3 if "--workers 3" in arguments else 1, drawn)

    def test_stories(self):
        """The story begins as is wanted, and the page is the known one."""
        self.run_rows(self.check_story, STORIES)

    def check_fault(self, folder, fault, answer, rises):
        status, history, why = self.ran(run_arguments(calls=200, docs=3, copies=5, fault=fault), folder)
        self.assertEqual((status, why), (0, ""))
        terms = set(re.findall(r'"_primary_term":(\d+)', history))
        self.assertEqual(len(terms) > 1, rises)
        self.assertEqual(self.ran("check", folder, history)[1][: len(answer)], answer)

    def test_faults(self):
        """A run with a fault shows it."""
        self.run_rows(self.check_fault, FAULTS)

    def check_turn(self, folder, command, first_text, second_text, wanted):
        first, second = Pipe(folder / "first"), Pipe(folder / "second")
        with started([self.program, command, first.path, second.path], stdin=subprocess.DEVNULL) as child:
            # (a program that opened the second first would wait at it, and never come to the first)
            self.assertTrue(first.open() and second.open())
            os.write(second.end, second_text)
            os.write(first.end, first_text)
            self.assertTrue(comes(lambda: first.unread() == 0))
            self.assertEqual(second.unread(), len(second_text))
            os.close(first.end)
            self.assertTrue(comes(lambda: second.unread() == 0))
            os.close(second.end)
            self.assertEqual(ended(child), (0, wanted.decode(), ""))

    def test_files_in_turn(self):
        """The first file is opened before the second, both before one is read, and the first is read to its end
        first."""
        self.run_rows(self.check_turn, TURNS)

    def test_page_is_made_last(self):
        """No page is there while the history is read, and one afterwards."""
        with tempfile.TemporaryDirectory() as folder:
            history, page = Pipe(pathlib.Path(folder) / "history"), pathlib.Path(folder) / "page"
            with started([self.program, "explain", history.path, "--html", page], stdin=subprocess.DEVNULL) as child:
                self.assertTrue(history.open())
                os.write(history.end, b"\n")
                self.assertTrue(comes(lambda: history.unread() == 0))
                self.assertFalse(page.exists())
                os.close(history.end)
                self.assertEqual(ended(child), (0, STORY_OF_NOTHING, ""))
            self.assertTrue(page.exists())


if __name__ == "__main__":
    sys.exit(run_tests())
