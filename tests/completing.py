#!/usr/bin/env python3
"""Tests the man page and the completions in dist/share: that dist/make-share makes them from the program in dist/, that
bash, zsh and fish complete by them, that the page is well-formed; and which help dist/make-share understands.

    python3 tests/completing.py [PROGRAM]

What is tested is the program in dist/, whichever is named. Shells and readers of man pages that aren't installed are
skipped, with a line. The last line says how many tests passed and failed.
"""

import contextlib
import os
import pathlib
import pty
import re
import select
import shutil
import signal
import subprocess
import sys
import time
import unittest
from typing import Dict, List, NamedTuple, Sequence, Tuple

from program import TOP
from program_test import run_tests
from recordings import FolderTest
from running import SECONDS, run_arguments

DIST = TOP / "dist"
PROGRAM = DIST / "x86_64-linux" / "casbench"
SHARE = DIST / "share"

sys.path.insert(0, str(DIST))

from making.command_help import program_help

# What the shells and the readers of man pages are, and what isn't done without them.
TOOLS = {
    "zsh": "its completion was not tried",
    "fish": "its completion was not tried",
    "groff": "the man page was not formatted by it",
    "man": "the man page was not shown by it",
}


def needs(tool):
    """Skips a test if one of these isn't installed."""
    return unittest.skipUnless(shutil.which(tool), f"{tool} isn't installed here, so {TOOLS[tool]}")


# What stands in a row for the files of the folder.
FILES = "(files)"


def ran(*command, **how):
    """How a command ends."""
    how = {"stdin": subprocess.DEVNULL, "capture_output": True, "text": True, "timeout": SECONDS, **how}
    return subprocess.run([str(it) for it in command], check=False, **how)


def made(folder, program=PROGRAM):
    """How dist/make-share ends that makes its files in the folder."""
    return ran(sys.executable, DIST / "make-share", "--to", folder, program)


def files_in(folder):
    """The files below a folder, by their paths, with what they have."""
    return {str(it.relative_to(folder)): it.read_bytes() for it in pathlib.Path(folder).rglob("*") if it.is_file()}


def commands():
    """The commands of the program."""
    return [it.name for it in program_help(str(PROGRAM)).commands]


def options_shown(command):
    """The names of options that begin a line of the help of a command, read from it in the plainest way."""
    help_text = ran(PROGRAM, "help", command).stdout if command else ran(PROGRAM, "--help").stdout
    lines = [it.strip() for it in help_text.splitlines() if it.strip().startswith("-")]
    return {name for it in lines for name in re.match(r"(--?[\w-]+)(?:, (--?[\w-]+))?", it).groups() if name}


class Row(NamedTuple):
    """The words of a line, of which the last one is completed, and what has to be offered and what must not."""

    words: Tuple[str, ...]
    has: Tuple[str, ...]
    lacks: Tuple[str, ...] = ()


FAULTS = ("none", "dirty", "early", "same-term", "stale", "blind")

# Of lines as bash has them, in which an equals sign is a word of its own.
ROWS = [
    Row(("",), ("check", "run", "help"), ("--help", FILES)),
    Row(("ch",), ("check",), ("run",)),
    Row(("-",), ("--help", "-V"), ("check", "--conflicts")),
    Row(("check", "-"), ("--conflicts", "--rule-out", "--at-least", "-h"), ("--html", "--seed", FILES)),
    Row(("check", "--conflicts", ""), ("plain", "maybe"), ("--rule-out", FILES)),
    Row(("check", "--conflicts", "="), ("plain", "maybe"), (FILES,)),
    Row(("check", "--conflicts", "=", "m"), ("maybe",), ("plain",)),
    Row(("check", "--conflicts", "maybe", "-"), ("--rule-out",), ("--conflicts",)),
    Row(("check", "--conflicts", "=", "maybe", "-"), ("--rule-out",), ("--conflicts",)),
    Row(("check", "--workers", ""), (), ("--rule-out", FILES)),
    Row(("check", "--workers", "2", ""), (FILES,)),
    Row(("check", ""), (FILES,)),
    Row(("check", "h", ""), (FILES,)),
    Row(("witness", "h", ""), ("--rule-out",), (FILES,)),
    Row(("check", "--", "-"), (FILES,), ("--rule-out",)),
    Row(("check", "--", "h", ""), (FILES,), ("--rule-out",)),
    Row(("witness", "--", "h", ""), (), ("--rule-out", FILES)),
    Row(("check", "h", ">", ""), (FILES,)),
    Row(("verify", "h", ""), (FILES,)),
    Row(("verify", "h", "w", ""), ("--conflicts",), (FILES,)),
    Row(("verify", "check", "-"), ("--conflicts",), ("--workers",)),
    Row(("bulk", "b", ""), (FILES,)),
    Row(("run", "-"), ("--seed", "--fault", "--in-turns"), ("--rule-out", FILES)),
    Row(("run", "--fault", ""), FAULTS, ("cuts", FILES)),
    Row(("run", "--in-turns", "--disturb", "s"), ("storm",), ("stale",)),
    Row(("explain", "--html", ""), (FILES,)),
    Row(("help", ""), ("check", "help"), (FILES,)),
    Row(("help", "check", ""), (), ("check", FILES)),
    Row(("nothing", ""), (), ("check", FILES)),
]

# Lines that are typed before a tab, and what becomes of them, in the folder of the examples.
TYPED = {
    "casbench ch": "casbench check ",
    "casbench check --conflicts ma": "casbench check --conflicts maybe ",
    "casbench check --conflicts=ma": "casbench check --conflicts=maybe ",
    "casbench check ri": "casbench check right.ndjson ",
    "casbench check 'ri": "casbench check 'right.ndjson' ",
    "casbench check right.ndjson ri": "casbench check right.ndjson right.ndjson ",
    "casbench witness right.ndjson ri": "casbench witness right.ndjson ri",
    "casbench verify right.ndjson overlapping-g": "casbench verify right.ndjson overlapping-good.witness ",
    "casbench explain --html=stale-get.n": "casbench explain --html=stale-get.ndjson ",
    "casbench run --fault di": "casbench run --fault dirty ",
    "casbench help ex": "casbench help explain ",
    "casbench check right.ndjson > bulk.b": "casbench check right.ndjson > bulk.body ",
    "casbench check hos": "casbench check hostile/",
}

# What a shell is started with, and what is typed first: the completion, and a key that shows the line between marks.
SHELLS = {
    "bash": (
        ["bash", "--norc", "--noprofile", "-i"],
        f"source {SHARE}/bash-completion/completions/casbench\n"
        "bind 'set enable-bracketed-paste off'\n"
        "bind -x '\"\\C-xs\": printf \"<%s>\\n\" \"<$READLINE_LINE>\"'\n",
    ),
    "zsh": (
        ["zsh", "-f", "-i"],
        f"fpath=({SHARE}/zsh/site-functions $fpath); autoload -U compinit; compinit -D -u\n"
        "show() { print; print -r -- \"<\"\"<$BUFFER>>\" }; zle -N show; bindkey '^Xs' show\n",
    ),
}

KILL_LINE, SHOW_LINE = "\x15", "\x18s"


class Terminal:
    """A shell in a terminal of its own, in the folder of the examples, until the block ends."""

    def __init__(self, words, folder):
        environment = {"PATH": os.environ["PATH"], "HOME": folder, "TERM": "dumb", "LC_ALL": "C.UTF-8"}
        self.child, self.terminal = pty.fork()
        if self.child == 0:
            with contextlib.suppress(OSError):
                os.chdir(TOP / "examples")
                os.execvpe(words[0], words, environment)
            os._exit(127)
        self.seen = ""

    def __enter__(self):
        return self

    def __exit__(self, *_):
        os.kill(self.child, signal.SIGKILL)
        os.close(self.terminal)
        os.waitpid(self.child, 0)

    def type(self, text):
        """Types a text."""
        os.write(self.terminal, text.encode())

    def awaited(self, pattern):
        """Waits until the pattern is shown; what its first group is then."""
        until = time.monotonic() + SECONDS
        while time.monotonic() < until:
            found = re.search(pattern, self.seen)
            if found:
                self.seen = self.seen[found.end() :]
                return found[1]
            if select.select([self.terminal], [], [], 1)[0]:
                self.seen += os.read(self.terminal, 65_536).decode("utf-8", "replace")
        raise AssertionError(f"{pattern} was not shown, but {self.seen[-1000:]!r}")

    def completed(self, line):
        """What becomes of a line after a tab."""
        self.type(f"{line}\t{SHOW_LINE}")
        shown = self.awaited(r"<<([^\r\n]*)>>")
        self.type(KILL_LINE)
        return shown


class Made(FolderTest):
    """The files in dist/share."""

    def test_they_are_those_of_the_program(self):
        self.assertEqual(made(self.folder).returncode, 0)
        there, wanted = files_in(SHARE), files_in(self.folder)
        self.assertEqual(set(there), set(wanted))
        for name in wanted:
            with self.subTest(file=name):
                is_same = there[name] == wanted[name]
                self.assertTrue(is_same, f"dist/share/{name} isn't what dist/make-share makes, which renews it")

    def test_named_values_are_those_that_the_program_has(self):
        needed = {"verify": ["h", "w"], "run": run_arguments().split()[1:]}
        count = 0
        for command in program_help(str(PROGRAM)).commands:
            for option in (it for it in command.options if it.values):
                name = option.names[-1]
                arguments = needed.get(command.name, [])
                if name in arguments:
                    at = arguments.index(name)
                    arguments = arguments[:at] + arguments[at + 2 :]
                if name == "--until":
                    arguments = [*arguments[2:], "--seeds", "1-1"]
                with self.subTest(command=command.name, option=name):
                    refused = ran(PROGRAM, command.name, *arguments, name, "?").stderr
                    found = re.search(rf"the value of {name} is (.+)|\[possible values: (.+)\]", refused)
                    self.assertEqual(re.split(", | or ", found[1] or found[2]), list(option.values), refused)
                    count += 1
        self.assertGreaterEqual(count, 7)

    def test_it_is_asked_wrong(self):
        for arguments in (["--to"], ["a", "b"], ["--from", "x"]):
            self.assertEqual(ran(sys.executable, DIST / "make-share", *arguments).returncode, 2)
        self.assertIn("usage: make-share ", ran(sys.executable, DIST / "make-share", "--help").stdout)


# A program of other commands, with all that a help of this form may have: an option with a letter, an alias, named
# values in several forms, one that may come again, text on the next line, headings, and text at the end.
OTHER = {
    "--version": "other 2.0\n",
    "--help": """\
Weighs things

It takes no more than a ton.

Usage: other [COMMAND]

Commands:
  weigh  Weigh a thing
  help   Print this message or the help of the given subcommand(s)

Options:
  -h, --help  Print help

Exit status:
  0  it was weighed
  1  it wasn't

It's all 100% \\good.
""",
    "help weigh": """\
Weigh a thing

Usage: other weigh [OPTIONS] --unit <UNIT> <THING>...

Arguments:
  <THING>...  What is weighed,
              one or more

Options:
  -u, --unit <UNIT>
          The unit [possible values: kg, lb]
      --form <FORM>
          The form

          Possible values:
          - json: for machines
          - text: for people
  -n, --note <TEXT>...
          What is noted [default: "a or b"]
  -q, --quiet
          Say nothing [aliases: -s, --silent]
  -h, --help
          Print help

Output:
  -o, --output <TO>
          The file it's written to
      --log[=<WHEN>]
          When a line is logged: always, never or rarely; rarely without it

Example:
  other weigh --unit kg 'a thing'
""",
    "help help": """\
Print this message or the help of the given subcommand(s)

Usage: other help [COMMAND]...

Arguments:
  [COMMAND]...  Print help for the subcommand(s)
""",
}

QUIET = ("-q", "--quiet", "-s", "--silent")

OTHER_ROWS = [
    Row(("",), ("weigh", "help")),
    Row(("weigh", "-"), ("-u", "--unit", "--form", "-n", "--note", *QUIET, "-o", "--output", "--log"), ("kg",)),
    Row(("weigh", "-u", ""), ("kg", "lb"), ("json", FILES)),
    Row(("weigh", "--form", "="), ("json", "text"), ("kg",)),
    Row(("weigh", "--note", "x", "--silent", "-"), ("-n", "--note", "--unit"), QUIET),
    Row(("weigh", "--note", ""), (), (FILES, "a", "b")),
    Row(("weigh", "-o", ""), (FILES,)),
    Row(("weigh", "--log", "="), ("always", "never", "rarely")),
    Row(("weigh", "--log", "=", "r"), ("rarely",), ("never",)),
    Row(("weigh", "--log", ""), (FILES,), ("always",)),
    Row(("weigh", "--log", "-"), ("--unit",), ("--log",)),
    Row(("weigh", "--log", "--unit", ""), ("kg",), ("always", FILES)),
    Row(("weigh", "a", "b", "c", ""), (FILES,)),
]

class Change(NamedTuple):
    """A change to a help of the other program, after which it isn't understood, and what is said behind its name."""

    command: str
    old: str
    new: str
    wanted: str


NOT_UNDERSTOOD = [
    Change("--version", "other 2", "other, release 2", ": no name and number, such as casbench 0.1.0"),
    Change("help weigh", "-u, -", "-', -", ", line 10: no option such as -o, --option <VALUE>: -', --unit <UNIT>"),
    Change("--help", "Usage: ", "Use: ", ": it doesn't begin with what the command does and a line `Usage: ..`"),
    Change("--help", "Commands:", "Deeds:", ": it has no section `Commands:`"),
    Change("--help", "  weigh ", "  weigh, w ", ", line 8: no name of a command: weigh, w"),
    Change("--help", "  -h, ", "-h, ", ", line 12: an option without an indent: -h, --help  Print help"),
    Change("--help", "  -h, ", "    -h, ", ", line 12: neither an entry nor the text of one: -h, --help  Print help"),
    Change("help weigh", "<THING>...  W", "THING  W", ", line 6: no argument such as [NAME] or <NAME>: THING"),
    Change("help weigh", "<FORM>", "FORM", ", line 12: no option such as -o, --option <VALUE>: --form FORM"),
    Change("help weigh", "lb]", "$(b)]", ", line 10: a value that would have to be quoted in a shell: $(b)"),
    Change("help weigh", "--unit <UNIT> <", "--units <U> <", ": the line of usage has --units, and no section has it"),
    Change("help weigh", "Arguments:", "Commands:\n  more  More\n\nArguments:", ": it has commands of its own"),
]


class Other(FolderTest):
    """What is made of another help."""

    def program_of(self, texts: Dict[str, str]):
        """A program that writes these texts."""
        folder = pathlib.Path(self.folder) / "program"
        folder.mkdir(exist_ok=True)
        for command, text in texts.items():
            (folder / command).write_text(text)
        program = folder / "run"
        program.write_text('#!/bin/sh\nexec cat "${0%/*}/$*"\n')
        program.chmod(0o755)
        return program

    def test_a_program_of_other_commands(self):
        share = pathlib.Path(self.folder) / "share"
        self.assertEqual(made(share, self.program_of(OTHER)).stderr, "")
        for row in OTHER_ROWS:
            with self.subTest(row=row):
                are_offered(self, row, offered_by_bash(share, "other", row.words))
        if shutil.which("zsh"):
            self.assertEqual(ran("zsh", "-f", "-n", share / "zsh/site-functions/_other").stderr, "")
        if shutil.which("fish"):
            self.assertIn("--silent", offered_by_fish(share, "other", ("weigh", "-"), self.folder))
        page = share / "man/man1/other.1"
        self.assertIn("it was weighed", page.read_text())
        self.assertNotIn("broken", page.read_text())
        if shutil.which("groff"):
            self.assertEqual(ran("groff", "-man", "-ww", "-z", page).stderr, "")

    def test_a_help_that_is_not_understood(self):
        share = pathlib.Path(self.folder) / "share"
        for it in NOT_UNDERSTOOD:
            with self.subTest(change=it):
                self.assertIn(it.old, OTHER[it.command])
                end = made(share, self.program_of({**OTHER, it.command: OTHER[it.command].replace(it.old, it.new, 1)}))
                self.assertEqual((end.returncode, share.exists()), (1, False))
                self.assertTrue(end.stderr.startswith(f"make-share: casbench {it.command}{it.wanted}"), end.stderr)

    def test_a_program_that_does_not_answer(self):
        share = pathlib.Path(self.folder) / "share"
        without = self.program_of({it: text for it, text in OTHER.items() if it != "help weigh"})
        rows = ((without, "casbench help weigh: status 1"), (f"{self.folder}/none", "casbench --version: [Errno 2]"))
        for program, wanted in rows:
            end = made(share, program)
            self.assertEqual((end.returncode, share.exists()), (1, False))
            self.assertIn(wanted, end.stderr)


# Bash completes the words behind the first two, by its own means; files are asked for by `compopt`.
IN_BASH = """\
source "$1"
name=$2
compopt() { echo "compopt $*"; }
shift 2
COMP_WORDS=("$name" "$@") COMP_CWORD=$#
[[ $(complete -p "$name") == "complete -F _$name $name" ]] || echo "no completion of $name"
"_$name"
for it in "${COMPREPLY[@]}"; do printf '%s\n' "$it"; done
"""


def offered_by_bash(share, name, words: Sequence[str]) -> List[str]:
    """What bash offers for the last word."""
    end = ran("bash", "--norc", "-c", IN_BASH, "bash", share / "bash-completion" / "completions" / name, name, *words)
    return [FILES if it == "compopt -o default" else it for it in end.stdout.splitlines()] + end.stderr.splitlines()


def offered_by_fish(share, name, words: Sequence[str], folder) -> List[str]:
    """What fish offers for the last word, in the folder."""
    line = " ".join((name, *words)).replace(" = ", "=").replace(" =", "=")
    file = share / "fish" / "vendor_completions.d" / f"{name}.fish"
    environment = {"PATH": os.environ["PATH"], "HOME": folder, "LC_ALL": "C.UTF-8"}
    end = ran("fish", "--no-config", "-c", f"source {file}; complete -C '{line}'", cwd=folder, env=environment)
    offered = [it.split("\t")[0].rpartition("=")[2] for it in end.stdout.splitlines()]
    return [FILES if it == "file" else it for it in offered] + end.stderr.splitlines()


def are_offered(test, row, offered):
    """Holds what is offered to the row."""
    test.assertLessEqual(set(row.has), set(offered))
    test.assertEqual(set(row.lacks) & set(offered), set())


class Shells(FolderTest):
    """The completions, in the shells."""

    def test_bash_offers(self):
        for row in ROWS:
            with self.subTest(words=row.words):
                are_offered(self, row, offered_by_bash(SHARE, "casbench", row.words))

    def test_bash_offers_all_options(self):
        self.assertEqual(sorted(offered_by_bash(SHARE, "casbench", ("",))), sorted(commands()))
        for command in ("", *commands()):
            with self.subTest(command=command):
                words = (*([command] if command else []), "-")
                self.assertEqual(set(offered_by_bash(SHARE, "casbench", words)), options_shown(command))

    def test_bash_completes_what_is_typed(self):
        self.type_all("bash")

    @needs("zsh")
    def test_zsh_completes_what_is_typed(self):
        self.type_all("zsh")

    def type_all(self, shell):
        """Types the lines in a terminal."""
        words, first = SHELLS[shell]
        with Terminal(words, self.folder) as terminal:
            terminal.type(f"{first}PS1='NOW'\"> \"\n")
            terminal.awaited("(NOW> )")
            for line, wanted in TYPED.items():
                with self.subTest(line=line):
                    self.assertEqual(terminal.completed(line), wanted)

    @needs("fish")
    def test_fish_offers(self):
        (pathlib.Path(self.folder) / "file").touch()
        for row in (it for it in ROWS if ">" not in it.words):
            with self.subTest(words=row.words):
                offered = offered_by_fish(SHARE, "casbench", row.words, self.folder)
                # (it offers options after a minus sign only, and the file has none in its name)
                is_minus = row.words[-1] == "-"
                has = tuple(it for it in row.has if it.startswith("-") == is_minus)
                are_offered(self, Row(row.words, has, row.lacks), offered)


class ManPage(FolderTest):
    """The man page."""

    page = SHARE / "man" / "man1" / "casbench.1"

    def test_it_has_all_that_the_help_has(self):
        text = re.sub(r"\\f[BIR]", "", self.page.read_text()).replace("\\-", "-").replace("\\(aq", "'")
        self.assertTrue(text.isascii())
        for command in ("", *commands()):
            help_text = ran(PROGRAM, "help", *([command] if command else [])).stdout
            pieces = [it for line in help_text.splitlines() for it in re.split(" {2,}", line.strip())]
            pieces = [re.sub(r"<([\w-]+)>", r"\1", it).removeprefix("Usage: ") for it in pieces if not it.endswith(":")]
            for it in (it for it in pieces if it != "casbench [COMMAND]"):
                with self.subTest(command=command, piece=it):
                    self.assertTrue(it in text)
        headings = re.findall(r'^\.SH "?([A-Z ]+)', text, re.MULTILINE)
        wanted = {"NAME", "SYNOPSIS", "DESCRIPTION", "COMMANDS", "OPTIONS", "EXAMPLES", "EXIT STATUS", "SEE ALSO"}
        self.assertLessEqual(wanted, set(headings))

    @needs("groff")
    def test_groff_has_no_warning(self):
        end = ran("groff", "-man", "-ww", "-z", self.page)
        self.assertEqual((end.returncode, end.stdout, end.stderr), (0, "", ""))

    @needs("man")
    def test_man_shows_it(self):
        environment = {"PATH": os.environ["PATH"], "HOME": self.folder, "LC_ALL": "C.UTF-8", "MANWIDTH": "100"}
        end = ran("man", "--warnings", "-l", self.page, env=environment)
        self.assertEqual((end.returncode, end.stderr), (0, ""))
        self.assertIn("casbench - checks whether a recorded history", end.stdout.replace("\n              ", " "))


if __name__ == "__main__":
    sys.exit(run_tests())
