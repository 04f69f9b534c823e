#!/usr/bin/env python3
"""Has the built program write pages in the place of a file: the history itself, by whatever name, or an old page.

    python3 tests/pages.py [PROGRAM]

PROGRAM is the built casbench; if it isn't named, the one that ./casbench would run. Each run has a folder of its own. A
page that is the history itself is refused before anything is written. An old page stays as it was until the new one is
whole, whatever fails or interrupts it; and nothing else is left in the folder, unless the program is killed. If there
is no C compiler, cc, the tests in which a write or a renaming fails are skipped.
"""

import contextlib
import errno
import os
import pathlib
import resource
import signal
import stat
import subprocess
import sys
import tempfile
from typing import NamedTuple, Optional

from program_test import ProgramTest, run_tests
from running import SECONDS, library_in, needs_compiler
from texts import READ_FAULT, WRITE_FAULT, created, found, get, index, refuted, updated

# A history that is refuted, the answer that it gets, and an old page, which is longer than the new one.
HISTORY = index(0) + created(0, 1, 0) + index(1) + updated(1, 1, 1) + get(2) + found(2, 1, 0)
LINE = refuted("stale-get", "2,1", 5, 2)
OLD = "an old page\n" * 10_000

# Besides the history `h` and the old page the folder has a hard link `hard` to the history, these symbolic links, a
# pipe `pipe`, and an empty folder `sub`.
LINKS = {"link": "h", "link.html": "old.html", "astray.html": "absent.html"}


class End(NamedTuple):
    """How a run ended, and what the folder had before it and after it."""

    status: int
    out: str
    err: str
    before: dict
    after: dict


def filled(folder):
    """Fills the folder."""
    (folder / "h").write_text(HISTORY)
    os.link(folder / "h", folder / "hard")
    (folder / "old.html").write_text(OLD)
    for name, target in LINKS.items():
        (folder / name).symlink_to(target)
    os.mkfifo(folder / "pipe")
    (folder / "sub").mkdir()


def seen(path):
    """What there is: a link with where it leads, a file with its text, or what else it is."""
    if path.is_symlink():
        return f"-> {os.readlink(path)}"
    return path.read_text() if path.is_file() else stat.filemode(path.lstat().st_mode)[0]


def all_in(folder):
    """All that is in the folder."""
    return {str(it.relative_to(folder)): seen(it) for it in sorted(folder.rglob("*"))}


def ended(program, folder, arguments, given="/dev/null", **how):
    """How a run of `explain` with these arguments ends in the folder, whose name is put in the place of each `@`."""
    words = [program, "explain", *arguments.replace("@", str(folder)).split()]
    before = all_in(folder)
    with open(folder / given, "rb") as text:
        ran = subprocess.run(words, cwd=folder, stdin=text, capture_output=True, text=True, timeout=SECONDS, **how)
    return End(ran.returncode, ran.stdout, ran.stderr, before, all_in(folder))


@contextlib.contextmanager
def new_folder():
    """A folder that is filled, and removed at last."""
    with tempfile.TemporaryDirectory(prefix="casbench-pages-") as name:
        filled(pathlib.Path(name))
        yield pathlib.Path(name)


# A page that is the history.

# The arguments, and what is standard input.
ITSELF = [
    ("h --html h", None),
    ("./h --html h", None),
    ("h --html ./h", None),
    ("@/h --html h", None),
    ("h --html @/h", None),
    ("sub/../h --html h", None),
    ("h --html link", None),
    ("link --html h", None),
    ("link --html ./link", None),
    ("h --html hard", None),
    ("hard --html h", None),
    ("--html h", "h"),
    ("--html ./h", "h"),
    ("--html link", "h"),
    ("--html h", "link"),
    ("--html hard", "h"),
    ("/dev/stdin --html h", "h"),
]


# A history that can't be read.

UNREAD = [
    "sub --html old.html",
    "absent --html old.html",
    "sub --html new.html",
    "absent --html link.html",
    "sub --html astray.html",
]


# A page that can't be written.

# Names at which it can't be made: no folder, a folder that takes no file, a file for a folder, a folder for a file, and
# no name.
NOWHERE = ["absent/new.html", "/proc/new.html", "h/new.html", "sub", "sub/", "@"]


class Failure(NamedTuple):
    """How a page comes to fail: what is in the environment of the calls that fail, the most bytes of a file, and
    whether it is killed."""

    name: str
    calls: Optional[dict] = None
    most_bytes: Optional[int] = None
    is_killed: bool = False


def failing_write(name, number, error):
    """A write of the page fails, which goes out a hundred bytes at a time."""
    calls = {"FILE": "*", "NUMBER": str(number), "ERROR": str(error), "MOST": "100"}
    return Failure(f"{name}, write {number}", calls, None, error < 0)


FAILURES = [
    *(failing_write("an error", number, errno.EIO) for number in (1, 2, 20)),
    *(failing_write("a full disk", number, errno.ENOSPC) for number in (1, 20)),
    failing_write("no byte taken", 2, 0),
    *(failing_write("killed", number, -1) for number in (1, 2, 20)),
    Failure("a renaming that fails", {"RENAME": str(errno.EIO)}),
    Failure("a file that may not grow", most_bytes=1_000),
]

# The page that is written then: one that was there, one through a link, and one that wasn't there.
PAGES = ["old.html", "link.html", "new.html"]


def limit_files(most_bytes):
    """Has no file take more bytes: a write past that fails."""
    signal.signal(signal.SIGXFSZ, signal.SIG_IGN)
    resource.setrlimit(resource.RLIMIT_FSIZE, (most_bytes, most_bytes))


class Pages(ProgramTest):
    """Pages, each written in a folder of its own."""

    @classmethod
    def setUpClass(cls):
        """What is written on standard output, and the page, if nothing stands in the way."""
        with new_folder() as folder:
            end = ended(cls.program, folder, "h --html new.html")
        cls.out, cls.page = end.out, end.after["new.html"]

    def ended(self, folder, arguments, *given, **how):
        return ended(self.program, folder, arguments, *given, **how)

    def in_new_folder(self, check, *arguments):
        with new_folder() as folder:
            check(folder, *arguments)

    def run_rows(self, check, rows):
        """Runs a subtest for each row, in a new folder."""
        self.run_subtests(self.in_new_folder, [(name, check, *row) for name, *row in rows])

    def test_page(self):
        """The story and the page are whole if nothing stands in the way."""
        self.assertTrue(self.out.startswith(LINE))
        self.assertTrue(self.page.startswith("<!doctype html>") and self.page.endswith("</html>\n"))

    def check_itself(self, folder, arguments, given):
        end = self.ended(folder, arguments, given or "/dev/null")
        page = arguments.split()[-1].replace("@", str(folder))
        why = f"casbench: {page}: the history would be overwritten\n{WRITE_FAULT}"
        self.assertEqual((end.status, end.out[:60], end.err), (4, "", why))
        self.assertTrue(end.after == end.before, f"the history is{' not' * (end.after.get('h') != HISTORY)} as it was")

    def test_history_itself(self):
        """A page is refused that is the history."""
        rows = [(f"{arguments} <{given}" if given else arguments, arguments, given) for arguments, given in ITSELF]
        self.run_rows(self.check_itself, rows)

    def check_unread(self, folder, arguments):
        end = self.ended(folder, arguments)
        self.assertEqual((end.status, end.out), (4, ""))
        self.assertTrue(end.err.endswith(READ_FAULT), end.err)
        self.assertTrue(end.after == end.before)

    def test_unread(self):
        """Nothing is changed if the history can't be read."""
        self.run_rows(self.check_unread, [(it, it) for it in UNREAD])

    def check_kept(self, folder, page, failure, library=None):
        how = {}
        if failure.calls:
            how["env"] = {**os.environ, **failure.calls, "TOLD": "/dev/null", "LD_PRELOAD": str(library)}
        if failure.most_bytes:
            how["preexec_fn"] = lambda: limit_files(failure.most_bytes)
        end = self.ended(folder, f"h --html {page}", **how)
        status, why = (-signal.SIGKILL, "") if failure.is_killed else (4, WRITE_FAULT)
        self.assertEqual((end.status, end.err[len(end.err) - len(why) :]), (status, why))
        # (the answer may have been written before)
        self.assertTrue(self.out.startswith(end.out), end.out)
        counts = {page, *end.before} if failure.is_killed else {*end.after}
        after = {name: it for name, it in end.after.items() if name in counts}
        changed = [name for name in {*end.before, *after} if end.before.get(name) != after.get(name)]
        self.assertEqual(changed, [])

    def failures(self, has_calls):
        """The failures that need a library of failing calls, or those that need none."""
        for page in PAGES:
            yield from ((f"{page}: {it.name}", page, it) for it in FAILURES if bool(it.calls) == has_calls)

    @needs_compiler
    def test_failing_calls(self):
        """What was there stays as it was if a write or a renaming fails, and nothing else comes beside it unless the
        program is killed."""
        with tempfile.TemporaryDirectory() as folder:
            library = library_in(folder, "fail_calls")
            self.run_rows(self.check_kept, [(*row, library) for row in self.failures(has_calls=True)])

    def test_limited_files(self):
        """The same if a file may not grow."""
        self.run_rows(self.check_kept, self.failures(has_calls=False))

    def check_nowhere(self, folder, page):
        end = self.ended(folder, f"h --html {page}")
        self.assertEqual(end.status, 4)
        self.assertTrue(end.err.endswith(WRITE_FAULT), end.err)
        self.assertIn(end.out, ("", self.out))
        self.assertTrue(end.after == end.before)

    def test_nowhere(self):
        """Nothing is changed if the page can't be made."""
        self.run_rows(self.check_nowhere, [(it, it) for it in NOWHERE])

    def check_written(self, folder, page):
        end = self.ended(folder, f"h --html {page}")
        self.assertTrue(end == End(1, self.out, "", end.before, {**end.before, page: self.page}))

    def test_written(self):
        """The whole page stands there afterwards, and nothing else is new."""
        pages = map(os.path.normpath, ("old.html", "new.html", "sub/new.html", "./new.html"))
        self.run_rows(self.check_written, [(it, it) for it in pages])

    def test_permissions(self):
        """The page has those of the one whose place it takes."""
        with new_folder() as folder:
            for mode in (0o600, 0o640, 0o664):
                (folder / "old.html").chmod(mode)
                self.assertEqual(self.ended(folder, "h --html old.html").status, 1)
                self.assertEqual((folder / "old.html").stat().st_mode & 0o777, mode)
                self.assertTrue((folder / "old.html").read_text() == self.page)

    def check_written_through(self, folder, link):
        end = self.ended(folder, f"h --html {link}")
        self.assertEqual(end[:3], (1, self.out, ""))
        target = LINKS[link]
        others = [{name: it for name, it in its.items() if name not in (link, target)} for its in (end.before, end.after)]
        self.assertTrue(others[0] == others[1])
        self.assertTrue(end.after.get(target) in (end.before.get(target), self.page))
        self.assertTrue((folder / link).read_text() == self.page)

    def test_written_through_links(self):
        """The name of the link has the whole page afterwards. The page may take the place of the link, or of what the
        link leads to: that has the old text, or the page."""
        self.run_rows(self.check_written_through, [(it, it) for it in ("link.html", "astray.html")])

    def test_pipe(self):
        """The page goes through a pipe that is named, which stays: what is no file is nothing that could be lost."""
        with new_folder() as folder:
            pipe = os.open(folder / "pipe", os.O_RDONLY | os.O_NONBLOCK)
            end = self.ended(folder, "h --html pipe")
            with open(pipe, "rb") as taken:
                text = (taken.read() or b"").decode()
        self.assertTrue(end == End(1, self.out, "", end.before, end.before))
        self.assertTrue(text == self.page)


if __name__ == "__main__":
    sys.exit(run_tests())
