#!/usr/bin/env python3
"""Has the built program draw timelines of documents, and checks what they show.

    python3 tests/timelines.py [PROGRAM]

PROGRAM is the built casbench; if it isn't named, the one that ./casbench would run. `explain --document ID --html OUT`
draws the calls of a document on the page: each is a bar with a tooltip, with a stroke where it takes effect in the
order that was found. The sentence above the drawing says which calls it shows.
"""

import html
import pathlib
import re
import sys
import tempfile

from program_test import ProgramTest, run_tests
from running import run, said
from texts import created, found, get, index, lost, missing, refuted, reply, status_of, updated

# The heading of a timeline, what stands for a stroke, and the tooltip of a bar.
HEADING, STROKE = "<h2>A timeline of the document</h2>", 'class="tick"'
TOOLTIP = re.compile(r'<g class="bar[^"]*" tabindex="0"><title>([^<]*)</title>')

# The greatest number of calls that a timeline shows.
MOST_CALLS = 400


def by(client, line):
    """A line with the name of who asked."""
    return line.replace('"e":"call"', f'"e":"call","client":"{client}"', 1)


# A write that is read, one whose outcome is lost, and a get of another document.
HONEST = by("one", index(0)) + created(0, 1, 0) + by("two", index(1, k=2)) + by("one", get(2)) + found(2, 1, 1, k=2)
HONEST += lost(1) + by("two", get(3, doc="e")) + missing(3, "e")

# A get that shows an older version than one that was acknowledged before it was made.
STALE = index(0, k=1) + created(0, 1, 0) + index(1, k=2) + updated(1, 1, 1) + get(2) + found(2, 1, 0, k=1)
STALE += index(3, k=3) + updated(3, 1, 2)

# Two gets: one shows a write before it is acknowledged, the next one the version before it.
ONE_COPY_AHEAD = index(10, k=1) + created(10, 1, 0) + index(21, k=2) + get(32) + found(32, 1, 1, k=2) + get(43) + found(43, 1, 0, k=1) + updated(21, 1, 1)

# A write of a new document that says that it was there: another attempt made it.
SENT_AGAIN = index(7, k=5) + updated(7, 1, 1) + get(8) + found(8, 1, 1, k=5)

# More calls than a timeline shows.
MANY = index(0, k=0) + created(0, 1, 0) + "".join(get(it) + found(it, 1, 0, k=0) for it in range(1, MOST_CALLS + 5))

# A name, a history, the answer, options, the sentence of the timeline, and how many bars and strokes it has.
ROWS = [
    ("an order", HONEST, "yes ", ["--document", "d"], 'shows 3 of the 3 calls of "d": those from line 1 to line 5.', 3, 3),
    ("lines", HONEST, "yes ", ["--document", "d", "--lines", "1-2"], 'shows 1 of the 3 calls of "d": those from line 1 to line 2.', 1, 1),
    ("another document", HONEST, "yes ", ["--document", "e"], 'shows 1 of the 1 calls of "e": those from line 7 to line 8.', 1, 1),
    ("no order", STALE, refuted("stale-get", "2,1", 5, 2), ["--document", "d"], 'shows 4 of the 4 calls of "d": those from line 1 to line 8.', 4, 2),
    (
        "gets that are judged one by one",
        ONE_COPY_AHEAD,
        "yes docs=1 calls=4 left_out=0 gets=2\n",
        ["--document", "d", "--profile", "opensearch"],
        'shows 4 of the 4 calls of "d": those from line 1 to line 8.',
        4,
        2,
    ),
    (
        "lines of a text whose writes may be performed twice",
        ONE_COPY_AHEAD,
        "yes docs=1 calls=4 left_out=0 gets=2\n",
        ["--document", "d", "--lines", "4-5", "--profile", "opensearch"],
        'shows 2 of the 4 calls of "d": those from line 3 to line 8.',
        2,
        1,
    ),
    ("many calls", MANY, "yes ", ["--document", "d"], f'shows {MOST_CALLS} of the {MOST_CALLS + 5} calls of "d": those from line 1 to line {2 * MOST_CALLS}.', MOST_CALLS, MOST_CALLS),
]


class Timelines(ProgramTest):
    """Timelines of documents."""

    def page(self, text, answer, options):
        """What is written for a history with this answer, and its page."""
        with tempfile.TemporaryDirectory() as folder:
            out = pathlib.Path(folder) / "page.html"
            status, story = said(run(self.program, ["explain", "--html", out, *options], text))
            self.assertEqual((status, story[: len(answer)]), (status_of(answer), answer))
            return story, out.read_text()

    def drawn(self, page):
        """The part of a page with the timeline."""
        self.assertEqual(page.count(HEADING), 1)
        _, _, rest = page.partition(HEADING)
        return rest.partition("</figure>")[0]

    def check_row(self, text, answer, options, sentence, bars, strokes):
        story, page = self.page(text, answer, options)
        self.assertIn(sentence, story)
        drawn = self.drawn(page)
        self.assertIn(sentence, html.unescape(drawn))
        self.assertEqual((len(TOOLTIP.findall(drawn)), drawn.count(STROKE)), (bars, strokes))
        self.assertNotIn("<script", page)

    def test_rows(self):
        """The timeline shows these calls, and where they take effect."""
        self.run_subtests(self.check_row, ROWS)

    def test_clients(self):
        """The bars stand client by client, in lanes with their names, and the tooltip of a bar names who asked."""
        _, page = self.page(HONEST, "yes ", ["--document", "d"])
        drawn = self.drawn(page)
        tooltips = [html.unescape(it) for it in TOOLTIP.findall(drawn)]
        self.assertEqual([it.partition(":")[0] for it in tooltips], ["call 0 by one", "call 2 by one", "call 1 by two"])
        for name in ("one", "two"):
            self.assertRegex(drawn, rf"<text [^>]*>(client )?{name}</text>")

    def test_version_of_an_earlier_call(self):
        """A version stands between those that the calls show, also if its write was called before the first line."""
        text = index(0) + created(0, 1, 0) + index(1, k=2) + get(2) + found(2, 1, 0) + get(3) + found(3, 1, 1, k=2)
        _, page = self.page(text, "yes ", ["--document", "d", "--lines", "4-7"])
        drawn = self.drawn(page)
        versions = [drawn.index(f">{it}</text>") for it in ("1/0 k=1", "1/1 k=2")]
        self.assertEqual(versions, sorted(versions))

    def test_gets_of_any_copy(self):
        """Gets that are judged one by one have what they answered, and the numbers are the text's."""
        _, page = self.page(ONE_COPY_AHEAD, "yes ", ["--document", "d", "--profile", "opensearch"])
        tooltips = [html.unescape(it) for it in TOOLTIP.findall(self.drawn(page))]
        self.assertEqual(
            tooltips,
            [
                "call 10: index k=1 -> created as 1/0 (line 1, reply on line 2)",
                "call 21: index k=2 -> updated as 1/1 (line 3, reply on line 8)",
                "call 32: get -> k=2 at 1/1 (line 4, reply on line 5)",
                "call 43: get -> k=1 at 1/0 (line 6, reply on line 7)",
            ],
        )

    def test_another_attempt(self):
        """A version that another attempt of a write made has the number of its call."""
        _, page = self.page(SENT_AGAIN, "yes docs=1 calls=2 left_out=0\n", ["--document", "d", "--writes", "repeated"])
        drawn = self.drawn(page)
        self.assertEqual(len(TOOLTIP.findall(drawn)), 2)
        makers = [drawn.index(it) for it in (">1/0 k=5</text>", ">by call 7, another attempt</text>", ">1/1 k=5</text>", ">by call 7</text>")]
        self.assertEqual(makers, sorted(makers))

    def test_reply_of_no_row(self):
        """A call is over with a reply of a status that is in no table, and its bar says which."""
        text = index(0) + created(0, 1, 0) + index(1, k=2) + reply(1, 503, "null") + get(2) + found(2, 1, 0)
        _, page = self.page(text, "yes ", ["--document", "d"])
        drawn = self.drawn(page)
        self.assertIn("call 1: index k=2 -> HTTP 503, which doesn't say whether the write was performed (line 3, reply on line 4)", html.unescape(drawn))
        self.assertIn(">1 index k=2: HTTP 503<", drawn)
        self.assertNotIn('class="bar lost"', drawn)

    def test_nothing_to_draw(self):
        """A document that the history doesn't have is named, and so is one without a call on the lines."""
        story, page = self.page(HONEST, "yes ", ["--document", "<b>"])
        self.assertIn('The history has no document "<b>".', story)
        self.assertIn("The history has no document &quot;&lt;b&gt;&quot;.", page)
        story, page = self.page(HONEST, "yes ", ["--document", "d", "--lines", "7-9"])
        self.assertIn('No call of the document "d" is on one of these lines.', story)
        self.assertNotIn("<svg", page.partition(HEADING)[2])


if __name__ == "__main__":
    sys.exit(run_tests())
