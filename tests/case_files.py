r"""The text cases: tests/cases/NAME.case, a file for each.

It is no test itself. A case file has sections. A section begins with a line `--- SECTION`; its text is all lines behind
that, up to the next such line or to the end of the file, byte for byte. The sections are

    --- args      the arguments of the program, one on each line; history, witness, body and reply, but as the first
                  argument, stand for files with the texts of these sections
    --- history   a text that the program reads; it is standard input if no argument stands for a file
    --- witness   a text that the program reads, and so are the next two
    --- body
    --- reply
    --- status    the exit status
    --- stdout    the text that has to come on standard output; on standard error nothing may come, but for the note of
                  a check that there are no calls

in this order. Each case has args, status and stdout. If a text doesn't end with a newline, the section ends with the
line `\ No newline at end of file`, as in the output of diff; neither this line nor the newline before it belongs to the
text. A section without a line has the empty text. No line of a text may begin with `--- ` or be that last line: the
format has no escapes.
"""

import re

from program import TOP

CASES = TOP / "tests" / "cases"

# The sections in their order, and those that are files which the program reads.
FILES = ("history", "witness", "body", "reply")
SECTIONS = ("args", *FILES, "status", "stdout")

# The line that begins a section, and what ends one whose text doesn't end with a newline.
HEADING = re.compile(rb"^--- (.*)\n", re.MULTILINE)
NO_NEWLINE = b"\n\\ No newline at end of file\n"


def texts_in(file):
    """The texts of a case file by the names of their sections."""
    before, *parts = HEADING.split(file.read_bytes())
    names = [it.decode() for it in parts[::2]]
    if before or names != [it for it in SECTIONS if it in names] or not {"args", "status", "stdout"} <= set(names):
        raise ValueError(f"{file}: the sections are {names}, and before them comes {before!r}")
    return {name: text.removesuffix(NO_NEWLINE) for name, text in zip(names, parts[1::2])}


def all_cases():
    """The texts of all cases, by the names of the cases."""
    return {file.stem: texts_in(file) for file in sorted(CASES.glob("*.case"))}


def case_text(name, section="history"):
    """The text of a section of a case, with its ends of lines as they are."""
    return texts_in(CASES / f"{name}.case")[section].decode()
