"""The man page of the program."""

import re
from typing import Iterator, List, Sequence

from .command_help import Argument, CommandHelp, Option, Passage, ProgramHelp

ESCAPES = {"\\": "\\e", "-": "\\-", "'": "\\(aq", "`": "\\(ga", "^": "\\(ha", "~": "\\(ti"}
"""How a page writes what troff would read otherwise, or write as another sign than the one that a shell reads."""

DESCRIPTION = """\
A history text has a line of JSON for each call and for each reply, in the order in which they were recorded. Recorders
write it; the program itself reads files and standard input only, and asks no cluster."""

EXIT_STATUSES = {
    "0": "The answer is yes or verified, or the text that was asked for is written.",
    "1": "The answer is no, refuted or broken; or the seeds of a run were tried, and none got such an answer.",
    "2": "A text is refused: it is no history text, no witness text, or no body of a bulk request or its reply.",
    "3": "There is no memory.",
    "4": "A file could not be opened, read or written.",
    "5": "A thread was lost.",
    "64": "The arguments are wrong. Nothing was opened or read.",
}
"""What each status means, if the help doesn't say so itself."""

SEE_ALSO = """\
docs/FORMATS.md of the source tree describes what is read and written, and docs/RECORDING.md how a store is recorded."""


def escaped(text: str) -> str:
    """A text as it stands in the middle of a line."""
    signs = (ESCAPES.get(it, it) if it.isascii() else f"\\[u{ord(it):04X}]" for it in text)
    return "".join(signs)


def line(text: str) -> str:
    """A text as a line of its own. One that begins with a dot would be a request."""
    return f"\\&{escaped(text)}" if text.startswith(".") else escaped(text)


def styled(text: str) -> str:
    """A term or a usage: options in bold, and the names that stand for something in italics."""
    pieces = re.split(r"(--?\w[\w-]*|<[^<>]+>|\b[A-Z][A-Z_-]*\b)", text)
    return "".join(escaped(it) if at % 2 == 0 else styled_name(it) for at, it in enumerate(pieces))


def styled_name(name: str) -> str:
    """An option, or a name that stands for something."""
    return f"\\fB{escaped(name)}\\fR" if name.startswith("-") else f"\\fI{escaped(name.strip('<>'))}\\fR"


def usage_lines(name: str, help_text: CommandHelp) -> Iterator[str]:
    """The lines of usage of a command of the program of this name, which stands in bold."""
    name = f"{name} {help_text.name}".strip()
    for usage in help_text.usage:
        rest = usage[len(name) :] if usage.startswith(name) else f" {usage}"
        yield f"\\fB{escaped(name)}\\fR{styled(rest)}"


def sentence(text: str) -> str:
    """A text with a full stop."""
    return text if text.endswith((".", "!", "?", ":")) else f"{text}."


def term(shown: str, text: str) -> Iterator[str]:
    """The lines of a term and what is said of it."""
    yield ".TP"
    yield shown
    yield line(sentence(text)) if text else "\\&"


def option_lines(options: Sequence[Option]) -> Iterator[str]:
    """The lines of options."""
    for it in options:
        names = ", ".join(styled(name) for name in it.names)
        yield from term(f"{names} \\fI{escaped(it.value)}\\fR" if it.value else names, it.text)


def argument_lines(arguments: Sequence[Argument]) -> Iterator[str]:
    """The lines of arguments."""
    for it in arguments:
        yield from term(styled(it.shown), it.text)


def passage_lines(passage: Passage) -> Iterator[str]:
    """The lines of a passage: as they stand, if they stand below a heading."""
    if passage.heading:
        yield from (".RS 4", ".EX", *(line(it) for it in passage.lines), ".EE", ".RE")
    else:
        yield from paragraph_lines(passage.lines)


def command_lines(name: str, help_text: CommandHelp) -> Iterator[str]:
    """The lines of a command of the program of this name."""
    yield f".SS {escaped(name)} {escaped(help_text.name)}"
    yield from paragraph_lines(help_text.about)
    yield from argument_lines(help_text.arguments)
    yield from option_lines(help_text.options)
    for it in help_text.passages:
        if it.heading:
            yield from (".PP", f"{escaped(it.heading)}:")
        yield from passage_lines(it)


def paragraphs(lines: Sequence[str]) -> List[str]:
    """The paragraphs of a text, which empty lines part."""
    return [" ".join(it.split()) for it in "\n".join(lines).split("\n\n")]


def paragraph_lines(lines: Sequence[str]) -> Iterator[str]:
    """The lines of a text in paragraphs."""
    for it in paragraphs(lines):
        yield from (".PP", line(sentence(it)))


def section_lines(itself: CommandHelp) -> Iterator[str]:
    """The lines of what the help of the program says below headings of its own, and of the exit statuses."""
    for it in itself.passages:
        yield from ([f'.SH "{escaped(it.heading.upper())}"'] if it.heading else [])
        yield from passage_lines(it)
    if itself.passage("exit (status(es)?|codes?)") is None:
        yield '.SH "EXIT STATUS"'
        for status, meaning in EXIT_STATUSES.items():
            yield from term(status, meaning)


def page_lines(program: ProgramHelp) -> Iterator[str]:
    """The lines of the page."""
    about = paragraphs(program.itself.about)[0].rstrip(".")
    yield '.\\" Made by dist/make-share from the help of the program.'
    yield f'.TH {program.name.upper()} 1 "" "{escaped(program.name)} {escaped(program.version)}" "User Commands"'
    yield from (".nh", ".ad l")
    yield ".SH NAME"
    yield f"{escaped(program.name)} \\- {escaped(about[:1].lower() + about[1:])}"
    yield ".SH SYNOPSIS"
    for at, it in enumerate(usage for command in program.commands for usage in usage_lines(program.name, command)):
        yield from ([".br"] if at else [])
        yield it
    yield ".SH DESCRIPTION"
    yield from paragraph_lines(program.itself.about)
    yield from paragraph_lines([DESCRIPTION])
    yield ".SH COMMANDS"
    for command in program.commands:
        yield from command_lines(program.name, command)
    yield ".SH OPTIONS"
    yield from option_lines(program.itself.options)
    yield from section_lines(program.itself)
    yield '.SH "SEE ALSO"'
    yield line(SEE_ALSO)


def man_page(program: ProgramHelp) -> str:
    """The text of the page."""
    return "".join(f"{it}\n" for it in page_lines(program))
