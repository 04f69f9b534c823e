"""What the program's help says: its commands, and the arguments and options of each.

The help has the form of the crate `clap`: what a command does, a line of usage, then sections of commands, arguments
and options, in which each entry is a line with an indent of two or six, and passages of text. A line that isn't
understood is refused with its place.
"""

import re
import subprocess
from dataclasses import dataclass
from typing import Dict, List, NamedTuple, Optional, Sequence, Tuple

SECONDS = 60
"""A program that takes longer to write its help has failed."""

NAME = re.compile(r"[A-Za-z0-9][A-Za-z0-9._+-]*")
"""A command, or a named value. Others would have to be quoted in each shell."""

OPTION = re.compile(
    r"(?P<names>-[A-Za-z0-9]|--[\w-]+|-[A-Za-z0-9], --[\w-]+)"
    r"(?P<value>(?:\[=<[^<>]+>\]|=<[^<>]+>| <[^<>]+>)?)(?P<more>(?:\.\.\.)?)"
)
ARGUMENT = re.compile(r"(?P<shown>\[(?P<may>[^\]<>]+)\]|<(?P<must>[^<>]+)>)(?P<more>(?:\.\.\.)?)")

FILES = ("FILE", "PATH", "OUT", "DIR", "DIRECTORY", "FOLDER")
"""Values of options that are files, whatever the text says."""

MANY = 999
"""How many files there may be as an argument that comes again and again."""


class HelpError(Exception):
    """Why the help isn't understood."""


class Line(NamedTuple):
    """A line of a help text: where it stands, and what is behind its indent."""

    place: str
    indent: int
    text: str


class Entry(NamedTuple):
    """An entry of a section: where it stands, what it is of, and the text, which may go on for several lines."""

    place: str
    term: str
    text: Tuple[str, ...]


class Option(NamedTuple):
    """An option: its names, the name of its value or nothing, its text, the values that it has names for, whether its
    value is a file, whether it may come without the value, and whether it may come again."""

    names: Tuple[str, ...]
    value: str
    text: str
    values: Tuple[str, ...]
    is_file: bool
    is_optional: bool
    is_repeated: bool


class Argument(NamedTuple):
    """An argument that is no option: its name, how the help shows it, its text, and whether it may come again."""

    name: str
    shown: str
    text: str
    is_repeated: bool

    @property
    def is_command(self) -> bool:
        """Whether it is the name of a command, and not a file."""
        return self.name == "COMMAND"


class Passage(NamedTuple):
    """What stands below a heading of its own, or below none, as it stands there."""

    heading: str
    lines: Tuple[str, ...]


@dataclass(frozen=True)
class CommandHelp:
    """The help of a command, or of the program itself, whose name is empty."""

    name: str
    about: Tuple[str, ...]
    usage: Tuple[str, ...]
    commands: Dict[str, str]
    arguments: Tuple[Argument, ...]
    options: Tuple[Option, ...]
    passages: Tuple[Passage, ...]

    @property
    def takes_command(self) -> bool:
        """Whether its argument is the name of a command."""
        return not self.name or any(it.is_command for it in self.arguments)

    @property
    def most_files(self) -> int:
        """How many files its arguments may be."""
        return MANY if any(it.is_repeated for it in self.arguments) else len(self.arguments)

    def passage(self, pattern: str) -> Optional[Passage]:
        """The first passage whose heading fits the pattern."""
        return next((it for it in self.passages if re.fullmatch(pattern, it.heading, re.IGNORECASE)), None)


@dataclass(frozen=True)
class ProgramHelp:
    """All that the program's help says: its name, its version, itself, and its commands."""

    name: str
    version: str
    itself: CommandHelp
    commands: Tuple[CommandHelp, ...]


# What lines say


def lines_of(place: str, text: str) -> List[Line]:
    """The lines of a help text."""
    pieces = ((number, it.rstrip()) for number, it in enumerate(text.splitlines(), 1))
    return [Line(f"{place}, line {number}", len(it) - len(it.lstrip()), it.strip()) for number, it in pieces]


def entries_of(lines: Sequence[Line]) -> List[Entry]:
    """The entries of a section. An entry has an indent of two, or of six if it has a long name only; a line with a
    greater one goes on with the entry before it."""
    entries: List[Entry] = []
    for line in lines:
        if line.indent == 2 or (line.indent == 6 and line.text.startswith("--")):
            term, *text = re.split(r" {2,}", line.text, maxsplit=1)
            entries.append(Entry(line.place, term, tuple(text)))
        elif line.text and (line.indent < 6 or not entries):
            raise HelpError(f"{line.place}: neither an entry nor the text of one: {line.text}")
        elif entries:
            entries[-1] = entries[-1]._replace(text=(*entries[-1].text, line.text))
    return entries


def joined(lines: Sequence[str]) -> str:
    """The text of an entry in one line, without the list of values that stands below it."""
    kept = [it for it in lines if it and it != "Possible values:" and not it.startswith("- ")]
    return " ".join(kept)


def list_of_names(text: str) -> Tuple[str, ...]:
    """The names of a list such as `a, b or c`, in which several words say what the name before them is; nothing if it
    is no list."""
    found = re.fullmatch(r"(.+?),? or (\S+)", text)
    if not found:
        return (text,) if NAME.fullmatch(text) else ()
    first, *more = found[1].split(", ")
    names = [first, *(it for it in more if " " not in it), found[2]]
    return tuple(names) if all(NAME.fullmatch(it) for it in names) else ()


def values_of(value: str, lines: Sequence[str]) -> Tuple[str, ...]:
    """The values that an option has names for: a list that clap writes, a list behind a colon, or `VALUE is ..`."""
    listed = [re.match(r"- ([^\s:]+)", it) for it in lines]
    if any(listed):
        return tuple(it[1] for it in listed if it)
    text = joined(lines)
    found = re.search(r"\[possible values: ([^\]]+)\]", text)
    if found:
        return tuple(found[1].split(", "))
    text = re.sub(r" *(\[[a-z ]+: [^\]]*\]|\([^)]*\))", "", text)
    behind_colon = re.search(r": ([^:;]+ or [^:;]+?)(?:;|\.?$)", text)
    found = behind_colon or re.search(rf"\b{re.escape(value)} is ([^:;]+?)(?:;|\.?$)", text)
    return list_of_names(found[1]) if found else ()


def option_of(entry: Entry) -> Option:
    """The option of an entry."""
    found = OPTION.fullmatch(entry.term)
    if not found:
        raise HelpError(f"{entry.place}: no option such as -o, --option <VALUE>: {entry.term}")
    text = joined(entry.text)
    aliases = re.search(r"\[alias(?:es)?: ([^\]]+)\]", text)
    names = (*found["names"].split(", "), *(aliases[1].split(", ") if aliases else ()))
    value = re.sub(r"[\[\]<>=]", "", found["value"]).strip()
    values = values_of(value, entry.text) if value else ()
    for it in (it for it in values if not NAME.fullmatch(it)):
        raise HelpError(f"{entry.place}: a value that would have to be quoted in a shell: {it}")
    is_file = bool(value) and (value in FILES or bool(re.search(r"\b(file|directory|folder)\b", text)))
    is_optional = found["value"].startswith("[")
    return Option(names, value, text, values, is_file and not values, is_optional, bool(found["more"]))


def argument_of(entry: Entry) -> Argument:
    """The argument of an entry."""
    found = ARGUMENT.fullmatch(entry.term)
    if not found:
        raise HelpError(f"{entry.place}: no argument such as [NAME] or <NAME>: {entry.term}")
    return Argument(found["may"] or found["must"], entry.term, joined(entry.text), bool(found["more"]))


def commands_of(entries: Sequence[Entry]) -> Dict[str, str]:
    """The commands of a section, and what each does."""
    for entry in entries:
        if not NAME.fullmatch(entry.term):
            raise HelpError(f"{entry.place}: no name of a command: {entry.term}")
    return {it.term: joined(it.text) for it in entries}


# What a text says


class Part(NamedTuple):
    """A heading, and the lines below it."""

    heading: str
    lines: List[Line]


def parts_of(lines: Sequence[Line]) -> List[Part]:
    """The parts of a text. What stands before the first heading has none; `Usage:` is one with its lines behind it."""
    parts = [Part("", [])]
    for line in lines:
        usage = re.fullmatch(r"Usage: (.+)", line.text)
        if line.indent == 0 and usage:
            parts.append(Part("Usage", [line._replace(text=usage[1])]))
        elif line.indent == 0 and re.fullmatch(r"[A-Z][\w ]*:", line.text):
            parts.append(Part(line.text[:-1], []))
        elif line.indent == 0 and line.text.startswith("-"):
            raise HelpError(f"{line.place}: an option without an indent: {line.text}")
        elif line.indent == 0 and line.text and parts[-1].heading:
            parts.append(Part("", [line]))
        else:
            parts[-1].lines.append(line)
    return parts


def shown(lines: Sequence[Line]) -> Tuple[str, ...]:
    """Lines as they stand, without an indent that all of them have, and without empty ones around them."""
    least = min((it.indent for it in lines if it.text), default=0)
    text = "\n".join(" " * (it.indent - least) + it.text if it.text else "" for it in lines)
    return tuple(text.strip("\n").splitlines())


def is_of_options(part: Part) -> bool:
    """Whether a part has options: below the heading `Options`, or below one of its own."""
    first = next((it for it in part.lines if it.text), None)
    return part.heading == "Options" or (first is not None and bool(OPTION.match(first.text)))


def command_help(place: str, name: str, text: str) -> CommandHelp:
    """What a help text says of the command of this name."""
    about, *parts = parts_of(lines_of(place, text))
    usage: Tuple[str, ...] = ()
    commands: Dict[str, str] = {}
    arguments: List[Argument] = []
    options: List[Option] = []
    passages: List[Passage] = []
    for part in parts:
        if part.heading == "Usage":
            usage = tuple(it.text for it in part.lines if it.text)
        elif part.heading == "Commands":
            commands.update(commands_of(entries_of(part.lines)))
        elif part.heading == "Arguments":
            arguments += [argument_of(it) for it in entries_of(part.lines)]
        elif is_of_options(part):
            options += [option_of(it) for it in entries_of(part.lines)]
        else:
            passages.append(Passage(part.heading, shown(part.lines)))
    if not usage or not shown(about.lines):
        raise HelpError(f"{place}: it doesn't begin with what the command does and a line `Usage: ..`")
    found = CommandHelp(name, shown(about.lines), usage, commands, tuple(arguments), tuple(options), tuple(passages))
    compare_with_usage(place, found)
    return found


def compare_with_usage(place: str, found: CommandHelp) -> None:
    """Compares the line of usage with the sections: what it names stands in one of them."""
    names = {name for it in found.options for name in it.names} | {it.name for it in found.arguments}
    names |= {it.value for it in found.options} | {"OPTIONS", "COMMAND"}
    for name in re.findall(r"(?<![\w-])--?\w[\w-]*|(?<=[<\[])[\w-]+(?=[>\]])", " ".join(found.usage)):
        if name not in names:
            raise HelpError(f"{place}: the line of usage has {name}, and no section has it")


# What a program says


def said(program: str, *arguments: str) -> str:
    """What the program writes to standard output, with status 0."""
    command = " ".join(("casbench", *arguments))
    try:
        how = {"stdin": subprocess.DEVNULL, "capture_output": True, "text": True, "timeout": SECONDS}
        ran = subprocess.run([program, *arguments], check=False, **how)
    except (OSError, subprocess.TimeoutExpired, UnicodeDecodeError) as fault:
        raise HelpError(f"{command}: {fault}") from fault
    if ran.returncode or not ran.stdout:
        raise HelpError(f"{command}: status {ran.returncode}, {ran.stderr.strip() or 'and no help'}")
    return ran.stdout


def program_help(program: str) -> ProgramHelp:
    """Asks the program for its help, and for that of each command."""
    version = re.fullmatch(r"(\S+) (\S+)\n", said(program, "--version"))
    if not version or not NAME.fullmatch(version[1]):
        raise HelpError("casbench --version: no name and number, such as casbench 0.1.0")
    itself = command_help("casbench --help", "", said(program, "--help"))
    if not itself.commands:
        raise HelpError("casbench --help: it has no section `Commands:`")
    commands = tuple(command_help(f"casbench help {it}", it, said(program, "help", it)) for it in itself.commands)
    for it in commands:
        if it.commands:
            raise HelpError(f"casbench help {it.name}: it has commands of its own, for which no completion is made")
    return ProgramHelp(version[1], version[2], itself, commands)
