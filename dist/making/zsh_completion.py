"""The completion of zsh."""

from typing import Iterator

from .command_help import Argument, CommandHelp, Option, ProgramHelp

HEAD = """\
#compdef PROGRAM
# Completion of PROGRAM in zsh. Made by dist/make-share from the help of the program.

_PROGRAM_commands() {
    local -a commands=(
"""

FIRST = """\
    )
    _describe -t commands command commands
}

_PROGRAM() {
    local curcontext=$curcontext state line
    typeset -A opt_args
    _arguments -C -S \\
"""

REST = """\
        '1: :_PROGRAM_commands' '*:: :->arguments' && return
    case $words[1] in
"""

TAIL = """\
    esac
}

if [[ $funcstack[1] == _PROGRAM ]]; then
    _PROGRAM "$@"
else
    compdef _PROGRAM PROGRAM
fi
"""


def quoted(text: str) -> str:
    """A text in single quotes."""
    return "'" + text.replace("'", "'\\''") + "'"


def marked(text: str) -> str:
    """A text in which the signs that part a specification are taken as they are."""
    for sign in "\\[]:":
        text = text.replace(sign, f"\\{sign}")
    return text


def action_of(option: Option) -> str:
    """How the value of an option is completed; with a blank a message says what it is."""
    if option.values:
        return f"({' '.join(option.values)})"
    return "_files" if option.is_file else " "


def option_specification(option: Option) -> str:
    """The specification of an option. One that asks for help or the version excludes all else."""
    before_value = "::" if option.is_optional else ":"
    value = f"{before_value}{marked(option.value)}:{action_of(option)}" if option.value else ""
    is_last = {"--help", "--version"} & set(option.names)
    prefix = "(- *)" if is_last else "*" if option.is_repeated else ""
    if len(option.names) > 1 and not prefix:
        prefix = f"({' '.join(option.names)})"
    sign = "=-" if option.is_optional else "="
    names = [f"{it}{sign}" if value and it.startswith("--") else it for it in option.names]
    shown = f"{{{','.join(names)}}}" if len(names) > 1 else names[0]
    before = quoted(prefix) if prefix else ""
    return f"{before}{shown}{quoted(f'[{marked(option.text)}]{value}')}"


def argument_specification(argument: Argument, name: str) -> str:
    """The specification of an argument of the program of this name: a command, or a file."""
    many = "*" if argument.is_repeated and not argument.is_command else ""
    return quoted(f"{many}:{marked(argument.name)}:{f'_{name}_commands' if argument.is_command else '_files'}")


def command_lines(command: CommandHelp, name: str) -> Iterator[str]:
    """The lines of a command in the choice between them."""
    rows = [option_specification(it) for it in command.options]
    rows += [argument_specification(it, name) for it in command.arguments]
    yield f"        {command.name})\n"
    yield "            _arguments -S \\\n"
    yield " \\\n".join(f"                {it}" for it in rows) + "\n"
    yield "            ;;\n"


def zsh_completion(program: ProgramHelp) -> str:
    """The text of the completion."""
    named = "".join(f"        {quoted(f'{name}:{marked(text)}')}\n" for name, text in program.itself.commands.items())
    own = "".join(f"        {option_specification(it)} \\\n" for it in program.itself.options)
    commands = "".join(line for it in program.commands for line in command_lines(it, program.name))
    head, first, rest, tail = (it.replace("PROGRAM", program.name) for it in (HEAD, FIRST, REST, TAIL))
    return head + named + first + own + rest + commands + tail
