"""The completion of fish."""

from typing import Iterator

from .command_help import CommandHelp, Option, ProgramHelp

HEAD = """\
# Completion of PROGRAM in fish. Made by dist/make-share from the help of the program.

# Whether this is the command, which is the first word; without an argument, whether there is none yet.
function __PROGRAM_is
    set -l given (commandline -opc)
    test "$given[2]" = "$argv[1]"
end

# Whether this is the command, and options may still come, but none of these names was given; an option with a `value`
# may be the word before.
function __PROGRAM_lacks -a command kind
    set -l given (commandline -opc)
    __PROGRAM_is $command; and not contains -- -- $given; or return
    test $kind = value; and contains -- $given[-1] $argv[3..]; and set given $given[1..-2]
    for name in $argv[3..]
        string match -q -- $name $given; and return 1
        string match -q -- "$name=*" $given; and return 1
    end
    return 0
end

# Whether this is the command, and a file may come: fewer than `most` were given, and the word before is no option with
# a value, of which the names stand behind it.
function __PROGRAM_wants -a command most
    __PROGRAM_is $command; or return
    set -l given (commandline -opc)
    set -l valued $argv[3..]
    set -l files 0
    set -l is_value no
    set -l is_ended no
    for word in $given[3..]
        if test $is_value = yes
            set is_value no
        else if test $is_ended = no; and test "$word" = --
            set is_ended yes
        else if test $is_ended = no; and string match -q -- '-*' $word
            contains -- $word $valued; and set is_value yes
        else
            set files (math $files + 1)
        end
    end
    test $is_value = no; and test $files -lt $most
end

complete -c PROGRAM -f
"""

def quoted(text: str) -> str:
    """A text in single quotes."""
    return "'" + text.replace("\\", "\\\\").replace("'", "\\'") + "'"


def option_line(name: str, command: CommandHelp, option: Option) -> str:
    """The line of an option, in the program of this name."""
    kind = "value" if option.value else "flag"
    once = () if option.is_repeated else option.names
    condition = " ".join((f"__{name}_lacks", command.name or '""', kind, *once))
    names = " ".join(f"-l {it[2:]}" if it.startswith("--") else f"-s {it[1:]}" for it in option.names)
    value = ""
    if option.values:
        value = f" {'-f' if option.is_optional else '-x'} -a {quoted(' '.join(option.values))}"
    elif option.value and not option.is_optional:
        value = " -r -F" if option.is_file else " -x"
    return f"complete -c {name} -n {quoted(condition)} {names}{value} -d {quoted(option.text)}\n"


def argument_lines(program: ProgramHelp, command: CommandHelp) -> Iterator[str]:
    """The lines of the arguments of a command: names of commands, or files."""
    valued = [name for it in command.options if it.value and not it.is_optional for name in it.names]
    if command.name and command.takes_command:
        condition = f"__{program.name}_wants {command.name} 1"
        names = " ".join(it.name for it in program.commands)
        yield f"complete -c {program.name} -n {quoted(condition)} -a {quoted(names)}\n"
    elif command.name and command.most_files:
        condition = " ".join((f"__{program.name}_wants", command.name, str(command.most_files), *valued))
        yield f"complete -c {program.name} -n {quoted(condition)} -F\n"


def fish_completion(program: ProgramHelp) -> str:
    """The text of the completion."""
    lines = [HEAD.replace("PROGRAM", program.name)]
    for name, text in program.itself.commands.items():
        condition = f"__{program.name}_is \"\""
        lines.append(f"complete -c {program.name} -n {quoted(condition)} -a {name} -d {quoted(text)}\n")
    for command in (program.itself, *program.commands):
        lines += [option_line(program.name, command, it) for it in command.options]
        lines += argument_lines(program, command)
    return "".join(lines)
