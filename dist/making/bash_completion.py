"""The completion of bash."""

from typing import Iterator, Sequence

from .command_help import CommandHelp, Option, ProgramHelp

HEAD = """\
# Completion of PROGRAM in bash. Made by dist/make-share from the help of the program.

# Sets `options`, the names of each option of a command joined by commas, a plus before those that may come again;
# and how many files its arguments are, `most_files`, or `arguments`, if they are names. Without a command these are
# those of the program.
_PROGRAM_describe() {
    case $1 in
"""

VALUES = """\
    esac
}

# Sets `kind`, what the value of a command's option is: a name, which stands in `names`, a file or another text; or
# nothing, if it has none. `is_attached` is set if the value may only come behind an equals sign.
_PROGRAM_describe_value() {
    case "$1 $2" in
"""

TAIL = r"""        *) kind= ;;
    esac
}

# Takes a word before the one that is completed.
_PROGRAM_take() {
    if [[ $is_target ]]; then
        is_target=
    elif [[ $1 == *[\<\>]* ]]; then
        is_target=yes
    elif [[ $option ]]; then
        if [[ $1 == = ]]; then
            is_attached=
            return
        fi
        option=
        if [[ $is_attached ]]; then
            is_attached=
            _PROGRAM_take "$1"
        fi
    elif [[ $is_ended ]]; then
        files=$((files + 1))
    elif [[ $1 == -- ]]; then
        is_ended=yes
    elif [[ $1 == -* ]]; then
        given+="${1%%=*} "
        _PROGRAM_describe_value "$command" "$1"
        [[ $kind ]] && option=$1
    elif [[ $command ]]; then
        files=$((files + 1))
    else
        command=$1
    fi
}

# Sets `names` to those of the options that were not given.
_PROGRAM_options_left() {
    local group name
    names=
    for group in $options; do
        for name in ${group//,/ }; do # (with a plus it is none of those that were given)
            [[ $given == *" $name "* ]] && continue 2
        done
        names+="${group//[,+]/ } "
    done
    kind=name
}

_PROGRAM() {
    local IFS=$' \t\n' current=${COMP_WORDS[COMP_CWORD]} given=' ' files=0 most_files=0 at
    local command= option= options= arguments= kind= names= is_attached= is_ended= is_target=
    COMPREPLY=()
    for ((at = 1; at < COMP_CWORD; at++)); do
        _PROGRAM_take "${COMP_WORDS[at]}"
    done
    _PROGRAM_describe "$command"
    kind=
    [[ $is_attached && $current != = ]] && option=
    if [[ $is_target ]]; then
        kind=file
    elif [[ $option ]]; then
        _PROGRAM_describe_value "$command" "$option"
        [[ $current == = ]] && current=
    elif [[ $current == -* && ! $is_ended ]]; then
        _PROGRAM_options_left
    elif [[ $arguments && $files -eq 0 ]]; then
        kind=name names=$arguments
    elif ((files < most_files)); then
        kind=file
    elif [[ ! $is_ended ]]; then
        _PROGRAM_options_left
    fi
    case $kind in
        name) mapfile -t COMPREPLY < <(compgen -W "$names" -- "$current") ;;
        file) compopt -o default ;;
    esac
}

complete -F _PROGRAM PROGRAM
"""

def words_of(command: CommandHelp, names: Sequence[str]) -> str:
    """What is set of a command: its options, how many files it takes, or the names that it takes."""
    groups = ([f"+{name}" if it.is_repeated else name for name in it.names] for it in command.options)
    options = " ".join(",".join(it) for it in groups)
    arguments = f"arguments='{' '.join(names)}'" if command.takes_command else f"most_files={command.most_files}"
    return f"options='{options}' {arguments}"


def kind_of(option: Option) -> str:
    """What is set of an option's value."""
    kind = f"name names='{' '.join(option.values)}'" if option.values else "file" if option.is_file else "text"
    return f"kind={kind}" + (" is_attached=yes" if option.is_optional else "")


def value_lines(command: CommandHelp) -> Iterator[str]:
    """The lines of the options of a command that have a value."""
    for it in (it for it in command.options if it.value):
        patterns = " | ".join(f"'{command.name} {name}'" for name in it.names)
        yield f"        {patterns}) {kind_of(it)} ;;\n"


def bash_completion(program: ProgramHelp) -> str:
    """The text of the completion."""
    names = [it.name for it in program.commands]
    everything = (program.itself, *program.commands)
    described = "".join(f"        '{it.name}') {words_of(it, names)} ;;\n" for it in everything)
    values = "".join(line for it in everything for line in value_lines(it))
    head, between, tail = (it.replace("PROGRAM", program.name) for it in (HEAD, VALUES, TAIL))
    return head + described + between + values + tail
