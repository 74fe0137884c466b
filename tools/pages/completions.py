"""The completions of bash, zsh and fish."""

from typing import Iterable, List, Sequence

from .commands import Command, Option

_MADE = "# tools/help.py makes this file from what the commands say."


def _kind(value: str) -> str:
    """What is completed for a value: `builders`, `files`, `folders` or `drvs`, or nothing where it isn't known."""
    if value == "ROOT.drv":
        return "drvs"
    kinds = {"TEXT": "builders", "@FILE": "builders", "FILE": "files", "FOLDER": "folders", "OUT": "folders"}
    return kinds.get(value, "")


def _names(options: Iterable[Option]) -> List[str]:
    return [name for option in options for name in option.names]


def _quoted(text: str) -> str:
    """A word of a shell."""
    return "'" + text.replace("'", "'\\''") + "'"


# bash

_BASH_HEAD = """\
_nix_dispatch_files() {
    local IFS=$'\\n'
    compopt -o filenames 2> /dev/null
    COMPREPLY=($(compgen "$@" -- "$cur"))
}

_nix_dispatch() {
    local cur=${COMP_WORDS[COMP_CWORD]} before=${COMP_WORDS[COMP_CWORD - 1]}
    COMPREPLY=()
    # bash takes the @ of a builders list's file for a word of its own
    if [ "$cur" = @ ] || [ "$before" = @ ]; then
        cur=${cur#@}
        _nix_dispatch_files -f
        return
    fi
"""

_BASH_FILES = {
    "builders": ":", "files": "_nix_dispatch_files -f", "folders": "_nix_dispatch_files -d", "": ":",
    "drvs": "_nix_dispatch_files -f -o plusdirs -X '!*.drv'",
}


def _bash_words(words: str) -> str:
    return f'COMPREPLY=($(compgen -W {_quoted(words)} -- "$cur"))'


def _bash_command(command: Command) -> List[str]:
    """The case of a command: the values of its options, its options, and what else it takes."""
    cases = {}
    for option in command.options:
        if option.value:
            cases.setdefault(_BASH_FILES[_kind(option.value)], []).extend(option.names)
    rest = _BASH_FILES[_kind(command.takes)]
    return [
        f"        {command.name})",
        "            case $before in",
        *(f"                {' | '.join(names)}) {does} ;;" for does, names in cases.items()),
        f"                *) case $cur in -*) {_bash_words(' '.join(_names(command.options)))} ;; *) {rest} ;; esac ;;",
        "            esac",
        "            ;;",
    ]


def for_bash(commands: Sequence[Command]) -> str:
    names = " ".join(command.name for command in commands)
    lines = [
        '    if [ "$COMP_CWORD" -eq 1 ]; then',
        f"        {_bash_words(names + ' help --help --version')}",
        "        return",
        "    fi",
        "    case ${COMP_WORDS[1]} in",
        *(line for command in commands for line in _bash_command(command)),
        f"        help) {_bash_words(names)} ;;",
        "    esac",
        "}",
        "",
        "complete -F _nix_dispatch nix-dispatch",
    ]
    return f"{_MADE}\n\n{_BASH_HEAD}" + "\n".join(lines) + "\n"


# zsh

_ZSH_REST = {
    "builders": "_nix_dispatch_builders", "files": "_files", "folders": "_files -/", "drvs": '_files -g "*.drv"', "": "",
}


def _zsh_about(text: str) -> str:
    return text.replace("\\", "\\\\").replace("[", "\\[").replace("]", "\\]").replace(":", "\\:")


def _zsh_option(option: Option) -> List[str]:
    """The words for `_arguments`: each name leaves the others out."""
    values = "".join(f":{value.lstrip('@')}:{_ZSH_REST[_kind(value)]}" for value in option.value.split())
    others = f"({' '.join(option.names)})" if len(option.names) > 1 else ""
    return [_quoted(f"{others}{name}[{_zsh_about(option.about)}]{values}") for name in option.names]


def _zsh_command(command: Command) -> List[str]:
    words = [word for option in command.options for word in _zsh_option(option)]
    takes = command.takes.strip("<>")
    if takes:
        words.append(_quoted(f"*:{takes}:{_ZSH_REST[_kind(takes)]}"))
    lines = " \\\n".join(f"                {word}" for word in words)
    return [f"        {command.name})", "            _arguments \\", lines, "            ;;"]


def for_zsh(commands: Sequence[Command]) -> str:
    every = [*((command.name, command.about) for command in commands), ("help", "Says how a command is called")]
    lines = [
        "#compdef nix-dispatch",
        _MADE,
        "",
        "_nix_dispatch_builders() {",
        "    if compset -P @; then _files; else _message 'the builders list, or @FILE'; fi",
        "}",
        "",
        "_nix_dispatch() {",
        "    local -a commands",
        "    commands=(",
        *("        " + _quoted(f"{name}:{about}") for name, about in every),
        "    )",
        "    if (( CURRENT == 2 )) || [[ $words[2] == help ]]; then",
        "        _describe -t commands command commands",
        "        return",
        "    fi",
        "    shift words",
        "    (( CURRENT-- ))",
        "    case $words[1] in",
        *(line for command in commands for line in _zsh_command(command)),
        "    esac",
        "}",
        "",
        '_nix_dispatch "$@"',
    ]
    return "\n".join(lines) + "\n"


# fish

_FISH_FIRST = "complete -c nix-dispatch -n __fish_use_subcommand"
_FISH_REST = {
    "builders": "-r -F", "files": "-r -F", "folders": "-x -a '(__fish_complete_directories)'", "": "-x",
    "drvs": "-a '(__fish_complete_suffix .drv)'",
}


def _fish_quoted(text: str) -> str:
    return "'" + text.replace("\\", "\\\\").replace("'", "\\'") + "'"


def _fish_command(command: Command) -> List[str]:
    head = f"complete -c nix-dispatch -n '__fish_seen_subcommand_from {command.name}'"
    lines = []
    for option in command.options:
        names = " ".join(f"-l {name[2:]}" if name.startswith("--") else f"-s {name[1:]}" for name in option.names)
        value = [_FISH_REST[_kind(option.value)]] if option.value else []
        lines.append(" ".join([head, names, *value, "-d", _fish_quoted(option.about)]))
    kind = _kind(command.takes)
    if kind == "drvs":
        lines.append(f"{head} {_FISH_REST[kind]}")
    elif kind == "folders":
        lines.append(f"{head} -a '(__fish_complete_directories)'")
    return lines


def for_fish(commands: Sequence[Command]) -> str:
    every = [*((command.name, command.about) for command in commands), ("help", "Says how a command is called")]
    names = " ".join(command.name for command in commands)
    lines = [
        _MADE,
        "",
        "complete -c nix-dispatch -f",
        *(f"{_FISH_FIRST} -a {name} -d {_fish_quoted(about)}" for name, about in every),
        f"complete -c nix-dispatch -n '__fish_seen_subcommand_from help' -a {_fish_quoted(names)}",
        f"{_FISH_FIRST} -s h -l help -d 'Says the commands'",
        f"{_FISH_FIRST} -s V -l version -d 'Says version, commit and logic'",
        *(line for command in commands for line in _fish_command(command)),
    ]
    return "\n".join(lines) + "\n"
