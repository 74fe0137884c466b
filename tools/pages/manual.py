"""The man page, as groff reads it."""

import re
from typing import List, Sequence

from .commands import Command, Option, parts_of, rows_of

_STATUS = """\
0    done
1    something failed or was cancelled, in a simulation, a run, a session or a build
2    the command line isn't understood
3    an input is refused, or can't be gathered
4    a history is not legal
5    a device, a file, a journal or the memory failed, or a run ended with a fault
127    there is no program, nothing that it runs by, or no Python for the commands that need it"""

_ENVIRONMENT = """\
NIX_DISPATCH    the program that build calls, in place of the one that is installed
NIX_REMOTE    the store of this machine that build and gather are about, as for Nix"""

_FILES = """\
/etc/nix/machines    the builders list of this machine: build goes by Nix's setting `builders`, which names it
../share/doc/nix-dispatch    beside the folder of the command: README.md, the documents and an example"""


def _plain(text: str) -> str:
    """A text as groff writes it out as it is; what stands between backticks is bold."""
    text = text.replace("\\", "\\e").replace("-", "\\-")
    text = re.sub(r"`([^`]*)`", r"\\fB\1\\fR", text)
    return "\\&" + text if text[:1] in (".", "'") else text


def _row(left: str, about: str) -> List[str]:
    return [".TP", f".B {_plain(left)}", _plain(about)]


def _option(option: Option) -> List[str]:
    value = f" {option.value}" if option.value else ""
    return _row(", ".join(option.names) + value, option.about)


def _program_command(command: Command) -> List[str]:
    lines = [f".SS {command.name}", _plain(command.about) + ".", ".PP", f".B {_plain(command.usage)}"]
    return lines + [line for option in command.options for line in _option(option)]


def _farm_command(command: Command) -> List[str]:
    """The first lines of a script: paragraphs that groff fills, rows, and lines as they are."""
    lines = [f".SS {command.name}"]
    for at, part in enumerate(parts_of(command.text)):
        if not part[0].startswith("    "):
            lines += [".PP"] * (at > 0) + [_plain(" ".join(part))]
        elif "  " in part[0].strip():
            lines += [line for row in rows_of(part) for line in _row(*row)]
        else:
            lines += [".PP", ".nf", *(f".B {_plain(line.strip())}" for line in part), ".fi"]
    return lines


def _table(text: str) -> List[str]:
    return [line for row in text.splitlines() for line in _row(*row.split("    "))]


def page(about: str, own: Sequence[Command], farm: Sequence[Command]) -> str:
    """The man page of the program with this first line, of its commands and of the farm's."""
    lines = [
        '.\\" tools/help.py makes this page from what the commands say.',
        ".TH NIX\\-DISPATCH 1",
        ".SH NAME",
        f"nix\\-dispatch \\- {_plain(about[0].lower() + about[1:])}",
        ".SH SYNOPSIS",
        ".B nix\\-dispatch",
        ".I COMMAND",
        "[\\fIOPTION\\fR ..]",
        ".PP",
        ".B nix\\-dispatch help",
        "[\\fICOMMAND\\fR]",
        ".PP",
        ".B nix\\-dispatch \\-\\-version",
        ".SH COMMANDS THAT BUILD ON YOUR MACHINES",
        "They need Python 3.9 or later, and Nix.",
        *(line for command in farm for line in _farm_command(command)),
        ".SH COMMANDS OVER A BUNDLE",
        "They need neither.",
        *(line for command in own for line in _program_command(command)),
        ".SH EXIT STATUS",
        *_table(_STATUS),
        ".SH ENVIRONMENT",
        *_table(_ENVIRONMENT),
        ".SH FILES",
        *_table(_FILES),
        ".SH SEE ALSO",
        ".BR nix\\-build (1),",
        ".BR nix\\-store (1),",
        ".BR nix.conf (5)",
    ]
    return "\n".join(lines) + "\n"
