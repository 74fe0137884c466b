"""The commands of nix-dispatch with their options, as its help and the first lines of the farm's scripts say them."""

import ast
import os
import re
import subprocess
from dataclasses import dataclass, field
from typing import Dict, List, Tuple

# The scripts of the farm that are commands, in the order in which they are told.
FARM = ("build", "control", "gather", "status", "watch")


class NoHelp(Exception):
    """The program doesn't say its help, or in another form."""


@dataclass
class Option:
    """An option: its names, what its value is called (empty where it takes none), and what it is for."""

    names: List[str]
    value: str
    about: str


@dataclass
class Command:
    """A command: its first line, how it is called, its options, what else it takes, and the text of its help."""

    name: str
    about: str
    usage: str
    options: List[Option] = field(default_factory=list)
    takes: str = ""
    text: str = ""


def _said(program: str, *words: str) -> str:
    try:
        ran = subprocess.run([program, *words], stdin=subprocess.DEVNULL, stdout=subprocess.PIPE, text=True, check=True)
    except (OSError, subprocess.CalledProcessError) as error:
        raise NoHelp(f"{program} doesn't say its help: ./build makes it") from error
    return ran.stdout


def _section(text: str, name: str) -> List[Tuple[str, str]]:
    """The rows of a section: the left column, and the right one."""
    found = re.search(rf"^{name}:\n((?:  .*\n)+)", text, re.MULTILINE)
    rows = (re.split(r" {2,}", row.strip(), maxsplit=1) for row in (found.group(1).splitlines() if found else []))
    return [(row[0], row[1] if len(row) > 1 else "") for row in rows]


def _usage(text: str) -> str:
    found = re.search(r"^Usage: (.*)$", text, re.MULTILINE)
    if not found:
        raise NoHelp("the program's help has no usage")
    return found.group(1)


def _option(left: str, about: str) -> Option:
    """An option by the program's row of it, as `-h, --help` or `--bundle <FILE>`."""
    names = re.findall(r"(?<![\w-])--?[a-zA-Z][\w-]*", left)
    value = re.search(r"<(.*?)>", left)
    return Option(names, value.group(1) if value else "", about)


def program_commands(program: str) -> Tuple[str, List[Command]]:
    """The program's first line, and its commands but `help`."""
    whole = _said(program, "help")
    commands = []
    for name, about in _section(whole, "Commands"):
        if name != "help":
            text = _said(program, "help", name)
            options = [_option(*row) for row in _section(text, "Options")]
            arguments = " ".join(left for left, _ in _section(text, "Arguments"))
            commands.append(Command(name, about, _usage(text), options, arguments, text))
    if not commands:
        raise NoHelp("the program's help has no commands")
    return whole.partition("\n")[0], commands


def rows_of(lines: List[str]) -> List[Tuple[str, str]]:
    """The rows of an indented part of a script's first lines: what stands left, and what is said of it, which goes on in
    lines that are indented further."""
    rows: List[Tuple[str, str]] = []
    for line in lines:
        left, _, right = line[4:].partition("  ")
        if left.strip():
            rows.append((left, right.strip()))
        else:
            rows[-1] = (rows[-1][0], f"{rows[-1][1]} {right.strip()}".strip())
    return rows


def parts_of(text: str) -> List[List[str]]:
    """The parts of a text between empty lines, each its lines."""
    return [part.splitlines() for part in re.split(r"\n{2,}", text.strip("\n"))]


def _script_options(left: str, about: str) -> List[Option]:
    """The options of a row of a script's first lines. `--jobs N (-j, --max-jobs)` is one with further names."""
    options: Dict[str, Option] = {}
    for part in re.split(r", (?![^(]*\))", left):
        names = re.findall(r"(?<![\w-])--?[a-zA-Z][a-z-]*", part)
        value = re.search(r" (@?[A-Z][A-Z ]*)", part.partition("(")[0])
        options.setdefault(names[0], Option(names, value.group(1).strip() if value else "", about))
    return list(options.values())


def farm_commands(folder: str) -> List[Command]:
    """The commands of the farm that there are."""
    commands = []
    for name in FARM:
        script = os.path.join(folder, name)
        if not os.path.exists(script):
            continue
        with open(script, encoding="utf-8") as file:
            text = ast.get_docstring(ast.parse(file.read())) or ""
        about, usage, *parts = parts_of(text)
        rows = [row for part in parts if part[0].startswith("    -") for row in rows_of(part)]
        options = [option for row in rows for option in _script_options(*row)]
        options.append(Option(["-h", "--help"], "", "Says all of this"))
        takes = re.findall(r"[A-Z]+(?:\.drv)?", usage[0]) or [""]
        commands.append(Command(name, " ".join(about).rstrip("."), usage[0].strip(), options, takes[-1], text))
    return commands
