#!/usr/bin/env python3
"""Makes the man page and the completions of the command nix-dispatch from what it says itself.

    tools/help.py [--check]

The program's own help says its commands and their options, the first lines of the farm's scripts (farm/build and so on)
say theirs. From these are written, below share/,

    man/man1/nix-dispatch.1
    bash-completion/completions/nix-dispatch
    zsh/site-functions/_nix-dispatch
    fish/vendor_completions.d/nix-dispatch.fish

With --check nothing is written: it says which of them aren't what would be written now, with the lines that differ, and
which option a script of the farm takes and doesn't tell. NIX_DISPATCH names the program; else it is the one that ./build
makes. The status is 0, 1 where something differs, 2 where the command line isn't understood or there is no program.
"""

import difflib
import os
import sys
from typing import Dict, List, Sequence

TOP = os.path.dirname(os.path.dirname(os.path.abspath(__file__)))
sys.path[:0] = [os.path.join(TOP, "tools"), os.path.join(TOP, "farm")]

from nix_farm import options  # noqa: E402  (the packages lie beside this file, and in the farm)
from pages import completions, manual  # noqa: E402
from pages.commands import Command, NoHelp, farm_commands, program_commands  # noqa: E402


def made_pages(program: str) -> Dict[str, str]:
    """What is to stand in each file below share/."""
    about, own = program_commands(program)
    farm = farm_commands(os.path.join(TOP, "farm"))
    every = own + farm
    return {
        "man/man1/nix-dispatch.1": manual.page(about, own, farm),
        "bash-completion/completions/nix-dispatch": completions.for_bash(every),
        "zsh/site-functions/_nix-dispatch": completions.for_zsh(every),
        "fish/vendor_completions.d/nix-dispatch.fish": completions.for_fish(every),
    }


def untold_options(farm: Sequence[Command]) -> List[str]:
    """The options that farm/build takes, and doesn't tell; and those that it tells and doesn't take."""
    taken = {*options.known(), "-h", "--help"}
    told = {name for command in farm if command.name == "build" for option in command.options for name in option.names}
    missing = [f"farm/build takes {name}, and its first lines don't say so" for name in sorted(taken - told)]
    return missing + [f"farm/build doesn't take {name}, and its first lines tell it" for name in sorted(told - taken)]


def differences(pages: Dict[str, str]) -> List[str]:
    """The lines by which the files differ from what they are to be."""
    lines: List[str] = []
    for name, text in pages.items():
        try:
            with open(os.path.join(TOP, "share", name), encoding="utf-8") as file:
                kept = file.read()
        except OSError:
            kept = ""
        rows = (it.splitlines(keepends=False) for it in (kept, text))
        lines += difflib.unified_diff(*rows, f"share/{name}", f"share/{name}, as it is to be", lineterm="", n=0)
    return lines


def write(pages: Dict[str, str]) -> None:
    for name, text in pages.items():
        path = os.path.join(TOP, "share", name)
        os.makedirs(os.path.dirname(path), exist_ok=True)
        with open(path, "w", encoding="utf-8") as file:
            file.write(text)


def main(words: Sequence[str]) -> int:
    if list(words) not in ([], ["--check"]):
        print(__doc__, end="", file=sys.stderr)
        return 2
    program = os.environ.get("NIX_DISPATCH") or os.path.join(TOP, "crates", "nix_dispatch", "out", "nix_dispatch")
    try:
        pages = made_pages(program)
    except NoHelp as error:
        print(f"help: {error}", file=sys.stderr)
        return 2
    if not words:
        write(pages)
        return 0
    wrong = untold_options(farm_commands(os.path.join(TOP, "farm"))) + differences(pages)
    for line in wrong:
        print(line)
    print("help: tools/help.py makes them anew" if wrong else f"help: {len(pages)} files are as the commands say")
    return 1 if wrong else 0


if __name__ == "__main__":
    sys.exit(main(sys.argv[1:]))
